// What rav1e's own files ask of the rest of its crate and of crates beside it, as far as samples and numbers go, and no more.

mod cpu_features {
    #[derive(Copy, Clone, Debug, Default)]
    pub struct CpuFeatureLevel;
}

mod num_traits {
    pub trait AsPrimitive<U: Copy + 'static>: Copy + 'static {
        fn as_(self) -> U;
    }
    macro_rules! as_primitive {
        ($($t:ty),*) => { $( as_primitive!(@ $t => u8, u16, u32, i16, i32, i64, usize, isize); )* };
        (@ $t:ty => $($u:ty),*) => { $( impl AsPrimitive<$u> for $t { #[inline(always)] fn as_(self) -> $u { self as $u } } )* };
    }
    as_primitive!(u8, u16, u32, i16, i32, i64, usize, isize);

    pub trait ToPrimitive {
        fn to_i32(&self) -> Option<i32>;
        fn to_u32(&self) -> Option<u32>;
    }
    pub trait Zero {
        fn zero() -> Self;
    }
    macro_rules! samples {
        ($($t:ty),*) => { $(
            impl ToPrimitive for $t {
                #[inline(always)] fn to_i32(&self) -> Option<i32> { Some(*self as i32) }
                #[inline(always)] fn to_u32(&self) -> Option<u32> { Some(*self as u32) }
            }
            impl Zero for $t { fn zero() -> $t { 0 } }
        )* };
    }
    samples!(u8, u16);
}

mod util {
    pub use crate::num_traits::{AsPrimitive, ToPrimitive, Zero};
    use std::fmt::Debug;
    use std::mem::MaybeUninit;

    pub trait CastFromPrimitive<U>: Copy + 'static {
        fn cast_from(v: U) -> Self;
    }
    pub trait RegisteredPrimitive: Copy + 'static + AsPrimitive<u8> + AsPrimitive<u16> + AsPrimitive<u32> + AsPrimitive<i16>
        + AsPrimitive<i32> + AsPrimitive<usize> + AsPrimitive<isize> {}
    macro_rules! registered { ($($t:ty),*) => { $( impl RegisteredPrimitive for $t {} )* }; }
    registered!(u8, u16, u32, i16, i32);
    macro_rules! cast_from {
        ($($t:ty),*) => { $(
            impl<U: RegisteredPrimitive> CastFromPrimitive<U> for $t { #[inline(always)] fn cast_from(v: U) -> $t { v.as_() } }
        )* };
    }
    cast_from!(u8, u16, u32, i16, i32, usize, isize);

    pub trait Coefficient: RegisteredPrimitive + Debug + CastFromPrimitive<i32> {}
    impl Coefficient for i16 {}
    impl Coefficient for i32 {}
    pub trait Pixel: RegisteredPrimitive + Ord + Debug + Into<u32> + Into<i32> + ToPrimitive + Zero + CastFromPrimitive<u8>
        + CastFromPrimitive<u16> + CastFromPrimitive<u32> + CastFromPrimitive<i32> {
        type Coeff: Coefficient;
    }
    impl Pixel for u8 {
        type Coeff = i16;
    }
    impl Pixel for u16 {
        type Coeff = i32;
    }

    #[inline(always)]
    pub fn round_shift(value: i32, bit: usize) -> i32 {
        (value + (1 << bit >> 1)) >> bit
    }
    #[inline(always)]
    pub fn clamp<T: PartialOrd>(input: T, min: T, max: T) -> T {
        if input < min { min } else if input > max { max } else { input }
    }

    /// An array that begins where processors like it, which isn't asked for here.
    pub struct Aligned<T> {
        pub data: T,
    }
    impl<T, const N: usize> Aligned<[MaybeUninit<T>; N]> {
        pub fn uninit_array() -> Self {
            Aligned { data: [const { MaybeUninit::uninit() }; N] }
        }
    }
    /// # Safety
    ///
    /// Each entry was written.
    pub unsafe fn slice_assume_init_mut<T: Copy>(slice: &mut [MaybeUninit<T>]) -> &mut [T] {
        // SAFETY: both have the same layout, and the caller says that each entry was written.
        unsafe { &mut *(slice as *mut [MaybeUninit<T>] as *mut [T]) }
    }
    pub fn init_slice_repeat_mut<T: Copy>(slice: &mut [MaybeUninit<T>], value: T) -> &mut [T] {
        slice.fill(MaybeUninit::new(value));
        // SAFETY: each entry was written just above.
        unsafe { slice_assume_init_mut(slice) }
    }
}
