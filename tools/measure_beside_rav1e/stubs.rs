// What rav1e's own files ask of the rest of its crate, beside samples and numbers, and no more: planes, and regions that are whole planes.

mod context {
    pub const MI_SIZE_LOG2: usize = 2;
    pub const MV_LOW: i32 = -16384;
    pub const MV_UPP: i32 = 16384;
}

mod partition {
    #[rustfmt::skip]
    #[derive(Copy, Clone, Debug, PartialEq, Eq)]
    pub enum BlockSize {
        BLOCK_4X4, BLOCK_4X8, BLOCK_8X4, BLOCK_8X8, BLOCK_8X16, BLOCK_16X8, BLOCK_16X16, BLOCK_16X32, BLOCK_32X16, BLOCK_32X32,
        BLOCK_32X64, BLOCK_64X32, BLOCK_64X64, BLOCK_64X128, BLOCK_128X64, BLOCK_128X128, BLOCK_4X16, BLOCK_16X4, BLOCK_8X32,
        BLOCK_32X8, BLOCK_16X64, BLOCK_64X16,
    }
}

mod frame {
    use crate::util::Pixel;
    use std::ops::Index;

    #[derive(Clone, Copy)]
    pub struct PlaneConfig {
        pub stride: usize,
    }
    #[derive(Clone, Copy)]
    pub struct PlaneOffset {
        pub x: isize,
        pub y: isize,
    }
    /// Samples row by row, with no pads.
    pub struct Plane<T: Pixel> {
        pub data: Vec<T>,
        pub cfg: PlaneConfig,
    }
    impl<T: Pixel> Plane<T> {
        pub fn from_slice(samples: &[T], stride: usize) -> Self {
            Plane { data: samples.to_vec(), cfg: PlaneConfig { stride } }
        }
        pub fn slice(&self, po: PlaneOffset) -> PlaneSlice<'_, T> {
            PlaneSlice { plane: self, x: po.x, y: po.y }
        }
    }
    #[derive(Clone, Copy)]
    pub struct PlaneSlice<'a, T: Pixel> {
        pub plane: &'a Plane<T>,
        pub x: isize,
        pub y: isize,
    }
    impl<'a, T: Pixel> PlaneSlice<'a, T> {
        pub fn go_up(&self, i: usize) -> PlaneSlice<'a, T> {
            PlaneSlice { y: self.y - i as isize, ..*self }
        }
        pub fn go_left(&self, i: usize) -> PlaneSlice<'a, T> {
            PlaneSlice { x: self.x - i as isize, ..*self }
        }
    }
    impl<T: Pixel> Index<usize> for PlaneSlice<'_, T> {
        type Output = [T];
        fn index(&self, r: usize) -> &[T] {
            let stride = self.plane.cfg.stride;
            let y = (self.y + r as isize) as usize;
            &self.plane.data[y * stride + self.x as usize..(y + 1) * stride]
        }
    }
}

mod tiling {
    use crate::frame::{Plane, PlaneConfig};
    use crate::util::Pixel;
    use std::ops::{Index, IndexMut};

    /// A whole plane, to read and write.
    pub struct PlaneRegionMut<'a, T: Pixel> {
        data: &'a mut [T],
        pub plane_cfg: &'a PlaneConfig,
    }
    impl<'a, T: Pixel> PlaneRegionMut<'a, T> {
        pub fn new(plane: &'a mut Plane<T>) -> Self {
            PlaneRegionMut { data: &mut plane.data, plane_cfg: &plane.cfg }
        }
        pub fn rows_iter_mut(&mut self) -> std::slice::ChunksExactMut<'_, T> {
            self.data.chunks_exact_mut(self.plane_cfg.stride)
        }
    }
    impl<T: Pixel> Index<usize> for PlaneRegionMut<'_, T> {
        type Output = [T];
        fn index(&self, y: usize) -> &[T] {
            &self.data[y * self.plane_cfg.stride..][..self.plane_cfg.stride]
        }
    }
    impl<T: Pixel> IndexMut<usize> for PlaneRegionMut<'_, T> {
        fn index_mut(&mut self, y: usize) -> &mut [T] {
            &mut self.data[y * self.plane_cfg.stride..][..self.plane_cfg.stride]
        }
    }
}
