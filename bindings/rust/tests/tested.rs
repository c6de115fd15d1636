//! References that are tested once, with whatever owns them.

use std::cell::Cell;
use std::sync::Arc;
use std::sync::atomic::{AtomicUsize, Ordering};
use tilgwaren::{
    BitDepth, Context, Error, Filter, MotionBlock, MotionPlane, MovedBlock, Place, Tested,
    put_moved_16, put_tested_16,
};

const BLOCK: MotionBlock = MotionBlock {
    width: 4,
    height: 2,
    fraction_x: 5,
    fraction_y: 9,
    filter_x: Filter::Regular,
    filter_y: Filter::Smooth,
};
const TO: Place = Place {
    stride: 4,
    x: 0,
    y: 0,
};
const FROM: Place = Place {
    stride: 12,
    x: 3,
    y: 3,
};

fn reference() -> Vec<u16> {
    (0..144).map(|i| i * i % 1024).collect()
}

fn expected() -> [u16; 8] {
    let mut samples = [0; 8];
    let tested = Tested::new(reference(), BitDepth::Ten).expect("no sample is past the depth");
    put_tested_16(&mut samples, TO, &tested, FROM, &BLOCK).expect("good arguments");
    samples
}

fn put<S>(src: &Tested<S>) -> [u16; 8] {
    let mut samples = [0; 8];
    put_tested_16(&mut samples, TO, src, FROM, &BLOCK).expect("good arguments");
    samples
}

#[test]
fn any_owner_is_as_good() -> Result<(), Error> {
    let samples = reference();
    let array: [u16; 144] = samples.clone().try_into().expect("so many");
    assert_eq!(put(&Tested::new(&samples[..], BitDepth::Ten)?), expected());
    assert_eq!(put(&Tested::new(&samples, BitDepth::Ten)?), expected());
    assert_eq!(
        put(&Tested::new(samples.clone(), BitDepth::Ten)?),
        expected()
    );
    assert_eq!(put(&Tested::new(array, BitDepth::Ten)?), expected());
    assert_eq!(
        put(&Tested::new(
            samples.clone().into_boxed_slice(),
            BitDepth::Ten
        )?),
        expected()
    );
    assert_eq!(
        put(&Tested::new(Arc::<[u16]>::from(samples), BitDepth::Ten)?),
        expected()
    );
    Ok(())
}

/// A frame of an encoder, whose planes are read in place.
struct Frame {
    planes: [Vec<u16>; 3],
}

#[test]
fn a_plane_of_a_shared_frame_is_tested() -> Result<(), Error> {
    let planes = [vec![1024], reference(), vec![]];
    let frame = Arc::new(Frame { planes });
    let plane = |number: usize| {
        Tested::with(
            frame.clone(),
            move |frame| &frame.planes[number],
            BitDepth::Ten,
        )
    };
    assert!(matches!(plane(0), Err(Error::BadSample)));
    assert!(matches!(plane(2), Err(Error::BadArea)));
    let tested = plane(1)?;
    assert_eq!(tested.samples().as_ptr(), frame.planes[1].as_ptr());
    assert_eq!(
        (tested.samples().len(), tested.bit_depth()),
        (144, BitDepth::Ten)
    );
    assert!(Arc::ptr_eq(tested.owner(), &frame));
    drop(frame);
    assert_eq!(put(&tested), expected());
    let whole = MotionPlane {
        stride: 12,
        width: 12,
        height: 12,
        ..MotionPlane::default()
    };
    let moved = MovedBlock {
        x: 3,
        y: 3,
        width: 4,
        height: 2,
        ..MovedBlock::default()
    };
    let mut samples = [0; 8];
    put_moved_16(
        &mut samples,
        TO,
        &tested,
        &whole,
        &moved,
        &mut Context::new(),
    )?;
    assert_eq!(samples[..4], reference()[39..43]);
    Ok(())
}

/// An owner whose answers differ: only the first is good.
struct Fickle {
    samples: [Vec<u16>; 2],
    asked: Cell<usize>,
}

impl AsRef<[u16]> for Fickle {
    fn as_ref(&self) -> &[u16] {
        let asked = self.asked.replace(1);
        &self.samples[asked]
    }
}

#[test]
fn an_owner_is_asked_once() -> Result<(), Error> {
    let samples = [reference(), vec![u16::MAX; 2]];
    let fickle = Fickle {
        samples,
        asked: Cell::new(0),
    };
    let tested = Tested::new(fickle, BitDepth::Ten)?;
    assert_eq!(tested.owner().as_ref(), [u16::MAX; 2]);
    assert_eq!(tested.samples(), reference());
    let moved = Box::new(tested);
    assert_eq!(put(&moved.clone()), expected());
    assert_eq!(put(&moved), expected());
    Ok(())
}

/// An owner that tells when it is dropped.
struct Counted<'a>(Vec<u16>, &'a AtomicUsize);

impl AsRef<[u16]> for Counted<'_> {
    fn as_ref(&self) -> &[u16] {
        &self.0
    }
}

impl Drop for Counted<'_> {
    fn drop(&mut self) {
        self.1.fetch_add(1, Ordering::Relaxed);
    }
}

#[test]
fn clones_share_the_owner_and_the_last_gives_it_back() -> Result<(), Error> {
    let dropped = AtomicUsize::new(0);
    let one = Tested::new(Counted(reference(), &dropped), BitDepth::Ten)?;
    let other = one.clone();
    std::thread::scope(|threads| {
        threads.spawn(|| assert_eq!(put(&one), expected()));
        threads.spawn(move || assert_eq!(put(&other), expected()));
    });
    let other = one.clone();
    let one = one.into_owner().err().expect("a clone is left");
    assert_eq!(put(&one), expected());
    drop(one);
    assert_eq!(
        (put(&other), dropped.load(Ordering::Relaxed)),
        (expected(), 0)
    );
    let owner = other.into_owner().expect("no clone is left");
    assert_eq!(
        (&owner.0, dropped.load(Ordering::Relaxed)),
        (&reference(), 0)
    );
    drop(owner);
    assert_eq!(dropped.load(Ordering::Relaxed), 1);
    assert!(Tested::new(Counted(vec![1024], &dropped), BitDepth::Ten).is_err());
    assert_eq!(dropped.load(Ordering::Relaxed), 2);
    Ok(())
}

#[test]
fn samples_past_the_depth_are_found() {
    let mut samples = vec![1023; 144];
    assert!(Tested::new(&samples, BitDepth::Ten).is_ok());
    assert!(matches!(
        Tested::new(&samples, BitDepth::Eight),
        Err(Error::BadSample)
    ));
    assert!(matches!(
        Tested::new([], BitDepth::Ten),
        Err(Error::BadArea)
    ));
    samples[143] = 1024;
    assert!(matches!(
        Tested::new(&samples, BitDepth::Ten),
        Err(Error::BadSample)
    ));
}
