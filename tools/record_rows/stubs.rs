// What rav1e's own files ask of the rest of its crate, beside samples and numbers, and no more: planes, regions and places.

mod context {
    use crate::partition::BlockSize;
    use crate::transform::TxSize;

    pub const MI_SIZE_LOG2: usize = 2;
    pub const MAX_TX_SIZE: usize = 64;
    pub const MAX_SB_SIZE_LOG2: usize = 7;
    pub const MAX_MIB_SIZE_LOG2: usize = 5;
    pub const LOCAL_BLOCK_MASK: usize = 15;
    pub const BLOCK_TO_PLANE_SHIFT: usize = 2;
    pub const IMPORTANCE_BLOCK_TO_BLOCK_SHIFT: usize = 1;
    pub const MV_LOW: i32 = -16384;
    pub const MV_UPP: i32 = 16384;

    #[derive(Clone, Copy)]
    pub struct BlockOffset {
        pub x: usize,
        pub y: usize,
    }
    #[derive(Clone, Copy)]
    pub struct TileBlockOffset(pub BlockOffset);

    // Nothing that is recorded asks for the largest transform of a block.
    pub fn av1_get_coded_tx_size(_: TxSize) -> TxSize {
        unimplemented!()
    }
    #[allow(non_upper_case_globals)]
    pub static max_txsize_rect_lookup: [TxSize; BlockSize::BLOCK_SIZES_ALL] = [TxSize::TX_4X4; BlockSize::BLOCK_SIZES_ALL];
}

mod frame {
    use crate::util::Pixel;
    use std::ops::Index;

    #[derive(Clone, Copy)]
    pub struct PlaneConfig {
        pub stride: usize,
        pub width: usize,
        pub height: usize,
        pub xdec: usize,
        pub ydec: usize,
    }
    #[derive(Clone, Copy)]
    pub struct PlaneOffset {
        pub x: isize,
        pub y: isize,
    }
    /// Samples row by row. Places are counted from the first one, and the last row may end before the others.
    pub struct Plane<T: Pixel> {
        pub data: Vec<T>,
        pub cfg: PlaneConfig,
    }
    impl<T: Pixel> Plane<T> {
        pub fn slice(&self, po: PlaneOffset) -> PlaneSlice<'_, T> {
            PlaneSlice { plane: self, x: po.x, y: po.y }
        }
    }
    #[derive(Clone, Copy)]
    pub struct PlaneSlice<'a, T: Pixel> {
        pub plane: &'a Plane<T>,
        pub x: isize,
        pub y: isize,
    }
    impl<'a, T: Pixel> PlaneSlice<'a, T> {
        pub fn go_up(&self, i: usize) -> PlaneSlice<'a, T> {
            PlaneSlice { y: self.y - i as isize, ..*self }
        }
        pub fn go_left(&self, i: usize) -> PlaneSlice<'a, T> {
            PlaneSlice { x: self.x - i as isize, ..*self }
        }
    }
    impl<T: Pixel> Index<usize> for PlaneSlice<'_, T> {
        type Output = [T];
        fn index(&self, r: usize) -> &[T] {
            let (x, y) = (usize::try_from(self.x).unwrap(), usize::try_from(self.y).unwrap() + r);
            let (stride, data) = (self.plane.cfg.stride, &self.plane.data);
            &data[y * stride + x..((y + 1) * stride).min(data.len())]
        }
    }
}

mod tiling {
    use crate::frame::{Plane, PlaneConfig};
    use crate::partition::RefType;
    use crate::predict::PredictionMode;
    use crate::util::Pixel;
    use std::ops::{Index, IndexMut};

    #[derive(Clone, Copy)]
    pub struct Rect {
        pub x: isize,
        pub y: isize,
        pub width: usize,
        pub height: usize,
    }
    #[derive(Clone, Copy)]
    pub struct TileRect {
        pub x: usize,
        pub y: usize,
    }
    #[derive(Clone, Copy)]
    pub struct CodedBlockInfo {
        pub luma_mode: PredictionMode,
        pub chroma_mode: PredictionMode,
        pub reference_types: [RefType; 2],
    }

    /// A rectangle of a plane, to read. Its rows stand from `data`'s first one on.
    #[derive(Clone, Copy)]
    pub struct PlaneRegion<'a, T: Pixel> {
        data: &'a [T],
        pub plane_cfg: &'a PlaneConfig,
        rect: Rect,
    }
    impl<'a, T: Pixel> PlaneRegion<'a, T> {
        pub fn new(plane: &'a Plane<T>, rect: Rect) -> Self {
            let first = rect.y as usize * plane.cfg.stride + rect.x as usize;
            PlaneRegion { data: &plane.data[first..], plane_cfg: &plane.cfg, rect }
        }
        pub fn rect(&self) -> &Rect {
            &self.rect
        }
    }
    impl<T: Pixel> Index<usize> for PlaneRegion<'_, T> {
        type Output = [T];
        fn index(&self, y: usize) -> &[T] {
            assert!(y < self.rect.height);
            &self.data[y * self.plane_cfg.stride..][..self.rect.width]
        }
    }

    /// A rectangle of a plane, to read and write. Its rows stand from `data`'s first one on.
    pub struct PlaneRegionMut<'a, T: Pixel> {
        data: &'a mut [T],
        pub plane_cfg: &'a PlaneConfig,
        rect: Rect,
    }
    impl<'a, T: Pixel> PlaneRegionMut<'a, T> {
        pub fn new(plane: &'a mut Plane<T>, rect: Rect) -> Self {
            let stored = (rect.x as usize, rect.y as usize);
            Self::placed(plane, rect, stored)
        }
        /// The region that is told to be at `rect`, and whose first sample stands at this column and row.
        pub fn placed(plane: &'a mut Plane<T>, rect: Rect, (x, y): (usize, usize)) -> Self {
            let Plane { data, cfg } = plane;
            PlaneRegionMut { data: &mut data[y * cfg.stride + x..], plane_cfg: cfg, rect }
        }
        pub fn rect(&self) -> &Rect {
            &self.rect
        }
        pub fn rows_iter(&self) -> impl ExactSizeIterator<Item = &[T]> {
            (0..self.rect.height).map(|y| &self[y])
        }
        pub fn rows_iter_mut(&mut self) -> impl ExactSizeIterator<Item = &mut [T]> {
            let Rect { width, height, .. } = self.rect;
            self.data.chunks_mut(self.plane_cfg.stride).take(height).map(move |row| &mut row[..width])
        }
    }
    impl<T: Pixel> Index<usize> for PlaneRegionMut<'_, T> {
        type Output = [T];
        fn index(&self, y: usize) -> &[T] {
            assert!(y < self.rect.height);
            &self.data[y * self.plane_cfg.stride..][..self.rect.width]
        }
    }
    impl<T: Pixel> IndexMut<usize> for PlaneRegionMut<'_, T> {
        fn index_mut(&mut self, y: usize) -> &mut [T] {
            assert!(y < self.rect.height);
            &mut self.data[y * self.plane_cfg.stride..][..self.rect.width]
        }
    }
}
