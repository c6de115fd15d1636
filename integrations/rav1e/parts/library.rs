//! rav1e's block operations by the library `libtilgwaren.a`, through the crate in `bindings/rust`.
//!
//! `library.py` puts this file into a copy of rav1e, in place of its inverse transforms, its intra edges and
//! predictors, the differences of luma for chroma from luma, and its motion: put, prepare and average.  What had to be
//! copied or fitted for that has a comment that begins with FITTED, and stands in the README beside.

use crate::context::TileBlockOffset;
use crate::cpu_features::CpuFeatureLevel;
use crate::encoder::ReferenceFrame;
use crate::frame::{Frame, PlaneConfig, PlaneOffset};
use crate::mc::{FilterMode, MotionVector};
use crate::partition::BlockSize;
use crate::predict::{IntraEdgeFilterParameters, IntraParam, PredictionMode};
use crate::recorder::{identities_wrap, setting, short_filter};
use crate::tiling::{PlaneRegion, PlaneRegionMut, Rect};
use crate::transform::{TxSize, TxType};
use crate::util::{Pixel, PixelType};

use tilgwaren::{
  BlockRoom, Context, EdgeBlock, EdgePlane, Error, Filter, IntraEdge, LumaBlock, MotionPlane, MovedBlock, Place, Region,
  RegionMut, Sampling, Tested, TransformBlock,
};

use std::cell::RefCell;
use std::mem::size_of;
use std::slice;
use std::sync::atomic::{AtomicBool, AtomicU64, Ordering};
use std::sync::{Arc, Mutex, OnceLock};

/// How often a call was made.
struct Counter {
  name: &'static str,
  calls: AtomicU64,
}

static COUNTERS: Mutex<Vec<&'static Counter>> = Mutex::new(vec![]);

/// Writes how often each call was made to the file that LIBRARY_CALLS names.
extern "C" fn write_counts() {
  let counters = COUNTERS.lock().unwrap();
  let lines = counters.iter().map(|counter| format!("{} {}\n", counter.name, counter.calls.load(Ordering::Relaxed)));
  std::fs::write(setting("LIBRARY_CALLS").unwrap(), lines.collect::<String>()).unwrap();
}

/// Whether calls are counted.
fn counting() -> bool {
  static ON: OnceLock<bool> = OnceLock::new();
  *ON.get_or_init(|| {
    let on = setting("LIBRARY_CALLS").is_some();
    if on {
      // SAFETY: what is called at the end of the program may be called then.
      unsafe { libc::atexit(write_counts) };
    }
    on
  })
}

impl Counter {
  fn add(&'static self) {
    if counting() && self.calls.fetch_add(1, Ordering::Relaxed) == 0 {
      COUNTERS.lock().unwrap().push(self);
    }
  }
}

/// A call of the library, counted under its name.  One that is refused ends the encoder.
macro_rules! call {
  ($name:ident ($($word:expr),* $(,)?)) => {
    call!(stringify!($name), tilgwaren::$name($($word),*))
  };
  ($name:expr, $call:expr) => {{
    static COUNTER: Counter = Counter { name: $name, calls: AtomicU64::new(0) };
    COUNTER.add();
    $call.expect(COUNTER.name)
  }};
}

thread_local! {
  // FITTED: rav1e has no place for what a call works in, so each thread keeps it.
  static CONTEXT: RefCell<Context> = RefCell::new(Context::new());
  static ROOM_8: RefCell<BlockRoom<u8>> = RefCell::new(BlockRoom::new());
  static ROOM_16: RefCell<BlockRoom<u16>> = RefCell::new(BlockRoom::new());
}

/// The library's name of a number of rav1e's: both have the numbers of AV1.
fn named<T: TryFrom<u8>>(number: usize) -> T {
  u8::try_from(number).ok().and_then(|number| T::try_from(number).ok()).expect("a number of AV1")
}

/// The same numbers, as those of the type that a pixel or a coefficient is.
///
/// # Safety
///
/// Both types are whole numbers of the same size.
unsafe fn same<T, U>(numbers: &[T]) -> &[U] {
  assert_eq!(size_of::<T>(), size_of::<U>());
  slice::from_raw_parts(numbers.as_ptr() as *const U, numbers.len())
}

/// Whether a frame with several tiles was begun.
static TILED: AtomicBool = AtomicBool::new(false);

/// A frame of so many tiles is to be coded.  Where LIBRARY_REGIONS is set one tile counts as several.
pub fn begin(tiles: usize) {
  if tiles > 1 || setting("LIBRARY_REGIONS").is_some() {
    TILED.store(true, Ordering::Relaxed);
  }
}

/// Whether threads may be at work on tiles of one plane, so that calls are made on what is a region's own.
fn tiled() -> bool {
  TILED.load(Ordering::Relaxed)
}

/// A sample as the library has it, and the room in which calls on regions work.
trait Sample: Copy + Default + 'static {
  fn with_room<R>(work: impl FnOnce(&mut BlockRoom<Self>) -> R) -> R;
}

impl Sample for u8 {
  fn with_room<R>(work: impl FnOnce(&mut BlockRoom<u8>) -> R) -> R {
    ROOM_8.with(|room| work(&mut room.borrow_mut()))
  }
}

impl Sample for u16 {
  fn with_room<R>(work: impl FnOnce(&mut BlockRoom<u16>) -> R) -> R {
    ROOM_16.with(|room| work(&mut room.borrow_mut()))
  }
}

/// A region as the library has it.
fn region<'a, T: Pixel, S: Sample>(region: &'a PlaneRegion<'_, T>) -> Region<'a, S> {
  assert_eq!(size_of::<T>(), size_of::<S>());
  let Rect { width, height, .. } = *region.rect();
  // SAFETY: rav1e's region is a loan of the same samples, which are whole numbers of this size.
  unsafe { Region::from_raw_parts(region.data_ptr() as *const S, region.plane_cfg.stride as isize, width, height) }
}

/// The same for a region that is written.
fn region_mut<'a, T: Pixel, S: Sample>(region: &'a mut PlaneRegionMut<'_, T>) -> RegionMut<'a, S> {
  assert_eq!(size_of::<T>(), size_of::<S>());
  let Rect { width, height, .. } = *region.rect();
  // SAFETY: as above, and to nobody else.
  unsafe { RegionMut::from_raw_parts(region.data_ptr_mut() as *mut S, region.plane_cfg.stride as isize, width, height) }
}

/// Where the first sample of a rectangle of a plane stands among all its samples, pads included.
fn place(cfg: &PlaneConfig, rect: &Rect) -> Place {
  let x = (cfg.xorigin as isize + rect.x) as usize;
  let y = (cfg.yorigin as isize + rect.y) as usize;
  Place { stride: cfg.stride, x, y }
}

/// All samples of the plane that a region lies in, pads included, and where the region begins.  A call on them copies no
/// rows.
///
/// # Safety
///
/// The region is none that `home` made, and no other region of the plane is in use: its frame has one tile.
unsafe fn samples_of<'a, T: Pixel, S: Sample>(region: &'a PlaneRegion<'_, T>) -> (&'a [S], Place) {
  assert_eq!(size_of::<T>(), size_of::<S>());
  let cfg = region.plane_cfg;
  let at = place(cfg, region.rect());
  let first = region.data_ptr().sub(at.y * at.stride + at.x);
  (slice::from_raw_parts(first as *const S, cfg.alloc_height * cfg.stride), at)
}

/// The same for a region that is written.
///
/// # Safety
///
/// As above.
unsafe fn samples_of_mut<'a, T: Pixel, S: Sample>(region: &'a mut PlaneRegionMut<'_, T>) -> (&'a mut [S], Place) {
  assert_eq!(size_of::<T>(), size_of::<S>());
  let cfg = region.plane_cfg;
  let at = place(cfg, region.rect());
  let first = region.data_ptr_mut().sub(at.y * at.stride + at.x);
  (slice::from_raw_parts_mut(first as *mut S, cfg.alloc_height * cfg.stride), at)
}

/// Makes a call that writes all samples of the rectangle of these sides at the front of a region.
fn write<T: Pixel, S: Sample>(
  to: &mut PlaneRegionMut<'_, T>, (width, height): (usize, usize), call: impl FnOnce(&mut [S], Place) -> Result<(), Error>,
) -> Result<(), Error> {
  if tiled() {
    return S::with_room(|room| region_mut(to).write(room, 0, 0, width, height, call));
  }
  // SAFETY: no frame has several tiles.
  let (samples, at) = unsafe { samples_of_mut(to) };
  call(samples, at)
}

/// The same for a call that also reads them.
fn change<T: Pixel, S: Sample>(
  to: &mut PlaneRegionMut<'_, T>, (width, height): (usize, usize), call: impl FnOnce(&mut [S], Place) -> Result<(), Error>,
) -> Result<(), Error> {
  if tiled() {
    return S::with_room(|room| region_mut(to).call(room, 0, 0, width, height, call));
  }
  // SAFETY: as above.
  let (samples, at) = unsafe { samples_of_mut(to) };
  call(samples, at)
}

/// The same for a call that only reads, in a rectangle of at most these sides.
fn read<T: Pixel, S: Sample>(
  from: &PlaneRegion<'_, T>, (width, height): (usize, usize), call: impl FnOnce(&[S], Place) -> Result<(), Error>,
) -> Result<(), Error> {
  if tiled() {
    let from = region(from);
    let (width, height) = (width.min(from.width()), height.min(from.height()));
    return S::with_room(|room| from.call(room, 0, 0, width, height, call));
  }
  // SAFETY: as above.
  let (samples, at) = unsafe { samples_of(from) };
  call(samples, at)
}

/// Adds the residue of a block to the samples of `output`, in place of rav1e's function of this name.  Identities wrap where
/// the encoder's do.
pub fn inverse_transform_add<T: Pixel>(
  input: &[T::Coeff], output: &mut PlaneRegionMut<'_, T>, eob: usize, tx_size: TxSize, tx_type: TxType, bd: usize,
  _cpu: CpuFeatureLevel,
) {
  let sides = (tx_size.width(), tx_size.height());
  let input = &input[..tilgwaren::coefficients_len(named(tx_size as usize), named(tx_type as usize), eob as usize)];
  let block = |at: Place| TransformBlock { tx_size: named(tx_size as usize), tx_type: named(tx_type as usize), x: at.x, y: at.y };
  CONTEXT.with(|context| {
    let context = &mut context.borrow_mut();
    // SAFETY: coefficients are whole numbers of 16 bits beside samples of 8, and of 32 beside those of 16.
    match T::type_enum() {
      PixelType::U8 => call!(
        "inverse_transform_add_8",
        change(output, sides, |samples: &mut [u8], at| {
          tilgwaren::inverse_transform_add_8(context, unsafe { same(input) }, samples, at.stride, block(at))
        })
      ),
      PixelType::U16 if identities_wrap() => call!(
        "inverse_transform_add_rav1e_16",
        change(output, sides, |samples: &mut [u16], at| {
          tilgwaren::inverse_transform_add_rav1e_16(context, unsafe { same(input) }, samples, at.stride, block(at), named(bd))
        })
      ),
      PixelType::U16 => call!(
        "inverse_transform_add_16",
        change(output, sides, |samples: &mut [u16], at| {
          tilgwaren::inverse_transform_add_16(context, unsafe { same(input) }, samples, at.stride, block(at), named(bd))
        })
      ),
    }
  });
}

/// A transform that is to be predicted, by its place in its block and in its tile.
pub struct Transform {
  pub cell: TileBlockOffset,
  pub unit: (usize, usize),
  pub block: BlockSize,
  pub at: PlaneOffset,
  pub size: TxSize,
  pub depth: usize,
  pub edge_filter: bool,
}

impl Transform {
  fn in_plane(&self, mode: Option<PredictionMode>, angle_step: i8) -> EdgeBlock {
    EdgeBlock {
      x: self.at.x as usize,
      y: self.at.y as usize,
      cell_x: self.cell.0.x,
      cell_y: self.cell.0.y,
      unit_x: self.unit.0,
      unit_y: self.unit.1,
      block_size: named(self.block as usize),
      tx_size: named(self.size as usize),
      mode: mode.map(|mode| named(mode as usize)),
      angle_step,
      bit_depth: named(self.depth),
      edge_filter: self.edge_filter,
    }
  }
}

/// The plane of a tile, whose rectangle may reach into the pads.
fn tile_of(cfg: &PlaneConfig, tile: &Rect) -> EdgePlane {
  let (x, y) = (tile.x as usize, tile.y as usize);
  EdgePlane {
    stride: cfg.stride,
    x: cfg.xorigin,
    y: cfg.yorigin,
    width: cfg.width,
    height: cfg.height,
    tile_x: x,
    tile_y: y,
    tile_width: tile.width.min(cfg.width - x),
    tile_height: tile.height.min(cfg.height - y),
    halved_columns: cfg.xdec > 0,
    halved_rows: cfg.ydec > 0,
  }
}

/// How many steps a mode turns.
fn step_of(mode: PredictionMode, param: IntraParam) -> i8 {
  match param {
    IntraParam::AngleDelta(step) if mode.is_directional() => step,
    _ => 0,
  }
}

/// The weight of luma.
fn weight_of(param: IntraParam) -> i16 {
  match param {
    IntraParam::Alpha(weight) => weight,
    _ => 0,
  }
}

/// Whether a neighbour has a smooth mode.
fn smooth(filter: Option<IntraEdgeFilterParameters>) -> bool {
  filter.map_or(false, IntraEdgeFilterParameters::use_smooth_filter)
}

/// Predicts a transform in the plane of its tile by the mode that it is coded with.
pub fn predict<T: Pixel>(
  tile: &mut PlaneRegionMut<'_, T>, transform: Transform, mode: PredictionMode, param: IntraParam,
  filter: Option<IntraEdgeFilterParameters>, ac: &[i16],
) {
  let plane = tile_of(tile.plane_cfg, tile.rect());
  let block = transform.in_plane(Some(mode), step_of(mode, param));
  let (smooth, weight) = (smooth(filter), weight_of(param));
  match (T::type_enum(), tiled()) {
    (PixelType::U8, true) => u8::with_room(|room| {
      call!(predict_in_tile_8(&mut region_mut(tile), room, &plane, &block, smooth, ac, weight))
    }),
    (PixelType::U16, true) => u16::with_room(|room| {
      call!(predict_in_tile_16(&mut region_mut(tile), room, &plane, &block, smooth, ac, weight))
    }),
    // SAFETY: no frame has several tiles.
    (PixelType::U8, false) => {
      call!(predict_in_plane_8(unsafe { samples_of_mut(tile) }.0, &plane, &block, smooth, ac, weight))
    }
    (PixelType::U16, false) => {
      call!(predict_in_plane_16(unsafe { samples_of_mut(tile) }.0, &plane, &block, smooth, ac, weight))
    }
  }
}

/// The sides round a transform, from which the encoder tries several modes, or several weights of luma.
#[allow(clippy::large_enum_variant)]
pub enum Edge {
  Of8(IntraEdge<u8>),
  Of16(IntraEdge<u16>),
}

impl Edge {
  fn new<T: Pixel>() -> Edge {
    match T::type_enum() {
      PixelType::U8 => Edge::Of8(IntraEdge::new()),
      PixelType::U16 => Edge::Of16(IntraEdge::new()),
    }
  }

  /// Prepares them in the plane of a tile.
  fn prepare<T: Pixel>(&mut self, tile: &PlaneRegion<'_, T>, block: &EdgeBlock) {
    let plane = &tile_of(tile.plane_cfg, tile.rect());
    match self {
      Edge::Of8(edge) if tiled() => {
        u8::with_room(|room| call!("prepare_in_tile_8", edge.prepare_in_tile(&region(tile), room, plane, block)))
      }
      Edge::Of16(edge) if tiled() => {
        u16::with_room(|room| call!("prepare_in_tile_16", edge.prepare_in_tile(&region(tile), room, plane, block)))
      }
      // SAFETY: no frame has several tiles.
      Edge::Of8(edge) => call!("prepare_8", edge.prepare(unsafe { samples_of(tile) }.0, plane, block)),
      Edge::Of16(edge) => call!("prepare_16", edge.prepare(unsafe { samples_of(tile) }.0, plane, block)),
    }
  }
}

/// The sides round a transform, in place of rav1e's function of this name.
#[allow(clippy::too_many_arguments)]
pub fn get_intra_edges<T: Pixel>(
  dst: &PlaneRegion<'_, T>, partition_bo: TileBlockOffset, bx: usize, by: usize, partition_size: BlockSize,
  po: PlaneOffset, tx_size: TxSize, bit_depth: usize, opt_mode: Option<PredictionMode>, enable_intra_edge_filter: bool,
  intra_param: IntraParam,
) -> Edge {
  let transform = Transform {
    cell: partition_bo,
    unit: (bx, by),
    block: partition_size,
    at: po,
    size: tx_size,
    depth: bit_depth,
    edge_filter: enable_intra_edge_filter,
  };
  let mut edge = Edge::new::<T>();
  edge.prepare(
    dst,
    &match opt_mode {
      Some(mode) => transform.in_plane(Some(mode), step_of(mode, intra_param)),
      None => transform.in_plane(None, 0),
    },
  );
  edge
}

/// Predicts a transform from sides that are prepared: what rav1e's `PredictionMode::predict_intra` does.
pub fn predict_from_edge<T: Pixel>(
  mode: PredictionMode, dst: &mut PlaneRegionMut<'_, T>, tx_size: TxSize, ac: &[i16], param: IntraParam,
  filter: Option<IntraEdgeFilterParameters>, edge: &Edge,
) {
  let sides = (tx_size.width(), tx_size.height());
  let (number, step, smooth, weight) = (named(mode as usize), step_of(mode, param), smooth(filter), weight_of(param));
  match (edge, mode.is_cfl()) {
    (Edge::Of8(edge), true) => {
      call!("predict_cfl_8", write(dst, sides, |samples: &mut [u8], at| edge.predict_cfl(samples, at, ac, weight)))
    }
    (Edge::Of16(edge), true) => {
      call!("predict_cfl_16", write(dst, sides, |samples: &mut [u16], at| edge.predict_cfl(samples, at, ac, weight)))
    }
    (Edge::Of8(edge), false) => {
      call!("predict_8", write(dst, sides, |samples: &mut [u8], at| edge.predict(samples, at, number, step, smooth)))
    }
    (Edge::Of16(edge), false) => {
      call!("predict_16", write(dst, sides, |samples: &mut [u16], at| edge.predict(samples, at, number, step, smooth)))
    }
  }
}

/// A leaf of intra modes over whose luma chroma is predicted.
pub struct Luma {
  pub block: BlockSize,
  pub transform: TxSize,
  pub xdec: usize,
  pub ydec: usize,
  /// How many columns and rows there are in the frame from the first of the region on, in cells.
  pub cells: (usize, usize),
}

/// The differences of luma from its mean, in place of rav1e's loops in `luma_ac`.  Luma begins at the region's first sample.
pub fn luma_differences<T: Pixel>(ac: &mut [i16], luma: &PlaneRegion<'_, T>, leaf: Luma) {
  let block = call!(cfl_block_of(&LumaBlock {
    block_size: named(leaf.block as usize),
    tx_size: named(leaf.transform as usize),
    sampling: match (leaf.xdec, leaf.ydec) {
      (0, _) => Sampling::Yuv444,
      (_, 0) => Sampling::Yuv422,
      _ => Sampling::Yuv420,
    },
    visible_columns: 4 * leaf.cells.0,
    visible_rows: 4 * leaf.cells.1,
  }));
  let sides = (leaf.block.width().max(8), leaf.block.height().max(8));
  match T::type_enum() {
    PixelType::U8 => {
      call!("cfl_ac_8", read(luma, sides, |samples: &[u8], at| tilgwaren::cfl_ac_8(ac, samples, at, &block)))
    }
    PixelType::U16 => {
      call!("cfl_ac_16", read(luma, sides, |samples: &[u16], at| tilgwaren::cfl_ac_16(ac, samples, at, &block)))
    }
  }
}

/// The planes of a reference of 16 bits, whose samples were looked at when it was made, with the frame that owns them.
#[derive(Clone, Debug)]
pub struct TestedFrame<T: Pixel> {
  planes: [Option<Tested<Arc<Frame<T>>>>; 3],
}

impl<T: Pixel> TestedFrame<T> {
  pub fn new(frame: &Arc<Frame<T>>, bit_depth: usize) -> Self {
    let test = |p: usize| match T::type_enum() {
      PixelType::U16 if !frame.planes[p].data.is_empty() => {
        let depth = named(bit_depth);
        // SAFETY: samples are whole numbers of 16 bits.
        Some(call!("test_samples_16", Tested::with(frame.clone(), |frame| unsafe { same(&frame.planes[p].data) }, depth)))
      }
      _ => None,
    };
    TestedFrame { planes: [test(0), test(1), test(2)] }
  }
}

/// A block that is read in a plane of a reference, as the library has it.
pub struct Moved {
  pub at: PlaneOffset,
  pub width: usize,
  pub height: usize,
  pub vector: MotionVector,
  pub filter: FilterMode,
}

impl Moved {
  /// The filter.  rav1e's sharp one is its own along short sides in Rust, and AV1's in its assembler, or where
  /// the recorder was asked for that.
  fn filter(&self) -> Filter {
    let as_av1 = cfg!(nasm_x86_64) || short_filter(FilterMode::SHARP as usize) == 0;
    match self.filter {
      FilterMode::SHARP if as_av1 => Filter::Sharp,
      FilterMode::SHARP => Filter::Rav1eSharp,
      other => named(other as usize),
    }
  }

  fn block(&self) -> MovedBlock {
    MovedBlock {
      x: self.at.x as usize,
      y: self.at.y as usize,
      width: self.width,
      height: self.height,
      mv_y: self.vector.row,
      mv_x: self.vector.col,
      filter_x: self.filter(),
      filter_y: self.filter(),
    }
  }
}

/// A plane of a reference without its pads.
fn visible(cfg: &PlaneConfig) -> MotionPlane {
  MotionPlane {
    stride: cfg.stride,
    x: cfg.xorigin,
    y: cfg.yorigin,
    width: cfg.width,
    height: cfg.height,
    halved_columns: cfg.xdec > 0,
    halved_rows: cfg.ydec > 0,
  }
}

/// Predicts a block from one reference, where rav1e calls `put_8tap`.
pub fn put<T: Pixel>(reference: &ReferenceFrame<T>, p: usize, dst: &mut PlaneRegionMut<'_, T>, moved: Moved) {
  let from = &reference.frame.planes[p];
  let (plane, block) = (visible(&from.cfg), moved.block());
  let sides = (moved.width, moved.height);
  match T::type_enum() {
    PixelType::U8 => CONTEXT.with(|context| {
      let context = &mut context.borrow_mut();
      // SAFETY: samples are whole numbers of 8 bits.
      let from = unsafe { same(&from.data) };
      call!(
        "put_moved_8",
        write(dst, sides, |samples, at| tilgwaren::put_moved_8(samples, at, from, &plane, &block, context))
      )
    }),
    PixelType::U16 => CONTEXT.with(|context| {
      let context = &mut context.borrow_mut();
      let tested = reference.tested.planes[p].as_ref().expect("a plane with samples");
      call!(
        "put_moved_16",
        write(dst, sides, |samples, at| tilgwaren::put_moved_16(samples, at, tested, &plane, &block, context))
      )
    }),
  }
}

/// Prepares a block from one of two references, where rav1e calls `prep_8tap`.
pub fn prepare<T: Pixel>(reference: &ReferenceFrame<T>, p: usize, values: &mut [i16], moved: Moved) {
  let from = &reference.frame.planes[p];
  let (plane, block) = (visible(&from.cfg), moved.block());
  match T::type_enum() {
    PixelType::U8 => CONTEXT.with(|context| {
      // SAFETY: samples are whole numbers of 8 bits.
      let samples = unsafe { same(&from.data) };
      call!(prep_moved_8(values, samples, &plane, &block, &mut context.borrow_mut()))
    }),
    PixelType::U16 => CONTEXT.with(|context| {
      let tested = reference.tested.planes[p].as_ref().expect("a plane with samples");
      call!(prep_moved_16(values, tested, &plane, &block, &mut context.borrow_mut()))
    }),
  }
}

/// Averages two prepared blocks, in place of rav1e's function of this name.
pub fn mc_avg<T: Pixel>(
  dst: &mut PlaneRegionMut<'_, T>, tmp1: &[i16], tmp2: &[i16], width: usize, height: usize, bit_depth: usize,
  _cpu: CpuFeatureLevel,
) {
  match T::type_enum() {
    PixelType::U8 => call!(
      "mc_avg_8",
      write(dst, (width, height), |samples, at| tilgwaren::mc_avg_8(samples, at, width, height, tmp1, tmp2))
    ),
    PixelType::U16 => call!(
      "mc_avg_16",
      write(dst, (width, height), |samples, at| tilgwaren::mc_avg_16(samples, at, width, height, tmp1, tmp2, named(bit_depth)))
    ),
  }
}
