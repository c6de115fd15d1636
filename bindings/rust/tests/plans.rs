//! The worked plan of the repository: whole and spoilt, as a grid of one tile, as a sequence, and as a trace.

use std::fs;
use std::path::Path;
use tilgwaren::{
    Difference, Error, InvalidKind, PlaneBytes, planes_len, reconstruct_plan, reconstruct_sequence,
    reconstruct_tiles, trace_differences,
};

// The bytes of a plan's header.
const HEADER: usize = 20;

// The worked plan, and its planes.
fn worked_plan() -> (Vec<u8>, Vec<u8>) {
    let folder = Path::new(env!("CARGO_MANIFEST_DIR")).join("../../crates/av1_vectors");
    let read = |name| fs::read(folder.join(name)).expect("the file is there");
    (read("stdin"), read("stdout"))
}

#[test]
fn a_plan_is_written_to_the_front() {
    let (plan, planes) = worked_plan();
    assert_eq!(planes_len(&plan), Ok(planes.len()));
    let mut room = vec![9; planes.len() + 5];
    assert_eq!(reconstruct_plan(&plan, &mut room), Ok(planes.len()));
    assert_eq!(room[..planes.len()], planes);
    assert_eq!(room[planes.len()..], [9; 5]);
}

#[test]
fn a_short_room_is_left_alone() {
    let (plan, planes) = worked_plan();
    let mut room = vec![9; planes.len() - 1];
    let needed = planes.len();
    let fault = Err(Error::RoomTooSmall { needed });
    assert_eq!(reconstruct_plan(&plan, &mut room), fault);
    assert!(room.iter().all(|byte| *byte == 9));
    assert_eq!(reconstruct_plan(&plan, &mut []), fault);
}

#[test]
fn a_cut_plan_is_malformed() {
    let (plan, planes) = worked_plan();
    let mut room = vec![9; planes.len()];
    for len in 0..plan.len() {
        match reconstruct_plan(&plan[..len], &mut room) {
            Err(Error::Malformed { at }) => assert!(at as usize <= len),
            other => panic!("{len}: {other:?}"),
        }
        assert_eq!(planes_len(&plan[..len]).is_ok(), 20 <= len);
    }
    assert!(room.iter().all(|byte| *byte == 9));
}

#[test]
fn a_place_past_its_block_is_invalid() {
    let (mut plan, planes) = worked_plan();
    let mut room = vec![9; planes.len()];
    // The place of the first leaf's coefficient, in a block of 16.
    plan[34] = 16;
    let fault = Error::Invalid {
        leaf: 0,
        kind: InvalidKind::Coefficient,
    };
    assert_eq!(reconstruct_plan(&plan, &mut room), Err(fault));
    assert_eq!(fault.to_string(), "invalid leaf 0: coefficient");
    assert!(room.iter().all(|byte| *byte == 9));
}

#[test]
fn bytes_past_the_longest_plan_are_told() {
    let bytes = vec![0; (1 << 26) + 1];
    assert_eq!(planes_len(&bytes), Err(Error::TooLong));
    assert_eq!(reconstruct_plan(&bytes, &mut []), Err(Error::TooLong));
    assert_eq!(
        reconstruct_plan(&bytes[1..], &mut []),
        Err(Error::Malformed { at: 0 })
    );
}

// A part: its length, and the plan's leaves.
fn part(plan: &[u8]) -> Vec<u8> {
    let leaves = &plan[HEADER..];
    [&(leaves.len() as u32).to_le_bytes(), leaves].concat()
}

fn grid_of(letters: &[u8], plan: &[u8]) -> Vec<u8> {
    [letters, &plan[4..HEADER], &[1, 1], &part(plan)].concat()
}

fn grid(plan: &[u8]) -> Vec<u8> {
    grid_of(b"RTL1", plan)
}

fn sequence(first: &[u8], second: &[u8]) -> Vec<u8> {
    let head = [0; 10];
    let frames = [&head[..], &part(first), &head, &part(second)].concat();
    [b"RSQ1", &first[4..10], &[2, 0], &frames].concat()
}

#[test]
fn planes_are_written_to_the_front() {
    let (plan, planes) = worked_plan();
    let mut room = vec![9; 2 * planes.len() + 5];
    let written = reconstruct_tiles(&grid(&plan), &mut room);
    assert_eq!(written, Ok(planes.len()));
    assert_eq!(room[..planes.len()], planes);
    assert!(room[planes.len()..].iter().all(|byte| *byte == 9));
    let written = reconstruct_sequence(&sequence(&plan, &plan), &mut room);
    assert_eq!(written, Ok(2 * planes.len()));
    assert_eq!(room, [&planes[..], &planes, &[9; 5]].concat());
}

#[test]
fn rejected_bytes_leave_the_room_alone() {
    let (plan, planes) = worked_plan();
    let mut spoilt = plan.clone();
    // The place of the first leaf's coefficient, in a block of 16.
    spoilt[34] = 16;
    let mut room = vec![9; 2 * planes.len()];
    let (leaf, kind) = (0, InvalidKind::Coefficient);
    for (bytes, part) in [(sequence(&plan, &spoilt), 1), (sequence(&spoilt, &plan), 0)] {
        let fault = Error::InvalidPart { part, leaf, kind };
        assert_eq!(reconstruct_sequence(&bytes, &mut room), Err(fault));
    }
    let fault = Error::InvalidPart {
        part: 0,
        leaf,
        kind,
    };
    assert_eq!(reconstruct_tiles(&grid(&spoilt), &mut room), Err(fault));
    assert_eq!(fault.to_string(), "part 0: invalid leaf 0: coefficient");
    spoilt[HEADER] = 7;
    let fault = Error::MalformedPart { part: 0, at: 0 };
    assert_eq!(reconstruct_tiles(&grid(&spoilt), &mut room), Err(fault));
    let fault = Err(Error::Malformed { at: 0 });
    assert_eq!(reconstruct_tiles(&plan, &mut room), fault);
    assert_eq!(reconstruct_sequence(&plan, &mut room), fault);
    let short = &mut room[..planes.len() - 1];
    let needed = planes.len();
    let fault = Err(Error::RoomTooSmall { needed });
    assert_eq!(reconstruct_tiles(&grid(&plan), short), fault);
    assert!(room.iter().all(|byte| *byte == 9));
}

// The plan as a frame that isn't shown, which slot 0 holds then, and a slot that is shown again.
fn hidden(plan: &[u8], slot: u8) -> Vec<u8> {
    let head = [0, 0, 0, 0, 0, 0, 0, 0, 0, 0, 1];
    let entries = [&head[..], &part(plan), &[2, slot, 0]].concat();
    [b"RSQ2", &plan[4..10], &[2, 0], &entries].concat()
}

#[test]
fn a_frame_is_shown_again() {
    let (plan, planes) = worked_plan();
    let mut room = vec![9; 2 * planes.len()];
    let written = reconstruct_sequence(&hidden(&plan, 0), &mut room);
    assert_eq!(written, Ok(planes.len()));
    assert_eq!(room[..planes.len()], planes);
    let fault = Error::EmptySlot { part: 1 };
    assert_eq!(
        reconstruct_sequence(&hidden(&plan, 1), &mut room),
        Err(fault)
    );
    assert_eq!(fault.to_string(), "part 1: empty slot");
}

// A frame of 9 columns and 1 row in 4:4:4, whose slot 0 rises along rows, in one tile with a leaf from that slot.
#[test]
fn a_grid_has_any_sides_in_the_third_version() {
    let front = [0, 9, 0, 1, 0, 8, 2, 0, 0, 0, 0, 0, 0, 0, 0, 0, 1];
    let leaf = [0, 19, 1, 0, 0, 8, 0, 4, 0, 0, 0, 0, 0, 0, 0, 0];
    let slot: Vec<u8> = (0..27).collect();
    let plan = [b"RPL", &front[..], &leaf].concat();
    let bytes = [b"RTL2", &front[1..], &slot, &[1, 1], &part(&plan)].concat();
    let mut room = [7; 27];
    assert_eq!(reconstruct_tiles(&bytes, &mut room), Ok(27));
    let wanted: Vec<u8> = slot
        .iter()
        .map(|value| (value + 1).min(value / 9 * 9 + 8))
        .collect();
    assert_eq!(room[..], wanted);
    let early = [b"RTL1", &bytes[4..]].concat();
    assert_eq!(
        reconstruct_tiles(&early, &mut room),
        Err(Error::Malformed { at: 4 })
    );
}

// Planes of 64 bytes, one after the other.
fn in_place(planes: &[u8], stride: usize) -> [PlaneBytes<'_>; 3] {
    [0, 64, 128].map(|at| PlaneBytes {
        bytes: &planes[at..planes.len().min(at + 64)],
        stride,
    })
}

#[test]
fn planes_are_compared_where_they_are() {
    let (plan, mut planes) = worked_plan();
    let mut room = [Difference::default(); 3];
    assert_eq!(
        trace_differences(&plan, in_place(&planes, 8), &mut room),
        Ok(0)
    );
    assert_eq!(room, [Difference::default(); 3]);
    // Column 1 of row 2 of Y, in the first leaf, and column 7 of row 7 of V, in the last one.
    planes[17] = 9;
    planes[191] = 8;
    assert_eq!(
        trace_differences(&plan, in_place(&planes, 8), &mut room),
        Ok(2)
    );
    let first = Difference {
        leaf: 0,
        y: 2,
        x: 1,
        given: 9,
        defined: 131,
        plane: 0,
    };
    let last = Difference {
        leaf: 3,
        y: 7,
        x: 7,
        given: 8,
        defined: 128,
        plane: 2,
    };
    assert_eq!(room, [first, last, Difference::default()]);
    room[1] = Difference::default();
    let found = trace_differences(&plan, in_place(&planes, 8), &mut room[..1]);
    assert_eq!((found, room[0]), (Ok(2), first));
    assert_eq!(room[1..], [Difference::default(); 2]);
    let short = in_place(&planes[1..], 8);
    assert_eq!(
        trace_differences(&plan, short, &mut room),
        Err(Error::BadArea)
    );
    let narrow = in_place(&planes, 7);
    assert_eq!(
        trace_differences(&plan, narrow, &mut room),
        Err(Error::BadArea)
    );
    let mut spoilt = plan.clone();
    spoilt[HEADER] = 7;
    let fault = Err(Error::Malformed { at: 20 });
    assert_eq!(
        trace_differences(&spoilt, in_place(&planes, 8), &mut []),
        fault
    );
}

#[test]
fn the_library_has_the_version_of_the_crate() {
    assert_eq!(tilgwaren::version(), tilgwaren::VERSION);
    let [major, minor, patch] = [16, 8, 0].map(|shift| tilgwaren::VERSION >> shift & 255);
    assert_eq!(
        format!("{major}.{minor}.{patch}"),
        env!("CARGO_PKG_VERSION")
    );
}
