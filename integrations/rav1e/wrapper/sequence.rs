//! Sequences of frames.

use super::files::{leaves, whole, written, Refusal};
use super::plan::{self, Head, Planes, Read, Reader, Slots};
use super::{Answer, LIMIT};

enum Entry<'a> {
  Frame { shown: bool, head: Head, refresh: u8, part: &'a [u8] },
  Again { slot: usize, refresh: u8 },
}

/// The kinds of an entry in a sequence of version 3.
const SHOWN: u8 = 1;
const AGAIN: u8 = 2;

fn read(bytes: &[u8]) -> Read<Vec<Entry<'_>>> {
  let reader = &mut Reader::new(bytes);
  let version = 1 + plan::version(reader, b"RSQ", |version| (1..=2).contains(&version))?;
  let (width, height, depth, sampling) = plan::format(reader, version)?;
  let count = reader.field(2, |_| true)?;
  let mut entries = vec![];
  for _ in 0..count {
    let kind = if version == 3 { reader.byte(AGAIN as usize)? } else { SHOWN };
    if kind == AGAIN {
      entries.push(Entry::Again { slot: reader.byte(7)? as usize, refresh: reader.byte(255)? });
      continue;
    }
    let (filter, edge_filter, slots) = plan::settings(reader)?;
    let refresh = reader.byte(255)?;
    let length = reader.field(4, |_| true)?;
    let part = reader.run(length)?;
    let head = Head { version, width, height, depth, sampling, filter, edge_filter, slots, mask: 0 };
    entries.push(Entry::Frame { shown: kind == SHOWN, head, refresh, part });
  }
  reader.end()?;
  Ok(entries)
}

/// The slots, and what was written.
#[derive(Default)]
struct State {
  slots: Slots,
  out: Vec<u8>,
}

impl State {
  /// The planes of a frame, from the slots that it names and that are filled.
  fn frame(&self, head: &Head, part: &[u8]) -> Result<Planes, String> {
    let mask = head.slots.iter().filter(|&&slot| self.slots[slot as usize].is_some()).fold(0, |mask, &slot| mask | 1 << slot);
    let head = Head { mask, ..head.clone() };
    if 20 + mask.count_ones() as usize * head.size() + part.len() > LIMIT {
      return Err("too large".to_string());
    }
    let read = leaves(&mut Reader::new(part), &head).map_err(|refusal| refusal.to_string())?;
    Ok(whole(&head, &self.slots, &read.leaves))
  }

  fn entry(&mut self, entry: &Entry, first: &Head) -> Result<(), String> {
    let (planes, shown, refresh) = match entry {
      Entry::Frame { shown, head, refresh, part } => (self.frame(head, part)?, *shown, *refresh),
      Entry::Again { slot, refresh } => (self.slots[*slot].clone().ok_or("empty slot")?, true, *refresh),
    };
    if shown {
      self.out.extend(written(first, &planes));
    }
    for slot in (0..8).filter(|slot| refresh >> slot & 1 == 1) {
      self.slots[slot] = Some(planes.clone());
    }
    Ok(())
  }
}

/// The planes of each frame that is shown, up to the first entry that is refused.
pub fn answer(bytes: &[u8]) -> Answer {
  if bytes.len() > LIMIT {
    return Answer::refused("too long");
  }
  let entries = match read(bytes) {
    Ok(entries) => entries,
    Err(at) => return Answer::refused(Refusal::Malformed(at)),
  };
  let first = entries.iter().find_map(|entry| if let Entry::Frame { head, .. } = entry { Some(head.clone()) } else { None });
  let mut state = State::default();
  for (number, entry) in entries.iter().enumerate() {
    // A slot is filled by a frame alone, so that there is a head where one is shown again.
    let head = first.clone().unwrap_or_else(empty);
    if let Err(reason) = state.entry(entry, &head) {
      return Answer { out: state.out, line: format!("frame {number} {reason}"), status: 2 };
    }
  }
  Answer::done(state.out)
}

/// The head of no frame.
fn empty() -> Head {
  Head { version: 3, width: 1, height: 1, depth: 8, sampling: 0, filter: 0, edge_filter: false, slots: [0; 7], mask: 0 }
}
