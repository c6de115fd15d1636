//! Answers plans and this project's other files by rav1e's own functions.
//!
//! `parts/wrapper.py` puts these files into a copy of rav1e 0.8.1 as its module `wrapper`, whose `main` is the program: it takes a
//! plan as `av1_vectors` does, and with `tools WORD` what `av1_tools WORD` takes, with their lines and statuses.  Reading and
//! judging a file is written here; each sample is rav1e's: `motion_compensate`, `predict_inter`, `get_intra_edges`,
//! `predict_intra`, `luma_ac` and `inverse_transform_add`.

mod files;
mod make;
mod plan;
mod samples;
mod sequence;
mod valid;

use std::io::{Read, Write};
use std::sync::atomic::{AtomicBool, Ordering::Relaxed};

/// The most bytes of a plan, and of the other files but a trace.
pub const LIMIT: usize = 1 << 26;
const USAGE: &str = "usage: recon [make N | sum N]";
const USAGE_OF_TOOLS: &str = "usage: tools tiles | trace | sequence | bare";

/// In a plan of version 3, whose samples are AV1's, there is no answer if rav1e predicts shared chroma otherwise.
const NO_ANSWER: i32 = 9;

/// What the program writes, and its status.
#[derive(Default)]
pub struct Answer {
  pub out: Vec<u8>,
  pub line: String,
  pub status: i32,
}

impl Answer {
  pub fn done(out: Vec<u8>) -> Self {
    Answer { out, ..Self::default() }
  }

  pub fn refused(line: impl ToString) -> Self {
    Answer { line: line.to_string(), status: 2, ..Self::default() }
  }

  fn usage(line: &str) -> Self {
    Answer { line: line.to_string(), status: 1, ..Self::default() }
  }
}

/// Set for files of version 3, in which the sharp filter, identities and lossless blocks are AV1's and not rav1e's.
static AS_AV1: AtomicBool = AtomicBool::new(false);

/// Says whether samples are of version 3.
pub fn as_av1(version: u8) {
  AS_AV1.store(version == 3, Relaxed);
}

/// Which short filter stands for `filter` along sides up to 4: rav1e's choice, or in version 3 AV1's.
pub fn short_filter(filter: usize) -> usize {
  if AS_AV1.load(Relaxed) {
    filter & 1
  } else {
    filter.min(1)
  }
}

/// A value that an identity scales by so many 4096ths: as rav1e, where it wraps at 32 bits, or in version 3 as AV1.
pub fn scaled(factor: i32, value: i32) -> i32 {
  if AS_AV1.load(Relaxed) {
    (factor as i64 * value as i64 + (1 << 11) >> 12) as i32
  } else {
    factor.wrapping_mul(value).wrapping_add(1 << 11) >> 12
  }
}

/// The bits to which values are clamped between rows and columns: rav1e's, or in version 3 AV1's, which has no such clamp in a
/// lossless block.
pub fn range_of_columns(lossless: bool, range: usize) -> usize {
  if lossless && AS_AV1.load(Relaxed) {
    32
  } else {
    range
  }
}

/// Ends the program: rav1e predicts chroma that leaves share otherwise than AV1.
pub fn no_answer() -> ! {
  eprintln!("no answer: rav1e departs from AV1 in chroma that leaves share");
  std::process::exit(NO_ANSWER)
}

fn input() -> Vec<u8> {
  let mut bytes = vec![];
  std::io::stdin().read_to_end(&mut bytes).expect("a read failed");
  bytes
}

/// A number of 1 to 10 digits below 2^32.
fn number(word: &str) -> Option<u32> {
  let digits = (1..=10).contains(&word.len()) && word.bytes().all(|digit| digit.is_ascii_digit());
  word.parse().ok().filter(|_| digits)
}

fn answer(words: &[&str]) -> Answer {
  match words {
    [] => files::plan(&input()),
    ["make", word] => number(word).map_or(Answer::usage(USAGE), |it| Answer::done(make::plan(it))),
    ["sum", word] => number(word).map_or(Answer::usage(USAGE), |it| Answer::done(make::sums(it))),
    ["tools", "tiles"] => files::tiles(&input()),
    ["tools", "trace"] => files::trace(&input()),
    ["tools", "sequence"] => sequence::answer(&input()),
    ["tools", "bare"] => files::bare(&input()),
    ["tools", ..] => Answer::usage(USAGE_OF_TOOLS),
    _ => Answer::usage(USAGE),
  }
}

/// The program.
pub fn main() {
  let words: Option<Vec<String>> = std::env::args_os().skip(1).map(|word| word.into_string().ok()).collect();
  let answer = match &words {
    Some(words) => answer(&words.iter().map(String::as_str).collect::<Vec<_>>()),
    None => Answer::usage(USAGE),
  };
  std::io::stdout().write_all(&answer.out).expect("a write failed");
  if !answer.line.is_empty() {
    eprintln!("{}", answer.line);
  }
  std::process::exit(answer.status);
}
