//! Input in pieces: a program must not take what one read gives for all there is.

use crate::desk::{self, CALL};
use crate::generate::Kind;
use crate::loading::Loading;
use std::io::{self, Write};
use std::thread;
use std::time::Duration;

/// One of so many seeds of a kind has its input in pieces.
pub const EVERY: u64 = 40;

/// Long enough for a program to read a piece before the next comes.
const PAUSE: Duration = Duration::from_millis(3);

/// Where the input of a kind and seed is cut, in rising order: nowhere, or in
/// its loading date, if it has one, its length, its sheet, its first call,
/// anywhere later and between calls.
pub fn cuts(loading: Loading, kind: &Kind, seed: u64, input: &[u8]) -> Vec<usize> {
    if !seed.is_multiple_of(EVERY) {
        return Vec::new();
    }
    // Other numbers than those that made the input.
    let mut random = kind.random(!seed);
    let date = loading.date_bytes();
    let rest = input.get(date..).unwrap_or_default();
    let (sheet, calls) = desk::split(rest).unwrap_or((rest, &[]));
    let start = input.len() - calls.len();
    let mut cuts = vec![
        date + 1,
        date + 3 + random.below(sheet.len().max(2) - 1),
        start + 1 + random.below(CALL - 1),
        start + random.below(calls.len() + 1),
        start + CALL * random.below(calls.len() / CALL + 1),
    ];
    if date > 1 {
        cuts.push(1 + random.below(date - 1));
    }
    cuts.retain(|&cut| cut < input.len());
    cuts.sort_unstable();
    cuts.dedup();
    cuts
}

/// Writes an input with a pause at each cut.
pub fn feed(mut out: impl Write, input: &[u8], cuts: &[usize]) -> io::Result<()> {
    let mut start = 0;
    for &cut in cuts {
        out.write_all(&input[start..cut])?;
        out.flush()?;
        thread::sleep(PAUSE);
        start = cut;
    }
    out.write_all(&input[start..])
}
