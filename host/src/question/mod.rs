//! Questions as text: a trainer writes a sheet and calls in words, and the
//! desk program reads them as bytes. A sheet alone is such a text too.

mod bytes;
mod compile;
mod header;
mod print;
mod rules;
mod scope;
mod words;

use crate::generate::Draft;
use crate::loading::Loading;
use std::fmt;

/// A sheet and the calls made on its box, each field as the bytes have it.
#[derive(Clone, Debug)]
struct Question {
    sheet: Draft,
    /// The loading date, if the question says it.
    loaded: Option<u32>,
    calls: Vec<Call>,
    /// The bytes left over after the last call, fewer than a call has.
    tail: Vec<u8>,
}

/// A call with its arguments.
#[derive(Clone, Copy, Debug)]
enum Call {
    Offer { action: u8, date: u32 },
    Collect { date: u32 },
}

/// Which faults of a text are mistakes.
#[derive(Clone, Copy, Debug, PartialEq, Eq)]
pub enum Checks {
    /// Also those for which the desk program refuses the sheet.
    All,
    /// Only those that the bytes cannot express.
    Bytes,
}

/// What a text is to have.
#[derive(Clone, Copy, Debug, PartialEq, Eq)]
enum Part {
    /// A sheet, and what is done with its box.
    Question,
    /// A sheet and nothing else.
    Sheet,
}

/// A mistake in a text; lines are numbered from 1.
#[derive(Clone, Debug, PartialEq, Eq)]
pub struct Mistake {
    pub line: usize,
    pub message: String,
}

impl fmt::Display for Mistake {
    fn fmt(&self, out: &mut fmt::Formatter<'_>) -> fmt::Result {
        write!(out, "line {}: {}", self.line, self.message)
    }
}

/// Turns a text into the desk program's input, or gives all its mistakes in
/// the order of their lines. If the text has a loading date, the input begins
/// with it.
pub fn encode(text: &str, checks: Checks) -> Result<Vec<u8>, Vec<Mistake>> {
    let question = compile::compile(text, Part::Question, checks)?;
    Ok(bytes::write(&question))
}

/// How the input of a text begins, or all mistakes that bytes cannot express.
pub fn loading(text: &str) -> Result<Loading, Vec<Mistake>> {
    let question = compile::compile(text, Part::Question, Checks::Bytes)?;
    Ok(match question.loaded {
        Some(_) => Loading::AtDate,
        None => Loading::AtZero,
    })
}

/// Turns the desk program's input into text, or says why no text gives it.
/// If the desk program refuses the sheet, `Checks::Bytes` leads back.
pub fn decode(input: &[u8]) -> Result<String, String> {
    decode_as(Loading::AtZero, input)
}

/// The same for an input that begins in either way. A loading date is in the
/// text.
pub fn decode_as(loading: Loading, input: &[u8]) -> Result<String, String> {
    bytes::read(loading, input).map(|question| print::print(&question))
}

/// Turns the text of a sheet, without calls and loading date, into its bytes, or
/// gives all mistakes in the order of their lines.
pub fn encode_sheet(text: &str, checks: Checks) -> Result<Vec<u8>, Vec<Mistake>> {
    let question = compile::compile(text, Part::Sheet, checks)?;
    Ok(question.sheet.bytes())
}

/// Turns a sheet into text, with a comment before the rules of each location, or
/// says why no text gives it.
pub fn decode_sheet(sheet: &[u8], comment: impl Fn(u8) -> String) -> Result<String, String> {
    let sheet = bytes::read_sheet(sheet)?;
    Ok(print::print_sheet(&sheet, comment))
}
