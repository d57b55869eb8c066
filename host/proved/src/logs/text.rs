//! Logs as text: a line for each record, with its date or gap and its command.

use host::lines::{push_number, push_word};
use host::log::{records, Format, Record};
use host::question::Mistake;

/// A log that was written as text.
#[derive(Clone, Debug, Default, PartialEq, Eq)]
pub struct Text {
    pub log: Vec<u8>,
    /// The line of each record, from 1.
    pub lines: Vec<usize>,
}

/// Some editors put this mark before a text.
const MARK: &[u8] = "\u{feff}".as_bytes();

/// Reads a text, or gives all its mistakes in the order of their lines.
pub fn read(format: Format, text: &[u8]) -> Result<Text, Vec<Mistake>> {
    let text = text.strip_prefix(MARK).unwrap_or(text);
    let (mut read, mut mistakes) = (Text::default(), Vec::new());
    for (line, bytes) in (1..).zip(text.split(|byte| *byte == b'\n')) {
        match record(format, bytes) {
            Ok(Some(record)) => {
                read.log.extend_from_slice(&record.bytes());
                read.lines.push(line);
            }
            Ok(None) => {}
            Err(messages) => {
                let mistake = |message| Mistake { line, message };
                mistakes.extend(messages.into_iter().map(mistake));
            }
        }
    }
    if mistakes.is_empty() {
        Ok(read)
    } else {
        Err(mistakes)
    }
}

/// The record of a line, if it has one, or what is wrong with it.
fn record(format: Format, line: &[u8]) -> Result<Option<Record>, Vec<String>> {
    // Comments may have any bytes.
    let statement = line.split(|byte| *byte == b'#').next().unwrap_or_default();
    let Ok(statement) = std::str::from_utf8(statement) else {
        return Err(vec!["the line is no UTF-8".into()]);
    };
    let words: Vec<&str> = statement.split_whitespace().collect();
    let name = ticks_name(format);
    match words.as_slice() {
        [] => Ok(None),
        [ticks, action] => match (number(name, ticks), number("command", action)) {
            (Ok(ticks), Ok(action)) => Ok(Some(Record { ticks, action })),
            (ticks, action) => Err(ticks.err().into_iter().chain(action.err()).collect()),
        },
        _ => {
            let count = words.len();
            let expected = format!("a {name} and a command are expected");
            Err(vec![format!(
                "{expected}, two numbers; the line has {count}"
            )])
        }
    }
}

/// What the ticks of a record are called.
fn ticks_name(format: Format) -> &'static str {
    match format {
        Format::Dates => "date",
        Format::Gaps => "gap",
    }
}

/// The number of a word, which must fit its bytes.
fn number<T: TryFrom<u64>>(name: &str, word: &str) -> Result<T, String> {
    if !word.bytes().all(|byte| byte.is_ascii_digit()) {
        let word = word.escape_debug();
        return Err(format!("`{word}` is no number; a {name} is expected"));
    }
    let number: Option<u64> = word.parse().ok();
    let fitting = number.and_then(|number| number.try_into().ok());
    fitting.ok_or_else(|| {
        let most = u64::MAX >> (u64::BITS as usize - 8 * size_of::<T>());
        format!("`{word}` is too large; a {name} is at most {most}")
    })
}

/// The text of a log.
pub fn write(log: &[u8]) -> Vec<u8> {
    let mut text = Vec::new();
    for record in records(log) {
        push_number(&mut text, record.ticks);
        push_word(&mut text, record.action.into());
        text.push(b'\n');
    }
    text
}
