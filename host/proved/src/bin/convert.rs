//! Converts a log in dates to one in gaps, and back, with the proved library.

use host::filter::{Filter, Filtered};
use host::log::{reason, Converter, Format};
use host::question::Mistake;
use proved::library::Proved;
use proved::logs::refused::Source;
use proved::logs::text::{self, Text};
use std::ffi::OsString;
use std::process::ExitCode;

const CONVERT: Filter = Filter {
    name: "convert",
    usage: "usage: convert to-gaps [--text] [FILE]\n       convert to-dates [--text] [FILE]",
};

/// What to do with the input.
#[derive(Clone, Copy)]
struct Task {
    from: Format,
    /// Whether logs are texts.
    text: bool,
}

fn main() -> ExitCode {
    CONVERT.run(parse, convert)
}

/// The task and the words after it, or nothing if the arguments are wrong.
fn parse(arguments: &[OsString]) -> Option<(Task, &[OsString])> {
    let (from, rest) = arguments.split_first()?;
    let from = match from.to_str()? {
        "to-gaps" => Format::Dates,
        "to-dates" => Format::Gaps,
        _ => return None,
    };
    Some(match rest {
        [flag, rest @ ..] if flag == "--text" => (Task { from, text: true }, rest),
        _ => (Task { from, text: false }, rest),
    })
}

fn convert(task: Task, input: &[u8]) -> Filtered {
    let Text { log, lines } = if task.text {
        let message = |mistake: &Mistake| format!(", {mistake}");
        let read = text::read(task.from, input);
        read.map_err(|mistakes| mistakes.iter().map(message).collect::<Vec<_>>())?
    } else {
        Text {
            log: input.to_vec(),
            lines: Vec::new(),
        }
    };
    let mut output = vec![0; log.len()];
    let result = Proved.convert(task.from, &log, &mut output);
    if result != 0 {
        let source = Source {
            format: task.from,
            log: &log,
            lines: &lines,
        };
        let message = match reason(result) {
            Some(reason) => source.message(reason),
            None => format!("the library's result is {result}, which means nothing"),
        };
        return Err(vec![format!(": {message}")]);
    }
    Ok(if task.text {
        text::write(&output)
    } else {
        output
    })
}
