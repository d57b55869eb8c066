//! Joins two sheets that are written as text, with the proved library.

use host::filter::{Filter, Filtered, Input};
use host::product::{reason, Joiner, OUTPUT};
use host::question::{encode_sheet, Checks, Mistake};
use proved::library::Proved;
use proved::sheets::refused::Pair;
use proved::sheets::text;
use std::ffi::OsString;
use std::process::ExitCode;

const JOIN: Filter = Filter {
    name: "join",
    usage: "usage: join [--unchecked] FIRST SECOND",
};

fn main() -> ExitCode {
    JOIN.run_two(parse, join)
}

/// Which faults of a text are mistakes, and the words after that.
fn parse(arguments: &[OsString]) -> Option<(Checks, &[OsString])> {
    match arguments {
        [flag, rest @ ..] if flag == "--unchecked" => Some((Checks::Bytes, rest)),
        _ => Some((Checks::All, arguments)),
    }
}

fn join(checks: Checks, inputs: &[Input; 2]) -> Filtered {
    let [first, second] = inputs.each_ref().map(|input| read(checks, input));
    let (first, second) = match (first, second) {
        (Ok(first), Ok(second)) => (first, second),
        (first, second) => {
            let messages = first.err().into_iter().chain(second.err());
            return Err(messages.flatten().collect());
        }
    };
    let mut output = [0; OUTPUT];
    let result = Proved.join(&first, &second, &mut output);
    let pair = Pair {
        names: inputs.each_ref().map(|input| input.name.as_str()),
        sheets: [&first, &second],
    };
    let message = match (reason(result), joined(&output, result)) {
        (Some(reason), _) => pair.message(reason),
        (None, None) => format!("the library's result is {result}, which means nothing"),
        (None, Some(joined)) => match text::write(pair.names, second[0], joined) {
            Ok(text) => return Ok(text.into_bytes()),
            Err(problem) => format!("no text gives the joined sheet: {problem}"),
        },
    };
    Err(vec![message])
}

/// The sheet of a text, or the messages for its mistakes.
fn read(checks: Checks, input: &Input) -> Result<Vec<u8>, Vec<String>> {
    // Comments may have any bytes; elsewhere they are no words.
    let text = String::from_utf8_lossy(&input.bytes);
    let message = |mistake: &Mistake| format!("{}, {mistake}", input.name);
    let mistakes = |mistakes: Vec<Mistake>| mistakes.iter().map(message).collect();
    encode_sheet(&text, checks).map_err(mistakes)
}

/// The joined sheet, if the result is its length.
fn joined(output: &[u8], result: i32) -> Option<&[u8]> {
    output.get(..usize::try_from(result).ok()?)
}
