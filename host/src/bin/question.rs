//! Turns a question's text into the desk program's input, and back, and names the
//! program that reads the input.

use host::filter::{Filter, Filtered};
use host::loading::Loading;
use host::question::{decode_as, encode, loading, Checks, Mistake};
use std::ffi::OsString;
use std::process::ExitCode;

const QUESTION: Filter = Filter {
    name: "question",
    usage: "usage: question encode [--unchecked] [FILE]
       question decode [--at] [FILE]
       question program [FILE]",
};

/// What to do with the input.
#[derive(Clone, Copy)]
enum Task {
    Encode(Checks),
    Decode(Loading),
    Program,
}

fn main() -> ExitCode {
    QUESTION.run(parse, convert)
}

/// The task and the words after it, or nothing if the arguments are wrong.
fn parse(arguments: &[OsString]) -> Option<(Task, &[OsString])> {
    let (task, rest) = arguments.split_first()?;
    match (task.to_str()?, rest) {
        ("encode", [flag, rest @ ..]) if flag == "--unchecked" => {
            Some((Task::Encode(Checks::Bytes), rest))
        }
        ("encode", rest) => Some((Task::Encode(Checks::All), rest)),
        ("decode", rest) => {
            let (loading, rest) = Loading::parse(rest);
            Some((Task::Decode(loading), rest))
        }
        ("program", rest) => Some((Task::Program, rest)),
        _ => None,
    }
}

fn convert(task: Task, input: &[u8]) -> Filtered {
    // Comments may have any bytes; elsewhere they are no words.
    let text = String::from_utf8_lossy(input);
    match task {
        Task::Encode(checks) => encode(&text, checks).map_err(messages),
        Task::Program => {
            let name = |loading: Loading| format!("{}\n", loading.program()).into_bytes();
            loading(&text).map(name).map_err(messages)
        }
        Task::Decode(loading) => {
            let message = |problem| vec![format!(": no text gives this input: {problem}")];
            let text = decode_as(loading, input);
            text.map(String::into_bytes).map_err(message)
        }
    }
}

/// Mistakes as they follow the name of the text.
fn messages(mistakes: Vec<Mistake>) -> Vec<String> {
    let message = |mistake: &Mistake| format!(", {mistake}");
    mistakes.iter().map(message).collect()
}
