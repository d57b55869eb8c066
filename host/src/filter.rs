//! A command that turns a file, or standard input, into standard output; or two
//! files.

use std::ffi::{OsStr, OsString};
use std::io::{self, Read, Write};
use std::process::ExitCode;

/// What such a command is called, and how it is used.
pub struct Filter {
    pub name: &'static str,
    pub usage: &'static str,
}

/// What was read, and where from.
pub struct Input {
    pub name: String,
    pub bytes: Vec<u8>,
}

/// The output, or the messages against the input, as they follow its name.
pub type Filtered = Result<Vec<u8>, Vec<String>>;

impl Filter {
    /// Runs as a program. `parse` gives the task and the words after it, of which
    /// there may be one more, the file; nothing if the arguments are wrong.
    /// Exit status: 0; 1 with messages; 2 for wrong arguments, a file that cannot
    /// be read or output that cannot be written.
    pub fn run<T>(
        &self,
        parse: impl Fn(&[OsString]) -> Option<(T, &[OsString])>,
        convert: impl Fn(T, &[u8]) -> Filtered,
    ) -> ExitCode {
        let arguments: Vec<OsString> = std::env::args_os().skip(1).collect();
        let parsed = parse(&arguments).and_then(|(task, rest)| Some((task, file(rest)?)));
        let Some((task, file)) = parsed else {
            eprintln!("{}", self.usage);
            return ExitCode::from(2);
        };
        match self.read(file) {
            Ok(input) => self.tell(&input.name, convert(task, &input.bytes)),
            Err(status) => status,
        }
    }

    /// The same for two files. The messages name the file that they are about.
    pub fn run_two<T>(
        &self,
        parse: impl Fn(&[OsString]) -> Option<(T, &[OsString])>,
        convert: impl Fn(T, &[Input; 2]) -> Filtered,
    ) -> ExitCode {
        let arguments: Vec<OsString> = std::env::args_os().skip(1).collect();
        let parsed = parse(&arguments).and_then(|(task, rest)| Some((task, two_files(rest)?)));
        let Some((task, [first, second])) = parsed else {
            eprintln!("{}", self.usage);
            return ExitCode::from(2);
        };
        let first = self.read(Some(first));
        match first.and_then(|first| Ok([first, self.read(Some(second))?])) {
            Ok(inputs) => self.tell("", convert(task, &inputs)),
            Err(status) => status,
        }
    }

    /// Reads a file, or standard input. What cannot be read gets a message, and
    /// the exit status is given.
    fn read(&self, file: Option<&OsStr>) -> Result<Input, ExitCode> {
        let name = match file {
            Some(file) => file.to_string_lossy().into_owned(),
            None => "standard input".into(),
        };
        match read(file) {
            Ok(bytes) => Ok(Input { name, bytes }),
            Err(error) => {
                let (command, usage) = (self.name, self.usage);
                eprintln!("{command}: {name} cannot be read: {error}\n{usage}");
                Err(ExitCode::from(2))
            }
        }
    }

    /// Writes the output, or the messages, with the input's name.
    fn tell(&self, input: &str, filtered: Filtered) -> ExitCode {
        let name = self.name;
        match filtered {
            Ok(output) => {
                let mut out = io::stdout().lock();
                let Err(error) = out.write_all(&output).and_then(|()| out.flush()) else {
                    return ExitCode::SUCCESS;
                };
                eprintln!("{name}: the output cannot be written: {error}");
                ExitCode::from(2)
            }
            Err(messages) => {
                for message in messages {
                    eprintln!("{name}: {input}{message}");
                }
                ExitCode::FAILURE
            }
        }
    }
}

/// The file that words name: at most one, which does not look like a flag.
fn file(words: &[OsString]) -> Option<Option<&OsStr>> {
    match words {
        [] => Some(None),
        [file] if !is_flag(file) => Some(Some(file)),
        _ => None,
    }
}

/// The two files that words name.
fn two_files(words: &[OsString]) -> Option<[&OsStr; 2]> {
    match words {
        [first, second] if !is_flag(first) && !is_flag(second) => Some([first, second]),
        _ => None,
    }
}

fn is_flag(word: &OsStr) -> bool {
    word.as_encoded_bytes().starts_with(b"-")
}

fn read(file: Option<&OsStr>) -> io::Result<Vec<u8>> {
    if let Some(file) = file {
        return std::fs::read(file);
    }
    let mut input = Vec::new();
    io::stdin().lock().read_to_end(&mut input)?;
    Ok(input)
}
