//! The command `convert` as it is run: arguments, output, messages and exit
//! status.

mod common;

use common::{call, call_in, file, root, text, CONVERT};
use std::process::Output;

const EXAMPLE: &[u8] = include_bytes!("../../logs/example2.txt");
const EVENING: &[u8] = include_bytes!("../../logs/evening.txt");

/// The example of document 002, in gaps and in dates.
const EXAMPLE_GAPS: &[u8] = &[1, 0, 0, 0, 0, 3, 0, 0, 0, 1, 1, 0, 0, 0, 1];
const EXAMPLE_DATES: &[u8] = &[1, 0, 0, 0, 0, 4, 0, 0, 0, 1, 5, 0, 0, 0, 1];

/// Converts standard input.
fn convert(arguments: &[&str], input: &[u8]) -> Output {
    call(CONVERT, arguments, input)
}

/// Requires an output, with no message.
fn require(arguments: &[&str], input: &[u8], output: &[u8]) {
    let found = convert(arguments, input);
    assert_eq!(text(&found.stderr), "");
    assert_eq!(text(&found.stdout), text(output));
    assert_eq!(found.stdout, output);
    assert_eq!(found.status.code(), Some(0));
}

/// Requires these messages, each after the command's name, and no output.
fn require_messages(arguments: &[&str], input: &[u8], messages: &[&str]) {
    let found = convert(arguments, input);
    let lines = messages
        .iter()
        .map(|message| format!("convert: {message}\n"));
    assert_eq!(text(&found.stderr), lines.collect::<String>());
    assert!(found.stdout.is_empty());
    assert_eq!(found.status.code(), Some(1));
}

/// Requires a refusal of a log in bytes from standard input.
fn require_refused(way: &str, log: &[u8], message: &str) {
    require_messages(&[way], log, &[&format!("standard input: {message}")]);
}

/// Requires a refusal of a log in text from standard input.
fn require_refused_text(way: &str, log: &str, message: &str) {
    let message = format!("standard input: {message}");
    require_messages(&[way, "--text"], log.as_bytes(), &[&message]);
}

#[test]
fn bytes_each_way() {
    require(&["to-dates"], EXAMPLE_GAPS, EXAMPLE_DATES);
    require(&["to-gaps"], EXAMPLE_DATES, EXAMPLE_GAPS);
    require(&["to-dates"], &[], &[]);
    require(&["to-gaps"], &[], &[]);
}

#[test]
fn bytes_of_large_numbers() {
    // 1,000,000,000 is 0x3B9ACA00; the bytes 10 and 13 are no line ends here.
    let dates = [10, 13, 0, 0, 10, 0x00, 0xCA, 0x9A, 0x3B, 255];
    let gaps = [10, 13, 0, 0, 10, 0xF6, 0xBC, 0x9A, 0x3B, 255];
    require(&["to-gaps"], &dates, &gaps);
    require(&["to-dates"], &gaps, &dates);
}

#[test]
fn text_each_way() {
    require(&["to-dates", "--text"], EXAMPLE, b"1 0\n4 1\n5 1\n");
    require(
        &["to-gaps", "--text"],
        b"1 0\n4 1\n5 1\n",
        b"1 0\n3 1\n1 1\n",
    );
    let gaps = "0 0\n250 4\n44750 1\n0 2\n750 2\n500 2\n250 3\n0 4\n88500 1\n0 2\n1125 3\n0 4\n133874 4\n1 5\n";
    require(&["to-gaps", "--text"], EVENING, gaps.as_bytes());
    let dates = convert(&["to-dates", "--text"], gaps.as_bytes());
    require(&["to-gaps", "--text"], &dates.stdout, gaps.as_bytes());
}

#[test]
fn text_with_comments_and_blanks() {
    let log = "\u{feff}# a log\r\n\r\n  7\t255 # the last command\r\n\t \n007 0#again\n   # no more\n1000000000 1";
    let gaps = b"7 255\n0 0\n999999993 1\n";
    require(&["to-gaps", "--text"], log.as_bytes(), gaps);
    // A comment may have any bytes.
    require(&["to-gaps", "--text"], b"1 2 # caf\xe9\n", b"1 2\n");
    for nothing in ["", "\n", "# nothing", "\r\n\r\n"] {
        require(&["to-dates", "--text"], nothing.as_bytes(), b"");
    }
}

#[test]
fn files_are_read() {
    let bytes = file("example.bin", EXAMPLE_GAPS);
    require(&["to-dates", &bytes.to_string_lossy()], &[], EXAMPLE_DATES);
    let log = file("example.txt", EXAMPLE);
    let arguments = ["to-dates", "--text", &log.to_string_lossy()];
    require(&arguments, b"1 2 3", b"1 0\n4 1\n5 1\n");
}

#[test]
fn wrong_lengths() {
    let message = "record 2: I-9: it has 2 of 5 bytes; the log has 7, no multiple of 5";
    require_refused("to-gaps", &[0; 7], message);
    require_refused("to-dates", &[0; 7], message);
    let message = "record 1: I-9: it has 1 of 5 bytes; the log has 1, no multiple of 5";
    require_refused("to-gaps", &[9], message);
    // Other faults come after it.
    let message = "record 3: I-9: it has 4 of 5 bytes; the log has 14, no multiple of 5";
    require_refused("to-gaps", &[255; 14], message);
}

#[test]
fn late_dates() {
    let log = [0, 0, 0, 0, 0, 0x01, 0xCA, 0x9A, 0x3B, 0];
    let message = "record 2: I-10: its date 1000000001 is above 1000000000";
    require_refused("to-gaps", &log, message);
    let message = "record 1: I-10: its date 4294967295 is above 1000000000";
    require_refused("to-gaps", &[255; 10], message);
    let message = "record 2 (line 4): I-10: its date 1000000001 is above 1000000000";
    require_refused_text("to-gaps", "# two\n1 0\n\n1000000001 0\n0 0\n", message);
}

#[test]
fn late_sums() {
    let message =
        "record 1: I-10: its gap 4294967295 leads from 0 to 4294967295, which is above 1000000000";
    require_refused("to-dates", &[255; 10], message);
    let message = "record 3 (line 3): I-10: its gap 4294967295 leads from 12 to 4294967307, which is above 1000000000";
    require_refused_text("to-dates", "5 0\n7 0\n4294967295 0\n1 0\n", message);
    let message = "record 2 (line 3): I-10: its gap 1 leads from 1000000000 to 1000000001, which is above 1000000000";
    require_refused_text("to-dates", "1000000000 0\n\n1 0 # one more\n", message);
}

#[test]
fn falling_dates() {
    let message = "record 3 (line 5): I-11: its date 5 is below 9, that of the record before it";
    require_refused_text("to-gaps", "3 0\n# falls\n9 1\n\n5 2\n4 3\n", message);
    let message = "record 2: I-11: its date 1 is below 256, that of the record before it";
    require_refused("to-gaps", &[0, 1, 0, 0, 0, 1, 0, 0, 0, 0], message);
    // The same numbers are gaps that are accepted.
    require(
        &["to-dates", "--text"],
        b"3 0\n9 1\n5 2\n",
        b"3 0\n12 1\n17 2\n",
    );
}

#[test]
fn messages_name_the_file() {
    let log = file("falling.txt", b"9 0\n8 0\n");
    let name = log.to_string_lossy();
    let message = "record 2 (line 2): I-11: its date 8 is below 9, that of the record before it";
    require_messages(
        &["to-gaps", "--text", &name],
        &[],
        &[&format!("{name}: {message}")],
    );
    let log = file("mistake.txt", b"9 0\n8\n");
    let name = log.to_string_lossy();
    let message = "line 2: a date and a command are expected, two numbers; the line has 1";
    require_messages(
        &["to-gaps", "--text", &name],
        &[],
        &[&format!("{name}, {message}")],
    );
}

#[test]
fn mistakes_in_a_text() {
    let cases: [(&[u8], &str); 11] = [
        (
            b"5",
            "a gap and a command are expected, two numbers; the line has 1",
        ),
        (
            b"5 6 7",
            "a gap and a command are expected, two numbers; the line has 3",
        ),
        (b"x 0", "`x` is no number; a gap is expected"),
        (b"-1 0", "`-1` is no number; a gap is expected"),
        (b"+1 0", "`+1` is no number; a gap is expected"),
        (b"1 0x1", "`0x1` is no number; a command is expected"),
        (b"1.5 0", "`1.5` is no number; a gap is expected"),
        (
            b"4294967296 0",
            "`4294967296` is too large; a gap is at most 4294967295",
        ),
        (b"1 256", "`256` is too large; a command is at most 255"),
        (
            b"99999999999999999999 0",
            "`99999999999999999999` is too large; a gap is at most 4294967295",
        ),
        (b"1 \xff", "the line is no UTF-8"),
    ];
    for (line, message) in cases {
        let log = [b"# one\n1 0\n", line, b"\n2 0\n"].concat();
        let message = format!("standard input, line 3: {message}");
        require_messages(&["to-dates", "--text"], &log, &[&message]);
    }
}

#[test]
fn each_mistake_has_its_message() {
    let messages = [
        "standard input, line 1: `a` is no number; a date is expected",
        "standard input, line 1: `300` is too large; a command is at most 255",
        "standard input, line 3: a date and a command are expected, two numbers; the line has 4",
        "standard input, line 4: the line is no UTF-8",
    ];
    // The falling date gets no message as long as there are mistakes.
    let log = b"a 300\n9 0\n1 2 3 4\n\xc3\x28 1\n8 0\n";
    require_messages(&["to-gaps", "--text"], log, &messages);
}

#[test]
fn wrong_arguments() {
    let cases: [&[&str]; 10] = [
        &[],
        &["--text"],
        &["to-ticks"],
        &["to-gaps", "-x"],
        &["to-gaps", "--text", "-"],
        &["to-gaps", "--text", "--text"],
        &["to-gaps", "--", "file"],
        &["to-dates", "one", "two"],
        &["to-dates", "file", "--text"],
        &["file", "to-dates"],
    ];
    for arguments in cases {
        let output = convert(arguments, EXAMPLE_GAPS);
        assert_eq!(output.status.code(), Some(2), "{arguments:?}");
        assert!(text(&output.stderr).starts_with("usage: convert to-gaps "));
        assert!(output.stdout.is_empty());
    }
}

#[test]
fn files_that_cannot_be_read() {
    let folder = env!("CARGO_TARGET_TMPDIR");
    for name in ["no/such/file", folder] {
        let output = convert(&["to-gaps", name], &[]);
        assert_eq!(output.status.code(), Some(2));
        let start = format!("convert: {name} cannot be read: ");
        assert!(text(&output.stderr).starts_with(&start));
        assert!(output.stdout.is_empty());
    }
}

/// A device that takes no output.
#[cfg(target_os = "linux")]
#[test]
fn output_that_cannot_be_written() {
    use std::fs::OpenOptions;
    use std::process::Command;
    let full = OpenOptions::new().write(true).open("/dev/full");
    let log = file("written.bin", EXAMPLE_GAPS);
    let mut command = Command::new(CONVERT);
    command.arg("to-dates").arg(log);
    let output = command.stdout(full.expect("the device is there")).output();
    let output = output.expect("the program runs");
    assert_eq!(output.status.code(), Some(2));
    assert!(text(&output.stderr).starts_with("convert: the output cannot be written: "));
}

#[test]
fn long_log() {
    // A record each tick, with all commands in turn.
    let lines = |ticks: fn(u32) -> u32| {
        let line = |place| format!("{} {}\n", ticks(place), place % 256);
        (0..20_000).map(line).collect::<String>()
    };
    let dates = lines(|place| place);
    let gaps = lines(|place| place.min(1));
    require(&["to-gaps", "--text"], dates.as_bytes(), gaps.as_bytes());
    require(&["to-dates", "--text"], gaps.as_bytes(), dates.as_bytes());
}

/// Requires that a page's example prints what the page says.
fn require_example(page: &str) {
    let mut lines = page.lines().map(str::trim_start);
    let command = lines.find_map(|line| line.strip_prefix("./convert "));
    let arguments: Vec<&str> = command.expect("it is there").split(' ').collect();
    assert_eq!(arguments, ["to-dates", "--text", "host/logs/example2.txt"]);
    let printed = lines
        .skip(1)
        .skip_while(|line| !line.starts_with(char::is_numeric));
    let printed = printed.take_while(|line| !line.is_empty());
    let expected: String = printed.map(|line| format!("{line}\n")).collect();
    let output = call_in(&root(), CONVERT, &arguments, &[]);
    assert_eq!(text(&output.stdout), expected);
    assert_eq!(expected, "1 0\n4 1\n5 1\n");
}

/// The pages that tell how to use the command.
#[test]
fn examples_of_the_pages() {
    require_example(include_str!("../../README.md"));
    require_example(include_str!("../../../README.md"));
}
