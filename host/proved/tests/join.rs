//! The command `join` as it is run: arguments, output, messages and exit status.

mod common;

use common::{call, call_in, file, root, text, JOIN};
use host::desk;
use host::product::{kind_named, Joiner, OUTPUT};
use host::question::{decode_sheet, encode, encode_sheet, Checks};
use host::runs::{satisfies, TimedAction};
use host::sheet;
use proved::library::Proved;
use std::process::Output;

const ROUTER: &str = include_str!("../../sheets/router.txt");
const HOUSE: &str = include_str!("../../sheets/house.txt");
const EVENING: &str = include_str!("../../sheets/evening.txt");

/// A sheet of one location, with a rule that applies up to a reading.
fn tiny(high: u8) -> String {
    format!("locations 1\nclocks 1\ncommands 1\ninitial 0\naccepting 0\nrule 0 -> 0 on 0 when clock 1 to {high}\n")
}

/// Joins two texts, in files named after the test.
fn join_as(test: &str, flags: &[&str], texts: [&str; 2]) -> (Output, [String; 2]) {
    let mut place = 0;
    let names = texts.map(|text| {
        place += 1;
        let path = file(&format!("{test}-{place}.txt"), text.as_bytes());
        path.to_string_lossy().into_owned()
    });
    let [first, second] = &names;
    let arguments = [flags, &[first, second]].concat();
    (call(JOIN, &arguments, &[]), names)
}

/// Requires these messages, in which FIRST and SECOND stand for the files, and no
/// output.
fn require_messages(test: &str, flags: &[&str], texts: [&str; 2], messages: &[&str]) {
    let (output, [first, second]) = join_as(test, flags, texts);
    let named = |message: &&str| {
        let message = message.replace("FIRST", &first).replace("SECOND", &second);
        format!("join: {message}\n")
    };
    let expected: String = messages.iter().map(named).collect();
    assert_eq!(text(&output.stderr), expected);
    assert!(output.stdout.is_empty());
    assert_eq!(output.status.code(), Some(1));
}

fn require_message(test: &str, texts: [&str; 2], message: &str) {
    require_messages(test, &[], texts, &[message]);
}

/// What the library writes for two sheets.
fn library(first: &[u8], second: &[u8]) -> Vec<u8> {
    let mut output = vec![0xAA; OUTPUT];
    let length = Proved.join(first, second, &mut output);
    output.truncate(usize::try_from(length).expect("they are joined"));
    output
}

fn sheet_of(text: &str) -> Vec<u8> {
    encode_sheet(text, Checks::All).expect("the text has no mistakes")
}

#[test]
fn printed_text() {
    let (output, [first, second]) = join_as("printed", &[], [&tiny(5), &tiny(9)]);
    let expected = format!(
        "# {first} and {second} as one sheet: a run satisfies it exactly when it satisfies both.\n\
         # Location (i, j) is i of the first and j of the second. Clock 1 is the first's, clock 2 the second's.\n\
         locations 1\nclocks 2\ncommands 1\ninitial 0\naccepting 0\n\n\
         # location 0 is (0, 0)\n\
         rule 0 -> 0 on 0 when clock 1 to 5 and clock 2 to 9\n"
    );
    assert_eq!(text(&output.stdout), expected);
    assert_eq!(text(&output.stderr), "");
    assert_eq!(output.status.code(), Some(0));
}

/// A comment for each location, also for one without rules.
#[test]
fn pairs_behind_the_locations() {
    let sheet = |locations: u8| {
        format!("locations {locations}\nclocks 1\ncommands 1\ninitial 0\naccepting none\n")
    };
    let (output, _) = join_as("pairs", &[], [&sheet(2), &sheet(3)]);
    let text = text(&output.stdout);
    let comments: Vec<&str> = text
        .lines()
        .filter(|line| line.starts_with("# location "))
        .collect();
    let expected = [
        "# location 0 is (0, 0)",
        "# location 1 is (0, 1)",
        "# location 2 is (0, 2)",
        "# location 3 is (1, 0)",
        "# location 4 is (1, 1)",
        "# location 5 is (1, 2)",
    ];
    assert_eq!(comments, expected);
}

/// The printed text is compiled to the library's bytes.
#[test]
fn text_gives_the_joined_sheet() {
    let mut compiled = 0;
    for name in ["small", "matching", "course", "largest"] {
        let kind = kind_named(name).expect("the kind exists");
        for seed in 0..8 {
            let sheets = kind.case(seed).sheets;
            let texts = sheets.each_ref().map(|bytes| {
                let text = decode_sheet(bytes, |location| format!("rules of {location}"));
                text.expect("a text gives the sheet")
            });
            let test = format!("compiled-{name}-{seed}");
            let (output, _) = join_as(&test, &[], texts.each_ref().map(String::as_str));
            assert_eq!(text(&output.stderr), "");
            let joined = sheet_of(&text(&output.stdout));
            assert_eq!(joined, library(&sheets[0], &sheets[1]));
            compiled += 1;
        }
    }
    assert_eq!(compiled, 32);
}

/// The lines of the desk program for calls on a sheet, both as text.
fn marking(sheet: &str, calls: &str) -> String {
    let input = encode(&format!("{sheet}{calls}"), Checks::All);
    desk::run(&input.expect("the text has no mistakes"))
}

/// The dates of what is played.
fn dates(lines: &str) -> Vec<u32> {
    let played = lines.lines().filter(|line| line.contains(" played "));
    let date = |line: &str| line.split(' ').nth(3)?.parse().ok();
    played.filter_map(date).collect()
}

#[test]
fn examples() {
    let files = ["host/sheets/router.txt", "host/sheets/house.txt"];
    let output = call_in(&root(), JOIN, &files, &[]);
    assert_eq!(text(&output.stderr), "");
    let joined = text(&output.stdout);
    assert_eq!(
        sheet_of(&joined),
        library(&sheet_of(ROUTER), &sheet_of(HOUSE))
    );
    assert_eq!(dates(&marking(ROUTER, EVENING)), [1, 5, 5, 9, 20]);
    assert_eq!(dates(&marking(HOUSE, EVENING)), [1, 2, 8, 10, 20]);
    assert_eq!(dates(&marking(&joined, EVENING)), [1, 5, 11, 15, 23]);
    // Each sheet takes some word that the other does not.
    let automaton = |text| sheet::read(&sheet_of(text)).expect("it loads");
    let (router, house) = (automaton(ROUTER), automaton(HOUSE));
    let word = |action, date| [TimedAction { action, date }];
    assert!(satisfies(&router, 0, &word(2, 3)) && !satisfies(&house, 0, &word(2, 3)));
    assert!(satisfies(&house, 0, &word(1, 3)) && !satisfies(&router, 0, &word(1, 3)));
}

/// The lines of a page's indented block that begins with this line.
fn block<'a>(page: &'a str, first: &str) -> Vec<&'a str> {
    let lines = page.lines().skip_while(|line| line.trim_start() != first);
    let block = lines.take_while(|line| line.is_empty() || line.starts_with("    "));
    let mut block: Vec<&str> = block
        .map(|line| line.strip_prefix("    ").unwrap_or(line))
        .collect();
    while block.last() == Some(&"") {
        block.pop();
    }
    block
}

/// The page's example prints what the page says: the beginning of the joined sheet,
/// and the marking of the calls on it.
#[test]
fn example_of_the_page() {
    let page = include_str!("../../../README.md");
    let commands = block(page, "./join host/sheets/router.txt host/sheets/house.txt");
    assert_eq!(commands.len(), 1);
    let arguments: Vec<&str> = commands[0].split(' ').skip(1).collect();
    let joined = text(&call_in(&root(), JOIN, &arguments, &[]).stdout);
    let first = joined.lines().next().expect("it has lines");
    let shown = block(page, first);
    assert!(shown.len() > 8);
    let lines: Vec<&str> = joined.lines().collect();
    assert_eq!(shown, lines[..shown.len()]);
    let marking = marking(&joined, EVENING);
    let lines: Vec<&str> = marking.lines().collect();
    assert_eq!(block(page, lines[0]), lines);
}

#[test]
fn different_commands() {
    let three = tiny(5).replace("commands 1", "commands 3");
    let message = "I-12: numbers of commands differ: 1 in the first sheet, 3 in the second";
    require_message("commands", [&tiny(5), &three], message);
    let message = "I-12: numbers of commands differ: 3 in the first sheet, 1 in the second";
    require_message("commands-turned", [&three, &tiny(5)], message);
}

#[test]
fn too_many_clocks() {
    let two = tiny(5).replace("clocks 1", "clocks 2");
    let message = "I-13: the sheets have 3 clocks in all, above 2";
    require_message("clocks-second", [&tiny(5), &two], message);
    require_message("clocks-first", [&two, &tiny(5)], message);
    require_message(
        "clocks-both",
        [&two, &two],
        "I-13: the sheets have 4 clocks in all, above 2",
    );
}

#[test]
fn too_many_locations() {
    let wide = |count: u8| tiny(5).replace("locations 1", &format!("locations {count}"));
    let message = "I-13: the joined sheet would have 4 times 5 locations, which is 20, above 16";
    require_message("locations", [&wide(4), &wide(5)], message);
    let message = "I-13: the joined sheet would have 16 times 16 locations, which is 256, above 16";
    require_message("locations-most", [&wide(16), &wide(16)], message);
    let (output, _) = join_as("locations-full", &[], [&wide(4), &wide(4)]);
    assert_eq!(output.status.code(), Some(0));
}

/// A sheet of one location with so many rules for one command.
fn crowded(count: u8) -> String {
    let header = "locations 1\nclocks 1\ncommands 1\ninitial 0\naccepting 0\n";
    let rule = |at| format!("rule 0 -> 0 on 0 when clock 1 from {at} to {at}\n");
    header.to_string() + &(0..count).map(rule).collect::<String>()
}

#[test]
fn too_many_rules() {
    let message = "I-14: the joined sheet would have 70 rules, above 64";
    require_message("rules", [&crowded(7), &crowded(10)], message);
    require_message(
        "rules-next",
        [&crowded(5), &crowded(13)],
        "I-14: the joined sheet would have 65 rules, above 64",
    );
    let (output, _) = join_as("rules-full", &[], [&crowded(8), &crowded(8)]);
    assert_eq!(output.status.code(), Some(0));
}

/// Sheets that are refused alone, with what is said of them.
fn refused_sheets() -> Vec<(String, &'static str)> {
    let header = "locations 2\nclocks 1\ncommands 1\ninitial 0\naccepting 0\n";
    let many = header.to_string() + &"rule 0 -> 0 on 0\n".repeat(73);
    let more = header.to_string() + &"rule 0 -> 0 on 0\n".repeat(65);
    vec![
        (many, "I-1: it has 525 bytes; 6 to 518 are expected"),
        (
            header.replace("clocks 1", "clocks 3"),
            "I-2: its number of locations, clocks or commands is out of range",
        ),
        (
            header.replace("initial 0", "initial 2"),
            "I-3: its initial location or an accepting one is not there",
        ),
        (
            more,
            "I-4: its rules are not placed as they must be, or are more than 64",
        ),
        (
            format!("{header}rule 0 -> 0 on 1\n"),
            "I-5: a number of a rule is out of range, a low is above its high, or a rule is about a clock that the sheet does not have",
        ),
        (
            format!("{header}rule 0 -> 0 on 0\nrule 0 -> 1 on 0\n"),
            "I-6: two rules of one location apply to one command at the same readings",
        ),
    ]
}

/// Unchecked texts leave the sheets' own refusals to the library.
#[test]
fn refused_sheets_are_named() {
    let flags = ["--unchecked"];
    for (place, (refused, words)) in refused_sheets().iter().enumerate() {
        let message = format!("FIRST: the first sheet is refused: {words}");
        let test = format!("refused-first-{place}");
        require_messages(&test, &flags, [refused, &tiny(5)], &[&message]);
        // The first one's comes first.
        let test = format!("refused-both-{place}");
        let (other, _) = &refused_sheets()[5 - place];
        require_messages(&test, &flags, [refused, other], &[&message]);
        let message = format!("SECOND: the second sheet is refused: {words}");
        let test = format!("refused-second-{place}");
        require_messages(&test, &flags, [&tiny(5), refused], &[&message]);
        // Checked, the text has a mistake.
        let (output, _) = join_as(&format!("checked-{place}"), &[], [refused, &tiny(5)]);
        assert!(text(&output.stderr).contains("-1.txt, line "));
        assert_eq!(output.status.code(), Some(1));
    }
    let (checked, _) = join_as("unchecked-right", &flags, [ROUTER, HOUSE]);
    assert_eq!(checked.status.code(), Some(0));
}

#[test]
fn mistakes_name_file_and_line() {
    let mistake = tiny(5).replace("to 5", "to 41");
    let message = "FIRST, line 6: bound 41 is out of range; 0 to 40 is expected; for no upper bound, leave `to` out";
    require_message("mistake-first", [&mistake, &tiny(5)], message);
    let message = "SECOND, line 7: this rule overlaps that of line 6; in location 0 command 0 finds both when clock 1 reads 2";
    let overlap = tiny(5) + "rule 0 -> 0 on 0 when clock 1 from 2\n";
    require_message("mistake-second", [&tiny(5), &overlap], message);
    // Those of both, and all of them.
    let two = tiny(5).replace("initial 0", "initial 1") + "rules\n";
    let unknown = "`rules` begins no line; `locations`, `clocks`, `commands`, `initial`, `accepting`, `rule`, `loaded`, `offer`, `collect` or `tail` is expected";
    let messages = [
        "FIRST, line 4: there is no location 1; 0 is expected",
        &format!("FIRST, line 7: {unknown}"),
        "SECOND, line 7: this rule overlaps that of line 6; in location 0 command 0 finds both when clock 1 reads 2",
    ];
    require_messages("mistakes", &[], [&two, &overlap], &messages);
}

#[test]
fn calls_and_loading_dates_are_mistakes() {
    let calls = tiny(5) + "\noffer 0 at 3\ncollect at 4\noffer 0 at 5\n";
    let message = "FIRST, line 8: `offer` is out of place; a sheet alone has no calls";
    require_message("calls-first", [&calls, &tiny(5)], message);
    let collect = tiny(5) + "collect at 4\n";
    let message = "SECOND, line 7: `collect` is out of place; a sheet alone has no calls";
    require_message("calls-second", [&tiny(5), &collect], message);
    let loaded = tiny(5) + "loaded at 0\n";
    let message = "FIRST, line 7: `loaded` is out of place; a sheet alone has no loading date";
    require_message("loaded", [&loaded, &tiny(5)], message);
    let all = tiny(5) + "loaded at 9\noffer 0 at 9\ntail 1 2\n";
    let messages = [
        "SECOND, line 7: `loaded` is out of place; a sheet alone has no loading date",
        "SECOND, line 8: `offer` is out of place; a sheet alone has no calls",
        "SECOND, line 9: `tail` is out of place; a sheet alone has no tail",
    ];
    require_messages("outside", &[], [&tiny(5), &all], &messages);
    require_messages(
        "outside-unchecked",
        &["--unchecked"],
        [&tiny(5), &all],
        &messages,
    );
}

/// A name with a line end stays in its comment.
#[cfg(target_os = "linux")]
#[test]
fn names_with_any_characters() {
    let odd = "odd\noffer 0 at 3 # \u{e9}.txt";
    let path = file(odd, tiny(5).as_bytes());
    let name = path.to_string_lossy();
    let output = call(JOIN, &[&name, &name], &[]);
    let printed = text(&output.stdout);
    assert!(
        printed.contains("odd\\noffer 0 at 3 # \u{e9}.txt as one sheet"),
        "{printed}"
    );
    assert_eq!(
        sheet_of(&printed),
        library(&sheet_of(&tiny(5)), &sheet_of(&tiny(5)))
    );
}

#[test]
fn wrong_arguments() {
    let one = file("arguments.txt", tiny(5).as_bytes());
    let one = one.to_string_lossy();
    let cases: [&[&str]; 9] = [
        &[],
        &[&one],
        &[&one, &one, &one],
        &["--unchecked"],
        &["--unchecked", &one],
        &[&one, "--unchecked"],
        &["-x", &one, &one],
        &[&one, "-"],
        &["--unchecked", "--unchecked", &one],
    ];
    for arguments in cases {
        let output = call(JOIN, arguments, &[]);
        assert_eq!(output.status.code(), Some(2), "{arguments:?}");
        assert_eq!(
            text(&output.stderr),
            "usage: join [--unchecked] FIRST SECOND\n"
        );
        assert!(output.stdout.is_empty());
    }
}

#[test]
fn files_that_cannot_be_read() {
    let one = file("readable.txt", tiny(5).as_bytes());
    let one = one.to_string_lossy();
    let folder = env!("CARGO_TARGET_TMPDIR");
    for name in ["no/such/file", folder] {
        for arguments in [[&*one, name], [name, &*one]] {
            let output = call(JOIN, &arguments, &[]);
            assert_eq!(output.status.code(), Some(2));
            let start = format!("join: {name} cannot be read: ");
            assert!(text(&output.stderr).starts_with(&start));
            assert!(output.stdout.is_empty());
        }
    }
}
