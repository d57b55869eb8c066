//! Questions as text: the files' bytes, the ways there and back, and the
//! message for every mistake.

mod common;

use common::{call_with, input, input_at, COLLECT};
use host::desk;
use host::generate::KINDS;
use host::limits::LAST_DATE;
use host::loading::Loading;
use host::monitor::Monitor;
use host::question::{decode, decode_as, decode_sheet, encode, encode_sheet, loading, Checks};
use host::random::Random;
use host::refusal::Refusal;
use host::sheet;
use std::path::Path;
use std::process::Output;

const QUESTION: &str = env!("CARGO_BIN_EXE_question");

/// The course sheets, written out from document 01's words.
const A: &[u8] = &[
    2, 1, 2, 0, 3, 0, 14, 0, 14, 0, 28, 0, 14, 0, 0, 0, 0, 0, 255, 0, 255, 1, 1, 1, 0, 255, 0, 255,
    0, 1, 0, 0, 255, 0, 255, 1, 1, 1, 5, 255, 0, 255,
];
const B: &[u8] = &[
    3, 1, 2, 0, 4, 0, 18, 0, 7, 0, 25, 0, 7, 0, 32, 0, 0, 0, //
    0, 1, 1, 0, 255, 0, 255, //
    1, 2, 0, 10, 15, 0, 255,
];
const C: &[u8] = &[
    3, 1, 2, 0, 4, 0, 18, 0, 7, 0, 25, 0, 7, 0, 32, 0, 0, 0, //
    0, 1, 0, 0, 8, 0, 255, //
    1, 2, 0, 0, 20, 0, 255,
];
const D: &[u8] = &[
    3, 1, 2, 0, 4, 0, 18, 0, 7, 0, 25, 0, 7, 0, 32, 0, 0, 0, //
    0, 1, 0, 0, 255, 0, 255, //
    1, 2, 0, 10, 255, 0, 255,
];
const E: &[u8] = &[
    2, 1, 2, 0, 2, 0, 14, 0, 14, 0, 28, 0, 0, 0, //
    0, 0, 0, 0, 255, 0, 255, //
    1, 1, 0, 0, 255, 0, 255,
];

const A_TEXT: &str = include_str!("../questions/a.txt");
const B_TEXT: &str = include_str!("../questions/b.txt");
const C_TEXT: &str = include_str!("../questions/c.txt");
const D_TEXT: &str = include_str!("../questions/d.txt");
const E_TEXT: &str = include_str!("../questions/e.txt");
const EXAMPLE: &str = include_str!("../questions/example.txt");
const BLOCK: &str = include_str!("../questions/block.txt");
const TAIL: &str = include_str!("../questions/tail.txt");
const LARGEST: &str = include_str!("../questions/largest.txt");
const LONGEST: &str = include_str!("../questions/longest.txt");
const MIDDAY: &str = include_str!("../questions/midday.txt");
const AT_LIMIT: &str = include_str!("../questions/at_limit.txt");
const LOADED_LATE: &str = include_str!("../questions/loaded_late.txt");
const SETTLE: &str = include_str!("../questions/settle.txt");

/// Questions P1 to P10.
const KEYED: [&str; 10] = [
    include_str!("../questions/p01.txt"),
    include_str!("../questions/p02.txt"),
    include_str!("../questions/p03.txt"),
    include_str!("../questions/p04.txt"),
    include_str!("../questions/p05.txt"),
    include_str!("../questions/p06.txt"),
    include_str!("../questions/p07.txt"),
    include_str!("../questions/p08.txt"),
    include_str!("../questions/p09.txt"),
    include_str!("../questions/p10.txt"),
];

/// Five lines of a header: 3 locations, 1 clock, 2 commands.
const HEADER: &str = "locations 3\nclocks 1\ncommands 2\ninitial 0\naccepting 2\n";
/// The same with two clocks.
const TWO_CLOCKS: &str = "locations 3\nclocks 2\ncommands 2\ninitial 0\naccepting 2\n";

fn checked(text: &str) -> Vec<u8> {
    encode(text, Checks::All).expect("the text has no mistake")
}

fn unchecked(text: &str) -> Vec<u8> {
    encode(text, Checks::Bytes).expect("bytes can express the text")
}

/// The desk program's first line for a text about a refused sheet.
fn refusal_of(text: &str) -> String {
    assert!(encode(text, Checks::All).is_err(), "{text}");
    let loading = loading(text).expect("bytes can express the text");
    let lines = desk::run_as::<Monitor>(loading, &unchecked(text));
    lines.lines().next().unwrap_or_default().to_string()
}

/// Requires one mistake, in this line, whose message has these words.
fn require_with(checks: Checks, text: &str, line: usize, words: &[&str]) {
    let mistakes = encode(text, checks).expect_err("the text has a mistake");
    assert_eq!(mistakes.len(), 1, "{mistakes:?}");
    let message = mistakes[0].to_string();
    assert!(message.starts_with(&format!("line {line}: ")), "{message}");
    for word in words {
        assert!(message.contains(word), "{message} has no {word}");
    }
}

fn require(text: &str, line: usize, words: &[&str]) {
    require_with(Checks::All, text, line, words);
}

/// Requires a mistake in the one line after the header, which is line 6.
fn require_in(statement: &str, words: &[&str]) {
    require(&format!("{HEADER}{statement}\n"), 6, words);
}

/// Requires the mistake whatever is checked.
fn require_always(statement: &str, words: &[&str]) {
    let text = format!("{HEADER}{statement}\n");
    require_with(Checks::All, &text, 6, words);
    require_with(Checks::Bytes, &text, 6, words);
}

// The files.

#[test]
fn files_of_sheets() {
    let sheets = [A, B, C, D, E];
    let texts = [A_TEXT, B_TEXT, C_TEXT, D_TEXT, E_TEXT];
    assert_eq!(A.len(), 42);
    for (sheet, text) in sheets.into_iter().zip(texts) {
        assert_eq!(checked(text), input(sheet, &[]));
    }
    assert_eq!(&checked(A_TEXT)[..2], [42, 0]);
}

#[test]
fn files_of_questions() {
    let mut seventeen = [(0, 0); 18];
    seventeen[17] = (1, 0);
    let inputs = [
        input(A, &[(1, 4), (1, 5)]),
        input(A, &[(1, 4), (1, 5), (0, 6)]),
        input(A, &[(1, 4), (1, 5), (0, 6), (1, 6)]),
        input(B, &[(1, 0)]),
        input(B, &[(0, 3), (1, 5)]),
        input(B, &[(0, 3), (1, 5), (0, 5)]),
        input(C, &[(0, 5), (COLLECT, 8), (1, 8)]),
        input(C, &[(0, 5), (COLLECT, 9), (1, 9)]),
        input(D, &[(0, 2), (1, 3)]),
        input(E, &seventeen),
    ];
    for (text, input) in KEYED.into_iter().zip(inputs) {
        assert_eq!(checked(text), input, "{text}");
    }
}

#[test]
fn file_of_the_example() {
    let calls = [
        (0, 1),
        (1, 4),
        (1, 5),
        (COLLECT, 3),
        (COLLECT, 5),
        (COLLECT, 8),
        (COLLECT, 8),
    ];
    assert_eq!(checked(EXAMPLE), input(A, &calls));
}

#[test]
fn file_of_the_longest_correction() {
    let lines = desk::run(&checked(LONGEST));
    assert!(lines.ends_with("16 held 16 lamp 0\n17 scheduled 17 680 lamp 1\n"));
}

#[test]
fn files_with_loading_dates() {
    let noon = 43_200;
    let calls = [
        (0, 5),
        (COLLECT, noon - 1),
        (0, noon + 5),
        (COLLECT, noon + 8),
        (1, noon + 8),
        (COLLECT, noon + 8),
        (COLLECT, noon + 10),
        (COLLECT, noon + 10),
    ];
    assert_eq!(checked(MIDDAY), input_at(noon, C, &calls));
    let last = LAST_DATE;
    let calls = [
        (COLLECT, last - 1),
        (0, last + 1),
        (1, last),
        (1, last),
        (0, last),
        (COLLECT, last),
        (COLLECT, last),
        (COLLECT, last),
    ];
    assert_eq!(checked(AT_LIMIT), input_at(last, A, &calls));
    let late = input_at(last + 1, A, &[(0, last + 1)]);
    assert_eq!(unchecked(LOADED_LATE), late);
    assert_eq!(refusal_of(LOADED_LATE), "sheet refused I-8");
}

#[test]
fn files_with_loading_dates_get_their_keys() {
    let expected = "sheet 3 1 2 2 1\n\
        1 refused S-1 lamp 0\n\
        2 refused S-1 lamp 0\n\
        3 held 1 lamp 0\n\
        4 none lamp 0\n\
        5 scheduled 2 43208 lamp 1\n\
        6 played 0 43208 1 43205 lamp 1\n\
        7 played 1 43208 2 43208 lamp 1\n\
        8 none lamp 1\n";
    assert_eq!(desk::run_at(&checked(MIDDAY)), expected);
    let expected = "sheet 2 1 2 4 2\n\
        1 refused S-1 lamp 0\n\
        2 refused I-8 lamp 0\n\
        3 scheduled 1 1000000000 lamp 0\n\
        4 refused S-2 lamp 0\n\
        5 scheduled 1 1000000000 lamp 0\n\
        6 played 1 1000000000 1 1000000000 lamp 0\n\
        7 played 0 1000000000 2 1000000000 lamp 0\n\
        8 none lamp 0\n";
    assert_eq!(desk::run_at(&checked(AT_LIMIT)), expected);
}

#[test]
fn files_get_their_keys() {
    let keys: [&[&str]; 10] = [
        &["scheduled 1 4 lamp 0", "scheduled 1 9 lamp 0"],
        &["scheduled 1 9 lamp 0"],
        &["scheduled 1 14 lamp 0"],
        &["dropped lamp 0"],
        &["held 1 lamp 0", "scheduled 2 15 lamp 1"],
        &["dropped lamp 1"],
        &["held 1 lamp 0", "none lamp 0", "scheduled 2 8 lamp 1"],
        &["held 1 lamp 0", "none lamp 1", "dropped lamp 1"],
        &["held 1 lamp 0", "scheduled 2 10 lamp 1"],
        &[
            "held 16 lamp 0",
            "refused S-4 lamp 0",
            "scheduled 17 0 lamp 1",
        ],
    ];
    for (text, key) in KEYED.into_iter().zip(keys) {
        let output = desk::run(&checked(text));
        let lines: Vec<&str> = output.lines().collect();
        let last = &lines[lines.len() - key.len()..];
        for (line, expected) in last.iter().zip(key) {
            let answer = line.split_once(' ').map(|(_, answer)| answer);
            assert_eq!(answer, Some(*expected), "{text}");
        }
    }
}

#[test]
fn the_file_with_a_large_bound_gets_its_key() {
    let expected = "sheet 2 1 2 2 1\n\
        1 held 1 lamp 0\n\
        2 scheduled 2 48 lamp 0\n\
        3 held 1 lamp 0\n\
        4 scheduled 2 84 lamp 0\n\
        5 played 0 12 1 10 lamp 0\n\
        6 none lamp 0\n\
        7 played 1 48 2 12 lamp 0\n";
    assert_eq!(desk::run(&checked(SETTLE)), expected);
}

#[test]
fn files_say_question_and_key() {
    for (number, text) in (1..).zip(KEYED) {
        assert!(text.starts_with(&format!("# P{number}: sheet ")));
        assert!(text.lines().any(|line| line.starts_with("# Key: ")));
    }
    for text in [EXAMPLE, MIDDAY, AT_LIMIT, SETTLE] {
        assert!(text.lines().any(|line| line.starts_with("# Key: ")));
    }
}

// The format.

#[test]
fn all_that_a_rule_can_say() {
    let text = format!(
        "{TWO_CLOCKS}\
         rule 2 -> 0 on 1 when clock 2 to 8 and clock 1 from 5 reset 2 and 1\n\
         rule 0 -> 1 on 0\n\
         rule 0->2 on 1 when clock 1 from 3 to 3 reset 2 # no blanks\n\
         rule 2 -> 1 on 0 when clock 2 from 40 reset 1\n\
         offer 1 at 4\n\
         collect at 7\n"
    );
    let rules: [&[[u8; 7]]; 3] = [
        &[[0, 1, 0, 0, 255, 0, 255], [1, 2, 2, 3, 3, 0, 255]],
        &[],
        &[[1, 0, 3, 5, 255, 0, 8], [0, 1, 1, 0, 255, 40, 255]],
    ];
    let sheet = common::sheet_of([3, 2, 2, 0], 4, &rules);
    assert_eq!(checked(&text), input(&sheet, &[(1, 4), (COLLECT, 7)]));
}

#[test]
fn canonical_text() {
    let text = "\u{feff}# comment\r\n\
        accepting 2 and 0#comment\r\n\r\n\
        \tinitial   01\n commands 2\nclocks 2\nlocations 3\n\
        rule 2 -> 0 on 1 when clock 2 from 0 to 8 and clock 1 from 5 reset 2 and 1\n\
        rule 0->1 on 0 when clock 1 from 0\n\
        collect at 007\n offer 254 at 4294967295 # late\n\
        tail 0 255";
    let canonical = "locations 3\nclocks 2\ncommands 2\ninitial 1\naccepting 0 and 2\n\
        \n\
        rule 0 -> 1 on 0\n\
        rule 2 -> 0 on 1 when clock 1 from 5 and clock 2 to 8 reset 1 and 2\n\
        \n\
        collect at 7\n\
        offer 254 at 4294967295\n\
        tail 0 255\n";
    assert_eq!(decode(&checked(text)).as_deref(), Ok(canonical));
    assert_eq!(decode(&checked(canonical)).as_deref(), Ok(canonical));
}

#[test]
fn canonical_text_with_a_loading_date() {
    for (rules, calls) in [
        ("", ""),
        ("\nrule 0 -> 1 on 0\n", ""),
        ("", "\ncollect at 7\n"),
        ("\nrule 0 -> 1 on 0\n", "\noffer 1 at 7\ntail 0\n"),
    ] {
        let plain = format!("{HEADER}{rules}{calls}");
        for date in [0, 7, LAST_DATE] {
            let text = format!("{HEADER}{rules}\n loaded  at 0{date} # date\n{calls}");
            let canonical = format!("{HEADER}{rules}\nloaded at {date}\n{calls}");
            let bytes = checked(&text);
            assert_eq!(bytes, [&date.to_le_bytes()[..], &checked(&plain)].concat());
            let decoded = decode_as(Loading::AtDate, &bytes);
            assert_eq!(decoded.as_ref(), Ok(&canonical));
            assert_eq!(checked(&canonical), bytes);
        }
    }
}

#[test]
fn programs_that_fit() {
    for text in [A_TEXT, EXAMPLE, TAIL, KEYED[0]] {
        assert_eq!(loading(text), Ok(Loading::AtZero));
    }
    for text in [MIDDAY, AT_LIMIT, LOADED_LATE] {
        assert_eq!(loading(text), Ok(Loading::AtDate));
    }
    // Date 0 may be said too.
    let text = format!("{HEADER}loaded at 0\n");
    assert_eq!(loading(&text), Ok(Loading::AtDate));
    assert_eq!(Loading::AtZero.program(), "desk");
    assert_eq!(Loading::AtDate.program(), "desk_at");
}

#[test]
fn no_accepting_location_and_no_rules() {
    let text = "locations 1\nclocks 2\ncommands 16\ninitial 0\naccepting none\n";
    let bytes = [1, 2, 16, 0, 0, 0, 10, 0, 0, 0];
    assert_eq!(checked(text), input(&bytes, &[]));
    assert_eq!(decode(&input(&bytes, &[])).as_deref(), Ok(text));
}

#[test]
fn calls_that_the_desk_program_refuses() {
    let text = format!("{HEADER}offer 254 at 0\noffer 0 at 1000000001\ncollect at 4294967295\n");
    let lines = desk::run(&checked(&text));
    assert!(lines.contains("1 refused I-7"));
    assert!(lines.contains("2 refused I-8"));
    assert!(lines.contains("3 refused I-8"));
}

#[test]
fn bytes_left_over() {
    let text = format!("{HEADER}collect at 0\ntail 255 1 2 3\n");
    assert!(desk::run(&checked(&text)).ends_with("tail 4\n"));
}

#[test]
fn largest_sheet() {
    let mut text = String::from("locations 16\nclocks 1\ncommands 16\ninitial 15\naccepting 15\n");
    for rule in 0..64 {
        text += &format!("rule {} -> 15 on {} reset 1\n", rule % 16, rule / 16 + 12);
    }
    let bytes = checked(&text);
    assert_eq!(&bytes[..2], 518u16.to_le_bytes());
    assert!(sheet::read(&bytes[2..]).is_ok());
}

// There and back.

/// The sheet of an input, if its bytes are there.
fn sheet_in(input: &[u8]) -> Option<&[u8]> {
    let (length, rest) = input.split_at_checked(2)?;
    rest.get(..usize::from(u16::from_le_bytes([length[0], length[1]])))
}

/// Requires that an input comes back from its text, and without
/// `--unchecked` exactly if its sheet loads.
fn require_return(begins: Loading, input: &[u8], text: &str) {
    assert_eq!(unchecked(text), input, "{text}");
    assert_eq!(loading(text), Ok(begins), "{text}");
    let (date, rest) = begins.split(input).expect("the date is there");
    let loads = sheet_in(rest).is_some_and(|sheet| sheet::load(sheet, date).is_ok());
    let result = encode(text, Checks::All);
    assert_eq!(result.is_ok(), loads, "{text}{result:?}");
    assert!(result.is_err() || result.as_deref() == Ok(input));
    assert_eq!(text.contains("encode with --unchecked"), !loads);
}

/// The input of a text, and the text of that.
fn there_and_back(text: &str) -> (Vec<u8>, String) {
    let bytes = unchecked(text);
    let begins = loading(text).expect("bytes can express the text");
    let canonical = decode_as(begins, &bytes).expect("the layout is good");
    (bytes, canonical)
}

#[test]
fn files_and_back() {
    let sheets = [A_TEXT, B_TEXT, C_TEXT, D_TEXT, E_TEXT];
    let others = [EXAMPLE, BLOCK, TAIL, LARGEST, MIDDAY, AT_LIMIT, LOADED_LATE];
    for text in KEYED.into_iter().chain(sheets).chain(others) {
        let (bytes, canonical) = there_and_back(text);
        require_return(
            loading(text).expect("it has no mistake"),
            &bytes,
            &canonical,
        );
        let said = |text: &str| {
            let lines = text.lines().filter(|line| !line.starts_with('#'));
            lines.map(String::from).collect::<Vec<_>>()
        };
        assert_eq!(said(&canonical), said(text));
    }
}

/// Requires that an input comes back, or that its layout is a reason to give no
/// text.
fn require_back(begins: Loading, input: &[u8]) {
    match decode_as(begins, input) {
        Ok(text) => require_return(begins, input, &text),
        Err(message) => {
            let sheet = begins.split(input).and_then(|(_, rest)| sheet_in(rest));
            let refusal = sheet.map(|sheet| sheet::read(sheet).err());
            let refusal = refusal.unwrap_or(Some(Refusal::I1));
            let layout = [Refusal::I1, Refusal::I2, Refusal::I3, Refusal::I4];
            assert!(layout.map(Some).contains(&refusal), "{message}");
        }
    }
}

#[test]
fn generated_inputs_and_back() {
    for kind in KINDS {
        for seed in 0..200 {
            for begins in [Loading::AtZero, Loading::AtDate] {
                require_back(begins, &kind.input_as(begins, seed));
            }
        }
    }
}

#[test]
fn every_byte_of_a_good_layout() {
    // Any values before the pairs and in the rules, with as many pairs as the
    // first byte asks for.
    let mut random = Random::new(5);
    for _ in 0..2000 {
        let locations = random.pick(&[0, 1, 2, 16, 17, 255]);
        let [clocks, actions, initial] = [0; 3].map(|low| random.byte(low, 255));
        let accepting = random.between(0, 0xffff) as u16;
        let rule = |random: &mut Random| [0; 7].map(|low| random.byte(low, 255));
        let mut tables = vec![Vec::new(); usize::from(locations)];
        for table in &mut tables {
            let count = random.below(3);
            table.extend((0..count).map(|_| rule(&mut random)));
        }
        let tables: Vec<&[[u8; 7]]> = tables.iter().map(Vec::as_slice).collect();
        let counts = [locations, clocks, actions, initial];
        let input = input(&common::sheet_of(counts, accepting, &tables), &[]);
        let text = decode(&input).expect("the layout is good");
        require_return(Loading::AtZero, &input, &text);
    }
}

#[test]
fn longest_sheet_and_back() {
    let rules = vec![[0, 0, 0, 0, 255, 0, 255]; 9360];
    let sheet = common::sheet_of([1, 1, 1, 0], 1, &[&rules]);
    assert_eq!(sheet.len(), 65530);
    let text = decode(&input(&sheet, &[])).expect("the layout is good");
    assert_eq!(unchecked(&text), input(&sheet, &[]));
    // A comment, the header, a blank line and the rules stand before this.
    let more = text + "rule 0 -> 0 on 0\n";
    require_with(Checks::Bytes, &more, 9368, &["rule 9361", "9360"]);
}

/// Words for garbled texts.
const WORDS: &str =
    "rule loaded offer collect at when clock clocks from to and reset -> on none tail # \
    0 1 2 3 8 31 40 41 254 255 256 4294967296 x \n";

/// A text with some of its words changed.
fn garbled(random: &mut Random, text: &str) -> String {
    let words: Vec<&str> = WORDS.split(' ').collect();
    let spread = text.replace('\n', " \n ");
    let mut garbled: Vec<&str> = spread.split(' ').collect();
    for _ in 0..random.between(1, 3) {
        let at = random.below(garbled.len());
        match random.below(3) {
            0 => garbled.insert(at, random.pick(&words)),
            1 => garbled[at] = random.pick(&words),
            _ => garbled[at] = "",
        }
    }
    garbled.join(" ")
}

#[test]
fn garbled_texts() {
    let mut random = Random::new(9);
    let mut good = 0;
    for _ in 0..20_000 {
        let source = random.pick(&[A_TEXT, B_TEXT, EXAMPLE, KEYED[6], MIDDAY]);
        let text = garbled(&mut random, source);
        let lines = text.lines().count().max(1);
        match encode(&text, Checks::All) {
            Ok(input) => {
                good += 1;
                assert_eq!(input, unchecked(&text));
            }
            Err(mistakes) => {
                assert!(!mistakes.is_empty());
                assert!(mistakes.iter().all(|it| (1..=lines).contains(&it.line)));
                assert!(mistakes.is_sorted_by_key(|it| it.line));
            }
        }
        if let Ok(begins) = loading(&text) {
            let (input, canonical) = there_and_back(&text);
            require_return(begins, &input, &canonical);
        }
    }
    assert!(good > 1000, "only {good} texts are good");
}

// Mistakes in the header.

#[test]
fn missing_header_line() {
    let lines: Vec<&str> = HEADER.lines().collect();
    for missing in 0..lines.len() {
        let mut kept = lines.clone();
        let name = kept.remove(missing).split(' ').next().unwrap_or_default();
        let name = format!("`{name}`");
        let header = kept.join("\n");
        require(&header, 4, &["end of the text", "needs", &name]);
        let text = format!("{header}\n\nrule 0 -> 1 on 0\noffer 0 at 1\n");
        require(&text, 6, &["before this rule", "needs", &name]);
        let text = format!("{header}\noffer 0 at 1\ncollect at 3\n");
        require(&text, 5, &["before this call", "needs", &name]);
    }
}

#[test]
fn empty_text() {
    let needs = "needs `locations` and `clocks` and `commands` and `initial` and `accepting`";
    require("", 1, &[needs]);
    require("# nothing\n\n# here", 3, &[needs]);
}

#[test]
fn calls_before_the_header_is_complete() {
    let text = HEADER.replace("accepting", "offer 0 at 3\naccepting");
    require(&text, 5, &["before this call", "needs `accepting`"]);
    let text = HEADER.replace("clocks", "tail 1\nclocks");
    require(&text, 2, &["before this tail", "needs `clocks`"]);
}

#[test]
fn loading_date_before_the_header_is_complete() {
    let text = HEADER.replace("accepting", "loaded at 3\naccepting");
    require(&text, 5, &["before this loading date", "needs `accepting`"]);
}

#[test]
fn rules_before_the_header_is_complete() {
    let text = HEADER.replace("initial", "rule 0 -> 1 on 0\ninitial");
    require(&text, 4, &["before this rule", "`initial` and `accepting`"]);
}

#[test]
fn repeated_header_line() {
    for line in HEADER.lines() {
        let name = line.split(' ').next().unwrap_or_default();
        let first = HEADER.lines().position(|it| it == line).unwrap_or_default() + 1;
        let words = [format!("`{name}` is repeated"), format!("line {first}")];
        let words = words.each_ref().map(String::as_str);
        require(&format!("{HEADER}{line}\n"), 6, &words);
        let after = format!("{HEADER}offer 0 at 3\n{line}\n");
        require(&after, 7, &words);
    }
}

#[test]
fn count_out_of_range() {
    let cases = [
        (1, "locations 3", "locations 0", "1 to 16"),
        (1, "locations 3", "locations 17", "1 to 16"),
        (2, "clocks 1", "clocks 0", "1 to 2"),
        (2, "clocks 1", "clocks 3", "1 to 2"),
        (3, "commands 2", "commands 0", "1 to 16"),
        (3, "commands 2", "commands 17", "1 to 16"),
    ];
    for (line, good, bad, range) in cases {
        require(
            &HEADER.replace(good, bad),
            line,
            &[bad, "out of range", range],
        );
    }
    let text = HEADER.replace("clocks 1", "clocks 256");
    require_with(Checks::Bytes, &text, 2, &["clocks 256", "0 to 255"]);
}

#[test]
fn header_number_that_is_none() {
    let cases = ["three", "3.0", "-3", "+3", "0x3", "1,000", "3rd", "\u{663}"];
    for word in cases {
        let text = HEADER.replace("locations 3", &format!("locations {word}"));
        require(
            &text,
            1,
            &[&format!("`{word}` is no number"), "`locations`"],
        );
    }
    let text = HEADER.replace("clocks 1", "clocks 99999999999999999999");
    require(&text, 2, &["`99999999999999999999` is too large"]);
}

#[test]
fn header_line_without_its_number() {
    for (line, name) in (1..).zip(["locations", "clocks", "commands", "initial", "accepting"]) {
        let lines = HEADER.lines().map(|line| match line.split_once(' ') {
            Some((first, _)) if first == name => first,
            _ => line,
        });
        let text = lines.collect::<Vec<_>>().join("\n");
        let ends = format!("the line ends after `{name}`");
        require(&text, line, &[&ends, "is expected there"]);
    }
}

#[test]
fn header_line_with_too_much() {
    let text = HEADER.replace("clocks 1", "clocks 1 2");
    require(&text, 2, &["`2` is out of place", "end of the line"]);
    let text = HEADER.replace("accepting 2", "accepting 2 1");
    require(&text, 5, &["`1` is out of place", "`and`"]);
    let text = HEADER.replace("accepting 2", "accepting none 1");
    require(&text, 5, &["`1` is out of place", "end of the line"]);
}

#[test]
fn initial_location_not_there() {
    let text = HEADER.replace("initial 0", "initial 3");
    require(&text, 4, &["no location 3", "0 to 2"]);
    // The number of locations may come later.
    let text = "initial 3\naccepting 1\nclocks 1\ncommands 1\nlocations 3\n";
    require(text, 1, &["no location 3", "0 to 2"]);
}

#[test]
fn accepting_location_not_there() {
    let text = HEADER.replace("accepting 2", "accepting 2 and 3");
    require(&text, 5, &["no location 3", "0 to 2"]);
    let text = HEADER.replace("accepting 2", "accepting 16");
    require_with(Checks::Bytes, &text, 5, &["no location 16", "0 to 15"]);
}

#[test]
fn accepting_location_twice() {
    let text = HEADER.replace("accepting 2", "accepting 2 and 1 and 2");
    require(&text, 5, &["2 is named twice"]);
}

#[test]
fn wrong_header_line_alone_is_reported() {
    // What depends on the wrong line is left alone.
    let text = HEADER.replace("locations 3", "locations three") + "rule 9 -> 9 on 1\n";
    require(&text, 1, &["`three` is no number"]);
}

// Mistakes in rules.

#[test]
fn rule_location_not_there() {
    require_in("rule 0 -> 3 on 0", &["no location 3", "0 to 2"]);
    require_always("rule 3 -> 0 on 0", &["no location 3", "0 to 2"]);
    let text = format!("{HEADER}rule 0 -> 256 on 0\n");
    require_with(Checks::Bytes, &text, 6, &["no location 256", "0 to 255"]);
}

#[test]
fn rule_command_not_there() {
    require_in("rule 0 -> 1 on 2", &["no command 2", "0 to 1"]);
    let text = format!("{HEADER}rule 0 -> 1 on 256\n");
    require_with(Checks::Bytes, &text, 6, &["no command 256", "0 to 255"]);
}

#[test]
fn rule_clock_not_there() {
    require_in(
        "rule 0 -> 1 on 0 when clock 2 to 5",
        &["no clock 2", "1 is expected"],
    );
    require_in("rule 0 -> 1 on 0 reset 2", &["no clock 2", "1 is expected"]);
    require_always("rule 0 -> 1 on 0 when clock 0 to 5", &["no clock 0"]);
    require_always("rule 0 -> 1 on 0 when clock 3 to 5", &["no clock 3"]);
    require_always("rule 0 -> 1 on 0 reset 0", &["no clock 0"]);
    require_always("rule 0 -> 1 on 0 reset 9", &["no clock 9"]);
    let text = format!("{TWO_CLOCKS}rule 0 -> 1 on 0 reset 1 and 3\n");
    require(&text, 6, &["no clock 3", "1 to 2"]);
}

#[test]
fn bound_too_large() {
    let words = ["bound 41 is out of range", "0 to 40"];
    require_in("rule 0 -> 1 on 0 when clock 1 from 41", &words);
    require_in("rule 0 -> 1 on 0 when clock 1 to 41", &words);
    require_in("rule 0 -> 1 on 0 when clock 1 from 1 to 41", &words);
    require_always("rule 0 -> 1 on 0 when clock 1 from 256", &["bound 256"]);
}

#[test]
fn bound_for_no_upper_bound() {
    let hint = "for no upper bound, leave `to` out";
    require_always("rule 0 -> 1 on 0 when clock 1 to 255", &["bound 255", hint]);
}

#[test]
fn low_above_high() {
    let words = ["low 6 is above high 5"];
    require_in("rule 0 -> 1 on 0 when clock 1 from 6 to 5", &words);
}

#[test]
fn clock_twice() {
    let twice = "rule 0 -> 1 on 0 when clock 1 from 6 and clock 1 to 9";
    require_always(twice, &["clock 1 is named twice"]);
    require_always("rule 0 -> 1 on 0 reset 1 and 1", &["1 is named twice"]);
}

#[test]
fn rule_number_that_is_none() {
    require_always("rule a -> 1 on 0", &["`a` is no number", "a location"]);
    require_always("rule 0 -> b on 0", &["`b` is no number", "a location"]);
    require_always("rule 0 -> 1 on c", &["`c` is no number", "a command"]);
    let when = "rule 0 -> 1 on 0 when clock ";
    require_always(&format!("{when}d to 1"), &["`d` is no number", "a clock"]);
    require_always(&format!("{when}1 to e"), &["`e` is no number", "a bound"]);
    require_always(&format!("{when}1 from f"), &["`f` is no number", "a bound"]);
    require_always("rule 0 -> 1 on 0 reset g", &["`g` is no number", "a clock"]);
}

#[test]
fn rule_with_an_unknown_word() {
    let cases = [
        ("rule 0 to 1 on 0", "`to`", "`->` is expected after `0`"),
        ("rule 0 -> 1 by 0", "`by`", "`on` is expected after `1`"),
        (
            "rule 0 -> 1 on 0 if clock 1 to 5",
            "`if`",
            "`when`, `reset` or",
        ),
        ("rule 0 -> 1 on 0 when 1 to 5", "`1`", "`clock` is expected"),
        (
            "rule 0 -> 1 on 0 when clock 1 is 5",
            "`is`",
            "`from` or `to`",
        ),
        (
            "rule 0 -> 1 on 0 when clock 1 to 5 or 9",
            "`or`",
            "`and`, `reset` or",
        ),
        (
            "rule 0 -> 1 on 0 when clock 1 to 5 and 9",
            "`9`",
            "`clock` is",
        ),
        (
            "rule 0 -> 1 on 0 reset 1 when clock 1 to 5",
            "`when`",
            "`and` or",
        ),
    ];
    for (rule, word, expected) in cases {
        require_always(rule, &[word, "out of place", expected]);
    }
}

#[test]
fn rule_that_ends_early() {
    let whole = "rule 0 -> 1 on 0 when clock 1 from 3 to 5 reset 1";
    let words: Vec<&str> = whole.split(' ').collect();
    // Here the rule may end.
    let ends = [6, 11, 13, 15];
    for count in (1..words.len()).filter(|count| !ends.contains(count)) {
        let after = format!("the line ends after `{}`", words[count - 1]);
        require_always(&words[..count].join(" "), &[&after, "is expected there"]);
    }
    for count in ends {
        checked(&format!("{HEADER}{}\n", words[..count].join(" ")));
    }
}

#[test]
fn more_than_64_rules() {
    let mut text = String::from("locations 5\nclocks 1\ncommands 16\ninitial 0\naccepting 0\n");
    for rule in 0..70 {
        text += &format!("rule {} -> 0 on {}\n", rule / 16, rule % 16);
    }
    require(&text, 70, &["this is rule 65", "at most 64"]);
    assert_eq!(refusal_of(&text), "sheet refused I-4");
}

#[test]
fn overlapping_rules() {
    let text = format!(
        "{HEADER}rule 0 -> 1 on 1 when clock 1 to 5\n\
         rule 0 -> 1 on 0 when clock 1 to 5\n\
         rule 1 -> 1 on 0 when clock 1 to 40\n\n\
         rule 0 -> 2 on 0 when clock 1 from 5\n"
    );
    let words = [
        "overlaps that of line 7",
        "location 0",
        "command 0",
        "clock 1 reads 5",
    ];
    require(&text, 10, &words);
    checked(&text.replace("from 5", "from 6"));
    assert_eq!(refusal_of(&text), "sheet refused I-6");
}

#[test]
fn overlapping_rules_of_two_clocks() {
    let text = format!(
        "{TWO_CLOCKS}rule 0 -> 1 on 0 when clock 1 to 5 and clock 2 from 7\n\
         rule 0 -> 1 on 0 when clock 1 from 4 and clock 2 to 7\n"
    );
    let words = ["line 6", "clock 1 reads 4 and clock 2 reads 7"];
    require(&text, 7, &words);
    checked(&text.replace("to 7", "to 6"));
    checked(&text.replace("from 4", "from 6"));
}

#[test]
fn rule_after_a_call() {
    let text = format!("{HEADER}collect at 3\nrule 0 -> 1 on 0\n");
    require(&text, 7, &["rules come before the calls", "line 6"]);
}

// Mistakes in the loading date.

#[test]
fn loading_date_out_of_place() {
    let text = format!("{HEADER}collect at 3\nloaded at 3\n");
    let words = [
        "the loading date comes before the calls",
        "line 6 is a call",
    ];
    require(&text, 7, &words);
    let text = format!("{HEADER}loaded at 3\nrule 0 -> 1 on 0\n");
    let words = ["rules come before the loading date", "line 6"];
    require(&text, 7, &words);
    require_with(Checks::Bytes, &text, 7, &words);
}

#[test]
fn loading_date_twice() {
    let words = ["`loaded` is repeated", "line 6"];
    let text = format!("{HEADER}loaded at 3\n\nloaded at 3\n");
    require(&text, 8, &words);
    require_with(Checks::Bytes, &text, 8, &words);
    // Also if the first is wrong.
    let text = format!("{HEADER}loaded at noon\nloaded at 3\n");
    let mistakes = encode(&text, Checks::All).expect_err("the text has mistakes");
    let lines: Vec<usize> = mistakes.iter().map(|mistake| mistake.line).collect();
    assert_eq!(lines, [6, 7]);
}

#[test]
fn loading_date_too_late() {
    let text = |date| format!("{HEADER}loaded at {date}\n");
    checked(&text(1_000_000_000u32));
    for date in [1_000_000_001, u32::MAX] {
        let message = format!("loading date {date} is out of range");
        require(&text(date), 6, &[&message, "0 to 1000000000"]);
        assert_eq!(unchecked(&text(date))[..4], date.to_le_bytes());
        assert_eq!(refusal_of(&text(date)), "sheet refused I-8");
    }
    let words = ["date 4294967296", "32 bits", "4294967295"];
    require_always("loaded at 4294967296", &words);
}

#[test]
fn loading_date_that_is_none() {
    require_always("loaded at noon", &["`noon` is no number", "a date"]);
    require_always("loaded on 3", &["`on` is out of place", "`at`"]);
    require_always("loaded 3", &["`3` is out of place", "`at`"]);
    require_always("loaded at 3 4", &["`4` is out of place", "end of the line"]);
    for line in ["loaded", "loaded at"] {
        require_always(line, &["the line ends after", "is expected there"]);
    }
}

// Mistakes in calls.

#[test]
fn unknown_statement() {
    require_always(
        "ofer 1 at 3",
        &["`ofer` begins no line", "`offer`", "`rule`", "`loaded`"],
    );
    require_always("Offer 1 at 3", &["`Offer` begins no line"]);
    require_always("\u{fffd}\0", &["begins no line"]);
}

#[test]
fn date_that_does_not_fit() {
    let words = ["date 4294967296", "32 bits", "4294967295"];
    require_always("offer 0 at 4294967296", &words);
    require_always("collect at 4294967296", &words);
    require_always(
        "collect at 99999999999999999999",
        &["is too large", "a date"],
    );
}

#[test]
fn offered_command_that_does_not_fit() {
    require_always("offer 255 at 3", &["command 255", "0 to 254"]);
}

#[test]
fn call_number_that_is_none() {
    require_always("offer one at 3", &["`one` is no number", "a command"]);
    require_always("offer 1 at noon", &["`noon` is no number", "a date"]);
    require_always("collect at noon", &["`noon` is no number", "a date"]);
}

#[test]
fn call_with_an_unknown_word() {
    require_always("offer 1 on 3", &["`on` is out of place", "`at`"]);
    require_always("collect 3", &["`3` is out of place", "`at`"]);
    require_always(
        "offer 1 at 3 again",
        &["`again` is out of place", "end of the line"],
    );
    require_always(
        "collect at 3 4",
        &["`4` is out of place", "end of the line"],
    );
}

#[test]
fn call_that_ends_early() {
    for call in ["offer", "offer 1", "offer 1 at", "collect", "collect at"] {
        require_always(call, &["the line ends after", "is expected there"]);
    }
}

#[test]
fn wrong_tail() {
    require_always("tail", &["the line ends after `tail`", "a byte"]);
    require_always("tail 256", &["byte 256", "0 to 255"]);
    require_always("tail 1 x", &["`x` is no number", "a byte"]);
    require_always("tail 1 2 3 4 5", &["5 bytes are too many", "1 to 4"]);
}

#[test]
fn statements_after_the_tail() {
    let calls = ["offer 0 at 1", "collect at 1"];
    let others = ["tail 1", "rule 0 -> 1 on 0", "loaded at 1"];
    for statement in calls.into_iter().chain(others) {
        let text = format!("{HEADER}tail 1\n{statement}\n");
        require(&text, 7, &["nothing comes after the tail", "line 6"]);
    }
}

#[test]
fn all_mistakes_are_reported() {
    let text = "locations 99\nclocks 1\ncommands 2\ninitial 0\naccepting x\n\
        offer 300 at 1\n\ncollect\n";
    let mistakes = encode(text, Checks::All).expect_err("the text has mistakes");
    let lines: Vec<usize> = mistakes.iter().map(|mistake| mistake.line).collect();
    assert_eq!(lines, [1, 5, 6, 8]);
}

// Refused sheets.

#[test]
fn refused_sheets_without_checks() {
    let cases = [
        ("locations 0", "I-2"),
        ("locations 17", "I-2"),
        ("clocks 3", "I-2"),
        ("commands 0", "I-2"),
        ("commands 255", "I-2"),
        ("initial 3", "I-3"),
        ("initial 255", "I-3"),
        ("accepting 15", "I-3"),
        ("rule 0 -> 3 on 0", "I-5"),
        ("rule 0 -> 1 on 2", "I-5"),
        ("rule 0 -> 1 on 0 reset 2", "I-5"),
        ("rule 0 -> 1 on 0 reset 3", "I-5"),
        ("rule 0 -> 1 on 0 reset 8", "I-5"),
        ("rule 0 -> 1 on 0 when clock 1 to 41", "I-5"),
        ("rule 0 -> 1 on 0 when clock 1 to 254", "I-5"),
        ("rule 0 -> 1 on 0 when clock 1 from 255", "I-5"),
        ("rule 0 -> 1 on 0 when clock 1 from 6 to 5", "I-5"),
        ("rule 0 -> 1 on 0 when clock 2 to 5", "I-5"),
        ("rule 0 -> 1 on 0\nrule 0 -> 2 on 0", "I-6"),
    ];
    for (statement, refusal) in cases {
        let name = statement.split(' ').next().unwrap_or_default();
        let kept = HEADER.lines().filter(|line| !line.starts_with(name));
        let header: Vec<&str> = kept.collect();
        let text = format!("{}\n{statement}\n", header.join("\n"));
        assert_eq!(refusal_of(&text), format!("sheet refused {refusal}"));
    }
}

#[test]
fn too_long_a_sheet_without_checks() {
    let header = HEADER.replace("locations 3", "locations 16");
    let text = header + &"rule 0 -> 1 on 0\n".repeat(65);
    assert_eq!(refusal_of(&text), "sheet refused I-1");
}

#[test]
fn text_of_a_refused_sheet() {
    let sheet = [1, 1, 1, 0, 1, 0, 10, 0, 7, 0, 0, 0, 4, 9, 3, 1, 255];
    let expected = "# Refused for I-5 by the desk program: encode with --unchecked.\n\
        locations 1\nclocks 1\ncommands 1\ninitial 0\naccepting 0\n\n\
        rule 0 -> 0 on 0 when clock 1 from 9 to 3 and clock 2 from 1 reset 3\n";
    assert_eq!(decode(&input(&sheet, &[])).as_deref(), Ok(expected));
    assert_eq!(unchecked(expected), input(&sheet, &[]));
}

#[test]
fn text_of_a_late_loading_date() {
    let remark = |refusal| format!("# Refused for {refusal} by the desk program: ");
    let text = |date, sheet: &[u8]| {
        let text = decode_as(Loading::AtDate, &input_at(date, sheet, &[]));
        text.expect("the layout is good")
    };
    let late = LAST_DATE + 1;
    assert!(text(late, A).starts_with(&remark("I-8")));
    assert!(text(late, A).ends_with("\n\nloaded at 1000000001\n"));
    assert!(text(LAST_DATE, A).starts_with("locations 2\n"));
    // The sheet's own reason comes first.
    let wrong = common::sheet_of([1, 1, 0, 0], 1, &[&[]]);
    assert!(text(late, &wrong).starts_with(&remark("I-2")));
}

#[test]
fn loading_dates_that_no_text_gives() {
    let whole = input_at(3, A, &[]);
    for (length, words) in [(3, "four bytes of the loading date"), (5, "two bytes")] {
        let message = decode_as(Loading::AtDate, &whole[..length]);
        let message = message.expect_err("no text gives this");
        assert!(message.contains(words), "{message}");
    }
}

#[test]
fn layouts_that_no_text_gives() {
    require_no_text(&[], &["two bytes"]);
    require_no_text(&[42], &["two bytes"]);
    require_no_text(&input(A, &[])[..40], &["length is 42", "only 38"]);
    require_no_text(&input(&A[..5], &[]), &["5 bytes", "at least 6"]);
    let words = ["13 bytes", "2 locations", "at least 14"];
    require_no_text(&input(&A[..13], &[]), &words);
    let words = ["last rules", "byte 42", "the sheet has 43"];
    require_no_text(&input(&[A, &[0]].concat(), &[]), &words);
}

#[test]
fn pairs_that_no_text_gives() {
    let cases = [
        (6, 15, "location 0 begin at byte 15; 14 is expected"),
        (10, 21, "location 1 begin at byte 21; 28 is expected"),
        (8, 13, "location 0 have 13 bytes; a multiple of 7"),
        (12, 21, "location 1 end at byte 49; the sheet has 42"),
        (12, 7, "last rules end at byte 35; the sheet has 42"),
    ];
    for (at, byte, words) in cases {
        let mut sheet = A.to_vec();
        sheet[at] = byte;
        require_no_text(&input(&sheet, &[]), &[words]);
    }
}

/// Requires that an input has no text, with a message that has these words.
fn require_no_text(input: &[u8], words: &[&str]) {
    let message = decode(input).expect_err("no text gives this");
    for word in words {
        assert!(message.contains(word), "{message} has no {word}");
    }
}

// The program.

#[test]
fn sheets_alone() {
    let sheets = [
        (A_TEXT, A),
        (B_TEXT, B),
        (C_TEXT, C),
        (D_TEXT, D),
        (E_TEXT, E),
    ];
    for (text, bytes) in sheets {
        assert_eq!(encode_sheet(text, Checks::All), Ok(bytes.to_vec()));
        let text = decode_sheet(bytes, |location| format!("from {location}"));
        let text = text.expect("a text gives the sheet");
        assert_eq!(encode_sheet(&text, Checks::All), Ok(bytes.to_vec()));
    }
    let text = decode_sheet(E, |location| format!("from {location}"));
    let expected = "locations 2\nclocks 1\ncommands 2\ninitial 0\naccepting 1\n\n\
                    # from 0\nrule 0 -> 0 on 0\nrule 0 -> 1 on 1\n\n\
                    # from 1\n";
    assert_eq!(text.as_deref(), Ok(expected));
    assert!(decode_sheet(&E[..13], |_| String::new()).is_err());
}

/// The mistakes of a sheet's text, each with its line.
fn sheet_mistakes(text: &str) -> Vec<String> {
    let mistakes = encode_sheet(text, Checks::All).expect_err("it has mistakes");
    mistakes.iter().map(ToString::to_string).collect()
}

/// The first of each sort gets a message, whatever its words are.
#[test]
fn sheets_alone_have_no_calls() {
    let text = "loaded\noffer 1\ncollect at 3\nloaded at 5\ntail 300\ntail\n";
    let lines = E_TEXT.lines().count();
    let expected = [
        (
            1,
            "`loaded` is out of place; a sheet alone has no loading date",
        ),
        (2, "`offer` is out of place; a sheet alone has no calls"),
        (5, "`tail` is out of place; a sheet alone has no tail"),
    ];
    let expected = expected.map(|(line, message)| format!("line {}: {message}", lines + line));
    assert_eq!(sheet_mistakes(&format!("{E_TEXT}{text}")), expected);
    // Rules after a call are those of a sheet with a call too many.
    let between = E_TEXT.replace("accepting 1\n", "accepting 1\ncollect at 9\n");
    let found = sheet_mistakes(&between);
    assert!(found[0].ends_with("`collect` is out of place; a sheet alone has no calls"));
    assert_eq!(sheet_mistakes("").len(), 1);
}

fn call(arguments: &[&str], input: &[u8]) -> Output {
    call_with(QUESTION, arguments, input)
}

/// Writes a file and gives its path.
fn file(name: &str, bytes: &[u8]) -> String {
    let path = Path::new(env!("CARGO_TARGET_TMPDIR")).join(name);
    std::fs::write(&path, bytes).expect("the file is written");
    path.to_string_lossy().into_owned()
}

#[test]
fn program_converts_both_ways() {
    let bytes = checked(EXAMPLE);
    let text = decode(&bytes).expect("the layout is good");
    let cases = [
        (
            "encode",
            "example.txt",
            EXAMPLE.as_bytes(),
            bytes.as_slice(),
        ),
        ("decode", "example.bin", bytes.as_slice(), text.as_bytes()),
    ];
    for (task, name, from, expected) in cases {
        let path = file(name, from);
        for output in [call(&[task], from), call(&[task, &path], &[])] {
            assert_eq!(output.stdout, expected);
            assert!(output.status.success() && output.stderr.is_empty());
        }
    }
}

#[test]
fn program_converts_loading_dates_both_ways() {
    let (bytes, text) = there_and_back(MIDDAY);
    let path = file("midday.txt", MIDDAY.as_bytes());
    assert_eq!(call(&["encode", &path], &[]).stdout, bytes);
    let path = file("midday.bin", &bytes);
    for output in [
        call(&["decode", "--at"], &bytes),
        call(&["decode", "--at", &path], &[]),
    ] {
        assert_eq!(output.stdout, text.as_bytes());
        assert!(output.status.success() && output.stderr.is_empty());
    }
}

#[test]
fn program_names_the_program_that_fits() {
    let refused = include_str!("../questions/refused.txt");
    for (text, name) in [
        (EXAMPLE, "desk\n"),
        (refused, "desk\n"),
        (MIDDAY, "desk_at\n"),
        (LOADED_LATE, "desk_at\n"),
    ] {
        let path = file(&format!("fits-{}.txt", text.len()), text.as_bytes());
        for output in [
            call(&["program"], text.as_bytes()),
            call(&["program", &path], &[]),
        ] {
            assert_eq!(output.stdout, name.as_bytes());
            assert!(output.status.success() && output.stderr.is_empty());
        }
    }
}

#[test]
fn program_reports_mistakes() {
    let text = format!("{HEADER}# caf\u{e9}\nrule 0 -> 7 on 0\noffer x at 1\n");
    let path = file("mistakes.txt", text.as_bytes());
    let cases = [
        (
            call(&["encode"], text.as_bytes()),
            "standard input, line 7: ",
        ),
        (call(&["encode", &path], &[]), "mistakes.txt, line 8: "),
        (
            call(&["program"], text.as_bytes()),
            "standard input, line 8: ",
        ),
        (
            call(&["decode"], &[9, 0, 1]),
            "standard input: no text gives this",
        ),
        (
            call(&["decode", "--at"], &[9, 0, 1]),
            "standard input: no text gives this",
        ),
    ];
    for (output, message) in cases {
        let stderr = String::from_utf8_lossy(&output.stderr);
        assert!(stderr.contains(message), "{stderr}");
        assert_eq!(output.status.code(), Some(1));
        assert!(output.stdout.is_empty());
    }
}

#[test]
fn program_without_checks() {
    let text = format!("{HEADER}rule 0 -> 7 on 0\n");
    let path = file("unchecked.txt", text.as_bytes());
    for arguments in [
        &["encode", "--unchecked"][..],
        &["encode", "--unchecked", &path],
    ] {
        let output = call(arguments, text.as_bytes());
        assert_eq!(output.stdout, unchecked(&text));
        assert!(output.status.success());
    }
}

#[test]
fn program_reads_comments_of_any_bytes() {
    let text = [b"# \xff\xe9\n", E_TEXT.as_bytes()].concat();
    assert_eq!(call(&["encode"], &text).stdout, input(E, &[]));
}

#[test]
fn program_with_wrong_arguments() {
    let cases: [&[&str]; 14] = [
        &[],
        &["encode", "--at"],
        &["decode", "--at", "--at"],
        &["decode", "--at", "one", "two"],
        &["program", "--at"],
        &["program", "one", "two"],
        &["compile"],
        &["encode", "--fast"],
        &["encode", "one", "two"],
        &["encode", "--unchecked", "one", "two"],
        &["decode", "--unchecked"],
        &["decode", "one", "two"],
        &["encode", "no/such/file"],
        &["--help"],
    ];
    for arguments in cases {
        let output = call(arguments, &[]);
        assert_eq!(output.status.code(), Some(2), "{arguments:?}");
        assert!(String::from_utf8_lossy(&output.stderr).contains("usage: question"));
        assert!(output.stdout.is_empty());
    }
}
