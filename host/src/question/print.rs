//! The canonical text of a question.

use super::rules::ALWAYS;
use super::{Call, Question};
use crate::generate::Draft;
use crate::sheet::{self, RULE};

/// The text: header, rules by location, loading date, calls, each part after a
/// blank line.
pub fn print(question: &Question) -> String {
    let sheet = &question.sheet;
    let tables = (0..).zip(&sheet.outgoing);
    let rules = tables.map(|(source, table)| print_table(source, table));
    let rules: String = rules.collect();
    let calls: String = question.calls.iter().map(print_call).collect();
    let loaded = question.loaded.map(|date| format!("loaded at {date}\n"));
    let calls = calls + &tail(&question.tail);
    let parts = [header(sheet), rules, loaded.unwrap_or_default(), calls];
    let parts = parts.into_iter().filter(|part| !part.is_empty());
    remark(question) + &parts.collect::<Vec<_>>().join("\n")
}

/// The text of a sheet alone: header, and the rules of each location, with a
/// comment before them.
pub fn print_sheet(sheet: &Draft, comment: impl Fn(u8) -> String) -> String {
    let tables = (0..).zip(&sheet.outgoing);
    let rules = tables.map(|(source, table)| {
        let (comment, rules) = (comment(source), print_table(source, table));
        format!("# {comment}\n{rules}")
    });
    let parts: Vec<String> = [header(sheet)].into_iter().chain(rules).collect();
    parts.join("\n")
}

/// A comment for a sheet that the desk program refuses, or for its loading date.
fn remark(question: &Question) -> String {
    let date = question.loaded.unwrap_or(0);
    match sheet::load(&question.sheet.bytes(), date) {
        Ok(_) => String::new(),
        Err(refusal) => {
            format!("# Refused for {refusal} by the desk program: encode with --unchecked.\n")
        }
    }
}

fn header(sheet: &Draft) -> String {
    format!(
        "locations {}\nclocks {}\ncommands {}\ninitial {}\naccepting {}\n",
        sheet.locations,
        sheet.clocks,
        sheet.actions,
        sheet.initial,
        list(sheet.accepting, 0).unwrap_or("none".into())
    )
}

/// The rules of a location.
fn print_table(source: u8, table: &[[u8; RULE]]) -> String {
    let rules = table.iter().map(|rule| print_rule(source, rule));
    rules.collect()
}

fn print_rule(source: u8, rule: &[u8; RULE]) -> String {
    let [action, target, resets, low_1, high_1, low_2, high_2] = *rule;
    let guards = [(1, low_1, high_1), (2, low_2, high_2)];
    let guards = guards.into_iter().filter_map(print_guard);
    let guards = guards.collect::<Vec<_>>().join(" and ");
    let mut text = format!("rule {source} -> {target} on {action}");
    if !guards.is_empty() {
        text += &format!(" when {guards}");
    }
    if let Some(clocks) = list(resets.into(), 1) {
        text += &format!(" reset {clocks}");
    }
    text + "\n"
}

/// The bounds of a clock, if they say anything.
fn print_guard((clock, low, high): (u8, u8, u8)) -> Option<String> {
    let [least, unbounded] = ALWAYS;
    match (low != least, high != unbounded) {
        (true, true) => Some(format!("clock {clock} from {low} to {high}")),
        (true, false) => Some(format!("clock {clock} from {low}")),
        (false, true) => Some(format!("clock {clock} to {high}")),
        (false, false) => None,
    }
}

/// The members of a set, whose first bit stands for `first`; none if empty.
fn list(set: u16, first: u32) -> Option<String> {
    let members = (0..u16::BITS).filter(|bit| set >> bit & 1 == 1);
    let members: Vec<String> = members.map(|bit| (bit + first).to_string()).collect();
    (!members.is_empty()).then(|| members.join(" and "))
}

fn print_call(call: &Call) -> String {
    match call {
        Call::Offer { action, date } => format!("offer {action} at {date}\n"),
        Call::Collect { date } => format!("collect at {date}\n"),
    }
}

fn tail(bytes: &[u8]) -> String {
    if bytes.is_empty() {
        return String::new();
    }
    let bytes: Vec<String> = bytes.iter().map(u8::to_string).collect();
    format!("tail {}\n", bytes.join(" "))
}
