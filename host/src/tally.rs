//! Counts how often each answer, refusal and lamp state occurs in desk lines.

use std::collections::BTreeMap;

/// Counts by name.
#[derive(Clone, Debug, Default)]
pub struct Tally {
    counts: BTreeMap<String, u64>,
    lines: u64,
}

impl Tally {
    /// Counts the lines of one output.
    pub fn add(&mut self, output: &str) {
        for line in output.lines() {
            self.lines += 1;
            for name in names(line) {
                *self.counts.entry(name).or_default() += 1;
            }
        }
    }

    /// Counts something else, by its name.
    pub fn note(&mut self, name: &str) {
        *self.counts.entry(name.into()).or_default() += 1;
    }

    /// How often a name occurred.
    pub fn count(&self, name: &str) -> u64 {
        self.counts.get(name).copied().unwrap_or(0)
    }

    /// How many lines were counted.
    pub fn lines(&self) -> u64 {
        self.lines
    }

    /// All names with their counts, sorted by name.
    pub fn all(&self) -> impl Iterator<Item = (&str, u64)> {
        self.counts
            .iter()
            .map(|(name, count)| (name.as_str(), *count))
    }
}

/// The names under which a line counts.
fn names(line: &str) -> Vec<String> {
    let words: Vec<&str> = line.split(' ').collect();
    match words.as_slice() {
        ["sheet", "refused", reason] => vec![format!("sheet refused {reason}")],
        ["sheet", ..] => vec!["sheet loaded".into()],
        ["tail", bytes] => vec![format!("tail {bytes}")],
        [_, answer @ .., "lamp", lamp] => {
            let later = is_later(answer).then(|| "played later than offered".into());
            let names = [answer_name(answer), format!("lamp {lamp}")];
            names.into_iter().chain(later).collect()
        }
        _ => vec!["other".into()],
    }
}

/// Whether an action is played whose date is not that of its offer.
fn is_later(answer: &[&str]) -> bool {
    matches!(answer, ["played", _, date, _, offered] if date != offered)
}

/// The name of an answer, with the reason or the size of a batch.
fn answer_name(answer: &[&str]) -> String {
    match answer {
        ["scheduled", "1", _] => "scheduled 1".into(),
        ["scheduled", "17", _] => "scheduled 17".into(),
        ["scheduled", ..] => "scheduled 2 to 16".into(),
        ["refused", reason] => format!("refused {reason}"),
        [name, ..] => (*name).into(),
        [] => "other".into(),
    }
}
