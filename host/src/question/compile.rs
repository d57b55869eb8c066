//! Reads a text line by line and collects its mistakes.

use super::header::{repeated, Header, NAMES};
use super::rules::Edge;
use super::scope::{date, left_over, offered};
use super::words::{quoted, Words};
use super::{Call, Checks, Mistake, Part, Question};
use crate::desk::CALL;
use crate::limits::MAX_TRANSITIONS;
use crate::sheet::{HEADER, PAIR, RULE};

/// Most bytes of a sheet whose length has two bytes.
const LENGTH_LIMIT: usize = u16::MAX as usize;

/// What was read so far.
struct Compiler {
    part: Part,
    checks: Checks,
    header: Header,
    edges: Vec<Edge>,
    loaded: Option<u32>,
    calls: Vec<Call>,
    tail: Vec<u8>,
    /// Rules read so far, those with mistakes included.
    rule_count: usize,
    /// Whether another line was read, so that the header must be there.
    header_over: bool,
    loaded_line: Option<usize>,
    first_call: Option<usize>,
    tail_line: Option<usize>,
    mistakes: Vec<Mistake>,
}

/// Turns a text into a question, or gives all mistakes.
pub fn compile(text: &str, part: Part, checks: Checks) -> Result<Question, Vec<Mistake>> {
    let mut compiler = Compiler::new(part, checks);
    // Some editors put a mark before the text.
    let text = text.strip_prefix('\u{feff}').unwrap_or(text);
    let mut last = 1;
    for (line, words) in (1..).zip(text.lines().map(Words::of)) {
        compiler.read(line, words);
        last = line;
    }
    compiler.finish(last)
}

impl Compiler {
    fn new(part: Part, checks: Checks) -> Self {
        Compiler {
            part,
            checks,
            header: Header::default(),
            edges: Vec::new(),
            loaded: None,
            calls: Vec::new(),
            tail: Vec::new(),
            rule_count: 0,
            header_over: false,
            loaded_line: None,
            first_call: None,
            tail_line: None,
            mistakes: Vec::new(),
        }
    }

    /// Reads one line.
    fn read(&mut self, line: usize, mut words: Words) {
        let Some(first) = words.next() else {
            return;
        };
        let result = match first.as_str() {
            "rule" => self.rule(line, &mut words),
            "loaded" | "offer" | "collect" | "tail" if self.part == Part::Sheet => {
                self.outside(line, &first)
            }
            "loaded" => self.loaded(line, &mut words),
            "offer" | "collect" => self.call(line, &first, &mut words),
            "tail" => self.tail(line, &mut words),
            name if NAMES.contains(&name) => self.header.read(self.checks, line, name, &mut words),
            other => Err(unknown(other)),
        };
        self.note(line, result);
    }

    fn note(&mut self, line: usize, result: Result<(), String>) {
        if let Err(message) = result {
            self.mistakes.push(Mistake { line, message });
        }
    }

    fn rule(&mut self, line: usize, words: &mut Words) -> Result<(), String> {
        self.end_header(line, "before this rule");
        self.before_calls("rules come")?;
        if let Some(loaded) = self.loaded_line {
            return Err(format!(
                "rules come before the loading date, which is line {loaded}"
            ));
        }
        self.before_tail()?;
        self.rule_count += 1;
        self.has_room()?;
        let scope = self.header.scope(self.checks);
        let edge = Edge::read(line, words, &scope)?;
        if self.checks == Checks::All {
            let mut earlier = self.edges.iter();
            let overlap = earlier.find_map(|other| other.overlap(&edge, scope.clocks));
            overlap.map_or(Ok(()), Err)?;
        }
        self.edges.push(edge);
        Ok(())
    }

    /// Requires room for one more rule; says so for the first too many.
    fn has_room(&self) -> Result<(), String> {
        let locations = self.header.scope(self.checks).locations.unwrap_or_default();
        let before = HEADER + PAIR * usize::from(locations);
        let most = match self.checks {
            Checks::All => MAX_TRANSITIONS,
            Checks::Bytes => (LENGTH_LIMIT - before) / RULE,
        };
        if self.rule_count == most + 1 {
            let count = self.rule_count;
            return Err(format!("this is rule {count}; a sheet has at most {most}"));
        }
        Ok(())
    }

    /// The loading date, after the rules and before the calls.
    fn loaded(&mut self, line: usize, words: &mut Words) -> Result<(), String> {
        self.end_header(line, "before this loading date");
        self.before_calls("the loading date comes")?;
        self.before_tail()?;
        if let Some(first) = self.loaded_line {
            return Err(repeated("loaded", first));
        }
        self.loaded_line = Some(line);
        words.expect("at")?;
        let scope = self.header.scope(self.checks);
        let date = scope.loading_date(words.number("a date")?)?;
        words.end("")?;
        self.loaded = Some(date);
        Ok(())
    }

    fn call(&mut self, line: usize, first: &str, words: &mut Words) -> Result<(), String> {
        self.end_header(line, "before this call");
        self.before_tail()?;
        self.first_call.get_or_insert(line);
        let call = if first == "offer" {
            let action = offered(words.number("a command")?)?;
            let date = read_date(words)?;
            Call::Offer { action, date }
        } else {
            let date = read_date(words)?;
            Call::Collect { date }
        };
        words.end("")?;
        self.calls.push(call);
        Ok(())
    }

    /// The bytes left over, fewer than a call has.
    fn tail(&mut self, line: usize, words: &mut Words) -> Result<(), String> {
        self.end_header(line, "before this tail");
        self.before_tail()?;
        self.tail_line = Some(line);
        while self.tail.is_empty() || !words.is_empty() {
            self.tail.push(left_over(words.number("a byte")?)?);
        }
        if self.tail.len() >= CALL {
            let (count, most) = (self.tail.len(), CALL - 1);
            return Err(format!(
                "{count} bytes are too many; 1 to {most} are expected"
            ));
        }
        Ok(())
    }

    /// A line that the text of a sheet has not; says so for the first of its sort.
    fn outside(&mut self, line: usize, first: &str) -> Result<(), String> {
        let (before, what) = match first {
            "loaded" => (&mut self.loaded_line, "no loading date"),
            "tail" => (&mut self.tail_line, "no tail"),
            _ => (&mut self.first_call, "no calls"),
        };
        match before.replace(line) {
            Some(_) => Ok(()),
            None => {
                let first = quoted(first);
                Err(format!("{first} is out of place; a sheet alone has {what}"))
            }
        }
    }

    /// Requires that no call was read; `what` comes earlier.
    fn before_calls(&self, what: &str) -> Result<(), String> {
        match self.first_call {
            Some(call) => Err(format!("{what} before the calls; line {call} is a call")),
            None => Ok(()),
        }
    }

    fn before_tail(&self) -> Result<(), String> {
        match self.tail_line {
            Some(tail) => Err(format!(
                "nothing comes after the tail, which is line {tail}"
            )),
            None => Ok(()),
        }
    }

    /// Requires the whole header, once.
    fn end_header(&mut self, line: usize, place: &str) {
        let missing = self.header.missing();
        if !self.header_over && !missing.is_empty() {
            let names: Vec<String> = missing.into_iter().map(quoted).collect();
            let message = format!("{place}, the header needs {}", names.join(" and "));
            self.mistakes.push(Mistake { line, message });
        }
        self.header_over = true;
    }

    /// Makes the question, if there are no mistakes.
    fn finish(mut self, last: usize) -> Result<Question, Vec<Mistake>> {
        self.end_header(last, "before the end of the text");
        let sheet = self.header.sheet(self.checks, &mut self.mistakes);
        let (Some(mut sheet), true) = (sheet, self.mistakes.is_empty()) else {
            self.mistakes.sort_by_key(|mistake| mistake.line);
            return Err(self.mistakes);
        };
        for edge in self.edges {
            sheet.outgoing[usize::from(edge.source)].push(edge.rule);
        }
        Ok(Question {
            sheet,
            loaded: self.loaded,
            calls: self.calls,
            tail: self.tail,
        })
    }
}

/// The date of a call.
fn read_date(words: &mut Words) -> Result<u32, String> {
    words.expect("at")?;
    date(words.number("a date")?)
}

/// The message for a line that begins with no known word.
fn unknown(word: &str) -> String {
    let names = NAMES.map(quoted).join(", ");
    let word = quoted(word);
    let others = "`rule`, `loaded`, `offer`, `collect` or `tail`";
    format!("{word} begins no line; {names}, {others} is expected")
}
