//! The words of one line, taken from the left.

/// The words of a statement and how many of them are taken.
pub struct Words {
    words: Vec<String>,
    taken: usize,
}

impl Words {
    /// The words of a line without its comment.
    pub fn of(line: &str) -> Self {
        let statement = line.split('#').next().unwrap_or_default();
        // The arrow may stand without blanks around it.
        let spaced = statement.replace("->", " -> ");
        let words = spaced.split_whitespace().map(String::from).collect();
        Words { words, taken: 0 }
    }

    /// Takes the next word, whatever it is.
    pub fn next(&mut self) -> Option<String> {
        let word = self.words.get(self.taken).cloned();
        self.taken += usize::from(word.is_some());
        word
    }

    /// Takes the next word if it is this one.
    pub fn take(&mut self, word: &str) -> bool {
        let found = self.peek() == Some(word);
        self.taken += usize::from(found);
        found
    }

    /// Takes the next word, which must be this one.
    pub fn expect(&mut self, word: &str) -> Result<(), String> {
        if self.take(word) {
            Ok(())
        } else {
            Err(self.misplaced(&quoted(word)))
        }
    }

    /// Takes a number; `what` says what it stands for.
    pub fn number(&mut self, what: &str) -> Result<u64, String> {
        let Some(word) = self.peek() else {
            return Err(self.misplaced(what));
        };
        let problem = if !word.bytes().all(|byte| byte.is_ascii_digit()) {
            "is no number"
        } else if let Ok(number) = word.parse() {
            self.taken += 1;
            return Ok(number);
        } else {
            "is too large"
        };
        let (word, before) = (quoted(word), self.before());
        Err(format!(
            "{word} {problem}; {what} is expected after {before}"
        ))
    }

    /// Takes numbers joined by `and`, none of them twice.
    pub fn numbers(&mut self, what: &str) -> Result<Vec<u64>, String> {
        let mut numbers = Vec::new();
        loop {
            let number = self.number(what)?;
            if numbers.contains(&number) {
                return Err(format!("{number} is named twice; once is enough"));
            }
            numbers.push(number);
            if !self.take("and") {
                return Ok(numbers);
            }
        }
    }

    /// Whether all words are taken.
    pub fn is_empty(&self) -> bool {
        self.taken == self.words.len()
    }

    /// Requires that all words are taken; `others` names the words that could
    /// still have come, each followed by a comma or "or".
    pub fn end(&self, others: &str) -> Result<(), String> {
        if self.is_empty() {
            Ok(())
        } else {
            Err(self.misplaced(&format!("{others}the end of the line")))
        }
    }

    /// The message for a next word that is not what is expected.
    pub fn misplaced(&self, expected: &str) -> String {
        let before = self.before();
        match self.peek() {
            Some(word) => {
                let word = quoted(word);
                format!("{word} is out of place; {expected} is expected after {before}")
            }
            None => format!("the line ends after {before}; {expected} is expected there"),
        }
    }

    fn peek(&self) -> Option<&str> {
        self.words.get(self.taken).map(String::as_str)
    }

    /// The last word taken, for messages.
    fn before(&self) -> String {
        let last = self.taken.checked_sub(1);
        let word = last.and_then(|last| self.words.get(last));
        quoted(word.map_or("", String::as_str))
    }
}

/// A word as messages show it.
pub fn quoted(word: &str) -> String {
    format!("`{}`", word.escape_debug())
}
