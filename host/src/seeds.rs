//! What a comparison goes over, as its arguments say.

use std::ffi::OsString;

/// So many seeds from a first one on, of some kinds.
pub struct Seeds<K> {
    pub count: u64,
    pub first: u64,
    /// No kind means every kind.
    pub kinds: Vec<K>,
}

/// A kind of inputs, which has a name.
pub trait Named {
    fn name(&self) -> &'static str;
}

impl<K> Seeds<K> {
    /// Reads `SEEDS [FIRST_SEED [KIND]..]`; nothing if the words are wrong.
    pub fn parse(words: &[OsString], named: impl Fn(&str) -> Option<K>) -> Option<Self> {
        let (count, rest) = words.split_first()?;
        let (first, names) = match rest {
            [] => (0, rest),
            [first, names @ ..] => (number(first)?, names),
        };
        let kinds = names.iter().map(|name| named(name.to_str()?));
        Some(Seeds {
            count: number(count)?,
            first,
            kinds: kinds.collect::<Option<_>>()?,
        })
    }
}

fn number(word: &OsString) -> Option<u64> {
    word.to_str()?.parse().ok()
}
