//! Desk inputs: named kinds, most of them random, each deterministic from a seed.

mod blocks;
mod calls;
mod damage;
mod dated;
mod draft;
mod edges;
mod kinds;
mod loaded;
mod used_up;

pub use blocks::BLOCK;
pub use damage::{at_an_edge, damaged};
pub use draft::{draw, Bounds, Draft, Goal, Profile, EARLIER_MOST};
pub use kinds::{kind_named, profile, Kind, KINDS, ONCE};

use crate::loading::Loading;
use crate::random::Random;

impl Kind {
    /// The input of this kind for a seed.
    pub fn input(&self, seed: u64) -> Vec<u8> {
        (self.make)(&mut self.random(seed))
    }

    /// The same sheet and mostly the same calls for a box loaded at a random date,
    /// with which the input begins.
    pub fn input_at(&self, seed: u64) -> Vec<u8> {
        let mut random = Random::named(&format!("{} at a date", self.name), seed);
        loaded::at_a_date(&mut random, &self.input(seed))
    }

    /// The input for a seed that begins so.
    pub fn input_as(&self, loading: Loading, seed: u64) -> Vec<u8> {
        match loading {
            Loading::AtZero => self.input(seed),
            Loading::AtDate => self.input_at(seed),
        }
    }

    /// Whether there are inputs that begin so: those that use up the numbers have
    /// no loading date.
    pub fn begins(&self, loading: Loading) -> bool {
        loading == Loading::AtZero || self.look.is_none()
    }

    /// The seeds to go through of so many from a first one on: only one where
    /// every seed gives the same input.
    pub fn seeds(&self, first: u64, count: u64) -> impl Iterator<Item = u64> {
        let (first, count) = match self.look {
            Some(_) => (0, count.min(1)),
            None => (first, count),
        };
        (0..count).map(move |step| first.wrapping_add(step))
    }

    /// Random numbers for this kind and a seed.
    pub fn random(&self, seed: u64) -> Random {
        Random::named(self.name, seed)
    }
}

/// Puts the length before a sheet, as the desk program wants it.
fn with_length(sheet: &[u8]) -> Vec<u8> {
    let mut input = (sheet.len() as u16).to_le_bytes().to_vec();
    input.extend_from_slice(sheet);
    input
}
