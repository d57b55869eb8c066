//! A comparison with the proved library, run as a command.

use host::seeds::{Named, Seeds};
use std::ffi::OsString;
use std::fmt::Display;
use std::process::ExitCode;

/// Seeds of every kind among which nothing may be missing.
const ENOUGH: u64 = 100;

/// A command that compares over kinds of random inputs.
pub struct Comparison<K: 'static> {
    pub name: &'static str,
    pub kinds: &'static [K],
    /// What the inputs are called.
    pub inputs: &'static str,
}

/// What to do.
enum Task<K: 'static> {
    List,
    Compare(Seeds<&'static K>),
}

impl<K: Named> Comparison<K> {
    /// Runs as a program; `missing` tells what never came. Exit status: 0; 1 with a
    /// difference, or where something is missing among enough inputs; 2 for wrong
    /// arguments.
    pub fn run<S: Display, D: Display>(
        &self,
        compare: impl Fn(&Seeds<&'static K>) -> Result<S, D>,
        missing: impl Fn(&S) -> Vec<String>,
    ) -> ExitCode {
        let arguments: Vec<OsString> = std::env::args_os().skip(1).collect();
        match self.parse(&arguments) {
            Some(Task::List) => {
                let names = self.kinds.iter().map(Named::name);
                names.for_each(|name| println!("{name}"));
                ExitCode::SUCCESS
            }
            Some(Task::Compare(seeds)) => match compare(&seeds) {
                Ok(summary) => {
                    print!("{summary}");
                    self.require(&seeds, &missing(&summary))
                }
                Err(difference) => {
                    println!("{difference}");
                    ExitCode::FAILURE
                }
            },
            None => {
                let name = self.name;
                eprintln!("usage: {name} SEEDS [FIRST_SEED [KIND]..]\n       {name} --list");
                ExitCode::from(2)
            }
        }
    }

    /// The task, or nothing if the arguments are wrong.
    fn parse(&self, arguments: &[OsString]) -> Option<Task<K>> {
        if let [list] = arguments {
            if list == "--list" {
                return Some(Task::List);
            }
        }
        let named = |name: &str| self.kinds.iter().find(|kind| kind.name() == name);
        let mut seeds = Seeds::parse(arguments, named)?;
        if seeds.kinds.is_empty() {
            seeds.kinds.extend(self.kinds);
        }
        Some(Task::Compare(seeds))
    }

    /// Whether the seeds are so many, of every kind, that nothing may be missing.
    fn enough(&self, seeds: &Seeds<&'static K>) -> bool {
        let named = |kind: &K| {
            let mut kinds = seeds.kinds.iter();
            kinds.any(|named| named.name() == kind.name())
        };
        seeds.count >= ENOUGH && self.kinds.iter().all(named)
    }

    /// Among enough inputs nothing may be missing.
    fn require(&self, seeds: &Seeds<&'static K>, missing: &[String]) -> ExitCode {
        if missing.is_empty() || !self.enough(seeds) {
            return ExitCode::SUCCESS;
        }
        let (inputs, missing) = (self.inputs, missing.join(", "));
        println!("the {inputs} have lost their point; missing: {missing}");
        ExitCode::FAILURE
    }
}
