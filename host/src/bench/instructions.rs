//! Counts the instructions of a program. The counts are the same whatever
//! else the machine does.

use super::measure::{Folder, Stop};
use super::Input;
use std::fs::File;
use std::path::Path;
use std::process::{Command, Stdio};

/// The tool that counts.
const TOOL: &str = "valgrind";

/// Counts the instructions of programs.
#[derive(Clone, Copy, Debug)]
pub struct Counter(());

impl Counter {
    /// A counter, if the machine has the tool.
    pub fn find() -> Option<Self> {
        let version = Command::new(TOOL).arg("--version").output();
        let works = version.is_ok_and(|output| output.status.success());
        works.then_some(Counter(()))
    }

    /// Instructions of a program per counted call or load, over all inputs;
    /// `None` if the tool gives no number.
    pub fn per_call(
        &self,
        folder: &Folder,
        program: &Path,
        inputs: &[Input],
    ) -> Result<Option<f64>, Stop> {
        let (mut instructions, mut calls) = (0.0, 0);
        for input in inputs {
            let whole = self.count(folder, program, &input.whole)?;
            let base = self.count(folder, program, &input.base)?;
            let (Some(whole), Some(base)) = (whole, base) else {
                return Ok(None);
            };
            instructions += whole as f64 - base as f64;
            calls += input.count;
        }
        Ok(Some(instructions / calls as f64))
    }

    /// The instructions of one run.
    fn count(&self, folder: &Folder, program: &Path, input: &[u8]) -> Result<Option<u64>, Stop> {
        let path = folder.write("counted", input)?;
        let stdin = File::open(path).map_err(Stop::Files)?;
        let mut profile = std::ffi::OsString::from("--callgrind-out-file=");
        profile.push(folder.file("profile"));
        let output = Command::new(TOOL)
            .arg("--tool=callgrind")
            .arg(profile)
            .arg(program)
            .stdin(Stdio::from(stdin))
            .output()
            .map_err(|error| Stop::NotRun(TOOL.into(), error))?;
        Ok(collected(&String::from_utf8_lossy(&output.stderr)))
    }
}

/// The number in the tool's line "Collected : ...".
fn collected(text: &str) -> Option<u64> {
    let line = text.lines().find(|line| line.contains("Collected :"))?;
    let (_, number) = line.rsplit_once(':')?;
    number.trim().parse().ok()
}
