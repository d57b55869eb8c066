//! The reasons for which a load, a call, a conversion of a log or a join of two
//! sheets refuses.

use std::fmt;

/// A reason, named as it is printed: I for the input, S for the state.
#[derive(Clone, Copy, Debug, PartialEq, Eq)]
pub enum Refusal {
    I1,
    I2,
    I3,
    I4,
    I5,
    I6,
    I7,
    I8,
    I9,
    I10,
    I11,
    I12,
    I13,
    I14,
    S1,
    S2,
    S3,
    S4,
    S5,
}

impl Refusal {
    /// The reason's name, as the desk program's lines and all messages have it.
    pub fn name(self) -> &'static str {
        match self {
            Refusal::I1 => "I-1",
            Refusal::I2 => "I-2",
            Refusal::I3 => "I-3",
            Refusal::I4 => "I-4",
            Refusal::I5 => "I-5",
            Refusal::I6 => "I-6",
            Refusal::I7 => "I-7",
            Refusal::I8 => "I-8",
            Refusal::I9 => "I-9",
            Refusal::I10 => "I-10",
            Refusal::I11 => "I-11",
            Refusal::I12 => "I-12",
            Refusal::I13 => "I-13",
            Refusal::I14 => "I-14",
            Refusal::S1 => "S-1",
            Refusal::S2 => "S-2",
            Refusal::S3 => "S-3",
            Refusal::S4 => "S-4",
            Refusal::S5 => "S-5",
        }
    }

    /// What a function for host programs hands back for a reason: minus the number
    /// after "I-". The state has no reasons there.
    pub fn result(self) -> Option<i32> {
        let number: i32 = self.name().strip_prefix("I-")?.parse().ok()?;
        Some(-number)
    }

    /// The reason, among those that a function has, that its result stands for.
    pub fn of_result(reasons: &[Refusal], result: i32) -> Option<Refusal> {
        let mut reasons = reasons.iter().copied();
        reasons.find(|reason| reason.result() == Some(result))
    }
}

impl fmt::Display for Refusal {
    fn fmt(&self, out: &mut fmt::Formatter<'_>) -> fmt::Result {
        out.write_str(self.name())
    }
}
