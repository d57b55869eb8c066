//! Outputs that are lent to a program under comparison, with guards around them.

/// Bytes that stand before and after a lent output, no two neighbours alike.
const GUARD: [u8; 16] = [
    0xA5, 0x5A, 0x01, 0xFE, 0x80, 0x7F, 0x33, 0xCC, 0x0F, 0xF0, 0x69, 0x96, 0x12, 0xED, 0x3C, 0xC3,
];

/// A lent output and the bytes around it, as a call left them.
#[derive(Clone, Debug, PartialEq, Eq)]
pub struct Lent {
    before: Vec<u8>,
    pub output: Vec<u8>,
    after: Vec<u8>,
}

/// Lends an output with these bytes to a call; gives the call's result too.
pub fn lend<R>(output: &[u8], call: impl FnOnce(&mut [u8]) -> R) -> (R, Lent) {
    let mut before = [&GUARD, output, &GUARD].concat();
    let result = call(&mut before[GUARD.len()..][..output.len()]);
    let after = before.split_off(GUARD.len() + output.len());
    let output = before.split_off(GUARD.len());
    let lent = Lent {
        before,
        output,
        after,
    };
    (result, lent)
}

impl Lent {
    /// An output around which nothing was written.
    pub fn of(output: Vec<u8>) -> Self {
        let (before, after) = (GUARD.to_vec(), GUARD.to_vec());
        Lent {
            before,
            output,
            after,
        }
    }

    /// The first byte in which another one differs from this.
    pub fn problem(&self, other: &Lent) -> Option<String> {
        let before = || {
            let name = "what stands before the output";
            differing(name, &self.before, &other.before)
        };
        let after = || {
            let name = "what stands after the output";
            differing(name, &self.after, &other.after)
        };
        let output = || differing("the output", &self.output, &other.output);
        before().or_else(after).or_else(output)
    }
}

/// The first byte in which something that has a name is not as expected.
pub fn differing(name: &str, expected: &[u8], found: &[u8]) -> Option<String> {
    let mut pairs = expected.iter().zip(found).enumerate();
    let (at, (expected, found)) = pairs.find(|(_, (one, other))| one != other)?;
    Some(format!("byte {at} of {name} is {found}, not {expected}"))
}
