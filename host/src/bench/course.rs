//! Sheet A with single actions.

use super::script::Script;
use super::Input;
use crate::course::A;

/// Offers that are each scheduled at once, each collected before the next.
pub fn single(calls: usize) -> Vec<Input> {
    let mut script = Script::new(A);
    let mut date = 0;
    for step in 0..calls / 2 {
        // Every third offer is of action 1, at times too early by two ticks.
        let action = u8::from(step % 3 == 2);
        date += [1, 0, 2, 3][step % 4];
        script.offer(action, date);
        date = script.monitor().reached().date.max(date);
        script.collect(date);
    }
    vec![script.finish()]
}
