//! Words and numbers of the desk program's lines. Formatting them by the
//! standard library would take longer than many a call.

use crate::monitor::Answer;

/// Adds an answer, a space before each word.
pub fn push_answer(lines: &mut Vec<u8>, answer: &Answer) {
    match answer {
        Answer::Scheduled { count, last } => {
            lines.extend_from_slice(b" scheduled");
            push_word(lines, *count as u32);
            push_word(lines, *last);
        }
        Answer::Held(count) => {
            lines.extend_from_slice(b" held");
            push_word(lines, *count as u32);
        }
        Answer::Dropped => lines.extend_from_slice(b" dropped"),
        Answer::Played(played) => {
            lines.extend_from_slice(b" played");
            push_word(lines, played.action.into());
            push_word(lines, played.date);
            push_word(lines, played.number);
            push_word(lines, played.offered);
        }
        Answer::Nothing => lines.extend_from_slice(b" none"),
        Answer::Refused(refusal) => {
            lines.extend_from_slice(b" refused ");
            lines.extend_from_slice(refusal.name().as_bytes());
        }
    }
}

/// Adds a space and a number.
pub fn push_word(lines: &mut Vec<u8>, number: u32) {
    lines.push(b' ');
    push_number(lines, number);
}

/// Adds a number in decimal.
pub fn push_number(lines: &mut Vec<u8>, number: u32) {
    let mut digits = [b'0'; 10];
    let (mut start, mut left) = (digits.len() - 1, number);
    digits[start] += (left % 10) as u8;
    while left >= 10 {
        left /= 10;
        start -= 1;
        digits[start] += (left % 10) as u8;
    }
    lines.extend_from_slice(&digits[start..]);
}
