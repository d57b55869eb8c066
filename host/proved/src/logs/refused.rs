//! The messages for logs that the proved library refuses.

use crate::library::Proved;
use host::limits::LAST_DATE;
use host::log::{records, Converter, Format, RECORD};
use host::refusal::Refusal;

/// A log and, if it was written as text, the line of each record.
pub struct Source<'a> {
    pub format: Format,
    pub log: &'a [u8],
    pub lines: &'a [usize],
}

impl Source<'_> {
    /// The message for a reason: the record, its line, and the numbers.
    pub fn message(&self, reason: Refusal) -> String {
        if reason == Refusal::I9 {
            return self.cut_short();
        }
        let place = Proved.sound(self.format, self.log);
        let line = match self.lines.get(place) {
            Some(line) => format!(" (line {line})"),
            None => String::new(),
        };
        let (record, numbers) = (place + 1, self.numbers(reason, place));
        format!("record {record}{line}: {reason}: {numbers}")
    }

    /// The message for a length that is wrong. The output never has another one.
    fn cut_short(&self) -> String {
        let (all, reason) = (self.log.len(), Refusal::I9);
        let (record, rest) = (all / RECORD + 1, all % RECORD);
        let length = format!("the log has {all}, no multiple of {RECORD}");
        format!("record {record}: {reason}: it has {rest} of {RECORD} bytes; {length}")
    }

    /// What is wrong with the record at a place.
    fn numbers(&self, reason: Refusal, place: usize) -> String {
        let record = records(self.log).get(place).copied();
        let ticks = record.map_or(0, |record| record.ticks);
        let before = self.date_before(place);
        match (reason, self.format) {
            (Refusal::I11, _) => {
                format!("its date {ticks} is below {before}, that of the record before it")
            }
            (_, Format::Dates) => format!("its date {ticks} is above {LAST_DATE}"),
            (_, Format::Gaps) => {
                let date = u64::from(before) + u64::from(ticks);
                format!("its gap {ticks} leads from {before} to {date}, which is above {LAST_DATE}")
            }
        }
    }

    /// The date of the record before a place, 0 if there is none. All records
    /// before the place are without fault.
    fn date_before(&self, place: usize) -> u32 {
        let before = &self.log[..RECORD * place];
        let mut dates = before.to_vec();
        if self.format == Format::Gaps {
            Proved.convert(Format::Gaps, before, &mut dates);
        }
        records(&dates).last().map_or(0, |record| record.ticks)
    }
}
