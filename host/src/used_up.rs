//! What the lines of an input that uses up the numbers must show, or the input
//! has lost its point. The numbers are counted over the lines alone.

use crate::desk::{self, CALL, COLLECTION};
use crate::limits::MAX_NUMBERED;

/// A call, and its answer as it is printed.
struct Call<'a> {
    bytes: &'a [u8],
    answer: &'a str,
}

impl Call<'_> {
    fn is_collection(&self) -> bool {
        self.bytes[0] == COLLECTION
    }

    fn gets(&self, start: &str) -> bool {
        self.answer.starts_with(start)
    }

    /// Whether it is an offer that gets a number.
    fn is_numbered(&self) -> bool {
        ["scheduled ", "held ", "dropped "]
            .iter()
            .any(|fate| self.gets(fate))
    }
}

/// The calls up to the one with the last number, and those after it.
struct Shown<'a> {
    before: Vec<Call<'a>>,
    after: Vec<Call<'a>>,
}

/// Starts of answers, each with how often it must come.
type Least<'a> = &'a [(&'a str, usize)];

impl<'a> Shown<'a> {
    /// Puts calls and lines together and finds the last number.
    fn new(input: &'a [u8], lines: &'a str) -> Result<Self, String> {
        let (_, calls) = desk::split(input).ok_or("there is no sheet")?;
        let lines = lines.lines().skip(1);
        let answers = lines.filter_map(|line| Some(line.split_once(' ')?.1));
        let pairs = calls.chunks_exact(CALL).zip(answers);
        let mut before: Vec<Call> = pairs
            .map(|(bytes, answer)| Call { bytes, answer })
            .collect();
        let places = before.iter().enumerate();
        let mut numbered = places.filter(|(_, call)| call.is_numbered());
        let last = numbered.nth(MAX_NUMBERED as usize - 1);
        let (last, _) = last.ok_or("not all numbers are given")?;
        let after = before.split_off(last + 1);
        Ok(Shown { before, after })
    }

    /// S-5 comes after the last number only. From there on no offer gets a number
    /// or a refusal that is decided later, so that the first one which is not
    /// refused for its command or date gets S-5.
    fn limit(&self) -> Result<(), String> {
        if self.before.iter().any(|call| call.gets("refused S-5 ")) {
            return Err("S-5 comes before the last number".into());
        }
        let later = ["refused S-2 ", "refused S-3 ", "refused S-4 "];
        let wrong = |call: &Call| call.is_numbered() || later.iter().any(|it| call.gets(it));
        if self.after.iter().any(wrong) {
            return Err("after the last number something else comes than S-5".into());
        }
        Ok(())
    }

    /// All but two numbers are of offers that are dropped, with such an end of the
    /// line, and refusals come between them.
    fn dropped(&self, lamp: &str) -> Result<(), String> {
        let answer = |answer: &str| format!("{answer}{lamp}");
        let [action, late, past] = ["I-7", "I-8", "S-1"].map(|it| answer(&format!("refused {it}")));
        let offers = [
            (&*answer("dropped"), MAX_NUMBERED as usize - 2),
            (&action, 100),
            (&late, 100),
            (&past, 100),
        ];
        require(&self.before, &offers, &[(&late, 100), (&past, 100)])
    }

    /// What must come after the last number.
    fn goes_on(&self) -> Result<(), String> {
        let offers = [
            ("refused I-7 ", 1),
            ("refused I-8 ", 1),
            ("refused S-1 ", 1),
            ("refused S-5 ", 4),
        ];
        let collections = [
            ("refused I-8 ", 1),
            ("refused S-1 ", 1),
            ("played ", 2),
            ("none ", 1),
        ];
        require(&self.after, &offers, &collections)
    }

    /// Three offers that are refused for the lists just before the last number
    /// come again just after it. That number is of an offer which leaves the lists
    /// as they are.
    fn refused_again(&self) -> Result<(), String> {
        let calls = self.before.iter().rev().take(4).rev();
        let calls: Vec<&Call> = calls.chain(self.after.iter().take(3)).collect();
        let reasons = ["S-2", "S-3", "S-4", "", "S-5", "S-5", "S-5"];
        let expected = reasons.map(|reason| match reason {
            "" => "dropped lamp 0".into(),
            _ => format!("refused {reason} lamp 0"),
        });
        let answers = calls.iter().map(|call| call.answer);
        let bytes: Vec<&[u8]> = calls.iter().map(|call| call.bytes).collect();
        if answers.eq(expected.iter()) && bytes[..3] == bytes[4..] {
            Ok(())
        } else {
            Err("the offers around the last number are not those refused again".into())
        }
    }
}

/// Looks for answers to offers and to collections.
fn require(calls: &[Call], offers: Least, collections: Least) -> Result<(), String> {
    for (is_collection, least) in [(false, offers), (true, collections)] {
        let calls = calls
            .iter()
            .filter(|call| call.is_collection() == is_collection);
        for (start, least) in least {
            let found = calls.clone().filter(|call| call.gets(start)).count();
            if found < *least {
                return Err(format!("{start:?} comes {found} times, not {least}"));
            }
        }
    }
    Ok(())
}

/// Looks at the input whose offers are scheduled, held and dropped.
pub fn of_all_fates(input: &[u8], lines: &str) -> Result<(), String> {
    let shown = Shown::new(input, lines)?;
    let often = MAX_NUMBERED as usize / 8;
    let offers = [
        ("scheduled 1 ", often),
        ("scheduled 3 ", often),
        ("held ", often),
        ("dropped ", often),
        ("refused I-7 ", often / 8),
        ("refused I-8 ", often / 8),
        ("refused S-1 ", often / 8),
    ];
    let collections = [
        ("refused I-8 ", often / 8),
        ("refused S-1 ", often / 8),
        ("played ", often),
    ];
    // The lamp sets the limit aside, and is lit when it is too late for the list.
    let later = [("none lamp 0", 1), ("none lamp 1", 1)];
    shown.limit()?;
    require(&shown.before, &offers, &collections)?;
    shown.refused_again()?;
    shown.goes_on()?;
    require(&shown.after, &[("refused S-5 lamp 1", 1)], &later)
}

/// Looks at the input whose last number is of a list that is played.
pub fn of_a_last_list(input: &[u8], lines: &str) -> Result<(), String> {
    let shown = Shown::new(input, lines)?;
    let (number, before) = (MAX_NUMBERED, MAX_NUMBERED - 1);
    let first = format!("played 0 2 {before} 1 ");
    let last = format!("played 1 2 {number} 2 ");
    shown.limit()?;
    shown.dropped(" lamp 0")?;
    shown.goes_on()?;
    require(&shown.after, &[], &[(&first, 1), (&last, 1)])
}

/// Looks at the input whose offers a lit box drops.
pub fn of_a_lit_box(input: &[u8], lines: &str) -> Result<(), String> {
    let shown = Shown::new(input, lines)?;
    let list = [("played 0 5 1 3 ", 1), ("played 1 15 2 5 ", 1)];
    shown.limit()?;
    shown.dropped(" lamp 1")?;
    shown.goes_on()?;
    require(&shown.after, &[("refused S-5 lamp 1", 4)], &list)
}
