//! The text of a joined sheet: where it comes from, and the pair of locations
//! behind each of its own.

use host::question::decode_sheet;

/// The text of a joined sheet. The sheets come from files with these names, and
/// the second has so many locations.
pub fn write(names: [&str; 2], second_count: u8, joined: &[u8]) -> Result<String, String> {
    let pair = |location: u8| {
        let (i, j) = (location / second_count, location % second_count);
        format!("location {location} is ({i}, {j})")
    };
    Ok(heading(names) + &decode_sheet(joined, pair)?)
}

/// The comments before the joined sheet. A name may have any characters, line ends
/// too.
fn heading(names: [&str; 2]) -> String {
    let [first, second] = names.map(str::escape_debug);
    format!(
        "# {first} and {second} as one sheet: a run satisfies it exactly when it satisfies both.\n\
         # Location (i, j) is i of the first and j of the second. Clock 1 is the first's, clock 2 the second's.\n"
    )
}
