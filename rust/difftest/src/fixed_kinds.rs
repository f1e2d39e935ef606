//! What the cases that are the same in every run have to show: for each call the numbers that must be tried with 2^8,
//! 2^16, 2^24 and 2^31 more, and told from the same number cut to as many bits; the counts kept under names that must
//! be tried with more; the sheets with a cell at its bounds. This is written apart from the cases, so that one that is
//! dropped is missed.

/// A call, a number of it and a power of two; or what a cell is like, where it lies, and the side.
pub type Fixed = (&'static str, &'static str, u32);

/// The arguments of 32 bits of each call. Map Text, Lower Text and the lowering of greys have none.
const ARGUMENTS: [(&str, &[&str]); 15] = [
    ("load", &["side", "knit"]),
    ("advance", &["side", "dots", "knit", "budget"]),
    ("two_heads", &["side", "knit"]),
    ("tally", &["side", "level", "row", "column"]),
    ("levels", &["side"]),
    ("sketch_quote", &["level"]),
    ("drill_list", &["side", "dots", "knit"]),
    ("quote_page", &["side", "level"]),
    ("sample", &["seed", "side"]),
    ("compare", &["side"]),
    ("shelf", &["side", "n"]),
    ("keep", &["side", "dots", "knit", "name"]),
    ("restore", &["side", "dots", "knit", "name"]),
    ("relay", &["side", "dots", "knit"]),
    ("renew", &["side", "row", "column"]),
];

/// The places of 32 bits of the buffers that each call reads.
const PLACES: [(&str, &[&str]); 9] = [
    ("advance", &["serial", "order"]),
    ("tally", &["serial"]),
    ("levels", &["serial"]),
    ("drill_list", &["serial", "order"]),
    ("quote_page", &["serial"]),
    ("compare", &["serial"]),
    ("shelf", &["serial"]),
    ("restore", &["serial", "order"]),
    ("relay", &["serial", "order"]),
];

const COUNTS: [(&str, &[&str]); 2] = [("keep", &["count"]), ("restore", &["count"])];

/// What a cell is like, in each place of each side.
const CELLS: [&str; 16] = [
    "a burnt cell that owes 0",
    "a burnt cell that owes 1",
    "an unburnt cell that owes 65,280",
    "an unburnt cell that owes 65,281",
    "an unburnt cell that owes the least, all around it burnt",
    "an unburnt cell that owes one less, all around it burnt",
    "a burnt cell that owes the least, all around it burnt",
    "a burnt cell that owes one less, all around it burnt",
    "an unburnt cell that owes the least, the straight ones burnt",
    "an unburnt cell that owes one less, the straight ones burnt",
    "a burnt cell that owes the least, the diagonal ones burnt",
    "a burnt cell that owes one less, the diagonal ones burnt",
    "an unburnt cell that owes 0, none around it burnt",
    "an unburnt cell that owes -1, none around it burnt",
    "a burnt cell that owes 0, none around it burnt",
    "a burnt cell that owes -1, none around it burnt",
];

/// A table's numbers, each with each power of two.
fn tried(table: &[(&'static str, &[&'static str])], bits: &[u32]) -> Vec<Fixed> {
    let of_call = |(call, numbers): &(&'static str, &[&'static str])| -> Vec<Fixed> {
        numbers.iter().flat_map(|number| bits.iter().map(|bits| (*call, *number, *bits))).collect()
    };
    table.iter().flat_map(of_call).collect()
}

/// The cells; side 2 has corners alone.
fn cells() -> Vec<Fixed> {
    let corners = [2, 4, 8, 16, 32].map(|side| ("in a corner", side));
    let others = [4, 8, 16, 32].map(|side| [("on a side", side), ("inside", side)]).concat();
    let places = [&corners[..], &others].concat();
    CELLS.iter().flat_map(|cell| places.iter().map(|(place, side)| (*cell, *place, *side))).collect()
}

/// All that has to be shown.
pub fn all() -> Vec<Fixed> {
    let bits = [8, 16, 24, 31];
    let counts = tried(&COUNTS, &[31, 32, 63]);
    [tried(&ARGUMENTS, &bits), tried(&PLACES, &bits), counts, cells()].concat()
}

/// What was shown, in words.
pub fn said() -> String {
    let [arguments, places] = [&ARGUMENTS[..], &PLACES].map(|table| tried(table, &[0]).len());
    format!(
        "fixed cases: {arguments} arguments of 32 bits and {places} places of buffers, each with 2^8, 2^16, 2^24 and \
         2^31 more,\nwere told from the same cut to as many bits, but for Keep's knit, which plays no part; kept \
         counts had 2^31,\n2^32 and 2^63 more; a cell was at its bounds and one unit beyond in {} ways, places and \
         sides",
        cells().len()
    )
}
