//! Of what kinds a comparison or a shelf is, told from what was lent and what was answered.

use reference::{compare, Compared};

use crate::library::Outcome;
use crate::parts::needed;

/// A kind, in words.
pub type Kind = &'static str;

/// The kinds that have to be met.
pub const KINDS: [Kind; 20] = [
    "compare: no side",
    "compare: the left sheet alone one place short",
    "compare: the right sheet alone one place short",
    "compare: longer sheets",
    "compare: burnt alike, with other serials",
    "compare: the last cell alone differs",
    "compare: the last two cells alone differ",
    "compare: the first cell differs",
    "shelf: no side",
    "shelf: no plate",
    "shelf: one plate",
    "shelf: a hundred plates or more",
    "shelf: ten plates or more burnt alike",
    "shelf: three plates or more in falling order",
    "shelf: places to spare for plates and list",
    "shelf: one place short, and so is the list",
    "shelf: the list alone one place short",
    "shelf: fewer plates asked for than there are",
    "shelf: 2^32 places needed or more",
    "shelf: enough places for plates and list, modulo 2^32",
];

/// The kinds of which this is true.
pub fn true_ones<const N: usize>(kinds: [(Kind, bool); N]) -> Vec<Kind> {
    kinds.into_iter().filter_map(|(kind, is_so)| is_so.then_some(kind)).collect()
}

/// The kinds that a comparison is of.
pub fn of_compare(side: u32, left: &[u32], right: &[u32], outcome: &Outcome) -> Vec<Kind> {
    let (cells, _) = needed(side);
    let (refused, short) = (outcome.code < 100, outcome.code == 4);
    let cell = matches!(outcome.code, 103 | 105).then_some(&outcome.values[..]);
    let last = u64::from(side.wrapping_sub(1));
    true_ones([
        ("compare: no side", outcome.code == 1),
        ("compare: the left sheet alone one place short", short && left.len() + 1 == cells && right.len() >= cells),
        ("compare: the right sheet alone one place short", short && left.len() >= cells && right.len() + 1 == cells),
        ("compare: longer sheets", !refused && left.len() > cells && right.len() > cells),
        ("compare: burnt alike, with other serials", outcome.code == 104 && left[..cells] != right[..cells]),
        ("compare: the last cell alone differs", !refused && differing(cells, left, right).eq([cells - 1])),
        ("compare: the last two cells alone differ", cell == Some(&[last, last.wrapping_sub(1)])),
        ("compare: the first cell differs", cell == Some(&[0, 0])),
    ])
}

/// The cells that are burnt on one of two plates alone.
fn differing<'a>(cells: usize, left: &'a [u32], right: &'a [u32]) -> impl Iterator<Item = usize> + 'a {
    (0..cells).filter(|cell| (left[*cell] != 0) != (right[*cell] != 0))
}

/// The kinds that a shelf is of; the list is the part lent, afterwards.
pub fn of_shelf(side: u32, n: u32, plates: &[u32], list: &[u32], code: u32) -> Vec<Kind> {
    let (cells, _) = needed(side);
    let (n, places) = (n as usize, n as usize * cells);
    let sorted = if code == 0 { &list[..n] } else { &[] };
    let wrapped = places % (1 << 32) <= plates.len() && n <= list.len();
    true_ones([
        ("shelf: no side", code == 1),
        ("shelf: no plate", code == 0 && n == 0),
        ("shelf: one plate", code == 0 && n == 1),
        ("shelf: a hundred plates or more", sorted.len() >= 100),
        ("shelf: ten plates or more burnt alike", most_alike(side, plates, sorted) >= 10),
        ("shelf: three plates or more in falling order", n >= 3 && sorted.iter().rev().copied().eq(0..n as u32)),
        ("shelf: places to spare for plates and list", code == 0 && plates.len() > places && list.len() > n),
        ("shelf: one place short, and so is the list", code == 4 && plates.len() + 1 == places && list.len() + 1 == n),
        ("shelf: the list alone one place short", code == 8 && list.len() + 1 == n),
        ("shelf: fewer plates asked for than there are", code == 0 && n > 0 && plates.len() >= places + cells),
        ("shelf: 2^32 places needed or more", code == 4 && places >= 1 << 32),
        ("shelf: enough places for plates and list, modulo 2^32", code == 4 && wrapped),
    ])
}

/// How many plates one after the other in the list are burnt alike, at most.
fn most_alike(side: u32, plates: &[u32], sorted: &[u32]) -> usize {
    let plate = |number: u32| &plates[number as usize * needed(side).0..];
    let runs = sorted.chunk_by(|left, right| compare(side, plate(*left), plate(*right)) == Ok(Compared::Same));
    runs.map(<[u32]>::len).max().unwrap_or(0)
}
