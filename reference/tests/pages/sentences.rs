//! The sentences of QUOTES.md that have figures, each with the numbers that the reference works out for it.

use reference::*;

use crate::facts::{cap_of, fewest, flat_cap, quoted, sum, sum_in, with_two_heads, Burnt};

pub type Sentences = Vec<(&'static str, Vec<i128>)>;

pub fn of(sweat: &Burnt, lows: &[u8], highs: &[u8]) -> Sentences {
    [limits(), never_full(), some_full(), two_heads(), example(sweat), sketch(sweat, lows, highs)].concat()
}

/// Sides, greys and what a hole is worth.
fn limits() -> Sentences {
    let sides = vec![SIDES[0].into(), SIDES[7].into()];
    let greys = vec![0, HIGHEST.into(), (DOT / 256).into()];
    let (worth, highest) = ((DOT / 256).into(), HIGHEST.into());
    vec![
        ("N is a power of two, at least {} and at most {}.", sides),
        ("to get the panel ({} for the whole map, {} for a quarter of it, and so on)", vec![0, 1]),
        ("The mean grey from which a panel has a floor above {}:", vec![0]),
        ("That is why no grey above {} is accepted", vec![highest]),
        ("A liner whose map was loaded when greys went up to {} is finished", vec![u8::MAX.into()]),
        ("A hole is worth {} grey.", vec![worth]),
        ("The edges of a panel have {} x s cells", vec![4]),
        ("goes from {}, for no hole wanted, to {}, the darkest that may be asked for; a hole is worth {}.", greys),
    ]
}

/// The total of a map that is as dark as can be.
fn darkest(side: u32) -> i128 {
    let greys = vec![HIGHEST; cell_count(side)];
    quoted(side, &greys, &greys, 0).0
}

fn cells(side: u32) -> i128 {
    cell_count(side) as i128
}

/// Which maps and panels never have a hole in every cell.
fn never_full() -> Sentences {
    let highest = HIGHEST.into();
    let not_full = |side: &&u32| darkest(**side) < cells(**side);
    let under_cap = |side: &&u32| flat_cap(**side, HIGHEST) < cells(**side);
    let first_map = *SIDES.iter().find(not_full).unwrap();
    let first_panel = *SIDES.iter().find(under_cap).unwrap();
    assert!(SIDES.iter().filter(not_full).count() == 7 && SIDES.iter().filter(under_cap).count() == 4);
    let mut totals = vec![first_map.into(), highest];
    for side in [4, 16, 256] {
        totals.extend([darkest(side), cells(side), side.into()]);
    }
    let cap = flat_cap(first_panel, HIGHEST);
    vec![
        (
            "A liner of side {} or more never has a hole in every cell. Its greys sum to at most {} for each cell, so \
             it comes to at most {} holes of {} cells at side {}, {} of {} at side {}, and {} of {} at side {}.",
            totals,
        ),
        (
            "No panel of side {} or more ever has one in every cell. The darkest such panel of side {} has a cap of {} \
             for its {} cells, and larger ones have more room still.",
            vec![first_panel.into(), first_panel.into(), cap, cells(first_panel)],
        ),
    ]
}

/// Which panels may have one.
fn some_full() -> Sentences {
    let (four, dark) = (Burnt::flat(2, HIGHEST), Burnt::flat(16, HIGHEST));
    assert_eq!((four.holes, dark.full(2)), (4, 1));
    let open = |side: &&u32| **side > 4 && flat_cap(**side, HIGHEST) == cells(**side);
    let open: Vec<i128> = SIDES.iter().filter(open).map(|side| i128::from(*side)).collect();
    let highest = HIGHEST.into();
    vec![
        ("A map of side {} with four greys of {} has four holes: all of its cells.", vec![2, highest]),
        (
            "In a map of side {} with all greys {}, {} of the {} panels of {} by {} cells are burnt in every cell, and \
             one of those of {} by {}.",
            vec![16, highest, dark.full(3), 64, 2, 2, 4, 4],
        ),
        ("For panels of side {} and {} the cap does not rule it out;", open),
    ]
}

/// One dark grey in the same cell of each 8 by 8 cells.
fn one_in_each(side: u32, grey: u8) -> Vec<u8> {
    let chosen = |cell: u32| cell / side % 8 == 3 && cell % side % 8 == 3;
    (0..side * side).map(|cell| if chosen(cell) { grey } else { 0 }).collect()
}

/// What two heads make of maps, beside what is signed for one.
fn two_heads() -> Sentences {
    let light = Burnt::flat(16, 1);
    assert_eq!(with_two_heads(16, &light.greys), 0);
    let light = vec![16, 1, sum(&light.greys), light.holes, fewest(16, 0, sum(&light.greys)), 8, 8];
    let mut apart = vec![128, 8, 8, 3, 3, 0];
    for side in [16, 256] {
        let greys = one_in_each(side, 128);
        apart.extend([side.into(), with_two_heads(side, &greys), quoted(side, &greys, &greys, 0).0]);
    }
    let cap = cap_of(256, &one_in_each(256, 128), [0, 0, 0]);
    assert!(with_two_heads(256, &one_in_each(256, 128)) > cap);
    apart.push(cap);
    vec![
        (
            "A liner of side {} with all greys {} sums to {}, which is {} hole, and the floor of the whole liner is {} \
             too. With two heads it gets none: no {} by {} cells ask for half a hole.",
            light,
        ),
        (
            "A liner with one grey of {} in each {} by {} cells, say in row {} and column {} of them, and {} elsewhere \
             gets a hole in each. For side {} that is {} holes, where the first figure says {}. For side {} it is {}, \
             where it says {}, and the cap of the whole liner, {}, is passed too.",
            apart,
        ),
    ]
}

/// The sample map.
fn example(sweat: &Burnt) -> Sentences {
    let (side, greys) = (sweat.side, &sweat.greys);
    let (whole, quarter, panel) = ([0, 0, 0], [1, 1, 1], [2, 3, 3]);
    let panel_grey = sum_in(side, greys, panel);
    assert_eq!(fewest(32, 2, panel_grey), 0);
    vec![
        (
            "`samples/socket-sweat.map`, side {}, is a sweat map of a socket liner. Its greys sum to {}:",
            vec![side.into(), sum(greys)],
        ),
        (
            "prints a list of {} holes. Its bottom right panel of {} by {} cells has a grey sum of {}:",
            vec![sweat.holes, 8, 8, panel_grey],
        ),
        (
            "The list has {} holes there. This panel's is the last line of the quote page of level {}:",
            vec![sweat.holes_in(panel), 2],
        ),
        ("![the {} panels of socket-sweat, each with its holes and cap]", vec![16]),
        (
            "The map's bottom right quarter (s = {}, k = {}) has a grey sum of {}:",
            vec![16, 1, sum_in(side, greys, quarter)],
        ),
        (
            "The list has {} there; its cap is {}. For the panel of {} by {} cells above, x is below {}. For the whole \
             map as one panel (s = {}) the cap is {}:",
            vec![sweat.holes_in(quarter), cap_of(side, greys, quarter), 8, 8, 0, 32, cap_of(side, greys, whole)],
        ),
    ]
}

/// The sample sketch.
fn sketch(sweat: &Burnt, lows: &[u8], highs: &[u8]) -> Sentences {
    let place = sweat.greys.iter().position(|grey| *grey == 31).unwrap();
    let pair = [lows[place].into(), highs[place].into()];
    let known_to = sweat.greys.iter().zip(lows).map(|(grey, low)| i128::from(grey - low)).max().unwrap();
    vec![
        (
            "is the same map, each grey known to about {}: where the map has {} the sketch has {},{}. Its lows sum to \
             {} and its highs to {}:",
            vec![known_to, 31, pair[0], pair[1], sum(lows), sum(highs)],
        ),
        ("The highs of the bottom right panel of {} by {} cells sum to {}:", vec![8, 8, sum_in(32, highs, [2, 3, 3])]),
        ("`(echo {}; cat samples/socket-sweat.sketch) | ./sketch` prints both numbers on its first line", vec![2]),
    ]
}
