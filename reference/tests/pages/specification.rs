//! The checks of docs/SPECIFICATION.md: the formulas of what is promised and quoted, and the count of floors.

use reference::*;

use crate::facts::{flat_cap, quoted, Burnt, Facts, Floor, Square};
use crate::formula::Formula;
use crate::number::Ratio;
use crate::page::{Checked, Page};
use crate::quotes::Formulas;

/// How many times the page writes `floor(`, the line that says what it means apart. The checks read every one of them.
const FLOORS: usize = 12;

pub fn check(page: &Page, facts: &Facts, quotes: &Formulas) -> Checked {
    let floors = page.text.matches("floor(").count() - page.text.matches("`floor(x)`").count();
    page.ensure(floors == FLOORS, || format!("{floors} floors, of which the checks read {FLOORS}"))?;
    totals(page, facts, quotes)?;
    cap(&page.point("8.3")?, facts, quotes)?;
    below_cap(&page.point("15.4")?, facts, quotes)?;
    above_floor(&page.point("15.5")?, facts, quotes)?;
    nothing_lost(&page.point("15.7")?, "Nothing lost.** {} × holes + the top = {} × G, at every time.")?;
    nothing_lost(&page.point("15.15")?, "After Two Heads, {} × holes + debt = {} × G;")?;
    quote_page_widths(&page.point("8.4")?)?;
    never_full(&page.point("15.8")?)?;
    page.point("7.3")?.has("\"finished\" where the top is now below {}, or", &[HALF_DOT.into()])?;
    page.point("8.2")?.has("The error of a cell is its grey, less {} if it is burnt.", &[(DOT / 256).into()])
}

/// The total, in four places, written as on the page of the quotes.
fn totals(page: &Page, facts: &Facts, quotes: &Formulas) -> Checked {
    let places = [
        ("9.4", "the least total and the greatest: <> with G the sum of the lows, and of the highs."),
        ("10.3", "is empty, or keeps more holes than <>. The sheet"),
        ("15.3", "The holes are the smaller of <> and the budgets of the calls that were not refused, together."),
        ("15.3", "says \"finished\" just when all of <> holes are made."),
    ];
    for (number, pattern) in places {
        let point = page.point(number)?;
        let [total] = point.formulas(pattern)?;
        for sum in &facts.sums {
            let found = total.whole(&[("G", sum.grey)])?;
            point.ensure(found == sum.total, || format!("total of {}: {found}, not {}", sum.grey, sum.total))?;
        }
        as_quoted(&point, &total, &quotes.holes)?;
    }
    Ok(())
}

/// A formula is written as on the page of the quotes.
fn as_quoted(point: &Page, formula: &Formula, quoted: &Formula) -> Checked {
    point.ensure(formula.without_squares() == quoted.without_squares(), || {
        "a formula is not written as in docs/QUOTES.md".to_string()
    })
}

fn cap(point: &Page, facts: &Facts, quotes: &Formulas) -> Checked {
    let [cap] = point.formulas("The cap of an aligned square with side s and grey sum g is <>.")?;
    for Square { side, grey, cap: expected, .. } in &facts.squares {
        let found = cap.whole(&[("g", *grey), ("s", *side)])?;
        point.ensure(found == *expected, || format!("cap of {grey} at side {side}: {found}, not {expected}"))?;
    }
    for sum in &facts.sums {
        let found = cap.whole(&[("g", sum.grey), ("s", sum.side)])?;
        point.ensure(found == sum.cap, || format!("cap of {} at side {}: {found}", sum.grey, sum.side))?;
    }
    as_quoted(point, &cap, &quotes.cap)
}

/// The greatest whole number below the formula is the cap, where there are as many cells. The formula has 765 where the
/// cap has 764.
fn below_cap(point: &Page, facts: &Facts, quotes: &Formulas) -> Checked {
    let [bound] = point.formulas("an aligned square with side s and grey sum g has fewer than <> holes, so at most")?;
    let sums = facts.sums.iter().map(|sum| (sum.grey, sum.side, sum.cap));
    let squares = facts.squares.iter().map(|square| (square.grey, square.side, square.cap));
    let argument = quotes.cap.floored().ok_or("the cap has no floor")?;
    for (grey, side, cap) in sums.chain(squares) {
        let bound = bound.value(&[("g", grey), ("s", side)])?;
        let next = argument.value(&[("g", grey), ("s", side)])? + Ratio::new(1, 765);
        point.ensure(bound == next, || "not the cap's, and 1 / 765 more".to_string())?;
        let below = (side * side).min((Ratio::whole(0) - bound).floor().abs() - 1);
        point.ensure(below == cap, || format!("of {grey} at side {side} this allows {below}, not {cap}"))?;
    }
    Ok(())
}

/// The least number above the formula is that of the calculation cut by cut. The formula is x / 510 of the quotes.
fn above_floor(point: &Page, facts: &Facts, quotes: &Formulas) -> Checked {
    let [bound] = point.formulas("Then its holes number more than <>.")?;
    for Floor { map_side, level, side, grey, fewest } in &facts.floors {
        let names = [("g", *grey), ("k", *level), ("N", *map_side), ("s", *side)];
        let value = bound.value(&names)?;
        let least = (value.floor() + 1).max(0);
        let said = || format!("floor of {grey} at side {side} of {map_side}: {least}, not {fewest}");
        point.ensure(least == *fewest, said)?;
        let x = quotes.x.whole(&names)?;
        point.ensure(value == Ratio::new(x, 510), || "not x / 510, as docs/QUOTES.md has it".to_string())?;
    }
    Ok(())
}

/// What a hole is worth and what a grey is worth.
fn nothing_lost(point: &Page, pattern: &str) -> Checked {
    point.has(pattern, &[DOT.into(), 256])
}

/// The widths of the columns, the length of a line, and that of a page.
fn quote_page_widths(point: &Page) -> Checked {
    let pattern =
        "row ({} wide), column ({}), grey sum ({}), holes ({}) and cap ({}). Each line has {} bytes, the page";
    let numbers = point.numbers(pattern)?;
    let (mut out, mut ends) = (vec![0; 4_096], Vec::new());
    let length = quote_page(8, &[200; 64], &[1; 64], 3, &mut out).map_err(|_| "refused")?;
    let line = out.iter().position(|byte| *byte == 10).unwrap_or(0) as i128 + 1;
    for (place, byte) in out[..line as usize].iter().enumerate() {
        if byte.is_ascii_digit() && !out[place + 1].is_ascii_digit() {
            ends.push(place as i128 + 1);
        }
    }
    let starts = [0, ends[0] + 1, ends[1] + 1, ends[2] + 1, ends[3] + 1];
    let mut expected: Vec<i128> = ends.iter().zip(starts).map(|(end, start)| end - start).collect();
    expected.push(line);
    point.ensure(numbers == expected, || format!("the widths are {expected:?} and not {numbers:?}"))?;
    let [page] = point.formulas("bytes, the page <>.")?;
    point.ensure(page.whole(&[("level", 3)])? == length as i128, || format!("the page has {length} bytes"))
}

/// The first side at which a map, and a square, that is as dark as can be comes to fewer holes than cells.
fn never_full(point: &Page) -> Checked {
    let first = |most: fn(u32) -> i128| SIDES.into_iter().find(|side| most(*side) < cell_count(*side) as i128);
    let total = |side| quoted(side, &vec![HIGHEST; cell_count(side)], &vec![HIGHEST; cell_count(side)], 0).0;
    let sides = [first(total), first(|side| flat_cap(side, HIGHEST))].map(|side| side.map_or(0, i128::from));
    let pattern = "A map of side {} or more never has a hole in every cell, and neither has an aligned square of side \
                   {} or more.";
    point.has(pattern, &sides)?;
    point.has("A map of side {} can be full, and so can a square of side {}, {} or {};", &full_sides())?;
    let open = SIDES.into_iter().filter(|side| *side > 4 && flat_cap(*side, HIGHEST) == cell_count(*side) as i128);
    let open: Vec<i128> = open.map(i128::from).collect();
    point.has("of squares of side {} and {} nothing is promised.", &open)
}

/// The side of a map that is burnt in every cell, then those of squares in a larger map that are.
fn full_sides() -> Vec<i128> {
    let dark = Burnt::flat(16, HIGHEST);
    let maps = SIDES.into_iter().filter(|side| Burnt::flat(*side, HIGHEST).full(0) == 1);
    let squares = (0..=4).rev().filter(|level| dark.full(*level) > 0).map(|level| 16 >> level);
    maps.chain(squares).map(i128::from).collect()
}
