//! The checks of docs/SPECIFICATION.md on how the engine works: places of buffers, due holes, shares, samples and
//! macroblocks.

use reference::by_rows::two_heads_in;
use reference::*;

use crate::formula::Formula;
use crate::number::Ratio;
use crate::page::{Checked, Page};

pub fn check(page: &Page) -> Checked {
    cell_numbers(&page.point("2.3")?)?;
    levels_of_the_pyramid(&page.point("2.5")?)?;
    table_of_places(&page.point("2.5")?)?;
    row_after_row(&page.point("2.6")?)?;
    cells_of_squares(&page.point("2.10")?)?;
    due(&page.point("3.1")?)?;
    worth(&page.point("3.4")?)?;
    weight(&page.point("3.5")?)?;
    shares_by_sums(&page.point("3.7")?)?;
    start(&page.point("3.9")?)?;
    samples(&page.point("12.1")?)?;
    macroblocks(&page.point("13.1")?)?;
    page.point("13.2")?.has("A macroblock whose cells sum to less than {} does nothing.", &[HALF_DOT.into()])?;
    let room = [LONGEST_INPUT as i128, GREYS_ROOM as i128];
    page.point("14.1")?.has("An input of more than {} bytes is 9, before all else. It has room for {} greys", &room)
}

/// Rows and columns below a bound.
fn places(bound: usize) -> impl Iterator<Item = (usize, usize)> {
    (0..bound).flat_map(move |row| (0..bound).map(move |column| (row, column)))
}

/// A map with one dark cell gets its hole there.
fn cell_numbers(point: &Page) -> Checked {
    let [number] = point.formulas("The cell in row x and column y has the number <>.")?;
    for (row, column) in places(4) {
        let text = (0..4).map(|x| (0..4).map(|y| if (x, y) == (row, column) { "240" } else { "0" }).collect());
        let rows: Vec<String> = text.map(|row: Vec<&str>| row.join(",") + "\n").collect();
        let list = String::from_utf8(plate(format!("4\n{}", rows.concat()).as_bytes())).unwrap();
        point.ensure(list == format!("1,4\n1,{row},{column}\n"), || format!("the list is {list}"))?;
        let mut buffers = Buffers::new(4).unwrap();
        let mut greys = vec![0; 16];
        let cell = number.whole(&[("x", row as i128), ("y", column as i128), ("N", 4)])?;
        *greys.get_mut(cell as usize).ok_or(point.fault(format!("cell {cell} is not on the map")))? = 240;
        let loaded = buffers.load(4, PLAIN, &greys);
        let mut out = [0; 100];
        let made = buffers.advance(loaded.progress, 9).progress;
        let length = buffers.drill_list(made, &mut out).map_err(|_| "refused")?;
        point.ensure(out[..length] == *list.as_bytes(), || format!("cell {cell} is not at {row}, {column}"))?;
    }
    Ok(())
}

fn levels_of_the_pyramid(point: &Page) -> Checked {
    let pattern = "level k from place <> on. So <> places are needed, from <> at side 2 to <> at side 256.";
    let [from, needed, least, most] = point.formulas(pattern)?;
    for k in 0..=8 {
        let found = from.whole(&[("k", k.into())])?;
        point.ensure(found == level_start(k) as i128, || format!("level {k} from {found}"))?;
        let found = needed.whole(&[("r", k.into())])?;
        point.ensure(found == pyramid_length(k) as i128, || format!("{found} places at power {k}"))?;
    }
    let both = (least.whole(&[])?, most.whole(&[])?);
    let expected = (pyramid_length(1) as i128, pyramid_length(8) as i128);
    point.ensure(both == expected, || format!("the lengths are {expected:?} and not {both:?}"))
}

/// The places of the four entries below one, and those past the table.
fn table_of_places(point: &Page) -> Checked {
    let [first, last] = point.formulas("the four entries below place i of the pyramid are at <> to <>. For rows")?;
    for (level, (row, column)) in (0..6).flat_map(|level| places(2usize.pow(level)).map(move |place| (level, place))) {
        let at = [("i", quarter_entry(level, row, column) as i128)];
        let below = |down, right| quarter_entry(level + 1, 2 * row + down, 2 * column + right) as i128;
        let right = first.whole(&at)? == below(0, 0) && last.whole(&at)? == below(1, 1);
        point.ensure(right, || format!("not the entries below ({row}, {column}) of level {level}"))?;
    }
    let pattern =
        "For rows and columns below {} a fixed table of {} places has this; its numbers are each number below \
                   {}, once.";
    point.has(pattern, &[32, 1_024, 1_024])?;
    let pattern = "is that of (<>, <>) in the table, and {} times that of (<>, <>) more.";
    let texts = point.captures(pattern)?;
    let formulas = texts.iter().map(|text| Formula::read(text)).collect::<Result<Vec<_>, String>>()?;
    let within = |a: i128, b: i128| quarter_entry(8, a as usize, b as usize) as i128 - level_start(8) as i128;
    for (a, b) in places(256).step_by(101) {
        let names = [("a", a as i128), ("b", b as i128)];
        let values = formulas.iter().map(|formula| formula.whole(&names)).collect::<Result<Vec<_>, String>>()?;
        let place = within(values[0], values[1]) + values[2] * within(values[3], values[4]);
        point.ensure(place == within(a as i128, b as i128), || format!("the place of ({a}, {b}) is not {place}"))?;
    }
    Ok(())
}

fn row_after_row(point: &Page) -> Checked {
    let [place] = point.formulas("with the entry (a, b) of level k at place <> of its level")?;
    for (k, (a, b)) in (0..6).flat_map(|level| places(2usize.pow(level)).map(move |place| (level, place))) {
        let found = place.whole(&[("a", a as i128), ("b", b as i128), ("k", k.into())])?;
        let expected = (entry(k, a, b) - level_start(k)) as i128;
        point.ensure(found == expected, || format!("the place of ({a}, {b}) is not {found}"))?;
    }
    Ok(())
}

/// Tally counts a burnt cell in just the square whose rows and columns have it.
fn cells_of_squares(point: &Page) -> Checked {
    let pattern = "With s = <> for its side, it has the cells in rows <> to <> and columns <> to <>: those";
    let [side, first_row, last_row, first_column, last_column] = point.formulas(pattern)?;
    for (level, (x, y)) in (0..=2).flat_map(|level| places(4).map(move |place| (level, place))) {
        let mut serials = [0; 16];
        serials[4 * x + y] = 1;
        for (a, b) in places(2usize.pow(level)) {
            let s = side.whole(&[("N", 4), ("k", level.into())])?;
            let names = [("a", a as i128), ("b", b as i128), ("s", s)];
            let rows = first_row.whole(&names)?..=last_row.whole(&names)?;
            let columns = first_column.whole(&names)?..=last_column.whole(&names)?;
            let inside = rows.contains(&(x as i128)) && columns.contains(&(y as i128));
            let counted = tally(4, &serials, level, a as u32, b as u32);
            point.ensure(counted == Ok(u32::from(inside)), || format!("({a}, {b}) of level {level} at ({x}, {y})"))?;
        }
    }
    Ok(())
}

fn due(point: &Page) -> Checked {
    point.has("A hole is due as long as the top is at least {}.", &[HALF_DOT.into()])?;
    let pattern = "With a top of t, none are due if t is below <>, else <>.";
    let [from, due] = point.formulas(pattern)?;
    let tops = (0..300).flat_map(|hole| [hole * HALF_DOT - 1, hole * HALF_DOT, hole * HALF_DOT + 1]);
    for top in tops {
        let below = Ratio::whole(top.into()) < from.value(&[])?;
        let found = if below { 0 } else { due.whole(&[("t", top.into())])? };
        point.ensure(found == i128::from(dots_due(top)), || format!("{found} holes due at {top}"))?;
    }
    Ok(())
}

/// One hole at side 2, in a cell that owes W: what it lacks is taken from the others, where nothing was.
fn worth(point: &Page) -> Checked {
    let [lacking] = point.formulas("W is what the cell reached owes, and d = <>. It then owes 0.")?;
    for grey in 128..=240u8 {
        let mut buffers = Buffers::new(2).unwrap();
        let loaded = buffers.load(2, PLAIN, &[grey, 0, 0, 0]);
        let owed = buffers.pyramid[1];
        buffers.advance(loaded.progress, 1);
        let taken = i128::from(-buffers.pyramid[0]);
        let found = lacking.whole(&[("W", owed.into())])?;
        point.ensure(found == taken && buffers.pyramid[1] == 0, || format!("d is {taken} and not {found}"))?;
    }
    point.has("On a sound sheet with a hole due W is {} to {}.", &[1, DOT.into()])
}

/// The weights of the neighbours of a cell of a map of side 4, in the order of the spread.
fn weights_at(knit: u32, row: usize, column: usize) -> Vec<i64> {
    weights_of(weights(knit).unwrap(), &neighbours_in_turn(4, row, column))
}

fn weight(point: &Page) -> Checked {
    let mut each = Vec::new();
    for knit in [PLAIN, RIBBED] {
        let inside = weights_at(knit, 1, 1);
        each.extend([inside[4], inside[0]].map(i128::from));
    }
    let pattern =
        "On plain cloth a straight neighbour (above, left, right, below) weighs {} and a diagonal one {}. On \
                   ribbed cloth a straight one weighs {} and a diagonal one {}.";
    point.has(pattern, &each)?;
    let sum = |knit, row, column| i128::from(weights_at(knit, row, column).iter().sum::<i64>());
    let sums = |knit| [sum(knit, 1, 1), sum(knit, 0, 1), sum(knit, 0, 0)];
    let pattern = "on plain cloth {} inside the map, {} on a side and {} in a corner, on ribbed cloth {}, {} and {}.";
    point.has(pattern, &[sums(PLAIN), sums(RIBBED)].concat())
}

fn shares_by_sums(point: &Page) -> Checked {
    let [share] = point.formulas("Its debt falls by its share, <>. The shares sum to d")?;
    let cells = [(1, 1), (0, 1), (0, 0)];
    for (knit, (row, column)) in [PLAIN, RIBBED].iter().flat_map(|knit| cells.map(|cell| (*knit, cell))) {
        let weights = weights_at(knit, row, column);
        let total: i64 = weights.iter().sum();
        for d in (0..60).chain([32_512, 65_279, DOT]) {
            let (mut before, mut found) = (0, Vec::new());
            for weight in &weights {
                let up_to = before + i128::from(*weight);
                found.push(share.whole(&[("d", d.into()), ("c", up_to), ("c'", before), ("D", total.into())])?);
                before = up_to;
            }
            let expected: Vec<i128> = shares(d, &weights).iter().map(|share| i128::from(*share)).collect();
            point.ensure(found == expected, || format!("the shares of {d} are {expected:?} and not {found:?}"))?;
        }
    }
    point.has("so each hole takes just {} from the map.", &[DOT.into()])?;
    let thirteen: Vec<i128> = shares(13, &weights_at(PLAIN, 1, 1)).iter().map(|share| i128::from(*share)).collect();
    let pattern = "Shares of 13 inside plain cloth: {}, {}, {}, {}, then {}, {}, {}, {}.";
    point.has(pattern, &thirteen)
}

/// What Load writes for a grey.
fn start(point: &Page) -> Checked {
    let [debt] = point.formulas("It starts with the sheet that has the debt <> in each cell")?;
    for grey in 0..=HIGHEST {
        let mut buffers = Buffers::new(2).unwrap();
        let loaded = buffers.load(2, PLAIN, &[grey; 4]);
        let right = debt.whole(&[("grey", grey.into())])? == i128::from(buffers.pyramid[4]);
        point.ensure(right && loaded.status == Ok(()), || format!("not the debt of the grey {grey}"))?;
    }
    Ok(())
}

fn samples(point: &Page) -> Checked {
    let [next, grey] = point.formulas("at first the seed, becomes <>, and the grey is <>. It answers")?;
    for seed in [0, 1, 7, u32::MAX] {
        let mut greys = [0; 256];
        let reached = sample(seed, 16, &mut greys).map_err(|_| "refused")?;
        let mut state = i128::from(seed);
        for (cell, expected) in greys.iter().enumerate() {
            state = next.whole(&[("state", state)])?;
            let found = grey.whole(&[("state", state)])?;
            point.ensure(found == i128::from(*expected), || format!("grey {cell} of seed {seed} is {expected}"))?;
        }
        point.ensure(state == i128::from(reached), || format!("seed {seed} reaches {reached} and not {state}"))?;
    }
    let mut greys = [0; 4];
    sample(0, 2, &mut greys).map_err(|_| "refused")?;
    point.has("Seed 0 begins {}, {}, {}, {}.", &greys.map(i128::from))
}

/// The macroblocks of the first rounds of a run, which the reference hands out to be arranged.
fn macroblocks(point: &Page) -> Checked {
    let pattern =
        "A macroblock is {} by {} cells. Round t, counted from 0, has those whose top left cell is at row <> \
                   and column <> and that lie wholly on the map";
    let [wide, high, row, column] = point.formulas(pattern)?;
    let side = 32u32;
    let mut buffers = Buffers::new(side).unwrap();
    let (mut rounds, greys) = (Vec::new(), vec![20; cell_count(side)]);
    let (pyramid, serials, order) = (&mut buffers.pyramid, &mut buffers.serials, &mut buffers.order);
    two_heads_in(side, PLAIN, &greys, pyramid, serials, order, &mut |round| rounds.push(round.clone()));
    point.ensure(rounds.len() > 8, || format!("only {} rounds", rounds.len()))?;
    for (t, round) in rounds.iter().enumerate() {
        let starts = |formula: &Formula, name: &str, size: &Formula| -> Result<Vec<usize>, String> {
            let mut starts = Vec::new();
            for count in 0..8 {
                let start = formula.whole(&[("t", t as i128), (name, count)])?;
                if start + size.whole(&[])? <= side.into() {
                    starts.push(start as usize);
                }
            }
            Ok(starts)
        };
        let (rows, columns) = (starts(&row, "i", &high)?, starts(&column, "j", &wide)?);
        let expected: Vec<_> = rows.iter().flat_map(|row| columns.iter().map(move |column| (*row, *column))).collect();
        point.ensure(*round == expected, || format!("round {t} has {round:?} and not {expected:?}"))?;
    }
    Ok(())
}
