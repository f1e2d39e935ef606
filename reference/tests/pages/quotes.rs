//! The checks of docs/QUOTES.md: its formulas, its worked lines, its outputs, its sentences and its table.

use reference::{quote, sketch, SIDES};

use crate::facts::{cap_of, fewest, quoted, sum, sum_in, Facts, Floor, Square, Sum};
use crate::formula::{Formula, Names};
use crate::number::{figure, written, Ratio};
use crate::page::{Checked, Page};

/// The formulas, in the order of the page.
const NAMES: [&str; 6] = ["holes", "cap", "x", "least holes", "greatest holes", "greatest cap"];

/// The formulas of the page that stand on lines of their own, and the one for the floor, which stands in a sentence.
pub struct Formulas {
    pub holes: Formula,
    pub cap: Formula,
    pub x: Formula,
    pub floor: Formula,
    least: Formula,
    greatest: Formula,
    greatest_cap: Formula,
}

pub fn check(page: &Page, facts: &Facts) -> Checked {
    let lines = Lines::of(page)?;
    let formulas = formulas(page, &lines)?;
    worked_lines(page, &lines.worked, &formulas, facts)?;
    outputs(page, &lines.outputs, facts)?;
    for (sentence, numbers) in &facts.sentences {
        page.has(sentence, numbers)?;
    }
    table(page)?;
    sentences_with_formulas(page, &formulas, facts)?;
    facts.sums.iter().try_for_each(|sum| agrees_on_sum(page, &formulas, sum))?;
    facts.squares.iter().try_for_each(|square| agrees_on_square(page, &formulas, square))?;
    facts.floors.iter().try_for_each(|floor| agrees_on_floor(page, &formulas, floor))
}

/// The lines that are set off: formulas, by name; worked lines; and lines that a program prints. There is no other.
struct Lines {
    formulas: Vec<(String, String)>,
    worked: Vec<String>,
    outputs: Vec<String>,
}

impl Lines {
    fn of(page: &Page) -> Result<Lines, String> {
        let mut lines = Lines { formulas: Vec::new(), worked: Vec::new(), outputs: Vec::new() };
        for line in page.indented() {
            match line.split_once('=') {
                Some((name, formula)) if NAMES.contains(&name.trim()) => {
                    lines.formulas.push((name.trim().to_string(), formula.to_string()))
                }
                Some(_) => lines.worked.push(line),
                None if line.chars().all(|letter| letter == ' ' || letter.is_ascii_digit()) => lines.outputs.push(line),
                None => return Err(page.fault(format!("'{line}' is no formula, worked line or output"))),
            }
        }
        Ok(lines)
    }
}

pub fn formulas_of(page: &Page) -> Result<Formulas, String> {
    formulas(page, &Lines::of(page)?)
}

fn formulas(page: &Page, lines: &Lines) -> Result<Formulas, String> {
    let named = |name: &str| {
        let mut found = lines.formulas.iter().filter(|(known, _)| known == name);
        let (_, text) = found.next().ok_or(page.missing(&format!("{name} = ")))?;
        page.ensure(found.next().is_none(), || format!("'{name} = ' is there twice"))?;
        Formula::read(text).map_err(|error| page.fault(error))
    };
    let pattern = "If x is not below 0, the panel has at least <> holes. If x is below 0, the floor says nothing";
    let [floor] = page.formulas(pattern)?;
    Ok(Formulas {
        holes: named(NAMES[0])?,
        cap: named(NAMES[1])?,
        x: named(NAMES[2])?,
        floor,
        least: named(NAMES[3])?,
        greatest: named(NAMES[4])?,
        greatest_cap: named(NAMES[5])?,
    })
}

/// A worked line: an instance of a formula, for which the reference has a number. `words` are those behind "so", with
/// `{}` for the number; there are none where the line ends with the value.
struct Worked<'a> {
    formula: &'a Formula,
    names: Names<'a>,
    number: i128,
    words: &'a str,
}

/// The worked lines that the page has to have, in its order, with the sums of the sample files.
fn worked_lines(page: &Page, lines: &[String], formulas: &Formulas, facts: &Facts) -> Checked {
    let (side, greys) = (facts.sweat.side, &facts.sweat.greys);
    let (quarter, panel) = ([1, 1, 1], [2, 3, 3]);
    let (panel_grey, quarter_grey) = (sum_in(side, greys, panel), sum_in(side, greys, quarter));
    let (least, greatest, _) = quoted(side, &facts.lows, &facts.highs, 0);
    let (n, s) = (i128::from(side), 16);
    let x = 2 * quarter_grey - (255 + 3 * 510 + 3 * 680 * s);
    let (cap, floor) = (cap_of(side, greys, panel), fewest(n, 1, quarter_grey));
    let (lows, highs, panel_highs) = (sum(&facts.lows), sum(&facts.highs), sum_in(side, &facts.highs, panel));
    let sketch_cap = cap_of(side, &facts.highs, panel);
    let expected: [(&Formula, Names, i128, &str); 7] = [
        (&formulas.holes, &[("G", sum(greys))], facts.sweat.holes, "{} holes"),
        (&formulas.cap, &[("g", panel_grey), ("s", 8)], cap, "at most {} holes (64 cells)"),
        (&formulas.x, &[("g", quarter_grey), ("k", 1), ("N", n), ("s", s)], x, ""),
        (&formulas.floor, &[("x", x)], floor, "at least {} holes"),
        (&formulas.least, &[("the sum of the lows", lows)], least, "at least {} holes"),
        (&formulas.greatest, &[("the sum of the highs", highs)], greatest, "at most {} holes"),
        (&formulas.greatest_cap, &[("the panel's highs", panel_highs), ("s", 8)], sketch_cap, "at most {} holes"),
    ];
    let count = (lines.len(), expected.len());
    page.ensure(count.0 == count.1, || format!("{} worked lines where {} belong", count.0, count.1))?;
    for (line, (formula, names, number, words)) in lines.iter().zip(expected) {
        let worked = Worked { formula, names, number, words };
        worked.check(line).map_err(|error| page.fault(format!("'{line}': {error}")))?;
    }
    Ok(())
}

impl Worked<'_> {
    fn check(&self, line: &str) -> Checked {
        let (left, right) = line.split_once(" = ").ok_or("no value")?;
        let (value, words) = right.split_once(", so ").unwrap_or((right, ""));
        let inner = self.formula.floored().unwrap_or(self.formula.clone());
        if Formula::read(left)? != inner.with(self.names) {
            return Err("not the formula of the page with the numbers of the sample".to_string());
        }
        let (exact, printed) = (inner.value(self.names)?, figure(value).ok_or("the value is no number")?);
        // the last digit is rounded
        let half = Ratio::new(1, 2 * 10i128.pow(printed.places));
        let near = exact - half < printed.value && printed.value <= exact + half;
        if !near || Formula::read(left)?.value(&[])? != exact {
            return Err(format!("the value is {exact:?}"));
        }
        if self.formula.value(self.names)? != Ratio::whole(self.number) {
            return Err(format!("by the formula it is not {}", self.number));
        }
        if words != self.words.replace("{}", &written(self.number)) {
            return Err(format!("the reference has {}", self.number));
        }
        Ok(())
    }
}

/// The last line of the sample's quote page, and the first and the last line that `sketch` prints.
fn outputs(page: &Page, lines: &[String], facts: &Facts) -> Checked {
    let asked = |text: &[u8]| [b"2\n", text].concat();
    let quoted = String::from_utf8(quote(&asked(&facts.map_text))).unwrap();
    let sketched = String::from_utf8(sketch(&asked(&facts.sketch_text))).unwrap();
    let expected = [quoted.lines().last(), sketched.lines().next(), sketched.lines().last()].map(Option::unwrap);
    page.ensure(lines == expected, || format!("the programs print {expected:?} and not {lines:?}"))
}

/// The table of the mean greys from which a panel has a floor above 0. Panels that are in none of its places have none,
/// but for whole maps.
fn table(page: &Page) -> Checked {
    let mut found = Vec::new();
    for line in page.text.lines().filter(|line| line.starts_with("| ") && !line.contains("Side")) {
        let words: Vec<&str> = line.trim_matches('|').split('|').map(str::trim).collect();
        found.push(words.join(" "));
    }
    let mut expected = Vec::new();
    for side in SIDES.map(i128::from) {
        let means: Vec<Option<i128>> = (1..8).map(|level| first_mean(side, level)).collect();
        page.ensure(means[3..].iter().all(Option::is_none), || "smaller panels have floors".to_string())?;
        if means.iter().any(Option::is_some) {
            let words = means[..3].iter().map(|mean| mean.map_or("none".to_string(), |mean| mean.to_string()));
            expected.push(format!("{side} {}", words.collect::<Vec<_>>().join(" ")));
        }
    }
    page.ensure(found == expected, || format!("the table has {found:?} and not {expected:?}"))
}

/// The least mean grey from which a square of a level has a floor above 0.
fn first_mean(side: i128, level: u32) -> Option<i128> {
    let wide = side / 2i128.pow(level);
    (0..=240).find(|mean| wide > 0 && fewest(side, level.into(), mean * wide * wide) > 0)
}

/// What the page says of its formulas in words.
fn sentences_with_formulas(page: &Page, formulas: &Formulas, facts: &Facts) -> Checked {
    let [nearest] = page.formulas("That is <> rounded to the nearest whole number.")?;
    for sum in &facts.sums {
        let rounded = (nearest.value(&[("G", sum.grey)])? + Ratio::new(1, 2)).floor();
        page.ensure(rounded == sum.total, || format!("rounded to the nearest is not {}", sum.total))?;
    }
    let [share] = page.formulas("That is the panel's own share, <>, at most")?;
    facts.squares.iter().try_for_each(|square| cap_in_words(page, formulas, &share, square))?;
    let pattern = "a panel has its own share, <>, less at most half a hole, <> holes for each cut and <> for each cell";
    let words = page.formulas(pattern)?;
    page.ensure(share == words[0], || "the share is written in two ways".to_string())?;
    facts.floors.iter().try_for_each(|floor| floor_in_words(page, formulas, &words, floor))
}

/// The cap is the share, one hole and a third for each cell along the side, and less than one hole.
fn cap_in_words(page: &Page, formulas: &Formulas, share: &Formula, square: &Square) -> Checked {
    let (g, s) = (("g", square.grey), ("s", square.side));
    let argument = formulas.cap.floored().ok_or("the cap has no floor")?;
    let more = argument.value(&[g, s])? - share.value(&[g])? - Ratio::new(4 * square.side, 3);
    let about = more > Ratio::whole(0) && more < Ratio::whole(1);
    page.ensure(about, || "the cap is not the share and one and a third for each cell".to_string())
}

/// The floor in holes: the share, less half a hole, so many for each cut and so many for each cell.
fn floor_in_words(page: &Page, formulas: &Formulas, [share, cut, cell]: &[Formula; 3], floor: &Floor) -> Checked {
    let Floor { map_side, level, side, grey, .. } = *floor;
    let less = cut.value(&[])? * Ratio::whole(level) + cell.value(&[])? * Ratio::whole(map_side - side);
    let holes = share.value(&[("g", grey)])? - Ratio::new(1, 2) - less;
    let x = formulas.x.value(&[("g", grey), ("k", level), ("N", map_side), ("s", side)])?;
    page.ensure(x == holes * Ratio::whole(510), || "the floor in holes is not x / 510".to_string())
}

fn agrees_on_sum(page: &Page, formulas: &Formulas, sum: &Sum) -> Checked {
    let Sum { side, grey, total, cap } = *sum;
    let results = [
        ("holes", formulas.holes.whole(&[("G", grey)])?, total),
        ("least holes", formulas.least.whole(&[("the sum of the lows", grey)])?, total),
        ("greatest holes", formulas.greatest.whole(&[("the sum of the highs", grey)])?, total),
        ("cap", formulas.cap.whole(&[("g", grey), ("s", side)])?, cap),
        ("greatest cap", formulas.greatest_cap.whole(&[("the panel's highs", grey), ("s", side)])?, cap),
    ];
    results.iter().try_for_each(|(name, found, expected)| {
        page.ensure(found == expected, || format!("{name} of the sum {grey} at side {side}: {found}, not {expected}"))
    })
}

fn agrees_on_square(page: &Page, formulas: &Formulas, square: &Square) -> Checked {
    let Square { side, grey, holes, cap, .. } = *square;
    let found = formulas.cap.whole(&[("g", grey), ("s", side)])?;
    page.ensure(found == cap && holes <= found, || format!("cap of {grey} at side {side}: {found}, not {cap}"))
}

fn agrees_on_floor(page: &Page, formulas: &Formulas, floor: &Floor) -> Checked {
    let Floor { map_side, level, side, grey, fewest } = *floor;
    let x = formulas.x.whole(&[("g", grey), ("k", level), ("N", map_side), ("s", side)])?;
    let found = if x < 0 { 0 } else { formulas.floor.whole(&[("x", x)])? };
    page.ensure(found == fewest, || format!("floor of {grey} at side {side} of {map_side}: {found}, not {fewest}"))
}
