//! The plates to work by hand in docs/SPECIFICATION.md, P1 to P12: every figure is read from the page and compared with
//! a run of the reference.

use reference::*;

use crate::facts::{quoted, Burnt};
use crate::number::figure;
use crate::page::{Checked, Page};

pub fn check(page: &Page) -> Checked {
    no_hole(&page.point("17.1")?)?;
    four_holes(&page.point("17.2")?)?;
    two_holes(&page.point("17.3")?)?;
    one_hole(&page.point("17.4")?)?;
    shares_of(&page.point("17.5")?)?;
    sums_and_refusals(&page.point("17.6")?)
}

/// Numbers parted by commas, the last one by "and" or a comma. One number stands for all four cells.
fn list(point: &Page, text: &str) -> Result<Vec<i128>, String> {
    let parted = text.replace(" and ", ", ");
    let number = |part: &str| figure(part).and_then(|figure| figure.value.as_whole());
    let wrong = |part: &str| point.fault(format!("'{part}' is no number, in '{text}'"));
    parted.split(", ").map(|part| number(part).ok_or(wrong(part))).collect()
}

/// The greys of a plate of side 2; one stands for all.
fn greys(point: &Page, text: &str) -> Result<Vec<u8>, String> {
    let numbers = list(point, text)?;
    let numbers = if numbers.len() == 1 { vec![numbers[0]; 4] } else { numbers };
    let grey = |number: &i128| u8::try_from(*number).ok().filter(|grey| *grey <= HIGHEST);
    let greys: Option<Vec<u8>> = numbers.iter().map(grey).collect();
    greys.filter(|greys| greys.len() == 4).ok_or(point.fault(format!("'{text}' are no four greys")))
}

/// A plate of side 2 that is burnt hole by hole.
struct Plate {
    buffers: Buffers,
    progress: Progress,
    status: Option<Ended>,
}

impl Plate {
    fn new(greys: &[u8]) -> Plate {
        let mut buffers = Buffers::new(2).unwrap();
        let progress = buffers.load(2, PLAIN, greys).progress;
        Plate { buffers, progress, status: None }
    }

    /// One hole, in this cell, if the page is right.
    fn hole(&mut self, point: &Page, cell: &str) -> Checked {
        let made = self.advance(1);
        let at = self.buffers.order[self.progress.dots.saturating_sub(1) as usize];
        let expected = format!("({},{})", at / 2, at % 2);
        point.ensure(made == 1 && cell == expected, || format!("the hole is at {expected} and not at {cell}"))
    }

    fn advance(&mut self, budget: u32) -> u32 {
        let answer = self.buffers.advance(self.progress, budget);
        self.progress = answer.progress;
        self.status = answer.status.ok();
        answer.made
    }

    fn debts(&self, point: &Page, text: &str) -> Checked {
        let (found, debts) = (list(point, text)?, self.buffers.pyramid[1..].to_vec());
        let same = found == debts.iter().map(|debt| i128::from(*debt)).collect::<Vec<_>>();
        point.ensure(same, || format!("the debts are {debts:?} and not {text}"))
    }

    fn top(&self, point: &Page, text: &str) -> Checked {
        let top = self.buffers.pyramid[0];
        point.ensure(list(point, text)? == [i128::from(top)], || format!("the top is {top} and not {text}"))
    }

    fn finished(&self, point: &Page) -> Checked {
        point.ensure(self.status == Some(Ended::Finished), || "not finished".to_string())
    }
}

/// P1 and P5.
fn no_hole(point: &Page) -> Checked {
    let texts = point.captures("P1: greys <>. No hole, finished at once. P5: greys <>. No hole.")?;
    point.ensure(greys(point, &texts[0])? == [0; 4], || "P1 has greys".to_string())?;
    point.ensure(sum_of_greys(&greys(point, &texts[1])?) == 127, || "P5 is not just below half a hole".to_string())?;
    for text in texts {
        let mut plate = Plate::new(&greys(point, &text)?);
        let made = plate.advance(u32::MAX);
        point.ensure(made == 0, || format!("greys {text} make {made} holes"))?;
        plate.finished(point)?;
    }
    Ok(())
}

fn sum_of_greys(greys: &[u8]) -> u32 {
    greys.iter().map(|grey| u32::from(*grey)).sum()
}

/// P2.
fn four_holes(point: &Page) -> Checked {
    let pattern = "P2: greys <>. After two holes, at <> and <>, the debts are <>. The next holes are <> and <>; then \
                   the debts are <>, the top <>.";
    let texts = point.captures(pattern)?;
    let mut plate = Plate::new(&greys(point, &texts[0])?);
    plate.hole(point, &texts[1])?;
    plate.hole(point, &texts[2])?;
    plate.debts(point, &texts[3])?;
    plate.hole(point, &texts[4])?;
    plate.hole(point, &texts[5])?;
    plate.debts(point, &texts[6])?;
    plate.top(point, &texts[7])?;
    plate.finished(point)
}

/// P3 and P4.
fn two_holes(point: &Page) -> Checked {
    let pattern = "P3: greys <>. After the hole at <> the debts are <>; after that at <> <>, the top is <>, finished.";
    let texts = point.captures(pattern)?;
    let mut plate = Plate::new(&greys(point, &texts[0])?);
    plate.hole(point, &texts[1])?;
    plate.debts(point, &texts[2])?;
    plate.hole(point, &texts[3])?;
    plate.debts(point, &texts[4])?;
    plate.top(point, &texts[5])?;
    plate.finished(point)?;

    let budgets = point.captures("P4: P3 with budgets <> makes <> holes, and says <>.")?;
    let (lent, made) = (list(point, &budgets[0])?, list(point, &budgets[1])?);
    let mut plate = Plate::new(&greys(point, &texts[0])?);
    let (mut found, mut said) = (Vec::new(), Vec::new());
    for budget in &lent {
        found.push(i128::from(plate.advance(*budget as u32)));
        said.push(if plate.status == Some(Ended::Finished) { "finished" } else { "more" });
    }
    let right = found == made && said.join(", ") == budgets[2] && lent == [0, 1, 1];
    point.ensure(right, || format!("P4 makes {found:?} and says {said:?}"))
}

/// P6.
fn one_hole(point: &Page) -> Checked {
    let texts = point.captures("P6: greys <>. One hole at <>; the debts are <>.")?;
    let mut plate = Plate::new(&greys(point, &texts[0])?);
    plate.hole(point, &texts[1])?;
    plate.debts(point, &texts[2])?;
    plate.finished(point)
}

/// P7, P8 and P9.
fn shares_of(point: &Page) -> Checked {
    let pattern = "P7: the shares of {} inside are <>. P8: of {} on the top side, <>. P9: of {} in the top left \
                   corner, <>.";
    let texts = point.captures(pattern)?;
    for (place, (row, column)) in [(1, 1), (0, 1), (0, 0)].into_iter().enumerate() {
        let d = list(point, &texts[2 * place])?[0] as i64;
        let near = neighbours_in_turn(4, row, column);
        let shares = shares(d, &weights_of(weights(PLAIN).unwrap(), &near));
        let found = list(point, &texts[2 * place + 1])?;
        let same = found == shares.iter().map(|share| i128::from(*share)).collect::<Vec<_>>();
        point.ensure(same, || format!("the shares of {d} are {shares:?} and not {found:?}"))?;
    }
    Ok(())
}

/// P10, P11 and P12.
fn sums_and_refusals(point: &Page) -> Checked {
    let totals = point.numbers("P10: G = {} comes to {} hole, {} to {}.")?;
    for pair in totals.chunks(2) {
        let greys: Vec<u8> = (0..4).map(|cell| (pair[0] - 240 * cell).clamp(0, 240) as u8).collect();
        let total = quoted(2, &greys, &greys, 0).0;
        point.ensure(total == pair[1], || format!("G = {} comes to {total}", pair[0]))?;
    }
    point.ensure(totals[2] == totals[0] + 1, || "the sums of P10 are not next to each other".to_string())?;

    let plate = Burnt::flat(2, 128);
    let sums = levels(2, &plate.greys, &plate.serials).map_err(|_| "refused")?;
    point.has("P11: Levels of P3 finished are {} and {}.", &[sums[0].into(), sums[1].into()])?;

    let pattern = "P12: what Load makes of P3, but with a top that is {} too large, is refused with {}.";
    let numbers = point.numbers(pattern)?;
    point.ensure(numbers[0] == 1, || "the top of P12 is not just wrong".to_string())?;
    let mut plate = Plate::new(&[128; 4]);
    plate.buffers.pyramid[0] += 1;
    let refused = plate.buffers.advance(plate.progress, 1).status.err().map(|refusal| i128::from(refusal.number()));
    point.ensure(refused == Some(numbers[1]), || format!("P12 is refused with {refused:?}"))
}
