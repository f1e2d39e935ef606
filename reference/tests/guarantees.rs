//! What is promised of every run, tried on small pseudo-random maps of both knits; of lists of calls with names and of
//! finished maps, tried on these; of every page, tried on these and on the named maps; and of every sketch, tried on
//! maps between its lows and its highs.

use std::cmp::Ordering;

use reference::*;

/// Pseudo-random numbers, the same in every run.
struct Dice(u64);

impl Dice {
    fn below(&mut self, bound: u32) -> u32 {
        self.0 = self.0.wrapping_mul(6_364_136_223_846_793_005).wrapping_add(1_442_695_040_888_963_407);
        ((self.0 >> 33) % u64::from(bound)) as u32
    }

    /// A map of one of several kinds, with greys up to 255: any greys, few greys, low greys, high greys, 0 or 255, two
    /// halves.
    fn greys(&mut self, side: u32) -> Vec<u8> {
        let kind = self.below(6);
        let (cells, limit) = (side * side, self.below(256) + 1);
        let mut grey = |cell: u32| match kind {
            0 => self.below(256),
            1 => 255 * u32::from(self.below(8) == 0),
            2 => self.below(limit),
            3 => 255 - self.below(limit),
            4 => 255 * self.below(2),
            _ => (limit - 1) * u32::from(cell >= cells / 2),
        };
        (0..cells).map(|cell| grey(cell) as u8).collect()
    }

    fn budget(&mut self, cells: u32) -> u32 {
        match self.below(6) {
            0 => 0,
            1 => u32::MAX,
            2 => 1,
            _ => self.below(cells),
        }
    }

    /// How much of a buffer is lent: mostly all.
    fn lent(&mut self, needed: usize) -> usize {
        if self.below(8) == 0 {
            self.below(needed as u32) as usize
        } else {
            needed
        }
    }
}

/// How many maps of each side are tried.
const TRIED: [(u32, u32); 4] = [(2, 2_000), (4, 1_200), (8, 500), (16, 150)];

/// Does something for every map that is tried, its greys lowered: its side, its knit and its greys. Every other one is
/// ribbed.
fn for_every_map(seed: u64, mut check: impl FnMut(&mut Dice, u32, u32, &[u8])) {
    for_every_older_map(seed, |dice, side, knit, greys| check(dice, side, knit, &lowered(greys)));
}

/// The same with greys up to 255.
fn for_every_older_map(seed: u64, mut check: impl FnMut(&mut Dice, u32, u32, &[u8])) {
    let mut dice = Dice(seed);
    for (side, maps) in TRIED {
        for map in 0..maps {
            let greys = dice.greys(side);
            check(&mut dice, side, [PLAIN, RIBBED][map as usize % 2], &greys);
        }
    }
}

fn fresh(side: u32, knit: u32, greys: &[u8]) -> (Buffers, Progress) {
    let mut buffers = Buffers::new(side).unwrap();
    let answer = buffers.load(side, knit, greys);
    assert_eq!((answer.progress, answer.status), (Progress { side, dots: 0, knit }, Ok(())));
    (buffers, answer.progress)
}

fn grey_sum(greys: &[u8]) -> i64 {
    greys.iter().map(|grey| i64::from(*grey)).sum()
}

/// Does something for every block of every level: its level, row and column, its width and its grey sum.
fn for_every_block(side: u32, greys: &[u8], mut check: impl FnMut([u32; 3], u32, u32)) {
    for level in 0..=power(side).unwrap() {
        let blocks = 2u32.pow(level);
        for (row, column) in (0..blocks).flat_map(|row| (0..blocks).map(move |column| (row, column))) {
            let wide = side / blocks;
            check([level, row, column], wide, block_grey(side, greys, wide, row, column));
        }
    }
}

/// What holds after every call: the sheet is sound, no cell has two dots, every dot takes 65,280 off the top, and
/// no block has more dots than its cap.
fn check_state(greys: &[u8], progress: Progress, buffers: &Buffers) {
    let (side, dots) = (progress.side, progress.dots as usize);
    assert!(buffers.sound(progress));
    assert_eq!(DOT * dots as i64 + buffers.pyramid[0], 256 * grey_sum(greys));

    let mut cells = buffers.order[..dots].to_vec();
    cells.sort();
    cells.dedup();
    assert_eq!(cells.len(), dots);

    for_every_block(side, greys, |[level, row, column], wide, grey| {
        let inside = tally(side, &buffers.serials, level, row, column).unwrap();
        assert!(765 * inside < 3 * grey + 765 + 1020 * wide);
    });
}

/// What holds of a finished map: no block has fewer dots than its floor (S 15.5).
fn check_finished(greys: &[u8], side: u32, serials: &[u32]) {
    for_every_block(side, greys, |[level, row, column], wide, grey| {
        let inside = tally(side, serials, level, row, column).unwrap();
        assert!(510 * inside + 255 + 1530 * level + 2040 * (side - wide) > 2 * grey);
    });
}

/// The sum of the greys of a block that is `wide` cells wide.
fn block_grey(side: u32, greys: &[u8], wide: u32, row: u32, column: u32) -> u32 {
    let mut sum = 0;
    for i in row * wide..(row + 1) * wide {
        for j in column * wide..(column + 1) * wide {
            sum += u32::from(greys[(i * side + j) as usize]);
        }
    }
    sum
}

/// One call with random budget and random lengths lent, and what it has to answer. `asked` is the sum of the
/// budgets of the calls that weren't refused.
fn check_call(dice: &mut Dice, greys: &[u8], progress: Progress, asked: &mut u64, buffers: &mut Buffers) -> Progress {
    let total = (2 * grey_sum(greys) + 255) / 510;
    let budget = dice.budget(greys.len() as u32);
    let pyramid = dice.lent(buffers.pyramid.len());
    let (serials, order) = (dice.lent(greys.len()), dice.lent(greys.len()));
    let before = buffers.clone();
    let answer = advance(
        progress,
        budget,
        &mut buffers.pyramid[..pyramid],
        &mut buffers.serials[..serials],
        &mut buffers.order[..order],
    );

    let refusal = if pyramid < buffers.pyramid.len() {
        Some(Refusal::ShortPyramid)
    } else if serials < greys.len() || order < greys.len() {
        Some(Refusal::ShortSheet)
    } else {
        None
    };
    if let Some(refusal) = refusal {
        assert_eq!(answer, AdvanceAnswer { progress, made: 0, status: Err(refusal) });
        assert_eq!(*buffers, before);
        return progress;
    }
    *asked += u64::from(budget);
    let dots = (*asked).min(total as u64) as u32;
    let high = buffers.pyramid[0] >= HALF_DOT;
    assert_eq!(answer.progress, Progress { dots, ..progress });
    assert_eq!(answer.made, dots - progress.dots);
    assert_eq!(answer.status, Ok(if high { Ended::More } else { Ended::Finished }));
    assert_eq!(high, i64::from(dots) < total);
    answer.progress
}

/// For S 7.3, S 15.2, S 15.3, S 15.4, S 15.5, S 15.6, S 15.7.
#[test]
fn lists_of_calls() {
    for_every_map(1, |dice, side, knit, greys| check_calls(dice, greys, fresh(side, knit, greys)));
}

/// Sheets loaded when greys went up to 255 run to their end, and come to the total of their own greys (S 7.5).
#[test]
fn lists_of_calls_on_older_sheets() {
    let mut high = 0;
    for_every_older_map(7, |dice, side, knit, greys| {
        high += u32::from(greys.iter().any(|grey| *grey > HIGHEST));
        check_calls(dice, greys, (Buffers::older(side, greys).unwrap(), Progress { side, dots: 0, knit }));
    });
    assert!(high > 1_000, "{high} maps with a grey above 240");
}

/// A list of calls on a sheet without a dot, which these greys have.
fn check_calls(dice: &mut Dice, greys: &[u8], (fresh, start): (Buffers, Progress)) {
    let (mut buffers, mut progress) = (fresh.clone(), start);
    let mut asked = 0;
    check_state(greys, progress, &buffers);
    for _ in 0..dice.below(6) {
        progress = check_call(dice, greys, progress, &mut asked, &mut buffers);
        check_state(greys, progress, &buffers);
    }
    // the rest in one call; a run in one call from the start gives the same
    let last = buffers.advance(progress, u32::MAX);
    assert_eq!(last.status, Ok(Ended::Finished));
    assert_eq!(i64::from(last.progress.dots), (2 * grey_sum(greys) + 255) / 510);
    check_state(greys, last.progress, &buffers);
    check_finished(greys, start.side, &buffers.serials);
    let mut whole = fresh;
    assert_eq!(whole.advance(start, u32::MAX).progress, last.progress);
    assert_eq!(whole, buffers);
}

/// A map under way, with a copy of the sheet for each name, taken when the name was last kept.
struct Named {
    greys: Vec<u8>,
    buffers: Buffers,
    progress: Progress,
    checkpoints: Checkpoints,
    copies: [Option<(Buffers, Progress)>; 8],
}

impl Named {
    /// One of three names, or now and then another or a number that is none; and what was kept under it.
    fn name(&self, dice: &mut Dice) -> (u32, Option<(Buffers, Progress)>) {
        let name = if dice.below(4) == 0 { dice.below(10) } else { [1, 5, 8][dice.below(3) as usize] };
        (name, name.checked_sub(1).and_then(|place| self.copies.get(place as usize)?.clone()))
    }

    fn keep(&mut self, dice: &mut Dice) {
        let (name, _) = self.name(dice);
        let answer = keep(self.progress, self.checkpoints, name);
        assert_eq!(answer.progress, self.progress);
        if (1..=8).contains(&name) {
            assert_eq!(answer.status, Ok(()));
            self.copies[name as usize - 1] = Some((self.buffers.clone(), self.progress));
        } else {
            assert_eq!((answer.status, answer.checkpoints), (Err(Refusal::UnknownName), self.checkpoints));
        }
        self.checkpoints = answer.checkpoints;
    }

    /// A return with random lengths lent: the copy comes back, or the refusal that is due, and then nothing changes.
    /// Notes of a return that was done how the dots before it stood to those of the name.
    fn restore(&mut self, dice: &mut Dice, returns: &mut Vec<Ordering>) {
        let (name, copy) = self.name(dice);
        let (cells, length) = (self.greys.len(), self.buffers.pyramid.len());
        let (greys, pyramid) = (dice.lent(cells), dice.lent(length));
        let (serials, order) = (dice.lent(cells), dice.lent(cells));
        let before = (self.buffers.clone(), self.progress);
        let answer = restore(
            self.progress,
            self.checkpoints,
            name,
            &self.greys[..greys],
            &mut self.buffers.pyramid[..pyramid],
            &mut self.buffers.serials[..serials],
            &mut self.buffers.order[..order],
        );
        let expected = match copy {
            _ if greys < cells => Err(Refusal::ShortGreys),
            _ if pyramid < length => Err(Refusal::ShortPyramid),
            _ if serials < cells || order < cells => Err(Refusal::ShortSheet),
            None => Err(Refusal::UnknownName),
            Some(copy) => Ok(copy),
        };
        let (buffers, progress) = match expected {
            Err(refusal) => {
                assert_eq!(answer.status, Err(refusal));
                before
            }
            Ok(copy) => {
                assert_eq!(answer.status, Ok(()));
                returns.push(self.progress.dots.cmp(&copy.1.dots));
                copy
            }
        };
        assert_eq!((answer.checkpoints, answer.progress), (self.checkpoints, progress));
        assert_eq!(self.buffers, buffers);
        self.progress = progress;
    }
}

/// Every list of Advance, Keep and Restore on one loaded map: a return leaves the whole sheet as it was when the name
/// was last kept (S 15.9).
#[test]
fn lists_of_calls_with_names() {
    let mut returns = Vec::new();
    for_every_map(6, |dice, side, knit, greys| {
        let (buffers, progress) = fresh(side, knit, greys);
        let mut named = Named {
            greys: greys.to_vec(),
            buffers,
            progress,
            checkpoints: Checkpoints::default(),
            copies: [const { None }; 8],
        };
        for _ in 0..dice.below(80) {
            match dice.below(4) {
                0 => named.keep(dice),
                1 => named.progress = named.buffers.advance(named.progress, dice.below(side + 2)).progress,
                _ => named.restore(dice, &mut returns),
            }
            check_state(greys, named.progress, &named.buffers);
        }
    });
    for way in [Ordering::Less, Ordering::Equal, Ordering::Greater] {
        let count = returns.iter().filter(|one| **one == way).count();
        assert!(count > 700, "{count} returns from {way:?} dots");
    }
}

/// For S 3.8.
#[test]
fn renewal_over_the_changed_cells_is_whole_renewal() {
    let mut dice = Dice(2);
    for side in [2, 4, 8, 16] {
        for map in 0..20 {
            let (mut buffers, mut progress) = fresh(side, map % 2, &lowered(&dice.greys(side)));
            while buffers.pyramid[0] >= HALF_DOT {
                let answer = buffers.advance(progress, 1);
                assert_eq!(answer.made, 1);
                let rows = to_rows(side, &buffers.pyramid);
                let mut renewed = rows.clone();
                renew_all(power(side).unwrap(), &mut renewed);
                assert_eq!(rows, renewed);
                progress = answer.progress;
            }
        }
    }
}

/// A sound sheet that came about in another way than by Load: dots anywhere, residuals anywhere within the bounds.
fn any_sound_sheet(dice: &mut Dice, side: u32) -> (Buffers, Progress) {
    let mut buffers = Buffers::new(side).unwrap();
    let cells = side * side;
    let mut progress = Progress { side, dots: 0, knit: dice.below(2) };
    for _ in 0..dice.below(cells + 1) {
        let cell = dice.below(cells);
        if buffers.serials[cell as usize] == 0 {
            buffers.order[progress.dots as usize] = cell;
            progress.dots += 1;
            buffers.serials[cell as usize] = progress.dots;
        }
    }
    let start = level_start(power(side).unwrap());
    for cell in 0..cells as usize {
        let near = neighbours(side, cell / side as usize, cell % side as usize);
        let has_dot = |near: &Neighbour| buffers.serials[near.row * side as usize + near.column] != 0;
        let low = -DOT * near.iter().filter(|near| has_dot(near)).count() as i64;
        let high = if buffers.serials[cell] == 0 { DOT } else { 0 };
        buffers.pyramid[start + cell] = match dice.below(4) {
            0 => low,
            1 => high,
            _ => low + i64::from(dice.below((high - low + 1) as u32)),
        };
    }
    renew_all(power(side).unwrap(), &mut buffers.pyramid);
    buffers.pyramid = to_quarters(side, &buffers.pyramid);
    (buffers, progress)
}

/// For S 7.5, S 3.1.
#[test]
fn sound_sheets_however_they_came_about() {
    let mut dice = Dice(3);
    for (side, sheets) in TRIED {
        for _ in 0..sheets / 2 {
            let (mut buffers, progress) = any_sound_sheet(&mut dice, side);
            assert!(buffers.sound(progress));
            let (top, budget) = (buffers.pyramid[0], dice.budget(side * side));
            let due = if top < HALF_DOT { 0 } else { (top + HALF_DOT) / DOT };
            let answer = buffers.advance(progress, budget);
            assert_eq!(i64::from(answer.made), due.min(i64::from(budget)));
            assert_eq!(answer.progress, Progress { dots: progress.dots + answer.made, ..progress });
            assert_eq!(buffers.pyramid[0], top - DOT * i64::from(answer.made));
            let low = buffers.pyramid[0] < HALF_DOT;
            assert_eq!(answer.status, Ok(if low { Ended::Finished } else { Ended::More }));
            assert!(buffers.sound(answer.progress));
        }
    }
}

/// A top of just 32,640 or 97,920 can't come from Load, whose tops are multiples of 256; a sound sheet may have it
/// (S 3.1, S 7.3).
#[test]
fn the_threshold_itself() {
    for (top, due) in [(32_639, 0), (32_640, 1), (97_919, 1), (97_920, 2)] {
        let mut buffers = Buffers::new(2).unwrap();
        buffers.pyramid[1..].copy_from_slice(&[DOT.min(top), (top - DOT).max(0), 0, 0]);
        renew_all(1, &mut buffers.pyramid);
        for knit in [PLAIN, RIBBED] {
            let mut buffers = buffers.clone();
            let progress = Progress { side: 2, dots: 0, knit };
            let waiting = buffers.advance(progress, 0);
            assert_eq!(waiting.status, Ok(if due == 0 { Ended::Finished } else { Ended::More }));
            let answer = buffers.advance(progress, u32::MAX);
            assert_eq!((answer.made, answer.status), (due, Ok(Ended::Finished)));
        }
    }
}

/// For S 15.10, S 6.2.
#[test]
fn map_texts_there_and_back() {
    for_every_map(4, |dice, side, _, greys| {
        let mut text = write_map_text(side, greys);
        let mut read = vec![99; greys.len() + 3];
        assert_eq!(map_text(&text, &mut read), Ok(side));
        assert_eq!(read, [greys, &[99; 3]].concat());
        // with one byte changed it may still fit, but only as the text of what was read
        let place = dice.below(text.len() as u32) as usize;
        text[place] = b"0123456789,\n \r"[dice.below(14) as usize];
        match map_text(&text, &mut read) {
            Ok(side) => assert_eq!(write_map_text(side, &read[..cell_count(side)]), text),
            Err(refusal) => assert!([1, 2, 7, 12].contains(&refusal.number())),
        }
    });
}

/// A page of 29-byte lines, read back: the five figures of each line.
fn figures_of(page: &[u8]) -> Vec<[u32; 5]> {
    assert_eq!(page.len() % 29, 0);
    page.chunks(29).map(line_figures).collect()
}

/// Five figures, each right aligned in its columns, with blanks between and byte 10 behind.
fn line_figures(line: &[u8]) -> [u32; 5] {
    assert_eq!(line.len(), 29);
    for end in [3, 7, 16, 22] {
        assert!(line[end - 1].is_ascii_digit() && line[end] == b' ', "{line:?}");
    }
    assert!(line[27].is_ascii_digit() && line[28] == 10, "{line:?}");
    let text = std::str::from_utf8(&line[..28]).unwrap();
    let figures: Vec<u32> = text.split(' ').filter(|part| !part.is_empty()).map(|part| part.parse().unwrap()).collect();
    figures.try_into().unwrap()
}

/// The pages of all levels: on a sheet that Load and Advance made of these greys no block has more holes than its cap.
/// And every figure is what it ought to be; the cap is the most holes that S 15.4 and the number of cells allow.
fn check_pages(side: u32, greys: &[u8], serials: &[u32]) {
    for level in 0..=power(side).unwrap() {
        let blocks = 2u32.pow(level);
        let mut out = vec![b'#'; 29 * (blocks * blocks) as usize];
        assert_eq!(quote_page(side, greys, serials, level, &mut out), Ok(out.len()));
        let wide = side / blocks;
        let mut expected = (0..blocks).flat_map(|row| (0..blocks).map(move |column| (row, column)));
        for [row, column, grey_sum, dots, cap] in figures_of(&out) {
            assert_eq!(Some((row, column)), expected.next());
            assert_eq!(grey_sum, block_grey(side, greys, wide, row, column));
            assert_eq!(Ok(dots), tally(side, serials, level, row, column));
            assert!(dots <= cap);
            let allowed = |dots: u32| dots <= wide * wide && 765 * dots < 3 * grey_sum + 765 + 1020 * wide;
            assert!(allowed(cap) && !allowed(cap + 1));
        }
        assert_eq!(expected.next(), None);
    }
}

/// For S 15.4, S 15.5, S 8.4.
#[test]
fn pages_of_the_named_maps() {
    for side in SIDES {
        for name in maps::NAMES {
            let greys = maps::named(name, side);
            // with the largest maps on both it would take long
            let knits = if side > 64 { &[PLAIN][..] } else { &[PLAIN, RIBBED] };
            for knit in knits {
                let (mut buffers, mut progress) = fresh(side, *knit, &greys);
                check_pages(side, &greys, &buffers.serials);
                for budget in [1, side / 2, side * side / 8, u32::MAX] {
                    progress = buffers.advance(progress, budget).progress;
                    check_pages(side, &greys, &buffers.serials);
                }
                check_finished(&greys, side, &buffers.serials);
            }
        }
    }
}

/// For S 15.4, S 8.3.
#[test]
fn pages_of_random_maps() {
    for_every_map(5, |dice, side, knit, greys| {
        let (mut buffers, mut progress) = fresh(side, knit, greys);
        for _ in 0..3 {
            progress = buffers.advance(progress, dice.budget(side * side)).progress;
            check_pages(side, greys, &buffers.serials);
        }
    });
}

/// A sketch around a map: its lows and its highs. Each grey is known exactly, to a few, or not at all; of a sketch of
/// the last kind now one and now the other.
fn sketch_around(dice: &mut Dice, greys: &[u8]) -> (Vec<u8>, Vec<u8>) {
    let kind = dice.below(4);
    let mut pair = |grey: u8| {
        let about = match kind {
            0 => 0,
            1 => dice.below(12) as u8,
            2 => 240,
            _ => [0, 5, 240][dice.below(3) as usize],
        };
        (grey.saturating_sub(about), grey.saturating_add(about).min(240))
    };
    greys.iter().map(|grey| pair(*grey)).unzip()
}

/// A map between lows and highs.
fn between(dice: &mut Dice, lows: &[u8], highs: &[u8]) -> Vec<u8> {
    let mut grey = |(low, high): (&u8, &u8)| match dice.below(4) {
        0 => *low,
        1 => *high,
        _ => low + dice.below(u32::from(high - low) + 1) as u8,
    };
    lows.iter().zip(highs).map(&mut grey).collect()
}

/// What Sketch Quote says of a sketch: both totals, and the caps of each level.
fn quoted(side: u32, lows: &[u8], highs: &[u8]) -> (u32, u32, Vec<Vec<u32>>) {
    let text = write_sketch(side, lows, highs);
    let (mut read_lows, mut read_highs) = (vec![99; lows.len()], vec![99; lows.len()]);
    let mut totals = (0, 0);
    let mut by_level = Vec::new();
    for level in 0..=power(side).unwrap() {
        let mut caps = vec![77; 4usize.pow(level)];
        let quote = sketch_quote(&text, level, &mut read_lows, &mut read_highs, &mut caps).unwrap();
        assert_eq!((quote.side, &read_lows[..], &read_highs[..]), (side, lows, highs));
        totals = (quote.least, quote.greatest);
        by_level.push(caps);
    }
    (totals.0, totals.1, by_level)
}

/// No block of any level has more dots than the cap that the sketch has for it.
fn check_caps(side: u32, serials: &[u32], caps: &[Vec<u32>]) {
    for (level, caps) in caps.iter().enumerate() {
        let blocks = 2u32.pow(level as u32);
        for (block, cap) in caps.iter().enumerate() {
            let (row, column) = (block as u32 / blocks, block as u32 % blocks);
            assert!(tally(side, serials, level as u32, row, column).unwrap() <= *cap);
        }
    }
}

/// A map burnt to its end in up to four calls, with the caps checked after each. Gives its total.
fn burnt_under(dice: &mut Dice, side: u32, knit: u32, greys: &[u8], caps: &[Vec<u32>]) -> u32 {
    let (mut buffers, mut progress) = fresh(side, knit, greys);
    for _ in 0..dice.below(4) {
        progress = buffers.advance(progress, dice.budget(side * side)).progress;
        check_caps(side, &buffers.serials, caps);
    }
    let last = buffers.advance(progress, u32::MAX);
    assert_eq!(last.status, Ok(Ended::Finished));
    check_caps(side, &buffers.serials, caps);
    last.progress.dots
}

/// Every map between the lows and the highs comes to a total from the least to the greatest, the map of the lows to the
/// least and that of the highs to the greatest; and at no time has a block more dots than its cap. On either knit.
fn check_sketch(dice: &mut Dice, side: u32, lows: &[u8], highs: &[u8]) -> (u32, u32) {
    let (least, greatest, caps) = quoted(side, lows, highs);
    for knit in [PLAIN, RIBBED] {
        assert_eq!(burnt_under(dice, side, knit, lows, &caps), least);
        assert_eq!(burnt_under(dice, side, knit, highs, &caps), greatest);
        for _ in 0..2 {
            let map = between(dice, lows, highs);
            assert!((least..=greatest).contains(&burnt_under(dice, side, knit, &map, &caps)));
        }
    }
    (least, greatest)
}

/// For S 15.11.
#[test]
fn maps_between_lows_and_highs() {
    let (mut equal, mut apart) = (0, 0);
    for_every_map(8, |dice, side, _, greys| {
        let (lows, highs) = sketch_around(dice, greys);
        let (least, greatest) = check_sketch(dice, side, &lows, &highs);
        equal += u32::from(least == greatest);
        apart += u32::from(least < greatest);
    });
    assert!(equal > 500 && apart > 500, "{equal} sketches with one total, {apart} with two");
}

/// For S 15.11.
#[test]
fn larger_maps_between_lows_and_highs() {
    let mut dice = Dice(9);
    for (side, sketches) in [(32, 20), (64, 4)] {
        for _ in 0..sketches {
            let greys = lowered(&dice.greys(side));
            let (lows, highs) = sketch_around(&mut dice, &greys);
            check_sketch(&mut dice, side, &lows, &highs);
        }
    }
}
