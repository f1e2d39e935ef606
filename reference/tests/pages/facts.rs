//! What the reference works out, once, for all checks: maps run to their end, sums of greys with their totals and caps,
//! and aligned squares of finished maps.

use reference::*;

use crate::page::Page;

/// Pseudo-random numbers, the same in every run.
struct Dice(u64);

impl Dice {
    fn below(&mut self, bound: i128) -> i128 {
        self.0 = self.0.wrapping_mul(6_364_136_223_846_793_005).wrapping_add(1_442_695_040_888_963_407);
        i128::from(self.0 >> 33) % bound
    }
}

/// A map run to its end on plain cloth.
pub struct Burnt {
    pub side: u32,
    pub greys: Vec<u8>,
    pub serials: Vec<u32>,
    pub holes: i128,
}

impl Burnt {
    pub fn new(side: u32, greys: Vec<u8>) -> Burnt {
        let mut buffers = Buffers::new(side).unwrap();
        let loaded = buffers.load(side, PLAIN, &greys);
        let answer = buffers.advance(loaded.progress, u32::MAX);
        assert_eq!((loaded.status, answer.status), (Ok(()), Ok(Ended::Finished)));
        Burnt { side, greys, serials: buffers.serials, holes: answer.made.into() }
    }

    /// One grey in all cells.
    pub fn flat(side: u32, grey: u8) -> Burnt {
        Burnt::new(side, vec![grey; cell_count(side)])
    }

    /// The holes of an aligned square.
    pub fn holes_in(&self, [level, row, column]: [u32; 3]) -> i128 {
        tally(self.side, &self.serials, level, row, column).unwrap().into()
    }

    /// How many squares of a level have a hole in every cell.
    pub fn full(&self, level: u32) -> i128 {
        let (blocks, wide) = (2u32.pow(level), i128::from(self.side / 2u32.pow(level)));
        let squares = (0..blocks).flat_map(|row| (0..blocks).map(move |column| [level, row, column]));
        squares.filter(|square| self.holes_in(*square) == wide * wide).count() as i128
    }
}

/// The sum of the greys of an aligned square.
pub fn sum_in(side: u32, greys: &[u8], [level, row, column]: [u32; 3]) -> i128 {
    let wide = side / 2u32.pow(level);
    let inside = |cell: u32| cell / side / wide == row && cell % side / wide == column;
    (0..side * side).filter(|cell| inside(*cell)).map(|cell| i128::from(greys[cell as usize])).sum()
}

/// The sum of all greys.
pub fn sum(greys: &[u8]) -> i128 {
    greys.iter().map(|grey| i128::from(*grey)).sum()
}

/// What Sketch Quote says of lows and highs: the least and the greatest total, and the caps of a level.
pub fn quoted(side: u32, lows: &[u8], highs: &[u8], level: u32) -> (i128, i128, Vec<u32>) {
    let (mut low, mut high, mut caps) = (lows.to_vec(), highs.to_vec(), vec![0; 4usize.pow(level)]);
    let quote = sketch_quote(&write_sketch(side, lows, highs), level, &mut low, &mut high, &mut caps).unwrap();
    (quote.least.into(), quote.greatest.into(), caps)
}

/// The cap of an aligned square.
pub fn cap_of(side: u32, greys: &[u8], [level, row, column]: [u32; 3]) -> i128 {
    quoted(side, greys, greys, level).2[(row * 2u32.pow(level) + column) as usize].into()
}

/// The cap of a whole map with one grey in all cells.
pub fn flat_cap(side: u32, grey: u8) -> i128 {
    cap_of(side, &vec![grey; cell_count(side)], [0, 0, 0])
}

/// The holes that a map gets with two heads, on plain cloth.
pub fn with_two_heads(side: u32, greys: &[u8]) -> i128 {
    let answer = Buffers::new(side).unwrap().two_heads(side, PLAIN, greys);
    assert_eq!(answer.status, Ok(()));
    answer.made.into()
}

/// The fewest holes of an aligned square of a finished map, counted cut by cut. Both sides are in parts of a hole, 510
/// of them: the holes of the whole map are more than 2 x G - 255 of them, and the three other quarters of a cut have
/// each fewer than 2 x their greys + 510 + 680 x their side.
pub fn fewest(side: i128, level: i128, grey: i128) -> i128 {
    let (mut short, mut wide) = (255, side);
    for _ in 0..level {
        wide /= 2;
        short += 3 * (510 + 680 * wide);
    }
    (0..).find(|holes| 510 * holes > 2 * grey - short).unwrap()
}

/// A map of a side whose greys have a sum, with the total and the cap of the whole.
pub struct Sum {
    pub side: i128,
    pub grey: i128,
    pub total: i128,
    pub cap: i128,
}

/// An aligned square of a finished map.
pub struct Square {
    pub map_side: i128,
    pub level: i128,
    pub side: i128,
    pub grey: i128,
    pub holes: i128,
    pub cap: i128,
}

/// The fewest holes of an aligned square, of a finished map or of any with this grey sum.
pub struct Floor {
    pub map_side: i128,
    pub level: i128,
    pub side: i128,
    pub grey: i128,
    pub fewest: i128,
}

pub struct Facts {
    /// the sample map, run to its end, and its text
    pub sweat: Burnt,
    pub map_text: Vec<u8>,
    /// the sample sketch
    pub sketch_text: Vec<u8>,
    pub lows: Vec<u8>,
    pub highs: Vec<u8>,
    pub sums: Vec<Sum>,
    pub squares: Vec<Square>,
    pub floors: Vec<Floor>,
    /// the sentences of QUOTES.md, with the numbers that belong there
    pub sentences: Vec<(&'static str, Vec<i128>)>,
}

impl Facts {
    pub fn new() -> Facts {
        let map_text = Page::read("samples/socket-sweat.map").text.into_bytes();
        let sketch_text = Page::read("samples/socket-sweat.sketch").text.into_bytes();
        let (mut greys, mut lows, mut highs) = (vec![0; 1_024], vec![0; 1_024], vec![0; 1_024]);
        let side = reference::map_text(&map_text, &mut greys).unwrap();
        let quote = sketch_quote(&sketch_text, 0, &mut lows, &mut highs, &mut [0]).unwrap();
        assert_eq!((side, quote.side), (32, 32));
        let sweat = Burnt::new(side, greys);
        let sentences = crate::sentences::of(&sweat, &lows, &highs);
        let squares = squares();
        let floors = floors(&squares);
        Facts { sweat, map_text, sketch_text, lows, highs, sums: sums(), squares, floors, sentences }
    }
}

/// Every sum of greys at side 2, every fifth at side 4, and some at the others. A cap there goes up behind 170, 425 and
/// so on, which are among them.
fn sums() -> Vec<Sum> {
    let mut dice = Dice(1);
    let mut sums = Vec::new();
    for side in SIDES {
        let most = 240 * cell_count(side) as i128;
        match side {
            2 => sums.extend((0..=most).map(|grey| sum_of(side, grey))),
            4 => sums.extend((0..=most).step_by(5).map(|grey| sum_of(side, grey))),
            _ => sums.extend((0..40).map(|_| sum_of(side, dice.below(most + 1)))),
        }
    }
    sums
}

/// A map with this sum, from the first cell on as dark as can be.
fn sum_of(side: u32, grey: i128) -> Sum {
    let cells = 0..cell_count(side) as i128;
    let greys: Vec<u8> = cells.map(|cell| (grey - 240 * cell).clamp(0, 240) as u8).collect();
    let (total, _, caps) = quoted(side, &greys, &greys, 0);
    Sum { side: side.into(), grey, total, cap: caps[0].into() }
}

/// The squares of random maps, and of maps with one dark quarter. Of large maps with many squares some.
fn squares() -> Vec<Square> {
    let mut dice = Dice(2);
    let mut squares = Vec::new();
    for (side, maps) in [(2, 60), (4, 40), (8, 20), (16, 12), (32, 6), (64, 3), (128, 1)] {
        for map in 0..maps {
            let most = dice.below(241) + 1;
            let grey = |cell: u32| if map % 3 == 2 && cell < side * side / 4 { 240 } else { dice.below(most) as u8 };
            let burnt = Burnt::new(side, (0..side * side).map(grey).collect());
            for level in 0..=power(side).unwrap() {
                squares.extend(squares_of(&burnt, level));
            }
        }
    }
    squares
}

/// At most 16 squares of a level: those of the first columns on its diagonal.
fn squares_of(burnt: &Burnt, level: u32) -> Vec<Square> {
    let (side, blocks) = (burnt.side, 2u32.pow(level));
    let caps = quoted(side, &burnt.greys, &burnt.greys, level).2;
    let square = |place: u32| {
        let (row, column) = (place % blocks, (place / blocks + place) % blocks);
        Square {
            map_side: side.into(),
            level: level.into(),
            side: (side / blocks).into(),
            grey: sum_in(side, &burnt.greys, [level, row, column]),
            holes: burnt.holes_in([level, row, column]),
            cap: caps[(row * blocks + column) as usize].into(),
        }
    };
    (0..(blocks * blocks).min(16)).map(square).collect()
}

/// The floors of the squares, under which none has come, and of twelve grey sums at each level of each side.
fn floors(squares: &[Square]) -> Vec<Floor> {
    let floor = |map_side, level, side, grey| {
        let fewest = fewest(map_side, level, grey);
        Floor { map_side, level, side, grey, fewest }
    };
    let of_square = |square: &Square| {
        let found = floor(square.map_side, square.level, square.side, square.grey);
        assert!(found.fewest <= square.holes);
        found
    };
    let mut floors: Vec<Floor> = squares.iter().map(of_square).collect();
    for map_side in SIDES {
        for level in 0..=power(map_side).unwrap() {
            let side = i128::from(map_side >> level);
            let greys = (0..12).map(|part| 240 * side * side * part / 11);
            floors.extend(greys.map(|grey| floor(map_side.into(), level.into(), side, grey)));
        }
    }
    floors
}
