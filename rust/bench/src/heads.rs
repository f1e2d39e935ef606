//! Two heads beside one: the library's Two Heads, and its Load and Advance to the end, on the same greys and on plain
//! cloth. What they leave isn't the same, so either is compared with what another made: the reference for two heads,
//! and `plain` for one.

use crate::buffers::Buffers;
use crate::clock::{timed, Time};
use crate::engines::{Engine, LIBRARY, PLAIN};
use crate::table::{grouped, Row, MILLISECONDS};
use crate::turns::{in_turn, Runner};
use crate::{sampled, PLAIN_CLOTH, POWER, SIDE};

pub fn rows() -> Vec<Row> {
    let greys = sampled(POWER);
    vec![row("seed 1", &greys), row("all greys 240", &vec![240; greys.len()])]
}

fn row(name: &str, greys: &[u8]) -> Row {
    let expected = [by_reference(greys), one_head(PLAIN, greys).1];
    let checked = |heads: usize, (time, made): (Time, Made)| {
        assert!(made == expected[heads], "{name}: the library has burnt something else");
        ([time], ())
    };
    let (times, ()) = in_turn(
        Runner { name: "two heads", run: &|| checked(0, two_heads(greys)) },
        &[Runner { name: "one head", run: &|| checked(1, one_head(LIBRARY, greys)) }],
    );
    let holes = expected.map(|made| grouped(made.holes as usize));
    Row {
        what: format!("Two Heads, {name}, {} holes", holes[0]),
        unit: MILLISECONDS,
        library: times[0][0],
        beside: format!("library, one head, {} holes", holes[1]),
        other: times[1][0],
    }
}

/// The holes made, and the buffers then.
#[derive(PartialEq)]
struct Made {
    holes: u32,
    buffers: Buffers,
}

fn one_head(engine: Engine, greys: &[u8]) -> (Time, Made) {
    let mut buffers = Buffers::cleared(POWER);
    let (time, holes) = timed(|| {
        (engine.load)(POWER, PLAIN_CLOTH, greys, &mut buffers);
        (engine.advance)(POWER, PLAIN_CLOTH, 0, u32::MAX, &mut buffers)
    });
    (time, Made { holes, buffers })
}

fn two_heads(greys: &[u8]) -> (Time, Made) {
    let mut buffers = Buffers::cleared(POWER);
    let b = &mut buffers;
    let (time, end) =
        timed(|| rulmedei::two_heads(SIDE, rulmedei::PLAIN, greys, &mut b.pyramid, &mut b.serials, &mut b.order));
    (time, Made { holes: end.expect("two heads").made, buffers })
}

fn by_reference(greys: &[u8]) -> Made {
    let mut buffers = Buffers::cleared(POWER);
    let b = &mut buffers;
    let end = reference::two_heads(SIDE, reference::PLAIN, greys, &mut b.pyramid, &mut b.serials, &mut b.order);
    assert_eq!(end.status, Ok(()));
    Made { holes: end.made, buffers }
}
