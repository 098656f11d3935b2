//! Guests' sessions on the crate, on the library and on the second program, action by action.

mod common;

use common::coverage::{classes_of_sessions, Coverage};
use common::guest::Guest;
use common::random::Random;
use common::rig::Rig;
use thinnarom::Geometry;

const SEED: u64 = 1;
const SESSIONS: u64 = 300;
const SCRIPTS: usize = 40;

const GEOMETRIES: [(u16, u8, u8); 10] = [
    (4, 2, 8),
    (4, 2, 8),
    (1, 1, 1),
    (2, 1, 1),
    (3, 3, 5),
    (1, 16, 2),
    (1, 1, 63),
    (37, 1, 1),
    (260, 1, 1),
    (5, 7, 9),
];

fn geometry(random: &mut Random) -> Geometry {
    let (cylinders, heads, sectors_per_track) = random.pick(&GEOMETRIES);
    Geometry {
        cylinders,
        heads,
        sectors_per_track,
    }
}

/// A session, and another way to go on from somewhere in its middle, from the bytes kept there.
fn session(number: u64) -> Coverage {
    println!("session {number} of seed {SEED}");
    let mut random = Random::new(SEED, number);
    let geometry = geometry(&mut random);
    let rig = Rig::new(geometry, &mut random);
    let mut guest = Guest::new(rig, random);
    let keeps_at = guest.random.below(SCRIPTS);
    let mut kept = None;
    for script in 0..SCRIPTS {
        guest.play();
        if script == keeps_at {
            kept = Some(guest.rig.kept());
        }
    }
    guest.rig.compare_sectors();
    let mut coverage = guest.coverage;
    let mut other = Guest::new(Rig::resumed(kept.unwrap()), Random::new(SEED + 1, number));
    (0..SCRIPTS / 4).for_each(|_| other.play());
    other.rig.compare_sectors();
    coverage.add(&other.coverage);
    coverage.note("resumed from bytes".into());
    coverage
}

#[test]
fn sessions_are_those_of_the_second_program() {
    let mut coverage = Coverage::default();
    for number in 0..SESSIONS {
        coverage.add(&session(number));
    }
    println!("{} actions in {SESSIONS} sessions", coverage.actions());
    coverage.demand(classes_of_sessions());
}
