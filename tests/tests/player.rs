//! The plain player against the second program.

use gloamish_tests::compare::{self, Counts, Pair, States};
use gloamish_tests::random::{self, Rng};
use gloamish_tests::{Fault, Player, Unit};

fn states(which: States, seed: u64, calls: u64) -> Counts {
    println!("player, {which:?}: seed {seed}");
    let mut rng = Rng::new(seed);
    let counts = compare::states::<Player>(&mut rng, which, calls, |_, _| {});
    counts.unwrap_or_else(|what| panic!("{which:?}, seed {seed}: {what}"))
}

#[test]
fn grown_boxes() {
    let seed = 901;
    println!("player, grown boxes: seed {seed}");
    let mut rng = Rng::new(seed);
    let mut pair: Pair<Player> = Pair::new(Unit::lent(16, 2), Fault::None);
    while pair.counts.calls < 1_000_000 {
        let size = random::small_box(&mut rng);
        let calls = 2000;
        if let Err(what) = compare::list(&mut rng, size, calls, &mut pair) {
            panic!("seed {seed}: {what}");
        }
    }
    for _ in 0..10 {
        let size = random::large_box(&mut rng);
        let calls = 20_000;
        if let Err(what) = compare::list(&mut rng, size, calls, &mut pair) {
            panic!("seed {seed}: {what}");
        }
    }
    pair.counts.print("player, grown boxes");
    pair.counts.grown();
}

#[test]
fn any_states() {
    let counts = states(States::Arbitrary, 902, 300_000);
    counts.print("player, arbitrary states");
    counts.any();
    let counts = states(States::Damaged, 903, 300_000);
    counts.print("player, damaged states");
    counts.any();
    let counts = states(States::Uneven, 904, 50_000);
    counts.print("player, uneven columns");
}
