//! The plain player on records, which the benchmark holds `play` against, and
//! the second player: the same text for every string.

use std::fs;

use gloamish_tests::compare_record::hex;
use gloamish_tests::playback::{self, most_lines, text};
use gloamish_tests::random::{self, Rng};
use gloamish_tests::strings::{self, Damage};
use gloamish_tests::{examples, plain};

/// Records that print more are not played here.
const MOST_LINES: u64 = 20_000;

fn printed(string: &[u8]) -> String {
    let mut out = Vec::new();
    plain::play(string, &mut out).unwrap();
    String::from_utf8(out).unwrap()
}

/// Plays a string with both, and gives how many lines each answer has.
#[track_caller]
fn same(string: &[u8], answers: &mut [u64; 100]) {
    let lines = playback::play(string);
    assert_eq!(printed(string), text(&lines), "{}", hex(string));
    for line in lines {
        answers[line as usize] += 1;
    }
}

#[track_caller]
fn came(counts: &[u64; 100], answers: impl IntoIterator<Item = usize>) {
    for answer in answers {
        assert!(counts[answer] > 0, "answer {answer} never came");
    }
}

#[test]
fn the_examples() {
    for example in examples::all() {
        let (record, lines) = example.paths();
        let string = fs::read(record).unwrap();
        assert_eq!(printed(&string), fs::read_to_string(lines).unwrap());
    }
}

#[test]
fn short_strings() {
    let bytes = [0, 1, 2, 3, 5, 11, 12, 0x0F, 0x10, 0x7F, 0x80, 0xFF];
    let mut answers = [0; 100];
    let mut strings = vec![vec![], vec![1, 16, 4], vec![1, 1, 1]];
    for length in 0..4 {
        for string in std::mem::take(&mut strings) {
            same(&string, &mut answers);
            if length < 3 {
                let longer = bytes.map(|byte| [&string[..], &[byte]].concat());
                strings.extend(longer);
            }
        }
    }
    came(&answers, [0, 10, 20, 21, 22, 23, 24]);
}

#[test]
fn damaged_strings() {
    let seed = 1801;
    println!("plain player, damaged strings: seed {seed}");
    let mut rng = Rng::new(seed);
    let (mut answers, mut played) = ([0; 100], 0);
    while played < 60_000 {
        let mut string = match rng.below(4) {
            0 => {
                let records = strings::records(&mut rng);
                strings::string(&mut rng, records)
            }
            _ => {
                let size = random::small_box(&mut rng);
                strings::grown(&mut rng, size, 40).bytes()
            }
        };
        for _ in 0..rng.below(3) {
            let damage = rng.pick(&Damage::ALL);
            damage.make(&mut rng, &mut string);
        }
        if most_lines(&string) <= MOST_LINES {
            same(&string, &mut answers);
            played += 1;
        }
    }
    came(&answers, (0..=7).chain([10]).chain(20..=24).chain(30..=31));
}

#[test]
fn grown_runs() {
    let seed = 1802;
    println!("plain player, grown runs: seed {seed}");
    let mut rng = Rng::new(seed);
    let mut answers = [0; 100];
    for turn in 0..200 {
        let size = match turn % 4 {
            0 => random::large_box(&mut rng),
            _ => random::small_box(&mut rng),
        };
        let mut recorder = strings::grown(&mut rng, size, 8000);
        same(&recorder.bytes(), &mut answers);
    }
    came(&answers, (0..=8).chain(30..=33));
}
