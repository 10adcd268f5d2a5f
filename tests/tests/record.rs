//! The C interface's reader and writer of records against the second program's:
//! what is given back and every cell of the lent parts after every call.

use gloamish_tests::capi::Column;
use gloamish_tests::compare_record::{self, Beside, Functions};
use gloamish_tests::random::Rng;
use gloamish_tests::strings::{self, Damage};
use gloamish_tests::RecordFault;

extern "C" {
    /// Numbers times 256, and the answer.
    fn gloamish_read(
        bytes: *const u8,
        bytes_length: usize,
        numbers: *mut u32,
        numbers_length: usize,
    ) -> u64;

    /// Bytes times 256, and the answer.
    fn gloamish_write(
        numbers: *const u32,
        numbers_length: usize,
        bytes: *mut u8,
        bytes_length: usize,
    ) -> u64;
}

/// The library's functions.
struct Library;

impl Functions for Library {
    fn read(&mut self, bytes: &mut Column<u8>, numbers: &mut Column<u32>) -> u64 {
        let ((bytes, bytes_length), (numbers, room)) = (bytes.slice(), numbers.slice());
        // The pointers are to the parts' own buffers, with their lengths, and
        // nothing else refers to them while they are lent.
        unsafe { gloamish_read(bytes, bytes_length, numbers, room) }
    }

    fn write(&mut self, numbers: &mut Column<u32>, bytes: &mut Column<u8>) -> u64 {
        let ((numbers, numbers_length), (bytes, room)) = (numbers.slice(), bytes.slice());
        // As above.
        unsafe { gloamish_write(numbers, numbers_length, bytes, room) }
    }
}

fn library() -> Beside<Library> {
    Beside::new(Library, RecordFault::None)
}

/// Prints what was compared, or fails with what differed.
#[track_caller]
fn done<T>(name: &str, seed: u64, beside: &Beside<Library>, found: Result<T, String>) -> T {
    let counts = &beside.counts;
    let calls = counts.reads + counts.writes;
    let found = found.unwrap_or_else(|told| panic!("{name}, seed {seed}, call {calls}: {told}"));
    println!("{name}: seed {seed}");
    counts.print(name);
    found
}

/// Every short string, and longer ones over few bytes.
#[test]
fn short_strings() {
    let mut beside = library();
    let found = compare_record::short_strings(&mut beside);
    done("short strings", 0, &beside, found);
    let counts = &beside.counts;
    assert_eq!(counts.reads, compare_record::short_string_count());
    assert!(counts.reads > 1_000_000);
    for answer in [0].into_iter().chain(20..=24) {
        assert!(counts.read(answer) > 1000, "answer {answer}");
    }
    // Each that read well was written again.
    assert_eq!(counts.writes, counts.read(0));
    assert_eq!(counts.written(0), counts.read(0));
}

/// Lists of every length: written and read again, and every room.
#[test]
fn whole_strings() {
    let seed = 1101;
    let mut rng = Rng::new(seed);
    let mut beside = library();
    let found = compare_record::whole_strings(&mut beside, &mut rng, 30_000, strings::records);
    done("whole strings", seed, &beside, found);
    let counts = &beside.counts;
    assert_eq!(counts.read(0), 60_000);
    assert_eq!(counts.read(u32::MAX), 90_000);
    assert_eq!(counts.written(0), 90_000);
    assert_eq!(counts.written(25), 90_000);
}

/// The same with strings of up to some megabytes.
#[test]
fn long_strings() {
    let seed = 1102;
    let mut rng = Rng::new(seed);
    let mut beside = library();
    let long = |rng: &mut Rng| match rng.below(8) {
        0 => 400_000 + rng.below(200_000),
        _ => 1000 + rng.below(20_000),
    };
    let found = compare_record::whole_strings(&mut beside, &mut rng, 24, long);
    done("long strings", seed, &beside, found);
    // Damaged in one place.
    let mut counts = [0u64; 25];
    for turn in 0..120 {
        let records = long(&mut rng);
        let mut string = strings::string(&mut rng, records);
        Damage::ALL[turn % Damage::ALL.len()].make(&mut rng, &mut string);
        let found = beside.read_all(&string);
        let given = done_quietly(seed, found);
        counts[(given % 256) as usize] += 1;
    }
    beside.counts.print("long strings, damaged too");
    assert!(beside.counts.longest > 2_000_000);
    assert!(counts[20..].iter().all(|count| *count > 0), "{counts:?}");
}

#[track_caller]
fn done_quietly(seed: u64, found: Result<u64, String>) -> u64 {
    found.unwrap_or_else(|told| panic!("seed {seed}: {told}"))
}

/// A million strings, and more, that were damaged in one to three places.
#[test]
fn a_million_damaged_strings() {
    const STRINGS: u64 = 1_200_000;
    let seed = 1103;
    let mut rng = Rng::new(seed);
    let mut beside = library();
    let found = compare_record::damaged_strings(&mut beside, &mut rng, STRINGS);
    let made = done("damaged strings", seed, &beside, found);
    for (damage, count) in Damage::ALL.iter().zip(made) {
        println!("damaged strings: {damage:?} {count}");
        assert!(count > 50_000, "{damage:?}");
    }
    let counts = &beside.counts;
    assert!(counts.reads >= STRINGS && STRINGS > 1_000_000);
    for answer in [0].into_iter().chain(20..=24) {
        assert!(counts.read(answer) > 50_000, "answer {answer}");
    }
}

#[test]
fn every_prefix() {
    let seed = 1104;
    let mut rng = Rng::new(seed);
    let mut beside = library();
    let found = compare_record::prefixes(&mut beside, &mut rng, 3000);
    done("prefixes", seed, &beside, found);
    let counts = &beside.counts;
    assert!(counts.read(20) > 200_000);
    assert!(counts.read(0) >= 1500 && counts.read(u32::MAX) > 20_000);
}

#[test]
fn spoilt_lists() {
    let seed = 1105;
    let mut rng = Rng::new(seed);
    let mut beside = library();
    let found = compare_record::spoilt_lists(&mut beside, &mut rng, 200_000);
    done("spoilt lists", seed, &beside, found);
    let counts = &beside.counts;
    for answer in [0, 22, 23, 25, u32::MAX] {
        assert!(counts.written(answer) > 50_000, "answer {answer}");
    }
}

#[test]
fn lists_cut_anywhere() {
    let seed = 1106;
    let mut rng = Rng::new(seed);
    let mut beside = library();
    let found = compare_record::cut_lists(&mut beside, &mut rng, 3000);
    done("cut lists", seed, &beside, found);
    let counts = &beside.counts;
    assert!(counts.written(u32::MAX) > 100_000 && counts.written(0) > 50_000);
}

/// With a fault planted in the second program the comparison must fail, and the
/// text must be short.
#[test]
fn planted_faults_are_noticed() {
    for fault in RecordFault::READER.into_iter().chain(RecordFault::WRITER) {
        let seed = 1107;
        let mut rng = Rng::new(seed);
        let mut beside = Beside::new(Library, fault);
        let read = compare_record::damaged_strings(&mut beside, &mut rng, 20_000);
        let found = read.and_then(|_| {
            compare_record::prefixes(&mut beside, &mut rng, 50)?;
            compare_record::spoilt_lists(&mut beside, &mut rng, 5000)
        });
        let Err(told) = found else {
            panic!("{fault:?} was not noticed");
        };
        let calls = beside.counts.reads + beside.counts.writes;
        assert!((2..=5).contains(&told.lines().count()), "{told}");
        let first = told.lines().next().unwrap();
        println!("{fault:?}: seed {seed}, noticed after {calls} calls: {first}");
    }
}
