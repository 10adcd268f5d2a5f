//! The second reader, writer and player of records alone: by hand, by what
//! M-100 says of all strings, and with faults switched on.

use gloamish_tests::capi::NOT_UNDERSTOOD;
use gloamish_tests::compare_record::{self, Beside, Second};
use gloamish_tests::playback::{most_lines, play, play_with, text};
use gloamish_tests::random::Rng;
use gloamish_tests::record::{self, number, read, write, Read, INSIDE};
use gloamish_tests::strings::{self, Damage};
use gloamish_tests::{examples, RecordFault};

/// Bytes by their hexadecimal digits.
fn bytes(digits: &str) -> Vec<u8> {
    let byte = |digits: &str| u8::from_str_radix(digits, 16).unwrap();
    digits.split_whitespace().map(byte).collect()
}

#[track_caller]
fn reads(digits: &str, numbers: &[u32], answer: u32) {
    let numbers = numbers.to_vec();
    assert_eq!(read(&bytes(digits)), Read { numbers, answer }, "{digits}");
}

#[track_caller]
fn writes(list: &[u32], digits: &str) {
    assert_eq!(write(list), Ok(bytes(digits)), "{list:?}");
}

#[track_caller]
fn writes_not(list: &[u32], answer: u32) {
    assert_eq!(write(list), Err(answer), "{list:?}");
}

#[track_caller]
fn plays(digits: &str, lines: &[u32]) {
    assert_eq!(play(&bytes(digits)), lines, "{digits}");
}

// Numbers.

/// Numbers and their bytes, by hand.
const NUMBERS: [(u32, &str); 16] = [
    (0, "00"),
    (1, "01"),
    (16, "10"),
    (127, "7F"),
    (128, "80 01"),
    (300, "AC 02"),
    (16_383, "FF 7F"),
    (16_384, "80 80 01"),
    (65_535, "FF FF 03"),
    (65_536, "80 80 04"),
    (2_097_151, "FF FF 7F"),
    (2_097_152, "80 80 80 01"),
    (268_435_455, "FF FF FF 7F"),
    (268_435_456, "80 80 80 80 01"),
    (2_147_483_648, "80 80 80 80 08"),
    (4_294_967_295, "FF FF FF FF 0F"),
];

#[test]
fn numbers_by_hand() {
    for (value, digits) in NUMBERS {
        assert_eq!(number(value), bytes(digits), "{value}");
        // As SETD's value, as a number of steps, and, up to 65,535, as M.
        let setd = format!("01 10 04 01 00 {digits} 00 01");
        reads(&setd, &[1, 16, 4, 1, 0, value], 0);
        let steps = format!("01 10 04 0B {digits} 00 01");
        reads(&steps, &[1, 16, 4, 11, value], 0);
        let opening = format!("01 {digits} 04 00 00");
        match value {
            0..=65_535 => reads(&opening, &[1, value, 4], 0),
            _ => reads(&opening, &[], 23),
        }
    }
}

/// A number's value and form by their definition, in wide numbers: how many
/// bytes it takes, or the refusal.
fn by_definition(string: &[u8]) -> Result<(u32, usize), u32> {
    let five = &string[..string.len().min(5)];
    let Some(last) = five.iter().position(|byte| byte & 0x80 == 0) else {
        return Err(if five.len() == 5 { 21 } else { 20 });
    };
    let groups = five[..=last].iter().zip(0..);
    let value: u128 = groups
        .map(|(byte, at)| u128::from(byte & 0x7F) << (7 * at))
        .sum();
    let long = last > 0 && value < 1 << (7 * last);
    match u32::try_from(value) {
        Ok(value) if !long => Ok((value, last + 1)),
        _ => Err(21),
    }
}

/// All strings of up to seven bytes over eight in the place of SETD's value.
#[test]
fn numbers_by_their_definition() {
    const FEW: [u8; 8] = [0x00, 0x01, 0x0F, 0x10, 0x7F, 0x80, 0x8F, 0xFF];
    let head = bytes("01 10 04 01 00");
    let mut counts = [0; 3];
    for length in 0..=7 {
        for digits in 0..1 << (3 * length) {
            let digit = |at: u32| FEW[digits >> (3 * at) & 7];
            let tail: Vec<u8> = (0..length).map(digit).collect();
            let string = [&head[..], &tail].concat();
            let found = read(&string);
            match by_definition(&tail) {
                Ok((value, _)) => {
                    assert_eq!(found.numbers[..6], [1, 16, 4, 1, 0, value], "{tail:X?}");
                    counts[0] += 1;
                }
                Err(answer) => {
                    let numbers = vec![1, 16, 4];
                    assert_eq!(found, Read { numbers, answer }, "{tail:X?}");
                    counts[answer as usize - 19] += 1;
                }
            }
        }
    }
    println!("numbers by their definition: whole, 20 and 21: {counts:?}");
    assert_eq!(
        counts.iter().sum::<u64>(),
        (0..=7).map(|n| 8u64.pow(n)).sum()
    );
    assert!(counts.iter().all(|count| *count > 50));
}

// The reader.

/// Document 02's example.
const EXAMPLE: &str = "01 10 04 05 00 02 07 0B 0A 00 02";

#[test]
fn the_example() {
    reads(EXAMPLE, &[1, 16, 4, 5, 0, 2, 7, 11, 10], 0);
    writes(&[1, 16, 4, 5, 0, 2, 7, 11, 10], EXAMPLE);
    // P1, then ten steps: cycles of four, as worked out in src/examples.rs.
    plays(EXAMPLE, &[0, 0, 30, 30, 30, 31, 30, 30, 30, 31, 30, 30]);
    assert_eq!(examples::p1().bytes(), bytes(EXAMPLE));
}

#[test]
fn cut() {
    reads("", &[], 20);
    reads("01", &[], 20);
    reads("01 10", &[], 20);
    reads("01 90", &[], 20);
    reads("01 10 84", &[], 20);
    let opening = [1, 16, 4];
    // Neither the end nor a whole record.
    reads("01 10 04", &opening, 20);
    reads("01 10 04 05", &opening, 20);
    reads("01 10 04 05 00", &opening, 20);
    reads("01 10 04 05 00 02", &opening, 20);
    reads("01 10 04 05 00 02 87", &opening, 20);
    let record = [1, 16, 4, 5, 0, 2, 7];
    reads("01 10 04 05 00 02 07", &record, 20);
    // An end without its count, or with half of it.
    reads("01 10 04 05 00 02 07 00", &record, 20);
    reads("01 10 04 05 00 02 07 00 81", &record, 20);
    // Whatever the number would have been: edition 2, kind 12, M 65,536.
    reads("82", &[], 20);
    reads("01 10 04 8C", &opening, 20);
    reads("01 80 80", &[], 20);
    reads("01 80 80 84", &[], 20);
    reads("01 10 04 02 FF FF FF FF", &opening, 20);
}

#[test]
fn long_form_or_too_large() {
    let opening = [1, 16, 4];
    for zeros in ["80 00", "80 80 00", "80 80 80 00", "80 80 80 80 00"] {
        reads(zeros, &[], 21);
        reads(&format!("01 {zeros}"), &[], 21);
        reads(&format!("01 10 {zeros}"), &[], 21);
        reads(&format!("01 10 04 {zeros}"), &opening, 21);
        reads(&format!("01 10 04 02 {zeros}"), &opening, 21);
        reads(&format!("01 10 04 01 00 {zeros}"), &opening, 21);
        reads(&format!("01 10 04 00 {zeros}"), &opening, 21);
    }
    reads("01 10 04 01 00 FF FF FF FF 00", &opening, 21);
    // A fifth byte above 0F, whether or not others follow.
    for fifth in ["10", "1F", "7F", "80", "8F", "90", "FF"] {
        for rest in ["", "00", "0F", "00 01", "FF FF FF"] {
            let long = format!("80 80 80 80 {fifth} {rest}");
            reads(&long, &[], 21);
            reads(&format!("01 10 04 {long}"), &opening, 21);
            reads(&format!("01 10 04 01 00 {long}"), &opening, 21);
            reads(&format!("01 10 04 0B {long}"), &opening, 21);
            reads(&format!("01 10 04 00 {long}"), &opening, 21);
        }
    }
    // Before the number is looked at: edition 2, kind 12, register 65,536 and
    // a wrong count, each in a long form.
    reads("82 00", &[], 21);
    reads("01 10 04 8C 00", &opening, 21);
    reads("01 10 04 02 80 80 84 00", &opening, 21);
    reads("01 80 80 84 00", &[], 21);
    reads("01 10 04 00 81 00", &opening, 21);
}

#[test]
fn unknown_kind_or_edition() {
    for edition in ["00", "02", "03", "7F", "80 01", "81 02", "FF FF FF FF 0F"] {
        reads(edition, &[], 22);
        reads(&format!("{edition} 10 04 00 00"), &[], 22);
    }
    let opening = [1, 16, 4];
    for kind in ["0C", "0D", "10", "7F", "80 01", "85 02", "FF FF FF FF 0F"] {
        reads(&format!("01 10 04 {kind}"), &opening, 22);
        reads(&format!("01 10 04 {kind} 00 00 00 00 01"), &opening, 22);
        let whole = [1, 16, 4, 2, 7];
        reads(&format!("01 10 04 02 07 {kind}"), &whole, 22);
    }
}

/// The fields of document 01's kinds and of steps: r, s, t, k, n and tag have
/// 16 bits, v and the number of steps 32.
const KINDS: [(u32, &str); 11] = [
    (1, "rv"),
    (2, "r"),
    (3, "rs"),
    (4, "rn"),
    (5, "rng"),
    (6, "rsk"),
    (7, "rsk"),
    (8, "rs"),
    (9, "rs"),
    (10, "rst"),
    (11, "#"),
];

#[test]
fn fields_too_large() {
    let mut compared = 0;
    for (kind, fields) in KINDS {
        let wide: Vec<bool> = fields.chars().map(|field| "v#".contains(field)).collect();
        assert_eq!(record::fields(kind).collect::<Vec<_>>(), wide);
        for (at, wide) in wide.iter().enumerate() {
            for (value, digits) in NUMBERS {
                let mut list = vec![1, 16, 4, kind];
                list.extend((0..fields.len()).map(|field| match field == at {
                    true => value,
                    false => 5,
                }));
                let mut string = bytes("01 10 04");
                string.push(kind as u8);
                for field in 0..fields.len() {
                    string.extend(match field == at {
                        true => bytes(digits),
                        false => vec![5],
                    });
                }
                string.extend([0, 1]);
                let found = read(&string);
                if value <= 65_535 || *wide {
                    assert_eq!(write(&list), Ok(string));
                    let (numbers, answer) = (list, 0);
                    assert_eq!(found, Read { numbers, answer });
                } else {
                    assert_eq!(write(&list), Err(23));
                    let (numbers, answer) = (vec![1, 16, 4], 23);
                    assert_eq!(found, Read { numbers, answer });
                }
                compared += 1;
            }
        }
    }
    assert_eq!(compared, 24 * NUMBERS.len());
    // M and H.
    reads("01 FF FF 03 FF FF 03 00 00", &[1, 65_535, 65_535], 0);
    reads("01 00 00 00 00", &[1, 0, 0], 0);
    reads("01 80 80 04 04 00 00", &[], 23);
    reads("01 10 80 80 04 00 00", &[], 23);
    reads("01 80 80 04", &[], 23);
    reads("01 10 FF FF FF FF 0F", &[], 23);
}

#[test]
fn a_wrong_count() {
    let opening = [1, 16, 4];
    reads("01 10 04 00 00", &opening, 0);
    for count in ["01", "02", "7F", "80 01", "FF FF FF FF 0F"] {
        reads(&format!("01 10 04 00 {count}"), &opening, 23);
        // At the count, before bytes after the end.
        reads(&format!("01 10 04 00 {count} 00"), &opening, 23);
    }
    let record = [1, 16, 4, 2, 7];
    reads("01 10 04 02 07 00 01", &record, 0);
    // Neither the opening nor the end counts.
    reads("01 10 04 02 07 00 00", &record, 23);
    reads("01 10 04 02 07 00 02", &record, 23);
    reads("01 10 04 02 07 00 03", &record, 23);
    // No steps are a record too.
    reads("01 10 04 0B 00 00 01", &[1, 16, 4, 11, 0], 0);
    // Counts of two and three bytes.
    for records in [127, 128, 129, 255, 256, 16_383, 16_384, 16_385] {
        let mut list = vec![1, 16, 4];
        list.extend([2, 7].repeat(records as usize));
        let string = write(&list).unwrap();
        let mut by_hand = bytes("01 10 04");
        by_hand.extend([2, 7].repeat(records as usize));
        by_hand.push(0);
        by_hand.extend(match records {
            127 => bytes("7F"),
            128 => bytes("80 01"),
            129 => bytes("81 01"),
            255 => bytes("FF 01"),
            256 => bytes("80 02"),
            16_383 => bytes("FF 7F"),
            16_384 => bytes("80 80 01"),
            _ => bytes("81 80 01"),
        });
        assert_eq!(string, by_hand);
        assert_eq!(read(&string).answer, 0);
        let end = 3 + 2 * records as usize + 1;
        for wrong in [0, records - 1, records + 1, records + 256, records + 65_536] {
            let string = [&string[..end], &number(wrong)].concat();
            assert_eq!(read(&string).answer, 23);
        }
    }
}

#[test]
fn bytes_after_the_end() {
    let opening = [1, 16, 4];
    for rest in ["00", "01", "80", "FF", "00 00", "01 10 04 00 00"] {
        reads(&format!("01 10 04 00 00 {rest}"), &opening, 24);
        let record = [1, 16, 4, 5, 0, 2, 7, 11, 10];
        reads(&format!("{EXAMPLE} {rest}"), &record, 24);
    }
}

/// Two faults in one string: the one further left counts.
#[test]
fn the_first_fault_counts() {
    let opening = [1, 16, 4];
    // An edition, before all that follows.
    reads("02 80", &[], 22);
    reads("02 80 00", &[], 22);
    reads("02 80 80 04", &[], 22);
    // M, before H, kinds and the cut.
    reads("01 80 80 04 80 00", &[], 23);
    reads("01 80 80 04 80", &[], 23);
    reads("01 80 00 80 80 04", &[], 21);
    reads("01 10 80 80 04 0C", &[], 23);
    // A kind, before its fields.
    reads("01 10 04 0C 80 00", &opening, 22);
    reads("01 10 04 0C 80", &opening, 22);
    reads("01 10 04 80 00 0C", &opening, 21);
    // A field, before the next one and before the next kind.
    reads("01 10 04 03 80 80 04 80 00", &opening, 23);
    reads("01 10 04 03 80 80 04 80", &opening, 23);
    reads("01 10 04 03 80 00 80 80 04", &opening, 21);
    reads("01 10 04 02 80 80 04 0C", &opening, 23);
    reads("01 10 04 02 80 80 80 80 10 0C", &opening, 21);
    // A count, before what follows it.
    reads("01 10 04 00 01 80", &opening, 23);
    reads("01 10 04 00 80 00 00", &opening, 21);
    // A register that playing refuses is no fault here.
    reads("01 10 04 02 FF FF 03 0C", &[1, 16, 4, 2, 65_535], 22);
}

// The writer.

#[test]
fn the_writer_by_hand() {
    writes(&[1, 16, 4], "01 10 04 00 00");
    writes(&[1, 0, 65_535], "01 00 FF FF 03 00 00");
    writes(&[1, 16, 4, 11, 0], "01 10 04 0B 00 00 01");
    writes(
        &[1, 8192, 1024, 1, 65_535, u32::MAX],
        "01 80 40 80 08 01 FF FF 03 FF FF FF FF 0F 00 01",
    );
    // An edition or a kind, 0 too.
    for edition in [0, 2, 3, 257, u32::MAX] {
        writes_not(&[edition], 22);
        writes_not(&[edition, 16, 4], 22);
    }
    for kind in [0, 12, 13, 256, 257, 65_541, u32::MAX] {
        writes_not(&[1, 16, 4, kind], 22);
        writes_not(&[1, 16, 4, kind, 0, 0, 0], 22);
        writes_not(&[1, 16, 4, 2, 7, kind], 22);
    }
    writes_not(&[1, 65_536, 4], 23);
    writes_not(&[1, 16, 65_536], 23);
    // A list that ends inside.
    for list in [
        &[][..],
        &[1],
        &[1, 16],
        &[1, 16, 4, 1],
        &[1, 16, 4, 1, 0],
        &[1, 16, 4, 11],
        &[1, 16, 4, 2, 7, 5, 0, 2],
    ] {
        writes_not(list, INSIDE);
    }
    // The first fault from the left, the end of the list among them.
    writes_not(&[1, 65_536], 23);
    writes_not(&[2, 65_536], 22);
    writes_not(&[1, 16, 4, 5, 0, 65_536], 23);
    writes_not(&[1, 16, 4, 2, 65_536, 12], 23);
    writes_not(&[1, 16, 4, 12, 65_536], 22);
    writes_not(&[1, 16, 4, 0, 1, 5], 22);
    writes_not(&[1, 16, 4, 2, 7, 5, 0, 65_535], INSIDE);
}

/// What the two C functions are to do with their rooms.
#[test]
fn rooms_by_hand() {
    let fault = RecordFault::None;
    let list = [1, 16, 4, 5, 0, 2, 7, 11, 10];
    let none = u64::from(NOT_UNDERSTOOD);
    for room in 0..20 {
        let mut output = vec![0xEE; room];
        let given = record::write_call(fault, &list, &mut output);
        let mut right = vec![0xEE; room];
        if room >= 11 {
            assert_eq!(given, 11 * 256);
            right[..11].copy_from_slice(&bytes(EXAMPLE));
        } else {
            assert_eq!(given, 25);
        }
        assert_eq!(output, right);
        // Refused for another reason, whatever the room.
        for (list, answer) in [
            (&[2, 16, 4][..], 22),
            (&[1, 16, 4, 2, 65_536], 23),
            (&[1, 16, 4, 5, 0, 2], none),
        ] {
            let mut output = vec![0xEE; room];
            assert_eq!(record::write_call(fault, list, &mut output), answer);
            assert_eq!(output, vec![0xEE; room]);
        }
        let mut numbers = vec![7; room];
        let given = record::read_call(fault, &bytes(EXAMPLE), &mut numbers);
        let mut right = vec![7; room];
        if room >= 11 {
            assert_eq!(given, 9 * 256);
            right[..9].copy_from_slice(&list);
        } else {
            assert_eq!(given, none);
        }
        assert_eq!(numbers, right);
    }
    // A record cut short leaves what is behind the whole ones as it was.
    let mut numbers = [7; 10];
    let given = record::read_call(fault, &bytes(EXAMPLE)[..9], &mut numbers);
    assert_eq!(given, 9 * 256 + 20);
    let given = record::read_call(fault, &bytes(EXAMPLE)[..6], &mut numbers);
    assert_eq!(given, 3 * 256 + 20);
    let mut numbers = [7; 10];
    record::read_call(fault, &bytes(EXAMPLE)[..6], &mut numbers);
    assert_eq!(numbers, [1, 16, 4, 7, 7, 7, 7, 7, 7, 7]);
    assert_eq!(record::read_call(fault, &[], &mut []), 20);
}

// All strings and lists.

/// What was written reads back the same.
#[test]
fn round_trips() {
    let seed = 1001;
    println!("round trips: seed {seed}");
    let mut rng = Rng::new(seed);
    let (mut numbers, mut longest) = (0, 0);
    for _ in 0..100_000 {
        let records = strings::records(&mut rng);
        let list = strings::list(&mut rng, records);
        let string = write(&list).unwrap();
        numbers += list.len();
        longest = longest.max(string.len());
        let answer = 0;
        let numbers = list;
        assert_eq!(read(&string), Read { numbers, answer });
    }
    println!("round trips: 100000 lists, {numbers} numbers, longest string {longest}");
    assert!(numbers > 2_000_000 && longest > 4000);
}

/// A string that reads well is the one the writer makes; one that doesn't is
/// none that the writer makes.
#[test]
fn what_reads_well_is_what_is_written() {
    let seed = 1002;
    println!("what reads well: seed {seed}");
    let mut rng = Rng::new(seed);
    let mut counts = [0; 2];
    for turn in 0..400_000 {
        let records = strings::records(&mut rng) % 40;
        let mut string = strings::string(&mut rng, records);
        if turn % 4 > 0 {
            rng.pick(&Damage::ALL).make(&mut rng, &mut string);
        }
        let Read { numbers, answer } = read(&string);
        let written = write(&numbers);
        if answer == 0 {
            assert_eq!(written.as_ref(), Ok(&string));
        } else {
            assert_ne!(written.as_ref(), Ok(&string));
            // But all that is whole could be written.
            let opened = numbers.len() >= 3;
            assert_eq!(written.is_ok(), opened);
        }
        counts[usize::from(answer != 0)] += 1;
    }
    println!("what reads well: well and refused {counts:?}");
    assert!(counts.iter().all(|count| *count > 100_000));
}

/// A string cut short anywhere gives its whole leading records and 20. Where
/// the parts end is taken from the lengths of what is written.
#[test]
fn every_proper_prefix() {
    let seed = 1003;
    println!("prefixes: seed {seed}");
    let mut rng = Rng::new(seed);
    let mut prefixes = 0;
    for _ in 0..3000 {
        let records = rng.below(50);
        let mut parts = vec![vec![1, strings::half(&mut rng), strings::half(&mut rng)]];
        for _ in 0..records {
            let mut part = Vec::new();
            strings::any_record(&mut rng, &mut part);
            parts.push(part);
        }
        let string = write(&parts.concat()).unwrap();
        let mut numbers: Vec<u32> = Vec::new();
        let mut parts = parts.iter();
        let mut next = parts.next();
        let mut end = 0;
        for length in 0..string.len() {
            if let Some(part) = next {
                let size: usize = part.iter().map(|value| number(*value).len()).sum();
                if length == end + size {
                    numbers.extend(part);
                    end = length;
                    next = parts.next();
                }
            }
            let found = read(&string[..length]);
            assert_eq!(found.answer, 20);
            assert_eq!(found.numbers, numbers);
            prefixes += 1;
        }
        assert!(next.is_none());
    }
    println!("prefixes: {prefixes}");
    assert!(prefixes > 300_000);
}

/// A fault found stays, whatever follows; what was read whole stays too.
#[test]
fn what_follows_changes_nothing() {
    let seed = 1004;
    println!("what follows: seed {seed}");
    let mut rng = Rng::new(seed);
    let mut counts = [0; 25];
    for _ in 0..200_000 {
        let records = strings::records(&mut rng) % 40;
        let mut string = strings::string(&mut rng, records);
        rng.pick(&Damage::ALL).make(&mut rng, &mut string);
        let before = read(&string);
        let more = 1 + rng.below(6);
        string.extend((0..more).map(|_| rng.below(256) as u8));
        let after = read(&string);
        match before.answer {
            20 => assert!(after.numbers.starts_with(&before.numbers)),
            0 => {
                assert_eq!(after.answer, 24);
                assert_eq!(after.numbers, before.numbers);
            }
            _ => assert_eq!(after, before),
        }
        counts[before.answer as usize] += 1;
    }
    println!(
        "what follows: 0 and 20 to 24: {} {:?}",
        counts[0],
        &counts[20..]
    );
    assert!(counts[0] > 1000 && counts[20..].iter().all(|count| *count > 1000));
}

// The player.

/// Strings, and what playing them prints, by hand.
const PLAYED: [(&str, &[u32]); 27] = [
    ("", &[20]),
    ("01", &[20]),
    ("01 10 84", &[20]),
    ("02", &[22]),
    ("01 80 80 04 04 00 00", &[23]),
    ("01 10 80 80 04 00 00", &[23]),
    // The opening is read whole.
    ("01 10 04", &[0, 20]),
    ("01 10 04 00 00", &[0]),
    ("01 10 04 00 01", &[0, 23]),
    ("01 10 04 00 00 00", &[0, 24]),
    ("01 10 04 8C 00", &[0, 21]),
    // Boxes that can't be opened.
    ("01 0F 04 00 00", &[10]),
    ("01 0F 04", &[10, 20]),
    ("01 10 01 02 00 0C", &[10, 22]),
    ("01 00 00 02 00 00 01 00", &[10, 24]),
    // No box: nothing is played, however many steps.
    ("01 0F 04 02 00 0B FF FF FF FF 0F 00 02", &[10]),
    ("01 0F 04 02 00 0B FF FF FF FF 0F 00 03", &[10, 23]),
    // Registers 8 and 65,535.
    ("01 10 04 02 08 02 FF FF 03 00 02", &[0, 1, 1]),
    // P8, and a step of the next cycle; no steps.
    ("01 10 04 0B 03 00 01", &[0, 30, 31, 30]),
    ("01 10 04 0B 00 00 01", &[0]),
    ("01 10 04 0B 02 0B 00 0B 01 00 03", &[0, 30, 31, 30]),
    // Played up to the fault.
    ("01 10 04 02 00 0B 02 00 01", &[0, 0, 30, 31, 23]),
    ("01 10 04 02 00 0B 02 0C", &[0, 0, 30, 31, 22]),
    ("01 10 04 02 00 0B 02 03 00", &[0, 0, 30, 31, 20]),
    ("01 10 04 02 00 0B 02 03 80 00", &[0, 0, 30, 31, 21]),
    ("01 10 04 02 00 0B 02 03 00 80 80 04", &[0, 0, 30, 31, 23]),
    ("01 10 04 02 00 0B 02 00 02 00", &[0, 0, 30, 31, 24]),
];

#[test]
fn played_by_hand() {
    for (digits, lines) in PLAYED {
        plays(digits, lines);
        assert!(most_lines(&bytes(digits)) >= lines.len() as u64);
    }
    assert_eq!(text(&[0, 31, 4_294_967_295]), "0\n31\n4294967295\n");
    assert_eq!(text(&[]), "");
}

#[test]
fn openings() {
    let right = [(16, 2), (16, 1024), (8192, 2), (8192, 1024)];
    let wrong = [
        (0, 0),
        (15, 2),
        (16, 1),
        (16, 0),
        (8193, 4),
        (16, 1025),
        (65_535, 65_535),
    ];
    for (sizes, answer) in [(&right[..], 0), (&wrong[..], 10)] {
        for &(m, h) in sizes {
            assert_eq!(play(&write(&[1, m, h]).unwrap()), [answer]);
            let list = [1, m, h, 2, 0, 2, 8];
            let lines = play(&write(&list).unwrap());
            match answer {
                0 => assert_eq!(lines, [0, 0, 1]),
                _ => assert_eq!(lines, [10]),
            }
        }
    }
}

/// The files in examples/ are what the second writer makes, and hold the lines
/// that were worked out by hand; the second player prints the same.
#[test]
fn the_examples() {
    for example in examples::all() {
        let (record, lines) = example.paths();
        let string = std::fs::read(&record).unwrap();
        assert_eq!(string, example.bytes(), "{}", example.name);
        let lines = std::fs::read_to_string(&lines).unwrap();
        assert_eq!(lines, text(&example.lines), "{}", example.name);
        assert_eq!(play(&string), example.lines, "{}", example.name);
    }
    let lines = examples::refused().lines;
    let seven = lines.iter().position(|line| *line == 7);
    let eight = lines.iter().position(|line| *line == 8);
    assert!(seven.is_some() && seven < eight);
    // Every kind of request is done in one of them.
    let list = examples::kinds().list;
    for kind in 1..=10 {
        assert!(list.contains(&kind));
    }
}

/// A record of a grown box prints the answers that it was made with.
#[test]
fn grown_records() {
    let seed = 1005;
    println!("grown records: seed {seed}");
    let mut rng = Rng::new(seed);
    let mut counts = [0u64; 34];
    for _ in 0..400 {
        let size = gloamish_tests::random::small_box(&mut rng);
        let mut recorder = strings::grown(&mut rng, size, 2000);
        let string = recorder.bytes();
        assert_eq!(play(&string), recorder.answers);
        assert!(most_lines(&string) >= recorder.answers.len() as u64);
        for answer in recorder.answers {
            counts[answer as usize] += 1;
        }
    }
    println!("grown records: answers {counts:?}");
    for answer in (0..=8).chain(30..=33) {
        assert!(counts[answer] > 100, "answer {answer}");
    }
    assert_eq!(counts[9], 0);
}

// The comparison itself.

/// What the comparison says of the second program with a fault, if anything,
/// and after how many calls.
fn noticed(fault: RecordFault) -> (Option<String>, u64) {
    let mut rng = Rng::new(1006);
    let mut beside = Beside::new(Second(fault), RecordFault::None);
    let reads = compare_record::damaged_strings(&mut beside, &mut rng, 20_000);
    let told = match reads {
        Err(told) => Some(told),
        Ok(_) => compare_record::prefixes(&mut beside, &mut rng, 50)
            .and_then(|()| compare_record::spoilt_lists(&mut beside, &mut rng, 5000))
            .err(),
    };
    (told, beside.counts.reads + beside.counts.writes)
}

#[test]
fn faults_are_noticed() {
    for fault in RecordFault::READER.into_iter().chain(RecordFault::WRITER) {
        let (told, calls) = noticed(fault);
        let told = told.unwrap_or_else(|| panic!("{fault:?} was not noticed"));
        let lines = told.lines().count();
        assert!((2..=5).contains(&lines), "{told}");
        let first = told.lines().next().unwrap();
        println!("{fault:?}: noticed after {calls} calls: {first}");
    }
    let (told, calls) = noticed(RecordFault::None);
    assert_eq!(told, None);
    println!("no fault: {calls} calls pass");
}

#[test]
fn faults_of_the_player_are_noticed() {
    for fault in RecordFault::PLAYER {
        let differs = |(digits, lines): &&(&str, &[u32])| {
            // A box that isn't there would answer 9 to each of the steps.
            let endless = fault == RecordFault::PlaysAfterTen && digits.contains("FF 0F");
            !endless && play_with(fault, &bytes(digits)) != *lines
        };
        let found = PLAYED.iter().filter(differs).count();
        println!("{fault:?}: noticed in {found} strings");
        assert!(found > 0, "{fault:?}");
    }
}

/// Strings with each of the faults that a reader might have, by hand: none of
/// them may pass as what it isn't.
#[test]
fn every_fault_of_the_reader_by_hand() {
    use RecordFault::*;
    for (fault, digits) in [
        (LongFormTaken, "01 10 04 02 80 00 00 01"),
        (FifthByteWraps, "01 10 04 01 00 FF FF FF FF 1F 00 01"),
        (FifthByteWaits, "01 10 04 01 00 FF FF FF FF 8F"),
        (LargeBeforeCut, "01 10 04 02 80 80 84"),
        (FormLast, "01 10 04 8C 00"),
        (HalfWraps, "01 10 04 02 80 80 04 00 01"),
        (RegistersToSeven, "01 10 04 02 08 00 01"),
        (OpeningInRange, "01 81 40 04 00 00"),
        (WordsAreHalves, "01 10 04 0B 80 80 04 00 01"),
        (AnyEdition, "02 10 04 00 00"),
        (TwelveTaken, "01 10 04 0C 00 01"),
        (AnyCount, "01 10 04 00 01"),
        (EndCounted, "01 10 04 02 07 00 02"),
        (RestBeforeCount, "01 10 04 00 01 00"),
        (RestPassed, "01 10 04 00 00 00"),
        (EndNotWanted, "01 10 04 02 07"),
        (PartGiven, "01 10 04 03 07"),
        (EndGiven, "01 10 04 00 00"),
    ] {
        let string = bytes(digits);
        assert_ne!(
            record::read_with(fault, &string),
            read(&string),
            "{fault:?}"
        );
    }
}
