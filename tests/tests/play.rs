//! The program `play` against the second player: what it prints for a record on
//! its standard input, line by line.

use std::fs::{self, File};
use std::io::{ErrorKind, Read, Write};
use std::path::{Path, PathBuf};
use std::process::{ChildStdin, Command, Stdio};
use std::sync::atomic::{AtomicU32, Ordering};
use std::sync::mpsc;
use std::thread;
use std::time::Duration;

use gloamish_tests::call::Request;
use gloamish_tests::compare_record::hex;
use gloamish_tests::playback::{most_lines, play, play_with, program, text};
use gloamish_tests::random::{self, Rng};
use gloamish_tests::record::{self, write};
use gloamish_tests::strings::{self, Damage, Recorder};
use gloamish_tests::{examples, RecordFault};

/// The longest that the program may take for one record.
const PATIENCE: Duration = Duration::from_secs(100);

/// How the program gets a record.
#[derive(Clone, Copy, Debug)]
enum By<'a> {
    /// Through a pipe, as fast as it is read.
    Pipe,
    /// From a file.
    File,
    /// Through a pipe, in pieces of these lengths by turns, with a pause from
    /// time to time.
    Pieces(&'a [usize]),
}

/// Gives the program a record; what it prints.
fn printed(string: &[u8], by: By) -> Vec<u8> {
    let mut command = Command::new(program());
    let file = matches!(by, By::File).then(|| TemporaryFile::new(string));
    match &file {
        Some(file) => command.stdin(File::open(&file.0).unwrap()),
        None => command.stdin(Stdio::piped()),
    };
    let mut child = command.stdout(Stdio::piped()).spawn().unwrap();
    let (stdin, stdout) = (child.stdin.take(), child.stdout.take());
    thread::scope(|scope| {
        // Both ends at once, so that neither pipe blocks the other.
        if let Some(stdin) = stdin {
            scope.spawn(move || feed(stdin, string, by));
        }
        let (sender, receiver) = mpsc::channel();
        scope.spawn(move || {
            let mut printed = Vec::new();
            let all = stdout.unwrap().read_to_end(&mut printed);
            sender.send(all.map(|_| printed)).unwrap();
        });
        let Ok(printed) = receiver.recv_timeout(PATIENCE) else {
            child.kill().unwrap();
            panic!("no end of {}, {by:?}", hex(string));
        };
        let status = child.wait().unwrap();
        assert!(status.code().is_some(), "{status} for {}", hex(string));
        printed.unwrap()
    })
}

/// Writes a string to the program. It may have stopped reading at a refusal.
fn feed(mut stdin: ChildStdin, string: &[u8], by: By) {
    let lengths = match by {
        By::Pieces(lengths) => lengths,
        _ => &[usize::MAX],
    };
    let mut rest = string;
    for (turn, length) in lengths.iter().cycle().enumerate() {
        let (piece, after) = rest.split_at(rest.len().min(*length));
        match stdin.write_all(piece).and_then(|()| stdin.flush()) {
            Err(error) if error.kind() == ErrorKind::BrokenPipe => return,
            written => written.unwrap(),
        }
        rest = after;
        if rest.is_empty() {
            return;
        }
        if turn % 16 == 15 {
            thread::sleep(Duration::from_micros(50));
        }
    }
}

/// A file that is gone when dropped.
struct TemporaryFile(PathBuf);

impl TemporaryFile {
    fn new(string: &[u8]) -> TemporaryFile {
        static NEXT: AtomicU32 = AtomicU32::new(0);
        let number = NEXT.fetch_add(1, Ordering::Relaxed);
        let process = std::process::id();
        let folder = Path::new(env!("CARGO_TARGET_TMPDIR"));
        let path = folder.join(format!("play-{process}-{number}.record"));
        fs::write(&path, string).unwrap();
        TemporaryFile(path)
    }
}

impl Drop for TemporaryFile {
    fn drop(&mut self) {
        // A file that is left over does no harm.
        let _ = fs::remove_file(&self.0);
    }
}

/// What was compared.
#[derive(Default)]
struct Seen {
    records: u64,
    bytes: usize,
    lines: usize,
    answers: Vec<u64>,
}

impl Seen {
    /// Plays a record with both; every line must be the same.
    #[track_caller]
    fn play(&mut self, string: &[u8], by: By) -> Vec<u32> {
        let lines = play(string);
        if let Some(told) = difference(string, by, &lines) {
            panic!("{told}");
        }
        self.records += 1;
        self.bytes += string.len();
        self.lines += lines.len();
        self.answers.resize(34, 0);
        for line in &lines {
            self.answers[*line as usize] += 1;
        }
        lines
    }

    fn print(&self, name: &str) {
        let Seen {
            records,
            bytes,
            lines,
            answers,
        } = self;
        println!("{name}: {records} records of {bytes} bytes played, {lines} lines compared");
        let named = answers.iter().enumerate().filter(|(_, count)| **count > 0);
        let named: Vec<String> = named.map(|(at, count)| format!("{at}: {count}")).collect();
        println!("{name}: lines by answer {}", named.join(", "));
    }

    fn came(&self, answers: impl IntoIterator<Item = usize>) {
        for answer in answers {
            assert!(self.answers[answer] > 0, "answer {answer} never came");
        }
    }
}

/// Where what the program prints isn't these lines, if anywhere.
fn difference(string: &[u8], by: By, lines: &[u32]) -> Option<String> {
    let printed = printed(string, by);
    let expected = text(lines);
    if printed == expected.as_bytes() {
        return None;
    }
    let given: Vec<&[u8]> = printed.split(|byte| *byte == b'\n').collect();
    let right: Vec<&[u8]> = expected.as_bytes().split(|byte| *byte == b'\n').collect();
    let same = given.iter().zip(&right).take_while(|(a, b)| a == b).count();
    let line = |lines: &[&[u8]]| match lines.get(same) {
        Some(line) => format!("{:?}", String::from_utf8_lossy(line)),
        None => "none".to_string(),
    };
    Some(format!(
        "{}, {by:?}\nline {}: {}, second player {}\n{} bytes printed, second player {}",
        hex(string),
        same + 1,
        line(&given),
        line(&right),
        printed.len(),
        expected.len()
    ))
}

/// Each example prints the lines beside it.
#[test]
fn the_examples() {
    let mut seen = Seen::default();
    for example in examples::all() {
        let (record, lines) = example.paths();
        let string = fs::read(record).unwrap();
        let lines = fs::read_to_string(lines).unwrap();
        for by in [By::Pipe, By::File, By::Pieces(&[1])] {
            let given = String::from_utf8(printed(&string, by)).unwrap();
            assert_eq!(given, lines, "{}", example.name);
            seen.play(&string, by);
        }
    }
    seen.print("examples");
    seen.came((0..=8).chain(30..=33));
}

/// Lists of numbers, and the lines by hand.
#[test]
fn by_hand() {
    let mut seen = Seen::default();
    let mut plays = |string: &[u8], lines: &[u32]| {
        for by in [By::Pipe, By::File] {
            assert_eq!(seen.play(string, by), lines, "{}", hex(string));
        }
    };
    plays(&[], &[20]);
    plays(&[1], &[20]);
    plays(&[2], &[22]);
    plays(&[0x80, 0x00], &[21]);
    plays(&[1, 0x80, 0x80, 0x04], &[23]);
    plays(&[1, 16, 4], &[0, 20]);
    plays(&[1, 16, 4, 12], &[0, 22]);
    let whole = |numbers: &[u32]| write(numbers).unwrap();
    plays(&whole(&[1, 16, 4]), &[0]);
    plays(&whole(&[1, 16, 4, 11, 0]), &[0]);
    plays(&whole(&[1, 16, 4, 11, 3]), &[0, 30, 31, 30]);
    // M or H out of range: 10, and then a refusal at most.
    let sizes = [
        (0, 0),
        (15, 4),
        (8193, 4),
        (16, 1),
        (16, 1025),
        (65_535, 65_535),
    ];
    for (m, h) in sizes {
        let string = whole(&[1, m, h, 2, 0, 2, 8, 11, u32::MAX, 5, 0, 1, 1]);
        plays(&string, &[10]);
        let end = string.len();
        plays(&string[..end - 1], &[10, 20]);
        plays(&string[..end - 3], &[10, 20]);
        plays(&[&string[..], &[0]].concat(), &[10, 24]);
        plays(&[&string[..end - 1], &[5]].concat(), &[10, 23]);
        plays(&[&string[..end - 2], &[12]].concat(), &[10, 22]);
        plays(&[&string[..end - 1], &[0x84, 0]].concat(), &[10, 21]);
    }
    for (m, h) in [(16, 2), (16, 1024), (8192, 2), (8192, 1024)] {
        plays(&whole(&[1, m, h, 2, 0, 2, 8]), &[0, 0, 1]);
    }
    seen.print("by hand");
    seen.came([0, 1, 10, 20, 21, 22, 23, 24, 30, 31]);
}

/// Registers 8 to 65,535 in every place of a register.
#[test]
fn registers_that_are_none() {
    let places: [(u32, &[usize]); 10] = [
        (1, &[0]),
        (2, &[0]),
        (3, &[0, 1]),
        (4, &[0]),
        (5, &[0]),
        (6, &[0, 1]),
        (7, &[0, 1]),
        (8, &[0, 1]),
        (9, &[0, 1]),
        (10, &[0, 1, 2]),
    ];
    let mut list = vec![1, 16, 4];
    let mut lines = vec![0];
    for (kind, places) in places {
        for &place in places {
            let high = (8..=300).chain([16_383, 16_384, 32_768, 65_534, 65_535]);
            for register in high {
                let fields = record::fields(kind).count();
                let mut numbers = vec![0; fields];
                numbers[place] = register;
                list.push(kind);
                list.extend(numbers);
                lines.push(1);
            }
        }
    }
    let mut seen = Seen::default();
    assert_eq!(seen.play(&write(&list).unwrap(), By::Pipe), lines);
    seen.print("registers");
    assert_eq!(seen.answers[1], 17 * 298);
}

/// Random calls on boxes of all sizes.
#[test]
fn grown_runs() {
    let seed = 1201;
    println!("grown runs: seed {seed}");
    let mut rng = Rng::new(seed);
    let mut seen = Seen::default();
    for _ in 0..150 {
        let size = random::small_box(&mut rng);
        let mut recorder = strings::grown(&mut rng, size, 4000);
        let lines = seen.play(&recorder.bytes(), By::Pipe);
        assert_eq!(lines, recorder.answers);
    }
    for turn in 0..40 {
        let size = match turn {
            0 => (8192, 1024),
            1 => (16, 1024),
            2 => (8192, 2),
            _ => random::large_box(&mut rng),
        };
        let mut recorder = strings::grown(&mut rng, size, 40_000);
        let lines = seen.play(&recorder.bytes(), By::Pipe);
        assert_eq!(lines, recorder.answers);
    }
    seen.print("grown runs");
    seen.came((0..=8).chain(30..=33));
    assert_eq!(seen.answers[9], 0);
    let [waited, refused, granted] = [7, 8, 32].map(|answer| seen.answers[answer]);
    assert!(waited > 1000 && refused > 500 && granted > 500);
    assert!(seen.lines > 2_000_000);
}

/// A GETM that waits, in every place of a cycle: refused, or granted because a
/// tuple was dropped.
#[test]
fn waiting() {
    let mut seen = Seen::default();
    let getm = |r, n| Request::Getm { r, n, tag: 7 };
    for before in 0..24 {
        for dropped in [false, true] {
            let mut recorder = Recorder::new(16, 4);
            recorder.request(getm(0, 2));
            recorder.request(getm(1, 1));
            recorder.request(Request::Store { r: 1, s: 0, k: 1 });
            if dropped {
                recorder.request(Request::Setd { r: 0, v: 5 });
            }
            for _ in 0..before {
                recorder.step();
            }
            recorder.request(getm(2, if dropped { 13 } else { 11 }));
            recorder.request(Request::Nil { r: 3 });
            for _ in 0..60 {
                recorder.step();
            }
            recorder.request(Request::Size { r: 3, s: 2 });
            let lines = seen.play(&recorder.bytes(), By::Pipe);
            assert_eq!(lines, recorder.answers);
            // Where the tuple was gone already, nothing waits.
            let held = lines.contains(&7);
            let answer = lines.iter().find(|line| [8, 32].contains(*line));
            let right = if dropped { 32 } else { 8 };
            assert_eq!(answer, held.then_some(&right));
            assert!(held || dropped);
        }
    }
    seen.print("waiting");
    seen.came([0, 2, 6, 7, 8, 30, 31, 32, 33]);
}

/// Records with one to three damages. One that asks for too many steps is left
/// out.
#[test]
fn damaged() {
    const MOST: u64 = 100_000;
    let seed = 1202;
    println!("damaged: seed {seed}");
    let mut rng = Rng::new(seed);
    let mut seen = Seen::default();
    let mut left_out = 0;
    while seen.records < 1200 {
        let whole = match rng.below(5) {
            0 => strings::string(&mut rng, 12),
            _ => {
                let size = random::small_box(&mut rng);
                let calls = rng.pick(&[5, 20, 100, 1000]);
                strings::grown(&mut rng, size, calls).bytes()
            }
        };
        for _ in 0..4 {
            let mut string = whole.clone();
            for _ in 0..rng.pick(&[1, 1, 1, 2, 3]) {
                rng.pick(&Damage::ALL).make(&mut rng, &mut string);
            }
            if most_lines(&string) > MOST {
                left_out += 1;
                continue;
            }
            seen.play(&string, By::Pipe);
        }
    }
    seen.print("damaged");
    println!("damaged: {left_out} left out");
    seen.came(
        (0..=3)
            .chain(6..=8)
            .chain([10])
            .chain(20..=24)
            .chain(30..=33),
    );
}

/// Every prefix of the examples and of a grown record.
#[test]
fn prefixes() {
    let seed = 1203;
    println!("prefixes: seed {seed}");
    let mut rng = Rng::new(seed);
    let mut strings: Vec<Vec<u8>> = examples::all().map(|example| example.bytes()).to_vec();
    strings.push(strings::grown(&mut rng, (24, 5), 700).bytes());
    let mut seen = Seen::default();
    for string in &strings {
        for length in 0..string.len() {
            let lines = seen.play(&string[..length], By::Pipe);
            assert_eq!(lines.last(), Some(&20));
        }
    }
    seen.print("prefixes");
    let lengths: usize = strings.iter().map(Vec::len).sum();
    assert_eq!(seen.records, lengths as u64);
    assert!(lengths > 500);
}

/// A list that begins like another record and makes so many bytes without its
/// end.
fn filled(long: &[u8], length: usize) -> Vec<u32> {
    let mut list = record::read(&long[..length - 16]).numbers;
    let bytes: usize = list.iter().map(|value| record::number(*value).len()).sum();
    // One MOVE, of three bytes, or none, and NILs, of two.
    let missing = length - bytes;
    let moves = missing % 2;
    list.extend([3, 1, 0].repeat(moves));
    list.extend([2, 5].repeat((missing - 3 * moves) / 2));
    list
}

/// A record of this length that begins like another.
fn exactly(long: &[u8], length: usize) -> Vec<u8> {
    // By how many bytes its count has.
    let lists = (1..=5).map(|count| filled(long, length - 1 - count));
    let mut strings = lists.map(|list| write(&list).unwrap());
    let found = strings.find(|string| string.len() == length);
    found.unwrap_or_else(|| panic!("no record of {length} bytes"))
}

/// Whole records, records cut, a number broken and bytes after the end, each at
/// every place about a border.
fn about(seen: &mut Seen, long: &[u8], border: usize, by: By) {
    for length in border - 9..=border + 9 {
        let whole = exactly(long, length);
        let lines = seen.play(&whole, by);
        assert!(!(20..=24).contains(lines.last().unwrap()));
        let lines = seen.play(&long[..length], by);
        assert_eq!(lines.last(), Some(&20));
        let broken = [&long[..length], &[0x80; 5]].concat();
        let lines = seen.play(&broken, by);
        assert_eq!(lines.last(), Some(&21));
        let lines = seen.play(&[&whole[..], &[0]].concat(), by);
        assert_eq!(lines.last(), Some(&24));
    }
}

/// A record of so many bytes or more whose lines tell of its numbers: nil is
/// advanced to 65,535 by two numbers of three bytes, and no further.
fn telling_record(rng: &mut Rng, bytes: usize) -> Vec<u8> {
    let mut list = vec![1, 16, 4];
    for _ in 0..bytes.div_ceil(15) {
        let n = 16_384 + rng.below(32_768);
        list.extend([2, 7, 4, 7, n, 4, 7, 65_535 - n, 4, 7, 1]);
    }
    let string = write(&list).unwrap();
    assert_eq!(play(&string)[1..9], [0, 0, 0, 4, 0, 0, 0, 4]);
    string
}

/// Records laid across a border at every place: the longest, and such as tell.
fn across(seen: &mut Seen, telling: &[u8], border: usize, by: By) {
    for start in border - 32..=border + 1 {
        let mut list = filled(telling, start);
        // Of ten bytes and seven, then fifteen.
        list.extend([5, 65_535, 65_534, 65_533, 1, 7, u32::MAX]);
        list.extend([2, 7, 4, 7, 16_384, 4, 7, 49_151, 4, 7, 1]);
        let lines = seen.play(&write(&list).unwrap(), by);
        assert!(lines.ends_with(&[1, 0, 0, 0, 0, 4]));
    }
}

/// A grown record of so many bytes or more, with few steps, wide values and
/// fields that are too large for the box.
fn long_record(rng: &mut Rng, bytes: usize) -> Vec<u8> {
    let mut recorder = Recorder::new(48, 9);
    let mut style = random::Style::any(rng, 48, 9);
    // No record has fewer bytes than two.
    for _ in 0..bytes.div_ceil(2) {
        if rng.below(250) == 0 {
            style = random::Style::any(rng, 48, 9);
        }
        let held = recorder.unit.state.hold.held;
        for _ in 0..rng.below(if held { 80 } else { 3 }) {
            recorder.step();
        }
        let request = match rng.below(8) {
            0 => strings::any_request(rng),
            1 => {
                let (r, v) = (rng.below(8) as u16, strings::word(rng));
                Request::Setd { r, v }
            }
            _ => random::request(rng, &recorder.unit, &style),
        };
        recorder.request(request);
    }
    recorder.bytes()
}

#[test]
fn borders_of_pieces() {
    let seed = 1204;
    println!("borders: seed {seed}");
    let mut rng = Rng::new(seed);
    let long = long_record(&mut rng, 140_000);
    let telling = telling_record(&mut rng, 140_000);
    let mut seen = Seen::default();
    for border in [4096, 8192, 65_536, 131_072] {
        about(&mut seen, &long, border, By::File);
        across(&mut seen, &telling, border, By::File);
    }
    for border in [4096, 65_536] {
        about(&mut seen, &telling, border, By::Pipe);
        across(&mut seen, &telling, border, By::Pipe);
    }
    // In pieces that end about the same borders.
    for lengths in [
        &[4095, 1, 4097][..],
        &[65_535, 2, 65_537],
        &[4094, 4096, 65_536],
    ] {
        seen.play(&long, By::Pieces(lengths));
        seen.play(&telling, By::Pieces(lengths));
    }
    seen.print("borders");
    seen.came([0, 7, 8, 20, 21, 24, 30, 31, 32, 33]);
}

/// Some megabytes, ended at every place about a border.
#[test]
fn megabytes() {
    let seed = 1205;
    println!("megabytes: seed {seed}");
    let mut rng = Rng::new(seed);
    let border = 48 * 65_536;
    let long = long_record(&mut rng, border + 100);
    let mut seen = Seen::default();
    let lines = seen.play(&long, By::Pipe);
    assert!(lines.len() > 1_000_000);
    for length in border - 2..=border + 2 {
        let by = match length % 2 {
            0 => By::File,
            _ => By::Pipe,
        };
        seen.play(&exactly(&long, length), by);
    }
    for length in [border, border + 1] {
        let lines = seen.play(&long[..length], By::File);
        assert_eq!(lines.last(), Some(&20));
    }
    seen.print("megabytes");
}

/// One record of 300,000 steps, on a full box and on an empty one.
#[test]
fn many_steps() {
    const STEPS: usize = 300_000;
    let mut seen = Seen::default();
    let mut recorder = Recorder::new(8192, 1024);
    for at in 0..1000u16 {
        let (r, s) = (at % 7, (at + 3) % 7);
        let n = 1 + at % 12;
        recorder.request(Request::Getm { r, n, tag: at });
        recorder.request(Request::Store { r: s, s: r, k: 0 });
    }
    for _ in 0..STEPS {
        recorder.step();
    }
    let string = recorder.bytes();
    let lines = seen.play(&string, By::Pipe);
    assert_eq!(lines, recorder.answers);
    let cycles = lines.iter().filter(|line| **line == 31).count();
    assert!(cycles > 3);
    let string = write(&[1, 16, 4, 11, STEPS as u32]).unwrap();
    let lines = seen.play(&string, By::File);
    assert_eq!(lines.len(), 1 + STEPS);
    assert_eq!(lines[1..5], [30, 31, 30, 31]);
    seen.print("many steps");
}

/// Pieces of a few bytes.
#[test]
fn odd_pieces() {
    let seed = 1206;
    println!("odd pieces: seed {seed}");
    let mut rng = Rng::new(seed);
    let mut seen = Seen::default();
    let long = long_record(&mut rng, 40_000);
    let odd = [1, 2, 3, 5, 7, 11, 13, 1, 1, 64, 4, 9];
    seen.play(&long, By::Pieces(&odd));
    let telling = telling_record(&mut rng, 6000);
    for length in 1..=16 {
        seen.play(&long[..5000 + length], By::Pieces(&[length]));
        seen.play(&telling, By::Pieces(&[length]));
    }
    seen.print("odd pieces");
}

/// With a fault planted in the second player, one of these records must be seen
/// to differ.
#[test]
fn planted_faults_are_noticed() {
    let whole = |numbers: &[u32]| write(numbers).unwrap();
    let ten = whole(&[1, 15, 4, 2, 0]);
    let steps = whole(&[1, 16, 4, 11, 5]);
    let strings = [
        &ten[..],
        &ten[..ten.len() - 1],
        &steps,
        &steps[..3],
        &steps[..5],
    ];
    for string in strings {
        assert_eq!(difference(string, By::Pipe, &play(string)), None);
    }
    for fault in RecordFault::PLAYER {
        let told = strings.iter().find_map(|string| {
            let lines = play_with(fault, string);
            difference(string, By::Pipe, &lines)
        });
        let told = told.unwrap_or_else(|| panic!("{fault:?} was not noticed"));
        assert_eq!(told.lines().count(), 3, "{told}");
        println!("{fault:?}: {}", told.lines().nth(1).unwrap());
    }
}
