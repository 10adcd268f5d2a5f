//! The program `play` against a plain player's program on the same records, and
//! the C interface against the plain player on the same calls:
//!
//!     cargo run --release --offline --bin bench
//!
//! It needs the library of the C interface and the program `play`, which
//! `tools/build` builds in the root of the repository.
//! Records are grown on the second program. What both programs print must be
//! its answers, byte for byte, before anything is timed. Ratios are processor
//! times in one run, the least of several.

mod interface;
mod loads;
mod programs;

use std::fs::File;
use std::process::ExitCode;
use std::time::Instant;

use gloamish_tests::plain;

use interface::By;
use loads::{chains, mixed, Load, LARGEST};
use programs::Files;

const MILLION: usize = 1_000_000;

/// Boxes from the smallest to the largest.
const BOXES: [(u32, u32); 5] = [(16, 4), (64, 16), (512, 64), (2048, 256), LARGEST];

/// Something that the two did not agree on.
type Disagreement = String;

fn check(load: &Load, agree: bool) -> Result<(), Disagreement> {
    match agree {
        true => Ok(()),
        false => Err(format!("{}: they do not agree", load.name)),
    }
}

/// The least time of printing these answers with the plain player's code.
fn printing(answers: &[u32]) -> f64 {
    let times = (0..15).map(|_| {
        let out = File::create("/dev/null").expect("a place to print to");
        let start = Instant::now();
        plain::print(answers, out).expect("what is printed is taken");
        start.elapsed().as_secs_f64()
    });
    times.fold(f64::MAX, f64::min)
}

/// Both programs on a record of each load: the ratio; the same with the time of
/// an empty record taken off; the times; and how many single steps, or requests
/// where there are no steps, are played a second. Then what reading takes, by
/// the same record with an opening that is refused, so that it is only read;
/// and what printing its lines takes the plain player's code.
fn programs(files: &Files) -> Result<(), Disagreement> {
    let [start, plain_start] = files.times(&[]);
    println!("play and the plain player's program, {LARGEST:?}, a million steps");
    println!(
        "start-up: {:.2} ms, plain {:.2}",
        start * 1e3,
        plain_start * 1e3
    );
    for load in loads::all(MILLION) {
        check(&load, files.agree(&load))?;
        let [ours, plain] = files.times(&load.bytes);
        let [reads, plain_reads] = files.times(&load.only_read());
        let prints = printing(&load.answers);
        let count = match load.steps {
            0 => load.answers.len() - 1,
            steps => steps,
        };
        let speed = |time: f64| count as f64 / time / 1e6;
        let share = |part: f64, of: f64| 100.0 * part / of;
        println!(
            "{}: ratio {:.2}, without start-up {:.2}; {:.2} ms, plain {:.2}; {:.0} million a second, plain {:.0}",
            load.name,
            ours / plain,
            (ours - start) / (plain - plain_start),
            ours * 1e3,
            plain * 1e3,
            speed(ours),
            speed(plain),
        );
        println!(
            "    {} bytes read: {:.0} % of the time, plain {:.0} %; {} lines printed, with the plain player's code: {:.0} %, plain {:.0} %",
            load.bytes.len(),
            share(reads - start, ours),
            share(plain_reads - plain_start, plain),
            load.answers.len(),
            share(prints, ours),
            share(prints, plain),
        );
    }
    Ok(())
}

/// How the programs' time grows: nanoseconds a line.
fn grow(files: &Files, what: &str, load: Load) -> Result<(), Disagreement> {
    check(&load, files.agree(&load))?;
    let [ours, plain] = files.times(&load.bytes);
    let each = |time: f64| time * 1e9 / load.answers.len() as f64;
    println!(
        "{}, {what}: ratio {:.2}; {:.2} ns a line, plain {:.2}",
        load.name,
        ours / plain,
        each(ours),
        each(plain)
    );
    Ok(())
}

fn growth(files: &Files) -> Result<(), Disagreement> {
    println!("the same, by the number of steps");
    for wanted in [MILLION / 10, MILLION, 10 * MILLION] {
        let what = format!("{wanted} steps");
        grow(files, &what, mixed("small tuples", LARGEST, 5, 3, wanted))?;
        grow(
            files,
            &what,
            mixed("large tuples", LARGEST, 900, 12, wanted),
        )?;
        grow(files, &what, chains("long chains", LARGEST, 40, wanted))?;
    }
    println!("the same, by the box, a million steps");
    for size in BOXES {
        let what = format!("{size:?}");
        grow(files, &what, mixed("small tuples", size, 5, 3, MILLION))?;
        grow(files, &what, chains("chains", size, 40, MILLION))?;
    }
    Ok(())
}

/// The C interface on the calls of each load, and of runs of forty steps; and
/// what a call costs that is refused at once, which is hardly more than the
/// passing of its arguments.
fn c_interface() -> Result<(), Disagreement> {
    let each = |load: &Load, time: f64| time * 1e9 / load.answers.len() as f64;
    let times = |load: &Load, by: By| {
        let times = interface::times(load, by);
        times.ok_or(format!("{}, {by:?}: they do not agree", load.name))
    };
    let time = |load: &Load, by: By, what: &str| -> Result<(), Disagreement> {
        let [ours, plain] = times(load, by)?;
        println!(
            "{}, {what}: ratio {:.2}; {:.1} ns a request or step, plain {:.1}",
            load.name,
            ours / plain,
            each(load, ours),
            each(load, plain)
        );
        Ok(())
    };
    println!("the C interface and the plain player, {LARGEST:?}, a million steps");
    for load in loads::all(MILLION) {
        time(&load, By::SingleCalls, "by single calls")?;
    }
    let refused = loads::refused("refused requests", MILLION);
    time(&refused, By::SingleCalls, "by single calls")?;
    let not_open = loads::not_open("steps of no open box", MILLION);
    let [ours, _] = times(&not_open, By::SingleCalls)?;
    println!("{}: {:.1} ns a call", not_open.name, each(&not_open, ours));
    let loads = [
        mixed("small tuples", LARGEST, 5, 40, MILLION),
        mixed("large tuples", LARGEST, 900, 40, MILLION),
        chains("long chains", LARGEST, 40, MILLION),
    ];
    for load in loads {
        time(&load, By::Runs, "by runs of 40 steps")?;
    }
    Ok(())
}

fn main() -> ExitCode {
    if cfg!(debug_assertions) {
        println!("built without --release, its times would say nothing");
        return ExitCode::FAILURE;
    }
    let files = Files::new();
    let done = programs(&files)
        .and_then(|()| growth(&files))
        .and_then(|()| c_interface());
    match done {
        Ok(()) => ExitCode::SUCCESS,
        Err(what) => {
            println!("{what}");
            ExitCode::FAILURE
        }
    }
}
