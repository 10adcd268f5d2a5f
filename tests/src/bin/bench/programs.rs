//! The program `play` and the plain player's program on the same records.

use std::fs::{self, File};
use std::path::{Path, PathBuf};
use std::process::{Command, Stdio};
use std::time::Duration;

use gloamish_tests::playback::{program, text};

use crate::loads::Load;

/// How often each program plays a record; the least time counts.
const TURNS: u32 = 15;

/// The part of the C library's `struct rusage` that is read here, and the rest.
#[repr(C)]
struct Usage {
    user: [i64; 2],
    system: [i64; 2],
    rest: [i64; 14],
}

extern "C" {
    fn getrusage(who: i32, usage: *mut Usage) -> i32;
}

/// The processor time of all programs that were waited for.
fn children() -> Duration {
    const CHILDREN: i32 = -1;
    let mut usage = Usage {
        user: [0; 2],
        system: [0; 2],
        rest: [0; 14],
    };
    // The structure is as large as the C library's on Linux with 64 bits.
    let failed = unsafe { getrusage(CHILDREN, &mut usage) };
    assert_eq!(failed, 0);
    let time = |[seconds, micros]: [i64; 2]| {
        Duration::from_secs(seconds as u64) + Duration::from_micros(micros as u64)
    };
    time(usage.user) + time(usage.system)
}

/// The two programs, a record in a file, and what is printed of it.
pub struct Files {
    programs: [PathBuf; 2],
    record: PathBuf,
    printed: PathBuf,
}

impl Files {
    pub fn new() -> Files {
        let folder = std::env::temp_dir();
        let name =
            |what: &str| folder.join(format!("gloamish-bench-{}.{what}", std::process::id()));
        Files {
            programs: [program(), plain_program()],
            record: name("record"),
            printed: name("lines"),
        }
    }

    fn run(&self, program: &Path, out: Stdio) {
        let mut command = Command::new(program);
        command.stdin(File::open(&self.record).unwrap()).stdout(out);
        let status = command.status().unwrap();
        assert!(
            status.success(),
            "{} ended with {status}",
            program.display()
        );
    }

    fn printed(&self, program: &Path) -> Vec<u8> {
        let out = File::create(&self.printed).unwrap();
        self.run(program, out.into());
        fs::read(&self.printed).unwrap()
    }

    /// The processor time of a program, what it prints thrown away.
    fn time(&self, program: &Path) -> Duration {
        let before = children();
        self.run(program, Stdio::null());
        children() - before
    }

    /// The least times of both programs on a record, in seconds.
    pub fn times(&self, record: &[u8]) -> [f64; 2] {
        fs::write(&self.record, record).unwrap();
        let mut least = [Duration::MAX; 2];
        for _ in 0..TURNS {
            for (program, least) in self.programs.iter().zip(&mut least) {
                *least = self.time(program).min(*least);
            }
        }
        least.map(|time| time.as_secs_f64())
    }

    /// True if both programs print the answers of the second program.
    pub fn agree(&self, load: &Load) -> bool {
        fs::write(&self.record, &load.bytes).unwrap();
        let lines = text(&load.answers).into_bytes();
        let same = |program: &PathBuf| self.printed(program) == lines;
        self.programs.iter().all(same)
    }
}

impl Drop for Files {
    fn drop(&mut self) {
        // A file that is left over does no harm.
        let _ = fs::remove_file(&self.record);
        let _ = fs::remove_file(&self.printed);
    }
}

/// The plain player's program, which stands beside this one. `cargo run` builds
/// one program only, so it is built here, and is never an old one.
fn plain_program() -> PathBuf {
    let cargo = std::env::var_os("CARGO").unwrap_or("cargo".into());
    let mut build = Command::new(cargo);
    build
        .args(["build", "--quiet", "--release", "--offline"])
        .args(["--bin", "plain_play"])
        .current_dir(env!("CARGO_MANIFEST_DIR"));
    assert!(build.status().unwrap().success(), "plain_play is not built");
    let here = std::env::current_exe().unwrap();
    here.with_file_name("plain_play")
}
