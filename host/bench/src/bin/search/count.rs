//! Exact counts: callgrind, of the called function alone, or of the whole program.

use crate::families::Ask;
use crate::quick::{GIVE_UP, Quick, Server, Timer, call, program_path};
use std::fs::File;
use std::process::{Command, Stdio};

/// What takes longer than this, in microseconds, is not counted.
const TOO_LONG: f64 = 1e6;

/// How many millions of instructions a pack takes, or why that is not known.
#[derive(Clone, Debug, PartialEq)]
pub enum Counted {
    Millions(f64),
    /// Seconds that it took, of which no count was made.
    Over(f64),
    Crashed,
}

impl Counted {
    /// To order by.
    pub fn weight(&self) -> f64 {
        match self {
            Counted::Millions(n) => *n,
            Counted::Over(seconds) => 1e6 * seconds,
            Counted::Crashed => f64::MAX,
        }
    }
}

impl std::fmt::Display for Counted {
    fn fmt(&self, f: &mut std::fmt::Formatter<'_>) -> std::fmt::Result {
        match self {
            Counted::Millions(n) => write!(f, "{n:.2}"),
            Counted::Over(seconds) => write!(f, "over {seconds:.1} s"),
            Counted::Crashed => write!(f, "ended by its stack"),
        }
    }
}

fn scratch() -> String {
    format!("{}/search-{}.rpk", std::env::temp_dir().display(), std::process::id())
}

fn callgrind(arguments: &[&str], program: &str, of: &[&str], input: Stdio) -> Option<f64> {
    let mut command = Command::new("valgrind");
    command.args(["--tool=callgrind", "--callgrind-out-file=/dev/null"]).args(arguments).arg(program).args(of);
    let output = command.stdin(input).output().expect("valgrind runs");
    let said = String::from_utf8_lossy(&output.stderr).to_string();
    let number = said.lines().find_map(|line| line.split_once("Collected : "))?.1.trim().parse::<f64>().ok()?;
    Some(number / 1e6)
}

/// The instructions of one question, unless it takes too long.
pub fn counted(ask: Ask, pack: &[u8]) -> Counted {
    match Timer::new().time(ask, pack) {
        Quick::GivenUp => return Counted::Over(GIVE_UP as f64),
        Quick::Crashed => return Counted::Crashed,
        Quick::Took(took) | Quick::Malformed(took) if took > TOO_LONG => return Counted::Over(took / 1e6),
        _ => {}
    }
    let file = scratch();
    std::fs::write(&file, pack).expect("a file");
    let this = std::env::current_exe().expect("this program");
    let millions = if ask == Ask::Program {
        let input = Stdio::from(File::open(&file).expect("a file"));
        callgrind(&[], &program_path().to_string_lossy(), &[], input)
    } else {
        let function = format!("--toggle-collect=rulepack_{}", ask.name());
        callgrind(&[&function], &this.to_string_lossy(), &["one", ask.name(), &file], Stdio::null())
    };
    std::fs::remove_file(&file).ok();
    millions.map_or(Counted::Crashed, Counted::Millions)
}

/// Asks callgrind to write what it has counted, and to begin anew. Outside valgrind nothing happens.
#[cfg(target_arch = "x86_64")]
fn dump() {
    const DUMP_STATS: u64 = 0x4354_0000;
    let arguments: [u64; 6] = [DUMP_STATS, 0, 0, 0, 0, 0];
    // SAFETY: the rotations add up to none, and a register is exchanged with itself; valgrind reads the arguments.
    unsafe {
        std::arch::asm!(
            "rol rdi, 3",
            "rol rdi, 13",
            "rol rdi, 61",
            "rol rdi, 51",
            "xchg rbx, rbx",
            in("rax") arguments.as_ptr(),
            inout("rdx") 0u64 => _,
        );
    }
}

#[cfg(not(target_arch = "x86_64"))]
fn dump() {}

/// One call, and its count written by callgrind.
pub fn dumped(entry: &str, pack: &[u8], area: &mut [u8]) -> (f64, u32) {
    let number = call(entry, pack, area);
    dump();
    (0.0, number)
}

/// How long a count may take, in seconds.
const PATIENCE: u64 = 30;

/// A process under callgrind that counts one pack after the other.
pub struct Counter {
    server: Server,
    out: String,
    dumps: usize,
}

impl Counter {
    pub fn new() -> Self {
        let out = format!("{}/search-{}.out", std::env::temp_dir().display(), std::process::id());
        let mut command = Command::new("valgrind");
        command.args(["--tool=callgrind", &format!("--callgrind-out-file={out}")]);
        command.args(Ask::ENTRIES.map(|ask| format!("--toggle-collect=rulepack_{}", ask.name())));
        command.arg(std::env::current_exe().expect("this program")).arg("serve-counted");
        Counter { server: Server::started(command), out, dumps: 0 }
    }

    /// Millions of instructions, and the refusal's number.
    pub fn count(&mut self, ask: Ask, pack: &[u8]) -> Option<(f64, u32)> {
        let (_, number) = self.server.asked(ask, pack, PATIENCE)?;
        self.dumps += 1;
        let file = format!("{}.{}", self.out, self.dumps);
        let text = std::fs::read_to_string(&file).ok()?;
        std::fs::remove_file(&file).ok();
        let total = text.lines().find_map(|line| line.strip_prefix("totals: "))?;
        Some((total.trim().parse::<f64>().ok()? / 1e6, number))
    }
}

impl Drop for Counter {
    fn drop(&mut self) {
        std::fs::remove_file(&self.out).ok();
    }
}
