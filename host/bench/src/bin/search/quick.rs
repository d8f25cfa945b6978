//! A quick measure: the least time of a few calls, in another process, which is ended where it takes too long.

use crate::families::Ask;
use std::hint::black_box;
use std::io::{BufRead, BufReader, Read, Write};
use std::path::PathBuf;
use std::process::{Child, ChildStdin, Command, Stdio};
use std::sync::mpsc::{Receiver, channel};
use std::time::{Duration, Instant};

/// After how many seconds a pack is given up.
pub const GIVE_UP: u64 = 3;

/// The calls of which the least counts, and the seconds after which it is enough of them.
const CALLS: usize = 5;
const ENOUGH: f64 = 0.03;

/// A stack that is enough for any call.
const AMPLE: usize = 1 << 26;

/// Refusals up to this one are of how a pack is made.
const MADE: u32 = 15;

/// What a quick measure says.
#[derive(Clone, Copy, Debug, PartialEq)]
pub enum Quick {
    /// Microseconds.
    Took(f64),
    /// Not well-formed, so that nothing came after reading; microseconds.
    Malformed(f64),
    GivenUp,
    Crashed,
}

/// Calls one entry: the refusal's number, or 0.
pub fn call(entry: &str, pack: &[u8], area: &mut [u8]) -> u32 {
    let answer = match entry {
        "types" => rulepack::check_types(black_box(pack)),
        "root" => rulepack::check_root(black_box(pack), 0, area),
        _ => rulepack::order(black_box(pack), area),
    };
    answer.err().map_or(0, |r| r.number)
}

fn with_ample_stack(run: impl FnOnce() + Send + 'static) {
    std::thread::Builder::new().stack_size(AMPLE).spawn(run).expect("a thread").join().expect("an end");
}

/// Calls one entry once.
pub fn one(entry: &str, pack: &[u8]) {
    let (entry, pack) = (entry.to_string(), pack.to_vec());
    with_ample_stack(move || {
        println!("{}", call(&entry, &pack, &mut vec![0; 4 * 4096]));
    });
}

/// The least time of a few calls, in microseconds, and the refusal's number.
pub fn least(entry: &str, pack: &[u8], area: &mut [u8]) -> (f64, u32) {
    let begun = Instant::now();
    let (mut least, mut number) = (f64::MAX, 0);
    for _ in 0..CALLS {
        let from = Instant::now();
        number = call(entry, pack, area);
        least = least.min(from.elapsed().as_secs_f64() * 1e6);
        if begun.elapsed().as_secs_f64() > ENOUGH {
            break;
        }
    }
    (least, number)
}

/// Measures each pack on standard input: a line with the entry and the length, then the bytes.
pub fn serve(measure: fn(&str, &[u8], &mut [u8]) -> (f64, u32)) {
    with_ample_stack(move || {
        let mut input = std::io::stdin().lock();
        let mut area = vec![0; 4 * 4096];
        let mut line = String::new();
        while input.read_line(&mut line).expect("a line") > 0 {
            let (entry, length) = line.trim().split_once(' ').expect("an entry and a length");
            let mut pack = vec![0; length.parse().expect("a length")];
            input.read_exact(&mut pack).expect("a pack");
            let (took, number) = measure(entry, &pack, &mut area);
            println!("{took} {number}");
            line.clear();
        }
    });
}

/// A process that measures, with what it says.
pub struct Server {
    child: Child,
    input: ChildStdin,
    lines: Receiver<String>,
}

impl Server {
    /// One that times.
    fn of_times() -> Self {
        let mut command = Command::new(std::env::current_exe().expect("this program"));
        command.arg("serve");
        Self::started(command)
    }

    pub fn started(mut command: Command) -> Self {
        command.stdin(Stdio::piped()).stdout(Stdio::piped()).stderr(Stdio::null());
        let mut child = command.spawn().expect("this program runs");
        let (input, output) = (child.stdin.take().expect("a pipe"), child.stdout.take().expect("a pipe"));
        let (sender, lines) = channel();
        std::thread::spawn(move || {
            for line in BufReader::new(output).lines().map_while(Result::ok) {
                if sender.send(line).is_err() {
                    break;
                }
            }
        });
        Server { child, input, lines }
    }

    /// What it says of a pack: a figure, and the refusal's number. None where it said nothing in time.
    pub fn asked(&mut self, ask: Ask, pack: &[u8], seconds: u64) -> Option<(f64, u32)> {
        writeln!(self.input, "{} {}", ask.name(), pack.len()).ok()?;
        self.input.write_all(pack).and_then(|()| self.input.flush()).ok()?;
        let line = self.lines.recv_timeout(Duration::from_secs(seconds)).ok()?;
        let (figure, number) = line.split_once(' ').expect("a figure and a number");
        Some((figure.parse().expect("a figure"), number.parse().expect("a number")))
    }

    /// Whether it ended by itself; it is ended in any case.
    fn ended(&mut self) -> bool {
        let alone = self.child.try_wait().is_ok_and(|status| status.is_some());
        self.child.kill().ok();
        self.child.wait().ok();
        alone
    }
}

impl Drop for Server {
    fn drop(&mut self) {
        self.ended();
    }
}

/// Measures packs, with a new process where one has ended.
pub struct Timer {
    server: Option<Server>,
}

impl Timer {
    pub fn new() -> Self {
        Timer { server: None }
    }

    pub fn time(&mut self, ask: Ask, pack: &[u8]) -> Quick {
        if ask == Ask::Program {
            return program(pack);
        }
        match self.server.get_or_insert_with(Server::of_times).asked(ask, pack, GIVE_UP) {
            Some((took, number)) if is_of_making(number) => Quick::Malformed(took),
            Some((took, _)) => Quick::Took(took),
            None => {
                let crashed = self.server.take().is_some_and(|mut server| server.ended());
                if crashed { Quick::Crashed } else { Quick::GivenUp }
            }
        }
    }
}

/// Whether a refusal is of how a pack is made.
pub fn is_of_making(number: u32) -> bool {
    (1..=MADE).contains(&number)
}

/// The program that checks a whole pack: that which CHECK_PACK names, or the one of this checkout.
pub fn program_path() -> PathBuf {
    std::env::var_os("CHECK_PACK").map_or_else(
        || PathBuf::from(concat!(env!("CARGO_MANIFEST_DIR"), "/../../crates/check_pack/out/check_pack")),
        PathBuf::from,
    )
}

/// The least time of a few runs of the program.
fn program(pack: &[u8]) -> Quick {
    let begun = Instant::now();
    let (mut least, mut last) = (f64::MAX, String::new());
    for _ in 0..CALLS {
        let from = Instant::now();
        let mut command = Command::new(program_path());
        command.stdin(Stdio::piped()).stdout(Stdio::piped()).stderr(Stdio::null());
        let Ok(mut child) = command.spawn() else { return Quick::Crashed };
        // A program that has ended reads no more.
        child.stdin.take().expect("a pipe").write_all(pack).ok();
        while child.try_wait().is_ok_and(|status| status.is_none()) {
            if from.elapsed().as_secs() >= GIVE_UP {
                child.kill().ok();
                child.wait().ok();
                return Quick::GivenUp;
            }
            std::thread::sleep(Duration::from_micros(100));
        }
        let output = child.wait_with_output().expect("an end");
        if !output.status.success() {
            return Quick::Crashed;
        }
        least = least.min(from.elapsed().as_secs_f64() * 1e6);
        last = String::from_utf8_lossy(&output.stdout).to_string();
        if begun.elapsed().as_secs_f64() > 3.0 * ENOUGH {
            break;
        }
    }
    let number = last.strip_prefix("refused ").and_then(|rest| rest.split(' ').next()?.parse::<u32>().ok());
    if number.is_some_and(|n| n <= MADE) { Quick::Malformed(least) } else { Quick::Took(least) }
}
