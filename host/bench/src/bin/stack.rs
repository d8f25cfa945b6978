//! The smallest stack in which each entry, and the program, answers the deepest packs.
//!
//!     stack                    a table in KiB, and the most of each
//!     stack one ENTRY FILE     calls one entry
//!
//! Each run is a process of its own that does nothing else and whose stack is limited, so that what goes past it ends it.

use std::path::PathBuf;
use std::process::{Command, Stdio};

/// What is asked. The last is the program, which asks all the others.
const ASKED: [&str; 4] = ["types", "root", "order", "program"];

/// The figures are exact to so many KiB.
const EXACT: usize = 8;

/// The most that is tried.
const MOST: usize = 8192;

/// The program that checks a whole pack: that which CHECK_PACK names, or the one of this checkout.
fn program() -> PathBuf {
    std::env::var_os("CHECK_PACK").map_or_else(
        || PathBuf::from(concat!(env!("CARGO_MANIFEST_DIR"), "/../../crates/check_pack/out/check_pack")),
        PathBuf::from,
    )
}

fn one(entry: &str, file: &str) {
    let pack = std::fs::read(file).expect("a pack");
    let mut area = vec![0; 4 * 4096];
    let answer = match entry {
        "types" => rulepack::check_types(&pack),
        "root" => rulepack::check_root(&pack, 0, &mut area),
        _ => rulepack::order(&pack, &mut area),
    };
    println!("{}", answer.err().map_or(0, |r| r.number));
}

/// Whether so many KiB are enough.
fn enough(asked: &str, file: &str, kib: usize) -> bool {
    let this = std::env::current_exe().expect("this program");
    let mut command = Command::new("sh");
    if asked == "program" {
        command.args(["-c", &format!("ulimit -s {kib} && exec \"$0\" <\"$1\"")]).arg(program()).arg(file);
    } else {
        command.args(["-c", &format!("ulimit -s {kib} && exec \"$@\"")]).arg("sh");
        command.arg(this).args(["one", asked, file]);
    }
    command.env_clear().stdin(Stdio::null()).stdout(Stdio::null()).stderr(Stdio::null());
    command.status().expect("a shell").success()
}

/// The smallest that is, or none where the most is not.
fn smallest(asked: &str, file: &str) -> Option<usize> {
    let (mut low, mut high) = (0, MOST / EXACT);
    if !enough(asked, file, MOST) {
        return None;
    }
    while high - low > 1 {
        let mid = (low + high) / 2;
        if enough(asked, file, mid * EXACT) { high = mid } else { low = mid }
    }
    Some(high * EXACT)
}

fn told(kib: Option<usize>) -> String {
    kib.map_or(format!("over {MOST}"), |kib| kib.to_string())
}

/// Where the program is not there, its column is left out.
fn asked() -> &'static [&'static str] {
    if program().exists() { &ASKED } else { &ASKED[..3] }
}

fn table() {
    let asked = asked();
    let file = format!("{}/stack-{}.rpk", std::env::temp_dir().display(), std::process::id());
    let mut worst: Vec<(usize, &str)> = vec![(0, ""); asked.len()];
    println!("| pack | bytes | {} |", asked.join(" | "));
    println!("|---|---|{}", "---|".repeat(asked.len()));
    let mut packs = model::deepest::packs();
    packs.insert(0, ("61 records nested", model::deepest::nested_records(61).bytes()));
    for (name, pack) in packs {
        std::fs::write(&file, &pack).expect("a file");
        let found: Vec<Option<usize>> = asked.iter().map(|asked| smallest(asked, &file)).collect();
        for (most, kib) in worst.iter_mut().zip(&found) {
            let kib = kib.unwrap_or(MOST + 1);
            if kib > most.0 {
                *most = (kib, name);
            }
        }
        let cells: Vec<String> = found.into_iter().map(told).collect();
        println!("| {name} | {} | {} |", pack.len(), cells.join(" | "));
    }
    std::fs::remove_file(&file).ok();
    println!();
    println!("| asked | the pack that needs most | KiB |");
    println!("|---|---|---|");
    for (asked, (kib, name)) in asked.iter().zip(worst) {
        println!("| {asked} | {name} | {} |", told((kib <= MOST).then_some(kib)));
    }
}

fn main() {
    let words: Vec<String> = std::env::args().skip(1).collect();
    match words.iter().map(String::as_str).collect::<Vec<_>>()[..] {
        [] => table(),
        ["one", entry, file] => one(entry, file),
        _ => {
            eprintln!("stack");
            std::process::exit(2);
        }
    }
}
