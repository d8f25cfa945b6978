//! Differential runs: the library of proved functions, the plain reference, and the Rust's own text on the same inputs.
//!
//!     diff [--runs N] [--seed S] [--thin N] [--no-root] [--no-entries] [cells] [order] [types] [roots] [bytes] [limits]
//!
//!     diff record
//!
//! Without names all parts are run. The exit status is 1 where anything differs. The Rust's text is there if ROTO_SRC
//! named its folder when this was built; else its part is skipped, and the others are run.

mod cells;
mod guarded;
mod parts;
#[cfg(roto)]
mod record;
#[cfg(roto)]
mod roto;
mod tally;
#[cfg(roto)]
mod typechecker;

/// What to run.
pub struct Plan {
    pub runs: u64,
    pub seed: u64,
    /// Of the long tables of short inputs one in so many.
    pub thin: usize,
    /// Whether the proved entries are asked.
    pub entries: bool,
    pub root: bool,
}

fn main() {
    let mut plan = Plan { runs: 20_000, seed: 1, thin: 1, entries: true, root: true };
    let mut names = Vec::new();
    let mut words = std::env::args().skip(1);
    while let Some(word) = words.next() {
        let mut number = || words.next().and_then(|n| n.parse().ok()).expect("a number after the word");
        match word.as_str() {
            "--runs" => plan.runs = number(),
            "--seed" => plan.seed = number(),
            "--thin" => plan.thin = number() as usize,
            "--no-root" => plan.root = false,
            "--no-entries" => plan.entries = false,
            _ => names.push(word),
        }
    }
    if cfg!(roto) {
        #[cfg(roto)]
        roto::quiet();
    } else {
        println!("the Rust's text is skipped: ROTO_SRC named no folder with it when this was built");
    }
    if names == ["record"] {
        #[cfg(roto)]
        return record::record();
    }
    let all: [(&str, fn(&Plan) -> bool); 6] = [
        ("cells", parts::cells),
        ("order", parts::order),
        ("types", parts::types),
        ("roots", parts::roots),
        ("bytes", parts::bytes),
        ("limits", parts::limits),
    ];
    let unknown: Vec<_> = names.iter().filter(|name| !all.iter().any(|(n, _)| n == name)).collect();
    assert!(unknown.is_empty(), "no such part: {unknown:?}");
    let mut same = true;
    for (name, part) in all {
        if names.is_empty() || names.iter().any(|n| n == name) {
            same &= part(&plan);
        }
    }
    if !same {
        std::process::exit(1);
    }
}
