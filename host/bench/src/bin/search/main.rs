//! The search for the dearest packs.
//!
//!     search SEED [MINUTES [PART]]       searches, and prints the table of families and the worst of each entry; with PART
//!                                        only the families that have it in their names
//!     search write FAMILY FILE [N ..]    writes a family's pack, with these parameters or those it begins with
//!     search count FAMILY [N ..]         its instructions
//!     search families                    the families and their parameters
//!     search one ENTRY FILE              calls one entry once, for counting
//!     search serve                       times packs that come on standard input; serve-counted counts them
//!
//! The same seed proposes the same changes. Which is kept is decided by time first, so two runs may end with other
//! parameters; those that are printed make the same pack again.

mod climb;
mod count;
mod families;
mod quick;

use families::{Ask, Family};

/// How long a search takes where nothing is said, about.
const MINUTES: usize = 4;

fn family_of(name: &str) -> Family {
    families::all().into_iter().find(|f| f.name == name).unwrap_or_else(|| panic!("no family {name}"))
}

/// The parameters as given, or those that the family begins with.
fn parameters_of(family: &Family, words: &[&str]) -> Vec<usize> {
    if words.is_empty() {
        return family.start();
    }
    words.iter().map(|w| w.parse().expect("a number")).collect()
}

fn pack_of(family: &Family, words: &[&str]) -> Vec<u8> {
    family.pack(&parameters_of(family, words)).expect("a pack that fits")
}

fn listed() {
    for family in families::all() {
        let parameters: Vec<String> = family
            .all_parameters()
            .iter()
            .map(|(name, least, most, start)| format!("{name} {start} ({least} to {most})"))
            .collect();
        println!("{}: {}", family.name, parameters.join(", "));
    }
}

fn main() {
    let words: Vec<String> = std::env::args().skip(1).collect();
    match words.iter().map(String::as_str).collect::<Vec<_>>()[..] {
        ["serve"] => quick::serve(quick::least),
        ["serve-counted"] => quick::serve(count::dumped),
        ["one", entry, file] => quick::one(entry, &std::fs::read(file).expect("a pack")),
        ["families"] => listed(),
        ["write", name, file, ref rest @ ..] => {
            std::fs::write(file, pack_of(&family_of(name), rest)).expect("a file");
        }
        ["count", name, ref rest @ ..] => {
            let pack = pack_of(&family_of(name), rest);
            let counted: Vec<String> = Ask::ENTRIES
                .iter()
                .chain(quick::program_path().exists().then_some(&Ask::Program))
                .map(|ask| format!("{} {}", ask.name(), count::counted(*ask, &pack)))
                .collect();
            println!("{} bytes; millions of instructions: {}", pack.len(), counted.join(", "));
        }
        [seed, ref rest @ ..] if seed.parse::<u64>().is_ok() && rest.len() <= 2 => {
            let minutes = rest.first().map_or(MINUTES, |m| m.parse().expect("minutes"));
            climb::search(seed.parse().expect("a seed"), minutes, rest.get(1).unwrap_or(&""));
        }
        _ => {
            eprintln!("search SEED [MINUTES [PART]] | write FAMILY FILE [N ..] | count FAMILY [N ..] | families");
            std::process::exit(2);
        }
    }
}
