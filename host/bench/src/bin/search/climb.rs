//! The search: each family's parameters are changed at random, and a change that makes the pack dearer is kept.

use crate::count::{Counted, Counter, counted};
use crate::families::{self, Ask, Family};
use crate::quick::{Quick, Timer, is_of_making, program_path};
use model::random::Random;
use std::collections::HashSet;

/// How many changes of each family a minute stands for. All families together then take about that long.
const CHANGES: usize = 40;

/// By how much a change has to be dearer to be kept: less is noise.
const DEARER: f64 = 1.005;

/// After how many changes in vain the search goes on from elsewhere.
const IN_VAIN: usize = 25;

/// One parameter at random: a little more or less, twice or half, the least, the most, or any.
fn changed(random: &mut Random, family: &Family, from: &[usize]) -> Vec<usize> {
    let all = family.all_parameters();
    let mut parameters = from.to_vec();
    for _ in 0..1 + random.below(3) {
        let which = random.below(parameters.len());
        let (_, least, most, _) = all[which];
        let value = parameters[which];
        let tenth = 1 + random.below(1 + value / 10);
        let new = match random.below(10) {
            0 => value + 1,
            1 => value.saturating_sub(1),
            2 => 2 * value,
            3 => value / 2,
            4 => least,
            5 => most,
            6 => least + random.below(most - least + 1),
            7 | 8 => value + tenth,
            _ => value.saturating_sub(tenth),
        };
        parameters[which] = new.clamp(least, most);
    }
    parameters
}

/// What was found of a family.
struct Found {
    parameters: Vec<usize>,
    /// To order by: microseconds, and more than any where the pack was given up or ended the process.
    weight: f64,
}

/// Measures one pack, or none where it does not fit or is not well-formed.
fn tried(timer: &mut Timer, family: &Family, ask: Ask, parameters: &[usize]) -> Option<Found> {
    let pack = family.pack(parameters)?;
    let weight = match timer.time(ask, &pack) {
        Quick::Took(took) => took,
        Quick::Malformed(took) if family.read_only => took,
        Quick::Malformed(_) => return None,
        Quick::GivenUp | Quick::Crashed => f64::INFINITY,
    };
    Some(Found { parameters: parameters.to_vec(), weight })
}

/// How often what seems dearer is timed again.
const AGAIN: usize = 2;

/// The same timed again, the least of all: what slowed the machine for a while does not count.
fn again(timer: &mut Timer, family: &Family, ask: Ask, mut found: Found) -> Found {
    for _ in 0..AGAIN {
        if let Some(once_more) = tried(timer, family, ask, &found.parameters) {
            found.weight = found.weight.min(once_more.weight);
        }
    }
    found
}

/// The dearest pack found of a family for one question.
fn climbed(timer: &mut Timer, family: &Family, ask: Ask, seed: u64, changes: usize) -> Found {
    let mut random = Random::new(seed);
    let first = tried(timer, family, ask, &family.start()).expect("the pack that a family begins with");
    let first = again(timer, family, ask, first);
    let (mut best, mut at) = (first, family.start());
    let mut at_weight = best.weight;
    let mut seen = HashSet::from([family.start()]);
    let mut vain = 0;
    for _ in 0..changes {
        // What is worse than any cannot be made worse.
        if best.weight.is_infinite() {
            break;
        }
        let parameters = changed(&mut random, family, &at);
        if !seen.insert(parameters.clone()) {
            continue;
        }
        let Some(mut found) = tried(timer, family, ask, &parameters) else { continue };
        vain += 1;
        if found.weight > at_weight * DEARER && found.weight.is_finite() {
            found = again(timer, family, ask, found);
        }
        if found.weight > at_weight * DEARER {
            (at, at_weight, vain) = (parameters, found.weight, 0);
        }
        if found.weight > best.weight * DEARER {
            best = found;
        } else if vain > IN_VAIN {
            (at, at_weight, vain) = (best.parameters.clone(), best.weight, 0);
        }
    }
    best
}

/// The exact counts of what was found.
struct Row {
    family: &'static str,
    told: String,
    bytes: usize,
    counts: Vec<(Ask, Counted)>,
}

/// How many changes a minute stands for once instructions are counted.
const COUNTED: usize = 15;

/// What takes longer than this, in microseconds, is past every limit, and its count is not made larger.
const LONG: f64 = 6_000.0;

/// Of what was found and what the family begins with, the one that counts more; time is not all.
fn dearest(family: &Family, ask: Ask, found: &Found) -> (Vec<usize>, Counted) {
    let count = |parameters: &[usize]| {
        let pack = family.pack(parameters).expect("a pack that fitted before");
        (parameters.to_vec(), counted(ask, &pack))
    };
    let (found, first) = (count(&found.parameters), count(&family.start()));
    if first.1.weight() > found.1.weight() { first } else { found }
}

/// The same, padded.
fn padded(parameters: &[usize]) -> Vec<usize> {
    let mut parameters = parameters.to_vec();
    *parameters.last_mut().expect("at least whether it is padded") = 1;
    parameters
}

/// Goes on from there by counts.
fn refined(
    counter: &mut Counter,
    family: &Family,
    ask: Ask,
    random: &mut Random,
    changes: usize,
    mut best: (Vec<usize>, f64),
) -> (Vec<usize>, f64) {
    let mut seen = HashSet::from([best.0.clone()]);
    for change in 0..changes {
        let parameters = if change == 0 { padded(&best.0) } else { changed(random, family, &best.0) };
        if !seen.insert(parameters.clone()) {
            continue;
        }
        let Some(pack) = family.pack(&parameters) else { continue };
        match counter.count(ask, &pack) {
            Some((millions, number)) if millions > best.1 && (family.read_only || !is_of_making(number)) => {
                best = (parameters, millions);
            }
            Some(_) => {}
            // It took too long, or ended: a new process goes on.
            None => *counter = Counter::new(),
        }
    }
    best
}

fn row(family: &Family, ask: Ask, parameters: &[usize], count: Counted) -> Row {
    let pack = family.pack(parameters).expect("a pack that fitted before");
    let others = Ask::ENTRIES.into_iter().filter(|other| *other != ask);
    let mut counts: Vec<(Ask, Counted)> = others.map(|other| (other, counted(other, &pack))).collect();
    counts.push((ask, count));
    Row { family: family.name, told: family.told(parameters), bytes: pack.len(), counts }
}

fn cell(row: &Row, ask: Ask) -> String {
    row.counts.iter().find(|(of, _)| *of == ask).map_or(String::new(), |(_, counted)| counted.to_string())
}

fn print(row: &Row) {
    let cells: Vec<String> =
        [Ask::Types, Ask::Root, Ask::Order, Ask::Program].iter().map(|ask| cell(row, *ask)).collect();
    println!("| {} | {} | {} | {} |", row.family, row.told, row.bytes, cells.join(" | "));
}

/// For each question the dearest of all packs that were counted.
fn print_worst(rows: &[Row]) {
    println!();
    println!("| asked | the dearest found | parameters | millions |");
    println!("|---|---|---|---|");
    for ask in [Ask::Types, Ask::Root, Ask::Order, Ask::Program] {
        let weight = |row: &Row| row.counts.iter().find(|(of, _)| *of == ask).map(|(_, counted)| counted.weight());
        let weighed = rows.iter().filter_map(|row| weight(row).map(|weight| (weight, row)));
        if let Some((_, worst)) = weighed.max_by(|a, b| a.0.total_cmp(&b.0)) {
            println!("| {} | {} | {} | {} |", ask.name(), worst.family, worst.told, cell(worst, ask));
        }
    }
}

/// Searches every family that has this part in its name for what it is meant to make dear, and prints what was found.
pub fn search(seed: u64, minutes: usize, part: &str) {
    let mut timer = Timer::new();
    let mut counter = Counter::new();
    let mut rows = Vec::new();
    println!("| family | parameters | bytes | types | root | order | program |");
    println!("|---|---|---|---|---|---|---|");
    let there = program_path().exists();
    if !there {
        eprintln!("{} is not there: `bin/check-pack` makes it; families for it are left out", program_path().display());
    }
    let all = families::all();
    for (number, family) in all.iter().enumerate().filter(|(_, family)| family.name.contains(part)) {
        for ask in family.aims.iter().filter(|ask| there || **ask != Ask::Program) {
            let seed = seed * 1000 + number as u64;
            let found = climbed(&mut timer, family, *ask, seed, CHANGES * minutes);
            let (mut parameters, mut count) = dearest(family, *ask, &found);
            if let Counted::Millions(millions) = count
                && *ask != Ask::Program
                && found.weight < LONG
            {
                let mut random = Random::new(seed);
                let from = (parameters, millions);
                let (to, millions) = refined(&mut counter, family, *ask, &mut random, COUNTED * minutes, from);
                (parameters, count) = (to, Counted::Millions(millions));
            }
            let row = row(family, *ask, &parameters, count);
            print(&row);
            rows.push(row);
        }
    }
    print_worst(&rows);
}
