//! A sample of the Rust's answers as text for the program `replay`: `diff record > crates/replay/stdin`.
//!
//! Many packs are made, small ones first; one is taken if it shows something that fewer than two before it have
//! shown: a refusal at a kind of node or operator, a node kind with a call or that diverges, a kind of value.

use crate::roto;
use model::exhaustive;
use model::generate::{self, Rowing, Style};
use model::make::Maker;
use model::random::Random;
use model::{Answer, Pack, Refusal};
use std::collections::HashMap;

struct Case {
    entry: u8,
    root: u8,
    refusal: Option<Refusal>,
    room: usize,
    pack: Vec<u8>,
    /// Places in units of 2 bytes, and the bytes there.
    writes: Vec<(usize, u16)>,
    shows: Vec<String>,
}

const ENTRIES: [&str; 3] = ["types", "root", "order"];
const EACH: usize = 2;

impl Case {
    fn new<T>(entry: u8, root: u8, room: usize, pack: &[u8], answer: &Answer<T>) -> Case {
        let refusal = answer.as_ref().err().copied();
        Case { entry, root, refusal, room, pack: pack.to_vec(), writes: Vec::new(), shows: Vec::new() }
    }

    fn print(&self) {
        let r = self.refusal.unwrap_or(Refusal { number: 0, place: 0, detail: 0 });
        println!("# {} {}: {} {} {}", ENTRIES[self.entry as usize], self.root, r.number, r.place, r.detail);
        let mut bytes = vec![self.entry, self.root, r.number as u8];
        bytes.extend((r.place as u16).to_be_bytes());
        bytes.extend(&r.detail.to_be_bytes()[2..]);
        bytes.extend((self.room as u16).to_be_bytes());
        bytes.extend((self.pack.len() as u16).to_be_bytes());
        let mut rest = self.pack.clone();
        rest.extend((self.writes.len() as u16).to_be_bytes());
        for (at, value) in &self.writes {
            rest.extend((*at as u16).to_be_bytes());
            rest.extend(value.to_be_bytes());
        }
        for line in [bytes, rest] {
            println!("{}", line.iter().map(|b| format!("{b:02X}")).collect::<String>());
        }
    }
}

fn well_formed(bytes: &[u8]) -> Option<Pack<'_>> {
    let pack = Pack::read(bytes).ok()?;
    model::formed::formed(&pack).ok()?;
    Some(pack)
}

/// What kind of node an expression is, with its operator or literal.
fn kind(pack: &Pack, id: u32) -> String {
    if id as usize >= pack.counts.expressions {
        return String::new();
    }
    let row = pack.expression(id as usize);
    format!("{}.{}", row.kind, row.op)
}

fn root_case(bytes: &[u8], root: usize) -> Option<Case> {
    let pack = well_formed(bytes)?;
    if root >= pack.counts.roots {
        return None;
    }
    let answer = roto::root(&pack, root)?;
    let mut case = Case::new(1, root as u8, 4 * pack.counts.expressions, bytes, &answer);
    match &answer {
        // 34 and 35 of a root's parameters say nothing of the body that they name.
        Err(r) if matches!(r.number, 34 | 35) => {
            let kind = pack.expression(r.place as usize).kind;
            case.shows.push(format!("{} {}", r.number, if matches!(kind, 3 | 4 | 6 | 7) { kind } else { 0 }));
        }
        Err(r) => case.shows.push(format!("{} {} {}", r.number, kind(&pack, r.place), r.detail)),
        Ok(words) => {
            for (id, word) in words {
                case.writes.push((2 * id, (word >> 16) as u16));
                case.writes.push((2 * id + 1, *word as u16));
                case.shows.push(format!("{} {}", kind(&pack, *id as u32), word >> 26));
            }
        }
    }
    Some(case)
}

fn order_case(bytes: &[u8]) -> Option<Case> {
    let pack = well_formed(bytes)?;
    let answer = roto::order(&pack);
    let mut case = Case::new(2, 0, 2 * pack.counts.values, bytes, &answer);
    let number = case.refusal.map_or(0, |r| r.number);
    case.shows =
        (0..pack.counts.values).map(|v| format!("{number} {} of {}", pack.value(v).kind, pack.counts.values)).collect();
    if let Ok(listed) = answer {
        case.writes = listed.into_iter().enumerate().map(|(i, v)| (i, v as u16)).collect();
    }
    Some(case)
}

/// The text gives no place for a fault of types: that is the reference's. With both faults it may give either.
fn types_case(bytes: &[u8]) -> Option<Case> {
    let pack = well_formed(bytes)?;
    if matches!(model::types::faults(&pack), (Some(_), Some(_))) {
        return None;
    }
    let reference = model::types::detect_type_cycles(&pack);
    let text = roto::types(&pack)?;
    assert_eq!(text.err(), reference.err().map(|r| r.number), "text and reference");
    let mut case = Case::new(0, 0, 0, bytes, &reference);
    let number = text.err().unwrap_or(0);
    case.shows = (0..pack.counts.definitions)
        .map(|d| format!("{number} {} of {}", pack.definition(d).kind, pack.counts.definitions))
        .collect();
    Some(case)
}

pub fn record() {
    let mut cases = Vec::new();
    for seed in 0..100_000 {
        let mut random = Random::new(0x7265_6370 + seed);
        let style = Style {
            slips: *random.pick(&[0, 12, 25]),
            depth: 3 + random.below(4),
            nodes: 2 + random.below(10),
            roots: 1,
            rowing: if random.one_in(4) { Rowing::Mixed } else { Rowing::Clean },
        };
        let mut bytes = generate::roots(&mut random, style).bytes();
        if random.one_in(3) {
            generate::semantic(&mut random, &mut bytes);
        }
        cases.extend(root_case(&bytes, 0));
        if seed % 8 == 0 {
            cases.extend(types_case(&bytes));
        }
        let mut maker = Maker::new();
        let n = random.below(8);
        generate::values(&mut random, &mut maker, n);
        cases.extend(order_case(&maker.bytes()));
    }
    let mut nth = 0;
    exhaustive::operators(|bytes| {
        nth += 1;
        if nth % 61 == 0 {
            cases.extend(root_case(&bytes, 0));
        }
    });
    for variables in [2048, 2049] {
        cases.extend(root_case(&exhaustive::many_variables(variables, 7).bytes(), 0));
    }
    cases.sort_by_key(|case| (case.entry, case.pack.len()));
    let mut shown: HashMap<(u8, String), usize> = HashMap::new();
    println!(
        "# Answers of the Rust's own text (NLnetLabs/roto 6be908811d), recorded by `diff record`; see host/README.md."
    );
    println!("# src/main.rt has the layout of a case. A comment says what was asked, and number, place and detail.");
    let mut taken = 0;
    for case in &cases {
        let new = case.shows.iter().any(|s| shown.get(&(case.entry, s.clone())).is_none_or(|n| *n < EACH));
        if new {
            for s in &case.shows {
                *shown.entry((case.entry, s.clone())).or_default() += 1;
            }
            case.print();
            taken += 1;
        }
    }
    eprintln!("{taken} cases of {} made", cases.len());
}
