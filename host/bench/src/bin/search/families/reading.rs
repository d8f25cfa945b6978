//! Packs that are dear to read: rows over lists that overlap, everything at its limit, rows without sense.

use super::{Ask, Family, NONE, family, numbers, plain};
use model::make::Maker;
use model::random::Random;

const AIMS: &[Ask] = &[Ask::Types];

pub fn families() -> Vec<Family> {
    vec![
        family("an empty pack", AIMS, NONE, |_| Maker::new()),
        read_only("blocks over one list", &[("blocks", 0, 4095, 4095), ("length", 0, 8170, 8100)], blocks),
        read_only(
            "rows of every kind over lists that overlap",
            &[
                ("types", 0, 1000, 900),
                ("definitions", 0, 512, 512),
                ("expressions", 0, 4095, 3800),
                ("roots", 0, 256, 256),
                ("length", 1, 1040, 250),
                ("period", 1, 2000, 256),
            ],
            every_kind,
        ),
        read_only(
            "matches over arms that overlap",
            &[("matches", 0, 4090, 3000), ("length", 0, 2040, 1000), ("slots", 0, 250, 100)],
            arms,
        ),
        read_only(
            "rows without sense",
            &[
                ("types", 0, 2048, 2048),
                ("definitions", 0, 512, 512),
                ("expressions", 0, 4096, 4096),
                ("values", 0, 1024, 1024),
                ("words", 0, 8184, 8184),
                ("seed", 0, 1000, 1),
            ],
            random,
        ),
    ]
}

const fn read_only(name: &'static str, parameters: &'static [super::Parameter], make: fn(&[usize]) -> Maker) -> Family {
    Family { name, aims: AIMS, parameters, make, read_only: true }
}

/// All blocks have one list of statements, which are all the first expression: 12, once all is read.
fn blocks(p: &[usize]) -> Maker {
    let [blocks, length] = numbers(p);
    let mut maker = Maker::new();
    let unit = maker.type_row(1, 0, 0);
    let list = maker.singles(&vec![0; length]);
    let mut last = maker.literal(7);
    for _ in 0..blocks {
        last = maker.expression(2, 0, list, 0, 0);
    }
    maker.root(last, unit, &[]);
    maker
}

/// Words in pairs, a count and a name that rises: a list of any kind can start at each count.
fn every_kind(p: &[usize]) -> Maker {
    let [types, definitions, expressions, roots, length, period] = numbers(p);
    let period = period.max(length);
    // The counts name a word: there a list of field types starts.
    let length = length & !1;
    let mut maker = Maker::new();
    for row in 0..=length.max(period) {
        plain(&mut maker, row);
    }
    for i in 0..4060 {
        maker.words.extend([length as u16, (i % period) as u16]);
    }
    let end = (maker.words.len() - 2 * length - 2) / 2;
    for k in 0..types {
        let kind = [5, 6, 10][k % 3];
        maker.type_row(kind, 0, 2 * (k % end));
    }
    for k in 0..definitions {
        maker.definition(k % 2, 0, 2 * (k % end));
    }
    for _ in 0..=length.max(period) {
        maker.literal(7);
    }
    for k in 0..expressions {
        let kind = [2, 6][k % 2];
        let list = 2 * (k % end);
        if kind == 2 {
            maker.expression(2, 0, list, 0, 0)
        } else {
            maker.expression(6, 0, 0, list, 0)
        };
    }
    for k in 0..roots {
        maker.roots.push((k as u64) << 50 | (2 * (k % end) as u64) << 22);
    }
    maker
}

/// Matches over lists of arms that overlap: every arm is the words (length, slots, 0, 0).
fn arms(p: &[usize]) -> Maker {
    let [matches, length, slots] = numbers(p);
    let mut maker = Maker::new();
    let unit = maker.type_row(1, 0, 0);
    let payload = maker.singles(&(0..slots).collect::<Vec<_>>());
    let start = maker.words.len();
    // An arm begins after its list's count, so the count is the last word of the arm before.
    let arms = (8150 - start) / 4;
    for _ in 0..arms {
        maker.words.extend([length as u16, 7, payload as u16 + 1, 0]);
    }
    let mut last = 0;
    for _ in 0..=length {
        last = maker.literal(7);
    }
    for k in 0..matches {
        last = maker.expression(4, 0, 0, start + 4 * (k % arms.saturating_sub(length).max(1)), 0);
    }
    maker.root(last, unit, &[]);
    maker
}

/// Random bytes after a header that fits.
fn random(p: &[usize]) -> Maker {
    let [types, definitions, expressions, values, words, seed] = numbers(p);
    let mut random = Random::new(seed as u64);
    let mut maker = Maker::new();
    maker.types = (0..types).map(|_| random.next() as u32).collect();
    maker.definitions = (0..definitions).map(|_| random.next() as u32).collect();
    maker.expressions = (0..expressions).map(|_| random.next()).collect();
    maker.values = (0..values).map(|_| random.next() as u32).collect();
    maker.words = (0..words).map(|_| random.next() as u16 & 0x1FFF).collect();
    maker
}
