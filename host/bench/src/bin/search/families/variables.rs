//! Variables, blocks, operators and nesting.

use super::{Ask, Family, family, numbers};
use model::make::{Maker, Pattern, op};

const AIMS: &[Ask] = &[Ask::Root];

pub fn families() -> Vec<Family> {
    vec![
        family(
            "numbers joined in a chain by arms",
            AIMS,
            &[("arms", 1, 2044, 1900), ("uses", 0, 2000, 60)],
            joined_by_arms,
        ),
        family(
            "numbers joined by operators",
            AIMS,
            &[("times", 1, 2000, 680), ("op", 0, 13, 6), ("turned", 0, 1, 0), ("uses", 0, 2000, 0)],
            joined_by_operators,
        ),
        family(
            "lets in a chain",
            AIMS,
            &[("lets", 1, 256, 256), ("times", 0, 800, 400), ("which", 0, 2, 0)],
            joined_by_lets,
        ),
        family(
            "statements",
            AIMS,
            &[("statements", 0, 4000, 2047), ("literal", 0, 17, 7), ("unused", 0, 6000, 0)],
            statements,
        ),
        family("a tree of conjunctions", AIMS, &[("leaves", 1, 2048, 2048)], conjunctions),
        family("nesting", AIMS, &[("kind", 0, 8, 0), ("deep", 1, 62, 60), ("times", 1, 500, 20)], nesting),
        family(
            "blocks of lets",
            AIMS,
            &[("blocks", 1, 1000, 60), ("lets", 0, 256, 4), ("statements", 0, 1000, 20)],
            blocks,
        ),
    ]
}

const UNIT: usize = 0;
const BOOL: usize = 1;
const ENUM: usize = 2;
const RECORD: usize = 3;

/// Unit, bool, an enum of one variant, and a record with a field of its own type.
fn begun() -> Maker {
    let mut maker = Maker::new();
    let none = maker.singles(&[]);
    maker.type_row(1, 0, 0);
    maker.primitive(4);
    maker.type_row(4, 0, none);
    maker.type_row(4, 1, none);
    let variants = maker.pairs(&[(0, none)]);
    maker.definition(0, 0, variants);
    let fields = maker.pairs(&[(0, RECORD)]);
    maker.definition(1, 0, fields);
    maker
}

/// A root of these statements; slot 0 has the enum, slot 1 the record.
fn finished(mut maker: Maker, statements: &[usize]) -> Maker {
    let body = maker.block(statements, None);
    maker.root(body, UNIT, &[(0, ENUM), (1, RECORD)]);
    maker
}

/// `let s = 1;`, a match whose arms join one number after the other to it, and uses of s.
fn joined_by_arms(p: &[usize]) -> Maker {
    let [arms, uses] = numbers(p);
    let mut maker = begun();
    let one = maker.literal(5);
    let mut all = vec![maker.let_statement(2, one, None)];
    let examinee = maker.slot(0);
    let mut list = vec![(Pattern::Variant(0, None), None, maker.slot(2))];
    for _ in 0..arms {
        list.push((Pattern::Variant(0, None), None, maker.literal(5)));
    }
    all.push(maker.match_expr(examinee, &list));
    all.extend((0..uses).map(|_| maker.slot(2)).collect::<Vec<_>>());
    finished(maker, &all)
}

/// `let s = 1;`, then `s == 1` and so on, or turned round, and uses of s.
fn joined_by_operators(p: &[usize]) -> Maker {
    let [times, operator, turned, uses] = numbers(p);
    let mut maker = begun();
    let one = maker.literal(5);
    let mut all = vec![maker.let_statement(2, one, None)];
    for _ in 0..times {
        let (slot, number) = (maker.slot(2), maker.literal(5));
        let (left, right) = if turned == 1 { (number, slot) } else { (slot, number) };
        all.push(maker.operator(operator, left, right));
    }
    all.extend((0..uses).map(|_| maker.slot(2)).collect::<Vec<_>>());
    finished(maker, &all)
}

/// `let s = 1; let t = s; ..`, then comparisons of the first, the last, or one after the other with a number.
fn joined_by_lets(p: &[usize]) -> Maker {
    let [lets, times, which] = numbers(p);
    let lets = lets.min(254);
    let mut maker = begun();
    let mut all = Vec::new();
    for k in 0..lets {
        let value = if k == 0 { maker.literal(5) } else { maker.slot(1 + k) };
        all.push(maker.let_statement(2 + k, value, None));
    }
    for k in 0..times {
        let slot = match which {
            0 => 2,
            1 => 1 + lets,
            _ => 2 + k % lets,
        };
        let (left, right) = (maker.slot(slot), maker.literal(5));
        all.push(maker.operator(op::EQ, left, right));
    }
    finished(maker, &all)
}

/// Literals as statements, and words that no list has.
fn statements(p: &[usize]) -> Maker {
    let [statements, literal, unused] = numbers(p);
    let mut maker = begun();
    let all: Vec<usize> = (0..statements).map(|_| maker.literal(literal)).collect();
    maker.words.extend(vec![u16::MAX; unused]);
    finished(maker, &all)
}

fn conjunctions(p: &[usize]) -> Maker {
    let [leaves] = numbers(p);
    let mut maker = begun();
    let mut level: Vec<usize> = (0..leaves).map(|_| maker.literal(4)).collect();
    while level.len() > 1 {
        let pairs: Vec<Vec<usize>> = level.chunks(2).map(<[usize]>::to_vec).collect();
        level = pairs
            .iter()
            .map(|two| if let [left, right] = two[..] { maker.operator(op::AND, left, right) } else { two[0] })
            .collect();
    }
    maker.root(level[0], BOOL, &[]);
    maker
}

/// A node one level further in, by kind.
fn wrapped(maker: &mut Maker, kind: usize, inner: usize) -> usize {
    match kind {
        0 => maker.block(&[], Some(inner)),
        1 => maker.block(&[inner], None),
        2 => {
            let examinee = maker.slot(0);
            maker.match_expr(examinee, &[(Pattern::Variant(0, None), None, inner)])
        }
        3 => {
            let (examinee, body) = (maker.slot(0), maker.literal(7));
            maker.match_expr(examinee, &[(Pattern::Variant(0, None), None, inner), (Pattern::Underscore, None, body)])
        }
        4 => maker.record(1, &[(0, inner)]),
        5 => maker.field(inner, 0),
        6 => {
            let right = maker.literal(5);
            maker.operator(op::ADD, inner, right)
        }
        7 => {
            let left = maker.literal(5);
            maker.operator(op::MUL, left, inner)
        }
        _ => maker.returns(Some(inner)),
    }
}

/// Statements: so many times a node so deep in one kind.
fn nesting(p: &[usize]) -> Maker {
    let [kind, deep, times] = numbers(p);
    let mut maker = begun();
    let mut all = Vec::new();
    for _ in 0..times {
        let mut node = match kind {
            4 | 5 => maker.slot(1),
            6 | 7 => maker.literal(5),
            _ => maker.literal(7),
        };
        for _ in 0..deep {
            node = wrapped(&mut maker, kind, node);
        }
        all.push(node);
    }
    finished(maker, &all)
}

/// Blocks as statements, the first with lets, all with statements.
fn blocks(p: &[usize]) -> Maker {
    let [blocks, lets, statements] = numbers(p);
    let mut maker = begun();
    let mut slot = 2;
    let mut all = Vec::new();
    for _ in 0..blocks {
        let mut inner = Vec::new();
        for _ in 0..lets.min(256 - slot) {
            let value = maker.literal(7);
            inner.push(maker.let_statement(slot, value, Some(UNIT)));
            slot += 1;
        }
        inner.extend((0..statements).map(|_| maker.literal(7)).collect::<Vec<_>>());
        all.push(maker.block(&inner, None));
    }
    finished(maker, &all)
}
