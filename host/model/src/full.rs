//! A pack with every count at its limit.

use crate::make::{Maker, Pattern, op};
use crate::random::Random;

const VALUES: usize = 1024;

/// The rows of a pack of 65,536 bytes with every count at its limit that all entries accept.
pub fn maker() -> Maker {
    let mut maker = Maker::new();
    let none = maker.singles(&[]);
    // Types: primitives, definitions, and records of two fields over the rows before.
    for p in [4, 0, 8, 9, 10, 11, 12, 13, 14, 15, 16, 17, 1, 2, 3, 5] {
        maker.primitive(p);
    }
    for d in 0..512 {
        maker.type_row(4, d, none);
    }
    let mut record = 0;
    while maker.types.len() < 2048 {
        if record % 6 == 0 {
            let list = maker.pairs(&[(0, record % 500), (1, 16)]);
            maker.type_row(5, 0, list);
        } else {
            maker.type_row(2, [4, 8, 11][record % 3], 0);
        }
        record += 1;
    }
    // Definitions: record d of one field that names d + 1, and enums.
    let fields: Vec<usize> = (0..4).map(|k| maker.pairs(&[(k, 5), (k + 1, 0)])).collect();
    let unit_variants = maker.pairs(&[(0, none), (1, none)]);
    for d in 0..512 {
        if d % 2 == 0 {
            maker.definition(1, 0, fields[d / 2 % 4]);
        } else {
            maker.definition(0, 0, unit_variants);
        }
    }
    // 256 roots of 16 nodes: { let s = 1 + 2; let t: i64 = s; (); match e { 0 => t, _ => t * t } < 3 }.
    let parameters = maker.pairs(&[(0, 17)]);
    for _ in 0..256 {
        let (a, b) = (maker.literal(5), maker.literal(5));
        let sum = maker.operator(op::ADD, a, b);
        let s = maker.let_statement(2, sum, None);
        let use_s = maker.slot(2);
        let t = maker.let_statement(3, use_s, Some(5));
        let examinee = maker.slot(0);
        let (first, left, right) = (maker.slot(3), maker.slot(3), maker.slot(3));
        let product = maker.operator(op::MUL, left, right);
        let arms = [(Pattern::Variant(0, None), None, first), (Pattern::Underscore, None, product)];
        let matched = maker.match_expr(examinee, &arms);
        let three = maker.literal(11);
        let less = maker.operator(op::LT, matched, three);
        let unit = maker.literal(7);
        let block = maker.block(&[s, t, unit], Some(less));
        maker.roots.push((block as u64) << 50 | (parameters as u64) << 22);
    }
    assert_eq!(maker.expressions.len(), 4096, "256 roots of 16 nodes");
    let mut random = Random::new(3);
    for v in 0..VALUES {
        let room = 8184usize.saturating_sub(maker.words.len() + (VALUES - v)) / (VALUES - v);
        let mut references: Vec<usize> = (0..room.min(3)).map(|_| random.below(v.max(1))).collect();
        references.retain(|w| *w < v);
        references.sort_unstable();
        references.dedup();
        let kind = if v % 2 == 0 { 0 } else { 1 };
        maker.value(kind, &references);
    }
    assert!(maker.words.len() <= 8184, "{} words", maker.words.len());
    maker.words.resize(8184, 0);
    maker
}

/// Its bytes.
pub fn full() -> Vec<u8> {
    let bytes = maker().bytes();
    assert_eq!(bytes.len(), 65536);
    bytes
}
