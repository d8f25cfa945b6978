//! Making packs row by row.

use crate::pack::UNDERSCORE;

/// The rows of a pack under construction. Nothing is tested here: a number too large for its field is cut.
#[derive(Clone, Debug, Default)]
pub struct Maker {
    pub types: Vec<u32>,
    pub definitions: Vec<u32>,
    pub expressions: Vec<u64>,
    pub roots: Vec<u64>,
    pub values: Vec<u32>,
    pub words: Vec<u16>,
}

/// The operators' numbers.
pub mod op {
    pub const AND: usize = 0;
    pub const OR: usize = 1;
    pub const LT: usize = 2;
    pub const GE: usize = 5;
    pub const EQ: usize = 6;
    pub const NE: usize = 7;
    pub const ADD: usize = 8;
    pub const SUB: usize = 9;
    pub const MUL: usize = 10;
    pub const DIV: usize = 11;
    pub const MOD: usize = 12;
    pub const EXP: usize = 13;
}

/// Fields of these widths, most significant first.
fn packed<const N: usize>(fields: [(usize, u32); N]) -> u64 {
    fields.iter().fold(0, |row, (value, width)| row << width | (*value as u64 & ((1 << width) - 1)))
}

/// What an arm of a match matches.
#[derive(Clone, Debug)]
pub enum Pattern {
    Underscore,
    /// A variant's name, and the start of its slot list if there is one.
    Variant(usize, Option<usize>),
}

impl Maker {
    pub fn new() -> Self {
        Self::default()
    }

    /// A list of `count` items; its start.
    pub fn list(&mut self, count: usize, words: &[usize]) -> usize {
        let start = self.words.len();
        self.words.push(count as u16);
        self.words.extend(words.iter().map(|w| *w as u16));
        start
    }

    pub fn singles(&mut self, items: &[usize]) -> usize {
        self.list(items.len(), items)
    }

    pub fn pairs(&mut self, items: &[(usize, usize)]) -> usize {
        let words: Vec<usize> = items.iter().flat_map(|(a, b)| [*a, *b]).collect();
        self.list(items.len(), &words)
    }

    pub fn type_row(&mut self, kind: usize, a: usize, b: usize) -> usize {
        self.types.push(packed([(kind, 4), (a, 14), (b, 14)]) as u32);
        self.types.len() - 1
    }

    pub fn primitive(&mut self, n: usize) -> usize {
        self.type_row(2, n, 0)
    }

    pub fn definition(&mut self, kind: usize, parameters: usize, list: usize) -> usize {
        self.definitions.push(packed([(kind, 2), (parameters, 4), (0, 12), (list, 14)]) as u32);
        self.definitions.len() - 1
    }

    pub fn expression(&mut self, kind: usize, op: usize, a: usize, b: usize, c: usize) -> usize {
        self.expressions.push(packed([(kind, 6), (op, 6), (a, 14), (b, 14), (c, 14), (0, 10)]));
        self.expressions.len() - 1
    }

    pub fn literal(&mut self, op: usize) -> usize {
        self.expression(0, op, 0, 0, 0)
    }

    pub fn slot(&mut self, slot: usize) -> usize {
        self.expression(1, 0, slot, 0, 0)
    }

    pub fn block(&mut self, statements: &[usize], last: Option<usize>) -> usize {
        let list = self.singles(statements);
        self.expression(2, 0, list, last.map_or(0, |e| e + 1), 0)
    }

    pub fn let_statement(&mut self, slot: usize, value: usize, written: Option<usize>) -> usize {
        self.expression(3, 0, slot, value, written.map_or(0, |t| t + 1))
    }

    pub fn match_expr(&mut self, examinee: usize, arms: &[(Pattern, Option<usize>, usize)]) -> usize {
        let mut words = Vec::new();
        for (pattern, guard, body) in arms {
            let (variant, slots) = match pattern {
                Pattern::Underscore => (UNDERSCORE, 0),
                Pattern::Variant(name, slots) => (*name, slots.map_or(0, |s| s + 1)),
            };
            words.extend([variant, slots, guard.map_or(0, |e| e + 1), *body]);
        }
        let list = self.list(arms.len(), &words);
        self.expression(4, 0, examinee, list, 0)
    }

    pub fn operator(&mut self, op: usize, left: usize, right: usize) -> usize {
        self.expression(5, op, left, right, 0)
    }

    pub fn record(&mut self, definition: usize, fields: &[(usize, usize)]) -> usize {
        let list = self.pairs(fields);
        self.expression(6, 0, definition, list, 0)
    }

    pub fn field(&mut self, of: usize, name: usize) -> usize {
        self.expression(7, 0, of, name, 0)
    }

    pub fn returns(&mut self, value: Option<usize>) -> usize {
        self.expression(8, 0, value.map_or(0, |e| e + 1), 0, 0)
    }

    pub fn root(&mut self, body: usize, returns: usize, parameters: &[(usize, usize)]) -> usize {
        let list = self.pairs(parameters);
        self.roots.push(packed([(body, 14), (returns, 14), (list, 14), (0, 22)]));
        self.roots.len() - 1
    }

    pub fn value(&mut self, kind: usize, references: &[usize]) -> usize {
        let list = self.singles(references);
        self.values.push(packed([(kind, 2), (0, 16), (list, 14)]) as u32);
        self.values.len() - 1
    }

    pub fn bytes(&self) -> Vec<u8> {
        let counts = [
            self.types.len(),
            self.definitions.len(),
            self.expressions.len(),
            self.roots.len(),
            self.values.len(),
            self.words.len(),
        ];
        let mut bytes = b"RPK\x01".to_vec();
        bytes.extend(counts.iter().flat_map(|n| (*n as u16).to_be_bytes()));
        bytes.extend(self.types.iter().flat_map(|r| r.to_be_bytes()));
        bytes.extend(self.definitions.iter().flat_map(|r| r.to_be_bytes()));
        bytes.extend(self.expressions.iter().flat_map(|r| r.to_be_bytes()));
        bytes.extend(self.roots.iter().flat_map(|r| r.to_be_bytes()));
        bytes.extend(self.values.iter().flat_map(|r| r.to_be_bytes()));
        bytes.extend(self.words.iter().flat_map(|r| r.to_be_bytes()));
        bytes
    }
}
