//! The rule pack: header and rows, as bits.

use crate::{Answer, refuse};

#[derive(Clone, Copy, Debug, Default, PartialEq, Eq)]
pub struct Counts {
    pub types: usize,
    pub definitions: usize,
    pub expressions: usize,
    pub roots: usize,
    pub values: usize,
    pub words: usize,
}

impl Counts {
    pub const LIMITS: [usize; 6] = [2048, 512, 4096, 256, 1024, 8184];

    pub fn all(&self) -> [usize; 6] {
        [self.types, self.definitions, self.expressions, self.roots, self.values, self.words]
    }

    pub fn length(&self) -> usize {
        16 + 4 * self.types
            + 4 * self.definitions
            + 8 * self.expressions
            + 8 * self.roots
            + 4 * self.values
            + 2 * self.words
    }
}

#[derive(Clone, Copy, Debug)]
pub struct TypeRow {
    pub kind: usize,
    pub a: usize,
    pub b: usize,
}

#[derive(Clone, Copy, Debug)]
pub struct DefinitionRow {
    pub kind: usize,
    pub parameters: usize,
    pub zero: usize,
    pub list: usize,
}

#[derive(Clone, Copy, Debug)]
pub struct ExpressionRow {
    pub kind: usize,
    pub op: usize,
    pub a: usize,
    pub b: usize,
    pub c: usize,
    pub zero: usize,
}

#[derive(Clone, Copy, Debug)]
pub struct RootRow {
    pub body: usize,
    pub returns: usize,
    pub list: usize,
    pub zero: usize,
}

#[derive(Clone, Copy, Debug)]
pub struct ValueRow {
    pub kind: usize,
    pub zero: usize,
    pub list: usize,
}

/// An arm of a match, as its four words.
#[derive(Clone, Copy, Debug)]
pub struct Arm {
    pub variant: usize,
    pub slots: usize,
    pub guard: usize,
    pub body: usize,
}

/// The name that stands for `_` in an arm.
pub const UNDERSCORE: usize = 16383;

/// A pack past its header: counts within their limits and an exact length.
#[derive(Clone, Copy, Debug)]
pub struct Pack<'a> {
    pub bytes: &'a [u8],
    pub counts: Counts,
}

fn big_endian(bytes: &[u8]) -> u64 {
    bytes.iter().fold(0, |n, b| n << 8 | u64::from(*b))
}

/// The bits of a row of `size` bits, fields from the most significant on.
fn fields<const N: usize>(row: u64, size: u32, widths: [u32; N]) -> [usize; N] {
    let mut left = size;
    widths.map(|w| {
        left -= w;
        (row >> left & ((1 << w) - 1)) as usize
    })
}

impl<'a> Pack<'a> {
    /// Refusals 1 to 4.
    pub fn read(bytes: &'a [u8]) -> Answer<Pack<'a>> {
        if bytes.len() < 16 {
            return refuse(1, 0);
        }
        if &bytes[0..3] != b"RPK" || bytes[3] != 1 {
            return refuse(2, 0);
        }
        let count = |i: usize| big_endian(&bytes[4 + 2 * i..6 + 2 * i]) as usize;
        let counts = Counts {
            types: count(0),
            definitions: count(1),
            expressions: count(2),
            roots: count(3),
            values: count(4),
            words: count(5),
        };
        if counts.all().iter().zip(Counts::LIMITS).any(|(n, limit)| *n > limit) {
            return refuse(3, 0);
        }
        if bytes.len() != counts.length() {
            return refuse(4, 0);
        }
        Ok(Pack { bytes, counts })
    }

    fn start(&self, table: usize) -> usize {
        let sizes = [4, 4, 8, 8, 4, 2];
        16 + (0..table).map(|t| sizes[t] * self.counts.all()[t]).sum::<usize>()
    }

    fn row(&self, table: usize, size: usize, id: usize) -> u64 {
        let at = self.start(table) + size * id;
        big_endian(&self.bytes[at..at + size])
    }

    pub fn type_row(&self, id: usize) -> TypeRow {
        let [kind, a, b] = fields(self.row(0, 4, id), 32, [4, 14, 14]);
        TypeRow { kind, a, b }
    }

    pub fn definition(&self, id: usize) -> DefinitionRow {
        let [kind, parameters, zero, list] = fields(self.row(1, 4, id), 32, [2, 4, 12, 14]);
        DefinitionRow { kind, parameters, zero, list }
    }

    pub fn expression(&self, id: usize) -> ExpressionRow {
        let [kind, op, a, b, c, zero] = fields(self.row(2, 8, id), 64, [6, 6, 14, 14, 14, 10]);
        ExpressionRow { kind, op, a, b, c, zero }
    }

    pub fn root(&self, id: usize) -> RootRow {
        let [body, returns, list, zero] = fields(self.row(3, 8, id), 64, [14, 14, 14, 22]);
        RootRow { body, returns, list, zero }
    }

    pub fn value(&self, id: usize) -> ValueRow {
        let [kind, zero, list] = fields(self.row(4, 4, id), 32, [2, 16, 14]);
        ValueRow { kind, zero, list }
    }

    /// The items of the list at `start`, `width` words each, or `None` where it does not lie in the words.
    pub fn list<const W: usize>(&self, start: usize) -> Option<Vec<[usize; W]>> {
        let words = self.counts.words;
        if start >= words {
            return None;
        }
        let count = self.row(5, 2, start) as usize;
        if start + 1 + count * W > words {
            return None;
        }
        Some((0..count).map(|i| std::array::from_fn(|k| self.row(5, 2, start + 1 + i * W + k) as usize)).collect())
    }

    /// The same of a pack that is well-formed.
    pub fn items<const W: usize>(&self, start: usize) -> Vec<[usize; W]> {
        self.list(start).expect("the list of a well-formed pack")
    }

    pub fn arms(&self, start: usize) -> Vec<Arm> {
        self.items::<4>(start)
            .into_iter()
            .map(|[variant, slots, guard, body]| Arm { variant, slots, guard, body })
            .collect()
    }

    /// The type rows that a type row refers to.
    pub fn type_parts(&self, id: usize) -> Vec<usize> {
        let row = self.type_row(id);
        match row.kind {
            4 => self.items::<1>(row.b).into_iter().map(|[t]| t).collect(),
            5 | 10 => self.items::<2>(row.b).into_iter().map(|[_, t]| t).collect(),
            6 => {
                let mut parts = vec![row.a];
                parts.extend(self.items::<1>(row.b).into_iter().map(|[t]| t));
                parts
            }
            _ => Vec::new(),
        }
    }
}
