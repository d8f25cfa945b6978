//! Seeded makers of packs: well-typed ones by their types, with a slip here and there; tables of types; graphs of
//! values; damaged copies.

use crate::make::{Maker, Pattern, op};
use crate::pack::Pack;
use crate::random::Random;
use crate::root::{BOOL, IP_ADDR, PREFIX, Rows, STRING, Type, U8, U32};

/// The primitives that a literal has.
const LITERALS: [usize; 15] = [0, 1, 2, 3, 4, 8, 9, 10, 11, 12, 13, 14, 15, 16, 17];
const PRIMITIVES: [usize; 16] = [0, 1, 2, 3, 4, 5, 8, 9, 10, 11, 12, 13, 14, 15, 16, 17];

/// Names, mostly few so that they meet.
fn name(random: &mut Random) -> usize {
    match random.below(40) {
        0 => 16382,
        1 => random.below(16383),
        _ => random.below(8),
    }
}

fn names_apart(random: &mut Random, n: usize) -> Vec<usize> {
    let mut names = Vec::new();
    while names.len() < n {
        let name = name(random);
        if !names.contains(&name) {
            names.push(name);
        }
    }
    names
}

/// Which rows tables of types may have.
#[derive(Clone, Copy, PartialEq, Eq)]
pub enum Rowing {
    /// No kind 7 to 10.
    Clean,
    /// A few rows of kind 7 to 10, and rows that hold them.
    Mixed,
}

/// Adds type rows and definitions to a pack that has none.
pub fn tables(random: &mut Random, maker: &mut Maker, rowing: Rowing) {
    let d = random.below(7);
    let kinds: Vec<(usize, usize)> = (0..d)
        .map(|_| {
            let kind = *random.pick(&[0, 0, 0, 1, 1, 1, 2, 3]);
            let parameters = if random.one_in(4) { 1 + random.below(2) } else { 0 };
            (kind, parameters)
        })
        .collect();
    for p in [4, *random.pick(&PRIMITIVES), *random.pick(&PRIMITIVES)] {
        maker.primitive(p);
    }
    for (definition, (_, parameters)) in kinds.iter().enumerate() {
        let arguments: Vec<usize> = (0..*parameters).map(|_| random.below(maker.types.len())).collect();
        let list = maker.singles(&arguments);
        maker.type_row(4, definition, list);
    }
    for _ in 0..random.below(14) {
        let n = maker.types.len();
        let kind = match (rowing, random.below(24)) {
            (_, 0) => 0,
            (_, 1) => 1,
            (_, 2) => 3,
            (_, 3..=7) => 4,
            (_, 8..=12) => 5,
            (_, 13 | 14) => 6,
            (Rowing::Mixed, 15 | 16) => 7 + random.below(4),
            _ => 2,
        };
        match kind {
            2 => {
                let p = *random.pick(&PRIMITIVES);
                maker.primitive(p);
            }
            3 => {
                let number = random.below(16);
                maker.type_row(3, number, 0);
            }
            4 if d > 0 => {
                let definition = random.below(d);
                let arguments: Vec<usize> = (0..kinds[definition].1).map(|_| random.below(n)).collect();
                let list = maker.singles(&arguments);
                maker.type_row(4, definition, list);
            }
            5 | 10 => {
                let count = random.below(4);
                let fields: Vec<_> =
                    names_apart(random, count).into_iter().map(|name| (name, random.below(n))).collect();
                let list = maker.pairs(&fields);
                let variable = if kind == 10 { random.below(2048) } else { 0 };
                maker.type_row(kind, variable, list);
                // A row that is nearly the same: other names, another order, or a list of its own.
                if random.one_in(3) {
                    let mut twin = fields.clone();
                    match random.below(4) {
                        0 => twin.reverse(),
                        1 => twin.iter_mut().for_each(|(name, _)| *name = (*name + 9) % 16383),
                        2 if !twin.is_empty() => twin[0].1 = random.below(n),
                        _ => {}
                    }
                    let list = maker.pairs(&twin);
                    maker.type_row(kind, variable, list);
                }
            }
            6 => {
                let parameters: Vec<usize> = (0..random.below(3)).map(|_| random.below(n)).collect();
                let list = maker.singles(&parameters);
                let returns = random.below(n);
                maker.type_row(6, returns, list);
            }
            7..=9 => {
                let variable = if random.one_in(2) { random.below(3) } else { random.below(2048) };
                maker.type_row(kind, variable, 0);
            }
            _ => {
                maker.type_row(kind.min(1), 0, 0);
            }
        }
        // A row once more, so that equal structure is met.
        if random.one_in(4) {
            let row = *random.pick(&maker.types);
            maker.types.push(row);
        }
    }
    let t = maker.types.len();
    for (kind, parameters) in kinds {
        let list = match kind {
            0 => {
                let variants: Vec<_> = (0..random.below(4))
                    .map(|_| (0..random.below(3)).map(|_| random.below(t)).collect::<Vec<_>>())
                    .map(|fields| maker.singles(&fields))
                    .collect();
                let names = names_apart(random, variants.len());
                maker.pairs(&names.into_iter().zip(variants).collect::<Vec<_>>())
            }
            1 => {
                let count = random.below(4);
                let names = names_apart(random, count);
                let fields: Vec<_> = names.into_iter().map(|name| (name, random.below(t))).collect();
                maker.pairs(&fields)
            }
            _ => 0,
        };
        maker.definition(kind, parameters, list);
    }
}

/// Makes the expressions of roots by their types.
struct Author<'a> {
    random: &'a mut Random,
    maker: &'a mut Maker,
    /// The tables of the pack, with no expressions yet.
    types: Vec<Type>,
    holds: Vec<bool>,
    /// For each definition its kind, its parameters and its items (name and field types).
    definitions: Vec<(usize, usize, Vec<(usize, Vec<usize>)>)>,
    /// For each type row of kind 5 its fields.
    records: Vec<Vec<(usize, usize)>>,
    open: Vec<(usize, Type)>,
    next_slot: usize,
    returns: Type,
    /// A slip once in so many choices; 0 for none.
    slips: usize,
    /// How many nodes may still be made, more or less.
    left: usize,
}

impl Author<'_> {
    fn slip(&mut self) -> bool {
        self.slips != 0 && self.random.one_in(self.slips)
    }

    fn new_slot(&mut self) -> usize {
        if self.slip() {
            return self.random.below(self.next_slot.max(1));
        }
        self.next_slot = (self.next_slot + 1).min(256);
        self.next_slot - 1
    }

    fn row_of(&mut self, t: Type) -> Option<usize> {
        let rows: Vec<usize> = (0..self.types.len()).filter(|i| self.types[*i] == t).collect();
        (!rows.is_empty()).then(|| *self.random.pick(&rows))
    }

    fn definition_of(&self, t: Type) -> Option<usize> {
        match t {
            Type::Definition(d) => Some(d),
            _ => None,
        }
    }

    fn fields_of(&self, t: Type) -> Vec<(usize, usize)> {
        match t {
            Type::Definition(d) if self.definitions[d].0 == 1 => {
                self.definitions[d].2.iter().map(|(name, types)| (*name, types[0])).collect()
            }
            Type::Row(r) => self.records[r].clone(),
            _ => Vec::new(),
        }
    }

    fn is_enum(&self, t: Type) -> bool {
        self.definition_of(t).is_some_and(|d| self.definitions[d].0 == 0 && self.definitions[d].1 == 0)
    }

    fn is_clean(&self, rows: &[usize]) -> bool {
        rows.iter().all(|t| !self.holds[*t])
    }

    fn is_record(&self, t: Type) -> bool {
        self.definition_of(t).is_some_and(|d| {
            let (kind, parameters, items) = &self.definitions[d];
            *kind == 1 && *parameters == 0 && items.iter().all(|(_, types)| self.is_clean(types))
        })
    }

    fn any_type(&mut self) -> Type {
        match self.random.below(8) {
            0 | 1 if !self.open.is_empty() => self.random.pick(&self.open).1,
            2 => {
                let i = self.random.below(self.types.len());
                if self.holds[i] { BOOL } else { self.types[i] }
            }
            3 => Type::Unit,
            4 => BOOL,
            _ => Type::Primitive(*self.random.pick(&PRIMITIVES)),
        }
    }

    fn number_type(&mut self) -> Type {
        Type::Primitive(8 + self.random.below(10))
    }

    /// A slot of type `t`, if one is open.
    fn slot_of(&mut self, t: Type) -> Option<usize> {
        if self.slip() && !self.open.is_empty() {
            return Some(self.random.pick(&self.open).0);
        }
        if self.slip() {
            return Some(self.random.below(256));
        }
        let slots: Vec<usize> = self.open.iter().filter(|(_, u)| *u == t).map(|(s, _)| *s).collect();
        (!slots.is_empty()).then(|| *self.random.pick(&slots))
    }

    /// A node without parts of type `t`, or a return of one.
    fn leaf(&mut self, t: Type) -> usize {
        let literal = match t {
            Type::Unit => Some(7),
            Type::Primitive(p) if LITERALS.contains(&p) => {
                let bare = self.random.one_in(3);
                Some(match p {
                    8..=15 if bare => 5,
                    16 | 17 if bare => 6,
                    _ => p,
                })
            }
            _ => None,
        };
        if let Some(slot) = self.slot_of(t)
            && (literal.is_none() || self.random.one_in(2))
        {
            return self.maker.slot(slot);
        }
        if let Some(literal) = literal {
            return self.maker.literal(literal);
        }
        if t == self.returns {
            return self.maker.returns(None);
        }
        let value = self.leaf(self.returns);
        self.maker.returns(Some(value))
    }

    fn block(&mut self, t: Type, depth: usize) -> usize {
        let opened = self.open.len();
        let mut statements = Vec::new();
        for _ in 0..self.random.below(4) {
            let t = self.any_type();
            if self.random.one_in(3) {
                statements.push(self.expression(t, depth - 1));
                continue;
            }
            let row = self.row_of(t);
            let written = if self.random.one_in(2) { row } else { None };
            let written = if self.slip() { Some(self.random.below(self.types.len())) } else { written };
            let value = self.expression(t, depth - 2);
            let slot = self.new_slot();
            statements.push(self.maker.let_statement(slot, value, written));
            self.open.push((slot, t));
        }
        let last = if t == Type::Unit && self.random.one_in(2) {
            None
        } else if self.random.one_in(12) {
            let value = self.expression(self.returns, depth - 2);
            statements.push(self.maker.returns(Some(value)));
            None
        } else {
            Some(self.expression(t, depth - 1))
        };
        self.open.truncate(opened);
        self.maker.block(&statements, last)
    }

    fn match_expr(&mut self, t: Type, depth: usize) -> Option<usize> {
        let enums: Vec<Type> = self.open.iter().map(|(_, t)| *t).filter(|t| self.is_enum(*t)).collect();
        if enums.is_empty() {
            return None;
        }
        let examined = *self.random.pick(&enums);
        let slipped = self.any_type();
        let examinee_type = if self.slip() { slipped } else { examined };
        let examinee = self.expression(examinee_type, depth - 1);
        let d = self.definition_of(examined)?;
        let mut variants: Vec<(usize, Vec<usize>)> = self.definitions[d].2.clone();
        if self.random.one_in(3) && !variants.is_empty() {
            let again = self.random.pick(&variants).clone();
            variants.push(again);
        }
        let with_default = self.random.one_in(3);
        if (with_default || self.slip()) && self.random.one_in(2) {
            variants.pop();
        }
        let mut arms = Vec::new();
        for (variant, fields) in variants {
            let opened = self.open.len();
            let guarded = self.random.one_in(5);
            // A guarded arm covers nothing, so its variant comes once more.
            let alone = self.slip();
            let guards: &[bool] = match (guarded, alone) {
                (true, true) => &[true],
                (true, false) => &[true, false],
                (false, _) => &[false],
            };
            for guard in guards.iter().copied() {
                let guard = guard && !self.slip();
                let mut slots: Vec<usize> = Vec::new();
                for field in &fields {
                    let slot = self.new_slot();
                    slots.push(slot);
                    self.open.push((slot, self.types[*field]));
                }
                if self.slip() {
                    slots.push(0);
                }
                let payload = (!slots.is_empty() || self.slip()) && !self.slip();
                let list = payload.then(|| self.maker.singles(&slots));
                let named = if self.slip() { name(self.random) } else { variant };
                let guard = guard.then(|| self.expression(BOOL, depth - 1));
                let body = self.expression(t, depth - 1);
                arms.push((Pattern::Variant(named, list), guard, body));
                self.open.truncate(opened);
            }
        }
        if with_default || self.slip() {
            let guard = self.random.one_in(4).then(|| self.expression(BOOL, depth - 1));
            let body = self.expression(t, depth - 1);
            arms.push((Pattern::Underscore, guard, body));
            if guard.is_some() {
                let body = self.expression(t, depth - 1);
                arms.push((Pattern::Underscore, None, body));
            }
            if self.slip() {
                let body = self.expression(t, depth - 1);
                arms.push((Pattern::Underscore, None, body));
            }
        } else if self.slip() {
            arms.pop();
        }
        Some(self.maker.match_expr(examinee, &arms))
    }

    fn record(&mut self, t: Type, depth: usize) -> usize {
        let mut fields = self.fields_of(t);
        for i in (1..fields.len()).rev() {
            let j = self.random.below(i + 1);
            fields.swap(i, j);
        }
        if self.slip() {
            fields.pop();
        }
        if self.slip() {
            let row = self.random.below(self.types.len());
            let name = name(self.random);
            fields.push((name, row));
        }
        if self.slip() && !fields.is_empty() {
            let again = *self.random.pick(&fields);
            fields.push(again);
        }
        let given: Vec<(usize, usize)> = fields
            .into_iter()
            .map(|(name, row)| {
                let t = self.types[row];
                (name, self.expression(t, depth - 1))
            })
            .collect();
        let d =
            if self.slip() { self.random.below(self.definitions.len()) } else { self.definition_of(t).unwrap_or(0) };
        self.maker.record(d, &given)
    }

    /// A field of type `t` of something that is at hand.
    fn field(&mut self, t: Type, depth: usize) -> Option<usize> {
        let mut sources = Vec::new();
        let made: Vec<Type> =
            (0..self.definitions.len()).map(Type::Definition).filter(|t| self.is_record(*t)).collect();
        for source in self.open.iter().map(|(_, t)| *t).chain(made) {
            for (name, row) in self.fields_of(source) {
                if self.types[row] == t && !self.holds[row] {
                    sources.push((source, name));
                }
            }
        }
        if sources.is_empty() {
            return None;
        }
        let (source, field) = *self.random.pick(&sources);
        let inner = self.expression(source, depth - 1);
        let field = if self.slip() { name(self.random) } else { field };
        Some(self.maker.field(inner, field))
    }

    fn operator(&mut self, t: Type, depth: usize) -> Option<usize> {
        let number = self.number_type();
        let any = self.any_type();
        let is_list = self.definition_of(t).is_some_and(|d| self.definitions[d].0 == 3);
        let (o, left, right) = match t {
            _ if t == BOOL => match self.random.below(3) {
                0 => (*self.random.pick(&[op::AND, op::OR]), BOOL, BOOL),
                1 => (op::LT + self.random.below(4), number, number),
                _ => (*self.random.pick(&[op::EQ, op::NE]), any, any),
            },
            _ if t == STRING || is_list => (op::ADD, t, t),
            _ if t == PREFIX => (op::DIV, IP_ADDR, U8),
            Type::Primitive(8..=15) => match self.random.below(6) {
                0 => (op::EXP, t, U32),
                n => ([op::ADD, op::SUB, op::MUL, op::DIV, op::MOD][n - 1], t, t),
            },
            Type::Primitive(16 | 17) => (*self.random.pick(&[op::ADD, op::SUB, op::MUL, op::DIV, op::EXP]), t, t),
            _ => return None,
        };
        let o = if self.slip() { self.random.below(14) } else { o };
        let left = self.expression(left, depth - 1);
        // A node used twice, once in a while.
        let twice = self.slip() && self.random.one_in(4);
        let right = if twice { left } else { self.expression(right, depth - 1) };
        Some(self.maker.operator(o, left, right))
    }

    /// An expression of type `t`, at most `depth` deep.
    fn expression(&mut self, t: Type, depth: usize) -> usize {
        let slipped = self.any_type();
        let t = if self.slip() { slipped } else { t };
        self.left = self.left.saturating_sub(1);
        if depth < 4 || self.left == 0 {
            return self.leaf(t);
        }
        // A let that is no statement, once in a while.
        if self.slip() && self.random.one_in(4) {
            let value = self.leaf(t);
            let slot = self.new_slot();
            return self.maker.let_statement(slot, value, None);
        }
        let made = match self.random.below(16) {
            0 | 1 => Some(self.block(t, depth)),
            2..=5 => self.match_expr(t, depth),
            6 | 7 if self.is_record(t) => Some(self.record(t, depth)),
            8 | 9 => self.field(t, depth),
            10..=13 => self.operator(t, depth),
            14 if self.random.one_in(6) => {
                let value = if self.returns == Type::Unit && self.random.one_in(2) {
                    None
                } else {
                    Some(self.expression(self.returns, depth - 1))
                };
                Some(self.maker.returns(value))
            }
            _ => None,
        };
        made.unwrap_or_else(|| self.leaf(t))
    }
}

/// How a pack of roots is made.
#[derive(Clone, Copy)]
pub struct Style {
    /// A slip once in so many choices; 0 for none.
    pub slips: usize,
    pub depth: usize,
    /// About how many nodes a root has.
    pub nodes: usize,
    pub roots: usize,
    pub rowing: Rowing,
}

impl Style {
    pub fn any(random: &mut Random) -> Style {
        Style {
            slips: *random.pick(&[0, 0, 200, 60, 25, 10]),
            depth: 4 + random.below(9),
            nodes: 3 + random.below(40),
            roots: 1 + random.below(3),
            rowing: if random.one_in(4) { Rowing::Mixed } else { Rowing::Clean },
        }
    }
}

/// A pack of roots, mostly well-typed where there are no slips.
pub fn roots(random: &mut Random, style: Style) -> Maker {
    let mut maker = Maker::new();
    tables(random, &mut maker, style.rowing);
    let bytes = maker.bytes();
    let pack = Pack::read(&bytes).expect("tables within their limits");
    let Rows { types, holds } = Rows::of(&pack);
    let definitions = (0..pack.counts.definitions)
        .map(|d| {
            let row = pack.definition(d);
            let items = match row.kind {
                0 => pack
                    .items::<2>(row.list)
                    .into_iter()
                    .map(|[name, start]| (name, pack.items::<1>(start).into_iter().map(|[t]| t).collect()))
                    .collect(),
                1 => pack.items::<2>(row.list).into_iter().map(|[name, t]| (name, vec![t])).collect(),
                _ => Vec::new(),
            };
            (row.kind, row.parameters, items)
        })
        .collect();
    let records = (0..pack.counts.types)
        .map(|t| match pack.type_row(t).kind {
            5 => pack.items::<2>(pack.type_row(t).b).into_iter().map(|[name, t]| (name, t)).collect(),
            _ => Vec::new(),
        })
        .collect();
    let mut author = Author {
        random,
        maker: &mut maker,
        types,
        holds,
        definitions,
        records,
        open: Vec::new(),
        next_slot: 0,
        returns: Type::Unit,
        slips: style.slips,
        left: 0,
    };
    for _ in 0..style.roots {
        author.open = Vec::new();
        author.next_slot = 0;
        author.left = style.nodes;
        let clean: Vec<usize> = (0..author.types.len()).filter(|t| !author.holds[*t]).collect();
        // Enums and records are what there is most to say about.
        let members: Vec<usize> = clean
            .iter()
            .copied()
            .filter(|t| author.is_enum(author.types[*t]) || author.is_record(author.types[*t]))
            .collect();
        let pick = |author: &mut Author| {
            if author.slip() {
                author.random.below(author.types.len())
            } else if !members.is_empty() && author.random.one_in(2) {
                *author.random.pick(&members)
            } else {
                *author.random.pick(&clean)
            }
        };
        let returns = pick(&mut author);
        author.returns = author.types[returns];
        let mut parameters = Vec::new();
        // One parameter of the return type, so that a return can always be made.
        let others = author.random.below(6);
        for t in std::iter::once(returns).chain((0..others).map(|_| pick(&mut author)).collect::<Vec<_>>()) {
            let slot = author.new_slot();
            parameters.push((slot, t));
            author.open.push((slot, author.types[t]));
        }
        let body = author.expression(author.returns, style.depth);
        author.maker.root(body, returns, &parameters);
    }
    maker
}

/// Adds `n` values that reference each other at random.
pub fn values(random: &mut Random, maker: &mut Maker, n: usize) {
    let dense = 1 + random.below(4);
    let constants = 1 + random.below(6);
    let contexts = 1 + random.below(12);
    for v in 0..n {
        let mut references: Vec<usize> = (0..random.below(dense + 1)).map(|_| random.below(n)).collect();
        // Mostly downward, so that some graphs have no cycle through a constant.
        if dense > 2 {
            references.retain(|w| *w < v || random.one_in(8));
        }
        references.sort_unstable();
        references.dedup();
        let kind = if random.one_in(constants) {
            0
        } else if random.one_in(contexts) {
            2
        } else {
            *random.pick(&[1, 1, 3])
        };
        maker.value(kind, &references);
    }
}

/// Changes a few bits, bytes, words or rows of a pack.
pub fn damage(random: &mut Random, bytes: &mut Vec<u8>) {
    for _ in 0..1 + random.below(2) {
        let n = bytes.len();
        match random.below(16) {
            0 => bytes.truncate(random.below(n + 1)),
            1 => bytes.push(random.next() as u8),
            2 if n >= 16 => {
                let at = random.below(16);
                bytes[at] ^= 1 << random.below(8);
            }
            3..=8 if n > 16 => {
                let at = 16 + random.below(n - 16);
                bytes[at] ^= 1 << random.below(8);
            }
            9..=11 if n > 16 => {
                let at = 16 + random.below(n - 16);
                bytes[at] = *random.pick(&[0, 1, 2, 3, 255]);
            }
            12 | 13 if n > 24 => {
                let (from, to) = (16 + random.below(n - 16), 16 + random.below(n - 16));
                bytes[to] = bytes[from];
            }
            _ => semantic(random, bytes),
        }
    }
}

/// Changes one field of an expression, a definition, a root or a list word so that the pack often stays well-formed.
pub fn semantic(random: &mut Random, bytes: &mut [u8]) {
    let Ok(pack) = Pack::read(bytes) else { return };
    let c = pack.counts;
    let expressions = 16 + 4 * c.types + 4 * c.definitions;
    let words = bytes.len() - 2 * c.words;
    match random.below(6) {
        0..=2 if c.expressions > 0 => {
            let e = random.below(c.expressions);
            let row = pack.expression(e);
            let at = expressions + 8 * e;
            let mut bits = u64::from_be_bytes(bytes[at..at + 8].try_into().expect("a row"));
            // The op of a literal or an operator, the slot of a slot or a let, the type of a let, the name of a field.
            let (shift, width, value) = match row.kind {
                0 => (52, 6, random.below(18)),
                1 => (38, 14, random.below(12)),
                3 if random.one_in(2) => (38, 14, random.below(12)),
                3 => (10, 14, random.below(c.types + 1)),
                5 => (52, 6, random.below(14)),
                6 => (38, 14, random.below(c.definitions)),
                7 => (24, 14, random.below(8)),
                8 if row.a == 0 => (58, 6, 0),
                _ => return,
            };
            let mask = ((1u64 << width) - 1) << shift;
            bits = bits & !mask | (value as u64) << shift;
            bytes[at..at + 8].copy_from_slice(&bits.to_be_bytes());
        }
        3 if c.types > 0 => {
            let t = random.below(c.types);
            let other = random.below(c.types);
            let (from, to) = (16 + 4 * other, 16 + 4 * t);
            bytes.copy_within(from..from + 4, to);
        }
        4 if c.definitions > 0 => {
            let at = 16 + 4 * c.types + 4 * random.below(c.definitions);
            // Its kind, or its parameters.
            bytes[at] ^= if random.one_in(2) { 0x40 } else { 0x04 };
        }
        _ if c.words > 0 => {
            let at = words + 2 * random.below(c.words);
            bytes[at] = 0;
            bytes[at + 1] = random.below(16) as u8;
        }
        _ => {}
    }
}
