//! Module 4: a root and its expressions.

use crate::pack::{Pack, UNDERSCORE};
use crate::{Answer, Refusal, refuse};
use std::collections::{HashMap, HashSet};

/// A type as a report shows it. A row is the smallest one equal in structure, so `==` is equality in structure.
#[derive(Clone, Copy, Debug, PartialEq, Eq, Hash)]
pub enum Type {
    Never,
    Unit,
    Primitive(usize),
    Row(usize),
    Var(usize),
    IntVar(usize),
    FloatVar(usize),
    Definition(usize),
}

pub const STRING: Type = Type::Primitive(0);
pub const IP_ADDR: Type = Type::Primitive(3);
pub const BOOL: Type = Type::Primitive(4);
pub const PREFIX: Type = Type::Primitive(5);
pub const U8: Type = Type::Primitive(12);
pub const U32: Type = Type::Primitive(14);

const VARIABLES: usize = 2048;
const SLOTS: usize = 256;

#[derive(Clone, Copy, PartialEq, Eq, Hash)]
enum Operator {
    And,
    Or,
    Lt,
    Le,
    Gt,
    Ge,
    Eq,
    Ne,
    Add,
    Sub,
    Mul,
    Div,
    Mod,
    Exp,
}

const OPERATORS: [Operator; 14] = {
    use Operator::*;
    [And, Or, Lt, Le, Gt, Ge, Eq, Ne, Add, Sub, Mul, Div, Mod, Exp]
};

/// The type rows of a pack by structure.
pub struct Rows {
    /// The type of each row.
    pub types: Vec<Type>,
    /// Whether it holds kind 7 to 10 anywhere in its rows.
    pub holds: Vec<bool>,
}

impl Rows {
    pub fn of(pack: &Pack) -> Rows {
        let mut rows = Rows { types: Vec::new(), holds: Vec::new() };
        let mut first = HashMap::new();
        for id in 0..pack.counts.types {
            let row = pack.type_row(id);
            let parts = pack.type_parts(id);
            rows.holds.push(matches!(row.kind, 7..=10) || parts.iter().any(|t| rows.holds[*t]));
            let t = match row.kind {
                0 => Type::Never,
                1 => Type::Unit,
                2 => Type::Primitive(row.a),
                4 if parts.is_empty() => Type::Definition(row.a),
                7 => Type::Var(row.a),
                8 => Type::IntVar(row.a),
                9 => Type::FloatVar(row.a),
                _ => {
                    let number = if row.kind == 6 { 0 } else { row.a };
                    let names: Vec<usize> = match row.kind {
                        5 | 10 => pack.items::<2>(row.b).into_iter().map(|[name, _]| name).collect(),
                        _ => Vec::new(),
                    };
                    let parts: Vec<Type> = parts.iter().map(|t| rows.types[*t]).collect();
                    Type::Row(*first.entry((row.kind, number, names, parts)).or_insert(id))
                }
            };
            rows.types.push(t);
        }
        rows
    }
}

#[derive(Clone, Copy, PartialEq, Eq)]
enum Slot {
    NeverBound,
    Open(Type),
    Closed,
}

#[derive(Clone, Copy)]
struct Note {
    expected: Type,
    diverges: bool,
    call: u32,
}

struct Checker<'a> {
    pack: &'a Pack<'a>,
    rows: Rows,
    returns: Type,
    cells: Vec<Type>,
    slots: [Slot; SLOTS],
    notes: Vec<Option<Note>>,
}

type Diverges = bool;

impl Checker<'_> {
    // Variables and unify.

    fn fresh(&mut self, kind: fn(usize) -> Type) -> Answer<Type> {
        let n = self.cells.len();
        if n == VARIABLES {
            return refuse(37, 0);
        }
        self.cells.push(kind(n));
        Ok(kind(n))
    }

    fn resolve(&self, t: Type) -> Type {
        match t {
            Type::Var(n) | Type::IntVar(n) | Type::FloatVar(n) if self.cells[n] != t => self.resolve(self.cells[n]),
            _ => t,
        }
    }

    fn holds_variables(&self, t: Type) -> bool {
        matches!(t, Type::Row(id) if self.rows.holds[id])
    }

    fn unify(&mut self, left: Type, right: Type, node: usize) -> Answer<()> {
        use Type::*;
        let (left, right) = (self.resolve(left), self.resolve(right));
        if left == right {
            return Ok(());
        }
        if self.holds_variables(left) || self.holds_variables(right) {
            return refuse(20, node);
        }
        match (left, right) {
            (Var(n), _) => self.cells[n] = right,
            (_, Var(n)) => self.cells[n] = left,
            (IntVar(n), IntVar(_)) | (FloatVar(n), FloatVar(_)) => self.cells[n] = right,
            (IntVar(n), Primitive(8..=15)) | (FloatVar(n), Primitive(16 | 17)) => self.cells[n] = right,
            (Primitive(8..=15), IntVar(n)) | (Primitive(16 | 17), FloatVar(n)) => self.cells[n] = left,
            _ => return refuse(20, node),
        }
        Ok(())
    }

    fn is_integer(&self, t: Type) -> bool {
        matches!(self.resolve(t), Type::IntVar(_) | Type::Primitive(8..=15))
    }

    fn is_numeric(&self, t: Type) -> bool {
        matches!(self.resolve(t), Type::IntVar(_) | Type::FloatVar(_) | Type::Primitive(8..=17))
    }

    // Written types and slots.

    /// 35 over these type rows.
    fn written(&self, rows: &[usize], node: usize) -> Answer<()> {
        if rows.iter().any(|t| self.rows.holds[*t]) { refuse(35, node) } else { Ok(()) }
    }

    fn open(&mut self, slot: usize, t: Type, node: usize) -> Answer<()> {
        if self.slots[slot] != Slot::NeverBound {
            return refuse(34, node);
        }
        self.slots[slot] = Slot::Open(t);
        Ok(())
    }

    fn close(&mut self, slot: usize) {
        self.slots[slot] = Slot::Closed;
    }

    /// The definition that a resolved type names.
    fn named(&self, t: Type) -> Option<usize> {
        match t {
            Type::Definition(d) => Some(d),
            Type::Row(id) if self.pack.type_row(id).kind == 4 => Some(self.pack.type_row(id).a),
            _ => None,
        }
    }

    fn kind_of(&self, definition: usize) -> usize {
        self.pack.definition(definition).kind
    }

    fn has_parameters(&self, definition: usize) -> bool {
        self.pack.definition(definition).parameters != 0
    }

    // The rules.

    fn expr(&mut self, id: usize, expected: Type) -> Answer<Diverges> {
        self.notes[id] = Some(Note { expected, diverges: false, call: 0 });
        let row = self.pack.expression(id);
        let diverges = match row.kind {
            0 => self.literal(id, expected)?,
            1 => {
                let Slot::Open(t) = self.slots[row.a] else {
                    return refuse(33, id);
                };
                self.unify(expected, t, id)?;
                false
            }
            2 => self.block(id, expected)?,
            4 => self.match_expr(id, expected)?,
            5 => self.binop(id, expected)?,
            6 => self.record(id, expected)?,
            7 => self.field(id, expected)?,
            8 => {
                if row.a == 0 {
                    self.unify(self.returns, Type::Unit, id)?;
                } else {
                    self.expr(row.a - 1, self.returns)?;
                }
                true
            }
            _ => unreachable!("a let is a statement"),
        };
        self.note(id).diverges = diverges;
        Ok(diverges)
    }

    fn note(&mut self, id: usize) -> &mut Note {
        self.notes[id].as_mut().expect("a node that was checked")
    }

    fn literal(&mut self, id: usize, expected: Type) -> Answer<Diverges> {
        let own = match self.pack.expression(id).op {
            5 => self.fresh(Type::IntVar)?,
            6 => self.fresh(Type::FloatVar)?,
            7 => Type::Unit,
            primitive => Type::Primitive(primitive),
        };
        self.unify(expected, own, id)?;
        Ok(false)
    }

    fn block(&mut self, id: usize, expected: Type) -> Answer<Diverges> {
        let row = self.pack.expression(id);
        let mut diverges = false;
        let mut opened = Vec::new();
        for [statement] in self.pack.items::<1>(row.a) {
            if self.pack.expression(statement).kind == 3 {
                diverges |= self.let_statement(statement)?;
                opened.push(self.pack.expression(statement).a);
            } else {
                let var = self.fresh(Type::Var)?;
                diverges |= self.expr(statement, var)?;
            }
        }
        if row.b == 0 {
            if !diverges {
                self.unify(expected, Type::Unit, id)?;
            }
            self.note(id).expected = Type::Unit;
        } else {
            diverges |= self.expr(row.b - 1, expected)?;
            self.note(id).expected = self.note(row.b - 1).expected;
        }
        for slot in opened {
            self.close(slot);
        }
        Ok(diverges)
    }

    fn let_statement(&mut self, id: usize) -> Answer<Diverges> {
        let row = self.pack.expression(id);
        let t = if row.c == 0 {
            self.fresh(Type::Var)?
        } else {
            self.written(&[row.c - 1], id)?;
            self.rows.types[row.c - 1]
        };
        let diverges = self.expr(row.b, t)?;
        self.open(row.a, t, id)?;
        self.notes[id] = Some(Note { expected: Type::Unit, diverges, call: 0 });
        Ok(diverges)
    }

    fn match_expr(&mut self, id: usize, expected: Type) -> Answer<Diverges> {
        let row = self.pack.expression(id);
        let var = self.fresh(Type::Var)?;
        if self.expr(row.a, var)? {
            return refuse(23, row.a);
        }
        let definition = match self.named(self.resolve(var)) {
            Some(d) if self.kind_of(d) == 0 => d,
            _ => return refuse(24, row.a),
        };
        if self.has_parameters(definition) {
            return refuse(36, id);
        }
        let variants = self.pack.items::<2>(self.pack.definition(definition).list);
        let mut covered = HashSet::new();
        let mut default = false;
        let mut all_diverge = true;
        for arm in self.pack.arms(row.b) {
            if default {
                return refuse(25, arm.body);
            }
            let mut opened = Vec::new();
            if arm.variant != UNDERSCORE {
                let Some([_, start]) = variants.iter().find(|[name, _]| *name == arm.variant) else {
                    return refuse(26, id);
                };
                let fields: Vec<usize> = self.pack.items::<1>(*start).into_iter().map(|[t]| t).collect();
                if arm.slots == 0 {
                    if !fields.is_empty() {
                        return refuse(28, id);
                    }
                } else {
                    let slots = self.pack.items::<1>(arm.slots - 1);
                    if fields.is_empty() {
                        return refuse(27, id);
                    }
                    if fields.len() != slots.len() {
                        return refuse(29, id);
                    }
                    self.written(&fields, id)?;
                    for (t, [slot]) in fields.iter().zip(slots) {
                        self.open(slot, self.rows.types[*t], id)?;
                        opened.push(slot);
                    }
                }
            }
            if arm.guard != 0 {
                self.expr(arm.guard - 1, BOOL)?;
            } else if arm.variant == UNDERSCORE {
                default = true;
            } else {
                covered.insert(arm.variant);
            }
            all_diverge &= self.expr(arm.body, expected)?;
            for slot in opened {
                self.close(slot);
            }
        }
        let missing = variants.iter().filter(|[name, _]| !covered.contains(name)).count();
        if !default && missing > 0 {
            return Err(Refusal { number: 30, place: id as u32, detail: missing as u64 });
        }
        Ok(all_diverge)
    }

    fn binop(&mut self, id: usize, expected: Type) -> Answer<Diverges> {
        use Operator::*;
        let row = self.pack.expression(id);
        let (left, right) = (row.a, row.b);
        let op = OPERATORS[row.op];
        match op {
            And | Or => {
                self.unify(expected, BOOL, id)?;
                Ok(self.expr(left, BOOL)? | self.expr(right, BOOL)?)
            }
            Lt | Le | Gt | Ge | Eq | Ne => {
                self.unify(expected, BOOL, id)?;
                let var = self.fresh(Type::Var)?;
                let diverges = self.expr(left, var)?;
                if !matches!(op, Eq | Ne) && !self.is_numeric(var) {
                    return refuse(21, left);
                }
                Ok(diverges | self.expr(right, var)?)
            }
            Add | Sub | Mul | Div | Mod | Exp => {
                let var = self.fresh(Type::Var)?;
                let diverges = self.expr(left, var)?;
                let t = self.resolve(var);
                let is_list = self.named(t).is_some_and(|d| self.kind_of(d) == 3);
                let (wanted, result, call) = match op {
                    Div if t == IP_ADDR => (U8, PREFIX, 1),
                    Add if t == STRING => (var, STRING, 2),
                    Add if is_list => (var, var, 3),
                    Mod if !self.is_integer(t) => return refuse(22, left),
                    _ if !self.is_numeric(t) => return refuse(21, left),
                    Exp if self.is_integer(t) => (U32, var, 0),
                    _ => (var, var, 0),
                };
                let diverges = diverges | self.expr(right, wanted)?;
                self.unify(expected, result, id)?;
                self.note(id).call = call;
                Ok(diverges)
            }
        }
    }

    fn record(&mut self, id: usize, expected: Type) -> Answer<Diverges> {
        let row = self.pack.expression(id);
        if self.has_parameters(row.a) || self.kind_of(row.a) != 1 {
            return refuse(36, id);
        }
        let fields = self.pack.items::<2>(self.pack.definition(row.a).list);
        let given = self.pack.items::<2>(row.b);
        let (mut invalid, mut duplicate) = (0, 0);
        let mut used = HashSet::new();
        for [name, _] in &given {
            if !fields.iter().any(|[field, _]| field == name) {
                invalid += 1;
            } else if !used.insert(*name) {
                duplicate += 1;
            }
        }
        let missing = fields.len() as u64 - used.len() as u64;
        let detail = (invalid << 28) + (duplicate << 14) + missing;
        if detail != 0 {
            return Err(Refusal { number: 31, place: id as u32, detail });
        }
        self.written(&fields.iter().map(|[_, t]| *t).collect::<Vec<_>>(), id)?;
        let mut diverges = false;
        for [name, e] in given {
            let t = fields.iter().find(|[field, _]| *field == name).expect("a field")[1];
            diverges |= self.expr(e, self.rows.types[t])?;
        }
        self.unify(expected, Type::Definition(row.a), id)?;
        Ok(diverges)
    }

    fn field(&mut self, id: usize, expected: Type) -> Answer<Diverges> {
        let row = self.pack.expression(id);
        let var = self.fresh(Type::Var)?;
        let diverges = self.expr(row.a, var)?;
        let t = self.resolve(var);
        let fields = match (self.named(t), t) {
            (Some(d), _) if self.has_parameters(d) => return refuse(36, id),
            (Some(d), _) if self.kind_of(d) == 1 => self.pack.items::<2>(self.pack.definition(d).list),
            (None, Type::Row(r)) if self.pack.type_row(r).kind == 5 => self.pack.items::<2>(self.pack.type_row(r).b),
            _ => Vec::new(),
        };
        let Some([_, t]) = fields.into_iter().find(|[name, _]| *name == row.b) else {
            return refuse(32, id);
        };
        self.written(&[t], id)?;
        self.unify(expected, self.rows.types[t], id)?;
        Ok(diverges)
    }

    fn word(&self, note: Note) -> u32 {
        let (tag, number) = match self.resolve(note.expected) {
            Type::Never => (0, 0),
            Type::Unit => (1, 0),
            Type::Primitive(n) => (2, n),
            Type::Row(n) => (3, n),
            Type::Var(n) => (4, n),
            Type::IntVar(n) => (5, n),
            Type::FloatVar(n) => (6, n),
            Type::Definition(n) => (7, n),
        };
        u32::from(note.diverges) << 31 | note.call << 29 | tag << 26 | number as u32
    }
}

/// The words of the nodes of a root, by rising node. The pack is well-formed and has that root.
pub fn check_root(pack: &Pack, root: usize) -> Answer<Vec<(usize, u32)>> {
    let row = pack.root(root);
    let rows = Rows::of(pack);
    let returns = rows.types[row.returns];
    let parameters = pack.items::<2>(row.list);
    let mut checker = Checker {
        pack,
        rows,
        returns,
        cells: Vec::new(),
        slots: [Slot::NeverBound; SLOTS],
        notes: vec![None; pack.counts.expressions],
    };
    let mut written: Vec<usize> = parameters.iter().map(|[_, t]| *t).collect();
    written.push(row.returns);
    checker.written(&written, row.body)?;
    for [slot, t] in parameters {
        checker.open(slot, checker.rows.types[t], row.body)?;
    }
    checker.expr(row.body, returns)?;
    let nodes = checker.notes.iter().enumerate();
    Ok(nodes.filter_map(|(id, note)| note.map(|note| (id, checker.word(note)))).collect())
}
