//! Union-find from scripts: ours, run by the library `cells_abi`, a plain reference, and the Rust's `UnionFind`.
//!
//! A set that ours refuses (38, 39) is left out of the Rust's run: there it would panic later, or never end.

use crate::tally::{Tally, Whose};
use model::random::Random;

unsafe extern "C" {
    fn cells_replay(script: *const u32, length: usize, operations: u32, answers: *mut u32, room: usize);
}

/// A type as a number: tag and number, as in a report's word.
type Code = u32;

const NUMBERS: u32 = 16384;

#[derive(Clone, Copy, Debug, PartialEq, Eq)]
pub enum Operation {
    /// 0 any, 1 integer, 2 float.
    Fresh(u32),
    Find(u32),
    FindRef(u32),
    Cell(u32),
    Set(u32, Code),
}

impl Operation {
    fn numbers(self) -> [u32; 3] {
        match self {
            Operation::Fresh(kind) => [kind, 0, 0],
            Operation::Find(v) => [3, v, 0],
            Operation::FindRef(v) => [4, v, 0],
            Operation::Cell(v) => [5, v, 0],
            Operation::Set(v, x) => [6, v, x],
        }
    }
}

/// The variable that a code is of, if it is a variable's.
fn variable(x: Code) -> Option<u32> {
    (4..=6).contains(&(x / NUMBERS)).then_some(x % NUMBERS)
}

/// The cells as a plain list, with 37 to 39.
#[derive(Default)]
struct Reference {
    cells: Vec<Code>,
}

impl Reference {
    /// The cells passed from v on.
    fn trail(&self, v: u32) -> Vec<u32> {
        let mut trail = vec![v];
        while let Some(next) = variable(self.cells[*trail.last().expect("a cell") as usize])
            && next != *trail.last().expect("a cell")
        {
            trail.push(next);
        }
        trail
    }

    fn end(&self, v: u32) -> Code {
        self.cells[*self.trail(v).last().expect("a cell") as usize]
    }

    fn run(&mut self, operation: Operation) -> [u32; 2] {
        let n = self.cells.len() as u32;
        match operation {
            Operation::Fresh(_) if n == 2048 => [37, 0],
            Operation::Fresh(kind) => {
                self.cells.push((4 + kind) * NUMBERS + n);
                [(4 + kind) * NUMBERS + n, 0]
            }
            Operation::Find(v) | Operation::FindRef(v) | Operation::Cell(v) if v >= n => [38, v],
            Operation::Find(v) => {
                let end = self.end(v);
                for cell in self.trail(v) {
                    self.cells[cell as usize] = end;
                }
                [end, 0]
            }
            Operation::FindRef(v) => [self.end(v), 0],
            Operation::Cell(v) => [self.cells[v as usize], 0],
            Operation::Set(v, _) if v >= n => [38, v],
            Operation::Set(v, x) => {
                if let Some(w) = variable(x) {
                    if w >= n {
                        return [38, w];
                    }
                    if w != v && self.trail(w).contains(&v) {
                        return [39, v];
                    }
                }
                self.cells[v as usize] = x;
                [0, 0]
            }
        }
    }
}

/// What the library answers.
fn replayed(script: &[Operation]) -> Vec<[u32; 2]> {
    let numbers: Vec<u32> = script.iter().flat_map(|o| o.numbers()).collect();
    let mut answers = vec![0xDEAD_BEEF; 2 * script.len() + 2];
    // SAFETY: both are read and written within their lengths.
    unsafe {
        let room = 2 * script.len();
        cells_replay(numbers.as_ptr(), numbers.len(), script.len() as u32, answers.as_mut_ptr(), room);
    }
    assert_eq!(answers[2 * script.len()..], [0xDEAD_BEEF; 2], "a number past the answers");
    answers.truncate(2 * script.len());
    answers.chunks(2).map(|a| [a[0], a[1]]).collect()
}

/// The Rust's answers, and at the end its cells. A set that was refused is left out.
#[cfg(roto)]
mod text {
    use super::{Code, NUMBERS, Operation};
    use crate::typechecker::types::{MustBeSigned, Type};
    use crate::typechecker::unionfind::UnionFind;
    use crate::typechecker::{definition_type, primitive};

    fn variable(kind: u32, n: usize) -> Type {
        match kind {
            0 => Type::Var(n),
            1 => Type::IntVar(n, MustBeSigned::No),
            _ => Type::FloatVar(n),
        }
    }

    pub fn type_of(x: Code) -> Type {
        let n = (x % NUMBERS) as usize;
        match x / NUMBERS {
            0 => Type::Never,
            1 => Type::Unit,
            2 => primitive(n),
            7 => definition_type(n),
            tag => variable(tag - 4, n),
        }
    }

    pub fn answers(script: &[Operation], refused: impl Fn(usize) -> bool) -> (Vec<Option<Type>>, String) {
        let mut cells = UnionFind::default();
        let mut answers = Vec::new();
        for (i, operation) in script.iter().enumerate() {
            answers.push(match operation {
                _ if refused(i) => None,
                Operation::Fresh(kind) => Some(cells.fresh(|n| variable(*kind, n))),
                Operation::Find(v) => Some(cells.find(*v as usize)),
                Operation::FindRef(v) => Some(cells.find_ref(*v as usize).clone()),
                Operation::Cell(_) => None,
                Operation::Set(v, x) => {
                    cells.set(*v as usize, type_of(*x));
                    None
                }
            });
        }
        (answers, format!("{cells:?}"))
    }
}

pub fn ask(tally: &mut Tally, script: &[Operation]) {
    let shown = format!("{script:?}");
    let mut reference = Reference::default();
    let wanted: Vec<[u32; 2]> = script.iter().map(|o| reference.run(*o)).collect();
    let came = replayed(script);
    for (i, [answer, _]) in came.iter().enumerate() {
        let number = if (37..=39).contains(answer) { *answer } else { 0 };
        tally.number(Whose::Library, number);
        tally.number(Whose::Reference, if (37..=39).contains(&wanted[i][0]) { wanted[i][0] } else { 0 });
    }
    tally.same("library and reference", &came, &wanted, shown.as_bytes());
    #[cfg(roto)]
    {
        let is_refused = |i: usize| (37..=39).contains(&wanted[i][0]);
        let (answers, cells) = text::answers(script, is_refused);
        for (i, answer) in answers.into_iter().enumerate() {
            if let Some(answer) = answer {
                tally.number(Whose::Text, 0);
                tally.same("text and reference", &answer, &text::type_of(wanted[i][0]), shown.as_bytes());
            }
        }
        let types: Vec<_> = reference.cells.iter().map(|x| text::type_of(*x)).collect();
        tally.same("cells at the end", &cells, &format!("UnionFind {{ inner: {types:?} }}"), shown.as_bytes());
    }
}

/// Codes to set a variable to, where n are in use.
fn code(random: &mut Random, n: u32) -> Code {
    let tag = *random.pick(&[0, 1, 2, 2, 4, 4, 4, 5, 6, 7]);
    let number = match tag {
        0 | 1 => 0,
        2 => *random.pick(&[0, 4, 8, 17]),
        7 => random.below(4) as u32,
        _ if random.one_in(20) => n + random.below(3) as u32,
        _ => random.below(n as usize) as u32,
    };
    tag * NUMBERS + number
}

/// A random script. The codes of variables may be of another kind than the variable: cells take any.
pub fn script(random: &mut Random) -> Vec<Operation> {
    let many = random.one_in(200);
    let length = if many { 3000 } else { 1 + random.below(40) };
    let mut script = Vec::new();
    let mut n = 0u32;
    for _ in 0..length {
        let v = if random.one_in(30) { n + random.below(2) as u32 } else { random.below(n as usize) as u32 };
        let fresh = if many { random.below(4) > 0 } else { random.one_in(3) };
        script.push(match random.below(8) {
            _ if fresh || n == 0 => {
                n = (n + 1).min(2048);
                Operation::Fresh(random.below(3) as u32)
            }
            0 | 1 => Operation::Find(v),
            2 => Operation::FindRef(v),
            3 => Operation::Cell(v),
            _ => Operation::Set(v, code(random, n)),
        });
    }
    // Every cell is looked at in the end.
    script.extend((0..n).map(Operation::Cell));
    script
}

/// Every script of four operations after two variables are made.
pub fn short(mut each: impl FnMut(&[Operation])) {
    use Operation::*;
    let sets = (0..3).flat_map(|v| [4 * NUMBERS, 4 * NUMBERS + 1, 5 * NUMBERS + 2, NUMBERS].map(|x| Set(v, x)));
    let all: Vec<Operation> =
        [Fresh(2), Find(0), Find(1), Find(2), FindRef(0), FindRef(1)].into_iter().chain(sets).collect();
    for a in &all {
        for b in &all {
            for c in &all {
                for d in &all {
                    each(&[Fresh(0), Fresh(1), *a, *b, *c, *d, Cell(0), Cell(1), Cell(2)]);
                }
            }
        }
    }
}
