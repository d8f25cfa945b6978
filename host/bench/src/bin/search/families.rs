//! Families of packs made to be dear. A family has parameters; the search changes them.

mod definitions;
mod lists;
mod members;
mod reading;
mod variables;
mod whole;

use model::Counts;
use model::make::Maker;

/// What is asked: an entry of the library, or the program.
#[derive(Clone, Copy, Debug, PartialEq, Eq)]
pub enum Ask {
    Types,
    Root,
    Order,
    Program,
}

impl Ask {
    pub const ENTRIES: [Ask; 3] = [Ask::Types, Ask::Root, Ask::Order];

    pub fn name(self) -> &'static str {
        match self {
            Ask::Types => "types",
            Ask::Root => "root",
            Ask::Order => "order",
            Ask::Program => "program",
        }
    }
}

/// A number that a family depends on: its name, the least, the most, and where the search begins.
pub type Parameter = (&'static str, usize, usize, usize);

pub struct Family {
    pub name: &'static str,
    /// What it is meant to make dear.
    pub aims: &'static [Ask],
    pub parameters: &'static [Parameter],
    pub make: fn(&[usize]) -> Maker,
    /// Whether its packs are refused for how they are made, so that they are read and no more.
    pub read_only: bool,
}

impl Family {
    /// The parameters, and last whether the pack is padded.
    pub fn all_parameters(&self) -> Vec<Parameter> {
        self.parameters.iter().chain(&[PADDED]).copied().collect()
    }

    /// Where the search begins.
    pub fn start(&self) -> Vec<usize> {
        self.all_parameters().iter().map(|(_, _, _, start)| *start).collect()
    }

    /// The pack, or none where it does not fit.
    pub fn pack(&self, parameters: &[usize]) -> Option<Vec<u8>> {
        let (padded, own) = parameters.split_last().expect("at least whether it is padded");
        let mut maker = (self.make)(own);
        if *padded == 1 {
            pad(&mut maker);
        }
        let counts = [
            maker.types.len(),
            maker.definitions.len(),
            maker.expressions.len(),
            maker.roots.len(),
            maker.values.len(),
            maker.words.len(),
        ];
        let fits = counts.iter().zip(Counts::LIMITS).all(|(count, limit)| *count <= limit);
        fits.then(|| maker.bytes())
    }

    /// The parameters by name.
    pub fn told(&self, parameters: &[usize]) -> String {
        let mut told: Vec<String> =
            self.parameters.iter().zip(parameters).map(|((name, ..), value)| format!("{name} {value}")).collect();
        if parameters.last() == Some(&1) {
            told.push("padded".to_string());
        }
        told.join(", ")
    }
}

/// Whether the tables of a pack are filled up to their limits with rows that are good for nothing.
const PADDED: Parameter = ("padded", 0, 1, 0);

/// Fills the tables up as far as there is room. What is there keeps its number.
fn pad(maker: &mut Maker) {
    let [types, definitions, expressions, _, values, words] = Counts::LIMITS;
    while maker.definitions.len() < definitions {
        maker.definition(2, 0, 0);
    }
    if maker.words.len() < words {
        let none = maker.singles(&[]);
        if maker.types.len() < types {
            pad_expressions(maker, none, expressions);
        }
        while maker.values.len() < values {
            maker.values.push(1 << 30 | none as u32);
        }
        maker.words.resize(words, 0);
    }
    while maker.types.len() < types {
        maker.type_row(1, 0, 0);
    }
}

/// A root that is a tree of And: with so many leaves it has one node less than twice as many.
fn pad_expressions(maker: &mut Maker, parameters: usize, expressions: usize) {
    let boolean = maker.primitive(4);
    let leaves = (expressions.saturating_sub(maker.expressions.len()) + 1) / 2;
    let mut level: Vec<usize> = (0..leaves).map(|_| maker.literal(4)).collect();
    while level.len() > 1 {
        let pairs: Vec<Vec<usize>> = level.chunks(2).map(<[usize]>::to_vec).collect();
        level = pairs
            .iter()
            .map(|two| if let [left, right] = two[..] { maker.operator(0, left, right) } else { two[0] })
            .collect();
    }
    if let Some(body) = level.first() {
        maker.roots.push((*body as u64) << 50 | (boolean as u64) << 36 | (parameters as u64) << 22);
    }
}

/// A family whose packs are well-formed.
const fn family(
    name: &'static str,
    aims: &'static [Ask],
    parameters: &'static [Parameter],
    make: fn(&[usize]) -> Maker,
) -> Family {
    Family { name, aims, parameters, make, read_only: false }
}

pub fn all() -> Vec<Family> {
    let groups = [
        lists::families(),
        members::families(),
        variables::families(),
        definitions::families(),
        reading::families(),
        whole::families(),
    ];
    groups.into_iter().flatten().collect()
}

/// The numbers of a family's maker, as many as it names.
fn numbers<const N: usize>(parameters: &[usize]) -> [usize; N] {
    parameters.try_into().expect("as many parameters as the family has")
}

/// The parameters of a family that has no variety.
const NONE: &[Parameter] = &[];

/// The primitives.
const PRIMITIVES: [usize; 16] = [0, 1, 2, 3, 4, 5, 8, 9, 10, 11, 12, 13, 14, 15, 16, 17];

/// How many type rows differ that hold no other row and no variable.
const PLAIN: usize = 2 + PRIMITIVES.len() + 16;

/// A type row that holds no other: unit, never, a primitive, or an explicit variable.
fn plain(maker: &mut Maker, class: usize) -> usize {
    match class % PLAIN {
        0 => maker.type_row(1, 0, 0),
        1 => maker.type_row(0, 0, 0),
        n if n < 2 + PRIMITIVES.len() => maker.primitive(PRIMITIVES[n - 2]),
        n => maker.type_row(3, n - 2 - PRIMITIVES.len(), 0),
    }
}

/// Root 0: its one node is a parameter of that type.
fn use_row(maker: &mut Maker, row: usize) {
    let body = maker.slot(0);
    maker.root(body, row, &[(0, row)]);
}

#[cfg(test)]
mod tests {
    use super::{Ask, Family};

    /// What is wrong with the pack that a family begins with: it has to fit and, unless it is made to be read only, be
    /// well-formed, and its root be accepted, so that nothing ends before what is dear.
    fn wrong(family: &Family) -> Option<String> {
        let Some(bytes) = family.pack(&family.start()) else { return Some("does not fit".to_string()) };
        let pack = match model::Pack::read(&bytes) {
            Ok(pack) => pack,
            Err(r) => return Some(format!("{r:?}")),
        };
        if family.read_only {
            return None;
        }
        if let Err(r) = model::formed::formed(&pack) {
            return Some(format!("{r:?}"));
        }
        if !family.aims.contains(&Ask::Root) {
            return None;
        }
        model::check_root(&bytes, 0, usize::MAX).err().map(|r| format!("{r:?}"))
    }

    #[test]
    fn starts() {
        let all: Vec<String> =
            super::all().iter().filter_map(|f| wrong(f).map(|why| format!("{}: {why}", f.name))).collect();
        assert!(all.is_empty(), "{all:#?}");
    }
}
