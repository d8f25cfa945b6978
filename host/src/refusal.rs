//! A refusal, and the sentence that support reads.

use std::fmt;

/// Why a pack, a rule or a value was refused: document 01's number, place and detail.
///
/// [`Display`](fmt::Display) says in a sentence what is wrong, where, and what to do.
#[derive(Clone, Copy, Debug, PartialEq, Eq, Hash)]
pub struct Refusal {
    /// What is wrong.
    pub number: u32,
    /// Where: an expression, a definition, a row or a value, by number.
    pub place: u32,
    /// More of it, 0 unless the number has some: the table of a row (10, 11, 14), how many variants are missing (30),
    /// how many fields are invalid, duplicate and missing (31).
    pub detail: u64,
}

/// What a place is.
enum Place {
    None,
    Row,
    Expression,
    Definition,
    Value,
    Variable,
}

const PACK: &str = "the fault is in how the pack was made: send the numbers to whoever builds packs";

impl Refusal {
    /// What is wrong, what the place is, and what to do.
    fn told(&self) -> (&'static str, Place, &'static str) {
        use Place::*;
        match self.number {
            1 => ("the pack is shorter than its header", None, "the file is empty or cut: fetch or build it again"),
            2 => ("this is no rule pack of edition 1", None, "build the pack for edition 1"),
            3 => ("the pack has too many rows of a table", None, "split the rules"),
            4 => {
                ("the pack's length is not what its header says", None, "it is cut or too long: copy or build it again")
            }
            5 => ("the pack has no root of this number", None, "ask for a root that the pack has"),
            6 => {
                ("the result area is too short", None, "lend 4 bytes an expression for a root, 2 a value for the order")
            }
            10 => ("a kind, operator or primitive is unknown, or something unused is not zero", Row, PACK),
            11 => ("an id, variable, slot, name, list or number of arguments is out of range", Row, PACK),
            12 => ("the expression is not used exactly once", Expression, PACK),
            13 => ("the expression is nested deeper than 64", Expression, "take a part out into a let before it"),
            14 => ("a name is repeated, or a value's references don't rise", Row, "rename one of the two"),
            15 => ("the let is no statement of a block", Expression, "put it into a block, before what uses it"),
            20 => ("the types don't fit", Expression, "change the value, or the type that is asked for there"),
            21 => ("the left operand is not a number", Expression, "compare or compute with numbers"),
            22 => ("the left operand is not an integer", Expression, "take the remainder of integers only"),
            23 => ("the value matched on always returns", Expression, "write the return without the match"),
            24 => ("the value matched on is no enum", Expression, "match on an enum only"),
            25 => ("the arm comes after `_`", Expression, "move `_` to the end, or remove the arm"),
            26 => ("an arm names no variant of the enum", Expression, "look the name up in the enum"),
            27 => ("an arm gives names to a variant without fields", Expression, "remove the names in brackets"),
            28 => ("an arm gives no names to a variant with fields", Expression, "name them in brackets"),
            29 => ("an arm gives the wrong number of names", Expression, "give one name for each field"),
            30 => ("the match leaves variants out", Expression, "add arms without guard for them, or `_`"),
            31 => ("the record's fields are wrong", Expression, "give each field of the definition once"),
            32 => ("there is no such field", Expression, "look the name up in the record"),
            33 => ("the name is not open here", Expression, "use it after its let, inside the let's block or the arm"),
            34 => ("the name was bound before in this rule", Expression, "give each binding a name of its own"),
            35 => ("a type is not fully known", Expression, "write the type out"),
            36 => (
                "the definition has parameters, or is no record",
                Expression,
                "use one without parameters; for a record, a record",
            ),
            37 => ("the rule has more than 2,048 unknown types", None, "write types at lets, or split the rule"),
            38 => ("a variable is unknown", Variable, "no pack leads to this: report it as a fault of the checker"),
            39 => (
                "a loop of variables would close",
                Variable,
                "no pack leads to this: report it as a fault of the checker",
            ),
            40 => ("a field's type is not fully known", Definition, "write the type out"),
            41 => ("the type contains itself", Definition, "put a list or a runtime type between"),
            50 => ("the constant references itself", Value, "give it a value of its own"),
            51 => ("the constant lies on a cycle", Value, "break the cycle: only functions may call each other round"),
            52 => ("the constant depends on the context", Value, "make it a function, or take the context out"),
            _ => ("the number is unknown", None, "this is no answer of the checker: report it"),
        }
    }
}

fn table(detail: u64) -> &'static str {
    ["type", "definition", "expression", "root", "value"].get(detail as usize).unwrap_or(&"row of no table,")
}

impl fmt::Display for Refusal {
    fn fmt(&self, f: &mut fmt::Formatter<'_>) -> fmt::Result {
        let (what, place, advice) = self.told();
        write!(f, "refused ({}): {what}", self.number)?;
        match self.number {
            30 => write!(f, " ({} missing)", self.detail)?,
            31 => {
                let [invalid, duplicate, missing] = [28, 14, 0].map(|shift| self.detail >> shift & 0x3FFF);
                write!(f, " ({invalid} invalid, {duplicate} duplicate, {missing} missing)")?;
            }
            _ => {}
        }
        match place {
            Place::None => {}
            Place::Row => write!(f, ", at {} {}", table(self.detail), self.place)?,
            Place::Expression => write!(f, ", at expression {}", self.place)?,
            Place::Definition => write!(f, ", at definition {}", self.place)?,
            Place::Value => write!(f, ", at value {}", self.place)?,
            Place::Variable => write!(f, ", at variable {}", self.place)?,
        }
        write!(f, "; {advice}")
    }
}

impl std::error::Error for Refusal {}

#[cfg(test)]
mod tests {
    use super::Refusal;

    fn said(number: u32, place: u32, detail: u64) -> String {
        Refusal { number, place, detail }.to_string()
    }

    #[test]
    fn sentences() {
        assert_eq!(
            said(10, 7, 2),
            "refused (10): a kind, operator or primitive is unknown, or something unused is not zero, at expression 7; \
             the fault is in how the pack was made: send the numbers to whoever builds packs"
        );
        assert_eq!(
            said(30, 4, 2),
            "refused (30): the match leaves variants out (2 missing), at expression 4; add arms without guard for \
             them, or `_`"
        );
        assert!(
            said(31, 4, (1 << 28) + (2 << 14) + 3).contains("(1 invalid, 2 duplicate, 3 missing), at expression 4")
        );
        assert!(said(41, 3, 0).contains(", at definition 3; "));
        assert!(said(51, 3, 0).contains(", at value 3; "));
        assert!(said(6, 0, 0).starts_with("refused (6): the result area is too short; "));
    }

    /// Every number of document 01 has a sentence of its own.
    #[test]
    fn every_number() {
        let numbers: Vec<u32> = (1..=6).chain(10..=15).chain(20..=41).chain(50..=52).collect();
        for n in 0..100 {
            assert_eq!(said(n, 0, 0).contains("the number is unknown"), !numbers.contains(&n), "{n}");
        }
    }
}
