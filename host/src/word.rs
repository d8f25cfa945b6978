//! The words of a root's report.

/// What a report says of one expression.
#[derive(Clone, Copy, Debug, PartialEq, Eq)]
pub struct Word {
    /// Whether it never gives a value, since it always returns.
    pub diverges: bool,
    /// The function that its operator stands for, if it stands for one.
    pub call: Option<Call>,
    /// Its type.
    pub of: Type,
}

/// A function that an operator stands for.
#[derive(Clone, Copy, Debug, PartialEq, Eq)]
pub enum Call {
    PrefixNew,
    StringAppend,
    ListConcat,
}

/// The type of an expression.
#[derive(Clone, Copy, Debug, PartialEq, Eq)]
pub enum Type {
    Never,
    Unit,
    Primitive(Primitive),
    /// A type row of the pack: the smallest one of this structure.
    Row(u16),
    /// Nothing said which type it is; expressions with the same number have the same type.
    Unset(u16),
    UnsetInteger(u16),
    UnsetFloat(u16),
    /// A definition without arguments.
    Definition(u16),
}

#[derive(Clone, Copy, Debug, PartialEq, Eq)]
pub enum Primitive {
    String,
    Char,
    Asn,
    IpAddr,
    Bool,
    Prefix,
    I8,
    I16,
    I32,
    I64,
    U8,
    U16,
    U32,
    U64,
    F32,
    F64,
}

impl Primitive {
    /// The primitive of document 01's number.
    pub fn from_number(number: u16) -> Option<Primitive> {
        use Primitive::*;
        Some(match number {
            0 => String,
            1 => Char,
            2 => Asn,
            3 => IpAddr,
            4 => Bool,
            5 => Prefix,
            8 => I8,
            9 => I16,
            10 => I32,
            11 => I64,
            12 => U8,
            13 => U16,
            14 => U32,
            15 => U64,
            16 => F32,
            17 => F64,
            _ => return None,
        })
    }
}

impl Word {
    /// Reads a word: diverges 1 bit, call 2, tag 3, zero 12, number 14. `None` for bits that no report has.
    pub fn decode(bits: u32) -> Option<Word> {
        let number = (bits & 0x3FFF) as u16;
        if bits >> 14 & 0xFFF != 0 {
            return None;
        }
        let of = match bits >> 26 & 7 {
            0 if number == 0 => Type::Never,
            1 if number == 0 => Type::Unit,
            2 => Type::Primitive(Primitive::from_number(number)?),
            3 => Type::Row(number),
            4 => Type::Unset(number),
            5 => Type::UnsetInteger(number),
            6 => Type::UnsetFloat(number),
            7 => Type::Definition(number),
            _ => return None,
        };
        let call = match bits >> 29 & 3 {
            0 => None,
            1 => Some(Call::PrefixNew),
            2 => Some(Call::StringAppend),
            _ => Some(Call::ListConcat),
        };
        Some(Word { diverges: bits >> 31 == 1, call, of })
    }
}

#[cfg(test)]
mod tests {
    use super::*;

    #[test]
    fn words() {
        let word = |diverges, call, of| Some(Word { diverges, call, of });
        assert_eq!(Word::decode(0), word(false, None, Type::Never));
        assert_eq!(Word::decode(0x0800_0004), word(false, None, Type::Primitive(Primitive::Bool)));
        assert_eq!(Word::decode(0x8400_0000), word(true, None, Type::Unit));
        assert_eq!(Word::decode(0x2800_0005), word(false, Some(Call::PrefixNew), Type::Primitive(Primitive::Prefix)));
        assert_eq!(
            Word::decode(0x4800_0000),
            word(false, Some(Call::StringAppend), Type::Primitive(Primitive::String))
        );
        assert_eq!(Word::decode(0x7C00_0001), word(false, Some(Call::ListConcat), Type::Definition(1)));
        assert_eq!(Word::decode(0x1400_0002), word(false, None, Type::UnsetInteger(2)));
        for bits in [u32::MAX, 1, 0x0400_0001, 0x0800_0006, 0x0800_0012, 0x0000_4000, 0x1200_0000] {
            assert_eq!(Word::decode(bits), None, "{bits:08X}");
        }
    }
}
