//! The rule pack checker for Rust hosts.
//!
//! A *rule pack* is a string of bytes that a build makes of people's rules. Three questions can be asked of it, each
//! answered by a function that is proved to follow document 01 for every input:
//!
//! - [`check_types`]: are the type definitions sound (nothing contains itself)?
//! - [`check_root`]: is one rule (a *root*) well-typed? The report says the type of each of its expressions.
//! - [`order`]: in which order must constants and functions be compiled?
//!
//! The answer is a report, or one [`Refusal`] that says what is wrong and where. These three write into an area that
//! the caller lends; [`root_report`] and [`order_report`] own their areas and give plain Rust types.
//!
//! # The refused version comparison
//!
//! A rule is meant for devices older than 1.9 and compares versions as text: `"1.10" < "1.9"`. As text that is true,
//! since `1` comes before `9`, though 1.10 is the newer one. So `<` takes numbers only:
//!
//! ```
//! let mut pack = b"RPK\x01".to_vec();
//! for count in [1u16, 0, 3, 1, 0, 1] {
//!     pack.extend(count.to_be_bytes()); // 1 type, 3 expressions, 1 root, 1 list word
//! }
//! pack.extend([0x20, 0x01, 0, 0]); // type 0: bool
//! pack.extend([0; 8]); // expression 0: a String literal, "1.10"
//! pack.extend([0; 8]); // expression 1: a String literal, "1.9"
//! pack.extend([0x14, 0x20, 0, 0, 1, 0, 0, 0]); // expression 2: 0 < 1
//! pack.extend([0, 0x08, 0, 0, 0, 0, 0, 0]); // root 0: body 2, returns bool
//! pack.extend([0, 0]); // list 0: no parameters
//!
//! let refusal = rulepack::root_report(&pack, 0).unwrap_err();
//! assert_eq!((refusal.number, refusal.place), (21, 0));
//! assert_eq!(
//!     refusal.to_string(),
//!     "refused (21): the left operand is not a number, at expression 0; compare or compute with numbers"
//! );
//! ```
//!
//! With two numbers in place of the strings the rule passes:
//!
//! ```
//! # let mut pack = b"RPK\x01".to_vec();
//! # for count in [1u16, 0, 3, 1, 0, 1] {
//! #     pack.extend(count.to_be_bytes());
//! # }
//! # pack.extend([0x20, 0x01, 0, 0]);
//! # pack.extend([0, 0x50, 0, 0, 0, 0, 0, 0]);
//! # pack.extend([0, 0x50, 0, 0, 0, 0, 0, 0]);
//! # pack.extend([0x14, 0x20, 0, 0, 1, 0, 0, 0]);
//! # pack.extend([0, 0x08, 0, 0, 0, 0, 0, 0]);
//! # pack.extend([0, 0]);
//! use rulepack::{Primitive, Type};
//! let report = rulepack::root_report(&pack, 0)?;
//! let comparison = report.last().unwrap();
//! assert_eq!(comparison.word.of, Type::Primitive(Primitive::Bool));
//! # Ok::<(), rulepack::Refusal>(())
//! ```

mod call;
mod refusal;
mod word;

#[doc(hidden)]
pub use call::entries;
pub use call::{check_root, check_types, order};
pub use refusal::Refusal;
pub use word::{Call, Primitive, Type, Word};

/// The stack that a call of this crate needs, at most: 640 KiB. It is measured on the deepest packs of every kind
/// (tests/stack.rs), not proved. A thread made for calls can be given this much and no more:
///
/// ```
/// let asked = std::thread::Builder::new().stack_size(rulepack::STACK).spawn(|| rulepack::check_types(b"no pack"));
/// assert_eq!(asked?.join().unwrap().unwrap_err().number, 1);
/// # Ok::<(), std::io::Error>(())
/// ```
pub const STACK: usize = 640 << 10;

/// A node of a root and what the report says of it.
#[derive(Clone, Copy, Debug, PartialEq, Eq)]
pub struct Node {
    /// The expression's number.
    pub id: u16,
    pub word: Word,
}

/// A count in a pack's header, 0 where the header is cut. Place 2 has the expressions, place 4 the values.
fn count(pack: &[u8], place: usize) -> usize {
    match pack.get(4 + 2 * place..6 + 2 * place) {
        Some([high, low]) => usize::from(u16::from_be_bytes([*high, *low])),
        _ => 0,
    }
}

/// A byte that makes no word: bits that are zero in every word are set.
const NO_WORD: u8 = 0xFF;

/// Checks a root, and gives the type of each of its expressions, by rising number.
pub fn root_report(pack: &[u8], root: u64) -> Result<Vec<Node>, Refusal> {
    let mut area = vec![NO_WORD; 4 * count(pack, 2)];
    check_root(pack, root, &mut area)?;
    let words = area.chunks_exact(4).map(|b| u32::from_be_bytes([b[0], b[1], b[2], b[3]]));
    Ok((0..).zip(words).filter_map(|(id, bits)| Word::decode(bits).map(|word| Node { id, word })).collect())
}

/// Orders the values: each comes after what it references, but for functions that reference each other round.
pub fn order_report(pack: &[u8]) -> Result<Vec<u16>, Refusal> {
    let mut area = vec![0; 2 * count(pack, 4)];
    order(pack, &mut area)?;
    Ok(area.chunks_exact(2).map(|b| u16::from_be_bytes([b[0], b[1]])).collect())
}
