//! The three proved functions behind safe ones: the only unsafe code of this crate.

use crate::Refusal;

/// The functions as the library has them. A slice is a pointer and then a length.
pub mod entries {
    unsafe extern "C" {
        pub fn rulepack_types(pack: *const u8, length: usize, place: *mut u32, detail: *mut u64) -> u32;

        pub fn rulepack_root(
            pack: *const u8,
            length: usize,
            root: u64,
            area: *mut u8,
            size: usize,
            place: *mut u32,
            detail: *mut u64,
        ) -> u32;

        pub fn rulepack_order(
            pack: *const u8,
            length: usize,
            area: *mut u8,
            size: usize,
            place: *mut u32,
            detail: *mut u64,
        ) -> u32;
    }
}

/// Calls with place and detail lent. They hold other numbers before, so that one that was not written shows.
fn asked(call: impl FnOnce(&mut u32, &mut u64) -> u32) -> Result<(), Refusal> {
    let (mut place, mut detail) = (u32::MAX, u64::MAX);
    match call(&mut place, &mut detail) {
        0 => Ok(()),
        number => Err(Refusal { number, place, detail }),
    }
}

/// Checks the type definitions of a pack.
///
/// # Errors
///
/// 1 to 4 and 10 to 15 for bytes that are no well-formed pack, 40 and 41 for a definition that is not sound.
pub fn check_types(pack: &[u8]) -> Result<(), Refusal> {
    asked(|place, detail| {
        // SAFETY: the pack is read within its length; place and detail are written; nothing is kept.
        unsafe { entries::rulepack_types(pack.as_ptr(), pack.len(), place, detail) }
    })
}

/// Checks one root of a pack. Its report is 4 bytes at 4 times the number of each expression of this root, as
/// [`Word::decode`](crate::Word::decode) reads them; the other bytes of the area stay as they are, and all of them do
/// where the root is refused.
///
/// # Errors
///
/// 1 to 4 and 10 to 15 for bytes that are no well-formed pack, 5 where it has no such root, 6 where the area has less
/// than 4 bytes for each expression of the pack, 20 to 37 for a rule that is not well-typed.
pub fn check_root(pack: &[u8], root: u64, area: &mut [u8]) -> Result<(), Refusal> {
    asked(|place, detail| {
        // SAFETY: the pack is read and the area written within their lengths; nothing is kept.
        unsafe { entries::rulepack_root(pack.as_ptr(), pack.len(), root, area.as_mut_ptr(), area.len(), place, detail) }
    })
}

/// Orders the values of a pack. The report is their numbers as listed, 2 bytes each, most significant first, from the
/// area's first byte on; the other bytes stay as they are, and all of them do where the values are refused.
///
/// # Errors
///
/// 1 to 4 and 10 to 15 for bytes that are no well-formed pack, 6 where the area has less than 2 bytes for each value,
/// 50 to 52 for a constant that depends on itself or on the context.
pub fn order(pack: &[u8], area: &mut [u8]) -> Result<(), Refusal> {
    asked(|place, detail| {
        // SAFETY: the pack is read and the area written within their lengths; nothing is kept.
        unsafe { entries::rulepack_order(pack.as_ptr(), pack.len(), area.as_mut_ptr(), area.len(), place, detail) }
    })
}
