//! What a record of each kind gives, and what its parts are to give.

use super::super::records::{Type, ADD, CALL, CASE, CONST, IF_ZERO, LEAF, LET, NODE, VAR};

/// What a record of this kind gives. `None` for the kinds that give what their
/// parts give, and for a Call, of which its function says it.
pub fn gives(kind: u8) -> Option<Type> {
    match kind {
        CONST | VAR | ADD => Some(Type::Number),
        LEAF | NODE => Some(Type::Tree),
        _ => None,
    }
}

/// What a part, counted from 0, is expected to give. `None` if that is what is
/// expected of the whole.
pub fn expected(kind: u8, part: usize) -> Option<Type> {
    match (kind, part) {
        (IF_ZERO, 1 | 2) | (LET, 1) | (CASE, _) => None,
        (NODE, _) => Some(Type::Tree),
        _ => Some(Type::Number),
    }
}

/// How many words more stand on entering a part than on entering the whole.
pub fn more_words(kind: u8, part: usize) -> usize {
    match (kind, part) {
        (ADD, 1) | (LET, 1) | (CASE, 0) => 1,
        (CALL, before) => before,
        _ => 0,
    }
}
