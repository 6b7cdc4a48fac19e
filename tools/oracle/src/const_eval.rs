//! The original's `const_eval`. It is private in the module of the checker's
//! contracts, and `build.rs` puts this one inside that.

use super::ConstVal as Theirs;
use crate::{ConstVal, ExprId, TypeChecker};
use std::collections::HashMap;

/// What an expression folds to under no names.
pub fn const_eval(checker: &TypeChecker, id: ExprId) -> Option<ConstVal> {
    Some(match checker.const_eval(id, &HashMap::new())? {
        Theirs::Int(value) => ConstVal::Int(value),
        Theirs::Float(value) => ConstVal::Float(value.to_bits()),
        Theirs::Str(text) => ConstVal::Str(text.into_bytes()),
        Theirs::Bool(value) => ConstVal::Bool(value),
    })
}
