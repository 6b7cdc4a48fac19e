//! What the original's files lean on and is not among them.

use crate::ast::Ast;
use crate::contracts::FnContracts;
use span::Span;
use std::collections::HashMap;

/// For `rl_utils::span`: the image's span.
pub mod span {
    #[derive(Debug, Clone, Copy, PartialEq)]
    pub struct Span(pub u32);
}

/// For `rl_lexer::tokentypes`: the tokens that the original matches on, and
/// one for all others, with the image's number.
pub mod tokentypes {
    #[derive(Debug, Clone, PartialEq)]
    pub enum TokenType {
        Plus,
        Minus,
        Star,
        Slash,
        Bang,
        Compare,
        BangEqual,
        Less,
        LessEqual,
        Greater,
        GreaterEqual,
        Other(u8),
    }
}

/// For rl-checker's `TypeChecker`: the fields that `contracts` uses.
#[derive(Default)]
pub struct TypeChecker {
    pub ast_arena: Ast,
    pub fn_contracts: HashMap<String, FnContracts>,
    pub errors: Vec<(String, Span)>,
}

impl TypeChecker {
    pub fn error(&mut self, message: impl Into<String>, span: Span) {
        self.errors.push((message.into(), span));
    }
}
