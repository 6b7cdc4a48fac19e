//! Each statement kind of the image as its `StatementKind`, with all that is
//! below it: a shared record is there once for each path to it.

use super::Fields;
use crate::ast::statements::{MatchPattern, Statement, StatementKind, UnitAnnotation};
use rlimg::image::NONE;
use rlimg::schema::Section;

impl Fields<'_> {
    /// The statements of a list.
    pub fn statements(&self, position: usize) -> Vec<Statement> {
        self.list(position).iter().map(|number| self.of_statement(*number).statement()).collect()
    }

    fn of_statement(&self, number: u16) -> Self {
        let record = &self.image.of(Section::Statement)[usize::from(number)];
        Fields { record, ..*self }
    }

    fn inner(&self, position: usize) -> Box<Statement> {
        Box::new(self.of_statement(self.number(position) as u16).statement())
    }

    fn is_none(&self, position: usize) -> bool {
        self.number(position) == u64::from(NONE)
    }

    fn statement(&self) -> Statement {
        Statement::new(self.statement_kind(), self.span(0))
    }

    fn statement_kind(&self) -> StatementKind {
        use StatementKind::*;
        match self.record.kind {
            64 => VariableDeclaration {
                name: self.text(1),
                type_annotation: self.opaque_type(2),
                value: self.node(3),
                unit_annotation: match self.number(4) {
                    0 => None,
                    number => Some(UnitAnnotation::Symbol(number.to_string())),
                },
                item_attributes: Vec::new(),
            },
            65 => Expression(self.node(1)),
            66 => Return(Some(self.node(1))),
            67 => Return(None),
            68 => Conditional {
                if_branch: self.inner(1),
                else_branch: (!self.is_none(2)).then(|| self.inner(2)),
            },
            69 => ConditionalBranch {
                condition: (!self.is_none(1)).then(|| self.node(1)),
                body: self.statements(2),
                needs_scope: self.number(3) == 1,
            },
            70 => While { condition: self.node(1), body: self.statements(2) },
            71 => Loop(self.statements(1)),
            72 => For {
                initializer: self.inner(1),
                condition: self.node(2),
                increment: self.node(3),
                body: self.statements(4),
            },
            73 => {
                ForRange { variable: self.text(1), range: self.inner(2), body: self.statements(3) }
            }
            74 => {
                ForEach { variable: self.text(1), iterable: self.node(2), body: self.statements(3) }
            }
            75 => Match {
                value: self.node(1),
                arms: self.list(2).iter().map(|arm| self.of_statement(*arm).arm()).collect(),
            },
            77 => Break,
            78 => Continue,
            // A kind that no part of lowering looks into.
            79 => Range(vec![self.number(1) as i64]),
            kind => panic!("kind {kind} is no statement of a list"),
        }
    }

    fn arm(&self) -> (MatchPattern, Vec<Statement>) {
        let pattern = match self.is_none(1) {
            true => MatchPattern::Wildcard,
            false => MatchPattern::Literal(self.node(1)),
        };
        (pattern, self.statements(2))
    }
}
