//! An image's records as the original has them.

mod expression;
mod statement;

use crate::ast::statements::{
    ContractClause, Param, ParamRefinement, RefineOp, RefineOperand, TypeAnnotation,
};
use crate::ast::{Ast, ExprId};
use crate::stand_ins::span::Span;
use rlimg::image::{Image, NONE, Record};
use rlimg::schema::Section;

/// Puts the expressions into the arena, node i at index i.
pub fn alloc_exprs(image: &Image, arena: &mut Ast) -> Vec<ExprId> {
    let mut ids = Vec::new();
    for record in image.of(Section::Expression) {
        let fields = Fields { image, ids: &ids, record };
        let id = arena.alloc_expr(fields.expression_kind(), fields.span(0));
        assert_eq!(id.index(), ids.len());
        ids.push(id);
    }
    ids
}

/// A record's fields, by their position in the kind's row.
pub struct Fields<'a> {
    pub image: &'a Image,
    /// The expressions that the record may refer to.
    pub ids: &'a [ExprId],
    pub record: &'a Record,
}

impl Fields<'_> {
    pub fn number(&self, position: usize) -> u64 {
        self.record.number(position)
    }

    pub fn span(&self, position: usize) -> Span {
        Span(self.number(position) as u32)
    }

    pub fn text(&self, position: usize) -> String {
        self.text_of(self.number(position) as u16)
    }

    fn text_of(&self, number: u16) -> String {
        let bytes = self.image.text_of(number).expect("a text of the image");
        String::from_utf8(bytes.to_vec()).expect("an accepted text")
    }

    fn node(&self, position: usize) -> ExprId {
        self.node_of(self.number(position) as u16)
    }

    fn node_of(&self, number: u16) -> ExprId {
        self.ids[usize::from(number)]
    }

    pub fn list(&self, position: usize) -> &[u16] {
        let (first, count) = self.record.range(position);
        self.image.list(first, count).expect("a list of the image")
    }

    pub fn nodes(&self, position: usize) -> Vec<ExprId> {
        self.list(position).iter().map(|entry| self.node_of(*entry)).collect()
    }

    /// Each record of a range of another section.
    pub fn range<T>(&self, position: usize, section: Section, of: fn(&Self) -> T) -> Vec<T> {
        let records = self.image.part(section, self.record.range(position));
        let fields = |record| Fields { record, ..*self };
        records.expect("a range of the image").iter().map(|record| of(&fields(record))).collect()
    }

    pub fn param(&self) -> Param {
        Param {
            param_name: self.text(0),
            param_type: TypeAnnotation::Infer,
            refinement: self.refinement(),
        }
    }

    fn refinement(&self) -> Option<ParamRefinement> {
        let op = match self.number(2) {
            0 => return None,
            1 => RefineOp::Gt,
            2 => RefineOp::Ge,
            3 => RefineOp::Lt,
            4 => RefineOp::Le,
            5 => RefineOp::Eq,
            6 => RefineOp::Ne,
            other => panic!("refinement {other}"),
        };
        let operand = match self.number(3) {
            1 => RefineOperand::Integer(self.number(4) as i64),
            2 => RefineOperand::Str(self.text(4)),
            3 => RefineOperand::Bool(self.number(4) == 1),
            4 => RefineOperand::Param(self.text(4)),
            other => panic!("operand sort {other}"),
        };
        Some(ParamRefinement { op, operand })
    }

    pub fn clause(&self) -> ContractClause {
        let message = (self.number(1) != u64::from(NONE)).then(|| self.node(1));
        ContractClause { condition: self.node(0), message }
    }
}
