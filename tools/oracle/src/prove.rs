//! What the original reports of an image's calls, and what it folds its
//! expressions to.

use crate::ast::ExprId;
use crate::contracts::inside;
use crate::fields::{Fields, alloc_exprs};
use crate::stand_ins::{TypeChecker, span::Span};
use crate::{ConstVal, Report, with_integers};
use rlimg::image::Image;
use rlimg::schema::Section;

/// The functions and calls of an image, as the original has them.
pub struct Original {
    checker: TypeChecker,
    ids: Vec<ExprId>,
    calls: Vec<Call>,
}

struct Call {
    name: String,
    arguments: Vec<ExprId>,
    span: Span,
}

impl Call {
    fn of(call: Fields) -> Call {
        Call { name: call.text(0), arguments: call.nodes(2), span: call.span(1) }
    }
}

impl Original {
    /// Takes an accepted image over, with small constants as Integer;
    /// `record_fn_contracts` has run for each function in order.
    pub fn new(image: &Image) -> Original {
        Original::of_own_kinds(&with_integers(image))
    }

    /// The same with every expression as the kind that it is.
    pub fn of_own_kinds(image: &Image) -> Original {
        let mut checker = TypeChecker::default();
        let ids = alloc_exprs(image, &mut checker.ast_arena);
        let fields = |record| Fields { image, ids: &ids, record };
        for record in image.of(Section::Function) {
            let function = fields(record);
            let params = function.range(2, Section::Parameter, Fields::param);
            let requires = function.range(5, Section::Clause, Fields::clause);
            checker.record_fn_contracts(&function.text(0), &params, &requires);
        }
        let calls = image.of(Section::Call).iter().map(|record| Call::of(fields(record))).collect();
        Original { checker, ids, calls }
    }

    /// `prove_call` for each call in order.
    pub fn reports(&mut self) -> Vec<Report> {
        let mut reports = Vec::new();
        for (index, call) in self.calls.iter().enumerate() {
            self.checker.prove_call(&call.name, &call.arguments, call.span);
            let of_call = |(message, Span(span))| Report { call: index as u32, span, message };
            reports.extend(self.checker.errors.drain(..).map(of_call));
        }
        reports
    }

    /// `const_eval` of an expression, under no names.
    pub fn const_eval(&self, node: usize) -> Option<ConstVal> {
        inside::const_eval(&self.checker, self.ids[node])
    }
}
