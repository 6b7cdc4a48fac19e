//! What the original makes of a function with contracts.

#[cfg(original)]
mod shapes;

use crate::shape::Shapes;
use rlimg::image::{Image, Record, Value};
use rlimg::lower::Contract;
use rlimg::schema::{self, Section, Sort};

/// What a function gives back, as far as lowering could tell it apart.
#[derive(Debug, Clone, Copy, PartialEq, Eq)]
pub enum Returns {
    Plain,
    Result,
    CResult,
}

/// What the function's result flag stands for.
pub fn returns(image: &Image, function: usize) -> &'static [Returns] {
    match image.of(Section::Function)[function].number(3) {
        1 => &[Returns::Result, Returns::CResult],
        _ => &[Returns::Plain],
    }
}

/// `desugar_fn_contracts` for one function of an accepted image, as if it gave
/// that back. Panics where the original is not `HERE`.
#[cfg(original)]
pub fn lowered(image: &Image, function: usize, returns: Returns) -> Shapes {
    let mut original = Original::new(image, function, returns);
    let body = original.lowered();
    shapes::of(&mut original.arena, &body)
}

/// How a lowered image differs from what the original makes of the function,
/// whatever its result flag stands for.
pub fn differ(image: &Image, lowered: &Image, function: usize) -> Option<String> {
    let ours = Shapes::of(lowered, function);
    returns(image, function).iter().find_map(|returns| {
        let differs = ours.differ(&self::lowered(image, function, *returns))?;
        Some(format!("as {returns:?}: {differs}"))
    })
}

#[cfg(not(original))]
pub fn lowered(_: &Image, _: usize, _: Returns) -> Shapes {
    panic!("{}", crate::NOT_HERE)
}

/// How many records the original visits or makes for a function, as far as it
/// can be counted: a shared record counts once for each path to it.
pub fn steps(image: &Image, function: usize) -> u64 {
    let nodes = sizes(image, Section::Expression, |_| true);
    let statements = sizes(image, Section::Statement, |_| true);
    let returns = sizes(image, Section::Statement, |record| matches!(record.kind, 66 | 67));
    let function = &image.of(Section::Function)[function];
    let contract = Contract::of(image, function);
    let conditions = |clauses: &[Record]| {
        let sizes = clauses.iter().map(|clause| nodes[clause.number(0) as usize]);
        sizes.fold(0, |sum: u64, size| sum.saturating_add(size).saturating_add(20))
    };
    let (first, count) = function.range(4);
    let body = image.list(first, count).expect("a list of the image");
    let sum = |sizes: &[u64]| {
        body.iter().fold(1, |sum: u64, number| sum.saturating_add(sizes[usize::from(*number)]))
    };
    let wrapped = sum(&returns).saturating_mul(conditions(contract.ensures).saturating_add(20));
    sum(&statements).saturating_add(conditions(contract.requires)).saturating_add(wrapped)
}

/// For each record of the section, how many below it and with it are counted.
fn sizes(image: &Image, section: Section, counted: fn(&Record) -> bool) -> Vec<u64> {
    let mut sizes: Vec<u64> = Vec::new();
    for record in image.of(section) {
        let row = schema::of_kind(record.kind).expect("a kind of the format");
        let mut size = u64::from(counted(record));
        for (sort, value) in row.sorts.iter().zip(&record.values) {
            for child in children(image, section, *sort, *value) {
                size = size.saturating_add(sizes.get(usize::from(child)).copied().unwrap_or(0));
            }
        }
        sizes.push(size);
    }
    sizes
}

/// The records of the same section in a field.
fn children(image: &Image, section: Section, sort: Sort, value: Value) -> Vec<u16> {
    let of_section = |node: bool| node == (section == Section::Expression);
    match (sort, value) {
        (Sort::Node, Value::Number(node)) if of_section(true) => vec![node as u16],
        (Sort::Inner | Sort::Branch | Sort::ElseBranch, Value::Number(statement)) => {
            vec![statement as u16]
        }
        (Sort::Texts, _) => Vec::new(),
        (_, Value::Range(first, count)) if sort.is_list() => {
            let list = image.list(first, count).expect("a list of the image").iter().enumerate();
            let body = matches!(sort, Sort::Body | Sort::Arms);
            let child = |position| body || sort.holds_node(position);
            list.filter(|(position, _)| child(*position) && of_section(!body))
                .map(|(_, number)| *number)
                .collect()
        }
        _ => Vec::new(),
    }
}

pub use original::Original;

#[cfg(not(original))]
mod original {
    use super::Returns;
    use rlimg::image::Image;

    pub struct Original;

    impl Original {
        pub fn new(_: &Image, _: usize, _: Returns) -> Original {
            panic!("{}", crate::NOT_HERE)
        }

        pub fn lower(&mut self) -> usize {
            panic!("{}", crate::NOT_HERE)
        }
    }
}

#[cfg(original)]
mod original {
    use super::Returns;
    use crate::ast::Ast;
    use crate::ast::statements::{ContractClause, Param, Statement, TypeAnnotation};
    use crate::fields::{Fields, alloc_exprs};
    use crate::resolver::desugar_fn_contracts;
    use crate::stand_ins::span::Span;
    use rlimg::image::Image;
    use rlimg::schema::Section;

    /// A function as the original has it.
    pub struct Original {
        pub(super) arena: Ast,
        params: Vec<Param>,
        return_type: TypeAnnotation,
        body: Vec<Statement>,
        requires: Vec<ContractClause>,
        ensures: Vec<ContractClause>,
        span: Span,
    }

    impl Original {
        /// Takes a function of an accepted image over, as if it gave that
        /// back.
        pub fn new(image: &Image, function: usize, returns: Returns) -> Original {
            let mut arena = Ast::new();
            let ids = alloc_exprs(image, &mut arena);
            let record = &image.of(Section::Function)[function];
            let function = Fields { image, ids: &ids, record };
            Original {
                params: function.range(2, Section::Parameter, Fields::param),
                return_type: type_of(returns),
                body: function.statements(4),
                requires: function.range(5, Section::Clause, Fields::clause),
                ensures: function.range(6, Section::Clause, Fields::clause),
                span: function.span(1),
                arena,
            }
        }

        /// Lowers it, which takes its body away; gives the number of statements.
        pub fn lower(&mut self) -> usize {
            self.lowered().len()
        }

        pub(super) fn lowered(&mut self) -> Vec<Statement> {
            desugar_fn_contracts(
                &mut self.arena,
                &self.params,
                &self.return_type,
                std::mem::take(&mut self.body),
                &self.requires,
                &self.ensures,
                self.span,
            )
        }
    }

    fn type_of(returns: Returns) -> TypeAnnotation {
        match returns {
            Returns::Plain => TypeAnnotation::Infer,
            Returns::Result => TypeAnnotation::Result(Box::new(TypeAnnotation::Infer)),
            Returns::CResult => TypeAnnotation::CResult(Box::new(TypeAnnotation::Infer)),
        }
    }
}
