//! One table of the records: kind, name and field sorts.

use Section::{Call, Clause, Expression, Function, Parameter, Statement};
use Sort::*;

#[derive(Debug, Clone, Copy, PartialEq, Eq)]
pub enum Section {
    Expression,
    Statement,
    Parameter,
    Clause,
    Function,
    Call,
}

pub const SECTIONS: [Section; 6] = [Expression, Statement, Parameter, Clause, Function, Call];

/// What a field holds. Numbers have their width in bytes.
#[derive(Debug, Clone, Copy, PartialEq, Eq)]
pub enum Sort {
    Span,
    Opaque,
    Text,
    Node,
    NodeOrNone,
    /// A statement other than a match arm.
    Inner,
    /// A ConditionalBranch.
    Branch,
    /// A ConditionalBranch, a Conditional or none.
    ElseBranch,
    Nodes,
    NodePairs,
    Texts,
    /// Pairs of a text and an expression.
    Fields,
    /// Statements other than match arms.
    Body,
    Arms,
    Parameters,
    Clauses,
    Signed(usize),
    Unsigned(usize),
    Float(usize),
    Bool,
    Scalar,
    Operator,
    Refinement,
    OperandSort,
    Operand,
}

impl Sort {
    pub fn width(self) -> usize {
        match self {
            Bool | Operator | Refinement | OperandSort => 1,
            Text | Node | NodeOrNone | Inner | Branch | ElseBranch => 2,
            Span | Opaque | Scalar => 4,
            Operand => 8,
            Signed(width) | Unsigned(width) | Float(width) => width,
            _ => 4,
        }
    }

    /// A list of entries.
    pub fn is_list(self) -> bool {
        matches!(self, Nodes | NodePairs | Texts | Fields | Body | Arms)
    }

    /// A list or a range of another section.
    pub fn is_range(self) -> bool {
        self.is_list() || matches!(self, Parameters | Clauses)
    }

    /// A list whose count is even.
    pub fn is_pairs(self) -> bool {
        matches!(self, NodePairs | Fields)
    }

    /// Whether the entry at this position of such a list is an expression.
    pub fn holds_node(self, position: usize) -> bool {
        matches!(self, Nodes | NodePairs) || (self == Fields && position % 2 == 1)
    }
}

#[derive(Debug)]
pub struct Row {
    pub kind: u8,
    pub section: Section,
    pub name: &'static str,
    pub sorts: &'static [Sort],
}

const fn row(kind: u8, section: Section, name: &'static str, sorts: &'static [Sort]) -> Row {
    Row { kind, section, name, sorts }
}

/// In the order of the kinds.
pub static ROWS: [Row; 62] = [
    row(16, Expression, "Null", &[Span]),
    row(17, Expression, "Integer", &[Span, Signed(8)]),
    row(18, Expression, "SInt", &[Span, Signed(4)]),
    row(19, Expression, "UInt", &[Span, Unsigned(8)]),
    row(20, Expression, "SUInt", &[Span, Unsigned(4)]),
    row(21, Expression, "Byte", &[Span, Unsigned(1)]),
    row(22, Expression, "SByte", &[Span, Signed(1)]),
    row(23, Expression, "BByte", &[Span, Unsigned(2)]),
    row(24, Expression, "BSByte", &[Span, Signed(2)]),
    row(25, Expression, "String", &[Span, Text]),
    row(26, Expression, "Bool", &[Span, Bool]),
    row(27, Expression, "Float", &[Span, Float(8)]),
    row(28, Expression, "SFloat", &[Span, Float(4)]),
    row(29, Expression, "Character", &[Span, Scalar]),
    row(30, Expression, "Identifier", &[Span, Text]),
    row(31, Expression, "ResolvedIdentifier", &[Span, Text, Opaque, Opaque]),
    row(32, Expression, "Binary", &[Span, Node, Operator, Node]),
    row(33, Expression, "Unary", &[Span, Operator, Node]),
    row(34, Expression, "Grouping", &[Span, Node]),
    row(35, Expression, "ArrayLiteral", &[Span, Nodes]),
    row(36, Expression, "MapLiteral", &[Span, NodePairs]),
    row(37, Expression, "SetLiteral", &[Span, Nodes]),
    row(38, Expression, "TupleLiteral", &[Span, Nodes]),
    row(39, Expression, "Assign", &[Span, Text, Node]),
    row(40, Expression, "ResolvedAssign", &[Span, Text, Opaque, Opaque, Node]),
    row(41, Expression, "Call", &[Span, Texts, Nodes]),
    row(42, Expression, "CallExpr", &[Span, Node, Nodes]),
    row(43, Expression, "MethodCall", &[Span, Node, Texts, Nodes]),
    row(44, Expression, "Index", &[Span, Node, Node]),
    row(45, Expression, "IndexAssign", &[Span, Node, Node, Node]),
    row(46, Expression, "Cast", &[Span, Node, Opaque]),
    row(47, Expression, "Is", &[Span, Node, Opaque]),
    row(48, Expression, "ErrorLiteral", &[Span, Node]),
    row(49, Expression, "OkLiteral", &[Span, Node]),
    row(50, Expression, "ErrLiteral", &[Span, Node]),
    row(51, Expression, "Propagate", &[Span, Node]),
    row(52, Expression, "StructLiteral", &[Span, Text, Fields]),
    row(53, Expression, "FieldAccess", &[Span, Node, Text]),
    row(54, Expression, "FieldAssign", &[Span, Node, Text, Node]),
    row(55, Expression, "EnumVariant", &[Span, Text, Text]),
    row(56, Expression, "Lambda", &[Span, Opaque]),
    row(57, Expression, "ResolvedLambda", &[Span, Opaque]),
    row(64, Statement, "VariableDeclaration", &[Span, Text, Opaque, Node, Opaque]),
    row(65, Statement, "Expression", &[Span, Node]),
    row(66, Statement, "Return", &[Span, Node]),
    row(67, Statement, "ReturnAlone", &[Span]),
    row(68, Statement, "Conditional", &[Span, Branch, ElseBranch]),
    row(69, Statement, "ConditionalBranch", &[Span, NodeOrNone, Body, Bool]),
    row(70, Statement, "While", &[Span, Node, Body]),
    row(71, Statement, "Loop", &[Span, Body]),
    row(72, Statement, "For", &[Span, Inner, Node, Node, Body]),
    row(73, Statement, "ForRange", &[Span, Text, Inner, Body]),
    row(74, Statement, "ForEach", &[Span, Text, Node, Body]),
    row(75, Statement, "Match", &[Span, Node, Arms]),
    row(76, Statement, "MatchArm", &[Span, NodeOrNone, Body]),
    row(77, Statement, "Break", &[Span]),
    row(78, Statement, "Continue", &[Span]),
    row(79, Statement, "Other", &[Span, Opaque]),
    row(80, Parameter, "Param", &[Text, Opaque, Refinement, OperandSort, Operand]),
    row(81, Clause, "ContractClause", &[Node, NodeOrNone]),
    row(
        82,
        Function,
        "FunctionDeclaration",
        &[Text, Span, Parameters, Bool, Body, Clauses, Clauses],
    ),
    row(83, Call, "Call", &[Text, Span, Nodes]),
];

/// The row of a kind.
pub fn of_kind(kind: u8) -> Option<&'static Row> {
    let found = ROWS.binary_search_by_key(&kind, |row| row.kind);
    found.ok().map(|position| &ROWS[position])
}

/// The row of a name in a section.
pub fn of_name(section: Section, name: &str) -> Option<&'static Row> {
    rows(section).find(|row| row.name == name)
}

/// The rows of a section.
pub fn rows(section: Section) -> impl Iterator<Item = &'static Row> {
    ROWS.iter().filter(move |row| row.section == section)
}
