//! The original's expressions and statements as shapes.

use crate::ast::nodes::{Expression, ExpressionKind};
use crate::ast::statements::{
    MatchPattern, Statement, StatementKind, TypeAnnotation, UnitAnnotation,
};
use crate::ast::{Ast, ExprId};
use crate::shape::{Part, Shape, Shapes};
use crate::stand_ins::tokentypes::TokenType;
use rlimg::schema::{self, Section};

pub fn of(arena: &mut Ast, body: &[Statement]) -> Shapes {
    let nodes = arena.exprs.raw_parts_mut().1.iter().map(expression).collect();
    Shapes { nodes, body: body.iter().map(inner).collect() }
}

fn number(number: impl TryInto<u64>) -> Part {
    Part::Number(number.try_into().unwrap_or_else(|_| panic!("a number of 64 bits")))
}

fn text(text: &str) -> Part {
    Part::Text(text.to_string())
}

fn texts(list: &[String]) -> Part {
    Part::List(list.iter().map(|entry| text(entry)).collect())
}

fn node(id: &ExprId) -> Part {
    Part::Node(id.index())
}

fn node_or_none(id: Option<&ExprId>) -> Part {
    id.map_or(Part::Nothing, node)
}

fn nodes(list: &[ExprId]) -> Part {
    Part::List(list.iter().map(node).collect())
}

/// The number that an opaque field had.
fn opaque_type(annotation: &TypeAnnotation) -> Part {
    match annotation {
        TypeAnnotation::Infer => number(0u64),
        TypeAnnotation::Record(name) => number(name.parse::<u64>().expect("a number")),
        other => panic!("{other:?} comes of no image"),
    }
}

fn operator(token: &TokenType) -> Part {
    number(match token {
        TokenType::Plus => 1,
        TokenType::Minus => 2,
        TokenType::Star => 3,
        TokenType::Slash => 4,
        TokenType::Bang => 5,
        TokenType::Compare => 6,
        TokenType::BangEqual => 7,
        TokenType::Less => 8,
        TokenType::LessEqual => 9,
        TokenType::Greater => 10,
        TokenType::GreaterEqual => 11,
        TokenType::Other(other) => *other,
    })
}

fn expression(expression: &Expression) -> Shape {
    let (name, parts) = kind_and_parts(&expression.kind);
    let row = schema::of_name(Section::Expression, name).expect("a name of the section");
    Shape { kind: row.kind, span: Some(expression.span.0), parts }
}

fn kind_and_parts(kind: &ExpressionKind) -> (&'static str, Vec<Part>) {
    use ExpressionKind::*;
    match kind {
        Null => ("Null", vec![]),
        Integer(value) => ("Integer", vec![number(*value as u64)]),
        SInt(value) => ("SInt", vec![number(*value as u32)]),
        UInt(value) => ("UInt", vec![number(*value)]),
        SUInt(value) => ("SUInt", vec![number(*value)]),
        Byte(value) => ("Byte", vec![number(*value)]),
        SByte(value) => ("SByte", vec![number(*value as u8)]),
        BByte(value) => ("BByte", vec![number(*value)]),
        BSByte(value) => ("BSByte", vec![number(*value as u16)]),
        String(value) => ("String", vec![text(value)]),
        Bool(value) => ("Bool", vec![number(u8::from(*value))]),
        Float(value) => ("Float", vec![number(value.to_bits())]),
        SFloat(value) => ("SFloat", vec![number(value.to_bits())]),
        Character(value) => ("Character", vec![number(*value as u32)]),
        Identifier(name) => ("Identifier", vec![text(name)]),
        ResolvedIdentifier { name, depth, slot } => {
            ("ResolvedIdentifier", vec![text(name), number(*depth), number(*slot)])
        }
        Binary { left, operator: token, right } => {
            ("Binary", vec![node(left), operator(token), node(right)])
        }
        Unary { operator: token, operand } => ("Unary", vec![operator(token), node(operand)]),
        Grouping(inner) => ("Grouping", vec![node(inner)]),
        ArrayLiteral(items) => ("ArrayLiteral", vec![nodes(items)]),
        SetLiteral(items) => ("SetLiteral", vec![nodes(items)]),
        TupleLiteral(items) => ("TupleLiteral", vec![nodes(items)]),
        MapLiteral(pairs) => {
            let pairs = pairs.iter().flat_map(|(key, value)| [node(key), node(value)]);
            ("MapLiteral", vec![Part::List(pairs.collect())])
        }
        Assign { name, value } => ("Assign", vec![text(name), node(value)]),
        ResolvedAssign { name, depth, slot, value } => {
            ("ResolvedAssign", vec![text(name), number(*depth), number(*slot), node(value)])
        }
        Call { path, args } => ("Call", vec![texts(path), nodes(args)]),
        CallExpr { callee, args } => ("CallExpr", vec![node(callee), nodes(args)]),
        MethodCall { caller, method, args } => {
            ("MethodCall", vec![node(caller), texts(method), nodes(args)])
        }
        Index { target, index } => ("Index", vec![node(target), node(index)]),
        IndexAssign { target, index, value } => {
            ("IndexAssign", vec![node(target), node(index), node(value)])
        }
        Cast { value, target_type } => ("Cast", vec![node(value), opaque_type(target_type)]),
        Is { value, target_type } => ("Is", vec![node(value), opaque_type(target_type)]),
        ErrorLiteral(inner) => ("ErrorLiteral", vec![node(inner)]),
        OkLiteral(inner) => ("OkLiteral", vec![node(inner)]),
        ErrLiteral(inner) => ("ErrLiteral", vec![node(inner)]),
        Propagate(inner) => ("Propagate", vec![node(inner)]),
        StructLiteral { name, fields } => {
            let fields = fields.iter().flat_map(|(field, value)| [text(field), node(value)]);
            ("StructLiteral", vec![text(name), Part::List(fields.collect())])
        }
        FieldAccess { target, field } => ("FieldAccess", vec![node(target), text(field)]),
        FieldAssign { target, field, value } => {
            ("FieldAssign", vec![node(target), text(field), node(value)])
        }
        EnumVariant { enum_name, variant } => ("EnumVariant", vec![text(enum_name), text(variant)]),
        Lambda { return_type, .. } => {
            let hidden = return_type.as_ref().expect("the type that the image's number became");
            ("Lambda", vec![opaque_type(hidden)])
        }
        ResolvedLambda { capture_depth, .. } => ("ResolvedLambda", vec![number(*capture_depth)]),
    }
}

fn statement(statement: &Statement) -> Shape {
    let (kind, parts) = statement_parts(&statement.kind);
    Shape { kind, span: Some(statement.span.0), parts }
}

fn inner(inner: &Statement) -> Part {
    Part::Inner(Box::new(statement(inner)))
}

fn body(statements: &[Statement]) -> Part {
    Part::List(statements.iter().map(inner).collect())
}

fn statement_parts(kind: &StatementKind) -> (u8, Vec<Part>) {
    use StatementKind::*;
    match kind {
        VariableDeclaration { name, type_annotation, value, unit_annotation, .. } => {
            let unit = match unit_annotation {
                None => number(0u64),
                Some(UnitAnnotation::Symbol(unit)) => {
                    number(unit.parse::<u64>().expect("a number"))
                }
                Some(other) => panic!("{other:?} comes of no image"),
            };
            (64, vec![text(name), opaque_type(type_annotation), node(value), unit])
        }
        Expression(value) => (65, vec![node(value)]),
        Return(Some(value)) => (66, vec![node(value)]),
        Return(None) => (67, vec![]),
        Conditional { if_branch, else_branch } => {
            let other = else_branch.as_ref().map_or(Part::Nothing, |other| inner(other));
            (68, vec![inner(if_branch), other])
        }
        ConditionalBranch { condition, body: list, needs_scope } => {
            let scope = number(u8::from(*needs_scope));
            (69, vec![node_or_none(condition.as_ref()), body(list), scope])
        }
        While { condition, body: list } => (70, vec![node(condition), body(list)]),
        Loop(list) => (71, vec![body(list)]),
        For { initializer, condition, increment, body: list } => {
            (72, vec![inner(initializer), node(condition), node(increment), body(list)])
        }
        ForRange { variable, range, body: list } => {
            (73, vec![text(variable), inner(range), body(list)])
        }
        ForEach { variable, iterable, body: list } => {
            (74, vec![text(variable), node(iterable), body(list)])
        }
        Match { value, arms } => {
            (75, vec![node(value), Part::List(arms.iter().map(arm).collect())])
        }
        Break => (77, vec![]),
        Continue => (78, vec![]),
        Range(numbers) => (79, vec![number(numbers[0])]),
        other => panic!("{other:?} comes of no image"),
    }
}

/// The original has no statement for an arm.
fn arm((pattern, list): &(MatchPattern, Vec<Statement>)) -> Part {
    let pattern = match pattern {
        MatchPattern::Literal(literal) => Some(literal),
        MatchPattern::Wildcard => None,
    };
    let parts = vec![node_or_none(pattern), body(list)];
    Part::Inner(Box::new(Shape { kind: 76, span: None, parts }))
}
