//! Each expression kind of the image as its `ExpressionKind`. A record's
//! field 0 is its span.

use super::Fields;
use crate::ast::ExprId;
use crate::ast::nodes::ExpressionKind;
use crate::ast::statements::TypeAnnotation;
use crate::stand_ins::tokentypes::TokenType;
use rlimg::schema;

impl Fields<'_> {
    pub fn expression_kind(&self) -> ExpressionKind {
        let row = schema::of_kind(self.record.kind).expect("a kind of the format");
        match row.kind {
            16 => ExpressionKind::Null,
            17..=29 => self.literal(row.name, self.number(1)),
            30..=34 | 39 | 40 => self.name_or_operator(row.name),
            35..=38 | 41..=43 | 52 => self.with_list(row.name),
            _ => self.other(row.name),
        }
    }

    fn literal(&self, name: &str, bits: u64) -> ExpressionKind {
        use ExpressionKind::*;
        match name {
            "Integer" => Integer(bits as i64),
            "SInt" => SInt(bits as i32),
            "UInt" => UInt(bits),
            "SUInt" => SUInt(bits as u32),
            "Byte" => Byte(bits as u8),
            "SByte" => SByte(bits as i8),
            "BByte" => BByte(bits as u16),
            "BSByte" => BSByte(bits as i16),
            "String" => String(self.text(1)),
            "Bool" => Bool(bits == 1),
            "Float" => Float(f64::from_bits(bits)),
            "SFloat" => SFloat(f32::from_bits(bits as u32)),
            "Character" => Character(char::from_u32(bits as u32).expect("a Unicode scalar")),
            _ => panic!("{name} is no literal"),
        }
    }

    fn name_or_operator(&self, name: &str) -> ExpressionKind {
        use ExpressionKind::*;
        match name {
            "Identifier" => Identifier(self.text(1)),
            "ResolvedIdentifier" => {
                ResolvedIdentifier { name: self.text(1), depth: self.size(2), slot: self.size(3) }
            }
            "Binary" => {
                Binary { left: self.node(1), operator: self.operator(2), right: self.node(3) }
            }
            "Unary" => Unary { operator: self.operator(1), operand: self.node(2) },
            "Grouping" => Grouping(self.node(1)),
            "Assign" => Assign { name: self.text(1), value: self.node(2) },
            "ResolvedAssign" => ResolvedAssign {
                name: self.text(1),
                depth: self.size(2),
                slot: self.size(3),
                value: self.node(4),
            },
            _ => panic!("{name} has no name and no operator"),
        }
    }

    fn with_list(&self, name: &str) -> ExpressionKind {
        use ExpressionKind::*;
        match name {
            "ArrayLiteral" => ArrayLiteral(self.nodes(1)),
            "MapLiteral" => MapLiteral(self.pairs(1, Self::node_of)),
            "SetLiteral" => SetLiteral(self.nodes(1)),
            "TupleLiteral" => TupleLiteral(self.nodes(1)),
            "Call" => Call { path: self.texts(1), args: self.nodes(2) },
            "CallExpr" => CallExpr { callee: self.node(1), args: self.nodes(2) },
            "MethodCall" => {
                MethodCall { caller: self.node(1), method: self.texts(2), args: self.nodes(3) }
            }
            "StructLiteral" => {
                StructLiteral { name: self.text(1), fields: self.pairs(2, Self::text_of) }
            }
            _ => panic!("{name} has no list"),
        }
    }

    fn other(&self, name: &str) -> ExpressionKind {
        use ExpressionKind::*;
        let (params, body) = (Vec::new(), Vec::new());
        match name {
            "Index" => Index { target: self.node(1), index: self.node(2) },
            "IndexAssign" => {
                IndexAssign { target: self.node(1), index: self.node(2), value: self.node(3) }
            }
            "Cast" => Cast { value: self.node(1), target_type: self.opaque_type(2) },
            "Is" => Is { value: self.node(1), target_type: self.opaque_type(2) },
            "ErrorLiteral" => ErrorLiteral(self.node(1)),
            "OkLiteral" => OkLiteral(self.node(1)),
            "ErrLiteral" => ErrLiteral(self.node(1)),
            "Propagate" => Propagate(self.node(1)),
            "FieldAccess" => FieldAccess { target: self.node(1), field: self.text(2) },
            "FieldAssign" => {
                FieldAssign { target: self.node(1), field: self.text(2), value: self.node(3) }
            }
            "EnumVariant" => EnumVariant { enum_name: self.text(1), variant: self.text(2) },
            "Lambda" => Lambda { params, return_type: Some(self.opaque_type(1)), body },
            "ResolvedLambda" => {
                ResolvedLambda { params, return_type: None, body, capture_depth: self.size(1) }
            }
            _ => panic!("{name} is no expression"),
        }
    }

    /// A type for the number in an opaque field; 0 is Infer.
    pub fn opaque_type(&self, position: usize) -> TypeAnnotation {
        match self.number(position) {
            0 => TypeAnnotation::Infer,
            number => TypeAnnotation::Record(number.to_string()),
        }
    }

    fn size(&self, position: usize) -> usize {
        self.number(position) as usize
    }

    fn texts(&self, position: usize) -> Vec<String> {
        self.list(position).iter().map(|entry| self.text_of(*entry)).collect()
    }

    /// A list of pairs whose second halves are expressions.
    fn pairs<T>(&self, position: usize, first: fn(&Self, u16) -> T) -> Vec<(T, ExprId)> {
        let pairs = self.list(position).chunks_exact(2);
        pairs.map(|pair| (first(self, pair[0]), self.node_of(pair[1]))).collect()
    }

    fn operator(&self, position: usize) -> TokenType {
        match self.number(position) {
            1 => TokenType::Plus,
            2 => TokenType::Minus,
            3 => TokenType::Star,
            4 => TokenType::Slash,
            5 => TokenType::Bang,
            6 => TokenType::Compare,
            7 => TokenType::BangEqual,
            8 => TokenType::Less,
            9 => TokenType::LessEqual,
            10 => TokenType::Greater,
            11 => TokenType::GreaterEqual,
            other => TokenType::Other(other as u8),
        }
    }
}
