//! Bodies of functions, put together from the inside out.

use crate::builder::{Builder, Function};
use crate::image::{Image, Value, NONE};
use crate::small::{self, Small};

/// Builds an image; each record has another span.
#[derive(Debug, Default)]
pub struct Code {
    pub builder: Builder,
    span: u32,
}

impl Code {
    pub fn new(builder: Builder) -> Code {
        Code { builder, span: 0 }
    }

    pub fn node(&mut self, name: &str, values: &[Value]) -> u16 {
        self.span += 1;
        self.builder.node(self.span, name, values)
    }

    pub fn statement(&mut self, name: &str, values: &[Value]) -> u16 {
        self.span += 1;
        self.builder.statement(self.span, name, values)
    }

    pub fn null(&mut self) -> u16 {
        self.node("Null", &[])
    }

    pub fn integer(&mut self, value: i64) -> u16 {
        self.node("Integer", &[Value::Number(value as u64)])
    }

    pub fn small(&mut self, small: Small) -> u16 {
        self.node(small.0, &[Value::Number(small::bits(small))])
    }

    pub fn float(&mut self, value: f64) -> u16 {
        self.node("Float", &[Value::Number(value.to_bits())])
    }

    pub fn bool(&mut self, value: bool) -> u16 {
        self.node("Bool", &[u16::from(value).into()])
    }

    pub fn string(&mut self, text: &str) -> u16 {
        let text = self.builder.text(text);
        self.node("String", &[text.into()])
    }

    pub fn name(&mut self, name: &str) -> u16 {
        let name = self.builder.text(name);
        self.node("Identifier", &[name.into()])
    }

    pub fn unary(&mut self, operator: u16, operand: u16) -> u16 {
        self.node("Unary", &[operator.into(), operand.into()])
    }

    pub fn binary(&mut self, left: u16, operator: u16, right: u16) -> u16 {
        self.node("Binary", &[left.into(), operator.into(), right.into()])
    }

    /// An operator between a name and a whole number.
    pub fn with(&mut self, name: &str, operator: u16, value: i64) -> u16 {
        let (left, right) = (self.name(name), self.integer(value));
        self.binary(left, operator, right)
    }

    pub fn assign(&mut self, name: &str, value: u16) -> u16 {
        let name = self.builder.text(name);
        self.node("Assign", &[name.into(), value.into()])
    }

    /// An expression over one other, by the name of its kind.
    pub fn over(&mut self, name: &str, inner: u16) -> u16 {
        self.node(name, &[inner.into()])
    }

    pub fn call(&mut self, path: &[&str], arguments: &[u16]) -> u16 {
        let path: Vec<u16> = path.iter().map(|name| self.builder.text(name)).collect();
        let (path, arguments) = (self.builder.list(&path), self.builder.list(arguments));
        self.node("Call", &[path, arguments])
    }

    /// A call of a function of std::res.
    pub fn result(&mut self, name: &str, argument: u16) -> u16 {
        self.call(&["std", "res", name], &[argument])
    }

    pub fn declare(&mut self, name: &str, value: u16) -> u16 {
        let name = self.builder.text(name);
        self.statement("VariableDeclaration", &[name.into(), 0.into(), value.into(), 0.into()])
    }

    pub fn bare(&mut self, node: u16) -> u16 {
        self.statement("Expression", &[node.into()])
    }

    /// The statement that assigns to a name.
    pub fn set(&mut self, name: &str, value: u16) -> u16 {
        let assigned = self.assign(name, value);
        self.bare(assigned)
    }

    pub fn give(&mut self, node: u16) -> u16 {
        self.statement("Return", &[node.into()])
    }

    pub fn branch(&mut self, condition: Option<u16>, body: &[u16]) -> u16 {
        let body = self.builder.list(body);
        let fields = [condition.unwrap_or(NONE).into(), body, Value::Number(0)];
        self.statement("ConditionalBranch", &fields)
    }

    pub fn conditional(&mut self, branch: u16, other: Option<u16>) -> u16 {
        self.statement("Conditional", &[branch.into(), other.unwrap_or(NONE).into()])
    }

    /// A conditional of one branch.
    pub fn when(&mut self, condition: u16, body: &[u16]) -> u16 {
        let branch = self.branch(Some(condition), body);
        self.conditional(branch, None)
    }

    pub fn while_loop(&mut self, condition: u16, body: &[u16]) -> u16 {
        let body = self.builder.list(body);
        self.statement("While", &[condition.into(), body])
    }

    pub fn endless(&mut self, body: &[u16]) -> u16 {
        let body = self.builder.list(body);
        self.statement("Loop", &[body])
    }

    /// A function without contracts.
    pub fn function(&mut self, parameters: &[&str], body: &[u16]) -> u16 {
        let first = self.builder.image.counts()[5] as u16;
        for parameter in parameters {
            let name = self.builder.text(parameter);
            self.builder.parameter(name, None);
        }
        let (name, parameters) = (self.builder.text("f"), (first, parameters.len() as u16));
        self.function_of(name, parameters, body)
    }

    /// The same, of a text and parameters that are there.
    pub fn function_of(&mut self, name: u16, parameters: (u16, u16), body: &[u16]) -> u16 {
        let (span, result, body) = (self.span, false, self.builder.list(body));
        let (requires, ensures) = ((0, 0), (0, 0));
        self.builder.function(Function { name, span, parameters, result, body, requires, ensures })
    }
}

/// An image of one function, whose parts are made by `body`.
pub fn image(parameters: &[&str], body: impl FnOnce(&mut Code) -> Vec<u16>) -> Image {
    let mut code = Code::new(Builder::new(1).interning());
    let body = body(&mut code);
    code.function(parameters, &body);
    code.builder.image
}
