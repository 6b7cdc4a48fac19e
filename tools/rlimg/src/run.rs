//! Running a function's body, written by hand from the rules. The records
//! become typed nodes once, and a name one number for all texts of its bytes.

mod program;
mod reading;
mod values;

pub use program::Program;
pub use reading::premises_hold;
pub use values::{same_nan, shown, Ending, Fault, Outcome, Plain, Shown, Value, NULL};

use crate::decode::decode;
use crate::fold::{self, Folded};
use crate::image::{Image, Record, WORK};
use crate::reader::Refusal;
use crate::schema::Section;
use program::{Node, Statement};
use reading::Checked;

/// The most bindings at a time.
pub const BINDINGS: usize = 128;
/// The most values that a function is run on.
pub const VALUES: usize = 16;
/// The largest budget.
pub const BUDGET: u32 = 1_000_000;
/// The words of an outcome.
pub const OUTCOME: usize = 4;

/// What the exported function is handed besides the image: the length of the
/// work slice, the function, the values' words, and the budget.
#[derive(Debug, Clone, PartialEq, Eq)]
pub struct Call {
    pub work: usize,
    pub function: u32,
    pub words: Vec<u64>,
    pub budget: u32,
}

/// The outcome's words, or the refusal, for any bytes.
pub fn answer(bytes: &[u8], call: &Call) -> Result<[u64; OUTCOME], Refusal> {
    answer_to(&decode(bytes), call)
}

/// The same for what the bytes stand for.
pub fn answer_to(image: &Result<Image, Refusal>, call: &Call) -> Result<[u64; OUTCOME], Refusal> {
    let refused = |number| Refusal { number, place: 0 };
    match image {
        Err(refusal) if refusal.number == 1 => Err(*refusal),
        _ if call.work < WORK => Err(refused(2)),
        Err(refusal) => Err(*refusal),
        Ok(image) => match Value::list(&call.words) {
            // Words that are no values are as many values as no function takes.
            None if image.of(Section::Function).len() <= call.function as usize => Err(refused(11)),
            None => Err(refused(19)),
            Some(values) => {
                let outcome = Program::new(image).run(call.function, &values, call.budget);
                outcome.map(Outcome::words).map_err(refused)
            }
        },
    }
}

impl Program<'_> {
    /// Runs a function, or gives the number of the refusal.
    pub fn run(&self, function: u32, values: &[Value], budget: u32) -> Result<Outcome, u32> {
        let (mut runner, function) = self.start(function, values, budget)?;
        let ending = runner.body(self.list(function, 4));
        Ok(runner.outcome(ending, budget))
    }

    /// A runner with the parameters bound, and the function.
    fn start(
        &self,
        function: u32,
        values: &[Value],
        budget: u32,
    ) -> Result<(Runner<'_>, &Record), u32> {
        let function = self.image.of(Section::Function).get(function as usize).ok_or(11u32)?;
        let parameters = self.image.part(Section::Parameter, function.range(2)).unwrap_or(&[]);
        let texts = self.image.texts.len();
        let missing = |value: &Value| match value.plain() {
            Some(Folded::Str(text)) => usize::from(text) >= texts,
            _ => false,
        };
        if values.len() != parameters.len() || values.len() > VALUES {
            return Err(19);
        }
        if values.iter().any(missing) {
            return Err(20);
        }
        if budget > BUDGET {
            return Err(21);
        }
        let mut bindings = Vec::with_capacity(BINDINGS);
        let names = parameters.iter().map(|parameter| self.name(parameter, 0));
        bindings.extend(names.zip(values.iter().copied()));
        Ok((Runner { program: self, bindings, left: budget, checked: None }, function))
    }
}

/// How a statement that does not end the run goes on.
#[derive(Clone, Copy, PartialEq)]
enum Flow {
    On,
    Break,
    Continue,
}

struct Runner<'p> {
    program: &'p Program<'p>,
    bindings: Vec<(u16, Value)>,
    /// What is left of the budget.
    left: u32,
    /// What a return has checked, in a contract reading.
    checked: Option<Checked<'p>>,
}

fn fault<T>(fault: Fault) -> Result<T, Ending> {
    Err(Ending::Fault(fault))
}

/// A value that came of an operator.
fn folded(value: Option<Folded>) -> Result<Value, Ending> {
    match value {
        None => fault(Fault::NoValue),
        value => Ok(Value::Plain(value)),
    }
}

impl<'p> Runner<'p> {
    fn outcome(&self, ending: Result<Value, Ending>, budget: u32) -> Outcome {
        let ending = ending.map_or_else(|ending| ending, Ending::Returned);
        Outcome { ending, steps: budget - self.left }
    }

    fn charge(&mut self) -> Result<(), Ending> {
        self.left = self.left.checked_sub(1).ok_or(Ending::Spent)?;
        Ok(())
    }

    /// The top of a function; gives the value of a bare last expression.
    fn body(&mut self, body: &[u16]) -> Result<Value, Ending> {
        for (position, statement) in body.iter().enumerate() {
            let last = position + 1 == body.len();
            match self.program.statements[usize::from(*statement)] {
                Statement::Evaluate(node) if last => {
                    self.charge()?;
                    return match self.checked.filter(|_| position == 0) {
                        None => self.value(node),
                        Some(checked) => self.checked_return(Some(node), checked),
                    };
                }
                _ if self.statement(*statement)? != Flow::On => return fault(Fault::NotTaken),
                _ => (),
            }
        }
        Ok(NULL)
    }

    /// The body of a branch or loop, in a scope of its own.
    fn block(&mut self, body: &[u16]) -> Result<Flow, Ending> {
        let outer = self.bindings.len();
        let mut flow = Flow::On;
        for statement in body {
            flow = self.statement(*statement)?;
            if flow != Flow::On {
                break;
            }
        }
        self.bindings.truncate(outer);
        Ok(flow)
    }

    fn statement(&mut self, statement: u16) -> Result<Flow, Ending> {
        self.charge()?;
        match self.program.statements[usize::from(statement)] {
            Statement::Declare(name, node) => {
                let value = self.value(node)?;
                self.bind(name, value)?;
                Ok(Flow::On)
            }
            Statement::Evaluate(node) => self.value(node).map(|_| Flow::On),
            Statement::Return(node) => self.give(Some(node)),
            Statement::ReturnAlone => self.give(None),
            Statement::Conditional(branch, other) => {
                let checked = self.checked;
                let flow = self.conditional(branch, other);
                self.checked = checked;
                flow
            }
            Statement::Repeat(condition, body) => self.repeat(condition, body),
            Statement::Break => Ok(Flow::Break),
            Statement::Continue => Ok(Flow::Continue),
            Statement::Branch(..) | Statement::NotTaken => fault(Fault::NotTaken),
        }
    }

    fn give(&mut self, node: Option<u16>) -> Result<Flow, Ending> {
        let value = match (self.checked, node) {
            (Some(checked), node) => self.checked_return(node, checked)?,
            (None, Some(node)) => self.value(node)?,
            (None, None) => NULL,
        };
        Err(Ending::Returned(value))
    }

    fn bind(&mut self, name: u16, value: Value) -> Result<(), Ending> {
        if self.bindings.len() == BINDINGS {
            return fault(Fault::TooManyBindings);
        }
        self.bindings.push((name, value));
        Ok(())
    }

    /// Takes the first branch whose condition holds, along all else branches.
    /// Inside a conditional that stands else, no return is checked.
    fn conditional(&mut self, mut branch: u16, mut other: Option<u16>) -> Result<Flow, Ending> {
        loop {
            if let Statement::Branch(condition, body) = self.program.statements[usize::from(branch)]
            {
                if self.holds(condition)? {
                    return self.block(body);
                }
            }
            let Some(next) = other else {
                return Ok(Flow::On);
            };
            (branch, other) = match self.program.statements[usize::from(next)] {
                Statement::Conditional(branch, other) => {
                    self.checked = None;
                    (branch, other)
                }
                _ => (next, None),
            };
        }
    }

    fn repeat(&mut self, condition: Option<u16>, body: &[u16]) -> Result<Flow, Ending> {
        loop {
            self.charge()?;
            if !self.holds(condition)? || self.block(body)? == Flow::Break {
                return Ok(Flow::On);
            }
        }
    }

    fn holds(&mut self, condition: Option<u16>) -> Result<bool, Ending> {
        let Some(condition) = condition else {
            return Ok(true);
        };
        match self.value(condition)? {
            Value::Plain(Some(Folded::Bool(holds))) => Ok(holds),
            _ => fault(Fault::WrongSort),
        }
    }

    fn value(&mut self, node: u16) -> Result<Value, Ending> {
        self.charge()?;
        match self.program.nodes[usize::from(node)] {
            Node::Literal(value) => Ok(value),
            Node::Name(name) => self.binding(name).copied(),
            Node::Unary(operator, inner) => match self.value(inner)? {
                Value::Plain(Some(inner)) => folded(fold::unary(operator.into(), inner)),
                _ => fault(Fault::NoValue),
            },
            Node::Binary(left, operator, right) => match (self.value(left)?, self.value(right)?) {
                (Value::Plain(Some(left)), Value::Plain(Some(right))) => {
                    folded(fold::binary(self.program.image, operator.into(), left, right))
                }
                _ => fault(Fault::NoValue),
            },
            Node::Grouping(inner) => self.value(inner),
            Node::Assign(name, inner) => {
                let value = self.value(inner)?;
                *self.binding(name)? = value;
                Ok(value)
            }
            Node::Ok(inner) => self.plain(inner).map(Value::Ok),
            Node::Err(inner) => self.plain(inner).map(Value::Err),
            Node::IsErr(inner) => match self.value(inner)? {
                Value::Plain(_) => fault(Fault::WrongSort),
                value => folded(Some(Folded::Bool(matches!(value, Value::Err(_))))),
            },
            Node::Unwrap(inner) => match self.value(inner)? {
                Value::Plain(_) => fault(Fault::WrongSort),
                Value::Ok(inner) => Ok(Value::Plain(inner)),
                Value::Err(message) => Err(Ending::Stopped(message)),
            },
            Node::Valueless => fault(Fault::NoValue),
            Node::NotTaken => fault(Fault::NotTaken),
        }
    }

    /// What an Ok or Err is made of.
    fn plain(&mut self, node: u16) -> Result<Plain, Ending> {
        match self.value(node)? {
            Value::Plain(plain) => Ok(plain),
            Value::Ok(_) | Value::Err(_) => fault(Fault::WrongSort),
        }
    }

    /// The latest binding of a name.
    fn binding(&mut self, name: u16) -> Result<&mut Value, Ending> {
        let mut latest = self.bindings.iter_mut().rev();
        match latest.find(|(bound, _)| *bound == name) {
            Some((_, value)) => Ok(value),
            None => fault(Fault::UnknownName),
        }
    }
}
