//! The contract reading of a function, written by hand from the rules: its
//! plain run with its contract checked.

use super::program::Program;
use super::values::{shown, Ending, Fault, Shown, Value, NULL};
use super::{fault, folded, Runner};
use crate::fold::{self, Folded};
use crate::image::{Image, Record, Value as Field, NONE};
use crate::lower::Contract;
use crate::prove::refinement;
use crate::schema::{self, Section, Sort};

/// What a return has checked.
#[derive(Clone, Copy)]
pub(super) struct Checked<'p> {
    ensures: &'p [Record],
    result: bool,
    /// The name `ret`.
    ret: u16,
}

/// No name has this number.
const HIDDEN: u16 = NONE;

/// Messages that no node has are numbered behind the image's texts: of
/// requires, of ensures, then of each parameter's refinement.
const REQUIRES: u16 = 0;
const ENSURES: u16 = 1;
const REFINEMENT: u16 = 2;

#[derive(Clone, Copy)]
enum Message {
    Node(u16),
    Said(u16),
}

/// Whether running the lowered function must be as reading the contract: no
/// name in what is ensured could be that of a temporary and, with ensures, a
/// bare last expression is the only statement.
pub fn premises_hold(image: &Image, function: usize) -> bool {
    let function = &image.of(Section::Function)[function];
    let (first, count) = function.range(4);
    let body = image.list(first, count).expect("a list of the image");
    let bare = |last: &u16| image.of(Section::Statement)[usize::from(*last)].kind == 65;
    let ensures = Contract::of(image, function).ensures;
    let nodes = ensures.iter().flat_map(|clause| [clause.number(0), clause.number(1)]);
    let nodes = nodes.map(|node| node as u16).filter(|node| *node != NONE);
    !names_temporary(image, nodes.collect())
        && (ensures.is_empty() || count == 1 || !body.last().is_some_and(bare))
}

/// Whether one of these expressions looks up or assigns what could be the name
/// of a temporary.
fn names_temporary(image: &Image, mut nodes: Vec<u16>) -> bool {
    let expressions = image.of(Section::Expression);
    let mut seen = vec![false; expressions.len()];
    while let Some(node) = nodes.pop() {
        if std::mem::replace(&mut seen[usize::from(node)], true) {
            continue;
        }
        let record = &expressions[usize::from(node)];
        let name = || image.text_of(record.number(1) as u16).expect("a text of the image");
        if matches!(record.kind, 30 | 31 | 39 | 40) && name().starts_with(b"__ensure_ret_") {
            return true;
        }
        let sorts = schema::of_kind(record.kind).expect("a kind of the format").sorts;
        for (sort, field) in sorts.iter().zip(&record.values) {
            match field {
                Field::Number(child) if *sort == Sort::Node => nodes.push(*child as u16),
                Field::Range(first, count) if sort.is_list() => {
                    let list = image.list(*first, *count).expect("a list of the image");
                    let children = list.iter().enumerate().filter(|(at, _)| sort.holds_node(*at));
                    nodes.extend(children.map(|(_, child)| *child));
                }
                _ => {}
            }
        }
    }
    false
}

impl Program<'_> {
    /// Reads a function with its contract, or gives the refusal's number.
    pub fn reading(&self, function: u32, values: &[Value], budget: u32) -> Result<Shown, u32> {
        let (mut runner, record) = self.start(function, values, budget)?;
        let ending = runner.read(record);
        let texts = self.image.texts.len() as u16;
        let bytes = |text: u16| match text.checked_sub(texts) {
            None => self.text(text),
            Some(said) => Some(self.said(function, said).into_bytes()),
        };
        Ok(shown(runner.outcome(ending, budget).words(), bytes))
    }

    /// A plain run in the same form.
    pub fn plainly(&self, function: u32, values: &[Value], budget: u32) -> Result<Shown, u32> {
        Ok(shown(self.run(function, values, budget)?.words(), |text| self.text(text)))
    }

    fn text(&self, text: u16) -> Option<Vec<u8>> {
        self.image.text_of(text).map(<[u8]>::to_vec)
    }

    fn said(&self, function: u32, said: u16) -> String {
        let function = &self.image.of(Section::Function)[function as usize];
        let parameters = Contract::of(self.image, function).parameters;
        match said {
            REQUIRES => "requires violated".to_string(),
            ENSURES => "ensures violated".to_string(),
            _ => {
                let parameter = &parameters[usize::from(said - REFINEMENT)];
                refinement(self.image, parameter).expect("a refinement")
            }
        }
    }
}

impl<'p> Runner<'p> {
    fn charges(&mut self, steps: u32) -> Result<(), Ending> {
        (0..steps).try_for_each(|_| self.charge())
    }

    fn read(&mut self, function: &Record) -> Result<Value, Ending> {
        let image = self.program.image;
        let contract = Contract::of(image, function);
        let result = function.number(3) == 1;
        for (number, parameter) in (REFINEMENT..).zip(contract.parameters) {
            if parameter.number(2) != 0 {
                self.charges(2)?;
                let value = self.refined(parameter)?;
                self.check(value, Message::Said(number), result)?;
            }
        }
        for clause in contract.requires {
            self.clause(clause, REQUIRES, result)?;
        }
        if !contract.ensures.is_empty() {
            let ret = self.program.name_of(b"ret").unwrap_or(HIDDEN);
            self.checked = Some(Checked { ensures: contract.ensures, result, ret });
        }
        self.body(self.program.list(function, 4))
    }

    /// Three nodes: the comparison, the parameter's name, the operand.
    fn refined(&mut self, parameter: &Record) -> Result<Value, Ending> {
        self.charges(2)?;
        let left = *self.binding(self.program.name(parameter, 0))?;
        self.charge()?;
        let bits = parameter.number(4);
        let plain = |folded| Value::Plain(Some(folded));
        let right = match parameter.number(3) {
            1 => plain(Folded::Int(bits as i64)),
            2 => plain(Folded::Str(bits as u16)),
            3 => plain(Folded::Bool(bits == 1)),
            _ => *self.binding(self.program.name(parameter, 4))?,
        };
        // Gt, Ge, Lt, Le, Eq, Ne, as the operators of expressions.
        let operator = [10, 11, 8, 9, 6, 7][parameter.number(2) as usize - 1];
        match (left, right) {
            (Value::Plain(Some(left)), Value::Plain(Some(right))) => {
                folded(fold::binary(self.program.image, operator, left, right))
            }
            _ => fault(Fault::NoValue),
        }
    }

    fn clause(&mut self, clause: &Record, default: u16, result: bool) -> Result<(), Ending> {
        let message = match clause.number(1) as u16 {
            NONE => Message::Said(default),
            message => Message::Node(message),
        };
        self.charges(2)?;
        let value = self.value(clause.number(0) as u16)?;
        self.check(value, message, result)
    }

    /// Ends the run unless a condition's value is true.
    fn check(&mut self, value: Value, message: Message, result: bool) -> Result<(), Ending> {
        match value {
            Value::Plain(Some(Folded::Bool(true))) => return Ok(()),
            Value::Plain(Some(Folded::Bool(false))) => (),
            _ => return fault(Fault::NoValue),
        }
        self.charges(if result { 2 } else { 3 })?;
        let message = match message {
            Message::Node(node) => self.value(node)?,
            Message::Said(said) => {
                self.charge()?;
                let texts = self.program.image.texts.len() as u16;
                Value::Plain(Some(Folded::Str(texts + said)))
            }
        };
        match message {
            Value::Plain(plain) if result => Err(Ending::Returned(Value::Err(plain))),
            Value::Plain(plain) => Err(Ending::Stopped(plain)),
            Value::Ok(_) | Value::Err(_) => fault(Fault::WrongSort),
        }
    }

    /// What a return gives, whose statement is paid for.
    pub(super) fn checked_return(
        &mut self,
        node: Option<u16>,
        checked: Checked<'p>,
    ) -> Result<Value, Ending> {
        let value = match node {
            Some(node) => self.value(node)?,
            None => {
                self.charge()?;
                NULL
            }
        };
        self.bind(HIDDEN, value)?;
        let mut inner = value;
        if checked.result {
            self.charges(3)?;
            match value {
                Value::Plain(_) => return fault(Fault::WrongSort),
                Value::Err(_) => {
                    self.charges(2)?;
                    return Ok(value);
                }
                Value::Ok(plain) => inner = Value::Plain(plain),
            }
        }
        self.charges(if checked.result { 3 } else { 2 })?;
        self.bind(checked.ret, inner)?;
        for clause in checked.ensures {
            self.clause(clause, ENSURES, checked.result)?;
        }
        self.charges(2)?;
        Ok(value)
    }
}
