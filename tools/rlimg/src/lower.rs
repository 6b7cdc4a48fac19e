//! Lowering a function's contracts to plain statements, written by hand from
//! the rules.

mod maker;

use crate::decode::decode;
use crate::encode::encode;
use crate::image::{Image, Record, Value, LENGTH_LIMIT, LIMITS, NONE};
use crate::prove::refinement;
use crate::reader::{self, Refusal};
use crate::schema::Section;
use maker::{Full, Maker};

/// The greatest heights of expressions and statements that are lowered.
pub const EXPRESSION_HEIGHT: u16 = 64;
pub const STATEMENT_HEIGHT: u16 = 32;
/// The fewest bytes of an output slice.
pub const ROOM: usize = LENGTH_LIMIT;

const BANG: u16 = 5;

/// What the exported function is handed besides the image: the length of the
/// work slice, the function, and the length of the output slice.
#[derive(Debug, Clone, Copy, PartialEq, Eq)]
pub struct Call {
    pub work: usize,
    pub function: u32,
    pub room: usize,
}

/// What the lowered image may have: text bytes, texts, list entries,
/// expressions, statements, and bytes in all.
#[derive(Debug, Clone, Copy)]
pub struct Limits {
    pub counts: [usize; 5],
    pub bytes: usize,
}

/// The limits of the format.
pub const FORMAT: Limits =
    Limits { counts: [LIMITS[0], LIMITS[1], LIMITS[2], LIMITS[3], LIMITS[4]], bytes: LENGTH_LIMIT };

impl Limits {
    /// Whether an image is within them.
    pub fn hold(&self, image: &Image) -> bool {
        let within = image.counts().iter().zip(self.counts).all(|(count, most)| *count <= most);
        within && encode(image).len() <= self.bytes
    }
}

/// The lowered image's bytes, or the refusal, for any bytes.
pub fn answer(bytes: &[u8], call: Call) -> Result<Vec<u8>, Refusal> {
    let read = reader::read(bytes, call.work)?;
    let image = decode(bytes)?;
    let refused = |number| Err(Refusal { number, place: 0 });
    let over = |heights: &[u16], most| heights.iter().any(|height| *height > most);
    if call.function as usize >= image.of(Section::Function).len() {
        return refused(11);
    }
    if over(&read.expression_heights, EXPRESSION_HEIGHT)
        || over(&read.statement_heights, STATEMENT_HEIGHT)
    {
        return refused(12);
    }
    if call.room < ROOM {
        return refused(13);
    }
    lowered(&image, call.function as usize, FORMAT).map_or(refused(14), |image| Ok(encode(&image)))
}

/// The image with this function lowered, unless a limit would be passed.
pub fn lowered(image: &Image, function: usize, limits: Limits) -> Option<Image> {
    let record = &image.of(Section::Function)[function];
    let contract = Contract::of(image, record);
    if contract.is_empty() {
        return Some(image.clone());
    }
    let mut maker = Maker::new(image, record, limits);
    let body = maker.body(&contract, &body_of(image, record)).ok()?;
    let mut lowered = maker.image;
    lowered.of_mut(Section::Function)[function].values[4] = body;
    Some(lowered)
}

/// A function's parameters and clauses.
pub struct Contract<'a> {
    pub parameters: &'a [Record],
    pub requires: &'a [Record],
    pub ensures: &'a [Record],
}

impl<'a> Contract<'a> {
    pub fn of(image: &'a Image, function: &Record) -> Contract<'a> {
        let part = |section, position| {
            image.part(section, function.range(position)).expect("a range of the image")
        };
        Contract {
            parameters: part(Section::Parameter, 2),
            requires: part(Section::Clause, 5),
            ensures: part(Section::Clause, 6),
        }
    }

    /// Without requires, ensures and refinements.
    pub fn is_empty(&self) -> bool {
        let refined = self.parameters.iter().any(|parameter| parameter.number(2) != 0);
        !refined && self.requires.is_empty() && self.ensures.is_empty()
    }
}

fn body_of(image: &Image, function: &Record) -> Vec<u16> {
    let (first, count) = function.range(4);
    image.list(first, count).expect("a list of the image").to_vec()
}

impl Maker {
    /// The list of the new body.
    fn body(&mut self, contract: &Contract, old: &[u16]) -> Result<Value, Full> {
        let mut body = Vec::new();
        for parameter in contract.parameters {
            if parameter.number(2) != 0 {
                body.push(self.refined(parameter)?);
            }
        }
        for clause in contract.requires {
            body.push(self.clause(clause, "requires violated")?);
        }
        if contract.ensures.is_empty() {
            body.extend(old);
            return self.list(&body);
        }
        let mut rest = self.all(old, contract.ensures)?;
        let last = rest.last().map(|last| self.statement(*last));
        if let Some(last) = last.filter(|last| last.kind == 65) {
            rest.pop();
            body.extend(self.wrapped(last.number(1) as u16, contract.ensures)?);
        }
        body.extend(rest);
        self.list(&body)
    }

    /// `if !(parameter operator operand) { violation }`
    fn refined(&mut self, parameter: &Record) -> Result<u16, Full> {
        let bits = parameter.number(4);
        let right = match parameter.number(3) {
            1 => self.node(17, &[Value::Number(bits)])?,
            3 => self.node(26, &[Value::Number(bits)])?,
            sort => {
                let text = self.again(bits as u16)?;
                self.node(if sort == 2 { 25 } else { 30 }, &[text])?
            }
        };
        let name = self.again(parameter.number(0) as u16)?;
        let left = self.node(30, &[name])?;
        // Gt, Ge, Lt, Le, Eq, Ne, as the operators of expressions.
        let operator: u16 = [10, 11, 8, 9, 6, 7][parameter.number(2) as usize - 1];
        let condition = self.node(32, &[left.into(), operator.into(), right.into()])?;
        let said = refinement(&self.image, parameter).expect("a refinement");
        let message = self.string(&said)?;
        self.guard(condition, message)
    }

    fn clause(&mut self, clause: &Record, default: &str) -> Result<u16, Full> {
        let message = match clause.number(1) as u16 {
            NONE => self.string(default)?,
            message => message,
        };
        self.guard(clause.number(0) as u16, message)
    }

    /// `if !(condition) { violation }`, over a copy of the condition.
    fn guard(&mut self, condition: u16, message: u16) -> Result<u16, Full> {
        let copy = self.copy(condition)?;
        let fails = self.node(33, &[BANG.into(), copy.into()])?;
        let error = self.node(50, &[message.into()])?;
        let violation = if self.result {
            self.made(66, &[error.into()])?
        } else {
            let stop = self.call("result_unwrap", error)?;
            self.made(65, &[stop.into()])?
        };
        self.when(fails, violation)
    }

    /// `if condition { statement }`
    fn when(&mut self, condition: u16, statement: u16) -> Result<u16, Full> {
        let body = self.list(&[statement])?;
        let branch = self.made(69, &[condition.into(), body, 0.into()])?;
        self.made(68, &[branch.into(), NONE.into()])
    }

    /// What stands for `return value` under ensures.
    fn wrapped(&mut self, value: u16, ensures: &[Record]) -> Result<Vec<u16>, Full> {
        let temporary = format!("__ensure_ret_{}", self.temporaries);
        self.temporaries += 1;
        let mut all = vec![self.declared(&temporary, value)?];
        if self.result {
            let held = self.name(&temporary)?;
            let failed = self.call("is_err", held)?;
            let skipped = self.returned(&temporary)?;
            all.push(self.when(failed, skipped)?);
        }
        let mut inner = self.name(&temporary)?;
        if self.result {
            inner = self.call("result_unwrap", inner)?;
        }
        all.push(self.declared("ret", inner)?);
        for clause in ensures {
            all.push(self.clause(clause, "ensures violated")?);
        }
        all.push(self.returned(&temporary)?);
        Ok(all)
    }

    /// `return name`
    fn returned(&mut self, name: &str) -> Result<u16, Full> {
        let value = self.name(name)?;
        self.made(66, &[value.into()])
    }

    /// The statements that stand for some, one after the other.
    fn all(&mut self, statements: &[u16], ensures: &[Record]) -> Result<Vec<u16>, Full> {
        let mut all = Vec::new();
        for statement in statements {
            match self.ensured(*statement, ensures)? {
                Some(made) => all.extend(made),
                None => all.push(*statement),
            }
        }
        Ok(all)
    }

    /// The statements that stand for one, unless it passes through.
    fn ensured(&mut self, number: u16, ensures: &[Record]) -> Result<Option<Vec<u16>>, Full> {
        let mut record = self.statement(number);
        match record.kind {
            66 => return self.wrapped(record.number(1) as u16, ensures).map(Some),
            67 => {
                let null = self.node(16, &[])?;
                return self.wrapped(null, ensures).map(Some);
            }
            68 => {
                for position in [1, 2] {
                    let branch = record.number(position) as u16;
                    record.values[position] = self.branch(branch, ensures)?.into();
                }
            }
            70..=74 => self.new_list(&mut record, ensures)?,
            75 => {
                let (first, count) = record.range(2);
                let arms = self.image.list(first, count).expect("a list of the image").to_vec();
                let arms = arms.into_iter().map(|arm| self.rebuilt(arm, ensures));
                let arms = arms.collect::<Result<Vec<u16>, Full>>()?;
                record.values[2] = self.list(&arms)?;
            }
            _ => return Ok(None),
        }
        Ok(Some(vec![self.push(Section::Statement, record)?]))
    }

    /// A branch or what stands else; a conditional else passes through.
    fn branch(&mut self, branch: u16, ensures: &[Record]) -> Result<u16, Full> {
        match branch {
            NONE => Ok(NONE),
            _ if self.statement(branch).kind == 69 => self.rebuilt(branch, ensures),
            _ => Ok(branch),
        }
    }

    /// A branch or an arm over the statements that stand for its own.
    fn rebuilt(&mut self, number: u16, ensures: &[Record]) -> Result<u16, Full> {
        let mut record = self.statement(number);
        self.new_list(&mut record, ensures)?;
        if record.kind == 69 {
            record.values[3] = 0.into();
        }
        self.push(Section::Statement, record)
    }

    /// Puts a new list in the place of a record's only one.
    fn new_list(&mut self, record: &mut Record, ensures: &[Record]) -> Result<(), Full> {
        let is_list = |value: &&mut Value| matches!(value, Value::Range(..));
        let list = record.values.iter_mut().find(is_list).expect("a statement with a list");
        if let Value::Range(first, count) = *list {
            let statements = self.image.list(first, count).expect("a list of the image").to_vec();
            let statements = self.all(&statements, ensures)?;
            *list = self.list(&statements)?;
        }
        Ok(())
    }
}
