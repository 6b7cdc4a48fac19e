//! Which reports a call has, written by hand from the rules, and what each
//! says. It is for comparing, so it may be slow: it folds anew for each
//! argument.

use crate::fold::{self, Folded, Names};
use crate::image::{Image, Record, NONE};
use crate::schema::Section;

/// A report as in the lent slice: call, span, 0 for a refinement or 1 for a
/// requires, and the number of the parameter or clause in the callee's list.
pub type Report = [u32; 4];

const REFINEMENT: u32 = 0;
const REQUIRES: u32 = 1;
const STRING: u8 = 25;

/// What of a function proving goes by.
pub struct Callee<'a> {
    pub parameters: &'a [Record],
    pub requires: &'a [Record],
}

/// The last function of the call's name that has requires or a refinement.
pub fn callee<'a>(image: &'a Image, call: &Record) -> Option<Callee<'a>> {
    let name = text(image, call, 0);
    for function in image.of(Section::Function).iter().rev() {
        let parameters = image.part(Section::Parameter, function.range(2))?;
        let requires = image.part(Section::Clause, function.range(5))?;
        let refined = parameters.iter().any(|parameter| parameter.number(2) != 0);
        if text(image, function, 0) == name && (refined || !requires.is_empty()) {
            return Some(Callee { parameters, requires });
        }
    }
    None
}

/// The reports of all calls of an accepted image, in order.
pub fn reports(image: &Image) -> Vec<Report> {
    (0..image.of(Section::Call).len()).flat_map(|call| reports_of(image, call)).collect()
}

/// The reports of one call.
pub fn reports_of(image: &Image, index: usize) -> Vec<Report> {
    let call = &image.of(Section::Call)[index];
    let Some(callee) = callee(image, call) else {
        return Vec::new();
    };
    let (first, count) = call.range(2);
    let arguments = image.list(first, count).expect("a list of the image");
    let pairs = || callee.parameters.iter().zip(arguments);
    let mut names = Names::new();
    for (parameter, argument) in pairs() {
        if let Some(value) = fold::value_of(image, &names, *argument) {
            names.insert(text(image, parameter, 0), value);
        }
    }
    let values = fold::values(image, &names);
    let report = |what, number| [index as u32, call.number(1) as u32, what, number as u32];
    let mut reports = Vec::new();
    for (number, (parameter, argument)) in pairs().enumerate() {
        if refined(image, &names, parameter, values[usize::from(*argument)]) == Some(false) {
            reports.push(report(REFINEMENT, number));
        }
    }
    for (number, clause) in callee.requires.iter().enumerate() {
        if values[clause.number(0) as usize] == Some(Folded::Bool(false)) {
            reports.push(report(REQUIRES, number));
        }
    }
    reports
}

/// What the parameter's refinement says of a value.
fn refined(
    image: &Image,
    names: &Names,
    parameter: &Record,
    value: Option<Folded>,
) -> Option<bool> {
    let bits = parameter.number(4);
    let bound = match parameter.number(3) {
        1 => Folded::Int(bits as i64),
        2 => Folded::Str(bits as u16),
        3 => Folded::Bool(bits == 1),
        4 => *names.get(text(image, parameter, 4))?,
        _ => return None,
    };
    // Gt, Ge, Lt, Le, Eq, Ne, as the operators of expressions.
    let operator = [10, 11, 8, 9, 6, 7][parameter.number(2) as usize - 1];
    fold::verdict(image, operator, value?, bound)
}

/// A report's message; none where the callee has no such list entry.
pub fn message(image: &Image, [call, _, what, number]: Report) -> Option<String> {
    let callee = callee(image, image.of(Section::Call).get(call as usize)?)?;
    let said = match what {
        REFINEMENT => refinement(image, callee.parameters.get(number as usize)?)?,
        REQUIRES => clause_message(image, callee.requires.get(number as usize)?),
        _ => return None,
    };
    Some(format!("contract violation (proven at compile time): {said}"))
}

/// What the parameter's refinement says where it fails.
pub fn refinement(image: &Image, parameter: &Record) -> Option<String> {
    let bits = parameter.number(4);
    let operand = match parameter.number(3) {
        1 => (bits as i64).to_string(),
        2 => format!("\"{}\"", string(image, parameter, 4)),
        3 => (bits == 1).to_string(),
        4 => string(image, parameter, 4),
        _ => return None,
    };
    let name = string(image, parameter, 0);
    let operator = [">", ">=", "<", "<=", "==", "!="][parameter.number(2) as usize - 1];
    Some(format!("refinement failed: {name} {operator} {operand}"))
}

fn clause_message(image: &Image, clause: &Record) -> String {
    let node = clause.number(1);
    if node != u64::from(NONE) {
        let node = &image.of(Section::Expression)[node as usize];
        if node.kind == STRING {
            return string(image, node, 1);
        }
    }
    "requires violated".to_string()
}

fn text<'a>(image: &'a Image, record: &Record, position: usize) -> &'a [u8] {
    image.text_of(record.number(position) as u16).expect("a text of the image")
}

fn string(image: &Image, record: &Record, position: usize) -> String {
    String::from_utf8(text(image, record, position).to_vec()).expect("an accepted text")
}
