//! The text form of an image: one record a line.
//!
//! ```text
//! arena 1
//! bytes "openflow"
//! text 0 0+4                        # "open"
//! entry 0 3
//! expression 3 span 7 Binary 1 LessEqual 2
//! parameter 0 name 1 type 0 refinement Ge operand Integer 1
//! ```
//!
//! A list or range is written first+count. What follows `#` is a comment.

use crate::image::{Image, Record, Value, NONE};
use crate::schema::{self, Row, Section, Sort, SECTIONS};
use std::fmt::Write;

const SECTION_NAMES: [&str; 6] =
    ["expression", "statement", "parameter", "clause", "function", "call"];
const OPERATORS: [&str; 11] = [
    "Plus",
    "Minus",
    "Star",
    "Slash",
    "Bang",
    "Compare",
    "BangEqual",
    "Less",
    "LessEqual",
    "Greater",
    "GreaterEqual",
];
const REFINEMENTS: [&str; 7] = ["none", "Gt", "Ge", "Lt", "Le", "Eq", "Ne"];
const OPERAND_SORTS: [&str; 5] = ["none", "Integer", "Str", "Bool", "Param"];

/// The words before a record's first fields, "" for none. The kind's name
/// follows a span that comes first.
fn labels(section: Section) -> &'static [&'static str] {
    match section {
        Section::Expression | Section::Statement => &["span"],
        Section::Parameter => &["name", "type", "refinement", "operand", ""],
        Section::Clause => &["condition", "message"],
        Section::Function => {
            &["name", "span", "parameters", "result", "body", "requires", "ensures"]
        }
        Section::Call => &["callee", "span", "arguments"],
    }
}

/// The names of a sort's numbers, and the number of the first name.
fn names(sort: Sort) -> (u64, &'static [&'static str]) {
    match sort {
        Sort::Bool => (0, &["false", "true"]),
        Sort::Operator => (1, &OPERATORS),
        Sort::Refinement => (0, &REFINEMENTS),
        Sort::OperandSort => (0, &OPERAND_SORTS),
        Sort::NodeOrNone | Sort::ElseBranch => (NONE as u64, &["none"]),
        _ => (0, &[]),
    }
}

pub fn dump(image: &Image) -> String {
    let mut out = format!("arena {}\n", image.arena);
    let mut rest = &image.text[..];
    while !rest.is_empty() {
        // Whole characters where they can be had.
        let continued = |byte: &&u8| (0x80..0xc0).contains(*byte);
        let more = rest.iter().skip(48).take(3).take_while(continued).count();
        let (part, after) = rest.split_at(rest.len().min(48 + more));
        writeln!(out, "bytes {}", quoted(part)).unwrap();
        rest = after;
    }
    for (index, (offset, length)) in image.texts.iter().enumerate() {
        let text = image.text_of(index as u16).unwrap_or(b"?");
        writeln!(out, "text {index} {offset}+{length} # {}", quoted(text)).unwrap();
    }
    for (index, entry) in image.entries.iter().enumerate() {
        writeln!(out, "entry {index} {entry}").unwrap();
    }
    for (section, name) in SECTIONS.into_iter().zip(SECTION_NAMES) {
        for (index, record) in image.of(section).iter().enumerate() {
            write!(out, "{name} {index}").unwrap();
            dump_record(&mut out, image, section, record);
            out.push('\n');
        }
    }
    out
}

fn dump_record(out: &mut String, image: &Image, section: Section, record: &Record) {
    let row = schema::of_kind(record.kind).expect("a kind of the format");
    let labels = labels(section);
    let mut notes = String::new();
    for (position, (sort, value)) in row.sorts.iter().zip(&record.values).enumerate() {
        match labels.get(position) {
            None | Some(&"") => out.push(' '),
            Some(label) => write!(out, " {label} ").unwrap(),
        }
        out.push_str(&value_text(*sort, *value));
        if position == 0 && *sort == Sort::Span {
            write!(out, " {}", row.name).unwrap();
        }
        notes.push_str(&note(image, *sort, *value));
    }
    if !notes.is_empty() {
        write!(out, " #{notes}").unwrap();
    }
}

fn value_text(sort: Sort, value: Value) -> String {
    let number = match value {
        Value::Range(first, count) => return format!("{first}+{count}"),
        Value::Number(number) => number,
    };
    let (from, names) = names(sort);
    let position = number.checked_sub(from).unwrap_or(u64::MAX);
    if let Some(name) = names.get(usize::try_from(position).unwrap_or(usize::MAX)) {
        return name.to_string();
    }
    match sort {
        Sort::Signed(width) => {
            let unused = 64 - 8 * width;
            ((number as i64) << unused >> unused).to_string()
        }
        Sort::Operand => (number as i64).to_string(),
        Sort::Float(width) => format!("{number:#0digits$x}", digits = 2 + 2 * width),
        Sort::Scalar => format!("U+{number:04X}"),
        _ => number.to_string(),
    }
}

/// What a reader of the line would have to look up.
fn note(image: &Image, sort: Sort, value: Value) -> String {
    match (sort, value) {
        (Sort::Text, Value::Number(text)) => match image.text_of(text as u16) {
            Some(bytes) => format!(" {}", quoted(bytes)),
            None => String::new(),
        },
        (Sort::Float(8), Value::Number(bits)) => format!(" {:?}", f64::from_bits(bits)),
        (Sort::Float(_), Value::Number(bits)) => format!(" {:?}", f32::from_bits(bits as u32)),
        (_, Value::Range(first, count)) if sort.is_list() && count > 0 => {
            let list = image.list(first, count).unwrap_or(&[]);
            let shown: Vec<String> = list.iter().take(8).map(u16::to_string).collect();
            let more = if list.len() > 8 { " .." } else { "" };
            format!(" [{}{more}]", shown.join(" "))
        }
        _ => String::new(),
    }
}

fn quoted(bytes: &[u8]) -> String {
    let mut out = String::from("\"");
    for chunk in bytes.utf8_chunks() {
        for character in chunk.valid().chars() {
            match character {
                '"' | '\\' => out.extend(['\\', character]),
                '\n' => out.push_str("\\n"),
                _ if character.is_control() || character.is_whitespace() && character != ' ' => {
                    write!(out, "\\u{{{:x}}}", character as u32).unwrap();
                }
                _ => out.push(character),
            }
        }
        for byte in chunk.invalid() {
            write!(out, "\\x{byte:02x}").unwrap();
        }
    }
    out.push('"');
    out
}

/// The image of a text, or the number of a line and what is wrong there.
/// References and counts are not checked, so refused images can be built.
pub fn build(text: &str) -> Result<Image, String> {
    let mut image = Image::default();
    for (number, line) in text.lines().enumerate() {
        let line = line.trim();
        if line.is_empty() || line.starts_with('#') {
            continue;
        }
        build_line(&mut image, line).map_err(|fault| format!("line {}: {fault}", number + 1))?;
    }
    Ok(image)
}

fn build_line(image: &mut Image, line: &str) -> Result<(), String> {
    if let Some(rest) = line.strip_prefix("bytes ") {
        image.text.extend(unquoted(rest.trim())?);
        return Ok(());
    }
    let line = line.split('#').next().unwrap_or("");
    let mut words = Words(line.split_whitespace().collect());
    let name = words.take()?;
    if name == "arena" {
        image.arena = number(&words.take()?, 4)? as u32;
        return words.end();
    }
    let index = words.take()?;
    let section = SECTION_NAMES.iter().position(|known| *known == name);
    let next = match (name.as_str(), section) {
        ("text", _) => image.texts.len(),
        ("entry", _) => image.entries.len(),
        (_, Some(section)) => image.records[section].len(),
        _ => return Err(format!("unknown word {name}")),
    };
    if index != next.to_string() {
        return Err(format!("{name} {next} expected, not {index}"));
    }
    match section {
        Some(section) => {
            let record = build_record(&mut words, SECTIONS[section])?;
            image.records[section].push(record);
        }
        None if name == "text" => image.texts.push(range(&words.take()?)?),
        None => image.entries.push(number(&words.take()?, 2)? as u16),
    }
    words.end()
}

fn build_record(words: &mut Words, section: Section) -> Result<Record, String> {
    let labels = labels(section);
    let mut values = Vec::new();
    let mut row: Option<&Row> = schema::rows(section).next();
    if let ["span"] = labels {
        words.label("span")?;
        values.push(value(Sort::Span, &words.take()?)?);
        let name = words.take()?;
        row = schema::of_name(section, &name);
    }
    let row = row.ok_or("unknown kind")?;
    for (position, sort) in row.sorts.iter().enumerate().skip(values.len()) {
        words.label(labels.get(position).copied().unwrap_or(""))?;
        values.push(value(*sort, &words.take()?)?);
    }
    let kind = row.kind;
    Ok(Record { kind, values })
}

struct Words<'a>(std::collections::VecDeque<&'a str>);

impl Words<'_> {
    fn take(&mut self) -> Result<String, String> {
        let word = self.0.pop_front().ok_or("a word is missing")?;
        Ok(word.to_string())
    }

    fn label(&mut self, label: &str) -> Result<(), String> {
        if label.is_empty() || self.take()? == label {
            return Ok(());
        }
        Err(format!("{label} expected"))
    }

    fn end(&self) -> Result<(), String> {
        match self.0.front() {
            None => Ok(()),
            Some(word) => Err(format!("{word} is too much")),
        }
    }
}

fn value(sort: Sort, word: &str) -> Result<Value, String> {
    if sort.is_range() {
        return range(word).map(|(first, count)| Value::Range(first, count));
    }
    let (from, names) = names(sort);
    if let Some(position) = names.iter().position(|name| *name == word) {
        return Ok(Value::Number(from + position as u64));
    }
    number(word, sort.width()).map(Value::Number)
}

fn range(word: &str) -> Result<(u16, u16), String> {
    let (first, count) = word.split_once('+').ok_or(format!("{word} is no range"))?;
    Ok((number(first, 2)? as u16, number(count, 2)? as u16))
}

/// A number that fits so many bytes, negative ones in two's complement.
fn number(word: &str, width: usize) -> Result<u64, String> {
    let hexadecimal = word.strip_prefix("0x").or(word.strip_prefix("U+"));
    let parsed = match hexadecimal {
        Some(digits) => i128::from_str_radix(digits, 16),
        None => word.parse::<i128>(),
    };
    let value = parsed.map_err(|_| format!("{word} is no number"))?;
    let bits = 8 * width;
    if value >> bits != 0 && value >> (bits - 1) != -1 {
        return Err(format!("{word} does not fit {width} bytes"));
    }
    Ok(value as u64 & (u64::MAX >> (64 - bits)))
}

fn unquoted(text: &str) -> Result<Vec<u8>, String> {
    let mut out = Vec::new();
    let mut rest = text.strip_prefix('"').ok_or("a quote is missing")?;
    loop {
        let next = rest.chars().next().ok_or("the closing quote is missing")?;
        rest = &rest[next.len_utf8()..];
        match next {
            '"' => break,
            '\\' => rest = escape(rest, &mut out)?,
            _ => out.extend(next.to_string().bytes()),
        }
    }
    match rest.trim_start().chars().next() {
        None | Some('#') => Ok(out),
        Some(_) => Err(format!("{rest} is too much")),
    }
}

/// One escape after its backslash; gives what follows it.
fn escape<'a>(rest: &'a str, out: &mut Vec<u8>) -> Result<&'a str, String> {
    let fault = || "unknown escape".to_string();
    let (name, after) = rest.split_at_checked(1).ok_or_else(fault)?;
    match name {
        "\"" | "\\" => out.extend(name.bytes()),
        "n" => out.push(b'\n'),
        "x" => {
            let (digits, after) = after.split_at_checked(2).ok_or_else(fault)?;
            out.push(u8::from_str_radix(digits, 16).map_err(|_| fault())?);
            return Ok(after);
        }
        "u" => {
            let inner = after.strip_prefix('{').and_then(|inner| inner.split_once('}'));
            let (digits, after) = inner.ok_or_else(fault)?;
            let value = u32::from_str_radix(digits, 16).map_err(|_| fault())?;
            let character = char::from_u32(value).ok_or_else(fault)?;
            out.extend(character.to_string().bytes());
            return Ok(after);
        }
        _ => return Err(fault()),
    }
    Ok(after)
}
