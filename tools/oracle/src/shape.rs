//! Records without their numbers: texts by their bytes, lists by what is in
//! them, statements as trees. Expressions keep their numbers.

use rlimg::image::{Image, NONE, Record, Value};
use rlimg::schema::{self, Section, Sort};

#[derive(Debug, Clone, PartialEq, Eq)]
pub struct Shape {
    pub kind: u8,
    /// The original's arms have none.
    pub span: Option<u32>,
    pub parts: Vec<Part>,
}

#[derive(Debug, Clone, PartialEq, Eq)]
pub enum Part {
    Number(u64),
    Text(String),
    Node(usize),
    Nothing,
    Inner(Box<Shape>),
    List(Vec<Part>),
}

/// An image's expressions, and the body of one of its functions.
#[derive(Debug, PartialEq, Eq)]
pub struct Shapes {
    pub nodes: Vec<Shape>,
    pub body: Vec<Part>,
}

impl Shapes {
    /// What an image of the format has.
    pub fn of(image: &Image, function: usize) -> Shapes {
        let nodes = image.of(Section::Expression).iter().map(|node| shape(image, node)).collect();
        let body = image.of(Section::Function)[function].range(4);
        Shapes { nodes, body: list(image, Sort::Body, body) }
    }

    /// The first thing that differs.
    pub fn differ(&self, other: &Shapes) -> Option<String> {
        let pairs = self.nodes.iter().zip(&other.nodes).enumerate();
        let mut differing = pairs.filter(|(_, (ours, theirs))| ours != theirs);
        if let Some((number, (ours, theirs))) = differing.next() {
            return Some(format!("node {number}: {ours:?}, expected {theirs:?}"));
        }
        let counts = [(self.nodes.len(), other.nodes.len()), (self.body.len(), other.body.len())];
        for ((ours, theirs), what) in counts.into_iter().zip(["nodes", "statements"]) {
            if ours != theirs {
                return Some(format!("{ours} {what}, expected {theirs}"));
            }
        }
        let mut pairs = self.body.iter().zip(&other.body).enumerate();
        let (number, (ours, theirs)) = pairs.find(|(_, (ours, theirs))| ours != theirs)?;
        Some(format!("statement {number}: {ours:?}, expected {theirs:?}"))
    }
}

fn shape(image: &Image, record: &Record) -> Shape {
    let row = schema::of_kind(record.kind).expect("a kind of the format");
    let spanned = |sort: &Sort| *sort == Sort::Span;
    let fields = row.sorts.iter().zip(&record.values).filter(|(sort, _)| !spanned(sort));
    Shape {
        kind: record.kind,
        span: (record.kind != 76).then(|| record.number(0) as u32),
        parts: fields.map(|(sort, value)| part(image, *sort, *value)).collect(),
    }
}

fn part(image: &Image, sort: Sort, value: Value) -> Part {
    let number = match value {
        Value::Range(first, count) => return Part::List(list(image, sort, (first, count))),
        Value::Number(number) => number,
    };
    match sort {
        Sort::NodeOrNone | Sort::ElseBranch if number == u64::from(NONE) => Part::Nothing,
        Sort::Text => text(image, number as u16),
        Sort::Node | Sort::NodeOrNone => Part::Node(number as usize),
        Sort::Inner | Sort::Branch | Sort::ElseBranch => inner(image, number as u16),
        _ => Part::Number(number),
    }
}

fn text(image: &Image, number: u16) -> Part {
    let bytes = image.text_of(number).expect("a text of the image");
    Part::Text(String::from_utf8(bytes.to_vec()).expect("an accepted text"))
}

fn inner(image: &Image, number: u16) -> Part {
    Part::Inner(Box::new(shape(image, &image.of(Section::Statement)[usize::from(number)])))
}

fn list(image: &Image, sort: Sort, (first, count): (u16, u16)) -> Vec<Part> {
    let entries = image.list(first, count).expect("a list of the image").iter().enumerate();
    let part = |(position, entry): (usize, &u16)| match sort {
        _ if sort.holds_node(position) => Part::Node(usize::from(*entry)),
        Sort::Texts | Sort::Fields => text(image, *entry),
        _ => inner(image, *entry),
    };
    entries.map(part).collect()
}
