//! Deterministic generation of accepted images.

use crate::image::{Image, Record, Value, EXPRESSION_HEIGHT, LIMITS, NONE, STATEMENT_HEIGHT};
use crate::rng::Rng;
use crate::schema::{self, Row, Section, Sort, SECTIONS};

/// What kind of image is wanted.
#[derive(Debug, Clone, Copy)]
pub struct Shape {
    /// About the most records of a section.
    pub size: usize,
    /// Prefers the tallest children.
    pub deep: bool,
    /// The greatest heights of expressions and statements.
    pub heights: [u16; 2],
}

impl Shape {
    pub fn of(size: usize, deep: bool) -> Shape {
        let heights = [EXPRESSION_HEIGHT, STATEMENT_HEIGHT];
        Shape { size, deep, heights }
    }
}

/// An image of the shape, accepted where the shape's heights are allowed.
pub fn image(rng: &mut Rng, shape: Shape) -> Image {
    let mut generator = Generator::new(rng, shape);
    let texts = generator.rng.below(shape.size + 1);
    generator.texts(texts);
    for section in SECTIONS {
        generator.section = section;
        let most = shape.size.min(LIMITS[3 + section as usize]);
        let rows: Vec<&Row> = schema::rows(section).collect();
        for _ in 0..generator.rng.below(most + 1) {
            generator.any_record(&rows);
        }
    }
    generator.move_empty_lists();
    generator.image
}

/// A small accepted image whose section ends with a record of that kind.
pub fn image_with(rng: &mut Rng, row: &Row) -> Image {
    let mut generator = Generator::new(rng, Shape::of(3, false));
    generator.texts(3);
    for kind in [17, 30, 33] {
        generator.of_kind(Section::Expression, kind);
    }
    if row.section != Section::Expression {
        for kind in [77, 69, 76, 68] {
            generator.of_kind(Section::Statement, kind);
        }
    }
    if row.section == Section::Function {
        for (section, kind) in [(Section::Parameter, 80), (Section::Clause, 81)] {
            generator.of_kind(section, kind);
        }
    }
    generator.of_kind(row.section, row.kind);
    generator.image
}

const EDGE_CHARACTERS: [char; 14] = [
    '\0',
    '"',
    '\\',
    '\n',
    '\u{7f}',
    '\u{80}',
    '\u{7ff}',
    '\u{800}',
    '\u{d7ff}',
    '\u{e000}',
    '\u{ffff}',
    '\u{10000}',
    '\u{10ffff}',
    'z',
];

struct Generator<'r> {
    rng: &'r mut Rng,
    shape: Shape,
    image: Image,
    section: Section,
    /// Heights of the expressions and of the statements.
    heights: [Vec<u16>; 2],
    /// The tallest expression that may still be a child.
    tallest: usize,
}

impl<'r> Generator<'r> {
    fn new(rng: &'r mut Rng, shape: Shape) -> Generator<'r> {
        let arena = rng.number() as u32;
        let mut image = Image { arena, ..Image::default() };
        for _ in 0..rng.below(3) {
            image.entries.push(rng.number() as u16);
        }
        Generator {
            rng,
            shape,
            image,
            section: Section::Expression,
            heights: [Vec::new(), Vec::new()],
            tallest: 0,
        }
    }

    fn character(&mut self) -> char {
        let bits = self.rng.pick(&[7, 11, 16, 21]);
        let value = self.rng.number() as u32 & ((1 << bits) - 1);
        let edge = self.rng.pick(&EDGE_CHARACTERS);
        match char::from_u32(value) {
            Some(character) if !self.rng.one_in(3) => character,
            _ => edge,
        }
    }

    /// Raw text, bytes that no text uses at both ends, and texts over it.
    fn texts(&mut self, count: usize) {
        let used: String = (0..2 * count).map(|_| self.character()).collect();
        let unused = [self.rng.below(3), self.rng.below(3)];
        self.image.text = vec![0x80; unused[0]];
        self.image.text.extend(used.as_bytes());
        self.image.text.extend(vec![0xff; unused[1]]);
        let mut edges: Vec<usize> = used.char_indices().map(|(at, _)| at).collect();
        edges.push(used.len());
        for _ in 0..count {
            let from = self.rng.below(edges.len());
            let to = from + self.rng.below(edges.len() - from).min(6);
            let mut text = (unused[0] + edges[from], edges[to] - edges[from]);
            if self.rng.one_in(8) {
                text = (self.rng.below(self.image.text.len() + 1), 0);
            }
            self.image.texts.push((text.0 as u16, text.1 as u16));
        }
    }

    fn any_record(&mut self, rows: &[&'static Row]) {
        for _ in 0..20 {
            let row = self.rng.pick(rows);
            let childless = row.sorts.iter().all(|sort| !is_child(self.section, *sort));
            if self.shape.deep && childless && !self.rng.one_in(6) {
                continue;
            }
            if self.record(row) {
                return;
            }
        }
    }

    fn of_kind(&mut self, section: Section, kind: u8) {
        self.section = section;
        let row = schema::of_kind(kind).expect("a kind of the format");
        assert!(self.record(row), "kind {kind} needs other records");
    }

    /// Appends a record, unless something that it needs is missing.
    fn record(&mut self, row: &Row) -> bool {
        let values = row.sorts.iter().map(|sort| self.value(*sort));
        let Some(mut values) = values.collect::<Option<Vec<Value>>>() else {
            return false;
        };
        if row.section == Section::Parameter {
            self.refine(&mut values);
        }
        if let Some(heights) = self.heights.get(self.section as usize) {
            let height = 1 + self.tallest_child(row, &values);
            let index = heights.len();
            let open = self.section == Section::Expression && height < self.shape.heights[0];
            if open && (index == 0 || height >= heights[self.tallest]) {
                self.tallest = index;
            }
            self.heights[self.section as usize].push(height);
        }
        let kind = row.kind;
        self.image.of_mut(self.section).push(Record { kind, values });
        true
    }

    fn tallest_child(&self, row: &Row, values: &[Value]) -> u16 {
        let heights = &self.heights[self.section as usize];
        let mut tallest = 0;
        for (sort, value) in row.sorts.iter().zip(values) {
            if !is_child(self.section, *sort) {
                continue;
            }
            match *value {
                Value::Number(child) => {
                    let height = heights.get(child as usize).copied().unwrap_or(0);
                    tallest = tallest.max(height);
                }
                Value::Range(first, count) => {
                    let list = self.image.list(first, count).unwrap_or(&[]);
                    for (position, child) in list.iter().enumerate() {
                        if self.section == Section::Statement || sort.holds_node(position) {
                            tallest = tallest.max(heights[usize::from(*child)]);
                        }
                    }
                }
            }
        }
        tallest
    }

    fn value(&mut self, sort: Sort) -> Option<Value> {
        let number = match sort {
            Sort::Text => u64::from(self.text()?),
            Sort::Node => u64::from(self.node()?),
            Sort::NodeOrNone if self.rng.one_in(3) => u64::from(NONE),
            Sort::NodeOrNone => u64::from(self.node().unwrap_or(NONE)),
            Sort::ElseBranch if self.rng.one_in(3) => u64::from(NONE),
            Sort::Inner | Sort::Branch | Sort::ElseBranch => u64::from(self.statement(sort)?),
            Sort::Parameters => return Some(self.range(Section::Parameter)),
            Sort::Clauses => return Some(self.range(Section::Clause)),
            Sort::Bool => self.rng.below(2) as u64,
            Sort::Scalar => self.character() as u64,
            Sort::Operator => 1 + self.rng.below(63) as u64,
            Sort::Refinement => self.rng.below(7) as u64,
            Sort::OperandSort | Sort::Operand => 0,
            _ if sort.is_list() => return Some(self.list(sort)),
            _ => self.bits(8 * sort.width()),
        };
        Some(Value::Number(number))
    }

    /// Any number of so many bits, the ends often.
    fn bits(&mut self, bits: usize) -> u64 {
        let all = u64::MAX >> (64 - bits);
        let any = self.rng.number() & all;
        self.rng.pick(&[any, any, any >> (bits / 2), 0, all, all / 2, all / 2 + 1])
    }

    /// Operand sort and operand, as the refinement wants them.
    fn refine(&mut self, values: &mut [Value]) {
        if values[2] == Value::Number(0) {
            return;
        }
        let sort = 1 + self.rng.below(4);
        let operand = match sort {
            1 => self.bits(64),
            3 => self.rng.below(2) as u64,
            _ => self.text().map_or(0, u64::from),
        };
        values[3] = Value::Number(sort as u64);
        values[4] = Value::Number(operand);
    }

    fn text(&mut self) -> Option<u16> {
        let texts = self.image.texts.len();
        (texts > 0).then(|| self.rng.below(texts) as u16)
    }

    fn node(&mut self) -> Option<u16> {
        let nodes = self.heights[0].len();
        if nodes == 0 {
            return None;
        }
        let mut node = self.rng.below(nodes);
        if self.shape.deep && !self.rng.one_in(4) {
            node = self.tallest;
        }
        let fits = self.fits(Sort::Nodes, 0, node as u16);
        Some(if fits { node as u16 } else { 0 })
    }

    /// A statement that the sort of field takes: a few tries, then the first.
    fn statement(&mut self, sort: Sort) -> Option<u16> {
        let count = self.heights[1].len();
        for _ in 0..6 {
            let near = if self.shape.deep { 4 } else { count };
            let back = 1 + self.rng.below(near.max(1));
            let statement = count.checked_sub(back)? as u16;
            if self.fits(sort, 0, statement) {
                return Some(statement);
            }
        }
        (0..count as u16).find(|statement| self.fits(sort, 0, *statement))
    }

    /// Whether a number may stand in such a field or list here.
    fn fits(&self, sort: Sort, position: usize, number: u16) -> bool {
        let number = usize::from(number);
        if sort.holds_node(position) {
            let own = self.section == Section::Expression;
            let height = self.heights[0].get(number);
            return height.is_some_and(|height| !own || *height < self.shape.heights[0]);
        }
        if matches!(sort, Sort::Texts | Sort::Fields) {
            return number < self.image.texts.len();
        }
        let Some(record) = self.image.of(Section::Statement).get(number) else {
            return false;
        };
        let own = self.section == Section::Statement;
        let taken = match sort {
            Sort::Branch => record.kind == 69,
            Sort::ElseBranch => record.kind == 69 || record.kind == 68,
            Sort::Arms => record.kind == 76,
            _ => record.kind != 76,
        };
        taken && (!own || self.heights[1][number] < self.shape.heights[1])
    }

    fn range(&mut self, section: Section) -> Value {
        let records = self.image.of(section).len();
        let first = self.rng.below(records + 1);
        let count = self.rng.below(records - first + 1);
        Value::Range(first as u16, count as u16)
    }

    /// A new list, or one over entries that are there already.
    fn list(&mut self, sort: Sort) -> Value {
        let known = self.image.entries.len();
        let first = self.rng.below(known + 1);
        let mut count = self.rng.below(known - first + 1).min(12);
        if sort.is_pairs() {
            count &= !1;
        }
        let window = self.image.entries[first..first + count].iter().enumerate();
        let shared = window.clone().all(|(at, entry)| self.fits(sort, at, *entry));
        let often = if self.shape.deep { 5 } else { 2 };
        if shared && self.rng.one_in(often) {
            return Value::Range(first as u16, count as u16);
        }
        let mut count = self.rng.below(4);
        if self.rng.one_in(16) {
            count = self.rng.below(40);
        }
        if sort.is_pairs() {
            count &= !1;
        }
        let entries = (0..count).map(|position| self.entry(sort, position));
        let entries = entries.collect::<Option<Vec<u16>>>().unwrap_or_default();
        if known + entries.len() > LIMITS[2] {
            return Value::Range(known as u16, 0);
        }
        self.image.entries.extend(&entries);
        Value::Range(known as u16, entries.len() as u16)
    }

    fn entry(&mut self, sort: Sort, position: usize) -> Option<u16> {
        match sort {
            _ if sort.holds_node(position) => self.node(),
            Sort::Texts | Sort::Fields => self.text(),
            _ => self.statement(sort),
        }
    }

    /// Some empty lists start at the end of the entries.
    fn move_empty_lists(&mut self) {
        let end = self.image.entries.len() as u16;
        for record in self.image.records.iter_mut().flatten() {
            let row = schema::of_kind(record.kind).expect("a kind of the format");
            for (sort, value) in row.sorts.iter().zip(&mut record.values) {
                let empty = matches!(value, Value::Range(_, 0));
                if sort.is_list() && empty && self.rng.one_in(3) {
                    *value = Value::Range(end, 0);
                }
            }
        }
    }
}

/// Whether such a field has children in the record's own section.
fn is_child(section: Section, sort: Sort) -> bool {
    match section {
        Section::Expression => sort == Sort::Node || sort.holds_node(1),
        Section::Statement => {
            matches!(sort, Sort::Inner | Sort::Branch | Sort::ElseBranch | Sort::Body | Sort::Arms)
        }
        _ => false,
    }
}
