//! The independent reader, written by hand from the rules of the format. It
//! shares no table with the other modules, so it can be held against them.

mod fields;

const LIMITS: [usize; 9] = [16_384, 2_048, 4_096, 4_096, 2_048, 256, 256, 64, 256];
const EXPRESSION_HEIGHT: u16 = 68;
const STATEMENT_HEIGHT: u16 = 36;
const WORK: usize = 8_192;
const NONE: usize = 65_535;

const BRANCH: u8 = 69;
const CONDITIONAL: u8 = 68;
const ARM: u8 = 76;

/// Why an image is refused, and the place of the offending field.
#[derive(Debug, Clone, Copy, PartialEq, Eq)]
pub struct Refusal {
    pub number: u32,
    pub place: u32,
}

/// The header of an accepted image.
#[derive(Debug, Clone, Copy, PartialEq, Eq, Default)]
pub struct Counts {
    pub text_bytes: usize,
    pub texts: usize,
    pub entries: usize,
    pub expressions: usize,
    pub statements: usize,
    pub parameters: usize,
    pub clauses: usize,
    pub functions: usize,
    pub calls: usize,
}

/// What reading finds in an accepted image.
#[derive(Debug, Clone, PartialEq, Eq)]
pub struct Accepted {
    pub arena: u32,
    pub counts: Counts,
    pub expression_heights: Vec<u16>,
    pub statement_heights: Vec<u16>,
}

/// Reads an image with a work slice of the given length.
pub fn read(image: &[u8], work_len: usize) -> Result<Accepted, Refusal> {
    let mut work = vec![0; work_len];
    let (arena, counts) = read_into(image, &mut work)?;
    let (expressions, rest) = work.split_at(counts.expressions);
    Ok(Accepted {
        arena,
        counts,
        expression_heights: expressions.to_vec(),
        statement_heights: rest[..counts.statements].to_vec(),
    })
}

/// Reads an image without allocating. On acceptance `work` holds the heights
/// of the expressions, then of the statements, then zeros; otherwise zeros.
pub fn read_into(image: &[u8], work: &mut [u16]) -> Result<(u32, Counts), Refusal> {
    let answer = read_checked(image, work);
    let used = match &answer {
        Ok((_, counts)) => counts.expressions + counts.statements,
        Err(_) => 0,
    };
    work[used..].fill(0);
    answer
}

fn read_checked(image: &[u8], work: &mut [u16]) -> Result<(u32, Counts), Refusal> {
    if image.len() > 65_535 {
        return refuse(1, 0);
    }
    if work.len() < WORK {
        return refuse(2, 0);
    }
    let mut reader = Reader {
        image,
        at: 0,
        raw: &[],
        entries: &[],
        counts: Counts::default(),
        heights: work,
        starts: [0; LIMITS[3] + LIMITS[4]],
        expressions: 0,
        statements: 0,
        tallest_expression: 0,
        tallest_statement: 0,
    };
    let arena = reader.header()?;
    reader.sections()?;
    Ok((arena, reader.counts))
}

fn refuse<T>(number: u32, place: usize) -> Result<T, Refusal> {
    let place = place as u32;
    Err(Refusal { number, place })
}

struct Reader<'a> {
    image: &'a [u8],
    at: usize,
    /// The raw text, and the list entries' records, once they are known.
    raw: &'a [u8],
    entries: &'a [u8],
    counts: Counts,
    /// Heights and places of the expressions, then of the statements.
    heights: &'a mut [u16],
    starts: [u16; LIMITS[3] + LIMITS[4]],
    /// How many expressions and statements a reference may go to.
    expressions: usize,
    statements: usize,
    /// Heights among the current record's children, 0 without any.
    tallest_expression: u16,
    tallest_statement: u16,
}

impl<'a> Reader<'a> {
    fn header(&mut self) -> Result<u32, Refusal> {
        self.kind(1, 1)?;
        let arena = u32::from_le_bytes(self.take()?);
        let mut counts = [0; 9];
        for (count, limit) in counts.iter_mut().zip(LIMITS) {
            let place = self.at;
            *count = self.u16()?;
            if *count > limit {
                return refuse(5, place);
            }
        }
        self.counts = Counts {
            text_bytes: counts[0],
            texts: counts[1],
            entries: counts[2],
            expressions: counts[3],
            statements: counts[4],
            parameters: counts[5],
            clauses: counts[6],
            functions: counts[7],
            calls: counts[8],
        };
        Ok(arena)
    }

    fn sections(&mut self) -> Result<(), Refusal> {
        self.raw = self.skip(self.counts.text_bytes)?;
        for _ in 0..self.counts.texts {
            self.text_record()?;
        }
        let entries = self.at;
        for _ in 0..self.counts.entries {
            self.kind(3, 3)?;
            self.u16()?;
        }
        self.entries = &self.image[entries..self.at];
        for index in 0..self.counts.expressions {
            self.expression(index)?;
        }
        for index in 0..self.counts.statements {
            self.statement(index)?;
        }
        for _ in 0..self.counts.parameters {
            self.parameter()?;
        }
        for _ in 0..self.counts.clauses {
            self.clause()?;
        }
        for _ in 0..self.counts.functions {
            self.function()?;
        }
        for _ in 0..self.counts.calls {
            self.call()?;
        }
        if self.at < self.image.len() {
            return refuse(10, self.at);
        }
        Ok(())
    }

    fn text_record(&mut self) -> Result<(), Refusal> {
        self.kind(2, 2)?;
        let place = self.at;
        let (offset, length) = self.pair()?;
        match self.raw.get(offset..offset + length) {
            Some(bytes) if std::str::from_utf8(bytes).is_ok() => Ok(()),
            _ => refuse(6, place),
        }
    }

    fn expression(&mut self, index: usize) -> Result<(), Refusal> {
        let start = self.at;
        self.expressions = index;
        self.tallest_expression = 0;
        let kind = self.kind(16, 57)?;
        self.skip(4)?;
        match kind {
            16..=29 => self.literal(kind)?,
            _ => self.compound(kind)?,
        }
        let height = 1 + self.tallest_expression;
        if height > EXPRESSION_HEIGHT {
            return refuse(9, start);
        }
        self.heights[index] = height;
        self.starts[index] = start as u16;
        self.expressions = index + 1;
        Ok(())
    }

    fn literal(&mut self, kind: u8) -> Result<(), Refusal> {
        match kind {
            16 => Ok(()),
            17 | 19 | 27 => self.skip(8).map(|_| ()),
            18 | 20 | 28 => self.opaque(),
            21 | 22 => self.skip(1).map(|_| ()),
            23 | 24 => self.skip(2).map(|_| ()),
            25 => self.text(),
            26 => self.byte_within(0, 1).map(|_| ()),
            _ => self.scalar(),
        }
    }

    fn compound(&mut self, kind: u8) -> Result<(), Refusal> {
        match kind {
            30 => self.text(),
            31 => self.resolved(),
            32 => {
                self.node()?;
                self.byte_within(1, 63)?;
                self.node()
            }
            33 => {
                self.byte_within(1, 63)?;
                self.node()
            }
            34 | 48..=51 => self.node(),
            35 | 37 | 38 => self.nodes(),
            36 => self.node_pairs(),
            39 => self.text().and_then(|_| self.node()),
            40 => self.resolved().and_then(|_| self.node()),
            41 => self.texts().and_then(|_| self.nodes()),
            42 => self.node().and_then(|_| self.nodes()),
            43 => {
                self.node()?;
                self.texts()?;
                self.nodes()
            }
            44 => self.node().and_then(|_| self.node()),
            45 => {
                self.node()?;
                self.node()?;
                self.node()
            }
            46 | 47 => self.node().and_then(|_| self.opaque()),
            52 => self.text().and_then(|_| self.field_pairs()),
            53 => self.node().and_then(|_| self.text()),
            54 => {
                self.node()?;
                self.text()?;
                self.node()
            }
            55 => self.text().and_then(|_| self.text()),
            _ => self.opaque(),
        }
    }

    fn statement(&mut self, index: usize) -> Result<(), Refusal> {
        let start = self.at;
        self.statements = index;
        self.tallest_statement = 0;
        let kind = self.kind(64, 79)?;
        self.skip(4)?;
        self.statement_body(kind)?;
        let height = 1 + self.tallest_statement;
        if height > STATEMENT_HEIGHT {
            return refuse(9, start);
        }
        self.heights[self.counts.expressions + index] = height;
        self.starts[self.counts.expressions + index] = start as u16;
        self.statements = index + 1;
        Ok(())
    }

    fn statement_body(&mut self, kind: u8) -> Result<(), Refusal> {
        match kind {
            64 => {
                self.text()?;
                self.opaque()?;
                self.node()?;
                self.opaque()
            }
            65 | 66 => self.node(),
            68 => {
                self.statement_of(false, |kind| kind == BRANCH)?;
                self.statement_of(true, |kind| kind == BRANCH || kind == CONDITIONAL)
            }
            69 => {
                self.node_or_none()?;
                self.body()?;
                self.byte_within(0, 1).map(|_| ())
            }
            70 => self.node().and_then(|_| self.body()),
            71 => self.body(),
            72 => {
                self.statement_of(false, |kind| kind != ARM)?;
                self.node()?;
                self.node()?;
                self.body()
            }
            73 => {
                self.text()?;
                self.statement_of(false, |kind| kind != ARM)?;
                self.body()
            }
            74 => {
                self.text()?;
                self.node()?;
                self.body()
            }
            75 => self.node().and_then(|_| self.statement_list(|kind| kind == ARM)),
            76 => self.node_or_none().and_then(|_| self.body()),
            79 => self.opaque(),
            _ => Ok(()), // 67, 77, 78
        }
    }

    fn parameter(&mut self) -> Result<(), Refusal> {
        self.kind(80, 80)?;
        self.text()?;
        self.opaque()?;
        let refinement = self.byte_within(0, 6)?;
        let place = self.at;
        let sort = self.byte_within(0, 4)?;
        if (sort == 0) != (refinement == 0) {
            return refuse(7, place);
        }
        let place = self.at;
        let operand = u64::from_le_bytes(self.take()?);
        let largest = [0, u64::MAX, 0xffff, 1, 0xffff][usize::from(sort)];
        if operand > largest {
            return refuse(7, place);
        }
        if (sort == 2 || sort == 4) && operand as usize >= self.counts.texts {
            return refuse(8, place);
        }
        Ok(())
    }

    fn clause(&mut self) -> Result<(), Refusal> {
        self.kind(81, 81)?;
        self.node()?;
        self.node_or_none()
    }

    fn function(&mut self) -> Result<(), Refusal> {
        self.kind(82, 82)?;
        self.text()?;
        self.skip(4)?;
        self.range(self.counts.parameters)?;
        self.byte_within(0, 1)?;
        self.body()?;
        self.range(self.counts.clauses)?;
        self.range(self.counts.clauses)?;
        Ok(())
    }

    fn call(&mut self) -> Result<(), Refusal> {
        self.kind(83, 83)?;
        self.text()?;
        self.skip(4)?;
        self.nodes()
    }
}
