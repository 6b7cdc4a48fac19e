//! The fields of a record, each with its own checks.

use super::{refuse, Reader, Refusal, ARM, NONE};
use std::slice::ChunksExact;

impl<'a> Reader<'a> {
    pub(super) fn skip(&mut self, length: usize) -> Result<&'a [u8], Refusal> {
        match self.image.get(self.at..self.at + length) {
            Some(bytes) => {
                self.at += length;
                Ok(bytes)
            }
            None => refuse(3, self.at),
        }
    }

    pub(super) fn take<const N: usize>(&mut self) -> Result<[u8; N], Refusal> {
        let mut bytes = [0; N];
        bytes.copy_from_slice(self.skip(N)?);
        Ok(bytes)
    }

    pub(super) fn kind(&mut self, low: u8, high: u8) -> Result<u8, Refusal> {
        let place = self.at;
        let [kind] = self.take()?;
        if kind < low || kind > high {
            return refuse(4, place);
        }
        Ok(kind)
    }

    pub(super) fn u16(&mut self) -> Result<usize, Refusal> {
        Ok(usize::from(u16::from_le_bytes(self.take()?)))
    }

    pub(super) fn pair(&mut self) -> Result<(usize, usize), Refusal> {
        let [a, b, c, d] = self.take()?;
        let first = u16::from_le_bytes([a, b]);
        let count = u16::from_le_bytes([c, d]);
        Ok((usize::from(first), usize::from(count)))
    }

    pub(super) fn opaque(&mut self) -> Result<(), Refusal> {
        self.skip(4).map(|_| ())
    }

    pub(super) fn byte_within(&mut self, low: u8, high: u8) -> Result<u8, Refusal> {
        let place = self.at;
        let [byte] = self.take()?;
        if byte < low || byte > high {
            return refuse(7, place);
        }
        Ok(byte)
    }

    pub(super) fn scalar(&mut self) -> Result<(), Refusal> {
        let place = self.at;
        let value = u32::from_le_bytes(self.take()?);
        match char::from_u32(value) {
            Some(_) => Ok(()),
            None => refuse(7, place),
        }
    }

    pub(super) fn text(&mut self) -> Result<(), Refusal> {
        let place = self.at;
        if self.u16()? >= self.counts.texts {
            return refuse(8, place);
        }
        Ok(())
    }

    /// A name, a depth and a slot.
    pub(super) fn resolved(&mut self) -> Result<(), Refusal> {
        self.text()?;
        self.opaque()?;
        self.opaque()
    }

    pub(super) fn node(&mut self) -> Result<(), Refusal> {
        let place = self.at;
        let node = self.u16()?;
        self.node_is(node, place)
    }

    pub(super) fn node_or_none(&mut self) -> Result<(), Refusal> {
        let place = self.at;
        match self.u16()? {
            NONE => Ok(()),
            node => self.node_is(node, place),
        }
    }

    fn node_is(&mut self, node: usize, place: usize) -> Result<(), Refusal> {
        if node >= self.expressions {
            return refuse(8, place);
        }
        self.tallest_expression = self.tallest_expression.max(self.heights[node]);
        Ok(())
    }

    pub(super) fn statement_of(
        &mut self,
        none: bool,
        takes: fn(u8) -> bool,
    ) -> Result<(), Refusal> {
        let place = self.at;
        match self.u16()? {
            NONE if none => Ok(()),
            statement => self.statement_is(statement, takes, place),
        }
    }

    #[inline]
    fn statement_is(
        &mut self,
        statement: usize,
        takes: fn(u8) -> bool,
        place: usize,
    ) -> Result<(), Refusal> {
        let slot = self.counts.expressions + statement;
        if statement >= self.statements || !takes(self.image[usize::from(self.starts[slot])]) {
            return refuse(8, place);
        }
        self.tallest_statement = self.tallest_statement.max(self.heights[slot]);
        Ok(())
    }

    pub(super) fn range(&mut self, section: usize) -> Result<(usize, usize), Refusal> {
        let place = self.at;
        let (first, count) = self.pair()?;
        if first + count > section {
            return refuse(8, place);
        }
        Ok((first, count))
    }

    /// The records of a list's entries.
    fn list(&mut self) -> Result<&'a [u8], Refusal> {
        let (first, count) = self.range(self.counts.entries)?;
        Ok(&self.entries[3 * first..3 * (first + count)])
    }

    pub(super) fn nodes(&mut self) -> Result<(), Refusal> {
        let place = self.at;
        let list = self.list()?;
        self.nodes_are(list.chunks_exact(3), place)
    }

    pub(super) fn node_pairs(&mut self) -> Result<(), Refusal> {
        let place = self.at;
        let list = self.list()?;
        if list.len() % 2 != 0 {
            return refuse(8, place);
        }
        self.nodes_are(list.chunks_exact(3), place)
    }

    fn nodes_are(&mut self, entries: ChunksExact<u8>, place: usize) -> Result<(), Refusal> {
        let known = &self.heights[..self.expressions];
        let mut tallest = self.tallest_expression;
        for entry in entries {
            match known.get(number(entry)) {
                Some(height) => tallest = tallest.max(*height),
                None => return refuse(8, place),
            }
        }
        self.tallest_expression = tallest;
        Ok(())
    }

    pub(super) fn texts(&mut self) -> Result<(), Refusal> {
        let place = self.at;
        for entry in self.list()?.chunks_exact(3) {
            if number(entry) >= self.counts.texts {
                return refuse(8, place);
            }
        }
        Ok(())
    }

    pub(super) fn field_pairs(&mut self) -> Result<(), Refusal> {
        let place = self.at;
        let list = self.list()?;
        if list.len() % 2 != 0 {
            return refuse(8, place);
        }
        for pair in list.chunks_exact(6) {
            if number(pair) >= self.counts.texts {
                return refuse(8, place);
            }
            self.node_is(number(&pair[3..]), place)?;
        }
        Ok(())
    }

    pub(super) fn body(&mut self) -> Result<(), Refusal> {
        self.statement_list(|kind| kind != ARM)
    }

    #[inline]
    pub(super) fn statement_list(&mut self, takes: fn(u8) -> bool) -> Result<(), Refusal> {
        let place = self.at;
        for entry in self.list()?.chunks_exact(3) {
            self.statement_is(number(entry), takes, place)?;
        }
        Ok(())
    }
}

/// The number in a list entry's record.
fn number(entry: &[u8]) -> usize {
    usize::from(u16::from_le_bytes([entry[1], entry[2]]))
}
