//! `rl_text` and `rl_message`, answers and every entry of what is lent.

use crate::case::{Case, Expected};
use crate::compare::{check_output, Comparison, Differs};
use check::ffi::{self, MESSAGE};
use check::slices::{lend, GARBAGE, GARBAGE_BYTE};
use oracle::Report;
use rlimg::image::WORK;

/// Behind the last, what a narrow number would take for another, and the most.
fn past(count: u32) -> [u32; 7] {
    [count, count + 1, 65_535, 65_536, 1 << 17, 1 << 31, u32::MAX]
}

impl Comparison {
    /// Every text, and numbers that no text has.
    pub fn texts(&mut self, case: &Case) -> Result<(), Differs> {
        let count = case.image.texts.len() as u32;
        for text in 0..count {
            self.text(case, WORK, text)?;
        }
        for text in past(count) {
            self.text(case, WORK, text)?;
        }
        let (work, any) = (self.any_work(), self.any_below(count));
        self.text(case, work, any)?;
        self.text(case, WORK - 1, count)
    }

    /// Every report of every call, numbers behind them, and calls that are not
    /// there. The original has the same messages, where it was asked.
    pub fn messages(&mut self, case: &Case, theirs: Option<&[Report]>) -> Result<(), Differs> {
        let mut theirs = theirs.map(<[Report]>::iter);
        for (call, reports) in (0..).zip(&case.reports) {
            let count = reports.len() as u32;
            for report in 0..count {
                self.message(case, WORK, [call, report])?;
                if let Some(theirs) = &mut theirs {
                    self.original_message(call, theirs.next())?;
                }
            }
            for report in [count, u32::MAX] {
                self.message(case, WORK, [call, report])?;
            }
        }
        let calls = case.calls();
        let (any, work) = (self.any_below(calls), self.any_work());
        let report = self.pick(&past(2));
        self.message(case, WORK, [any, report])?;
        self.message(case, work, [any, 0])?;
        self.message(case, WORK - 1, [calls, 0])?;
        let call = self.pick(&past(calls));
        self.message(case, WORK, [calls, 0])?;
        self.message(case, WORK, [call, report])
    }

    fn text(&mut self, case: &Case, work: usize, text: u32) -> Result<(), Differs> {
        lend(&mut self.work, work, GARBAGE.0);
        let answer = ffi::text(&case.bytes, &mut self.work[..work], text);
        let expected: Expected<u8> = case.text(work, text);
        let nothing = (&[][..], 0, GARBAGE_BYTE);
        check_output(&expected, answer, nothing)
            .and_then(|_| self.check_work(case, answer, work))
            .map_err(|fault| {
                Differs(format!("rl_text of {text}, work slice of {work}: {fault}"))
            })?;
        match answer.number {
            0 => self.tally.texts += 1,
            number => self.refused(number),
        }
        Ok(())
    }

    fn message(
        &mut self,
        case: &Case,
        work: usize,
        [call, report]: [u32; 2],
    ) -> Result<(), Differs> {
        lend(&mut self.work, work, GARBAGE.0);
        lend(&mut self.message, MESSAGE, GARBAGE_BYTE);
        let out: &mut [u8; MESSAGE] = self.message.first_chunk_mut().expect("lent");
        let answer = ffi::message(&case.bytes, &mut self.work[..work], call, report, out);
        let expected = case.message(work, call, report);
        check_output(&expected, answer, (&self.message, MESSAGE, GARBAGE_BYTE))
            .and_then(|_| self.check_work(case, answer, work))
            .map_err(|fault| {
                let which = format!("rl_message of report {report} of call {call}");
                Differs(format!("{which}, work slice of {work}: {fault}"))
            })?;
        match (answer.number, answer.place) {
            (0, 0) => self.tally.messages[1] += 1,
            (0, _) => self.tally.messages[0] += 1,
            (number, _) => self.refused(number),
        }
        Ok(())
    }

    /// The message that `rl_message` has left, against the original's.
    fn original_message(&mut self, call: u32, theirs: Option<&Report>) -> Result<(), Differs> {
        let theirs = theirs.filter(|theirs| theirs.call == call);
        let said = theirs.map_or(&[][..], |theirs| theirs.message.as_bytes());
        let ours = self.message.get(..said.len()).unwrap_or(&[]);
        if theirs.is_none() || ours != said || self.message.get(said.len()) != Some(&0) {
            let ours = String::from_utf8_lossy(&self.message[..MESSAGE]);
            let ours = format!("rl_message of call {call} says {:?}", ours.trim_end_matches('\0'));
            return Err(Differs(format!("{ours}, the original {theirs:?}")));
        }
        self.tally.original.messages += 1;
        Ok(())
    }
}
