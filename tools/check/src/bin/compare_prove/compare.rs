//! The exports' answers and every entry of their slices, held against what
//! they must be.

use crate::case::{Case, Expected};
use crate::original::Asked;
use crate::tally::{sort_of, Tally};
use check::ffi::{self, Answer};
use check::said;
use check::slices::{check_slice, lend, Lent, GARBAGE};
use oracle::Report;
use rlimg::image::WORK;
use rlimg::rng::Rng;
use std::fmt::Debug;

/// The words of a folded value.
const WORDS: usize = 2;

/// What is different.
pub struct Differs(pub String);

pub struct Comparison {
    pub tally: Tally,
    rng: Rng,
    pub work: Vec<u16>,
    reports: Vec<u32>,
    value: Vec<u64>,
    pub message: Vec<u8>,
}

impl Comparison {
    pub fn new(seed: u64) -> Comparison {
        let (tally, rng) = (Tally::default(), Rng::new(seed));
        let (work, reports, value, message) = (Vec::new(), Vec::new(), Vec::new(), Vec::new());
        Comparison { tally, rng, work, reports, value, message }
    }

    /// Everything about one image.
    pub fn compare(&mut self, case: &Case) -> Result<(), Differs> {
        self.tally.images += 1;
        self.tally.refused += usize::from(!case.is_accepted());
        let mut asked = Asked::new(case);
        let reports = asked.as_mut().and_then(Asked::reports);
        self.tally.original.unasked[0] += usize::from(asked.is_some() && reports.is_none());
        self.proving_all(case, reports.as_deref())?;
        self.proving_each(case)?;
        self.folding_all(case, &mut asked)?;
        self.folding_others(case)?;
        self.texts(case)?;
        self.messages(case, reports.as_deref())
    }

    fn proving_all(&mut self, case: &Case, theirs: Option<&[Report]>) -> Result<(), Differs> {
        let exact = 4 * case.reports.iter().map(Vec::len).sum::<usize>();
        self.prove(case, WORK, None, exact)?;
        for report in self.reports[..exact].chunks(4) {
            self.tally.reports[report[2] as usize] += 1;
        }
        if let Some(theirs) = theirs {
            self.original_reports(case, theirs, exact)?;
        }
        let more = exact + 1 + self.rng.below(9);
        self.prove(case, WORK, None, more)?;
        if exact > 0 {
            self.prove(case, WORK, None, exact - 1)?;
        }
        let work = self.any_work();
        self.prove(case, work, None, exact)
    }

    fn proving_each(&mut self, case: &Case) -> Result<(), Differs> {
        let count = case.calls();
        for (call, reports) in case.reports.iter().enumerate() {
            let (call, exact) = (Some(call as u32), 4 * reports.len());
            self.prove(case, WORK, call, exact)?;
            if exact > 0 && (count < 4 || self.rng.one_in(4)) {
                let fewer = exact - 1 - self.rng.below(4).min(exact - 1);
                self.prove(case, WORK, call, exact - 1)?;
                self.prove(case, WORK, call, fewer)?;
                self.prove(case, WORK, call, exact + 5)?;
            }
        }
        let any = self.rng.below(count as usize + 1) as u32;
        let work = self.any_work();
        self.prove(case, work, Some(any), 2_048)?;
        let past = [count, count + 1, any + (1 << 16), any + (1 << 31), u32::MAX];
        let (past, room) = (self.rng.pick(&past), self.rng.pick(&[0, 3, 40]));
        self.prove(case, WORK, Some(past), room)
    }

    /// Every node.
    fn folding_all(&mut self, case: &Case, asked: &mut Option<Asked>) -> Result<(), Differs> {
        for node in 0..case.nodes() {
            let words = self.fold(case, WORK, [case.image.arena, node])?;
            self.tally.folded[sort_of(words)] += 1;
            if let Some(asked) = asked {
                self.original_value(case, asked, node, words)?;
            }
        }
        Ok(())
    }

    /// Other work slices, and ids that are not there.
    fn folding_others(&mut self, case: &Case) -> Result<(), Differs> {
        let (arena, count) = (case.image.arena, case.nodes());
        let any = self.rng.below(count as usize + 1) as u32;
        for _ in 0..2 {
            let work = self.any_work();
            self.fold(case, work, [arena, any])?;
        }
        let missing = [count, count + 1, any + (1 << 16), any + (1 << 31), u32::MAX];
        let others = [arena ^ 1, arena.wrapping_sub(1), arena ^ (1 << 16), !arena, any];
        let (missing, other) = (self.rng.pick(&missing), self.rng.pick(&others));
        for id in [[arena, missing], [other, any], [other, missing]] {
            self.fold(case, WORK, id)?;
        }
        Ok(())
    }

    pub fn any_below(&mut self, count: u32) -> u32 {
        self.rng.below(count as usize + 1) as u32
    }

    pub fn pick(&mut self, numbers: &[u32]) -> u32 {
        self.rng.pick(numbers)
    }

    /// Mostly enough.
    pub fn any_work(&mut self) -> usize {
        let any = self.rng.below(WORK);
        self.rng.pick(&[WORK, WORK + 1, 9_000, WORK + any, WORK - 1, any])
    }

    /// Proves a call, or all of them, into a slice of so many entries.
    fn prove(
        &mut self,
        case: &Case,
        work: usize,
        call: Option<u32>,
        room: usize,
    ) -> Result<(), Differs> {
        lend(&mut self.work, work, GARBAGE.0);
        lend(&mut self.reports, room, GARBAGE.1);
        let (lent, reports) = (&mut self.work[..work], &mut self.reports[..room]);
        let answer = match call {
            None => ffi::prove_all(&case.bytes, lent, reports),
            Some(call) => ffi::prove(&case.bytes, lent, call, reports),
        };
        let expected = case.proved(work, call, room);
        let what = || match call {
            None => format!("rl_prove_all, {room} entries"),
            Some(call) => format!("rl_prove of call {call}, {room} entries"),
        };
        check_output(&expected, answer, (&self.reports, room, GARBAGE.1))
            .and_then(|_| self.check_work(case, answer, work))
            .map_err(|fault| Differs(format!("{}, work slice of {work}: {fault}", what())))?;
        match answer.number {
            0 => self.tally.proved[usize::from(call.is_none())] += 1,
            number => self.refused(number),
        }
        Ok(())
    }

    /// Folds a node; gives the words of its value.
    fn fold(
        &mut self,
        case: &Case,
        work: usize,
        [arena, node]: [u32; 2],
    ) -> Result<[u64; WORDS], Differs> {
        lend(&mut self.work, work, GARBAGE.0);
        lend(&mut self.value, WORDS, GARBAGE.2);
        let value: &mut [u64; WORDS] = self.value.first_chunk_mut().expect("lent");
        let answer = ffi::fold(&case.bytes, &mut self.work[..work], arena, node, value);
        let words = *value;
        let expected = case.folded(work, arena, node);
        same_nan(&expected.output, value);
        check_output(&expected, answer, (&self.value, WORDS, GARBAGE.2))
            .and_then(|_| self.check_work(case, answer, work))
            .map_err(|fault| {
                let id = format!("node {node} of arena {arena}");
                Differs(format!("rl_fold of {id}, work slice of {work}: {fault}"))
            })?;
        if answer.number != 0 {
            self.refused(answer.number);
        }
        Ok(words)
    }

    pub fn check_work(&self, case: &Case, answer: Answer, work: usize) -> Result<(), String> {
        let heights = if answer.number == 0 { &case.heights[..] } else { &[] };
        check_slice("work", heights, (&self.work, work, GARBAGE.0))
    }

    pub fn refused(&mut self, number: u32) {
        *self.tally.refusals.entry(number).or_default() += 1;
    }

    /// The reports that `rl_prove_all` has left, against the original's.
    fn original_reports(
        &mut self,
        case: &Case,
        theirs: &[Report],
        used: usize,
    ) -> Result<(), Differs> {
        let reports = self.reports[..used].chunks(4);
        let said = reports.clone().map(|report| said(&case.image, report));
        let differs = said.zip(theirs).find(|(ours, theirs)| ours.as_ref() != Some(theirs));
        if let Some((ours, theirs)) = differs {
            return Err(Differs(format!("rl_prove_all says {ours:?}, the original {theirs:?}")));
        }
        if reports.len() != theirs.len() {
            let fault = format!("{} reports, the original has {}", reports.len(), theirs.len());
            return Err(Differs(fault));
        }
        self.tally.original.images += 1;
        self.tally.original.reports += theirs.len();
        Ok(())
    }

    /// The words that `rl_fold` has left for a node, against `const_eval`.
    fn original_value(
        &mut self,
        case: &Case,
        asked: &mut Asked,
        node: u32,
        words: [u64; WORDS],
    ) -> Result<(), Differs> {
        let Some(theirs) = asked.const_eval(node) else {
            self.tally.original.unasked[1] += 1;
            return Ok(());
        };
        if !oracle::same_value(&case.image, words, &theirs) {
            let ours = format!("rl_fold of node {node} says {words:x?}");
            return Err(Differs(format!("{ours}, the original's const_eval {theirs:x?}")));
        }
        self.tally.original.folded[sort_of(words)] += 1;
        Ok(())
    }
}

/// A NaN may have any bits, so they become those that are expected.
fn same_nan(expected: &[u64], value: &mut [u64; WORDS]) {
    let is_nan = |words: &[u64]| matches!(words, [2, bits] if f64::from_bits(*bits).is_nan());
    if is_nan(expected) && is_nan(value) {
        value.copy_from_slice(expected);
    }
}

pub fn check_output<T: Copy + PartialEq + Default + Debug>(
    expected: &Expected<T>,
    answer: Answer,
    lent: Lent<T>,
) -> Result<(), String> {
    let Answer { number, place } = expected.answer;
    if answer != expected.answer {
        let ours = format!("answer {} with {}", answer.number, answer.place);
        return Err(format!("{ours}, expected {number} with {place}"));
    }
    check_slice("output", &expected.output, lent)
}
