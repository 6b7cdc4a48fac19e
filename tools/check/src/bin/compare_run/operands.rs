//! Listed functions over small constants and over texts, each with just the
//! steps that it takes and with one less.

use crate::{Comparison, Differs, LONG};
use check::runs::Case;
use rlimg::encode::encode;
use rlimg::image::{Image, WORK};
use rlimg::run::{answer_to, Call};
use rlimg::runs::{operands, texts};
use rlimg::schema::Section;

impl Comparison {
    pub fn listed_operands(&mut self) -> Result<(), Differs> {
        self.tally.operands = self.functions_of(operands::images())?;
        Ok(())
    }

    pub fn listed_texts(&mut self) -> Result<(), Differs> {
        self.tally.texts = self.functions_of(texts::images())?;
        Ok(())
    }

    /// Gives how many functions the images have.
    fn functions_of(&mut self, images: Vec<Image>) -> Result<usize, Differs> {
        let mut count = 0;
        for image in images {
            let functions = image.of(Section::Function).len() as u32;
            let case = Case::new(encode(&image));
            for function in 0..functions {
                self.just_enough(&case, function)?;
                count += 1;
            }
        }
        Ok(count)
    }

    fn just_enough(&mut self, case: &Case, function: u32) -> Result<(), Differs> {
        let call = |budget| Call { work: WORK, function, words: vec![], budget };
        let steps = match answer_to(&case.image, &call(LONG)) {
            Ok([_, steps, ..]) => steps as u32,
            Err(refusal) => {
                println!("listed function: refused {} at {}", refusal.number, refusal.place);
                return Err(Differs);
            }
        };
        for budget in [steps, steps - 1] {
            self.compare(case, &call(budget))?;
        }
        Ok(())
    }
}
