//! Where a text's bytes are, and the message of a call's report by its number,
//! written by hand from the rules.

use crate::image::Image;
use crate::prove;
use crate::schema::Section;

/// The kind byte, the arena's number and nine counts, before the raw text.
const HEADER: usize = 1 + 4 + 9 * 2;

/// Where the text's bytes start in an accepted image, and how many they are;
/// none where the image has no such text.
pub fn text(image: &Image, number: u32) -> Option<(u16, u16)> {
    let (offset, length) = *image.texts.get(usize::try_from(number).ok()?)?;
    Some((HEADER as u16 + offset, length))
}

/// The messages of a call's reports in their order, with their opening; none
/// where the image has no such call.
pub fn messages(image: &Image, call: u32) -> Option<Vec<String>> {
    let call = usize::try_from(call).ok()?;
    image.of(Section::Call).get(call)?;
    let said = |report| prove::message(image, report).expect("a report of the image");
    Some(prove::reports_of(image, call).into_iter().map(said).collect())
}
