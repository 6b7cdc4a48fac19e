//! Texts by their number in the image's bytes, and messages by the number of
//! the report.

use rlimg::decode::decode;
use rlimg::encode::encode;
use rlimg::hostile::{doubled, longest_output};
use rlimg::image::LIMITS;
use rlimg::prove;
use rlimg::rng::Rng;
use rlimg::rules;
use rlimg::texts::{messages, text};

const OPENING: &str = "contract violation (proven at compile time): ";

#[test]
fn the_bytes_of_a_text_are_where_it_is_said() {
    let mut rng = Rng::new(4);
    for _ in 0..200 {
        let image = rules::image(&mut rng, 4);
        let bytes = encode(&image);
        for number in 0..image.texts.len() as u32 {
            let (start, length) = text(&image, number).expect("a text of the image");
            let part = usize::from(start)..usize::from(start) + usize::from(length);
            assert_eq!(image.text_of(number as u16), Some(&bytes[part]));
        }
        for number in [image.texts.len() as u32, 65_536, u32::MAX] {
            assert_eq!(text(&image, number), None);
        }
    }
}

#[test]
fn messages_are_those_of_the_reports() {
    let image = doubled(5);
    let said =
        ["refinement failed: x < 0", "requires violated"].map(|said| [OPENING, said].concat());
    for call in [0, 1] {
        assert_eq!(messages(&image, call), Some(said.to_vec()));
        assert_eq!(prove::reports_of(&image, call as usize).len(), 2);
    }
    for call in [2, 256, u32::MAX] {
        assert_eq!(messages(&image, call), None);
    }
}

#[test]
fn the_longest_output_is_as_long_as_can_be() {
    let image = longest_output();
    assert_eq!(decode(&encode(&image)).as_ref(), Ok(&image));
    assert_eq!(image.counts()[8], LIMITS[8]);
    let last = messages(&image, 255).expect("a call of the image");
    assert_eq!(last.len(), LIMITS[5] + LIMITS[6]);
    let lengths: Vec<usize> = last.iter().map(String::len).collect();
    let long = LIMITS[0] - LIMITS[5];
    assert!(lengths.iter().all(|length| *length > long), "{lengths:?}");
    assert!(lengths[..LIMITS[5]].iter().all(|length| *length > 2 * long), "{lengths:?}");
}
