//! The images that ask for much work: accepted, as large as they say, and
//! with the reports that they should have.

use rlimg::decode::decode;
use rlimg::encode::encode;
use rlimg::fold::{value_of, Folded, Names};
use rlimg::hostile;
use rlimg::image::{Image, WORK};
use rlimg::prove;
use rlimg::reader;

fn tallest(image: &Image) -> u16 {
    let bytes = encode(image);
    assert_eq!(decode(&bytes).as_ref(), Ok(image));
    let heights = reader::read(&bytes, WORK).expect("accepted").expression_heights;
    heights.into_iter().max().expect("an expression")
}

fn last(image: &Image) -> Option<Folded> {
    value_of(image, &Names::new(), (image.counts()[3] - 1) as u16)
}

#[test]
fn a_doubled_number_is_tall_and_folds() {
    let image = hostile::doubled(68);
    assert_eq!(tallest(&image), 68);
    assert_eq!(last(&image), Some(Folded::Float(2_f64.powi(67))));
    let (refinement, requires) = (|call| [call, 2, 0, 0], |call| [call, 2, 1, 0]);
    let expected = [refinement(0), requires(0), refinement(1), requires(1)];
    assert_eq!(prove::reports(&image), expected);
}

#[test]
fn the_deep_tree_is_unshared_and_folds() {
    let image = hostile::deep_tree();
    assert_eq!(tallest(&image), 68);
    assert_eq!(image.counts()[3], 4_031);
    assert_eq!(last(&image), Some(Folded::Int(63 * (0..32).sum::<i64>())));
}

#[test]
fn worst_calls_are_full() {
    let worst = hostile::worst_call();
    assert_eq!(tallest(&worst), 68);
    assert!(worst.counts()[3] > 4_000);
    for image in [worst, hostile::long_names(1_024), hostile::long_texts(1_024)] {
        tallest(&image);
        assert_eq!(image.counts()[5..], [256, 256, 1, 1]);
        assert_eq!(image.entries.len(), 256);
    }
    for image in [hostile::worst_call(), hostile::long_names(4), hostile::long_texts(4)] {
        assert_eq!(prove::reports(&image).len(), 256 - 16 + 256);
    }
}
