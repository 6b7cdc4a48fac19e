//! Values as words: which stand for none, and where in the order of the
//! refusals they are refused.

use rlimg::code;
use rlimg::encode::encode;
use rlimg::fold::Folded::{Bool, Float, Int, Str};
use rlimg::image::{LENGTH_LIMIT, WORK};
use rlimg::reader::Refusal;
use rlimg::run::{self, Call, Ending, Outcome, Value, BUDGET};
use rlimg::runs::words;

#[test]
fn refusals() {
    let image = code::image(&["a"], |_| vec![]);
    let bytes = encode(&image);
    let missing = image.texts.len() as u64;
    let call =
        |words: &[u64]| Call { work: WORK, function: 0, words: words.to_vec(), budget: BUDGET };
    let refused = |bytes: &[u8], call: Call, number| {
        assert_eq!(run::answer(bytes, &call), Err(Refusal { number, place: 0 }));
    };
    assert_eq!(run::answer(&bytes, &call(&[3, missing - 1])), Ok([1, 0, 0, 0]));
    refused(&bytes, Call { function: 1, ..call(&[]) }, 11);
    refused(&bytes, call(&[]), 19);
    refused(&bytes, call(&[3, missing, 0, 0]), 19);
    for sort in [3, 11, 19] {
        refused(&bytes, Call { budget: BUDGET + 1, ..call(&[sort, missing]) }, 20);
    }
    refused(&bytes, Call { budget: BUDGET + 1, ..call(&[0, 0]) }, 21);
    refused(&encode(&code::image(&["a"; 17], |_| vec![])), call(&[0; 34]), 19);
    refused(&bytes, Call { work: WORK - 1, function: 1, ..call(&[]) }, 2);
    refused(&vec![1; LENGTH_LIMIT + 1], Call { work: 0, ..call(&[]) }, 1);
    for words in [&[0][..], &[0, 1], &[5, 0], &[24, 0], &[12, 2], &[1 << 32, 0], &[3, missing, 0]] {
        let over = Call { budget: BUDGET + 1, ..call(words) };
        refused(&bytes, over.clone(), 19);
        refused(&bytes, Call { function: 1, ..over.clone() }, 11);
        refused(&bytes, Call { work: WORK - 1, ..over }, 2);
        refused(&[], call(words), 3);
    }
    for text in [65_535, 65_536, 131_072, u64::MAX] {
        refused(&bytes, Call { budget: BUDGET + 1, ..call(&[11, text]) }, 20);
        refused(&bytes, call(&[3, text, 0, 0]), 19);
    }
}

#[test]
fn words_come_back() {
    let plain = [None, Some(Int(-1)), Some(Float(-0.0)), Some(Str(65_535)), Some(Bool(true))];
    for plain in plain {
        for value in [Value::Plain(plain), Value::Ok(plain), Value::Err(plain)] {
            assert_eq!(Value::of(value.words()), Some(value));
        }
    }
    let ending = Ending::Returned(Value::Plain(Some(Float(-f64::NAN))));
    let nan = Outcome { ending, steps: 3 };
    assert_eq!(nan.words(), [1, 3, 2, 9_221_120_237_041_090_560]);
}

#[test]
fn listed_words_have_their_answers() {
    let image = Ok(words::image());
    for listed in words::listed() {
        let count = listed.words.len() as u32 / 2;
        let answer = |function, budget| {
            let call = Call { work: WORK, function, words: listed.words.clone(), budget };
            run::answer_to(&image, &call).map_or_else(|refusal| refusal.number, |_| 0)
        };
        let (alone, over) = match listed.kind {
            words::Kind::Values => (0, 21),
            words::Kind::NoValues => (19, 19),
            words::Kind::NoText => (20, 20),
        };
        assert_eq!(answer(99, BUDGET + 1), 11, "{}", listed.name);
        assert_eq!(answer((count + 1) % 18, BUDGET + 1), 19, "{}", listed.name);
        assert_eq!(answer(count % 18, BUDGET + 1), over, "{}", listed.name);
        assert_eq!(answer(count % 18, BUDGET), alone, "{}", listed.name);
    }
}
