//! What small constants fold to, and give in a run.

use rlimg::code::{self, Code};
use rlimg::fold::{self, Folded::Int, Names};
use rlimg::image::{Image, Value as Field};
use rlimg::run::{Ending, Fault, Outcome, Program, Value};
use rlimg::small;

const MINUS: u16 = 2;

/// Small constants by their bits and as whole numbers, at the ends of their
/// ranges and at those of narrower ones.
const SMALL: [(&str, u64, i64); 21] = [
    ("SUInt", 0, 0),
    ("SUInt", 0x7fff_ffff, 2_147_483_647),
    ("SUInt", 0x8000_0000, 2_147_483_648),
    ("SUInt", 0xffff_ffff, 4_294_967_295),
    ("Byte", 0, 0),
    ("Byte", 0x7f, 127),
    ("Byte", 0x80, 128),
    ("Byte", 0xff, 255),
    ("SByte", 0, 0),
    ("SByte", 0x7f, 127),
    ("SByte", 0x80, -128),
    ("SByte", 0xff, -1),
    ("BByte", 0xff, 255),
    ("BByte", 0x7fff, 32_767),
    ("BByte", 0x8000, 32_768),
    ("BByte", 0xffff, 65_535),
    ("BSByte", 0x80, 128),
    ("BSByte", 0xff, 255),
    ("BSByte", 0x7fff, 32_767),
    ("BSByte", 0x8000, -32_768),
    ("BSByte", 0xffff, -1),
];

/// A body of one return.
fn returning(node: impl FnOnce(&mut Code) -> u16) -> Image {
    code::image(&[], |code| {
        let node = node(code);
        vec![code.give(node)]
    })
}

fn run(image: &Image) -> Outcome {
    Program::new(image).run(0, &[], 100).expect("no refusal")
}

#[test]
fn they_are_whole_numbers() {
    for (name, bits, value) in SMALL {
        let node = |code: &mut Code| code.node(name, &[Field::Number(bits)]);
        let less = |code: &mut Code| {
            let (left, right) = (node(code), code.integer(1));
            code.binary(left, MINUS, right)
        };
        for (image, value, nodes) in [(returning(node), value, 1), (returning(less), value - 1, 3)]
        {
            let folded = fold::value_of(&image, &Names::new(), nodes as u16 - 1);
            assert_eq!(folded, Some(Int(value)), "{name} {bits:#x}");
            let ending = Ending::Returned(Value::Plain(folded));
            assert_eq!(run(&image), Outcome { ending, steps: 1 + nodes }, "{name} {bits:#x}");
        }
        assert_eq!(small::bits((name, value)), bits);
    }
}

/// Where a truth value, an Ok or an Err is wanted, a whole number is none.
#[test]
fn they_are_of_a_wrong_sort() {
    let byte = |code: &mut Code| code.small(("Byte", 1));
    let branch = code::image(&[], |code| {
        let condition = byte(code);
        vec![code.when(condition, &[])]
    });
    let unwrapped = returning(|code| {
        let inner = byte(code);
        code.result("result_unwrap", inner)
    });
    let ending = Ending::Fault(Fault::WrongSort);
    assert_eq!(run(&branch), Outcome { ending, steps: 2 });
    assert_eq!(run(&unwrapped), Outcome { ending, steps: 3 });
}
