//! The original's reports of the marked cases, of the sample, and of images
//! that show which names and functions count.
#![cfg(original)]

use oracle::{lines, marked, reports};
use rlimg::decode::decode;
use rlimg::encode::encode;
use rlimg::image::Image;
use rlimg::text::build;
use std::process::Command;

const SAMPLE: &str = concat!(env!("CARGO_MANIFEST_DIR"), "/../../samples/flow.img");
const SAMPLE_LINES: &str = "\
0 7 contract violation (proven at compile time): refinement failed: flow >= 1
1 9 contract violation (proven at compile time): flow id range
";

#[test]
fn the_marked_cases_are_as_marked() {
    let mut numbers = Vec::new();
    for case in marked::cases() {
        assert_eq!(decode(&encode(&case.image)).as_ref(), Ok(&case.image));
        assert_eq!(lines(&case.image), case.lines, "case {}", case.number);
        numbers.push(case.number);
    }
    numbers.dedup();
    assert_eq!(numbers, [1, 2, 3, 4, 5, 6, 7, 8, 9, 12, 13]);
}

#[test]
fn the_sample_has_its_two_reports() {
    let image = decode(&std::fs::read(SAMPLE).unwrap()).unwrap();
    assert_eq!(lines(&image), SAMPLE_LINES);
    let spans: Vec<(u32, u32)> = reports(&image).iter().map(|r| (r.call, r.span)).collect();
    assert_eq!(spans, [(0, 7), (1, 9)]);
}

fn printed(file: &str) -> String {
    let output = Command::new(env!("CARGO_BIN_EXE_oracle_report")).arg(file).output().unwrap();
    assert!(output.status.success());
    String::from_utf8(output.stdout).unwrap()
}

#[test]
fn the_program_prints_the_sample_and_a_refusal() {
    assert_eq!(printed(SAMPLE), SAMPLE_LINES);
    let cut = concat!(env!("CARGO_TARGET_TMPDIR"), "/cut.img");
    std::fs::write(cut, &std::fs::read(SAMPLE).unwrap()[..100]).unwrap();
    assert_eq!(printed(cut), "refused 3 at 99\n");
}

/// Texts f, a, b, say; expressions false, true, 1, 2, a, b, "say"; then more.
fn image(more: &str) -> Image {
    let image = "arena 1\nbytes \"fabsay\"\ntext 0 0+1\ntext 1 1+1\ntext 2 2+1\ntext 3 3+3\n\
         expression 0 span 0 Bool false\nexpression 1 span 0 Bool true\n\
         expression 2 span 0 Integer 1\nexpression 3 span 0 Integer 2\n\
         expression 4 span 0 Identifier 1\nexpression 5 span 0 Identifier 2\n\
         expression 6 span 0 String 3\n";
    let image = build(&(image.to_string() + more)).unwrap();
    assert_eq!(decode(&encode(&image)).as_ref(), Ok(&image));
    image
}

/// The messages of the image's reports, without what all have in common.
fn messages(more: &str) -> Vec<String> {
    let proven = "contract violation (proven at compile time): ";
    let reports = reports(&image(more)).into_iter();
    reports.map(|report| report.message.strip_prefix(proven).unwrap().to_string()).collect()
}

#[test]
fn the_last_function_with_contracts_is_called() {
    let more = "clause 0 condition 0 message none\nclause 1 condition 0 message 6\n\
        clause 2 condition 1 message 6\n\
        function 0 name 0 span 0 parameters 0+0 result false body 0+0 requires 0+1 ensures 0+0\n\
        function 1 name 0 span 0 parameters 0+0 result false body 0+0 requires 1+1 ensures 0+0\n\
        function 2 name 0 span 0 parameters 0+0 result false body 0+0 requires 2+0 ensures 2+1\n\
        call 0 callee 0 span 0 arguments 0+0\ncall 1 callee 1 span 0 arguments 0+0\n";
    assert_eq!(messages(more), ["say"]);
}

#[test]
fn a_message_that_is_no_string_is_the_default() {
    let more = "expression 7 span 0 Grouping 6\nexpression 8 span 0 Byte 3\n\
        clause 0 condition 0 message none\nclause 1 condition 0 message 7\n\
        clause 2 condition 0 message 4\nclause 3 condition 0 message 6\n\
        clause 4 condition 0 message 8\n\
        function 0 name 0 span 0 parameters 0+0 result false body 0+0 requires 0+5 ensures 0+0\n\
        call 0 callee 0 span 0 arguments 0+0\n";
    let default = "requires violated";
    assert_eq!(messages(more), [default, default, default, "say", default]);
}

#[test]
fn refinements_come_first_and_show_their_operand() {
    let more = "entry 0 2\nentry 1 6\nentry 2 1\nentry 3 3\n\
        parameter 0 name 1 type 0 refinement Lt operand Integer -9223372036854775808\n\
        parameter 1 name 2 type 0 refinement Ne operand Str 3\n\
        parameter 2 name 3 type 0 refinement Eq operand Bool 0\n\
        parameter 3 name 0 type 0 refinement Le operand Param 1\n\
        parameter 4 name 0 type 0 refinement Gt operand Param 0\n\
        clause 0 condition 0 message none\n\
        function 0 name 0 span 0 parameters 0+5 result false body 0+0 requires 0+1 ensures 0+0\n\
        call 0 callee 0 span 0 arguments 0+4\n";
    let expected = [
        "refinement failed: a < -9223372036854775808",
        "refinement failed: b != \"say\"",
        "refinement failed: say == false",
        "refinement failed: f <= a",
        "requires violated",
    ];
    assert_eq!(messages(more), expected);
}

/// f(1, LAST) with both parameters named a, requires a == 2: only a value of
/// the second argument hides the first.
fn second_of_one_name(last: &str) -> Vec<String> {
    messages(&format!(
        "entry 0 2\nentry 1 9\nexpression 7 span 0 Float 0x7ff0000000000000\n\
         expression 8 span 0 Float 0x0000000000000000\n\
         expression 9 span 0 {last}\nexpression 10 span 0 Binary 4 Compare 3\n\
         parameter 0 name 1 type 0 refinement none operand none 0\n\
         parameter 1 name 1 type 0 refinement none operand none 0\n\
         clause 0 condition 10 message none\n\
         function 0 name 0 span 0 parameters 0+2 result false body 0+0 requires 0+1 ensures 0+0\n\
         call 0 callee 0 span 0 arguments 0+2\n"
    ))
}

#[test]
fn a_nan_is_a_value_without_verdicts() {
    let reported = ["requires violated"];
    assert_eq!(second_of_one_name("Null"), reported);
    assert_eq!(second_of_one_name("Integer 3"), reported);
    assert!(second_of_one_name("Integer 2").is_empty());
    assert!(second_of_one_name("Float 0x7ff8000000000000").is_empty(), "a literal");
    assert!(second_of_one_name("SFloat 0x7f800001").is_empty(), "a short literal");
    assert!(second_of_one_name("Binary 7 Minus 7").is_empty(), "inf - inf");
    assert!(second_of_one_name("Binary 7 Star 8").is_empty(), "inf * 0.0");
    assert!(second_of_one_name("Binary 7 Slash 7").is_empty(), "inf / inf");
    assert_eq!(second_of_one_name("Binary 7 Slash 8"), reported, "inf / 0.0");
    assert_eq!(second_of_one_name("Binary 8 Star 6"), reported, "0.0 * text");
}

#[test]
fn a_small_constant_is_a_value() {
    for kind in ["SUInt", "Byte", "SByte", "BByte", "BSByte"] {
        assert!(second_of_one_name(&format!("{kind} 2")).is_empty(), "{kind}");
        assert_eq!(second_of_one_name(&format!("{kind} 5")), ["requires violated"], "{kind}");
    }
    // A condition that is no truth value has no verdict.
    let more = "expression 7 span 0 Byte 0\nclause 0 condition 7 message none\n\
        function 0 name 0 span 0 parameters 0+0 result false body 0+0 requires 0+1 ensures 0+0\n\
        call 0 callee 0 span 0 arguments 0+0\n";
    assert!(messages(more).is_empty());
}

/// f(1, a, 2), parameters a, b, a: the first pass gives b the first a, the
/// second judges b's refinement by the last.
#[test]
fn the_passes_fold_under_their_own_names() {
    let more = |bound: u8| {
        messages(&format!(
            "entry 0 2\nentry 1 4\nentry 2 3\nexpression 7 span 0 Binary 5 BangEqual 2\n\
             parameter 0 name 1 type 0 refinement none operand none 0\n\
             parameter 1 name 2 type 0 refinement Ne operand Integer {bound}\n\
             parameter 2 name 1 type 0 refinement none operand none 0\n\
             clause 0 condition 7 message 6\n\
             function 0 name 0 span 0 parameters 0+3 result false body 0+0 requires 0+1 ensures 0+0\n\
             call 0 callee 0 span 0 arguments 0+3\n"
        ))
    };
    assert_eq!(more(1), ["say"]);
    assert_eq!(more(2), ["refinement failed: b != 2", "say"]);
}

/// f(b, 1), parameters a != 1 and b, requires a != 1: a's argument folds for
/// its refinement alone.
#[test]
fn a_name_found_late_is_not_bound() {
    let more = "entry 0 5\nentry 1 2\nexpression 7 span 0 Binary 4 BangEqual 2\n\
        parameter 0 name 1 type 0 refinement Ne operand Integer 1\n\
        parameter 1 name 2 type 0 refinement Ne operand Param 1\n\
        clause 0 condition 7 message 6\n\
        function 0 name 0 span 0 parameters 0+2 result false body 0+0 requires 0+1 ensures 0+0\n\
        call 0 callee 0 span 0 arguments 0+2\n";
    assert_eq!(messages(more), ["refinement failed: a != 1"]);
}
