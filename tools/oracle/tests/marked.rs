//! The marked cases by the independent prover, which needs no original.

use oracle::{independent_lines, marked};
use rlimg::decode::decode;
use rlimg::encode::encode;

#[test]
fn the_independent_prover_has_the_marked_lines() {
    for case in marked::cases() {
        assert_eq!(decode(&encode(&case.image)).as_ref(), Ok(&case.image));
        assert_eq!(independent_lines(&case.image), case.lines, "case {}", case.number);
    }
}
