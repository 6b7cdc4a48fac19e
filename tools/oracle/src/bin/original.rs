//! `original`: a line that says whether the programs built with it compare the
//! original, too.

fn main() {
    match oracle::HERE {
        true => println!("original: compared"),
        false => println!("original: not here, nothing was compared with it"),
    }
}
