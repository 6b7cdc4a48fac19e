//! How long the original takes on an image: it folds a shared expression once
//! for each path to it.

use rlimg::image::{Image, Record};
use rlimg::prove::callee;
use rlimg::schema::Section;

/// How many expressions it visits to prove every call, as far as it can be
/// counted. The image is one that the reader accepts.
pub fn steps(image: &Image) -> u64 {
    let sizes = sizes(image);
    let mut steps: u64 = 0;
    for call in image.of(Section::Call) {
        let Some(callee) = callee(image, call) else { continue };
        let (first, count) = call.range(2);
        let arguments = image.list(first, count).expect("a list of the image");
        let paired = arguments.iter().take(callee.parameters.len());
        let conditions = callee.requires.iter().map(|clause| clause.number(0) as usize);
        // Arguments are folded once in each pass.
        let twice = paired.flat_map(|node| [usize::from(*node); 2]);
        for node in twice.chain(conditions) {
            steps = steps.saturating_add(sizes[node]);
        }
    }
    steps
}

/// How many it visits to fold each expression.
pub fn sizes(image: &Image) -> Vec<u64> {
    let mut sizes: Vec<u64> = Vec::new();
    for node in image.of(Section::Expression) {
        let children = children(node).iter().map(|position| node.number(*position) as usize);
        sizes.push(children.fold(1, |size: u64, child| size.saturating_add(sizes[child])));
    }
    sizes
}

/// The positions of the expressions that are folded for a node.
fn children(node: &Record) -> &'static [usize] {
    match node.kind {
        32 => &[1, 3],
        33 => &[2],
        34 => &[1],
        _ => &[],
    }
}
