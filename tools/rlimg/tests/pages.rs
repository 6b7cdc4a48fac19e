//! Pages against pages written by hand and against a second way to lay a line
//! out, by bytes; and what the listed and generated images have in them.

use rlimg::builder::Builder;
use rlimg::decode::decode;
use rlimg::encode::encode;
use rlimg::hostile::longest_output;
use rlimg::image::{Image, WORK};
use rlimg::pages::images::{
    any, boards, descending, listed, low, numbered, plans, sized, twice, widest, Bound, Plan, Says,
    COUNTS,
};
use rlimg::pages::{answer, of, pages, Call, Whole, COLUMNS, LINES, LINE_BYTES, PAGE_BYTES};
use rlimg::prove;
use rlimg::rng::Rng;
use rlimg::rules;
use rlimg::schema::Section;
use std::collections::HashSet;

/// The lines of the pages, each without its newline.
fn lines(image: &Image) -> Vec<String> {
    let pages = String::from_utf8(of(image)).expect("UTF-8");
    let whole = pages.is_empty() || pages.ends_with('\n');
    assert!(whole, "a line without its end");
    pages.split_terminator('\n').map(str::to_string).collect()
}

/// A field by its bytes: a byte that no other continues starts a scalar.
fn field(text: &[u8], columns: usize) -> Vec<u8> {
    let (mut shown, mut used) = (Vec::new(), 0);
    for byte in text {
        let starts = byte & 0xc0 != 0x80;
        used += usize::from(starts);
        if used > columns {
            break;
        }
        shown.push(if *byte < 32 { b'?' } else { *byte });
    }
    shown.extend(vec![b' '; columns.saturating_sub(used)]);
    shown
}

/// A number at the right of so many columns.
fn number(mut number: u32, columns: usize) -> Vec<u8> {
    let mut field = vec![b' '; columns];
    let mut at = columns;
    loop {
        at -= 1;
        field[at] = b'0' + (number % 10) as u8;
        number /= 10;
        if number == 0 {
            return field;
        }
    }
}

/// The pages, by bytes.
fn by_bytes(image: &Image) -> Vec<u8> {
    let mut pages = Vec::new();
    let reports = prove::reports(image);
    for report in &reports {
        let call = &image.of(Section::Call)[report[0] as usize];
        let callee = image.text_of(call.number(0) as u16).expect("a text");
        let message = prove::message(image, *report).expect("a message");
        let fields = [
            number(report[0], 4),
            number(report[1], 10),
            field(callee, 16),
            field(&message.as_bytes()[45..], 39),
        ];
        pages.extend(fields.join(&b' '));
        pages.push(b'\n');
    }
    while !pages.is_empty() && pages.iter().filter(|byte| **byte == b'\n').count() % 60 != 0 {
        pages.extend([&[b' '; 72][..], b"\n"].concat());
    }
    pages
}

/// The bytes are those of the second way, and laid out as they must be.
fn check(image: &Image) {
    let (made, reports) = (of(image), prove::reports(image).len());
    assert_eq!(decode(&encode(image)).as_ref(), Ok(image), "refused");
    assert_eq!(pages(&encode(image)).as_ref(), Ok(&made));
    assert!(made.len() <= reports.div_ceil(LINES) * PAGE_BYTES);
    let lines = lines(image);
    assert_eq!(lines.len(), LINES * reports.div_ceil(LINES));
    for line in &lines {
        assert_eq!(line.chars().count(), COLUMNS, "{line:?}");
        assert!(line.len() < LINE_BYTES && line.chars().all(|scalar| scalar >= ' '));
    }
    assert!(lines[reports..].iter().all(|line| line.trim_matches(' ').is_empty()));
}

fn one(callee: &str, span: u32, says: Says) -> String {
    let plan = Plan { callee: callee.to_string(), spans: vec![span], says: vec![says] };
    lines(&boards(&[plan])[0])[0].clone()
}

#[test]
fn a_line_is_what_it_is_by_hand() {
    let message = |text: &str| Says::Message(text.to_string());
    let line = one("open", 7, message("flow id range"));
    assert_eq!(line, "   0          7 open             flow id range                          ");
    let line = one("", u32::MAX, message(""));
    assert_eq!(line, "   0 4294967295                                                         ");
    let line = one("abcdefghijklmnopq", 0, message("a message of just thirty-nine columns, yes"));
    assert_eq!(line, "   0          0 abcdefghijklmnop a message of just thirty-nine columns, ");
    let line = one("\u{1f600}\0\t\n\x1f\x7f\u{80}\u{ffff}", 10, message("one\ntwo\u{10ffff}"));
    assert_eq!(
        line,
        "   0         10 \u{1f600}????\x7f\u{80}\u{ffff}         one?two\u{10ffff}                               "
    );
    let refined = Says::Refined("flow".to_string(), 2, Bound::Int(1));
    assert_eq!(
        one("open", 7, refined),
        "   0          7 open             refinement failed: flow >= 1           "
    );
    let refined = Says::Refined("t".to_string(), 5, Bound::Str("two\nlines and more".to_string()));
    assert_eq!(
        one("f", 1, refined),
        "   0          1 f                refinement failed: t == \"two?lines and "
    );
    let line = one("f", 1, Says::Violated);
    assert_eq!(line, "   0          1 f                requires violated                      ");
    let opening = "contract violation (proven at compile time): twice";
    assert_eq!(
        one("f", 1, message(opening)),
        "   0          1 f                contract violation (proven at compile t"
    );
}

/// Cuts by hand: a scalar of each width in the last column, and behind it.
#[test]
fn a_field_is_cut_behind_the_last_scalar_that_fits() {
    for scalar in ["z", "\u{e9}", "\u{20ac}", "\u{1f600}"] {
        let (fits, behind) = (format!("{}{scalar}", "a".repeat(15)), "a".repeat(16));
        let says = || Says::Message("m".to_string());
        assert_eq!(
            one(&format!("{fits}b"), 1, says())[16..][..fits.len() + 2],
            format!("{fits} m")
        );
        assert_eq!(one(&format!("{behind}{scalar}"), 1, says())[16..][..18], format!("{behind} m"));
        let (fits, behind) = (format!("{}{scalar}", "a".repeat(38)), "a".repeat(39));
        let said = |text: String| one("f", 1, Says::Message(text))[33..].to_string();
        assert_eq!(said(format!("{fits}b")), fits);
        assert_eq!(said(format!("{behind}{scalar}")), behind);
    }
}

#[test]
fn pages_are_what_they_are_by_hand() {
    let blank = " ".repeat(72) + "\n";
    let line = |call: usize, span: usize| {
        let end = format!("{}{}", "counted          report 0", " ".repeat(31));
        format!("{call:>4} {span:>10} {end}\n")
    };
    for count in COUNTS.into_iter().chain([255, 256]) {
        let mut by_hand: String = (0..count).map(|call| line(call, call * 1_000)).collect();
        by_hand.push_str(&blank.repeat((60 - count % 60) % 60));
        assert_eq!(String::from_utf8(of(&sized(count, false))), Ok(by_hand));
    }
    assert_eq!(of(&sized(0, false)), b"");
    assert_eq!(of(&Builder::new(1).image), b"");
    assert_eq!(
        [1, 60, 61, 121].map(|count| of(&sized(count, true)).len()),
        [4_380, 4_380, 8_760, 13_140]
    );
    let calls = numbered(&[0, 9, 10, 99, 100, 255]);
    let shown: Vec<String> =
        lines(&calls).iter().take(7).map(|line| line[..4].to_string()).collect();
    assert_eq!(shown, ["   0", "   9", "  10", "  99", " 100", " 255", "    "]);
}

#[test]
fn both_ways_make_the_same_pages() {
    for image in listed() {
        // The largest take their time, and have a test of their own.
        if image.of(Section::Parameter).len() * image.of(Section::Call).len() < 10_000 {
            check(&image);
            assert_eq!(of(&image), by_bytes(&image));
        }
    }
    let mut rng = Rng::new(6);
    for _ in 0..2_000 {
        for image in [any(&mut rng), rules::image(&mut rng, 4)] {
            check(&image);
            assert_eq!(of(&image), by_bytes(&image));
        }
    }
}

/// By the first call; the others are like it.
#[test]
fn the_largest_have_as_many_lines_as_there_can_be() {
    let widest_bytes = 256 * (LINE_BYTES + 181);
    for (image, bytes) in [(longest_output(), 512 * 73), (widest(), widest_bytes)] {
        assert_eq!(decode(&encode(&image)).as_ref(), Ok(&image));
        assert_eq!(image.of(Section::Call).len(), 256);
        let mut one = image;
        one.of_mut(Section::Call).truncate(1);
        assert_eq!(prove::reports(&one).len(), 512);
        check(&one);
        assert_eq!(of(&one), by_bytes(&one));
        assert_eq!(of(&one).len(), bytes + 28 * 73);
    }
}

/// Every call of a plan has all that it says among its reports.
#[test]
fn listed_calls_violate_all_that_they_should() {
    for list in plans().into_iter().chain([low()]) {
        let said: usize = list.iter().map(|plan| plan.spans.len() * plan.says.len()).sum();
        let reports: usize = boards(&list).iter().map(|image| prove::reports(image).len()).sum();
        assert_eq!(reports, said);
    }
    for count in COUNTS {
        for of_one in [false, true] {
            assert_eq!(prove::reports(&sized(count, of_one)).len(), count);
        }
    }
}

/// The later function is the callee, and calls stay in their order.
#[test]
fn callees_and_spans_are_what_they_are_by_hand() {
    let shown = |image: &Image| -> Vec<String> {
        let lines = lines(image).into_iter().filter(|line| !line.trim().is_empty());
        lines.map(|line| line.trim_end().to_string()).collect()
    };
    assert_eq!(
        shown(&twice()),
        [
            "   0         40 twice            refinement failed: later == 5",
            "   0         40 twice            of the later",
            "   1         30 twice            refinement failed: later == 5",
            "   1         30 twice            of the later",
            "   2         20 twice            refinement failed: later == 5",
            "   2         20 twice            of the later",
            "   3         10 twice            refinement failed: later == 5",
            "   3         10 twice            of the later",
        ]
    );
    let calls = [
        (0, u32::MAX, "one"),
        (1, 1_000_000, "one"),
        (2, 999, "three"),
        (3, 888, "one"),
        (4, 777, "two"),
        (5, 666, "two"),
        (6, 555, "one"),
        (7, 444, "three"),
        (8, 333, "one"),
        (10, 111, "three"),
    ];
    let by_hand = calls.iter().flat_map(|(call, span, callee)| {
        [format!("of {callee}"), "requires violated".to_string()]
            .map(|said| format!("{call:>4} {span:>10} {callee:<16} {said}"))
    });
    assert_eq!(shown(&descending()), by_hand.collect::<Vec<String>>());
}

/// Every scalar from 0 to 33 is listed in a callee, a message, and a text that a
/// parameter is compared with.
#[test]
fn low_scalars_are_all_listed() {
    let plans = low();
    for scalar in (0..34).map(char::from) {
        assert!(plans.iter().any(|plan| plan.callee.contains(scalar)), "{scalar:?}");
        let mut says = plans.iter().flat_map(|plan| &plan.says);
        let own = |says: &Says| matches!(says, Says::Message(text) if text.contains(scalar));
        assert!(says.clone().any(own), "{scalar:?}");
        let operand = |says: &Says| match says {
            Says::Refined(_, _, Bound::Str(text)) => text.contains(scalar),
            _ => false,
        };
        assert!(says.any(operand), "{scalar:?}");
    }
}

/// Among the generated images are full pages, cuts, and every width of bytes.
#[test]
fn generated_pages_have_every_width() {
    let (mut rng, mut widths, mut pages) = (Rng::new(2), HashSet::new(), HashSet::new());
    for _ in 0..500 {
        let image = any(&mut rng);
        let reports = prove::reports(&image).len();
        pages.insert(reports.div_ceil(LINES));
        for line in lines(&image) {
            widths.extend(line.chars().map(char::len_utf8));
        }
    }
    assert_eq!(widths, HashSet::from([1, 2, 3, 4]));
    assert!([0, 1, 2, 3].iter().all(|count| pages.contains(count)), "{pages:?}");
}

#[test]
fn refusals_come_in_their_order() {
    let (image, refused) = (encode(&sized(61, false)), |number, place, work, room| Whole {
        number,
        low: place,
        pages: vec![0; room],
        work: vec![0; work],
    });
    let whole = |bytes: &[u8], work, room| answer(bytes, Call { work, room });
    let long = vec![1; 65_536];
    assert_eq!(whole(&long, 0, 3), refused(1, 0, 0, 3));
    assert_eq!(whole(&image, WORK - 1, 3), refused(2, 0, WORK - 1, 3));
    assert_eq!(whole(&image[..7], WORK, 3), refused(3, 7, WORK, 3));
    assert_eq!(whole(&image, WORK, 0), refused(22, 0, WORK, 0));
    assert_eq!(whole(&image, WORK, 8_759), refused(22, 0, WORK, 8_759));
    let read = whole(&image, WORK + 1, 8_765);
    assert_eq!((read.number, read.low), (0, 8_760));
    assert_eq!(read.pages[..8_760], of(&sized(61, false)));
    assert_eq!(read.pages[8_760..], [0; 5]);
    assert_eq!(read.work.len(), WORK + 1);
    assert_eq!(read.work[..3], [1, 1, 1]);
    assert!(read.work[3..].iter().all(|entry| *entry == 0));
    let none = whole(&encode(&sized(0, false)), WORK, 0);
    assert_eq!((none.number, none.low, none.pages), (0, 0, vec![]));
}
