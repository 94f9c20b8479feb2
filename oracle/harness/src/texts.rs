//! Texts read alone, around the edges of a check that takes 16 and 240 bytes at once and holds each byte against the three
//! before it, which may stand before the text: in its length word, or in what comes before that.

use crate::answer::RUST_BUDGET;
use crate::cases;
use crate::record::{Book, Edit};

/// Characters of one, two, three and four bytes, at the ends of the ranges of their lead bytes; F4 apart from the other
/// leads of four; and all widths, accents composed and decomposed among them.
pub const KINDS: [&str; 6] = [
    "a\0\u{7f}z",
    "\u{80}\u{e9}\u{7ff}",
    "\u{800}\u{20ac}\u{d7ff}\u{e000}\u{ffff}",
    "\u{10000}\u{1f600}\u{3ffff}\u{40000}\u{fffff}",
    "\u{100000}\u{10abcd}\u{10ffff}",
    "a\u{e9}e\u{301}\u{d55c}\u{1112}\u{1161}\u{11ab}\u{1f600}",
];

/// The marked cases of document 01 and the edges of the Unicode Standard's table 3-7. Those that lack a continuation byte,
/// or have one too many, do so between ASCII.
pub const ILL_FORMED: [&[u8]; 18] = [
    b"\x80",
    b"\xC0\x80",
    b"\xC1\xBF",
    b"\xC2",
    b"\xC2\x80\x80",
    b"\xE0\x9F\xBF",
    b"\xE1\x80",
    b"\xED\xA0\x80",
    b"\xED\xBF\xBF",
    b"\xEF",
    b"\xE1\x80\x80\x80",
    b"\xF0\x8F\xBF\xBF",
    b"\xF0\x90\x80",
    b"\xF3",
    b"\xF1\x80\x80\x80\x80",
    b"\xF4\x90\x80\x80",
    b"\xF5\x80\x80\x80",
    b"\xFF",
];

/// What stands beside an ill-formed sequence: how a part of a text is judged may depend on its largest byte.
pub const BESIDE: [&str; 4] = ["", "\u{800}", "\u{40000}", "\u{10ffff}"];

/// Every text up to this length is stored in each kind of characters.
pub const LONGEST: usize = 300;

const NO_EDIT: Edit = Edit { at: 0, len: 0, bytes: [0; 4] };
const FILL: u8 = b'z';

/// Numbers of answers: what a list is for has to come out.
const TAKEN: u64 = 0;
const ILL: u64 = 6;

/// Characters of a kind, whole cycles of them, of at least so many bytes.
pub fn repeated(kind: &str, least: usize) -> String {
    kind.repeat(least.div_ceil(kind.len()))
}

/// The first bytes of a kind's characters; the last character may be cut short.
pub fn cut(kind: &str, length: usize) -> Vec<u8> {
    repeated(kind, length).as_bytes()[..length].to_vec()
}

/// How many of these bytes the whole characters among them take.
fn whole(kind: &str, length: usize) -> usize {
    let characters = repeated(kind, length);
    (0..=length).rfind(|n| characters.is_char_boundary(*n)).expect("0 is a boundary")
}

/// Exactly so many bytes: whole characters, and ASCII after them.
pub fn ended(kind: &str, length: usize) -> Vec<u8> {
    let mut text = cut(kind, whole(kind, length));
    text.resize(length, FILL);
    text
}

/// The same with the ASCII before them, which moves the characters against the parts of the text.
pub fn moved(kind: &str, length: usize) -> Vec<u8> {
    let whole = whole(kind, length);
    [vec![FILL; length - whole], cut(kind, whole)].concat()
}

/// Bytes with ASCII and a character around a sequence, and where the sequence stands. A text that starts at most 16 or at
/// least 20 bytes before the sequence cuts no character there.
pub fn around(sequence: &[u8], beside: &str, before: usize, after: usize) -> (Vec<u8>, usize) {
    let fill = |count: usize| vec![FILL; count];
    let opening = [&fill(before)[..], beside.as_bytes(), &fill(16)].concat();
    let all = [&opening[..], sequence, &fill(8), beside.as_bytes(), &fill(after)].concat();
    (all, opening.len())
}

/// The text of this length that starts at `start`: its length word takes the place of what the buffer has there. Gives
/// the answer's number.
fn within(book: &mut Book, buffer: &[u8], end: usize, start: usize, length: usize) -> u64 {
    let place = start - 4;
    book.text(buffer, end, Edit::word(place, length as u32), place as u64, RUST_BUDGET)
}

/// A text after these bytes, as the last of its pack.
fn last(book: &mut Book, before: &[u8], text: &[u8]) -> u64 {
    let pack = [before, &cases::text(text)].concat();
    book.text(&pack, pack.len(), NO_EDIT, before.len() as u64, RUST_BUDGET)
}

/// Each length in each kind of characters, after characters that its length word cuts. Where the last character is cut
/// short the pack goes on with the rest of it; the same length with ASCII in its place is stored too, after the
/// characters or before them by turns.
fn lengths(book: &mut Book) {
    for kind in KINDS {
        let characters = repeated(kind, LONGEST + 4);
        let fill = [FILL; 8];
        let buffer = [characters.as_bytes(), &fill, characters.as_bytes(), &fill].concat();
        let (first_end, second) = (characters.len(), characters.len() + fill.len());
        for length in 0..=LONGEST {
            let missing = length - whole(kind, length);
            let number = within(book, &buffer, buffer.len(), second, length);
            assert_eq!(number, if missing == 0 { TAKEN } else { ILL });
            if missing > 0 {
                let start = if length / 4 % 2 == 0 {
                    second - missing
                } else {
                    (first_end - length..).find(|at| characters.is_char_boundary(*at)).expect("the end is one")
                };
                assert_eq!(within(book, &buffer, buffer.len(), start, length), TAKEN);
            }
        }
    }
}

/// Each ill-formed sequence: at each offset in a text of 240, 16 and 4 bytes; before, across and after the first 240 bytes
/// of a text that has 240 more; near the start of one that has fewer than 240; and as the last bytes of a text and its
/// pack. With a larger byte beside it at some of these offsets. Each place meets all offsets modulo 16.
fn ill_formed(book: &mut Book) {
    let edges = (0..16).chain(232..248);
    for sequence in ILL_FORMED {
        for beside in BESIDE {
            let (buffer, at) = around(sequence, beside, 244, 492);
            let mut add = |offset: usize, length: usize, end: usize| {
                assert_eq!(within(book, &buffer, end, at - offset, length), ILL);
            };
            if beside.is_empty() {
                (0..256).for_each(|offset| add(offset, 260, buffer.len()));
                (232..248).for_each(|offset| add(offset, 500, buffer.len()));
                (0..16).for_each(|offset| add(offset, 100, buffer.len()));
                edges.clone().for_each(|offset| add(offset, offset + sequence.len(), at + sequence.len()));
            } else if beside.bytes().max() > sequence.iter().copied().max() {
                edges.clone().for_each(|offset| add(offset, 500, buffer.len()));
            }
        }
    }
}

/// Short texts that are all of their pack: whole and cut short.
fn alone(book: &mut Book) {
    for kind in KINDS {
        for length in 0..=40 {
            let is_whole = whole(kind, length) == length;
            assert_eq!(last(book, &[], &cut(kind, length)), if is_whole { TAKEN } else { ILL });
            if !is_whole {
                assert_eq!(last(book, &[], &ended(kind, length)), TAKEN);
                assert_eq!(last(book, &[], &moved(kind, length)), TAKEN);
            }
        }
    }
}

/// Short texts after bytes that look like the start or the rest of a character.
fn after_parts(book: &mut Book) {
    for byte in [0xF0, 0x80] {
        for count in [1, 3, 7, 11, 12, 16] {
            for length in 0..=16 {
                let text = ended(KINDS[(count + length) % KINDS.len()], length);
                assert_eq!(last(book, &vec![byte; count], &text), TAKEN);
            }
        }
    }
}

/// Lengths whose bytes look like lead bytes: the third byte before the text is its length's second one. Texts start
/// with each kind of character and inside each.
fn like_leads(book: &mut Book) {
    const LENGTHS: [usize; 20] = [
        0xEFFF, 0xF000, 0xF001, 0xF07F, 0xF080, 0xF0C2, 0xF0E0, 0xF0F0, 0xF18F, 0xF290, 0xF3FF, 0xF480, 0xF4F4, 0xF5E0,
        0xF7BF, 0xF8C2, 0xFBF0, 0xFDE8, 0xFEFF, 0xFF00,
    ];
    let opening = KINDS.concat();
    let mut buffer = [&[FILL; 4], opening.as_bytes()].concat();
    // Stretches of each kind that hold whole parts of 240 bytes; texts end in the ASCII after them.
    for kind in KINDS.into_iter().cycle() {
        let stretch = repeated(kind, 700);
        if buffer.len() + stretch.len() > LENGTHS[0] {
            break;
        }
        buffer.extend(stretch.as_bytes());
    }
    let end = KINDS[3];
    buffer.resize(65_536 - end.len(), FILL);
    buffer.extend(end.as_bytes());
    for length in LENGTHS {
        assert_eq!(within(book, &buffer, buffer.len(), 4, length), TAKEN);
    }
    for i in 0..2 * opening.len() {
        let number = within(book, &buffer, buffer.len(), 4 + i / 2, LENGTHS[i % LENGTHS.len()]);
        assert_eq!(number, if opening.is_char_boundary(i / 2) { TAKEN } else { ILL });
    }
    // All of the longest pack, and all but the last byte of its last character.
    for (length, expected) in [(65_532, TAKEN), (65_531, ILL)] {
        assert_eq!(within(book, &buffer, 4 + length, 4, length), expected);
    }
}

/// The order of questions: lengths around the bytes left, under budgets around the charge; places at the pack's end.
fn questions(book: &mut Book) {
    for text in [cut(KINDS[0], 20), ended(KINDS[5], 20), cut(KINDS[4], 19)] {
        let pack = [&cases::text(&text)[..], b"zz"].concat();
        let left = pack.len() - 4;
        for length in [text.len(), left, left + 1, u32::MAX as usize] {
            for budget in [RUST_BUDGET, length as u64, length as u64 - 1, 0] {
                book.text(&pack, pack.len(), Edit::word(0, length as u32), 0, budget);
            }
        }
        for place in [left - 1, left, left + 1, left + 3, left + 4, left + 5, usize::MAX] {
            book.text(&pack, pack.len(), NO_EDIT, place as u64, RUST_BUDGET);
        }
    }
}

pub fn book() -> Book {
    let mut book = Book::default();
    for part in [lengths, ill_formed, alone, after_parts, like_leads, questions] {
        part(&mut book);
    }
    book
}
