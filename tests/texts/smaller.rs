//! Makes a text whose sheets differ smaller, so that a person can follow it by hand.

use std::time::{Duration, Instant};

use crate::both_sheets::compare;
use crate::capture::capture_of;
use crate::program::Program;
use crate::random_texts::Text;
use crate::refusals::{Call, Refusal};
use crate::sheet::judge_text;
use crate::smaller_maps::{question_of, runs, smaller_questions, ENOUGH_FOR_ALL};

/// Making a text that differs smaller helps the reader, but must not keep him waiting.
const LONGEST_SHRINKING: Duration = Duration::from_secs(5);

type Texts<'text> = Box<dyn Iterator<Item = Vec<u8>> + 'text>;

/// From the coarsest to the finest; each is tried until it helps no more.
const WAYS: [fn(&[u8]) -> Texts; 4] = [
    with_smaller_maps,
    without_lines,
    without_bytes,
    with_lower_digits,
];

/// Tries smaller texts as long as the sheets of one of them still differ. All are accepted, or
/// refused by the same number: another refusal would be another fault.
pub fn shrink(text: Text, program: &Program) -> Text {
    let started = Instant::now();
    let refusal = refusal_number(&text.bytes);
    let differs = |text: &Text| compare(text, program).is_err();
    let mut smallest = text;
    let at_once = Text {
        bytes: smallest.bytes.clone(),
        in_parts: false,
        ..smallest
    };
    if differs(&at_once) {
        smallest = at_once;
    }
    loop {
        let before = smallest.bytes.clone();
        for way in WAYS {
            loop {
                let smaller = way(&smallest.bytes)
                    .take_while(|_| started.elapsed() < LONGEST_SHRINKING)
                    .filter(|bytes| is_smaller(bytes, &smallest.bytes))
                    .filter(|bytes| refusal_number(bytes) == refusal)
                    .map(|bytes| Text { bytes, ..smallest })
                    .find(differs);
                match smaller {
                    Some(text) => smallest = text,
                    None => break,
                }
            }
        }
        if smallest.bytes == before {
            return smallest;
        }
    }
}

/// Nothing where it is accepted.
pub fn refusal_number(bytes: &[u8]) -> Option<usize> {
    judge_text(bytes).err().map(Refusal::number)
}

/// Shorter, or of the same length with lower bytes: no text comes twice.
fn is_smaller(bytes: &[u8], than: &[u8]) -> bool {
    (bytes.len(), bytes) < (than.len(), than)
}

/// A text in order as a map, made smaller as a call's map is.
fn with_smaller_maps(bytes: &[u8]) -> Texts<'_> {
    let Ok((number, question)) = judge_text(bytes) else {
        return Box::new(std::iter::empty());
    };
    let call = Call {
        radios: question.map.radios,
        table: question.map.table(),
        source: question.source,
        destination: question.destination,
        wanted: question.wanted,
        lengths: ENOUGH_FOR_ALL,
    };
    let questions: Vec<_> = smaller_questions(&call)
        .filter_map(|smaller| question_of(&smaller))
        .collect();
    let texts = questions
        .into_iter()
        .map(move |question| capture_of(number, &question).into_bytes());
    Box::new(texts)
}

fn without_lines(bytes: &[u8]) -> Texts<'_> {
    let lines: Vec<&[u8]> = bytes.split_inclusive(|&byte| byte == b'\n').collect();
    let texts = runs(lines.len())
        .map(move |run| [&lines[..run.start], &lines[run.end..]].concat().concat());
    Box::new(texts)
}

fn without_bytes(bytes: &[u8]) -> Texts<'_> {
    let texts = runs(bytes.len()).map(|run| [&bytes[..run.start], &bytes[run.end..]].concat());
    Box::new(texts)
}

fn with_lower_digits(bytes: &[u8]) -> Texts<'_> {
    let digits = (0..bytes.len()).filter(|&place| bytes[place].is_ascii_digit());
    let texts = digits.flat_map(move |place| {
        (b'0'..bytes[place]).map(move |digit| {
            let mut lower = bytes.to_vec();
            lower[place] = digit;
            lower
        })
    });
    Box::new(texts)
}
