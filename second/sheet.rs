//! Document 01, "The sheet": reads the text of a capture and writes its sheet.

use crate::map::Question;
use crate::outcome::{run_checked, CutItem, Outcome};
use crate::refusals::{judge_capture, Refusal};

/// A longer text is refused; the reader of the input needs one byte more to see that.
pub const MOST_BYTES: usize = 8192;

const LARGEST_NUMBER: usize = 65535;
/// No number of a text needs more digits than its largest.
const MOST_DIGITS: usize = 5;

/// What a line after the first says.
#[derive(Clone, Copy, PartialEq, Eq, Hash)]
pub enum Record {
    Link { first: usize, second: usize },
    Hand { radio: usize },
}

pub struct Line {
    /// Counted from 1 over all lines.
    pub number: usize,
    pub record: Record,
}

/// A text whose lines all have the right shape; nothing else of it has been judged.
pub struct Capture {
    pub number: usize,
    pub radios: usize,
    pub source: usize,
    pub destination: usize,
    pub wanted: usize,
    pub lines: Vec<Line>,
}

/// The whole program: a text in, its sheet out. An error is a failed check, never a refusal.
pub fn sheet_of_text(text: &[u8]) -> Result<String, String> {
    match judge_text(text) {
        Err(refusal) => Ok(format!(
            "refused\t{}\t{}\n",
            refusal.number(),
            refusal.place()
        )),
        Ok((number, question)) => Ok(write_sheet(number, &question, &run_checked(&question)?)),
    }
}

/// 10, then 9 over all lines, then 1, 11, 4, 5 and 6. Gives the capture number and the question.
pub fn judge_text(text: &[u8]) -> Result<(usize, Question), Refusal> {
    let capture = read_capture(text)?;
    let question = judge_capture(&capture)?;
    Ok((capture.number, question))
}

fn read_capture(text: &[u8]) -> Result<Capture, Refusal> {
    if text.len() > MOST_BYTES {
        return Err(Refusal::TextTooLong);
    }
    let mut lines = text.split_inclusive(|&byte| byte == b'\n').enumerate();
    let first_line = lines.next().and_then(|(_, line)| read_line(line, b"net"));
    let Some([number, radios, source, destination, wanted]) = first_line else {
        return Err(Refusal::LineShape { line: 1 });
    };
    let mut records = Vec::new();
    for (lines_before, line) in lines {
        let number = lines_before + 1;
        let record = read_record(line).ok_or(Refusal::LineShape { line: number })?;
        records.push(Line { number, record });
    }
    Ok(Capture {
        number,
        radios,
        source,
        destination,
        wanted,
        lines: records,
    })
}

fn read_record(line: &[u8]) -> Option<Record> {
    if let Some([radio]) = read_line(line, b"hand") {
        return Some(Record::Hand { radio });
    }
    let [first, second] = read_line(line, b"link")?;
    Some(Record::Link { first, second })
}

/// A line that is the word, then exactly COUNT numbers, fields parted by a tab, and a line feed.
fn read_line<const COUNT: usize>(line: &[u8], word: &[u8]) -> Option<[usize; COUNT]> {
    let mut fields = line.strip_suffix(b"\n")?.split(|&byte| byte == b'\t');
    if fields.next() != Some(word) {
        return None;
    }
    let mut numbers = [0; COUNT];
    for number in &mut numbers {
        *number = read_number(fields.next()?)?;
    }
    fields.next().is_none().then_some(numbers)
}

/// 0 to 65535 in decimal without leading zeros.
fn read_number(field: &[u8]) -> Option<usize> {
    let has_leading_zero = field.len() > 1 && field[0] == b'0';
    let only_digits = field.iter().all(u8::is_ascii_digit);
    if field.is_empty() || field.len() > MOST_DIGITS || has_leading_zero || !only_digits {
        return None;
    }
    let number = field
        .iter()
        .fold(0, |number, digit| 10 * number + usize::from(digit - b'0'));
    (number <= LARGEST_NUMBER).then_some(number)
}

fn write_sheet(number: usize, question: &Question, outcome: &Outcome) -> String {
    let paths = outcome.paths.len();
    let word = if paths == question.wanted {
        "full"
    } else {
        "short"
    };
    let mut sheet = format!(
        "report\t{number}\t{word}\t{paths}\t{}\t{}\n",
        outcome.rounds,
        outcome.messages()
    );
    for (place, path) in outcome.paths.iter().enumerate() {
        let radios: Vec<String> = path.iter().map(usize::to_string).collect();
        sheet += &format!("path\t{}\t{}\n", place + 1, radios.join("\t"));
    }
    for (place, item) in outcome.cut.iter().enumerate() {
        let item = match item {
            CutItem::Radio(radio) => radio.to_string(),
            CutItem::DirectLink => "link".to_string(),
        };
        sheet += &format!("cut\t{}\t{item}\n", place + 1);
    }
    sheet
}
