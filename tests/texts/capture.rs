//! The text of a capture.

use crate::map::Question;
use crate::sheet::Record;

/// The capture of a map, with that number.
pub fn capture_of(number: usize, question: &Question) -> String {
    let first_line = [
        number,
        question.map.radios,
        question.source,
        question.destination,
        question.wanted,
    ];
    let links = question.map.links().into_iter();
    let hands = question.map.handhelds().into_iter();
    let records: Vec<Record> = links
        .map(|(first, second)| Record::Link { first, second })
        .chain(hands.map(|radio| Record::Hand { radio }))
        .collect();
    write_capture(first_line, &records)
}

/// The numbers of its first line (capture, n, S, T and k) and its other lines, in order or not.
pub fn write_capture(first_line: [usize; 5], records: &[Record]) -> String {
    let [number, radios, source, destination, wanted] = first_line;
    let mut text = format!("net\t{number}\t{radios}\t{source}\t{destination}\t{wanted}\n");
    for record in records {
        text += &match record {
            Record::Link { first, second } => format!("link\t{first}\t{second}\n"),
            Record::Hand { radio } => format!("hand\t{radio}\n"),
        };
    }
    text
}
