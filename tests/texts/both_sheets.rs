//! The sheet of a text, by the second program and by the compiled one.

use crate::program::Program;
use crate::random_texts::Text;
use crate::sheet::{judge_text, sheet_of_text};

/// The sheet that both gave, or what is wrong.
pub fn compare(text: &Text, program: &Program) -> Result<String, String> {
    let expected = sheet_of_text(&text.bytes)
        .map_err(|fault| format!("the second program failed its own check: {fault}"))?;
    let got = program.sheet_of(text)?;
    if got != expected.as_bytes() {
        return Err(format!(
            "the sheets differ\n  expected: {}\n  got:      {}",
            expected.as_bytes().escape_ascii(),
            got.escape_ascii()
        ));
    }
    Ok(expected)
}

/// The text made smaller: its lines where it is a map, a line for the shell that gives these bytes
/// to the command, and what is wrong with its sheet.
pub fn describe(text: &Text, program: &Program) -> String {
    let lines = match judge_text(&text.bytes) {
        Ok(_) => String::from_utf8_lossy(&text.bytes),
        Err(_) => "".into(),
    };
    let what = match compare(text, program) {
        Ok(_) => "differed once and not again".to_string(),
        Err(what) => what,
    };
    let in_parts = if text.in_parts { " (in parts)" } else { "" };
    format!(
        "{lines}  printf '{}' | ./fogsignaller{in_parts}\n  {what}",
        escape_for_printf(&text.bytes)
    )
}

/// Bytes as the shell's printf takes them between single quotes.
fn escape_for_printf(bytes: &[u8]) -> String {
    let escape = |&byte: &u8| match byte {
        b'\t' => "\\t".to_string(),
        b'\n' => "\\n".to_string(),
        b'%' => "%%".to_string(),
        b' '..=b'~' if byte != b'\'' && byte != b'\\' => char::from(byte).to_string(),
        _ => format!("\\{byte:03o}"),
    };
    bytes.iter().map(escape).collect()
}
