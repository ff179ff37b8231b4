//! One run of the compiled program: a text in, its sheet out.

use std::io::{self, ErrorKind, Write};
use std::process::{ChildStdin, Command, Stdio};
use std::sync::atomic::{AtomicBool, AtomicU32, Ordering};
use std::time::Duration;

use crate::random_texts::Text;

/// The parts of a text that comes in parts, and the wait between them: time enough for a read.
const PARTS: usize = 4;
const BETWEEN_PARTS: Duration = Duration::from_millis(2);

/// The program's path and the words after it.
pub struct Program<'words> {
    pub words: &'words [&'words str],
    /// The process of a run, 0 between runs.
    process: AtomicU32,
    stopped: AtomicBool,
}

impl<'words> Program<'words> {
    pub fn new(words: &'words [&'words str]) -> Program<'words> {
        Program {
            words,
            process: AtomicU32::new(0),
            stopped: AtomicBool::new(false),
        }
    }

    /// Ends a run that does not end by itself, and lets no other begin.
    pub fn stop(&self) {
        self.stopped.store(true, Ordering::SeqCst);
        let process = self.process.load(Ordering::SeqCst);
        // For kill, 0 would be every process of the group.
        if process == 0 {
            return;
        }
        let ended = Command::new("kill")
            .args(["-KILL", &process.to_string()])
            .stderr(Stdio::null())
            .status();
        if let Err(error) = ended {
            eprintln!("process {process} could not be ended: {error}");
        }
    }

    /// Standard output, or what went wrong with the run itself.
    pub fn sheet_of(&self, text: &Text) -> Result<Vec<u8>, String> {
        let name = self.words[0];
        if self.stopped.load(Ordering::SeqCst) {
            return Err(format!("{name}: stopped"));
        }
        let mut child = Command::new(name)
            .args(&self.words[1..])
            .stdin(Stdio::piped())
            .stdout(Stdio::piped())
            .stderr(Stdio::piped())
            .spawn()
            .map_err(|error| format!("{name}: {error}"))?;
        self.process.store(child.id(), Ordering::SeqCst);
        let input = child.stdin.take().expect("standard input is piped");
        write_text(input, text).map_err(|error| format!("{name}: its input: {error}"))?;
        let output = child.wait_with_output();
        self.process.store(0, Ordering::SeqCst);
        let output = output.map_err(|error| format!("{name}: its output: {error}"))?;
        if !output.status.success() {
            return Err(format!("{name}: it ended with {}", output.status));
        }
        if !output.stderr.is_empty() {
            let said = output.stderr.escape_ascii();
            return Err(format!("{name}: it wrote to standard error: {said}"));
        }
        Ok(output.stdout)
    }
}

/// A program that stops reading a text that is too long does nothing wrong.
fn write_text(mut input: ChildStdin, text: &Text) -> io::Result<()> {
    let length = text.bytes.len().max(1);
    let part = if text.in_parts {
        length.div_ceil(PARTS)
    } else {
        length
    };
    for bytes in text.bytes.chunks(part) {
        if let Err(error) = input.write_all(bytes) {
            if error.kind() == ErrorKind::BrokenPipe {
                return Ok(());
            }
            return Err(error);
        }
        if text.in_parts {
            std::thread::sleep(BETWEEN_PARTS);
        }
    }
    Ok(())
}
