//! The answers as lines: plain, JSON or columns parted by tabs.
use crate::arguments::Form;
use crate::messages::Failure;
use crate::progress::Progress;
use std::io::{self, BufWriter, StdoutLock, Write};
use yokberd::Error;

const STANDARD: &str = "standard output";

/// Standard output, and how far it is.
pub struct Output {
    form: Form,
    lines: BufWriter<StdoutLock<'static>>,
    progress: Progress,
    done: usize,
    all: usize,
}

/// An answer: a text or a size.
pub enum Value<'a> {
    Text(&'a [u8]),
    Size(u64),
}

/// Writes a text as it is.
pub fn say(text: &str) -> Result<(), Failure> {
    io::stdout().write_all(text.as_bytes()).and_then(|()| io::stdout().flush()).map_err(|error| Failure::written(STANDARD, error))
}

impl Output {
    pub fn new(form: Form, progress: Progress, all: usize) -> Self {
        Output { form, lines: BufWriter::with_capacity(1 << 16, io::stdout().lock()), progress, done: 0, all }
    }

    /// The lines of some answers.
    pub fn part<'a>(&mut self, answers: impl Iterator<Item = (u32, Result<Value<'a>, Error>)>) -> Result<(), Failure> {
        self.progress.clear();
        for (index, answer) in answers {
            self.line(index, answer).map_err(|error| Failure::written(STANDARD, error))?;
            self.done += 1;
        }
        if self.progress.is_due() {
            self.lines.flush().map_err(|error| Failure::written(STANDARD, error))?;
            self.progress.tell(self.done, self.all, "answered");
        }
        Ok(())
    }

    /// Writes what is left.
    pub fn end(mut self) -> Result<(), Failure> {
        self.progress.clear();
        self.lines.flush().map_err(|error| Failure::written(STANDARD, error))
    }

    fn line(&mut self, index: u32, answer: Result<Value, Error>) -> io::Result<()> {
        match self.form {
            Form::Plain => plain(&mut self.lines, index, answer),
            Form::Json => json(&mut self.lines, index, answer),
            Form::Tsv => tsv(&mut self.lines, index, answer),
        }
    }
}

fn plain(lines: &mut impl Write, index: u32, answer: Result<Value, Error>) -> io::Result<()> {
    write!(lines, "{index:#x}  ")?;
    match answer {
        Ok(Value::Text(text)) => lines.write_all(text)?,
        Ok(Value::Size(size)) => write!(lines, "{size}")?,
        Err(error) => write!(lines, "refusal {}: {error}", error.number())?,
    }
    lines.write_all(b"\n")
}

fn json(lines: &mut impl Write, index: u32, answer: Result<Value, Error>) -> io::Result<()> {
    write!(lines, "{{\"index\":\"{index:#x}\",")?;
    match answer {
        Ok(Value::Text(text)) => write!(lines, "\"text\":\"{}\"", escaped(&String::from_utf8_lossy(text)))?,
        Ok(Value::Size(size)) => write!(lines, "\"size\":{size}")?,
        Err(error) => {
            let message = escaped(&error.to_string());
            write!(lines, "\"refusal\":{},\"detail\":\"{:#x}\",\"message\":\"{message}\"", error.number(), error.detail())?;
        }
    }
    lines.write_all(b"}\n")
}

// A text as it stands between the quotes of a JSON string.
fn escaped(text: &str) -> String {
    let mut string = String::with_capacity(text.len());
    for character in text.chars() {
        match character {
            '"' => string.push_str("\\\""),
            '\\' => string.push_str("\\\\"),
            control if control < ' ' => string.push_str(&format!("\\u{:04x}", control as u32)),
            other => string.push(other),
        }
    }
    string
}

fn tsv(lines: &mut impl Write, index: u32, answer: Result<Value, Error>) -> io::Result<()> {
    let (refusal, detail) = answer.as_ref().err().map_or((0, 0), |error| (error.number(), error.detail()));
    write!(lines, "{index:#x}\t{refusal}\t{detail:#x}\t")?;
    match answer {
        Ok(Value::Text(text)) => column(lines, text)?,
        Ok(Value::Size(size)) => write!(lines, "{size}")?,
        Err(_) => {}
    }
    lines.write_all(b"\n")
}

// A text's bytes as they are, but for those that end a column or a line.
fn column(lines: &mut impl Write, text: &[u8]) -> io::Result<()> {
    for part in text.split_inclusive(|byte| b"\t\n\r\\".contains(byte)) {
        let (last, rest) = part.split_last().unwrap_or((&0, part));
        let written: &[u8] = match last {
            b'\t' => b"\\t",
            b'\n' => b"\\n",
            b'\r' => b"\\r",
            b'\\' => b"\\\\",
            _ => {
                lines.write_all(part)?;
                continue;
            }
        };
        lines.write_all(rest)?;
        lines.write_all(written)?;
    }
    Ok(())
}
