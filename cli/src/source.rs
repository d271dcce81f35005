//! What was handed in: a plan's bytes; a rule file as bytes, or as text that was
//! built to bytes.

use std::fs::File;
use std::io::{self, Read};
use std::path::Path;

use sinalvento::rules::Section;
use sinalvento::text::{self, Parsed, Places};

use crate::arguments::Form;

/// No plan, rule file, nor its text, comes near this many bytes.
const MOST: u64 = 4 << 20;

/// A rule file, with its text if it came as one.
pub struct Source {
    /// What it is called in messages.
    pub name: String,
    pub bytes: Vec<u8>,
    pub parsed: Option<Parsed>,
}

/// Why there is no rule file.
pub enum Trouble {
    /// It cannot be read.
    Io(String),
    /// Its text has a fault.
    Text(String),
}

impl Source {
    pub fn read(file: &str, form: Form) -> Result<Self, Trouble> {
        let (name, bytes) = contents(file)?;
        if !is_text(file, form) {
            let parsed = None;
            return Ok(Self {
                name,
                bytes,
                parsed,
            });
        }
        let text = String::from_utf8(bytes).map_err(|error| {
            let (line, column) = place(error.as_bytes(), error.utf8_error().valid_up_to());
            Trouble::Text(format!(
                "{name}: line {line}, column {column}: this is no UTF-8 text\n"
            ))
        })?;
        let parsed = text::parse(&text);
        let parsed = parsed.map_err(|fault| Trouble::Text(format!("{name}: {fault}\n")))?;
        Ok(Self {
            name,
            bytes: parsed.rules.write(),
            parsed: Some(parsed),
        })
    }

    /// Where a record stands: the file's name, and its place in the text.
    pub fn place(&self, section: Section, record: usize) -> String {
        match self.places().of(section, record) {
            Some(position) => format!("{}: {position}", self.name),
            None => self.name.clone(),
        }
    }

    /// Where the records stand in the text; nowhere if there is none.
    pub fn places(&self) -> &Places {
        const NOWHERE: &Places = &Places::nowhere();
        let parsed = self.parsed.as_ref();
        parsed.map_or(NOWHERE, |parsed| &parsed.places)
    }

    /// The predicates' labels, if there is a text that has them.
    pub fn predicates(&self) -> &[String] {
        self.parsed
            .as_ref()
            .map_or(&[], |parsed| &parsed.predicates)
    }
}

fn is_text(file: &str, form: Form) -> bool {
    match form {
        Form::Text => true,
        Form::Bytes => false,
        Form::ByName => Path::new(file)
            .extension()
            .is_some_and(|ending| ending == "rules"),
    }
}

/// What a file is called in messages, and what it holds.
pub fn contents(file: &str) -> Result<(String, Vec<u8>), Trouble> {
    let name = if file == "-" { "standard input" } else { file };
    match bytes_of(file) {
        Ok(bytes) => Ok((String::from(name), bytes)),
        Err(error) => Err(Trouble::Io(format!("{name}: {error}\n"))),
    }
}

fn bytes_of(file: &str) -> io::Result<Vec<u8>> {
    let mut bytes = vec![];
    if file == "-" {
        io::stdin().lock().take(MOST + 1).read_to_end(&mut bytes)?;
    } else {
        File::open(file)?.take(MOST + 1).read_to_end(&mut bytes)?;
    }
    if bytes.len() as u64 > MOST {
        return Err(io::Error::other(
            "this is longer than any plan, rule file or its text",
        ));
    }
    Ok(bytes)
}

/// The line and column of an offset, before which all is text.
fn place(bytes: &[u8], offset: usize) -> (usize, usize) {
    let before = String::from_utf8_lossy(&bytes[..offset]);
    let line = 1 + before.matches('\n').count();
    let last = before.rsplit('\n').next().unwrap_or_default();
    (line, 1 + last.chars().count())
}
