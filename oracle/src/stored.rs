//! Cases of a program that are stored: the stream and the answers, on which the
//! toolchain runs the program whenever it is built, and the names of the cases.

use crate::in_the_repository;
use std::collections::BTreeSet;
use std::io::{self, Write as _};
use std::process::ExitCode;

/// The three files in the making.
pub struct Stored {
    /// The command that writes them.
    command: &'static str,
    program: &'static str,
    stream: Vec<u8>,
    answers: String,
    names: String,
    count: usize,
}

/// Whether the command is told to write; none where it is told anything else.
pub fn writes(options: &[String]) -> Option<bool> {
    match options {
        [] => Some(false),
        [option] if option == "--write" => Some(true),
        _ => None,
    }
}

/// Names given twice, by which no reader could find a case.
pub fn repeated<'n>(names: impl Iterator<Item = &'n String>) -> Vec<String> {
    let mut seen = BTreeSet::new();
    names
        .filter(|name| !seen.insert(*name))
        .map(|name| format!("{name}: two cases have this name"))
        .collect()
}

/// Writes what is wrong with the cases; answers whether anything is.
pub fn write_faults(faults: &[String]) -> io::Result<bool> {
    for fault in faults {
        writeln!(io::stdout(), "{fault}")?;
    }
    Ok(!faults.is_empty())
}

impl Stored {
    pub fn of(command: &'static str, program: &'static str) -> Stored {
        Stored {
            command,
            program,
            stream: Vec::new(),
            answers: String::new(),
            names: String::new(),
            count: 0,
        }
    }

    /// A case: its part of the stream, the lines that answer it, and what stands
    /// after its name.
    pub fn take(&mut self, name: &str, bytes: &[u8], answer: &str, told: &str) {
        self.count += 1;
        self.stream.extend(bytes);
        self.answers += &format!("{answer}\n");
        self.names += &format!("{}. {name}: {told}\n", self.count);
    }

    /// Each with its path.
    fn files(&self) -> [(String, &[u8]); 3] {
        [
            (format!("crates/{}/stdin", self.program), &self.stream),
            (
                format!("crates/{}/stdout", self.program),
                self.answers.as_bytes(),
            ),
            (
                format!("oracle/{}.txt", self.command),
                self.names.as_bytes(),
            ),
        ]
    }

    /// `what` the cases are: images or requests.
    pub fn finish(&self, writes: bool, what: &str) -> io::Result<ExitCode> {
        match writes {
            true => self.write(what),
            false => self.compare(what),
        }
    }

    fn write(&self, what: &str) -> io::Result<ExitCode> {
        for (path, bytes) in self.files() {
            let path = in_the_repository(&path);
            std::fs::create_dir_all(path.parent().unwrap_or(&path))?;
            std::fs::write(path, bytes)?;
        }
        let (command, count, bytes) = (self.command, self.count, self.stream.len());
        writeln!(
            io::stdout(),
            "{command} written: {count} {what}, {bytes} bytes"
        )?;
        Ok(ExitCode::SUCCESS)
    }

    fn compare(&self, what: &str) -> io::Result<ExitCode> {
        let command = self.command;
        let mut agree = true;
        for (path, bytes) in self.files() {
            let stored = std::fs::read(in_the_repository(&path));
            if !stored.is_ok_and(|stored| stored == bytes) {
                writeln!(
                    io::stdout(),
                    "{path} is not what {command} --write would write"
                )?;
                agree = false;
            }
        }
        if !agree {
            return Ok(ExitCode::FAILURE);
        }
        writeln!(io::stdout(), "{command} agree: {} {what}", self.count)?;
        Ok(ExitCode::SUCCESS)
    }
}
