//! Runs the program that prints reports.

use std::io::{self, Read, Write};
use std::path::PathBuf;
use std::process::{Command, Stdio};
use std::thread;

/// Something that prints the report of a sheet.
pub trait Printer {
    fn print(&self, sheet: &[u8]) -> io::Result<Vec<u8>>;
}

/// A program that reads a sheet from its standard input and prints the report to its standard output.
pub struct Program {
    pub path: PathBuf,
}

impl Printer for Program {
    /// What the program prints of a sheet. One that is refused for its length need not be read to its end, so that the
    /// program may be gone before all is written; how it ends is not looked at.
    fn print(&self, sheet: &[u8]) -> io::Result<Vec<u8>> {
        let mut child = Command::new(&self.path).stdin(Stdio::piped()).stdout(Stdio::piped()).spawn()?;
        let mut input = child.stdin.take().expect("the input is piped");
        let mut output = child.stdout.take().expect("the output is piped");
        let mut printed = Vec::new();
        thread::scope(|scope| {
            let writer = scope.spawn(move || input.write_all(sheet));
            output.read_to_end(&mut printed)?;
            match writer.join().expect("the writer does not panic") {
                Err(error) if error.kind() != io::ErrorKind::BrokenPipe => Err(error),
                _ => Ok(()),
            }
        })?;
        child.wait()?;
        Ok(printed)
    }
}
