//! Running an engine: a program that reads a turn file and prints lines.

use std::io::{self, ErrorKind, Read, Write};
use std::path::{Path, PathBuf};
use std::process::{Command, ExitStatus, Stdio};
use std::thread;

/// A program, by its path.
#[derive(Clone, Debug)]
pub struct Engine {
    path: PathBuf,
}

/// What a run of an engine left.
#[derive(Debug)]
pub struct Printed {
    pub output: Vec<u8>,
    pub status: ExitStatus,
}

impl Engine {
    pub fn new(path: impl Into<PathBuf>) -> Self {
        Self { path: path.into() }
    }

    pub fn path(&self) -> &Path {
        &self.path
    }

    /// Hands the engine its input from a thread, so that both may be large.
    pub fn run(&self, input: &[u8]) -> io::Result<Printed> {
        let mut child = Command::new(&self.path)
            .stdin(Stdio::piped())
            .stdout(Stdio::piped())
            .spawn()?;
        let (stdin, stdout) = (child.stdin.take(), child.stdout.take());
        let mut output = Vec::new();
        let done = thread::scope(|scope| {
            let writer = scope.spawn(|| write(stdin, input));
            let read = stdout.map_or(Ok(0), |mut pipe| pipe.read_to_end(&mut output));
            let written = writer.join();
            read.and(written.unwrap_or_else(|_| {
                Err(io::Error::new(io::ErrorKind::Other, "the writer panicked"))
            }))
        });
        let status = child.wait()?;
        done?;
        Ok(Printed { output, status })
    }
}

/// Writes all and closes. An engine may end before it has read all.
fn write(pipe: Option<impl Write>, input: &[u8]) -> io::Result<()> {
    match pipe.map_or(Ok(()), |mut pipe| pipe.write_all(input)) {
        Err(error) if error.kind() == ErrorKind::BrokenPipe => Ok(()),
        done => done,
    }
}
