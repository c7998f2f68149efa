//! Two programs on the same turn file.

use std::fs::{self, File};
use std::io;
use std::path::{Path, PathBuf};
use std::process::{Command, Stdio};
use std::thread;
use std::time::Duration;

/// Why something is not measured.
pub struct Unmeasured(pub String);

/// Two programs and the file they read, which goes with them.
pub struct Pair<'a> {
    first: &'a Path,
    second: &'a Path,
    input: PathBuf,
}

impl<'a> Pair<'a> {
    pub fn new(
        first: &'a Path,
        second: &'a Path,
        input: &[u8],
    ) -> io::Result<Result<Self, Unmeasured>> {
        for program in [first, second] {
            if !program.exists() {
                let why = format!("{} is not there", program.display());
                return Ok(Err(Unmeasured(why)));
            }
        }
        let name = format!("wubraken-bench-{}.turns", std::process::id());
        let path = std::env::temp_dir().join(name);
        fs::write(&path, input)?;
        Ok(Ok(Self {
            first,
            second,
            input: path,
        }))
    }

    pub fn outputs(&self) -> io::Result<(Vec<u8>, Vec<u8>)> {
        let output =
            |program: &Path| -> io::Result<Vec<u8>> { Ok(self.command(program)?.output()?.stdout) };
        Ok((output(self.first)?, output(self.second)?))
    }

    pub fn time_first(&self) -> Duration {
        self.time(self.first)
    }

    pub fn time_second(&self) -> Duration {
        self.time(self.second)
    }

    fn command(&self, program: &Path) -> io::Result<Command> {
        let mut command = Command::new(program);
        command.stdin(File::open(&self.input)?);
        Ok(command)
    }

    /// Its time on the processor, with nobody to read its lines.
    fn time(&self, program: &Path) -> Duration {
        let mut command = self.command(program).expect("the input is there");
        let child = command.stdout(Stdio::null()).spawn();
        let mut child = child.expect("the program can be run");
        let time = processor_time(child.id()).expect("Linux keeps account in /proc");
        let status = child.wait().expect("the program has ended");
        assert!(status.success(), "{} fails", program.display());
        time
    }
}

/// Waits for a process to end; its account stays until its parent asks for it.
fn processor_time(process: u32) -> Option<Duration> {
    let read = |name| fs::read_to_string(format!("/proc/{process}/{name}")).ok();
    while !read("stat")?.rsplit(") ").next()?.starts_with('Z') {
        thread::sleep(Duration::from_millis(1));
    }
    let account = read("schedstat")?;
    let nanoseconds = account.split_whitespace().next()?.parse().ok()?;
    Some(Duration::from_nanos(nanoseconds))
}

impl Drop for Pair<'_> {
    fn drop(&mut self) {
        // A file left in the temporary directory harms nobody.
        let _ = fs::remove_file(&self.input);
    }
}

/// A contest in a program of its own, which is given numbers, and prints its part of the
/// report.
pub fn run_contest(program: &Path, numbers: &[usize]) -> io::Result<()> {
    let words = numbers.iter().map(usize::to_string);
    let status = Command::new(program).args(words).status();
    let failed = match status {
        Ok(status) if status.success() => return Ok(()),
        Ok(status) => status.to_string(),
        Err(error) => error.to_string(),
    };
    let message = format!("{}: {failed}", program.display());
    Err(io::Error::new(io::ErrorKind::Other, message))
}
