//! The second program, with its lines altered or with a mistake, as the variable
//! ALTER asks; without it, the second program itself.
#![forbid(unsafe_code)]

mod mistaken;

use std::io::{self, Read, Write};
use std::process::ExitCode;

use mistaken::Mistake;

fn main() -> ExitCode {
    let how = match std::env::var("ALTER") {
        Ok(how) => how,
        Err(_) => {
            second::run_standard().expect("output");
            return ExitCode::SUCCESS;
        }
    };
    let mut input = Vec::new();
    io::stdin().lock().read_to_end(&mut input).expect("input");
    let mut mistakes = Mistake::ALL.into_iter();
    let mistake = mistakes.find(|mistake| format!("{mistake:?}") == how);
    let text = mistaken::print(mistake.unwrap_or(Mistake::None), &input);
    let text = alter(text, &how);
    io::stdout()
        .lock()
        .write_all(text.as_bytes())
        .expect("output");
    match how.as_str() {
        "status" => ExitCode::from(3),
        _ => ExitCode::SUCCESS,
    }
}

fn alter(text: String, how: &str) -> String {
    match how {
        // The tenth arrival taken is answered empty, where there are several openings.
        "lost" if text.matches("open\n").count() > 1 => replace_nth(&text, "took", 10, "empty"),
        // The third refusal by 12 is another one.
        "refusal" => replace_nth(&text, "no 12", 3, "no 9"),
        "energy" => text.replace("took 5 7 1 16777216\n", "took 5 7 1 16777215\n"),
        // At 693 to 702 metres.
        "far energy" => text.replace("took 5 7 1 34\n", "took 5 7 1 35\n"),
        "extra" => text + "on\n",
        "short" => match text.strip_suffix('\n') {
            Some(short) => short.to_string(),
            None => text,
        },
        "missing" => {
            let count = text.lines().count().saturating_sub(1);
            text.split_inclusive('\n').take(count).collect()
        }
        _ => text,
    }
}

/// Replaces the nth line that begins with these letters.
fn replace_nth(text: &str, begin: &str, nth: usize, line: &str) -> String {
    let mut met = 0;
    let mut altered = String::new();
    for old in text.lines() {
        met += usize::from(old.starts_with(begin));
        let is_it = old.starts_with(begin) && met == nth;
        altered.push_str(if is_it { line } else { old });
        altered.push('\n');
    }
    altered
}
