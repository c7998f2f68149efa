//! Groups of turn files, and running an engine on them.

use std::fmt::{self, Write};

use crate::difference::{self, Difference};
use crate::engine::{Engine, Printed};
use crate::inputs::{self, Input};
use crate::linearizability::{self, Checked};
use crate::seeded;
use crate::taken_list::{self, Met};

/// Turn files under one name.
pub struct Group<'a> {
    pub name: &'static str,
    pub inputs: Box<dyn Iterator<Item = Input> + 'a>,
}

/// All groups, quick ones first; the last ones for these seeds.
pub fn groups(seeds: &[u64], records: u64) -> Vec<Group<'_>> {
    let seeds = || seeds.iter().copied();
    let long = |name, file: fn(u64, u64) -> Input| {
        group(name, seeds().map(move |seed| file(seed, records)))
    };
    vec![
        group("worked example", inputs::worked_example()),
        group("by hand", inputs::by_hand()),
        group("every distance", inputs::every_distance()),
        group("orders", inputs::orders()),
        group("cut files", inputs::cuts()),
        group("wrong marks", inputs::marks()),
        group("small histories", seeds().map(seeded::histories)),
        group(
            "damaged",
            seeds().flat_map(move |seed| seeded::damaged(seed, records)),
        ),
        long("every shape", seeded::every_shape),
        long("few nodes", seeded::narrow),
        long("no refusals", seeded::unrefused),
    ]
}

fn group<'a, I>(name: &'static str, inputs: I) -> Group<'a>
where
    I: IntoIterator<Item = Input>,
    I::IntoIter: 'a,
{
    let inputs = Box::new(inputs.into_iter());
    Group { name, inputs }
}

/// What a group has run.
#[derive(Clone, Copy, Debug, Default)]
pub struct Counts {
    pub files: usize,
    pub lines: usize,
    /// The histories in which an order was found.
    pub checked: Checked,
    /// Where the promises on the taken list had something to say.
    pub met: Met,
}

impl fmt::Display for Counts {
    fn fmt(&self, f: &mut fmt::Formatter<'_>) -> fmt::Result {
        let Self { files, lines, .. } = self;
        write!(f, "{files:>5} files {lines:>9} records")?;
        let Checked { histories, calls } = self.checked;
        if histories > 0 {
            write!(f, " {histories:>5} histories {calls:>7} calls in order")?;
        }
        Ok(())
    }
}

/// What is wrong with an engine, and on which input.
#[derive(Clone, Debug)]
pub struct Failure {
    pub group: &'static str,
    pub input: String,
    pub seed: Option<u64>,
    pub text: String,
}

impl fmt::Display for Failure {
    fn fmt(&self, f: &mut fmt::Formatter<'_>) -> fmt::Result {
        writeln!(f, "wrong: {}, {}", self.group, self.input)?;
        f.write_str(&self.text)
    }
}

/// Runs a group up to the first failure.
pub fn run(engine: &Engine, group: Group<'_>) -> Result<Counts, Failure> {
    let mut counts = Counts::default();
    for input in group.inputs {
        run_input(engine, &input, &mut counts).map_err(|text| Failure {
            group: group.name,
            input: input.name.clone(),
            seed: input.seed,
            text,
        })?;
    }
    Ok(counts)
}

/// Counts what was run, or says what is wrong.
fn run_input(engine: &Engine, input: &Input, counts: &mut Counts) -> Result<(), String> {
    let expected = expected(input)?;
    let Printed { output, status } = engine
        .run(&input.bytes)
        .map_err(|error| format!("cannot run {}: {error}\n", engine.path().display()))?;
    let mut wrong = String::new();
    if let Some(difference) = difference::first(&input.bytes, expected.as_bytes(), &output) {
        push_difference(&mut wrong, &difference, "second", "engine");
    }
    push_violations(&mut wrong, input, &String::from_utf8_lossy(&output), counts);
    if wrong.is_empty() && !status.success() {
        wrong = format!("the lines are right, but the engine ended with {status}\n");
    }
    counts.files += 1;
    counts.lines += output.iter().filter(|&&byte| byte == b'\n').count();
    match wrong.is_empty() {
        true => Ok(()),
        false => Err(wrong),
    }
}

/// What is wrong in the lines themselves.
fn push_violations(wrong: &mut String, input: &Input, output: &str, counts: &mut Counts) {
    match taken_list::check(&input.bytes, output) {
        Ok(met) => counts.met += met,
        Err(violation) => wrong.push_str(&violation.to_string()),
    }
    if !input.is_small {
        return;
    }
    match linearizability::check(&input.bytes, output) {
        Ok(more) => {
            counts.checked.histories += more.histories;
            counts.checked.calls += more.calls;
        }
        // The taken list has it, too.
        Err(linearizability::Violation::Fault(_)) => {}
        Err(violation) => wrong.push_str(&violation.to_string()),
    }
}

/// What the second program prints; it must know what is known by hand.
fn expected(input: &Input) -> Result<String, String> {
    let output = schedule::lines(&input.bytes[..]);
    if let Some(known) = &input.output {
        let (known, printed) = (known.as_bytes(), output.as_bytes());
        if let Some(difference) = difference::first(&input.bytes, known, printed) {
            let mut text = String::new();
            push_difference(&mut text, &difference, "by hand", "second");
            return Err(text);
        }
    }
    Ok(output)
}

fn push_difference(text: &mut String, difference: &Difference, left: &str, right: &str) {
    let Difference {
        number,
        record,
        expected,
        printed,
    } = difference;
    let _ = write!(
        text,
        "first difference at record {number}\n  {:<9}{record}\n  {left:<9}{expected}\n  \
         {right:<9}{printed}\n",
        "record"
    );
}
