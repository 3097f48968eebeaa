//! A plain, tuned simulator of the machine that pmsi simulates, to measure pmsi against. Nothing is proved of it, and where it
//! differs from pmsi it says nothing about the rules.

mod cache;
mod core;
mod instruction;
mod job;
mod machine;
mod text;

use job::Job;
use machine::{Keep, Machine};
use std::io::Write;
use std::ops::RangeInclusive;
use std::process::ExitCode;

const USAGE: &str =
    "usage: plain run [--trace yes|no] [--touches yes|no] JOB | plain gen [--cores N] [--slots n] [--run yes|no] SEED";
const MOST_TOUCHES: u64 = 4_000_000;

/// Why there is no result: the status, and a line that tells it.
struct Failure(u8, String);

fn usage() -> Failure {
    Failure(2, USAGE.into())
}

fn refused(detail: impl std::fmt::Display) -> Failure {
    Failure(5, format!("refused: input: {detail}"))
}

/// The words after the command.
struct Words(Vec<String>);

impl Words {
    /// Takes an option and its value out; the default where it isn't given.
    fn take<T>(&mut self, name: &str, default: T, read: impl Fn(&str) -> Option<T>) -> Result<T, Failure> {
        let Some(place) = self.0.iter().position(|word| word == name) else { return Ok(default) };
        let value = self.0.get(place + 1).and_then(|word| read(word)).ok_or_else(usage)?;
        self.0.drain(place..place + 2);
        Ok(value)
    }

    /// The one word that is left.
    fn last(self) -> Result<String, Failure> {
        <[String; 1]>::try_from(self.0).map(|[word]| word).map_err(|_| usage())
    }
}

fn flag(word: &str) -> Option<bool> {
    match word {
        "yes" => Some(true),
        "no" => Some(false),
        _ => None,
    }
}

fn number(range: RangeInclusive<u32>) -> impl Fn(&str) -> Option<u32> {
    move |word| word.parse().ok().filter(|number| range.contains(number))
}

/// Runs a job, and gives a text of the machine at its end.
fn run(job: &Job, keep: Keep, is_summary: bool) -> Vec<u8> {
    fn with_line<const W: usize>(job: &Job, keep: Keep, is_summary: bool) -> Vec<u8> {
        let mut machine = Machine::<W>::new(job, keep);
        machine.run(job.slots, keep);
        if is_summary {
            text::summary(job, &machine)
        } else {
            text::listing(job, &machine, keep)
        }
    }
    match job.line_words {
        4 => with_line::<4>(job, keep, is_summary),
        8 => with_line::<8>(job, keep, is_summary),
        _ => with_line::<16>(job, keep, is_summary),
    }
}

fn run_command(mut words: Words) -> Result<Vec<u8>, Failure> {
    let keep = Keep { trace: words.take("--trace", false, flag)?, touches: words.take("--touches", false, flag)? };
    let bytes = std::fs::read(words.last()?).map_err(|fault| Failure(3, format!("read fault: {fault}")))?;
    let job = Job::read(&bytes).map_err(refused)?;
    if keep.touches && job.most_touches() > MOST_TOUCHES {
        return Err(refused(format_args!("touches {}", job.most_touches())));
    }
    Ok(run(&job, keep, false))
}

fn gen_command(mut words: Words) -> Result<Vec<u8>, Failure> {
    let cores = words.take("--cores", 4, number(1..=16))?;
    let slots = words.take("--slots", 20_000, number(0..=1_000_000))?;
    let is_run = words.take("--run", false, flag)?;
    let seed = number(0..=u32::MAX)(&words.last()?).ok_or_else(usage)?;
    let job = Job::of_seed(seed, cores, slots);
    Ok(if is_run { run(&job, Keep::default(), true) } else { job.print().into_bytes() })
}

fn result() -> Result<Vec<u8>, Failure> {
    let mut words = std::env::args().skip(1);
    match words.next().as_deref() {
        Some("run") => run_command(Words(words.collect())),
        Some("gen") => gen_command(Words(words.collect())),
        _ => Err(usage()),
    }
}

fn main() -> ExitCode {
    let written =
        result().and_then(|text| std::io::stdout().write_all(&text).map_err(|fault| Failure(4, format!("write fault: {fault}"))));
    match written {
        Ok(()) => ExitCode::SUCCESS,
        Err(Failure(status, line)) => {
            eprintln!("{line}");
            ExitCode::from(status)
        }
    }
}
