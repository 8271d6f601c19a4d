//! The benchmark: the proved library beside plain Rust written for speed, on the
//! same input in one run. `bench --help` tells the options.

#![forbid(unsafe_code)]

mod fast;
mod jobs;
mod texts;

use std::env;
use std::process::{Command, ExitCode};
use std::time::{Duration, Instant};

use jobs::{Job, Lent, Side};

const HELP: &str = "\
bench: times the jobs of docs/BENCHMARKS.md, through the library and in plain Rust

  bench [JOB..]                  times: warm-up, then the median of many short samples of each side in turn
  bench --instructions [JOB..]   instructions, counted by valgrind --tool=callgrind
  bench --growth                 instructions a block of check, parse and format, on texts of 1, 8, 64 and 512 blocks

Without a JOB, all: numbers, scores, list, bed3-check, bed6-check, bed12-check,
bed3-format, bed6-format, bed12-format, bed, psl, chain, lift, batch.
";

/// Samples of each side, the two in turn; their median counts. A short sample is
/// seldom disturbed by other work of the machine.
const SAMPLES: usize = 301;
/// How long one sample takes at least.
const SAMPLE: Duration = Duration::from_millis(1);
/// Where samples take long, these are enough after so long a time.
const ENOUGH: usize = 9;
const LONG: Duration = Duration::from_secs(10);
/// Damaged texts on which both sides must answer the same before anything is timed.
const DAMAGED: u64 = 500;

fn main() -> ExitCode {
    let words: Vec<String> = env::args().skip(1).collect();
    let words: Vec<&str> = words.iter().map(String::as_str).collect();
    let done = match &words[..] {
        ["--once", job, side, rounds] => once(job, side, rounds),
        ["--help"] => {
            print!("{HELP}");
            Ok(())
        }
        ["--growth"] => growth(),
        ["--instructions", names @ ..] => chosen(names, true).and_then(instructions),
        names => chosen(names, false).and_then(times),
    };
    match done {
        Ok(()) => ExitCode::SUCCESS,
        Err(message) => {
            eprintln!("{message}");
            ExitCode::FAILURE
        }
    }
}

/// The jobs with these names, or all.
fn chosen(names: &[&str], small: bool) -> Result<Vec<Job>, String> {
    let mut jobs = jobs::all(small);
    if names
        .iter()
        .any(|name| jobs.iter().all(|job| job.name != **name))
    {
        return Err(HELP.to_string());
    }
    jobs.retain(|job| names.is_empty() || names.contains(&job.name.as_str()));
    Ok(jobs)
}

/// Refuses a job on which the two sides answer differently.
fn agreed(job: &Job) -> Result<(), String> {
    match job.sides_agree(DAMAGED) {
        true => Ok(()),
        false => Err(format!("{}: the two sides answer differently", job.name)),
    }
}

/// Times these jobs on both sides.
fn times(jobs: Vec<Job>) -> Result<(), String> {
    println!("| Job | Library | Rust | Library : Rust | least : least |\n|---|---|---|---|---|");
    for job in jobs {
        agreed(&job)?;
        let [library, rust] = timed(&job);
        let unit = |time: f64| format!("{} per {}", shown(time / job.units as f64), job.unit);
        println!(
            "| {}: {} | {} | {} | {:.2} | {:.2} |",
            job.name,
            job.about,
            unit(library.median),
            unit(rust.median),
            library.median / rust.median,
            library.least / rust.least,
        );
    }
    Ok(())
}

/// Nanoseconds a round. On a busy machine the least tells more than the median.
struct Timed {
    median: f64,
    least: f64,
}

/// The library's times and plain Rust's, sampled in turn.
fn timed(job: &Job) -> [Timed; 2] {
    let mut lent = Lent::new();
    let sides = [Side::Library, Side::Rust];
    let rounds = sides.map(|side| rounds_per_sample(job, side, &mut lent));
    let mut samples = [Vec::new(), Vec::new()];
    let start = Instant::now();
    while samples[1].len() < SAMPLES && (samples[1].len() < ENOUGH || start.elapsed() < LONG) {
        for (at, side) in sides.into_iter().enumerate() {
            let start = Instant::now();
            (0..rounds[at]).for_each(|_| job.run(side, &mut lent));
            samples[at].push(start.elapsed().as_nanos() as f64 / rounds[at] as f64);
        }
    }
    samples.map(|mut samples| {
        samples.sort_by(f64::total_cmp);
        Timed {
            median: samples[samples.len() / 2],
            least: samples[0],
        }
    })
}

/// Warms up, and finds how many rounds fill a sample.
fn rounds_per_sample(job: &Job, side: Side, lent: &mut Lent) -> u64 {
    let mut rounds = 1;
    loop {
        let start = Instant::now();
        (0..rounds).for_each(|_| job.run(side, lent));
        if start.elapsed() >= SAMPLE {
            return rounds;
        }
        rounds *= 2;
    }
}

fn shown(nanoseconds: f64) -> String {
    match nanoseconds {
        few if few < 10_000.0 => format!("{few:.1} ns"),
        many => format!("{:.1} µs", many / 1_000.0),
    }
}

/// Counts the instructions of these jobs on both sides.
fn instructions(jobs: Vec<Job>) -> Result<(), String> {
    println!("| Job | Library | Rust | Library : Rust |\n|---|---|---|---|");
    for job in jobs {
        let [library, rust] = counted(&job)?;
        let unit = |count: f64| format!("{count:.1} per {}", job.unit);
        let ratio = library / rust;
        println!(
            "| {} | {} | {} | {ratio:.2} |",
            job.name,
            unit(library),
            unit(rust)
        );
    }
    Ok(())
}

/// Counts the instructions a block on texts of more and more blocks, so that a cost
/// of the whole text is seen apart from one that each block has.
fn growth() -> Result<(), String> {
    print!("| Instructions a block |");
    for blocks in jobs::GROWTH {
        print!(" library, of {blocks} | Rust |");
    }
    println!("\n|---|{}", "---|---|".repeat(jobs::GROWTH.len()));
    for row in jobs::growth() {
        print!("| {} |", row[0].about);
        for job in &row {
            let [library, rust] = counted(job)?;
            print!(" {library:.1} | {rust:.1} |");
        }
        println!();
    }
    Ok(())
}

/// Instructions a unit, the library's and plain Rust's.
fn counted(job: &Job) -> Result<[f64; 2], String> {
    agreed(job)?;
    let units = job.units as f64;
    Ok([round(job, "library")? / units, round(job, "rust")? / units])
}

/// Instructions of one round: those of three rounds less those of one, halved.
fn round(job: &Job, side: &str) -> Result<f64, String> {
    Ok((collected(job, side, "3")? - collected(job, side, "1")?) / 2.0)
}

/// Instructions of a whole run under callgrind.
fn collected(job: &Job, side: &str, rounds: &str) -> Result<f64, String> {
    let own = env::current_exe().map_err(|error| error.to_string())?;
    let run = Command::new("valgrind")
        .args(["--tool=callgrind", "--callgrind-out-file=/dev/null"])
        .arg(own)
        .args(["--once", &job.name, side, rounds])
        .output()
        .map_err(|error| format!("cannot run valgrind: {error}"))?;
    let told = String::from_utf8_lossy(&run.stderr);
    let line = told
        .lines()
        .find_map(|line| line.split_once("Collected : "));
    line.and_then(|(_, count)| count.trim().parse().ok())
        .ok_or_else(|| format!("valgrind tells no count:\n{told}"))
}

/// One side of a small job, for callgrind.
fn once(name: &str, side: &str, rounds: &str) -> Result<(), String> {
    let mut jobs = jobs::all(true)
        .into_iter()
        .chain(jobs::growth().into_iter().flatten());
    let job = jobs.find(|job| job.name == name).ok_or("no such job")?;
    let side = match side {
        "library" => Side::Library,
        "rust" => Side::Rust,
        _ => return Err("the side is library or rust".into()),
    };
    let rounds: u64 = rounds.parse().map_err(|_| "rounds is a number")?;
    let mut lent = Lent::new();
    (0..rounds).for_each(|_| job.run(side, &mut lent));
    Ok(())
}
