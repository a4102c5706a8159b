//! `differential check | readwrite | alter | takeout | mend | funds | lines | longlines | fuzz SECONDS`:
//! puts the same cases to the proved library and to the independent implementation, and ends with a
//! line of how many there were and how many differed. Files are put to them in both ways; the same
//! records in both ways have to be answered alike.
//!
//! ACH_SEED chooses other random cases, ACH_CASES how many of them there are. A fuzz run without
//! ACH_SEED takes another seed each time, and prints it.

mod alter;
mod check;
mod funds;
mod fuzz;
mod guard;
mod lines;
mod mend;
mod read_write;
mod rooms;
mod rows;
mod run;
mod take_out;
mod tally;
mod ways;

use run::Run;
use std::process::ExitCode;
use std::time::{SystemTime, UNIX_EPOCH};
use tally::Tally;

const DEFAULT_SEED: u64 = 20_260_101;

fn main() -> ExitCode {
    let mut arguments = std::env::args().skip(1);
    let subcommand = arguments.next().unwrap_or_default();
    let seconds = arguments.next().and_then(|text| text.parse().ok());
    let compare: fn(&Run, &mut Tally) = match (subcommand.as_str(), seconds) {
        ("check", None) => check::compare,
        ("readwrite", None) => read_write::compare,
        ("alter", None) => alter::compare,
        ("takeout", None) => take_out::compare,
        ("mend", None) => mend::compare,
        ("funds", None) => funds::compare,
        ("lines", None) => lines::compare,
        ("longlines", None) => lines::compare_longest,
        ("fuzz", Some(_)) => fuzz::compare,
        _ => {
            let parts = "check | readwrite | alter | takeout | mend | funds | lines | longlines";
            eprintln!("usage: differential {parts} | fuzz SECONDS");
            return ExitCode::from(2);
        }
    };
    let usual_seed = if seconds.is_some() { seed_of_the_moment() } else { DEFAULT_SEED };
    let run = Run {
        seed: number_from_environment("ACH_SEED").unwrap_or(usual_seed),
        cases: number_from_environment("ACH_CASES"),
        seconds: seconds.unwrap_or_default(),
    };
    println!("differential {subcommand}: seed {}", run.seed);
    let mut tally = Tally::default();
    compare(&run, &mut tally);
    println!(
        "differential {subcommand}: {} cases, {} differences",
        tally.cases(),
        tally.differences()
    );
    if tally.differences() == 0 {
        ExitCode::SUCCESS
    } else {
        ExitCode::FAILURE
    }
}

fn seed_of_the_moment() -> u64 {
    let since = SystemTime::now().duration_since(UNIX_EPOCH);
    since.map_or(DEFAULT_SEED, |time| time.as_nanos() as u64)
}

fn number_from_environment(name: &str) -> Option<u64> {
    let text = std::env::var(name).ok()?;
    Some(text.parse().unwrap_or_else(|_| panic!("{name} is no number: {text}")))
}
