//! `generate SEED [DAMAGES]`: writes a random file to standard output, with so many random damages.
//! `generate big RECORDS`: a big file in order, of so many records before the fillers.
//! With `--lined` in front, CR LF stands behind every record.

use generate::{big_file, damage::random_damage, lines::lined, plan, BigFile, Random};
use std::io::Write;

fn main() {
    let arguments: Vec<String> = std::env::args().skip(1).collect();
    let Some(file) = asked_for(&arguments) else {
        eprintln!("usage: generate [--lined] SEED [DAMAGES] | generate [--lined] big RECORDS");
        std::process::exit(2);
    };
    if let Err(error) = std::io::stdout().write_all(&file) {
        eprintln!("generate: {error}");
        std::process::exit(1);
    }
}

fn asked_for(arguments: &[String]) -> Option<Vec<u8>> {
    if let Some(("--lined", rest)) =
        arguments.split_first().map(|(first, rest)| (first.as_str(), rest))
    {
        return asked_for(rest).map(|file| lined(&file));
    }
    let number = |index: usize| arguments.get(index).map(|text| text.parse().ok());
    if arguments.first().map(String::as_str) == Some("big") {
        // A header, a batch of one entry, and the two controls are the least.
        let records = number(1)?.filter(|records| *records >= 5)? as usize;
        return Some(big_file(&BigFile { records, entries_in_batch: 20_000, addendum_every: 4 }));
    }
    let (seed, damages): (u64, u64) = (number(0)??, number(1).unwrap_or(Some(0))?);
    let mut random = Random::new(seed);
    let mut file = plan(&mut random, 4, 8).file();
    for _ in 0..damages {
        file = random_damage(&mut random, &file);
    }
    Some(file)
}
