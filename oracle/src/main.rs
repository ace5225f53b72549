//! `compare`: the port against the original.

use oracle::modes::{Bounds, MODES, Mode};
use std::process::ExitCode;
use std::time::{Duration, Instant};

const USAGE: &str = "\
usage: compare [functions] [exhaustive] [lists] [damaged] [under] [screen]
               [--seed N] [--rounds K] [--seconds S]
Without a mode all six run. The seed is 1 by default; --rounds and --seconds bound each of the random
modes (all but exhaustive) by itself, and --seconds alone sets no bound on the rounds.";

struct Options {
    modes: Vec<Mode>,
    bounds: Bounds,
}

impl Options {
    fn read(mut words: impl Iterator<Item = String>) -> Option<Options> {
        let mut modes = Vec::new();
        let mut bounds = Bounds { seed: 1, rounds: None, time: None };
        while let Some(word) = words.next() {
            if let Some(mode) = MODES.iter().find(|(name, _)| *name == word) {
                modes.push(*mode);
                continue;
            }
            let number = words.next()?.parse().ok()?;
            match word.as_str() {
                "--seed" => bounds.seed = number,
                "--rounds" => bounds.rounds = Some(number),
                "--seconds" => bounds.time = Some(Duration::from_secs(number)),
                _ => return None,
            }
        }
        if modes.is_empty() {
            modes.extend(MODES);
        }
        Some(Options { modes, bounds })
    }
}

fn main() -> ExitCode {
    let Some(options) = Options::read(std::env::args().skip(1)) else {
        eprintln!("{USAGE}");
        return ExitCode::from(2);
    };
    let begun = Instant::now();
    let mut totals = Vec::new();
    for (name, run) in options.modes {
        println!("{name}");
        let started = Instant::now();
        match run(&options.bounds) {
            Ok(calls) => {
                println!("  {calls} calls, {:.1} s", started.elapsed().as_secs_f64());
                totals.push((name, calls));
            }
            Err(difference) => {
                println!("{difference}");
                return ExitCode::FAILURE;
            }
        }
    }
    let each: Vec<String> = totals.iter().map(|(name, calls)| format!("{name} {calls}")).collect();
    println!(
        "compared {} calls ({}), no difference (seed {}, {:.1} s)",
        totals.iter().map(|(_, calls)| calls).sum::<u64>(),
        each.join(", "),
        options.bounds.seed,
        begun.elapsed().as_secs_f64(),
    );
    ExitCode::SUCCESS
}
