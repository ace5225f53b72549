//! What `compare` runs. Each mode prints what it has compared and gives the number of calls; the
//! error is the smallest difference found, in readable form.

use crate::args::Args;
use crate::calls::{Answer, Call};
use crate::exhaustive::ALPHABETS;
use crate::functions::{Case, FUNCTIONS};
use crate::lists::{List, Reached, Trouble, both};
use crate::random::Random;
use crate::scripts::{self, Script};
use crate::single::{self, SINGLES, Single};
use crate::tables::Tables;
use crate::tally::Tally;
use crate::{generate, rings, shorten, show, shrink, tips};
use std::time::{Duration, Instant};

/// The seed of the random modes, and how many rounds each makes.
pub struct Bounds {
    pub seed: u64,
    pub rounds: Option<u64>,
    pub time: Option<Duration>,
}

pub type Compared = Result<u64, String>;

/// A mode by its name.
pub type Mode = (&'static str, fn(&Bounds) -> Compared);

pub const MODES: [Mode; 6] = [
    ("functions", functions),
    ("exhaustive", exhaustive),
    ("lists", lists),
    ("damaged", damaged),
    ("under", under),
    ("screen", screen),
];

impl Bounds {
    fn random(&self) -> Random {
        Random::new(self.seed)
    }

    /// The rounds: as many as asked for, or as the time allows, or by default.
    fn rounds(&self, default: u64) -> impl Iterator<Item = u64> {
        let most = self.rounds.unwrap_or(if self.time.is_some() { u64::MAX } else { default });
        let end = self.time.map(|time| Instant::now() + time);
        (0..most).take_while(move |_| end.is_none_or(|end| Instant::now() < end))
    }
}

/// A round is one random table and, for each function, two calls on it, or one if it takes no
/// argument.
fn functions(bounds: &Bounds) -> Compared {
    let mut random = bounds.random();
    let mut compared = vec![0; FUNCTIONS.len()];
    let mut tables_made = 0;
    for round in bounds.rounds(300_000) {
        let tables = generate::tables(&mut random);
        for (function, calls) in FUNCTIONS.iter().zip(&mut compared) {
            for _ in 0..if function.takes.is_empty() { 1 } else { 2 } {
                let args = generate::args(&mut random, &tables);
                if !(function.compares)(&tables, &args) {
                    continue;
                }
                if (function.differ)(&tables, &args).is_some() {
                    let case = Case { function, tables, args };
                    return Err(smallest_case(case, bounds.seed, round));
                }
                *calls += 1;
            }
        }
        tables_made += 1;
    }
    for (function, calls) in FUNCTIONS.iter().zip(&compared) {
        println!("  {:<28}{calls:>9}", function.name);
    }
    println!("  {tables_made} tables");
    Ok(compared.iter().sum())
}

/// All lists of each alphabet.
fn exhaustive(_: &Bounds) -> Compared {
    let mut tally = Tally::default();
    let mut walks = Vec::new();
    for alphabet in &ALPHABETS {
        let covered = alphabet.walk(&mut tally);
        walks.push((alphabet, covered.map_err(|list| shortest_list(list, "exhaustive"))?));
    }
    print!("{tally}");
    for (alphabet, covered) in walks {
        println!(
            "  n {} m {}: all {} lists of up to {} of {} calls, by {} different tables",
            alphabet.n,
            alphabet.m,
            covered.lists,
            alphabet.longest,
            alphabet.calls.len(),
            covered.tables,
        );
    }
    Ok(tally.calls())
}

/// A round is one random list.
fn lists(bounds: &Bounds) -> Compared {
    let mut random = bounds.random();
    let mut tally = Tally::default();
    let mut lists_made = 0;
    for round in bounds.rounds(20_000) {
        if let Err(list) = random_list(&mut random, &mut tally) {
            return Err(shortest_list(list, &format!("seed {}, list {round}", bounds.seed)));
        }
        lists_made += 1;
    }
    print!("{tally}");
    println!("  {lists_made} lists");
    Ok(tally.calls())
}

/// The error is a list with a trouble.
fn random_list(random: &mut Random, tally: &mut Tally) -> Result<(), List> {
    let (n, m, length) = scripts::sizes(random);
    let mut script = Script::new(random, n);
    let mut list = List { n, m, calls: Vec::new() };
    let Ok(mut reached) = Reached::fresh(n, m) else {
        return Err(list);
    };
    let Ok(asked) = reached.ask() else {
        return Err(list);
    };
    tally.note(&Call::Fresh, &Ok(Answer::Done), &reached.tables, &reached.tables);
    tally.note_asked(&asked);
    for _ in 0..length {
        let call = script.next(random, &reached.tables);
        list.calls.push(call.clone());
        let Ok((reply, next)) = reached.after(&call) else {
            return Err(list);
        };
        let Ok(asked) = next.ask() else {
            return Err(list);
        };
        tally.note(&call, &reply, &reached.tables, &next.tables);
        tally.note_asked(&asked);
        reached = next;
    }
    Ok(())
}

/// A round is one random table and two of each call on it.
fn damaged(bounds: &Bounds) -> Compared {
    singles(bounds, 100_000, |random, _| {
        let tables = generate::tables(random);
        let twice = SINGLES.iter().flat_map(|single| [single; 2]);
        let calls = twice.map(|single| (single, generate::args(random, &tables))).collect();
        (tables, calls)
    })
}

/// A round is one random table of any size, and what hangs under its slots, or under some.
fn under(bounds: &Bounds) -> Compared {
    let single = single::named("under");
    singles(bounds, 10_000, |random, round| {
        let tables = rings::tables(random, round);
        let slots = rings::slots(random, &tables);
        let mut args = |slot| Args { slot, ..generate::args(random, &tables) };
        let calls = slots.into_iter().map(|slot| (single, args(slot))).collect();
        (tables, calls)
    })
}

/// A round is one random table of any size, and its screen in lists of each length.
fn screen(bounds: &Bounds) -> Compared {
    let single = single::named("screen");
    singles(bounds, 100_000, |random, round| {
        let tables = tips::tables(random, round);
        let mut args = |more| Args { more, ..generate::args(random, &tables) };
        let calls = generate::MORE.into_iter().map(|more| (single, args(more))).collect();
        (tables, calls)
    })
}

/// Single calls with what each is given.
type Singles = Vec<(&'static Single, Args)>;

/// A round is what is drawn: tables, and calls on them.
fn singles(
    bounds: &Bounds,
    rounds: u64,
    draw: impl Fn(&mut Random, u64) -> (Tables, Singles),
) -> Compared {
    let mut random = bounds.random();
    let mut tally = Tally::default();
    let mut tables_made = 0;
    for round in bounds.rounds(rounds) {
        let (tables, calls) = draw(&mut random, round);
        for (single, args) in calls {
            compare_single(single, &tables, args, &mut tally)
                .map_err(|case| smallest_case(*case, bounds.seed, round))?;
        }
        tables_made += 1;
    }
    print!("{tally}");
    println!("  {tables_made} tables");
    Ok(tally.calls())
}

/// The error is the case, which differs.
fn compare_single(
    single: &'static Single,
    tables: &Tables,
    args: Args,
    tally: &mut Tally,
) -> Result<(), Box<Case>> {
    let (call, lent) = ((single.call)(&args), args.lend(tables));
    match both(&call, &lent) {
        Ok((reply, after)) => {
            tally.note(&call, &reply, &lent, &after);
            Ok(())
        }
        Err(_) => {
            let tables = tables.clone();
            Err(Box::new(Case { function: &single.function, tables, args }))
        }
    }
}

fn smallest_case(case: Case, seed: u64, round: u64) -> String {
    let slots = (case.tables.n(), case.tables.m());
    let small = shrink::shrink(case);
    let found = small.difference().expect("a smaller case is taken only if it differs");
    format!(
        "{}\nDIFFERENCE in {} (seed {seed}, round {round}, found with {} block and {} head slots)",
        show::difference(&small, &found),
        small.function.name,
        slots.0,
        slots.1,
    )
}

fn shortest_list(list: List, origin: &str) -> String {
    let (calls, n, m) = (list.calls.len(), list.n, list.m);
    let (short, trouble) = shorten::shorten(list);
    let what = match trouble {
        Trouble::Differs(_) | Trouble::Asked { .. } => "DIFFERENCE",
        Trouble::Broken { .. } => "BROKEN PROMISE",
    };
    format!(
        "{}\n{what} after the last call ({origin}, found with {calls} calls, n {n} and m {m})",
        show::list(&short, &trouble),
    )
}
