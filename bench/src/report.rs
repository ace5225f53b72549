//! The results as Markdown tables.

use crate::sizes::{Outcome, Size};
use crate::stats::Spread;
use crate::under::{Two, Visits};

/// What was measured of one case at one size.
pub struct Line<'a> {
    pub name: &'static str,
    pub size: &'a Size,
    pub outcome: Option<Outcome>,
}

/// The bytes of stack of one case at the smallest and at the largest size, the original's where it
/// runs the case too.
pub struct Depths {
    pub name: &'static str,
    pub rust: Option<[usize; 2]>,
    pub port: [usize; 2],
}

fn names<'a>(lines: &'a [Line]) -> Vec<&'a str> {
    let mut names: Vec<&str> = lines.iter().map(|line| line.name).collect();
    names.dedup();
    names
}

fn at<'a>(lines: &'a [Line], name: &str, n: usize, m: usize) -> Option<&'a Outcome> {
    let mut found = lines.iter().filter(|l| l.name == name && (l.size.n, l.size.m) == (n, m));
    found.next()?.outcome.as_ref()
}

fn sizes_of(lines: &[Line], of: fn(&Size) -> usize) -> Vec<usize> {
    let mut all: Vec<usize> = lines.iter().map(|line| of(line.size)).collect();
    all.sort();
    all.dedup();
    all
}

/// Three digits that count, at least.
fn digits(number: f64) -> String {
    match number {
        100.0.. => format!("{number:.0}"),
        10.0.. => format!("{number:.1}"),
        0.1.. => format!("{number:.2}"),
        _ => format!("{number:.4}"),
    }
}

fn ratio(spread: &Spread) -> String {
    let Spread { lower, median, upper, .. } = spread;
    format!("{} ({} to {})", digits(*median), digits(*lower), digits(*upper))
}

fn heading(words: &[String]) {
    println!("| {} |\n|{}", words.join(" | "), "---|".repeat(words.len()));
}

/// For each n, the times and ratios at each m.
pub fn times(lines: &[Line]) {
    let ms = sizes_of(lines, |size| size.m);
    for n in sizes_of(lines, |size| size.n) {
        println!("\n#### n = {n}\n");
        let columns = ms.iter().flat_map(|m| {
            [format!("Rust, m = {m}"), "port".to_string(), "port / Rust".to_string()]
        });
        heading(&[vec!["call".to_string()], columns.collect()].concat());
        for name in names(lines) {
            let cells = ms.iter().map(|&m| match at(lines, name, n, m) {
                None => " | | -".to_string(),
                Some(o) => format!(
                    "{} | {} | {}",
                    digits(o.rust.median),
                    digits(o.port.median),
                    ratio(&o.ratio)
                ),
            });
            println!("| {name} | {} |", cells.collect::<Vec<_>>().join(" | "));
        }
    }
}

/// How many times longer a call takes, at the least, when n is four times larger, at one m.
pub fn growth(lines: &[Line], m: usize) {
    let ns = sizes_of(lines, |size| size.n);
    let steps = || ns.windows(2).map(|two| format!("{} to {}", two[0], two[1]));
    let columns =
        steps().map(|s| format!("Rust, n from {s}")).chain(steps().map(|s| format!("port, {s}")));
    heading(&[vec!["call".to_string()], columns.collect()].concat());
    for name in names(lines) {
        let grown = |of: fn(&Outcome) -> f64| {
            ns.windows(2).map(move |two| {
                match (at(lines, name, two[0], m), at(lines, name, two[1], m)) {
                    (Some(small), Some(large)) => digits(of(large) / of(small)),
                    _ => "-".to_string(),
                }
            })
        };
        let cells = grown(|o| o.rust.least).chain(grown(|o| o.port.least));
        println!("| {name} | {} |", cells.collect::<Vec<_>>().join(" | "));
    }
}

/// For each call, at how many sizes the port takes longer, and where it does the most.
pub fn slower(lines: &[Line]) {
    let mut none = true;
    for name in names(lines) {
        let all = lines.iter().filter(|line| line.name == name);
        let mut slower: Vec<(f64, &Size)> = all
            .filter_map(|line| Some((line.outcome.as_ref()?.ratio.median, line.size)))
            .filter(|(ratio, _)| *ratio > 1.0)
            .collect();
        slower.sort_by(|a, b| b.0.total_cmp(&a.0));
        if let Some((ratio, Size { n, m, .. })) = slower.first() {
            let (count, ratio) = (slower.len(), digits(*ratio));
            println!("- {name}: at {count} sizes, at most {ratio} times (n = {n}, m = {m})");
            none = false;
        }
    }
    if none {
        println!("Nowhere.");
    }
}

pub fn memory(rust: (usize, usize), port: (usize, usize)) {
    heading(&["bytes of tables", "Rust", "port"].map(String::from));
    println!("| a block slot | {} | {} |", rust.0, port.0);
    println!("| a head slot | {} | {} |", rust.1, port.1);
    let all = |of: (usize, usize)| 1024 * of.0 + 64 * of.1;
    println!("| n = 1024, m = 64 | {} | {} |", all(rust), all(port));
}

/// For each case, the marking and what hangs under the same blocks at each n.
pub fn beside_marking(sizes: &[&Size], all: &[(&str, Vec<Two>)]) {
    let columns = sizes.iter().flat_map(|size| {
        [format!("marking, n = {}", size.n), "under".to_string(), "under / marking".to_string()]
    });
    heading(&[vec!["call".to_string()], columns.collect()].concat());
    for (name, times) in all {
        let cells = times.iter().map(|two| {
            let (marking, under) = (digits(two.first.median), digits(two.second.median));
            format!("{marking} | {under} | {}", ratio(&two.ratio))
        });
        println!("| {name} | {} |", cells.collect::<Vec<_>>().join(" | "));
    }
}

/// At each n the number of visits on the whole tree and on the worst table, and the time of one.
pub fn visits(all: &[Visits]) {
    let columns = [
        "n",
        "whole tree: visits",
        "a visit",
        "worst table: visits",
        "a visit",
        "worst / whole tree",
    ];
    heading(&columns.map(String::from));
    for Visits { n, tree, worst, times } in all {
        let (on_tree, on_worst) = (digits(times.first.median), digits(times.second.median));
        println!("| {n} | {tree} | {on_tree} | {worst} | {on_worst} | {} |", ratio(&times.ratio));
    }
}

/// The deepest stack of each case: at the smallest sizes, then at the largest.
pub fn stacks(all: &[Depths]) {
    let columns = ["call", "Rust, n = 64, m = 4", "port", "Rust, n = 1024, m = 64", "port"];
    heading(&columns.map(String::from));
    for Depths { name, rust, port } in all {
        let rust = [0, 1].map(|at| rust.map_or("-".to_string(), |bytes| bytes[at].to_string()));
        println!("| {name} | {} | {} | {} | {} |", rust[0], port[0], rust[1], port[1]);
    }
}
