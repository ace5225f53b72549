//! The port's calls timed against the original Rust's, in one process and in turn.

mod calls;
mod cases;
mod measure;
mod plan;
mod port;
mod report;
mod rust;
mod shape;
mod sizes;
mod stack;
#[path = "../../oracle/src/stand_ins.rs"]
mod stand_ins;
mod stats;
mod tree;
mod under;

use cases::Kind;
use plan::Plan;
use report::{Depths, Line};
use sizes::{SIZES, Size, Who};
use stand_ins::{api, staged_validation};
use std::{env, process};
use under::HEADS;

include!(concat!(env!("OUT_DIR"), "/modules.rs"));

fn main() {
    let Some(plan) = Plan::read(env::args().skip(1)) else {
        eprintln!("{}", plan::USAGE);
        process::exit(2)
    };
    match plan.repeat {
        Some((who, turns)) => repeat(&plan, who, turns),
        None => compare(&plan),
    }
}

/// One side alone, for a profiler.
fn repeat(plan: &Plan, who: Who, turns: usize) {
    for kind in plan.kinds() {
        for size in plan.sizes() {
            if let Some(case) = size.case(kind) {
                (size.repeat)(&case, who, turns);
            }
        }
    }
}

fn compare(plan: &Plan) {
    let mut lines = Vec::new();
    for kind in plan.kinds() {
        for size in plan.sizes() {
            eprintln!("{}, n = {}, m = {}", kind.name, size.n, size.m);
            let outcome = size.case(kind).map(|case| (size.times)(&case, plan.effort));
            lines.push(Line { name: kind.name, size, outcome });
        }
    }
    println!("### Times\n");
    println!(
        "Nanoseconds a call, medians. A ratio is that of a turn's two times: median (quartiles)."
    );
    report::times(&lines);
    println!("\n### Where the port is slower\n");
    report::slower(&lines);
    println!("\n### Growth with n\n");
    println!("The least time at m = 16 as a multiple of that at a quarter of the block slots.\n");
    report::growth(&lines, 16);
    under_a_block(plan);
    println!("\n### Memory\n");
    let rust = (blocks::timed::BLOCK_BYTES, chain_heads::timed::HEAD_BYTES);
    report::memory(rust, (port::BLOCK_BYTES, port::HEAD_BYTES));
    println!("\n### Stack\n");
    println!("Bytes of the deepest call, its arguments and return address among them.\n");
    report::stacks(&stacks(plan));
}

/// What hangs under a block, on the port alone, at each n.
fn under_a_block(plan: &Plan) {
    let kinds: Vec<&Kind> = plan.kinds().filter(asks_under).collect();
    let sizes: Vec<&Size> = plan.sizes().filter(|size| size.m == HEADS).collect();
    if kinds.is_empty() || sizes.is_empty() {
        return;
    }
    let beside = |kind: &&'static Kind| {
        let at = |size: &&Size| under::beside_marking(size.case(kind)?, size.n, plan.effort);
        Some((kind.name, sizes.iter().map(at).collect::<Option<_>>()?))
    };
    let visits = |size: &&Size| under::visits(size.n, plan.effort);
    println!("\n### Under a block\n");
    println!("The port's own marking and `under`, nanoseconds a call, m = {HEADS}.\n");
    report::beside_marking(&sizes, &kinds.iter().filter_map(beside).collect::<Vec<_>>());
    println!("\nNanoseconds a visit.\n");
    report::visits(&sizes.iter().filter_map(visits).collect::<Vec<_>>());
}

fn asks_under(kind: &&'static Kind) -> bool {
    kind.name.starts_with("under")
}

/// The stacks of both sides at the smallest and at the largest size.
fn stacks(plan: &Plan) -> Vec<Depths> {
    let ends = [&SIZES[0], &SIZES[SIZES.len() - 1]];
    let of = |kind: &'static Kind| {
        let both = ends.map(|size| size.case(kind).map(|case| (size.stack)(&case)));
        let [(rust, port), (most_rust, most_port)] = [both[0]?, both[1]?];
        Some(Depths { name: kind.name, rust: Some([rust, most_rust]), port: [port, most_port] })
    };
    let worst = |_| Depths {
        name: "under: worst table",
        rust: None,
        port: ends.map(|size| under::worst_stack(size.n, size.m)),
    };
    plan.kinds().filter_map(of).chain(plan.kinds().find(asks_under).map(worst)).collect()
}
