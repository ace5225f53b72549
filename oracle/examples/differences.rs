//! The shortest lists of calls on which the original's heads are not as one would expect, and what
//! it leaves: `cargo run --release --example differences`.

use oracle::calls::Call;
use oracle::judge::{self, admit};
use oracle::show;
use oracle::tables::Tables;

struct Point {
    title: &'static str,
    n: usize,
    m: usize,
    calls: &'static [&'static str],
}

const POINTS: [Point; 7] = [
    Point {
        title: "a fork evicts the only sibling: the new head misses zeros, its tail's previous hash is 02",
        n: 4,
        m: 2,
        calls: &["A 1 01 02 0", "A 2 03 01 0", "A 2 04 00 0", "A 2 05 01 0"],
    },
    Point {
        title: "the new head falls in a lower slot than the sibling's: it misses zeros, not 04",
        n: 3,
        m: 2,
        calls: &["A 0 02 00 0", "A 2 03 01 0", "A 1 01 04 0", "A 2 05 01 0"],
    },
    Point {
        title: "the head above the tail is connected and knows no hash: the new head misses zeros, not 02",
        n: 3,
        m: 2,
        calls: &["A 1 01 02 0", "A 2 03 01 0", "P 1", "A 2 04 01 0"],
    },
    Point {
        title: "a restart knows no hash: the head misses zeros, not 02",
        n: 1,
        m: 2,
        calls: &["A 1 01 02 0", "R 0"],
    },
    Point {
        title: "the merged-away head alone knew the deeper tail: the head misses 02, which has arrived, not 03",
        n: 3,
        m: 2,
        calls: &["A 1 01 03 0", "A 3 04 02 0", "A 2 02 01 0"],
    },
    Point {
        title: "the head finds itself before the one that knows the deeper tail: it misses 02, which has arrived, not 03",
        n: 4,
        m: 3,
        calls: &["A 3 04 02 0", "A 1 01 03 0", "A 2 05 01 0", "A 2 02 01 0"],
    },
    Point {
        title: "admit's added step: without it head 0 stays on block 1, which has got a parent",
        n: 5,
        m: 3,
        calls: &["A 3 04 02 0", "A 1 01 03 0", "A 2 05 01 0", "A 2 02 01 0", "A 0 03 00 0"],
    },
];

fn main() {
    for (at, point) in POINTS.iter().enumerate() {
        println!("{}. {}\n", at + 1, point.title);
        println!("N {} {}", point.n, point.m);
        let mut t = Tables::empty(point.n, point.m);
        let calls = point.calls.iter().map(|line| Call::read(line).expect("a call's line"));
        for call in calls {
            let before = t.clone();
            println!("{call}");
            judge::run(&call, &mut t).expect("no call is refused");
            print_unrefreshed(&call, before, &t);
        }
        println!("\nafter the calls\n{}\n", show::lines(&t).join("\n"));
    }
}

/// Prints the tables without admit's added step, where it changes them.
fn print_unrefreshed(call: &Call, mut t: Tables, refreshed: &Tables) {
    if let Call::Admit { sequence, hash, previous, arrival } = call {
        admit(&mut t, *sequence, hash, previous, *arrival).expect("it is not refused");
        if t != *refreshed {
            println!("\nwithout the added step\n{}", show::lines(&t).join("\n"));
        }
    }
}
