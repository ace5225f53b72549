//! The trial of the scope document on the original alone: its calls, put together from the
//! original's functions, leave the blocks and heads that the document lists. And the calls' lines.

use oracle::calls::{Answer, Call};
use oracle::judge;
use oracle::tables::{Block, Head, NONE_REF, Recovery, Tables};

#[test]
fn the_trial_of_the_scope() {
    let mut t = Tables::empty(4, 2);
    let mut run = |line| judge::run(&Call::read(line).expect("a call's line"), &mut t);
    assert_eq!(run("A 5 0a 09 1"), Ok(Answer::Slot(0)));
    assert_eq!(run("A 6 0b 0a 2"), Ok(Answer::Slot(1)));
    assert_eq!(run("A 6 0c 0a 3"), Ok(Answer::Slot(2)));
    let asked = Recovery { head: 0, missing: [0x09; 32], claimed: 4 };
    assert_eq!(run("T 10 5"), Ok(Answer::Asked(Some(asked))));
    assert_eq!(run("P 0"), Ok(Answer::Done));
    assert_eq!(run("A 6 0b 0a 4"), Err(6));
    assert_eq!(run("A 7 0d 0e 20"), Ok(Answer::Slot(3)));

    let block = |hash: u8, parent, sequence, count, flags| Block {
        hash: [hash; 32],
        parent,
        sequence,
        count,
        flags,
    };
    assert_eq!(t.block(0), block(0x0a, NONE_REF, 5, 1, 0b101));
    assert_eq!(t.block(1), Block::EMPTY);
    assert_eq!(t.block(2), block(0x0c, 0, 6, 1, 0));
    assert_eq!(t.block(3), block(0x0d, NONE_REF, 7, 1, 0));
    let stored = Head { tip: 3, tail: 3, missing: [0x0e; 32], arrival: 20, ..Head::EMPTY };
    assert_eq!(t.head(0), stored);
    assert_eq!(t.head(1), Head { tip: 2, tail: 0, arrival: 3, connected: 1, ..Head::EMPTY });
}

#[test]
fn each_call_has_a_line() {
    let lines = [
        "N",
        "A 5 0a 00 1",
        "A 5 x0a0b x 1",
        "P 3",
        "D 3",
        "T 10 5",
        "T 10 -",
        "L 5",
        "L -",
        "R 9",
        "U 3",
        "V",
        "V +1",
        "V -128",
    ];
    for line in lines {
        assert_eq!(Call::read(line).map(|call| call.to_string()), Some(line.to_string()));
    }
}
