//! The check of the promises finds each fault that is put into tables of which they hold.

use oracle::calls::{Answer, Call};
use oracle::judge;
use oracle::promises::Ledger;
use oracle::tables::{NONE_REF, Tables};

/// Block 0 is active, 1 and 2 are its children, 3 waits for its parent; heads 0 to 2 are in use.
const LIST: [&str; 5] = ["A 1 01 00 1", "A 2 02 01 2", "A 2 03 01 3", "P 0", "A 5 04 09 4"];

/// A fault, and what is then broken.
type Fault = (fn(&mut Tables), &'static str);

const FAULTS: [Fault; 21] = [
    (|t| t.hashes[0] = 7, "active block 0 has not kept its sequence and hash"),
    (|t| t.set_block(0, t.block(4)), "active block 0 has not kept its sequence and hash"),
    (|t| t.hashes[32] = 7, "block 1 is not the one last admitted there"),
    (|t| t.sequences[3] = 6, "block 3 is not the one last admitted there"),
    (|t| t.counts[4] = 1, "empty slot 4 is not the empty record"),
    (|t| t.flags[0] = 0, "bit 0 of slot 0 does not say whether it was promoted"),
    (|t| t.flags[1] = 1, "bit 0 of slot 1 does not say whether it was promoted"),
    (|t| t.active = 1, "the record does not hold the last promoted slot"),
    (|t| t.tails[3] = 0, "empty head 3 is not the empty record"),
    (|t| t.tips[2] = 4, "the tip 4 of head 2 is not occupied"),
    (|t| t.tips[2] = 99, "the tip 99 of head 2 is not occupied"),
    (|t| t.tips[2] = 0, "the tip 0 of head 2 has a child"),
    (|t| t.tips[2] = 1, "two heads have the tip 1"),
    (|t| t.set_head(2, t.head(3)), "block 3 has 0 children and no head"),
    (|t| t.counts[1] = 2, "block 1 counts 2 and has 0 children"),
    (|t| t.counts[2] = 0, "block 2 counts 0 and has 0 children"),
    (|t| t.parents[1] = 3, "the tip 3 of head 2 has a child"),
    (|t| t.connected[0] = 0, "head 0 is wrong about whether it is connected"),
    (|t| t.connected[2] = 1, "head 2 is wrong about whether it is connected"),
    (|t| t.tails[0] = 1, "head 0 has anchor 1, its walk gives 0"),
    (|t| t.tails[2] = NONE_REF, "head 2 has anchor 4294967295, its walk gives 3"),
];

fn reached() -> (Ledger, Tables) {
    let mut tables = Tables::empty(5, 4);
    let mut ledger = Ledger::new(5);
    for line in LIST {
        let call = Call::read(line).expect("a call's line");
        let before = tables.clone();
        let reply = judge::run(&call, &mut tables);
        assert_eq!(ledger.check(&call, &reply, &before, &tables), Ok(()));
    }
    (ledger, tables)
}

#[test]
fn each_fault_is_found() {
    let (ledger, tables) = reached();
    for (fault, broken) in FAULTS {
        let mut faulty = tables.clone();
        fault(&mut faulty);
        assert_eq!(ledger.holds(&faulty), Err(broken.to_string()));
    }
}

#[test]
fn what_may_differ_on_the_active_chain() {
    let (ledger, mut tables) = reached();
    tables.counts[0] = 9;
    assert_eq!(ledger.holds(&tables), Ok(()));
}

#[test]
fn a_refused_call_that_changes_something() {
    let (mut ledger, tables) = reached();
    let mut after = tables.clone();
    after.requested[2] = 1;
    let checked = ledger.check(&Call::Promote { slot: 9 }, &Err(3), &tables, &after);
    assert_eq!(checked, Err("the call is refused by 3 and has changed the tables".to_string()));
}

#[test]
fn an_active_slot_given_away() {
    let (mut ledger, tables) = reached();
    let admit = Call::read("A 1 01 00 1").expect("a call's line");
    let checked = ledger.check(&admit, &Ok(Answer::Slot(0)), &tables, &tables);
    assert_eq!(checked, Err("slot 0 of an active block is given to another".to_string()));
}

#[test]
fn two_blocks_of_one_name() {
    let (mut ledger, tables) = reached();
    let mut twin = tables.clone();
    twin.set_block(4, tables.block(3));
    let admit = Call::read("A 5 04 09 4").expect("a call's line");
    let checked = ledger.check(&admit, &Ok(Answer::Slot(4)), &tables, &twin);
    assert_eq!(checked, Err("two blocks of sequence 5 have one hash".to_string()));
}

#[test]
fn an_active_line_with_a_gap() {
    let (mut ledger, tables) = reached();
    let mut after = tables.clone();
    after.flags[3] = 0b101;
    after.active = 3;
    let checked = ledger.check(&Call::Promote { slot: 3 }, &Ok(Answer::Done), &tables, &after);
    assert_eq!(checked, Err("the active blocks are not one line".to_string()));
}
