//! The station's story: a restart with a full, forked head table whose counts stand at zero.

use station::{Block, BlockSlot, Refusal, Sequence, Tables};

const PASS: [u8; 32] = [0x0a; 32];

/// Tables in which two branches, the only heads there is room for, share the block of the pass.
fn forked(confirmed: bool) -> Result<(Tables, BlockSlot), Refusal> {
    let mut tables = Tables::new(4, 2)?;
    let pass = tables.admit(Sequence(5), &PASS, &[0x09; 32], 1)?;
    tables.admit(Sequence(6), &[0x0b; 32], &PASS, 2)?;
    tables.admit(Sequence(6), &[0x0c; 32], &PASS, 3)?;
    if confirmed {
        tables.promote(pass)?;
    }
    Ok((tables, pass))
}

/// The same tables as storage gives them back.
fn without_counts(tables: &Tables) -> Result<Tables, Refusal> {
    let mut parts = Tables::from_bytes(&tables.to_bytes())?.into_parts();
    parts.counts.fill(0);
    Tables::from_parts(parts)
}

#[test]
fn a_shared_block_outlives_one_of_its_branches() -> Result<(), Refusal> {
    let (tables, pass) = forked(false)?;
    let mut tables = without_counts(&tables)?;
    tables.restart(10)?;
    let third = tables.admit(Sequence(7), &[0x0d; 32], &[0x0e; 32], 20)?;

    let stays = Block { hash: PASS, parent: None, sequence: Sequence(5), count: 1, active: false };
    assert_eq!(tables.get(pass), Some(stays));
    let blocks: Vec<BlockSlot> = tables.blocks().map(|(slot, _)| slot).collect();
    assert_eq!(blocks, [pass, BlockSlot(2), third]);
    assert_eq!(tables.admit(Sequence(5), &PASS, &[0x09; 32], 21), Err(Refusal::Known));
    Ok(())
}

#[test]
fn a_confirmed_pass_outlives_all_branches() -> Result<(), Refusal> {
    let (tables, pass) = forked(true)?;
    let mut tables = without_counts(&tables)?;
    tables.restart(10)?;
    tables.admit(Sequence(7), &[0x0d; 32], &[0x0e; 32], 20)?;
    tables.admit(Sequence(8), &[0x0f; 32], &[0x10; 32], 30)?;

    let stays = Block { hash: PASS, parent: None, sequence: Sequence(5), count: 0, active: true };
    assert_eq!(tables.get(pass), Some(stays));
    assert_eq!(tables.active_head(), Some(pass));
    assert_eq!(tables.admit(Sequence(5), &PASS, &[0x09; 32], 31), Err(Refusal::Known));
    assert_eq!(tables.remove(pass), Err(Refusal::HoldsActive));
    Ok(())
}

#[test]
fn restart_gives_back_counts_and_heads() -> Result<(), Refusal> {
    for confirmed in [false, true] {
        let (mut tables, _) = forked(confirmed)?;
        let mut lost = without_counts(&tables)?.into_parts();
        lost.tips.reverse();
        lost.tails.fill(3);
        lost.connected.fill(7);
        let mut lost = Tables::from_parts(lost)?;
        lost.restart(10)?;
        tables.restart(10)?;
        assert_eq!(lost, tables);
    }
    Ok(())
}

/// Adopted counts are believed until restart works them out.
#[test]
fn without_restart_the_fault_is_there() -> Result<(), Refusal> {
    let (tables, pass) = forked(false)?;
    let mut tables = without_counts(&tables)?;
    tables.admit(Sequence(7), &[0x0d; 32], &[0x0e; 32], 20)?;
    assert_eq!(tables.get(pass), None);
    Ok(())
}

/// Slot 0 is the active head, 1 and 2 are branches of their own, and the heads are as many.
fn three_branches() -> Result<Tables, Refusal> {
    let mut tables = Tables::new(4, 3)?;
    let active = tables.admit(Sequence(5), &PASS, &[0x09; 32], 1)?;
    tables.promote(active)?;
    tables.admit(Sequence(7), &[0x0d; 32], &[0x0e; 32], 2)?;
    tables.admit(Sequence(8), &[0x0f; 32], &[0x10; 32], 3)?;
    Ok(tables)
}

fn tips(tables: &Tables) -> Vec<BlockSlot> {
    tables.heads().map(|head| head.tip).collect()
}

#[test]
fn the_active_head_is_never_evicted() -> Result<(), Refusal> {
    let mut tables = three_branches()?;
    tables.admit(Sequence(9), &[0x11; 32], &[0x12; 32], 4)?;
    assert_eq!(tips(&tables), [0, 3, 2].map(BlockSlot));
    Ok(())
}

#[test]
fn the_active_head_is_never_evicted_by_a_restart_with_fewer_heads() -> Result<(), Refusal> {
    let mut parts = three_branches()?.into_parts();
    parts.tips.truncate(2);
    parts.tails.truncate(2);
    parts.missing.truncate(64);
    parts.requested.truncate(2);
    parts.arrivals.truncate(2);
    parts.connected.truncate(2);
    let mut tables = Tables::from_parts(parts)?;
    tables.restart(10)?;
    assert_eq!(tips(&tables), [0, 2].map(BlockSlot));
    assert_eq!(tables.get(BlockSlot(1)), None);
    Ok(())
}
