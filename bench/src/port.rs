//! The port's side: the crate that a station links.

use crate::calls::{Asked, Block, Refusal, Row, Side, Under};
use station::{BlockSlot, HeadKind, HeadRow, NONE_REF, Parts, Sequence, Tables};

/// Bytes of the lent buffers for a block slot, and for a head slot.
pub const BLOCK_BYTES: usize = 32 + 4 + 4 + 1 + 1;
pub const HEAD_BYTES: usize = 4 + 4 + 32 + 8 + 8 + 1;

pub struct Port {
    tables: Tables,
    rows: Vec<HeadRow>,
}

impl Port {
    pub fn new(n: usize, m: usize) -> Port {
        Port::of(Tables::new(n, m).expect("sizes in range"))
    }

    pub fn of(tables: Tables) -> Port {
        let rows = vec![HeadRow::default(); tables.head_slots()];
        Port { tables, rows }
    }

    pub fn tables(&self) -> &Tables {
        &self.tables
    }
}

fn number(refusal: station::Refusal) -> Refusal {
    refusal.number() as Refusal
}

impl Side for Port {
    #[inline(never)]
    fn fresh(&mut self) -> Result<(), Refusal> {
        self.tables.fresh().map_err(number)
    }

    #[inline(never)]
    fn admit(&mut self, block: &Block) -> Result<u32, Refusal> {
        let Block { sequence, hash, previous, arrival } = block;
        let slot = self.tables.admit(Sequence(*sequence), hash, previous, *arrival);
        slot.map(|slot| slot.0).map_err(number)
    }

    #[inline(never)]
    fn promote(&mut self, slot: u32) -> Result<(), Refusal> {
        self.tables.promote(BlockSlot(slot)).map_err(number)
    }

    #[inline(never)]
    fn remove(&mut self, slot: u32) -> Result<u32, Refusal> {
        self.tables.remove(BlockSlot(slot)).map(|freed| freed as u32).map_err(number)
    }

    #[inline(never)]
    fn timer(&mut self, now: u64, span: Option<u64>) -> Result<Option<Asked>, Refusal> {
        let request = self.tables.timer(now, span).map_err(number)?;
        Ok(request.map(|request| Asked {
            head: request.head.0,
            missing: request.hash,
            claimed: request.sequence.0,
        }))
    }

    #[inline(never)]
    fn deadline(&mut self, span: Option<u64>) -> Result<Option<u64>, Refusal> {
        self.tables.earliest_deadline(span).map_err(number)
    }

    #[inline(never)]
    fn restart(&mut self, now: u64) -> Result<(), Refusal> {
        self.tables.restart(now).map_err(number)
    }

    #[inline(never)]
    fn under(&mut self, slot: u32) -> Result<Under, Refusal> {
        let under = self.tables.under(BlockSlot(slot)).map_err(number)?;
        Ok(Under { blocks: under.blocks as u32, highest: under.highest.0 })
    }

    #[inline(never)]
    fn screen(&mut self) -> Result<u32, Refusal> {
        self.tables.fill_screen(&mut self.rows).map(|shown| shown as u32).map_err(number)
    }

    fn restore(&mut self, from: &Self) {
        self.tables = from.tables.clone();
    }

    fn show(&self) -> Parts {
        self.tables.parts().clone()
    }

    fn rows(&self) -> Vec<Row> {
        self.rows.iter().map(row).collect()
    }
}

fn row(shown: &HeadRow) -> Row {
    Row {
        tip: shown.tip().0,
        sequence: shown.sequence().map_or(NONE_REF, |sequence| sequence.0),
        kind: u32::from(shown.kind() == HeadKind::Connected),
        anchor: shown.anchor().map_or(NONE_REF, |slot| slot.0),
    }
}
