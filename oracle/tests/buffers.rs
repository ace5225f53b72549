//! What goes by the list of buffers, or by the two records, meets every buffer of the tables.

use oracle::buffers::BUFFERS;
use oracle::judge::is_shaped;
use oracle::misfit::Misfit;
use oracle::tables::Tables;

const N: usize = 5;
const M: usize = 4;

#[test]
fn the_records_hold_all_that_the_buffers_hold() {
    let used = Tables::used(N, M);
    let mut t = Tables { active: used.active, ..Tables::empty(N, M) };
    (0..N).for_each(|slot| t.set_block(slot, used.block(slot)));
    (0..M).for_each(|slot| t.set_head(slot, used.head(slot)));
    assert_eq!(t, used);
}

#[test]
fn tables_have_the_lengths_of_the_list() {
    for t in [Tables::empty(N, M), Tables::used(N, M)] {
        assert!(is_shaped(&t));
    }
}

#[test]
fn each_buffer_by_itself_puts_tables_out_of_shape() {
    for buffer in BUFFERS {
        for cells in [-1, 1] {
            let mut t = Tables::used(N, M);
            Misfit::Buffer(buffer, cells).apply(&mut t);
            assert!(!is_shaped(&t), "{buffer:?} with {cells} cells");
        }
    }
}
