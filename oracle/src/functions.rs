//! The compared functions, a line each, and one comparison for all: both sides run on copies of the
//! same tables with the same arguments, and the answers and every byte of the tables must agree.

use crate::args::Args;
use crate::tables::Tables;
use crate::{original, port};
use std::fmt::Debug;

pub struct Function {
    pub name: &'static str,
    /// The names of the arguments that it takes.
    pub takes: &'static [&'static str],
    /// Whether the call is within the comparison: elsewhere the original panics.
    pub compares: fn(&Tables, &Args) -> bool,
    pub differ: fn(&Tables, &Args) -> Option<Box<Difference>>,
}

/// One call on one table.
#[derive(Clone)]
pub struct Case {
    pub function: &'static Function,
    pub tables: Tables,
    pub args: Args,
}

impl Case {
    /// What differs, where the call is within the comparison.
    pub fn difference(&self) -> Option<Box<Difference>> {
        if !(self.function.compares)(&self.tables, &self.args) {
            return None;
        }
        (self.function.differ)(&self.tables, &self.args)
    }
}

/// The tables as they were given, and what each side answered and left.
pub struct Difference {
    pub before: Tables,
    pub original: (String, Tables),
    pub port: (String, Tables),
}

/// `function!(name(arguments))` compares the functions of this name of both sides. The first
/// argument may be lent.
macro_rules! function {
    ($name:ident($(&$lent:ident,)? $($taken:ident),*)) => {
        function!($name($(&$lent,)? $($taken),*) where |_, _| true)
    };
    ($name:ident($(&$lent:ident,)? $($taken:ident),*) where $compares:expr) => {
        Function {
            name: stringify!($name),
            takes: &[$(stringify!($lent),)? $(stringify!($taken)),*],
            compares: $compares,
            differ: |tables, _args| {
                compare(
                    tables,
                    |t| original::$name(t, $(&_args.$lent,)? $(_args.$taken),*),
                    |t| port::$name(t, $(&_args.$lent,)? $(_args.$taken),*),
                )
                .err()
            },
        }
    };
}

pub static FUNCTIONS: &[Function] = &[
    function!(hash_less(hash, previous)),
    function!(find(sequence, hash)),
    function!(next_free_index()),
    function!(find_parent(previous, sequence)),
    function!(get(slot)),
    function!(head_ref_count(slot)),
    function!(status(slot)),
    function!(mark_subtree(slot)),
    function!(walks_to_active_chain(slot)),
    function!(adjust_head_ref_count(slot, change)),
    function!(set_head_ref_count(slot, count)),
    function!(set_on_active_chain(slot, value)),
    function!(set_status(slot, status)),
    function!(insert_at(slot, hash, parent, sequence, count, flags) where slot_in_range),
    function!(insert(hash, parent, sequence, count, flags)),
    function!(delete(slot)),
    function!(resolve_parent_ref(slot, parent)),
    function!(set_parent_ref(slot, parent)),
    function!(count()),
    function!(has_stored_head()),
    function!(slot_of_head(slot)),
    function!(first_empty()),
    function!(occupied_heads(head)),
    function!(connected_head_at(head)),
    function!(stored_head_tail(head)),
    function!(set_missing_parent_hash(head, hash)),
    function!(locate_anchor(slot)),
    function!(recompute_caches(head, slot, previous) where head_in_range),
    function!(refresh_head(slot)),
    function!(recompute_all_caches()),
    function!(select_eviction_victim()),
    function!(evict_one()),
    function!(insert_head(slot, now, previous)),
    function!(resolve_pending_tails(slot, previous)),
    function!(on_block_admitted(slot, found, previous, now)),
    function!(refresh_tails()),
    function!(recompute_head_ref_counts()),
    function!(on_blocks_deleted(&deleted, parent)),
    function!(rebuild_from_blocks(now)),
    function!(head_eligible_at(requested, retry)),
    function!(select_parent_recovery(now, retry)),
    function!(mark_requested(head, now)),
    function!(earliest_recovery_deadline(retry)),
    function!(outranks(first, second)),
];

fn slot_in_range(tables: &Tables, args: &Args) -> bool {
    (args.slot as usize) < tables.n()
}

fn head_in_range(tables: &Tables, args: &Args) -> bool {
    (args.head as usize) < tables.m()
}

/// The answer and the tables on which both sides agree.
pub fn compare<R: PartialEq + Debug>(
    tables: &Tables,
    original: impl FnOnce(&mut Tables) -> R,
    port: impl FnOnce(&mut Tables) -> R,
) -> Result<(R, Tables), Box<Difference>> {
    let mut judged = tables.clone();
    let mut ported = tables.clone();
    let verdict = original(&mut judged);
    let answer = port(&mut ported);
    if verdict == answer && judged == ported {
        return Ok((answer, ported));
    }
    Err(Box::new(Difference {
        before: tables.clone(),
        original: (format!("{verdict:?}"), judged),
        port: (format!("{answer:?}"), ported),
    }))
}
