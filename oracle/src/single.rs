//! Single calls on any tables, damaged ones and misfits among them. Each is one more function to
//! compare, whose arguments make up the call.

use crate::args::Args;
use crate::calls::Call;
use crate::functions::Function;
use crate::lists::both;

pub struct Single {
    pub function: Function,
    pub call: fn(&Args) -> Call,
}

/// `single!(name(arguments), |args| call)`.
macro_rules! single {
    ($name:ident($($taken:ident),*), |$args:ident| $call:expr) => {
        Single {
            function: Function {
                name: stringify!($name),
                takes: &[$(stringify!($taken),)* "misfit"],
                compares: |_, _| true,
                differ: |tables, $args| both(&$call, &$args.lend(tables)).err(),
            },
            call: |$args| $call,
        }
    };
}

pub static SINGLES: &[Single] = &[
    single!(fresh(), |_args| Call::Fresh),
    single!(admit(sequence, hash, hash_length, previous, previous_length, now), |args| {
        Call::Admit {
            sequence: args.sequence,
            hash: of_length(&args.hash, args.hash_length),
            previous: of_length(&args.previous, args.previous_length),
            arrival: args.now,
        }
    }),
    single!(promote(slot), |args| Call::Promote { slot: args.slot }),
    single!(remove(slot), |args| Call::Remove { slot: args.slot }),
    single!(timer(now, span), |args| Call::Timer { now: args.now, span: args.span }),
    single!(deadline(span), |args| Call::Deadline { span: args.span }),
    single!(restart(now), |args| Call::Restart { now: args.now }),
    single!(under(slot), |args| Call::Under { slot: args.slot }),
    single!(screen(more), |args| Call::Screen { more: args.more }),
];

/// The call of this name.
pub fn named(name: &str) -> &'static Single {
    SINGLES.iter().find(|single| single.function.name == name).expect("a call's name")
}

fn of_length(hash: &[u8], length: usize) -> Vec<u8> {
    hash.iter().copied().cycle().take(length).collect()
}
