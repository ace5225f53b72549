//! How deep a call's stack gets: it is run on a painted one, and the deepest byte that lost its paint
//! is looked for.

use crate::calls::{List, Side};
use crate::measure::Pair;
use std::arch::asm;
use std::hint::black_box;

/// Room for a call that goes down 1,024 levels.
const BYTES: usize = 256 * 1024;

/// Two paints, lest a call write the very byte.
const PAINTS: [u8; 2] = [0xa5, 0x5a];

/// Bytes of a row of the stack, which is aligned as a stack is where it starts.
const ROW: usize = size_of::<u128>();

extern "C" fn enter<F: FnMut()>(act: *mut F) {
    // SAFETY: `depth` gives a live closure that nobody else uses meanwhile.
    unsafe { (*act)() }
}

/// The bytes that the act wrote below where it started.
fn depth<F: FnMut()>(paint: u8, mut act: F) -> usize {
    let painted = u128::from_le_bytes([paint; ROW]);
    let mut stack = vec![painted; BYTES / ROW];
    let start: extern "C" fn(*mut F) = enter;
    // SAFETY: the stack pointer is moved to the end of the buffer, and put back from a register that
    // the called function keeps; the act does not unwind.
    unsafe {
        asm!(
            "mov r12, rsp",
            "mov rsp, {top}",
            "call {start}",
            "mov rsp, r12",
            top = in(reg) stack.as_mut_ptr().add(BYTES / ROW),
            start = in(reg) start,
            in("rdi") &raw mut act,
            out("r12") _,
            clobber_abi("C"),
        );
    }
    let deepest = black_box(&stack).iter().position(|row| *row != painted);
    let deepest = deepest.expect("the return address is written");
    assert!(deepest > 0, "the call needs a larger stack");
    let kept = (stack[deepest] ^ painted).trailing_zeros() as usize / 8;
    BYTES - ROW * deepest - kept
}

/// The depth of each call of the list.
fn depths(list: &List, side: &mut impl Side, paint: u8) -> Vec<usize> {
    let mut all = Vec::new();
    match list {
        List::Fresh(_) => all.push(depth(paint, || _ = black_box(side.fresh()))),
        List::Admit(calls) => {
            all.extend(calls.iter().map(|c| depth(paint, || _ = black_box(side.admit(c)))))
        }
        List::Promote(calls) => {
            all.extend(calls.iter().map(|c| depth(paint, || _ = black_box(side.promote(*c)))))
        }
        List::Remove(calls) => {
            all.extend(calls.iter().map(|c| depth(paint, || _ = black_box(side.remove(*c)))))
        }
        List::Timer(calls) => {
            all.extend(calls.iter().map(|c| depth(paint, || _ = black_box(side.timer(c.0, c.1)))))
        }
        List::Deadline(calls) => {
            all.extend(calls.iter().map(|c| depth(paint, || _ = black_box(side.deadline(*c)))))
        }
        List::Restart(calls) => {
            all.extend(calls.iter().map(|c| depth(paint, || _ = black_box(side.restart(*c)))))
        }
        List::Under(calls) => {
            all.extend(calls.iter().map(|c| depth(paint, || _ = black_box(side.under(*c)))))
        }
        List::Screen(_) => all.push(depth(paint, || _ = black_box(side.screen()))),
    }
    all
}

/// The deepest call of the list, the arguments and the return address among its bytes.
pub fn deepest<S: Side>(list: &List, pair: &mut Pair<S>) -> usize {
    let empty = depth(PAINTS[0], || ());
    let all = PAINTS.iter().flat_map(|paint| depths(list, pair.restored(), *paint));
    all.max().map_or(0, |deep| deep - empty)
}
