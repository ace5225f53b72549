//! The port's side of the calls, by the C entry points of `libstation.a`. The upper half of an
//! answer is the refusal's number, or 0; the lower half is the answer.

use crate::calls::{Answer, Call, Refusal, Reply, room};
use crate::entries::{call, entries};
use crate::random::Random;
use crate::screen::Row;
use crate::tables::{NONE_REF, Recovery, SPARE, Tables};
use crate::under::Under;

/// The caller's record.
#[repr(C)]
struct ActiveHead {
    slot: u32,
}

type Held = *mut ActiveHead;

entries! {
    station_fresh([all], Held) -> u64;
    station_admit([all], u32, u32, [u8], [u8], u64) -> u64;
    station_promote([all], Held, u32) -> u64;
    station_remove([all], u32) -> u64;
    station_timer([all], u64, u32, u64, [mut u32], [mut u8]) -> u64;
    station_earliest_deadline([all], u32, u64, [mut u64]) -> u64;
    station_restart([all], u32, u64) -> u64;
    station_under([all], u32, [mut u32]) -> u64;
    station_screen([all], [mut Row]) -> u64;
}

/// What each byte of a place for an answer holds before the call.
const UNWRITTEN: u8 = 0x5a;

/// How many records are looked at beyond a list's end.
const BEYOND: usize = 2;

pub fn run(call: &Call, t: &mut Tables) -> Reply {
    match *call {
        Call::Fresh => with_record(t, |t, held| call!(station_fresh([all t], held))),
        Call::Admit { sequence, ref hash, ref previous, arrival } => {
            let active = t.active;
            let answer = call!(station_admit(
                [all t], active, sequence, [hash], [previous], arrival
            ));
            read(answer, |slot| Some(Answer::Slot(slot)))
        }
        Call::Promote { slot } => {
            with_record(t, |t, held| call!(station_promote([all t], held, slot)))
        }
        Call::Remove { slot } => {
            read(call!(station_remove([all t], slot)), |freed| Some(Answer::Freed(freed)))
        }
        Call::Timer { now, span } => timer(t, now, span),
        Call::Deadline { span } => deadline(t, span),
        Call::Restart { now } => {
            let active = t.active;
            read(call!(station_restart([all t], active, now)), done)
        }
        Call::Under { slot } => under(t, slot),
        Call::Screen { more } => screen(t, room(t, more)),
    }
}

/// The reply of an answer whose lower half means what is said.
fn read(answer: u64, means: impl FnOnce(u32) -> Option<Answer>) -> Reply {
    let (refusal, said) = ((answer >> 32) as u32, answer as u32);
    match (refusal, said) {
        (0, said) => Ok(means(said).unwrap_or(Answer::Unread(answer))),
        (1..=10, 0) => Err(refusal as Refusal),
        _ => Ok(Answer::Unread(answer)),
    }
}

fn done(said: u32) -> Option<Answer> {
    (said == 0).then_some(Answer::Done)
}

/// A call that may change the record.
fn with_record(t: &mut Tables, call: impl FnOnce(&mut Tables, Held) -> u64) -> Reply {
    let mut record = ActiveHead { slot: t.active };
    let answer = call(t, &mut record);
    t.active = record.slot;
    read(answer, done)
}

/// The claimed sequence and the hash are written where there is a request, and only there.
fn timer(t: &mut Tables, now: u64, span: Option<u64>) -> Reply {
    let (given, ticks) = words(span);
    let mut claimed = [SPARE];
    let mut wanted = [UNWRITTEN; 32];
    let answer = call!(station_timer([all t], now, given, ticks, [mut claimed], [mut wanted]));
    let kept = claimed == [SPARE] && wanted == [UNWRITTEN; 32];
    let reply = read(answer, |head| match head {
        NONE_REF => kept.then_some(Answer::Asked(None)),
        _ => Some(Answer::Asked(Some(Recovery { head, missing: wanted, claimed: claimed[0] }))),
    });
    if reply.is_err() && !kept { Ok(Answer::Unread(answer)) } else { reply }
}

/// The time is written where there is one, and only there.
fn deadline(t: &mut Tables, span: Option<u64>) -> Reply {
    let (given, ticks) = words(span);
    let mut time = [u64::from(SPARE)];
    let answer = call!(station_earliest_deadline([all t], given, ticks, [mut time]));
    let kept = time == [u64::from(SPARE)];
    let reply = read(answer, |said| match said {
        0 => kept.then_some(Answer::Due(None)),
        1 => Some(Answer::Due(Some(time[0]))),
        _ => None,
    });
    if reply.is_err() && !kept { Ok(Answer::Unread(answer)) } else { reply }
}

/// The highest sequence is written to the first place where the call is accepted, and only there.
/// With no place the answer is the same.
fn under(t: &mut Tables, slot: u32) -> Reply {
    let mut places = [SPARE; 2];
    let mut none: [u32; 0] = [];
    let answer = call!(station_under([all t], slot, [mut places]));
    let alone = call!(station_under([all t], slot, [mut none]));
    let [highest, next] = places;
    let reply = read(answer, |blocks| Some(Answer::Under(Under { blocks, highest })));
    let kept = next == SPARE && (reply.is_ok() || highest == SPARE);
    if kept && alone == answer { reply } else { Ok(Answer::Unread(answer)) }
}

fn screen(t: &mut Tables, room: usize) -> Reply {
    let before = noise(room + BEYOND);
    let mut after = before.clone();
    let answer = call!(station_screen([all t], [mut after[..room]]));
    filled(answer, &before, &after, room)
}

/// The reply of a screen, by what it did to a list of so many records and to those beyond. They are
/// written to the first places where the call is accepted, and only there.
pub fn filled(answer: u64, before: &[Row], after: &[Row], room: usize) -> Reply {
    let written = |rows: u32| after[..room].get(..rows as usize);
    let reply = read(answer, |rows| written(rows).map(|rows| Answer::Screen(rows.to_vec())));
    let rows = if let Ok(Answer::Screen(rows)) = &reply { rows.len() } else { 0 };
    if after[rows..] == before[rows..] { reply } else { Ok(Answer::Unread(answer)) }
}

/// What the places of a list hold before the call, each something else.
pub fn noise(places: usize) -> Vec<Row> {
    let mut random = Random::new(SPARE.into());
    let mut word = || random.word() as u32;
    let mut row = || Row { tip: word(), sequence: word(), kind: word(), anchor: word() };
    (0..places).map(|_| row()).collect()
}

/// Whether a span is given, and the span. One that is not given is a number that would be noticed.
fn words(span: Option<u64>) -> (u32, u64) {
    span.map_or((0, u64::from(SPARE)), |ticks| (1, ticks))
}
