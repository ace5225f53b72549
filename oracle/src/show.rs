//! A difference in readable form.

use crate::calls::Call;
use crate::functions::{Case, Difference};
use crate::judge::is_shaped;
use crate::lists::{List, Trouble};
use crate::tables::{Block, Head, NONE_REF, Tables};

/// The call, the tables before it, and each side's answer and the tables after it.
pub fn difference(case: &Case, found: &Difference) -> String {
    let taken = case.args.named();
    let taken = taken.iter().filter(|(name, _)| case.function.takes.contains(name));
    let taken: Vec<String> = taken.map(|(name, value)| format!("{name} {value}")).collect();
    let call = format!("{}({})", case.function.name, taken.join(", "));
    let has_model = ["under", "screen"].contains(&case.function.name);
    let judge = if has_model { "the model" } else { "the original" };
    format!("{call}\n\n{}", sides(&case.tables, found, judge))
}

/// A list up to its trouble, the tables before the last call, and what that call left. What was
/// asked after the list counts as a call.
pub fn list(list: &List, trouble: &Trouble) -> String {
    let asked = match trouble {
        Trouble::Asked { question, .. } => Some(question),
        _ => None,
    };
    let calls = list.calls.iter().chain(asked).map(|call| format!("\n{call}"));
    let calls = format!("N {} {}{}", list.n, list.m, calls.collect::<String>());
    let last = match trouble {
        Trouble::Asked { question: Call::Screen { .. }, found } => {
            sides(&found.before, found, "the model")
        }
        Trouble::Differs(found) | Trouble::Asked { found, .. } => {
            sides(&found.before, found, "the original")
        }
        Trouble::Broken { before, after, why } => {
            let left = changes(before, after);
            format!("{}\n\nboth sides leave{left}\n\nbroken: {why}", before_it(before))
        }
    };
    format!("{calls}\n\n{last}")
}

fn before_it(before: &Tables) -> String {
    format!("before\n{}", lines(before).join("\n"))
}

fn sides(shown: &Tables, found: &Difference, judge: &str) -> String {
    format!(
        "{}\n{}\n{}",
        before_it(shown),
        side(judge, &found.before, &found.original),
        side("the port", &found.before, &found.port),
    )
}

/// What one side answered, and the tables as it left them.
fn side(name: &str, before: &Tables, (answer, after): &(String, Tables)) -> String {
    let left = match before == after {
        true => "changes nothing".to_string(),
        false if is_shaped(before) => format!("leaves{}", changes(before, after)),
        false => "changes a buffer".to_string(),
    };
    format!("\n{name} answers {answer} and {left}")
}

/// The tables as a call left them; `*` marks what it changed.
fn changes(before: &Tables, after: &Tables) -> String {
    let marked = lines(before).into_iter().zip(lines(after)).map(|(old, new)| {
        let mark = if old == new { "" } else { "  *" };
        format!("\n{new}{mark}")
    });
    marked.collect()
}

/// A line for each slot.
pub fn lines(t: &Tables) -> Vec<String> {
    let blocks = (0..t.n()).map(|slot| match t.block(slot) {
        Block::EMPTY => format!("  block {slot}: empty"),
        block => format!(
            "  block {slot}: sequence {}, parent {}, count {}, flags {:08b}, hash {}",
            reference(block.sequence),
            reference(block.parent),
            block.count,
            block.flags,
            hex(&block.hash),
        ),
    });
    let heads = (0..t.m()).map(|slot| match t.head(slot) {
        Head::EMPTY => format!("  head {slot}: empty"),
        head => format!(
            "  head {slot}: tip {}, tail {}, asked {}, arrival {}, connected {:08b}, missing {}",
            reference(head.tip),
            reference(head.tail),
            head.requested,
            head.arrival,
            head.connected,
            hex(&head.missing),
        ),
    });
    let active = format!("  active head: {}", reference(t.active));
    blocks.chain(heads).chain([active]).collect()
}

/// A slot or a sequence, `-` for none.
pub fn reference(number: u32) -> String {
    if number == NONE_REF { "-".to_string() } else { number.to_string() }
}

/// A hash in hexadecimal; one of equal bytes as that byte, 32 times.
pub fn hex(hash: &[u8]) -> String {
    match hash {
        [first, rest @ ..] if rest.iter().all(|byte| byte == first) => format!("{first:02x} x 32"),
        _ => hash.iter().map(|byte| format!("{byte:02x}")).collect(),
    }
}
