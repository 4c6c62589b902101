//! Path and listing.

use super::calls::answer;
use super::log::Log;
use super::replay::{depth, marks, replay, slot_of, NO_PARENT, SLOTS};
use outline_model::{refusal, Answer, View};

#[inline(never)]
pub fn path(file: &[u8], node: u16, out: &mut [u16]) -> Answer {
    answer(try_path(file, node, out))
}

fn try_path(file: &[u8], node: u16, out: &mut [u16]) -> Result<Answer, u8> {
    let log = Log::open(file).ok_or(refusal::UNSOUND)?;
    if !log.knows_parent(&log.layout.counts, node) {
        return Err(refusal::UNKNOWN);
    }
    let mut parents = [NO_PARENT; SLOTS];
    replay(&log, &mut parents, &mut [0; SLOTS]);
    let entries = depth(&parents, node) + 1;
    let out = out.get_mut(..entries).ok_or(refusal::ROOM)?;
    let mut at = node;
    for entry in out {
        *entry = at;
        at = parents[slot_of(at)];
    }
    Ok(Answer::Count(entries))
}

#[inline(never)]
pub fn listing(file: &[u8], view: View, out: &mut [u8]) -> Answer {
    answer(try_listing(file, view, out))
}

fn try_listing(file: &[u8], view: View, out: &mut [u8]) -> Result<Answer, u8> {
    let log = Log::open(file).ok_or(refusal::UNSOUND)?;
    let mut parents = [NO_PARENT; SLOTS];
    replay(&log, &mut parents, &mut [0; SLOTS]);
    let marks = marks(&log);
    let hidden = match view {
        View::Keeping => hidden(&parents, &marks),
        // All below a marked node goes with it: the tour does not come there.
        View::Skipping => marks,
    };
    let mut order = [(0u16, 0u16); SLOTS];
    let order = tour(&parents, &hidden, &mut order);
    let size = order
        .iter()
        .map(|&(node, depth)| digits(depth) + digits(node) + 4)
        .sum();
    let out = out.get_mut(..size).ok_or(refusal::ROOM)?;
    let mut rest = &mut out[..];
    for &(node, depth) in order {
        rest = put_decimal(rest, depth);
        rest = put(rest, b" ");
        rest = put_decimal(rest, node);
        rest = put(
            rest,
            if marks[slot_of(node)] == 1 {
                b" r\n"
            } else {
                b" k\n"
            },
        );
    }
    Ok(Answer::Count(size))
}

/// Which slots the keeping view hides, with 1: all but the unmarked nodes, and
/// those above them.
fn hidden(parents: &[u16; SLOTS], marks: &[u8; SLOTS]) -> [u8; SLOTS] {
    let mut hidden = [1; SLOTS];
    hidden[0] = 0;
    for slot in 1..SLOTS {
        if parents[slot] == NO_PARENT || marks[slot] == 1 {
            continue;
        }
        // Up to the first that is shown already.
        let mut at = slot;
        while hidden[at] == 1 {
            hidden[at] = 0;
            at = slot_of(parents[at]);
        }
    }
    hidden
}

/// The shown nodes in preorder, with their depths.
fn tour<'a>(
    parents: &[u16; SLOTS],
    hidden: &[u8; SLOTS],
    order: &'a mut [(u16, u16); SLOTS],
) -> &'a [(u16, u16)] {
    // First child and next sibling; from the last slot on, so that children rise.
    let mut first = [0u16; SLOTS];
    let mut next = [0u16; SLOTS];
    for slot in (1..SLOTS).rev() {
        if parents[slot] != NO_PARENT && hidden[slot] == 0 {
            let above = slot_of(parents[slot]);
            next[slot] = first[above];
            first[above] = node_at(slot);
        }
    }
    let mut stack = [(0u16, 0u16); SLOTS];
    let mut height = 1;
    let mut count = 0;
    while height > 0 {
        height -= 1;
        let (node, depth) = stack[height];
        order[count] = (node, depth);
        count += 1;
        let slot = slot_of(node);
        if next[slot] != 0 {
            stack[height] = (next[slot], depth);
            height += 1;
        }
        if first[slot] != 0 {
            stack[height] = (first[slot], depth + 1);
            height += 1;
        }
    }
    &order[..count]
}

fn node_at(slot: usize) -> u16 {
    let before = slot - 1;
    (256 * (before / 255 + 1) + before % 255 + 1) as u16
}

fn digits(number: u16) -> usize {
    match number {
        0..=9 => 1,
        10..=99 => 2,
        100..=999 => 3,
        1000..=9999 => 4,
        _ => 5,
    }
}

/// Writes at the front, and hands back the rest.
fn put<'a>(out: &'a mut [u8], bytes: &[u8]) -> &'a mut [u8] {
    let (front, rest) = out.split_at_mut(bytes.len());
    front.copy_from_slice(bytes);
    rest
}

fn put_decimal(out: &mut [u8], number: u16) -> &mut [u8] {
    let (front, rest) = out.split_at_mut(digits(number));
    let mut left = number;
    for digit in front.iter_mut().rev() {
        *digit = b'0' + (left % 10) as u8;
        left /= 10;
    }
    rest
}
