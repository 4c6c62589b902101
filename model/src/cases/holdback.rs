//! Delivering with a holdback.

use super::bundle::{receiver, refused};
use super::damage;
use super::examples::{
    add, adds, down, file_of, holdback_of, holdback_with, log_of, mutual, p1, remove, turns, up,
};
use super::issue::{issue_here, ops};
use super::world::{self, full, part, Style, World};
use super::Script;
use crate::log::{HEADER_LEN, MAX_FILE};
use crate::op::{Op, OP_LEN};
use crate::rng::Rng;
use crate::script::MAX_HOLDBACK;
use crate::{HOLDBACK_LEN, HOLDBACK_PLACES};

type Body = [u8; OP_LEN];

pub fn write(script: &mut Script) {
    lengths(script);
    counts(script);
    bytes_past(script);
    order_of_tests(script);
    several_causes(script);
    unsound(script);
    waiting(script);
    not_searched(script);
    chains(script);
    rivals(script);
    never_go(script);
    comes_to_nothing(script);
    rooms(script);
    doubles(script);
    damaged_holdbacks(script);
    worlds(script);
    lent_holdbacks(script);
    large_log(script);
    full_log(script);
}

/// Delivers each record with its holdback, at the same file with so much room.
fn deliver_each(
    script: &mut Script,
    file: &[u8],
    room: usize,
    calls: impl IntoIterator<Item = (Vec<u8>, Vec<u8>)>,
) {
    let mut changed = true;
    for (record, holdback) in calls {
        if changed {
            script.load_in(file, file.len() + room);
        }
        // Only an accepted record changes the buffer.
        changed = script.deliver_holdback(&record, &holdback).starts_with('a');
    }
}

/// So many different ops that are early at all short logs.
fn early(count: usize) -> Vec<Op> {
    adds(3, 99 + count)[99..].to_vec()
}

fn bodies(ops: &[Op]) -> Vec<Body> {
    ops.iter().map(Op::bytes).collect()
}

/// One that is accepted at most logs here.
fn new() -> Vec<u8> {
    add(5, 0, &[]).bytes().to_vec()
}

fn late() -> Vec<u8> {
    early(40)[39].bytes().to_vec()
}

/// Holdbacks of every length around the right one, empty or not, with a record that
/// is accepted, one that is early, and a short one.
fn lengths(script: &mut Script) {
    let mut calls = vec![];
    for length in [0, 1, 2, 14, 15, 29, 435, 448, 449, 450, 463, MAX_HOLDBACK] {
        for ops in [&[][..], &early(2)] {
            let mut holdback = holdback_of(ops);
            holdback.resize(length, 0);
            calls.push((new(), holdback.clone()));
            calls.push((late(), holdback.clone()));
            if ops.is_empty() {
                calls.push((new()[..3].to_vec(), holdback));
            }
        }
    }
    deliver_each(script, &file_of(&receiver()), 20, calls);
}

/// Counts up to 32 and above, of records and of zero bytes, which do not read.
fn counts(script: &mut Script) {
    let full = holdback_of(&early(HOLDBACK_PLACES));
    let mut calls = vec![];
    for count in [31, 32, 33, 34, 64, 128, 255] {
        calls.push((new(), damage::with(&full, 0, count)));
        calls.push((late(), damage::with(&full, 0, count)));
    }
    for count in [0, 1, 2, 31, 32, 33, 128, 255] {
        let zeros = damage::with(&[0; HOLDBACK_LEN], 0, count);
        calls.push((new(), zeros.clone()));
        calls.push((late(), zeros));
    }
    deliver_each(script, &file_of(&receiver()), 20, calls);
}

/// A byte that is not zero, past the records and just within them.
fn bytes_past(script: &mut Script) {
    let mut calls = vec![];
    for count in [0, 1, 2, 17, 30, 31] {
        let holdback = holdback_of(&early(count));
        let past = 1 + OP_LEN * count;
        for at in [past - 1, past, past + 1, past + 13, HOLDBACK_LEN - 1] {
            // Byte 0 is the count.
            if at > 0 {
                let changed = damage::with(&holdback, at, 1 + (at % 2 * 127) as u8);
                let record = if at % 3 == 0 { late() } else { new() };
                calls.push((record, changed));
            }
        }
        let short = damage::with(&holdback, 0, (count as u8).saturating_sub(1));
        calls.push((new(), short));
    }
    deliver_each(script, &file_of(&receiver()), 20, calls);
}

/// A record of each sort at the receiver: refused by each number, held, and
/// accepted if there is room.
pub(super) fn each_sort() -> Vec<Vec<u8>> {
    let mut records = vec![vec![], new()[..13].to_vec(), [new(), vec![0]].concat()];
    records.extend(refused().iter().map(|body| body.to_vec()));
    records.extend(receiver().iter().map(|op| op.bytes().to_vec()));
    records.push(damage::with(&new(), 1, 0));
    records.push(damage::with(&new(), 1, 9));
    records.push(damage::with(&new(), 3, 2));
    records.push(remove(6, 0, &[]).bytes().to_vec());
    records.push(new());
    records
}

/// Each sort of record with each sort of holdback.
fn order_of_tests(script: &mut Script) {
    let full = holdback_of(&early(HOLDBACK_PLACES));
    let holdbacks = [
        vec![],
        full[..30].to_vec(),
        damage::with(&holdback_of(&[]), HOLDBACK_LEN - 1, 1),
        holdback_of(&early(31)),
        full.clone(),
    ];
    let file = file_of(&receiver());
    let calls = each_sort()
        .into_iter()
        .flat_map(|record| holdbacks.clone().map(|holdback| (record.clone(), holdback)));
    deliver_each(script, &file, 100, calls);
    let calls = each_sort().into_iter().map(|record| (record, full.clone()));
    deliver_each(script, &file, 13, calls);
    // A full holdback that has the record itself, early or not.
    let calls = each_sort().into_iter().filter_map(|record| {
        let mut bodies = bodies(&early(HOLDBACK_PLACES));
        bodies[7] = record[..].try_into().ok()?;
        Some((record, holdback_with(&bodies)))
    });
    deliver_each(script, &file, 100, calls);
}

/// Records with several causes, without room, in a holdback with and without places.
fn several_causes(script: &mut Script) {
    let not_closed = &[0, 0, 0, 0, 0, 0, 0, 1];
    let all = &[0, 0, 0, 0, 0, 0, 1, 1];
    let ops = [
        add(7, 9999, &[0, 9]),
        add(8, 9999, &[0, 9]),
        add(8, 9999, &[]),
        add(6, 9999, &[0, 9, 0, 0, 0, 0, 1]),
        add(6, 9999, &[0, 9, 0, 0, 0, 0, 0, 1]),
        up(6, 1793, 1793, &[0, 0, 0, 0, 0, 0, 1, 2]),
        add(6, 9999, not_closed),
        up(6, 1793, 1793, not_closed),
        add(6, 9999, all),
        add(6, 1793, all),
    ];
    let mut calls = vec![];
    for op in ops {
        for holdback in [holdback_of(&[]), holdback_of(&early(HOLDBACK_PLACES))] {
            calls.push((op.bytes().to_vec(), holdback.clone()));
            calls.push((damage::with(&op.bytes(), 0, 0), holdback));
        }
    }
    deliver_each(script, &file_of(&receiver()), 13, calls);
}

/// 1 comes before 14 and before 2.
fn unsound(script: &mut Script) {
    let rng = &mut Rng::new(61);
    let file = file_of(&p1());
    let mut files = vec![vec![], vec![0; 31], vec![0; 32], file_of(&mutual())];
    for round in 0..14 {
        files.push(match round % 3 {
            0 => file[..rng.below(file.len())].to_vec(),
            1 => damage::with(&file, rng.below(32), 7),
            _ => damage::random(rng, &file),
        });
    }
    for file in files {
        script.load(&file);
        script.deliver_holdback(&[], &[]);
        script.deliver_holdback(&new(), &[33; 20]);
        script.deliver_holdback(&new(), &holdback_of(&p1()));
    }
}

/// Early ones one by one, some again, until the holdback is full and beyond.
fn waiting(script: &mut Script) {
    let rng = &mut Rng::new(62);
    for shuffled in [false, true] {
        let mut ops = early(35);
        if shuffled {
            rng.shuffle(&mut ops);
        }
        script.load_in(&file_of(&receiver()), 80);
        script.deliver_holdback(&ops[0].bytes(), &holdback_of(&[]));
        for (before, op) in ops.iter().enumerate() {
            script.deliver_next(&op.bytes());
            if before % 5 == 3 {
                let again = ops[rng.below(before + 1)];
                script.deliver_next(&again.bytes());
            }
        }
        // Others than those that wait by one byte.
        let other = damage::with(&ops[3].bytes(), 5, 9);
        script.deliver_next(&other);
        // The one accepted frees none of them.
        script.deliver_next(&new());
        script.deliver_next(&ops[34].bytes());
        script.deliver_next(&new());
    }
}

/// One that could go stays: had it, waiting and refused calls do not search.
fn not_searched(script: &mut Script) {
    let can_go = add(6, 0, &[]);
    for count in [0, 2, 31] {
        let mut ops = early(count);
        ops.insert(count / 2, can_go);
        let holdback = holdback_of(&ops);
        let calls = each_sort()
            .into_iter()
            .step_by(2)
            .map(|record| (record, holdback.clone()));
        deliver_each(script, &file_of(&receiver()), 60, calls);
        // The next acceptance takes it, or is of it.
        for record in [can_go.bytes(), add(4, 0, &[]).bytes()] {
            script.load_in(&file_of(&receiver()), 120);
            script.deliver_holdback(&receiver()[0].bytes(), &holdback);
            script.deliver_next(&record);
            script.deliver_next(&record);
        }
    }
}

/// Chains of 33 in reverse order, call by call and at once.
fn chains(script: &mut Script) {
    let rng = &mut Rng::new(63);
    for ops in [adds(4, 33), turns(33)] {
        script.load_in(&file_of(&[]), 500);
        script.deliver_holdback(&ops[32].bytes(), &holdback_of(&[]));
        for op in ops[..32].iter().rev() {
            script.deliver_next(&op.bytes());
        }
        script.deliver_next(&ops[9].bytes());
    }
    let ops = turns(33);
    let mut calls = vec![];
    for round in 0..6 {
        let mut rest = ops[1..].to_vec();
        match round {
            0 => {}
            1 => rest.reverse(),
            _ => rng.shuffle(&mut rest),
        }
        calls.push((ops[0].bytes().to_vec(), holdback_of(&rest)));
    }
    // The last file end, after each number of them, with others that stay.
    for count in (0..=HOLDBACK_PLACES).step_by(4) {
        let mut rest = ops[1..=count].to_vec();
        rest.reverse();
        rest.extend(early(HOLDBACK_PLACES - count));
        if count % 8 == 4 {
            rng.shuffle(&mut rest);
        }
        calls.push((ops[0].bytes().to_vec(), holdback_of(&rest)));
    }
    // A gap: those behind it stay.
    for gap in [1, 2, 16, 31, 32] {
        let mut rest = ops[1..].to_vec();
        rest.remove(gap - 1);
        rest.reverse();
        calls.push((ops[0].bytes().to_vec(), holdback_of(&rest)));
    }
    deliver_each(script, &file_of(&[]), OP_LEN * 33, calls);
}

/// Which of two goes depends on where the search starts again.
fn rivals(script: &mut Script) {
    let given = add(1, 0, &[]).bytes().to_vec();
    let (one, between, two) = (add(2, 0, &[1, 0, 1]), add(3, 0, &[1]), add(2, 0, &[1]));
    let mut holdbacks = vec![
        vec![one, between, two],
        vec![between, one, two],
        vec![one, two, between],
        vec![two, one, between],
        vec![two, between, one],
        vec![between, two, one],
    ];
    // Rivals that count so much of a chain, before it and behind it.
    let chain = [
        add(3, 0, &[1]),
        add(3, 0, &[1, 0, 1]),
        add(3, 0, &[1, 0, 2]),
    ];
    let counting: Vec<Op> = (0..=3).map(|length| add(2, 0, &[1, 0, length])).collect();
    for least in 0..=3 {
        let mut holdback: Vec<Op> = counting[least..].iter().rev().copied().collect();
        holdback.extend(chain);
        holdback.extend(&counting[..least]);
        holdbacks.push(holdback);
    }
    for other in [
        add(2, 257, &[1]),
        add(2, 0, &[]),
        remove(2, 257, &[1]),
        up(2, 257, 0, &[1]),
        add(2, 0, &[9]),
    ] {
        holdbacks.push(vec![two, other]);
        holdbacks.push(vec![other, two]);
        holdbacks.push([vec![other], early(30), vec![two]].concat());
    }
    // A rival of the delivered one.
    holdbacks.push(vec![down(1, 257, 0, &[]), add(1, 0, &[0, 1]), two]);
    let calls = holdbacks
        .iter()
        .map(|ops| (given.clone(), holdback_of(ops)));
    deliver_each(script, &file_of(&[]), 100, calls);
    // Call by call: both wait, and the order of arrival decides.
    for order in [
        [one, between, two],
        [two, between, one],
        [one, two, between],
    ] {
        script.load_in(&file_of(&[]), 120);
        script.deliver_holdback(&order[0].bytes(), &holdback_of(&[]));
        script.deliver_next(&order[1].bytes());
        script.deliver_next(&order[2].bytes());
        script.deliver_next(&given);
    }
}

/// Those that the receiver refuses for good, and what it has.
fn dropped() -> Vec<Body> {
    let mut dropped = refused();
    // Early ones are not.
    dropped.retain(|body| body[10] == 0 && body[11] != 1);
    dropped.extend(bodies(&receiver()));
    dropped
}

/// Each number at each place among records that go and that stay.
fn never_go(script: &mut Script) {
    let rng = &mut Rng::new(64);
    let file = file_of(&receiver());
    let others = bodies(&[
        early(1)[0],
        add(4, 0, &[0, 0, 0, 0, 1]),
        early(2)[1],
        add(5, 0, &[0, 0, 0, 0, 1]),
    ]);
    let mut calls = vec![];
    for body in dropped() {
        for place in 0..=others.len() {
            let mut holdback = others.clone();
            holdback.insert(place, body);
            calls.push((new(), holdback_with(&holdback)));
        }
    }
    for round in 0..20 {
        let mut holdback = [dropped(), others.clone()].concat();
        holdback.extend(bodies(&early(5)[2..]));
        rng.shuffle(&mut holdback);
        holdback.truncate(if round % 4 == 0 { 9 } else { HOLDBACK_PLACES });
        calls.push((new(), holdback_with(&holdback)));
    }
    deliver_each(script, &file, 42, calls.clone());
    // Without room for more than the delivered one they are dropped as well.
    deliver_each(script, &file, 14, calls.into_iter().skip(3).step_by(5));
}

/// Early at first, and refused for good when what they count has come.
fn comes_to_nothing(script: &mut Script) {
    for op in [
        add(6, 0, &[0, 1]),
        add(6, 514, &[1, 1]),
        remove(6, 258, &[1, 1]),
        up(6, 513, 513, &[1, 1]),
        add(2, 513, &[9]),
        add(6, 513, &[1, 1]),
    ] {
        script.load_in(&file_of(&[add(1, 0, &[])]), 100);
        script.deliver_holdback(&op.bytes(), &holdback_of(&early(1)));
        script.deliver_next(&add(2, 0, &[1]).bytes());
    }
}

/// Room for some: what is refused with 8 stays, and goes at a later acceptance.
fn rooms(script: &mut Script) {
    let ops = turns(6);
    for reversed in [false, true] {
        let mut rest = ops[1..].to_vec();
        if reversed {
            rest.reverse();
        }
        for records in 0..=6 {
            for more in [0, 13] {
                let calls = [(ops[0].bytes().to_vec(), holdback_of(&rest))];
                deliver_each(script, &file_of(&[]), OP_LEN * records + more, calls);
            }
        }
    }
    for next in [ops[2], add(1, 0, &[]), ops[0], early(1)[0]] {
        script.load_in(&file_of(&[]), 60);
        script.deliver_holdback(&ops[0].bytes(), &holdback_of(&ops[1..]));
        script.deliver_next(&ops[2].bytes());
        script.resize(140);
        script.deliver_next(&next.bytes());
        script.deliver_next(&add(2, 0, &[]).bytes());
    }
}

/// A lent holdback may have the same bytes twice.
fn doubles(script: &mut Script) {
    let given = add(1, 0, &[]);
    let next = add(1, 0, &[1]);
    let file = file_of(&[]);
    for times in [1, 2, 31, 32] {
        let holdbacks = [next, given, early(1)[0]].map(|op| holdback_of(&vec![op; times]));
        let calls = holdbacks
            .clone()
            .map(|holdback| (given.bytes().to_vec(), holdback))
            .to_vec();
        deliver_each(script, &file, 100, calls.clone());
        deliver_each(script, &file, 14, calls);
        let again = holdbacks.map(|holdback| (early(1)[0].bytes().to_vec(), holdback));
        deliver_each(script, &file, 14, again);
    }
}

/// Every byte of the records of a small holdback changed, and each sort of disorder.
fn damaged_holdbacks(script: &mut Script) {
    let rng = &mut Rng::new(65);
    let ops = p1();
    let holdback = holdback_of(&[ops[3], ops[2], ops[1]]);
    let first = ops[0].bytes().to_vec();
    let mut calls = vec![];
    for at in 0..43 {
        let values: Vec<u8> = damage::values(holdback[at]).collect();
        for _ in 0..2 {
            calls.push((
                first.clone(),
                damage::with(&holdback, at, rng.pick(&values)),
            ));
        }
    }
    for _ in 0..40 {
        let good = world::holdback(rng, &ops, &[0; 8]);
        let bad = damage::holdback(rng, &good);
        calls.push((damage::record(rng, &first), bad));
    }
    deliver_each(script, &file_of(&[]), 56, calls);
}

/// Small worlds in any order with one holdback, again and again until all is held.
fn worlds(script: &mut Script) {
    for seed in 0..12 {
        let rng = &mut Rng::new(660 + seed);
        let style = Style {
            hear_one_in: 1 + rng.below(3),
            ..Style::mixed(2 + rng.below(7), 8 + rng.below(30))
        };
        let mut ops = World::random(rng, style).ops;
        let all = ops.len();
        script.load_in(&file_of(&[]), HEADER_LEN + OP_LEN * (all / 2));
        script.deliver_holdback(&[], &holdback_of(&[]));
        rng.shuffle(&mut ops);
        for (place, op) in ops.iter().enumerate() {
            offer(script, rng, op);
            if place == all / 2 {
                script.resize(HEADER_LEN + OP_LEN * (all + 3));
            }
        }
        // What was early in a full holdback, or had no room.
        for op in &ops {
            if !super::issue::ops(script.buffer()).contains(op) {
                script.deliver_next(&op.bytes());
            }
        }
    }
}

/// With noise around it: a changed record, a plain delivery, an issue.
fn offer(script: &mut Script, rng: &mut Rng, op: &Op) {
    match rng.below(30) {
        0 | 1 => {
            script.deliver_next(&damage::record(rng, &op.bytes()));
        }
        2 => {
            script.deliver(&op.bytes());
        }
        3 => issue_here(script, rng, 1),
        _ => {}
    }
    script.deliver_next(&op.bytes());
    if rng.one_in(8) {
        script.deliver_next(&op.bytes());
    }
}

/// Parts of worlds with holdbacks of any content, which are lent for one call.
fn lent_holdbacks(script: &mut Script) {
    for seed in 0..45 {
        let rng = &mut Rng::new(6700 + seed);
        let style = rng.pick(&[Style::moves as fn(usize, usize) -> Style, Style::mixed]);
        let style = style(1 + rng.below(8), 5 + rng.below(45));
        let ops = World::random(rng, style).ops;
        let share = rng.below(ops.len());
        let held = part(rng, &ops[..share], 30);
        let counts = log_of(&held).held();
        let lacking = |op: &&Op| op.sequence() > usize::from(counts[op.index()]);
        let next = ops.iter().find(lacking).copied();
        let room = rng.pick(&[0, 14, 50, 700, 700, 700]);
        let calls: Vec<(Vec<u8>, Vec<u8>)> = (0..3)
            .map(|call| {
                let op = next.filter(|_| call < 2).unwrap_or(rng.pick(&ops));
                (op.bytes().to_vec(), world::holdback(rng, &ops, &counts))
            })
            .collect();
        deliver_each(script, &file_of(&held), room, calls);
    }
}

/// A log of several hundred ops; the next of them come some places off.
fn large_log(script: &mut Script) {
    let rng = &mut Rng::new(68);
    let ops = World::random(rng, Style::mixed(8, 500)).ops;
    let (held, rest) = ops.split_at(450);
    let mut next = rest.to_vec();
    next.chunks_mut(25).for_each(|window| rng.shuffle(window));
    script.load_in(&file_of(held), HEADER_LEN + OP_LEN * 500);
    script.deliver_holdback(&held[7].bytes(), &holdback_of(&[]));
    for op in next {
        script.deliver_next(&op.bytes());
    }
    // Held now, all of them.
    script.deliver_next(&rest[3].bytes());
}

/// The last 33 of all there can be, in reverse order; then nothing more can come.
fn full_log(script: &mut Script) {
    let rng = &mut Rng::new(69);
    let all = full(rng, Style::mixed);
    let (held, rest) = all.split_at(all.len() - 33);
    script.load_in(&file_of(held), MAX_FILE - 1);
    script.deliver_holdback(&held[7].bytes(), &holdback_of(&[]));
    for op in rest.iter().rev() {
        script.deliver_next(&op.bytes());
    }
    // One is left for want of a byte.
    let had = ops(script.buffer());
    let left = rest.iter().filter(|op| !had.contains(op));
    script.resize(MAX_FILE);
    for op in left.chain(&rest[..4]) {
        script.deliver_next(&op.bytes());
        script.deliver_next(&damage::random(rng, &op.bytes()));
    }
}
