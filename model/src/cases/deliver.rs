//! Making and delivering.

use super::damage;
use super::examples::{add, adds, down, file_of, marked, mutual, p1, remove, small_logs, up};
use super::world::{full, Style, World};
use super::Script;
use crate::log::{HEADER_LEN, MAX_FILE};
use crate::rng::Rng;
use crate::script::Case;
use crate::{Op, OP_LEN};

pub fn write(script: &mut Script) {
    making(script);
    shelf(script);
    sequence_edge(script);
    edges(script);
    marked_nodes(script);
    damaged_files(script);
    exchanges(script);
    long_exchange(script);
    full_exchange(script);
}

fn making(script: &mut Script) {
    for length in [0, 1, 31, 32, 33, 45, 46, 100, MAX_FILE] {
        script.load(&[]);
        script.resize(length);
        script.push(Case::Make);
        script.deliver(&add(1, 0, &[]).bytes());
    }
    // Making again forgets everything held.
    script.load_in(&file_of(&p1()), 200);
    script.extend([Case::Make, Case::Make]);
    script.deliver(&add(1, 0, &[]).bytes());
}

/// P3 and P5 to P9.
fn shelf(script: &mut Script) {
    let first = add(1, 0, &[]);
    script.load(&[0; 31]);
    script.deliver(&first.bytes());
    for length in [45, 46] {
        script.load(&file_of(&[]));
        script.resize(length);
        script.deliver(&first.bytes());
        script.deliver(&first.bytes());
    }
    let file = file_of(&p1());
    for own in [1, 2, 3, 4, 5, 254, 255] {
        script.load_in(&file, 200);
        script.deliver(&add(1, 0, &[own]).bytes());
    }
    for op in p1() {
        script.load_in(&file, 200);
        script.deliver(&op.bytes());
        for damaged in damage::changed(&op.bytes()) {
            script.deliver(&damaged);
        }
    }
    moves_by_name(script);
}

/// P7, P8 and every number that is no known node.
fn moves_by_name(script: &mut Script) {
    let file = file_of(&p1());
    let numbers = [
        0, 1, 255, 256, 257, 258, 259, 260, 512, 513, 514, 2303, 2304, 2305, 65535,
    ];
    for node in numbers {
        script.load_in(&file, 200);
        script.deliver(&remove(3, node, &[3, 1]).bytes());
        script.load_in(&file, 200);
        script.deliver(&add(3, node, &[3, 1]).bytes());
        for parent in numbers {
            script.load_in(&file, 200);
            script.deliver(&up(3, node, parent, &[3, 1]).bytes());
        }
    }
}

/// P4: sequence 255 at count 254, then none.
fn sequence_edge(script: &mut Script) {
    script.load(&file_of(&[]));
    script.resize(HEADER_LEN + OP_LEN * 256);
    for op in adds(5, 255) {
        script.deliver(&op.bytes());
    }
    script.deliver(&add(1, 0, &[0, 0, 0, 0, 255]).bytes());
    script.deliver(&down(1, 1535, 1281, &[0, 0, 0, 0, 255]).bytes());
    for own in [253, 254, 255] {
        let mut op = add(5, 0, &[0, 0, 0, 0, 254]).bytes();
        op[10] = own;
        script.deliver(&op);
    }
}

/// Each refusal beside an op that is accepted.
fn edges(script: &mut Script) {
    let file = file_of(&p1());
    let good = down(3, 257, 0, &[3, 1]);
    for length in [0, 13, 14, 15, 28] {
        script.load_in(&file, 200);
        script.deliver(&[good.bytes(), good.bytes()].concat()[..length]);
    }
    for damaged in damage::changed(&good.bytes()) {
        script.load_in(&file, 200);
        script.deliver(&damaged);
    }
    for vector in [
        [0, 0],
        [1, 0],
        [2, 0],
        [2, 1],
        [3, 0],
        [1, 1],
        [0, 1],
        [4, 1],
        [3, 2],
    ] {
        script.load_in(&file, 200);
        script.deliver(&down(3, 257, 258, &vector).bytes());
        script.deliver(&add(3, 257, &vector).bytes());
    }
    // An own context that forgets what its last op had.
    script.load_in(&file, 200);
    script.deliver(&add(2, 0, &[1, 1]).bytes());
    script.deliver(&add(2, 0, &[2, 1]).bytes());
    for room in [0, 1, 13, 14, 15, 27, 28] {
        script.load_in(&file, file.len() + room);
        script.deliver(&good.bytes());
        script.deliver(&add(8, 258, &[3, 1, 1]).bytes());
    }
    script.load_in(&file_of(&mutual()), 100);
    script.deliver(&good.bytes());
}

/// Marked nodes are taken, whether the op's replica has met the removal or not.
fn marked_nodes(script: &mut Script) {
    let file = file_of(&marked());
    for vector in [
        &[6][..],
        &[6, 1],
        &[6, 0, 1],
        &[6, 0, 2],
        &[6, 1, 2],
        // A node that is not known; not closed; early.
        &[4],
        &[5, 1],
        &[6, 2],
    ] {
        for node in [257, 258, 261] {
            let ops = [
                add(4, node, vector),
                remove(4, node, vector),
                up(4, node, 0, vector),
                down(4, node, 259, vector),
                up(4, 262, node, vector),
            ];
            for op in ops {
                script.load_in(&file, file.len() + 2 * OP_LEN);
                script.deliver(&op.bytes());
            }
        }
    }
}

fn damaged_files(script: &mut Script) {
    let rng = &mut Rng::new(11);
    let file = file_of(&p1());
    let next = add(3, 0, &[3, 1]).bytes();
    for damaged in damage::changed(&file).chain(damage::cut(&file)) {
        script.load(&[damaged, vec![9; OP_LEN]].concat());
        script.deliver(&next);
    }
    for cut in damage::cut(&file) {
        script.load(&cut);
        script.deliver(&next);
    }
    for ops in small_logs() {
        let file = file_of(&ops);
        for _ in 0..60 {
            let damaged = damage::random(rng, &file);
            script.load(&[damaged, vec![0; OP_LEN]].concat());
            let op = ops.last().map_or(next, Op::bytes);
            script.deliver(&op);
            script.deliver(&damage::record(rng, &op));
        }
    }
}

/// Small worlds in any order, again and again until all is held.
fn exchanges(script: &mut Script) {
    for seed in 0..24 {
        let rng = &mut Rng::new(100 + seed);
        let replicas = 2 + rng.below(7);
        let count = 10 + rng.below(30);
        let mut ops = World::random(rng, Style::mixed(replicas, count)).ops;
        script.load(&[]);
        script.resize(HEADER_LEN + OP_LEN * (ops.len() + 4));
        script.push(Case::Make);
        let mut rounds = 0;
        while !ops.is_empty() && rounds < 12 {
            rng.shuffle(&mut ops);
            let heard = ops.clone();
            ops.retain(|op| offer(script, rng, op, &heard));
            rounds += 1;
        }
    }
}

/// Delivers the op, with noise around it; true while it is not held.
fn offer(script: &mut Script, rng: &mut Rng, op: &Op, others: &[Op]) -> bool {
    if rng.one_in(6) {
        script.deliver(&damage::record(rng, &op.bytes()));
    }
    if rng.one_in(8) {
        script.deliver(&rng.pick(others).bytes());
    }
    !matches!(script.deliver(&op.bytes()).as_bytes()[0], b'a' | b'h')
}

/// Several hundred ops, each some places off its due time.
fn long_exchange(script: &mut Script) {
    let rng = &mut Rng::new(7);
    let ops = World::random(rng, Style::moves(6, 500)).ops;
    flow(script, rng, &ops, 12, 50);
}

fn full_exchange(script: &mut Script) {
    let rng = &mut Rng::new(8);
    let ops = full(rng, Style::mixed);
    flow(script, rng, &ops, 4, 200);
    // Nothing more can come: held, another, out of form, or early.
    for op in ops.iter().rev().take(20) {
        script.deliver(&op.bytes());
        script.deliver(&damage::random(rng, &op.bytes()));
    }
    script.resize(MAX_FILE - 1);
    script.deliver(&ops[0].bytes());
}

/// Delivers all ops, shuffled within a window that starts at the first one
/// not held. The buffer grows step by step so that lines stay cheap to run.
fn flow(script: &mut Script, rng: &mut Rng, ops: &[Op], window: usize, step: usize) {
    let mut waiting = ops.to_vec();
    let mut room = HEADER_LEN;
    script.load(&file_of(&[]));
    while !waiting.is_empty() {
        let held = ops.len() - waiting.len();
        if HEADER_LEN + OP_LEN * (held + window) > room {
            room = (HEADER_LEN + OP_LEN * (held + window + step)).min(MAX_FILE);
            script.resize(room);
        }
        let mut due = waiting[..window.min(waiting.len())].to_vec();
        rng.shuffle(&mut due);
        due.retain(|op| script.deliver(&op.bytes()).starts_with('r'));
        let rest = waiting.split_off(window.min(waiting.len()));
        waiting = [due, rest].concat();
        if held > 0 && rng.one_in(10) {
            // A late copy, true or not, of an op that is held.
            let op = ops[rng.below(held / 2 + 1)].bytes();
            script.deliver(&op);
            script.deliver(&damage::with(&op, 4, op[4] ^ 1));
        }
    }
}
