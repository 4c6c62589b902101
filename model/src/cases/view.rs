//! Path, listing and outline, and every call on a buffer without bytes.

use super::damage;
use super::examples::{add, bundle_of, file_of, longest_chain, p1, small_logs};
use super::world::{full, Style, World};
use super::Script;
use crate::rng::Rng;
use crate::script::{Case, MAX_LISTING, MAX_TABLE};
use crate::{listing, path, Answer, Op, View, HEADER_LEN, REPLICAS};

const VIEWS: [View; 2] = [View::Keeping, View::Skipping];

pub fn write(script: &mut Script) {
    small(script);
    damaged_files(script);
    random_logs(script);
    large(script);
    short_inputs(script);
    no_bytes(script);
}

fn small(script: &mut Script) {
    for ops in small_logs() {
        let file = file_of(&ops);
        script.load(&file);
        script.push(Case::Outline);
        for view in VIEWS {
            listings(script, view);
        }
        for node in named(&ops) {
            paths(script, node);
        }
        // Bytes past the end matter to outline alone.
        script.resize(file.len() + 1);
        script.push(Case::Outline);
        script.push(Case::Listing(View::Keeping, 200));
        script.push(Case::Path(0, 1));
    }
}

/// Nodes that the ops name, and numbers that are no nodes.
fn named(ops: &[Op]) -> Vec<u16> {
    let mut nodes = vec![0, 1, 255, 256, 257, 512, 513, 770, 2303, 2304, 2305, 65535];
    nodes.extend(ops.iter().map(|op| op.node));
    nodes.sort_unstable();
    nodes.dedup();
    nodes
}

/// Lent exactly enough, one less, one more, and nothing.
fn around(length: usize, most: u16) -> Vec<u16> {
    let length = length as u16;
    let mut rooms = vec![0, length.saturating_sub(1), length, length + 1];
    rooms.sort_unstable();
    rooms.dedup();
    rooms.retain(|&room| room <= most);
    rooms
}

fn paths(script: &mut Script, node: u16) {
    let most = &mut [0; MAX_TABLE as usize];
    let length = match path(script.buffer(), node, most) {
        Answer::Count(length) => length,
        _ => 1,
    };
    script.extend(
        around(length, MAX_TABLE)
            .into_iter()
            .map(|room| Case::Path(node, room)),
    );
}

fn listings(script: &mut Script, view: View) {
    let most = &mut [0; MAX_LISTING as usize];
    let length = match listing(script.buffer(), view, most) {
        Answer::Count(length) => length,
        _ => 1,
    };
    script.extend(
        around(length, MAX_LISTING)
            .into_iter()
            .map(|room| Case::Listing(view, room)),
    );
}

fn damaged_files(script: &mut Script) {
    let rng = &mut Rng::new(41);
    for ops in small_logs() {
        let file = file_of(&ops);
        for _ in 0..40 {
            script.load(&damage::random(rng, &file));
            calls(script, rng, &ops);
        }
        for _ in 0..10 {
            script.load(&file[..rng.below(file.len())]);
            calls(script, rng, &ops);
        }
    }
    script.load(&[]);
    script.push(Case::Outline);
}

/// One call of each sort, with room for any small answer.
fn calls(script: &mut Script, rng: &mut Rng, ops: &[Op]) {
    script.push(Case::Outline);
    script.push(Case::Path(rng.pick(&named(ops)), 20));
    script.push(Case::Listing(rng.pick(&VIEWS), 200));
}

fn random_logs(script: &mut Script) {
    for seed in 0..70 {
        let rng = &mut Rng::new(400 + seed);
        let replicas = 1 + rng.below(8);
        let count = 5 + rng.below(90);
        let style = if rng.one_in(3) {
            Style::moves
        } else {
            Style::mixed
        };
        let ops = World::random(rng, style(replicas, count)).ops;
        script.load(&file_of(&ops));
        script.push(Case::Outline);
        for view in VIEWS {
            listings(script, view);
        }
        for _ in 0..6 {
            paths(script, rng.pick(&ops).node);
        }
    }
}

fn large(script: &mut Script) {
    let rng = &mut Rng::new(42);
    for ops in [
        longest_chain(),
        full(rng, Style::mixed),
        full(rng, Style::moves),
    ] {
        let file = file_of(&ops);
        script.load(&file);
        script.push(Case::Outline);
        for view in VIEWS {
            listings(script, view);
        }
        for node in [0, 257, 2303, 2304] {
            paths(script, node);
        }
        for _ in 0..10 {
            paths(script, rng.pick(&ops).node);
        }
        script.resize(file.len() + 1);
        script.push(Case::Outline);
        script.resize(file.len() - 1);
        script.push(Case::Outline);
    }
}

/// Outline reads no bytes as the log without ops, and refuses all that is
/// shorter than a header; 32 bytes are a log or not.
fn short_inputs(script: &mut Script) {
    let [zeros, high] = [0, 255].map(|byte| vec![byte; HEADER_LEN]);
    for file in [file_of(&[]), file_of(&p1()), zeros, high] {
        for length in 0..=HEADER_LEN {
            script.load(&file[..length]);
            script.push(Case::Outline);
        }
    }
}

/// Every other call refuses a buffer of length zero, whether or not there is
/// room for an answer; outline stands last, on what they have left.
fn no_bytes(script: &mut Script) {
    let first = add(1, 0, &[]);
    script.load(&[]);
    script.push(Case::Make);
    script.deliver(&[]);
    script.deliver(&first.bytes());
    for room in [0, 14] {
        script.extend([
            Case::Add(1, 0, room),
            Case::Remove(1, 257, room),
            Case::Move(1, 257, 0, room),
        ]);
    }
    for room in [0, 2041] {
        script.push(Case::Judge(room, room));
    }
    for room in [0, 1] {
        script.extend([Case::Path(0, room), Case::Path(257, room)]);
    }
    for room in [0, 6] {
        script.extend(VIEWS.map(|view| Case::Listing(view, room)));
    }
    for room in [0, 1] {
        script.push(Case::MakeBundle([0; REPLICAS], room));
    }
    script.open(&[]);
    script.open(&[0]);
    script.open(&bundle_of(&[first]));
    script.push(Case::Outline);
}
