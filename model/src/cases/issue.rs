//! Issuing.

use super::damage;
use super::examples::{
    add, adds, file_of, log_of, marked, mutual, p1, removals, remove, small_logs, unmet, unremoved,
};
use super::world::{full, Style, World};
use super::Script;
use crate::log::{HEADER_LEN, MAX_FILE};
use crate::op::{Op, OP_LEN};
use crate::rng::Rng;
use crate::script::Case;
use crate::{deliver, issue_add, issue_move, issue_remove, make, Knowledge, Log, View};

const ROOM: u8 = 14;
const NUMBERS: [u16; 17] = [
    0, 1, 255, 256, 257, 258, 259, 260, 512, 513, 769, 770, 1025, 2303, 2304, 2305, 65535,
];

pub fn write(script: &mut Script) {
    edges(script);
    order_of_tests(script);
    names(script);
    sequence_edge(script);
    marked_names(script);
    marked_work(script);
    a_removal_comes(script);
    marked_in_full_logs(script);
    damaged_files(script);
    exchanges(script);
    whole_exchanges(script);
    full_logs(script);
}

/// One call of each sort.
pub(super) fn each(replica: u8, node: u16, parent: u16, room: u8) -> [Case; 3] {
    [
        Case::Add(replica, parent, room),
        Case::Remove(replica, node, room),
        Case::Move(replica, node, parent, room),
    ]
}

fn edges(script: &mut Script) {
    let file = file_of(&p1());
    for room in [0, 1, 13, 14, 15, 40] {
        for case in each(2, 258, 0, room) {
            script.load_in(&file, 120);
            script.push(case);
        }
    }
    for replica in [0, 1, 2, 3, 8, 9, 128, 255] {
        for case in each(replica, 257, 0, ROOM) {
            script.load_in(&file, 120);
            script.push(case);
        }
    }
    for room in [0, 1, 13, 14, 15, 27, 28, 29] {
        for case in each(1, 257, 0, 16) {
            script.load_in(&file, file.len() + room);
            script.extend([case.clone(), case]);
        }
    }
    for file in [vec![], vec![0; 31], vec![0; 32], file_of(&mutual())] {
        script.load(&file);
        script.extend(each(1, 257, 0, ROOM));
    }
}

/// Calls with several causes at once: the first in order is answered.
fn order_of_tests(script: &mut Script) {
    for ops in [p1(), adds(1, 255), removals(), unremoved(), marked()] {
        let file = file_of(&ops);
        for damaged in [false, true] {
            for room in [0, 14] {
                script.load_in(
                    &damage::with(&file, 0, u8::from(damaged)),
                    file.len() + room,
                );
                for replica in [0, 1, 9] {
                    script.extend(each(replica, 257, 4000, 13));
                    script.extend(each(replica, 4000, 257, 14));
                    script.push(Case::Move(replica, 258, 258, 14));
                    script.push(Case::Move(replica, 258, 257, 14));
                    script.push(Case::Move(replica, 257, 258, 14));
                }
            }
        }
    }
}

/// Every pair of node and parent, known or not, in three trees.
fn names(script: &mut Script) {
    for ops in [p1(), unremoved(), removals()] {
        each_at(script, &file_of(&ops), OP_LEN, pairs(3, &NUMBERS));
    }
}

/// Every call of a replica with these numbers.
fn pairs(replica: u8, numbers: &[u16]) -> Vec<Case> {
    let mut cases = vec![];
    for &node in numbers {
        cases.push(Case::Remove(replica, node, ROOM));
        cases.push(Case::Add(replica, node, ROOM));
        let moves = numbers.iter();
        cases.extend(moves.map(|&parent| Case::Move(replica, node, parent, ROOM)));
    }
    cases
}

/// Each call on the same file, with so much room behind it.
fn each_at(script: &mut Script, file: &[u8], room: usize, cases: Vec<Case>) {
    let mut changed = true;
    for case in cases {
        if changed {
            script.load_in(file, file.len() + room);
        }
        // A refused call leaves the file as it was.
        changed = script.push(case).starts_with('a');
    }
}

/// P4: the issue at count 254 is the last one.
fn sequence_edge(script: &mut Script) {
    for replica in [1, 8] {
        script.load_in(&file_of(&[]), HEADER_LEN + OP_LEN * 256);
        for sequence in 1..=256u16 {
            let newest = 256 * u16::from(replica) + sequence - 1;
            let parent = if sequence % 7 == 1 { 0 } else { newest };
            script.push(Case::Add(replica, parent, ROOM));
        }
        script.push(Case::Remove(replica, 0, ROOM));
        script.push(Case::Remove(5, 256 * u16::from(replica) + 255, ROOM));
    }
}

/// Marked nodes, unmarked ones above and below them, and what is no node, as
/// node and as parent; without room, what is accepted else is 8.
fn marked_names(script: &mut Script) {
    let file = file_of(&marked());
    let numbers = [0, 257, 258, 259, 260, 261, 262, 263, 513, 2304];
    // 2 has removed a node, 4 has issued nothing.
    for replica in [2, 4] {
        each_at(script, &file, OP_LEN - 1, pairs(replica, &numbers));
    }
    each_at(script, &file, OP_LEN, pairs(4, &numbers[..7]));
}

/// What replica 4 can issue before it meets the removals is delivered where they
/// are held; after it meets them it can issue the same no more.
fn marked_work(script: &mut Script) {
    let before = file_of(&unmet());
    let after = file_of(&marked());
    let numbers = [0, 257, 258, 259, 260, 261, 262];
    for case in pairs(4, &numbers) {
        script.load_in(&before, after.len() + 2 * OP_LEN);
        if !script.push(case.clone()).starts_with('a') {
            continue;
        }
        let issued = ops(script.buffer()).into_iter().find(|op| op.replica == 4);
        for removal in &marked()[unmet().len()..] {
            script.deliver(&removal.bytes());
        }
        script.push(case.clone());
        if !names_mark(&case) {
            continue;
        }
        script.load_in(&after, after.len() + 2 * OP_LEN);
        script.push(case);
        if let Some(op) = issued {
            script.deliver(&op.bytes());
        }
        look(script);
    }
}

/// Whether an add or move names a marked node of `marked`.
fn names_mark(case: &Case) -> bool {
    let marked = |node: &u16| [257, 261].contains(node);
    match case {
        Case::Add(_, parent, _) => marked(parent),
        Case::Move(_, node, parent, _) => marked(node) || marked(parent),
        _ => false,
    }
}

/// Judging and both views.
fn look(script: &mut Script) {
    script.push(Case::Judge(2041, 2041));
    script.push(Case::Listing(View::Keeping, 200));
    script.push(Case::Listing(View::Skipping, 200));
}

/// Work on a node and below it, before and after its removal is met.
fn a_removal_comes(script: &mut Script) {
    for remover in [1, 2, 4, 8] {
        script.load_in(&file_of(&unmet()), 600);
        let mut there = script.buffer().to_vec();
        // 4 adds 1025 to the node that the remover, not having met it, removes.
        script.push(Case::Add(4, 257, ROOM));
        if remover == 4 {
            script.push(Case::Remove(4, 257, ROOM));
        } else {
            issue_remove(&mut there, remover, 257, &mut [0; OP_LEN]);
            give(script, &there);
        }
        script.extend([
            Case::Add(4, 257, ROOM),
            Case::Add(4, 1025, ROOM),
            Case::Move(4, 1025, 262, ROOM),
            Case::Move(4, 1025, 257, ROOM),
            Case::Move(4, 257, 0, ROOM),
            Case::Remove(4, 257, ROOM),
            Case::Remove(4, 1025, ROOM),
            Case::Remove(4, 1025, ROOM),
            Case::Add(4, 1025, ROOM),
            Case::Move(4, 1025, 0, ROOM),
            Case::Add(4, 0, ROOM),
        ]);
        look(script);
        // The remover met none of this; its log takes it all, and moves on.
        let here = script.buffer().to_vec();
        script.load_in(&there, 600);
        issue_all(script, remover);
        give(script, &here);
        issue_all(script, remover);
        look(script);
    }
}

/// Calls that name what was removed, and 1025, which is not known at first.
fn issue_all(script: &mut Script, replica: u8) {
    script.extend(each(replica, 257, 257, ROOM));
    script.extend(each(replica, 258, 1025, ROOM));
    script.push(Case::Move(replica, 257, 1025, ROOM));
}

/// 9 comes before 11, and 11 before 8.
fn marked_in_full_logs(script: &mut Script) {
    let mut ops = adds(1, 255);
    ops.extend([remove(2, 257, &[255]), remove(3, 300, &[255])]);
    ops.push(add(3, 257, &[255, 0, 1]));
    let file = file_of(&ops);
    for room in [13, 14] {
        script.load_in(&file, file.len() + room);
        for replica in [1, 2, 8] {
            script.extend(each(replica, 257, 257, ROOM));
            script.extend(each(replica, 257, 300, ROOM));
            script.push(Case::Move(replica, 257, 770, ROOM));
            script.push(Case::Move(replica, 258, 300, ROOM));
            script.push(Case::Move(replica, 258, 4000, ROOM));
        }
    }
}

fn damaged_files(script: &mut Script) {
    let rng = &mut Rng::new(31);
    for ops in small_logs() {
        let file = [file_of(&ops), vec![0; OP_LEN]].concat();
        for _ in 0..40 {
            script.load(&damage::random(rng, &file));
            let replica = 1 + rng.below(8) as u8;
            let case = rng.below(3);
            script.push(each(replica, rng.pick(&NUMBERS), 0, ROOM)[case].clone());
        }
    }
}

/// The script's buffer is one replica among others, which it meets.
fn exchanges(script: &mut Script) {
    for seed in 0..14 {
        let rng = &mut Rng::new(300 + seed);
        let replicas = 1 + rng.below(8);
        let steps = 40 + rng.below(80);
        let mut others: Vec<Vec<u8>> = (1..replicas).map(|_| empty()).collect();
        script.load_in(&file_of(&[]), 2000);
        for _ in 0..steps {
            if others.is_empty() || rng.one_in(2) {
                // Any replica may issue here, but mostly the first does.
                let stranger = rng.one_in(20);
                let replica = 1 + rng.below(if stranger { 8 } else { 1 }) as u8;
                issue_here(script, rng, replica);
                continue;
            }
            let at = rng.below(others.len());
            match rng.below(4) {
                0 => give(script, &others[at]),
                1 => give_all(&mut others[at], script.buffer()),
                _ => issue_there(rng, &mut others[at], at as u8 + 2),
            }
        }
    }
}

/// Every call at every replica runs in the script, and so do the rounds after
/// which all have the same file.
fn whole_exchanges(script: &mut Script) {
    for (seed, replicas) in [2, 3, 5, 8, 8].into_iter().enumerate() {
        let rng = &mut Rng::new(400 + seed as u64);
        let mut files: Vec<Vec<u8>> = vec![file_of(&[]); replicas];
        for _ in 0..10 * replicas {
            let at = rng.below(replicas);
            let from = rng.below(replicas);
            visit(script, &mut files[at], |script| {
                issue_here(script, rng, at as u8 + 1);
            });
            if rng.one_in(3) {
                hear(script, rng, &mut files, at, from);
            }
        }
        while files.iter().any(|file| *file != files[0]) {
            for at in 0..replicas {
                let from = rng.below(replicas);
                hear(script, rng, &mut files, at, from);
            }
        }
        script.load(&files[0]);
        script.push(Case::Judge(2041, 2041));
    }
}

/// The ops of one replica, in any order, to another.
fn hear(script: &mut Script, rng: &mut Rng, files: &mut [Vec<u8>], at: usize, from: usize) {
    let mut heard = ops(&files[from]);
    rng.shuffle(&mut heard);
    if files[at] != files[from] {
        visit(script, &mut files[at], |script| {
            for op in heard {
                script.deliver(&op.bytes());
            }
        });
    }
}

/// Calls at one replica: its file is loaded, and kept afterwards.
fn visit(script: &mut Script, file: &mut Vec<u8>, calls: impl FnOnce(&mut Script)) {
    script.load_in(file, 2000);
    calls(script);
    let end = HEADER_LEN + OP_LEN * ops(script.buffer()).len();
    *file = script.buffer()[..end].to_vec();
}

pub(super) fn empty() -> Vec<u8> {
    let mut buffer = vec![0; 4000];
    make(&mut buffer);
    buffer
}

pub(super) fn issue_here(script: &mut Script, rng: &mut Rng, replica: u8) {
    let case = some_issue(rng, script.buffer(), replica);
    script.push(case);
}

/// Some issue of a replica; many are accepted at this buffer.
pub(super) fn some_issue(rng: &mut Rng, buffer: &[u8], replica: u8) -> Case {
    let node = some_node(rng, buffer);
    let parent = some_node(rng, buffer);
    let case = pick_sort(rng);
    each(replica, node, parent, ROOM)[case].clone()
}

pub(super) fn issue_there(rng: &mut Rng, buffer: &mut [u8], replica: u8) {
    let node = some_node(rng, buffer);
    let parent = some_node(rng, buffer);
    let out = &mut [0; OP_LEN];
    match pick_sort(rng) {
        0 => issue_add(buffer, replica, parent, out),
        1 => issue_remove(buffer, replica, node, out),
        _ => issue_move(buffer, replica, node, parent, out),
    };
}

/// 0 add, 1 remove, 2 move.
fn pick_sort(rng: &mut Rng) -> usize {
    rng.pick(&[0, 0, 0, 1, 2, 2, 2, 2])
}

/// Mostly an added node that takes new work, now and then any that an op names,
/// the root or a wrong number.
fn some_node(rng: &mut Rng, buffer: &[u8]) -> u16 {
    let mut ops: Vec<Op> = ops(buffer);
    let sort = rng.below(20);
    if sort > 4 {
        let log = log_of(&ops);
        ops.retain(|op| log.knowledge(&log.held(), op.node) == Knowledge::Unmarked);
    }
    match sort {
        0 => rng.pick(&NUMBERS),
        1 | 2 => 0,
        _ if ops.is_empty() => 0,
        _ => rng.pick(&ops).node,
    }
}

pub(super) fn ops(buffer: &[u8]) -> Vec<Op> {
    Log::open(buffer).map_or(vec![], |log| log.ops().copied().collect())
}

/// Delivers what the script's buffer lacks; early ones come again later.
fn give(script: &mut Script, from: &[u8]) {
    let held = ops(script.buffer());
    for op in ops(from) {
        if !held.contains(&op) {
            script.deliver(&op.bytes());
        }
    }
}

fn give_all(to: &mut [u8], from: &[u8]) {
    for op in ops(from) {
        deliver(to, &op.bytes());
    }
}

/// The last ops of a nearly full log, then only 9.
fn full_logs(script: &mut Script) {
    let rng = &mut Rng::new(32);
    let most = World::random(rng, Style::mixed(8, 2025)).ops;
    script.load_in(&file_of(&most), MAX_FILE);
    for step in 0..120 {
        issue_here(script, rng, 1 + step % 8);
    }
    let file = file_of(&full(rng, Style::moves));
    script.load(&file);
    for replica in [0, 1, 8, 9] {
        script.extend(each(replica, 257, 0, ROOM));
    }
}
