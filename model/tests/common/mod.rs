//! Calls that also check what every call owes: a refused one changes no lent
//! byte, an accepted one changes only what it says and leaves a sound file.

#![allow(dead_code)]

use outline_model::*;

pub use Answer::{Accepted, Count, Done, HadIt, Refused, Waiting};

pub const FULL: usize = 28_592;
pub const MAX_BUNDLE: usize = 28_569;

/// The file in a buffer of this length; what follows it is 0x5a.
pub fn in_buffer(file: &[u8], length: usize) -> Vec<u8> {
    let mut buffer = file.to_vec();
    buffer.resize(length, 0x5a);
    buffer
}

/// The empty file in a buffer of this length.
pub fn empty(length: usize) -> Vec<u8> {
    let mut buffer = vec![0x5a; length];
    assert_eq!(make_checked(&mut buffer), Accepted(32));
    buffer
}

pub fn make_checked(buffer: &mut [u8]) -> Answer {
    let before = buffer.to_vec();
    let answer = make(buffer);
    match answer {
        Accepted(32) => {
            assert_eq!(buffer[..32], [0, 0, 0, 32].repeat(8));
            assert_eq!(buffer[32..], before[32..]);
        }
        Refused(8) => assert_eq!(buffer, before),
        other => panic!("{other:?}"),
    }
    answer
}

pub fn deliver_checked(buffer: &mut [u8], op: &[u8]) -> Answer {
    let before = buffer.to_vec();
    let answer = deliver(buffer, op);
    match answer {
        Accepted(end) => check_added(&before, buffer, op, end),
        HadIt | Refused(1..=8) => assert_eq!(buffer, before),
        other => panic!("{other:?}"),
    }
    answer
}

/// The holdback with these records, of at most 32.
pub fn holdback_from(records: &[Vec<u8>]) -> Vec<u8> {
    let mut holdback = [vec![records.len() as u8], records.concat()].concat();
    assert!(holdback.len() <= 449);
    holdback.resize(449, 0);
    holdback
}

/// The records in a holdback, read by its count alone.
pub fn waiting(holdback: &[u8]) -> Vec<Vec<u8>> {
    let (count, places) = (usize::from(holdback[0]), &holdback[1..]);
    places[..14 * count]
        .chunks(14)
        .map(<[u8]>::to_vec)
        .collect()
}

pub fn holdback_checked(buffer: &mut [u8], op: &[u8], holdback: &mut [u8]) -> Answer {
    let (before, lent) = (buffer.to_vec(), holdback.to_vec());
    let answer = deliver_holdback(buffer, op, holdback);
    match answer {
        Accepted(end) => {
            check_searched(&before, buffer, op, end, &waiting(&lent));
            check_left(buffer, &waiting(&lent), holdback);
        }
        Waiting => {
            assert_eq!(deliver(&mut before.clone(), op), Refused(5));
            let mut records = waiting(&lent);
            if !records.iter().any(|record| record == op) {
                records.push(op.to_vec());
            }
            assert_eq!(holdback, holdback_from(&records));
            assert_eq!(buffer, before);
        }
        // Never 5: its place is taken.
        HadIt | Refused(1..=4 | 6..=8 | 13 | 14) => {
            assert_eq!(buffer, before);
            assert_eq!(holdback, lent);
        }
        other => panic!("{other:?}"),
    }
    answer
}

/// The buffer is the old file with the op and some of those that waited, at most
/// 33 in all, and nothing else changed.
fn check_searched(before: &[u8], after: &[u8], op: &[u8], end: usize, waited: &[Vec<u8>]) {
    assert!(Log::open(after).is_some());
    let (old, new) = (bodies(before), bodies(after));
    assert!(old.iter().all(|body| new.contains(body)));
    let added: Vec<&Vec<u8>> = new.iter().filter(|body| !old.contains(body)).collect();
    assert!(added.iter().any(|&body| body == op));
    assert!(added
        .iter()
        .all(|&body| body == op || waited.contains(body)));
    assert!(added.len() <= 33);
    assert_eq!(end, 32 + 14 * (old.len() + added.len()));
    assert_eq!(after[..end], layout(&new));
    assert_eq!(after[end..], before[end..]);
}

/// After an acceptance: what is left would be refused with 5 or 8, what is gone
/// is held or can never go, and the rest stands as it stood, closed up.
fn check_left(buffer: &[u8], waited: &[Vec<u8>], holdback: &[u8]) {
    let would = |record: &Vec<u8>| deliver(&mut buffer.to_vec(), record);
    let stays = |record: &&Vec<u8>| match would(record) {
        Refused(5 | 8) => true,
        HadIt | Refused(3 | 4 | 6 | 7) => false,
        other => panic!("{other:?}"),
    };
    let left: Vec<Vec<u8>> = waited.iter().filter(stays).cloned().collect();
    assert_eq!(holdback, holdback_from(&left));
}

/// Makes a bundle with so many bytes lent, and hands it back.
pub fn bundle_in(file: &[u8], counts: Vector, room: usize) -> (Answer, Vec<u8>) {
    let mut out = vec![0xee; room];
    let answer = make_bundle(file, counts, &mut out);
    let written = match answer {
        Count(count) => count,
        Refused(1 | 8) => 0,
        other => panic!("{other:?}"),
    };
    assert!(out[written..].iter().all(|&byte| byte == 0xee));
    out.truncate(written);
    (answer, out)
}

/// The bundle of a sound file.
pub fn bundle_checked(file: &[u8], counts: Vector) -> Vec<u8> {
    let (answer, bundle) = bundle_in(file, counts, MAX_BUNDLE);
    assert_eq!(answer, Count(bundle.len()));
    bundle
}

pub fn open_checked(buffer: &mut [u8], bundle: &[u8]) -> Answer {
    let before = buffer.to_vec();
    let answer = open_bundle(buffer, bundle);
    match answer {
        Accepted(end) => check_opened(&before, buffer, &bundled(bundle), end),
        Refused(1 | 3..=8 | 12) => assert_eq!(buffer, before),
        other => panic!("{other:?}"),
    }
    answer
}

/// The buffer is the old file with the ops that it lacked, and nothing else
/// changed.
fn check_opened(before: &[u8], after: &[u8], ops: &[Vec<u8>], end: usize) {
    let mut bodies = bodies(before);
    for op in ops {
        if !bodies.contains(op) {
            bodies.push(op.clone());
        }
    }
    let file = layout(&bodies);
    assert_eq!(file.len(), end);
    assert_eq!(after[..end], file);
    assert_eq!(after[end..], before[end..]);
    assert!(Log::open(after).is_some());
}

/// The bodies of a bundle whose head is right.
pub fn bundled(bundle: &[u8]) -> Vec<Vec<u8>> {
    let head = 1 + bundle[0].count_ones() as usize;
    bundle[head..].chunks(14).map(<[u8]>::to_vec).collect()
}

/// The bundle of these bodies in this order, of at most 255 of each replica.
pub fn bundle_from(bodies: &[Vec<u8>]) -> Vec<u8> {
    let mut bundle = vec![0];
    for replica in 1..=8 {
        let count = bodies.iter().filter(|body| body[1] == replica).count();
        if count > 0 {
            bundle[0] += 1 << (replica - 1);
            bundle.push(count as u8);
        }
    }
    [bundle, bodies.concat()].concat()
}

/// An op to be issued.
#[derive(Clone, Copy, Debug)]
pub enum Issue {
    Add(u16),
    Remove(u16),
    Move(u16, u16),
}

/// Issues with 14 bytes lent, and hands the op back.
pub fn issue_checked(buffer: &mut [u8], replica: u8, issue: Issue) -> (Answer, Vec<u8>) {
    issue_in(buffer, replica, issue, 14)
}

pub fn issue_in(buffer: &mut [u8], replica: u8, issue: Issue, room: usize) -> (Answer, Vec<u8>) {
    let before = buffer.to_vec();
    let mut out = vec![0xee; room];
    let answer = match issue {
        Issue::Add(parent) => issue_add(buffer, replica, parent, &mut out),
        Issue::Remove(node) => issue_remove(buffer, replica, node, &mut out),
        Issue::Move(node, parent) => issue_move(buffer, replica, node, parent, &mut out),
    };
    match answer {
        Accepted(end) => {
            check_added(&before, buffer, &out[..14], end);
            assert!(out[14..].iter().all(|&byte| byte == 0xee));
            // An issued op is one that could have been delivered.
            let mut other = before;
            assert_eq!(deliver(&mut other, &out[..14]), Accepted(end));
            assert_eq!(buffer, other);
        }
        Refused(number) => {
            let all = [1, 2, 3, 7, 8, 9];
            let own: &[u8] = match issue {
                Issue::Add(_) => &[11],
                Issue::Remove(_) => &[],
                Issue::Move(..) => &[10, 11],
            };
            assert!(all.contains(&number) || own.contains(&number), "{number}");
            assert_eq!(buffer, before);
            assert!(out.iter().all(|&byte| byte == 0xee));
        }
        other => panic!("{other:?}"),
    }
    (answer, out)
}

/// Issues a batch with so many bytes lent, and hands these back.
pub fn batch_in(
    buffer: &mut [u8],
    replica: u8,
    parent: u16,
    nodes: &[u16],
    room: usize,
) -> (Answer, Vec<u8>) {
    let before = buffer.to_vec();
    let mut out = vec![0xee; room];
    let answer = issue_moves(buffer, replica, nodes, parent, &mut out);
    match answer {
        Accepted(end) => {
            let (ops, rest) = out.split_at(14 * nodes.len());
            assert!(rest.iter().all(|&byte| byte == 0xee));
            check_batch(&before, buffer, ops, end);
            for (op, node) in ops.chunks(14).zip(nodes) {
                assert!(op[0] == 3 || op[0] == 4);
                assert_eq!(op[1], replica);
                assert_eq!(op[2..4], node.to_be_bytes());
                assert_eq!(op[4..6], parent.to_be_bytes());
            }
        }
        Refused(1 | 2 | 3 | 7..=11) => {
            assert_eq!(buffer, before);
            assert!(out.iter().all(|&byte| byte == 0xee));
        }
        other => panic!("{other:?}"),
    }
    (answer, out)
}

/// The buffer is what delivering the ops one after another leaves. Each of them is
/// applied when it comes, and after the last of them too.
fn check_batch(before: &[u8], after: &[u8], ops: &[u8], end: usize) {
    let mut other = before.to_vec();
    let mut last = 32 + 14 * bodies(before).len();
    for op in ops.chunks(14) {
        assert_eq!(deliver_checked(&mut other, op), Accepted(last + 14));
        last += 14;
        assert_eq!(outcome_of(&other, op), 1);
    }
    assert_eq!(last, end);
    assert_eq!(after, other);
    assert!(ops.chunks(14).all(|op| outcome_of(after, op) == 1));
}

/// The outcome of a held op, given by its bytes.
pub fn outcome_of(file: &[u8], op: &[u8]) -> u8 {
    let replica = usize::from(op[1]);
    outcome(file, replica, usize::from(op[5 + replica]) + 1)
}

/// A call that a page goes with.
#[derive(Clone, Debug)]
pub enum PageCall {
    Deliver(Vec<u8>),
    /// Of a replica, with so many bytes lent for the op.
    Issue(u8, Issue, usize),
}

impl PageCall {
    /// The plain call, with what it put in the lent bytes.
    fn plainly(&self, buffer: &mut [u8]) -> (Answer, Vec<u8>) {
        match self {
            PageCall::Deliver(op) => (deliver_checked(buffer, op), vec![]),
            PageCall::Issue(replica, issue, room) => issue_in(buffer, *replica, *issue, *room),
        }
    }

    fn with_page(&self, buffer: &mut [u8], page: Page) -> ((Answer, usize), Vec<u8>) {
        let (replica, issue, room) = match self {
            PageCall::Deliver(op) => return (deliver_page(buffer, op, page), vec![]),
            PageCall::Issue(replica, issue, room) => (*replica, *issue, *room),
        };
        let mut out = vec![0xee; room];
        let both = match issue {
            Issue::Add(parent) => issue_add_page(buffer, replica, parent, &mut out, page),
            Issue::Remove(node) => issue_remove_page(buffer, replica, node, &mut out, page),
            Issue::Move(node, parent) => {
                issue_move_page(buffer, replica, node, parent, &mut out, page)
            }
        };
        (both, out)
    }
}

/// What a call with a page came to.
#[derive(Clone, Debug)]
pub struct Paged {
    pub answer: Answer,
    pub taken: usize,
    /// The bytes lent for an issued op.
    pub out: Vec<u8>,
}

/// The call does to buffer and op what the plain one does, unless the page is
/// short. The page is that of the new log if it accepts, and as before else.
pub fn page_checked(buffer: &mut [u8], call: &PageCall, page: &mut Tables) -> Paged {
    let (before, lent) = (buffer.to_vec(), page.clone());
    let mut other = buffer.to_vec();
    let (mut plain, mut written) = call.plainly(&mut other);
    if is_short(page) && plain != Refused(1) {
        (plain, other) = (Refused(2), before.clone());
        written.fill(0xee);
    }
    let ((answer, taken), out) = call.with_page(buffer, page.lend());
    assert_eq!(answer, plain);
    assert_eq!(buffer, other);
    assert_eq!(out, written);
    if let Accepted(_) = answer {
        let renewed = put_over(&lent, &fresh_page(buffer));
        assert!(*page == renewed, "the page is not that of the log");
        assert_eq!(taken, taken_by_definition(&before, buffer, &lent));
    } else {
        assert!(*page == lent, "a page changed without an acceptance");
        assert_eq!(taken, 0);
    }
    Paged { answer, taken, out }
}

pub fn is_short(page: &Tables) -> bool {
    page.order.len() < 2040 || page.parents.len() < 2041 || page.outcomes.len() < 2041
}

/// The tables with these at their front.
fn put_over(lent: &Tables, front: &Tables) -> Tables {
    let mut page = lent.clone();
    page.order[..2040].copy_from_slice(&front.order);
    page.parents[..2041].copy_from_slice(&front.parents);
    page.outcomes[..2041].copy_from_slice(&front.outcomes);
    page
}

/// All that were held if the page was not that of the log, else those of them
/// that sort after the new one.
fn taken_by_definition(before: &[u8], after: &[u8], page: &Tables) -> usize {
    let (old, new) = (order_of(before), order_of(after));
    if *page != put_over(page, &fresh_page(before)) {
        return old.len();
    }
    let mut from_the_end = new.iter().rev();
    let after_new = from_the_end.position(|slot| !old.contains(slot));
    after_new.expect("an accepted op is new")
}

/// The page of a sound file.
pub fn fresh_page(file: &[u8]) -> Tables {
    let (parents, outcomes) = judged(file);
    let mut order = order_of(file);
    order.resize(2040, 0);
    Tables {
        order,
        parents,
        outcomes,
    }
}

/// The slots of all ops in judging order, by the definitions.
pub fn order_of(file: &[u8]) -> Vec<u16> {
    let mut bodies = bodies(file);
    let own = |body: &[u8]| {
        (
            usize::from(body[1]),
            usize::from(body[5 + usize::from(body[1])]) + 1,
        )
    };
    // Those that an op counts have lesser sums than it has.
    bodies.sort_by_key(|body| body[6..].iter().copied().map(u32::from).sum::<u32>());
    let mut timestamps: Vec<usize> = vec![];
    for body in &bodies {
        let within = |&at: &usize| {
            let (replica, sequence) = own(&bodies[at]);
            sequence <= usize::from(body[5 + replica])
        };
        let counted = (0..timestamps.len()).filter(within);
        let greatest = counted.map(|at| timestamps[at]).max();
        timestamps.push(1 + greatest.unwrap_or(0));
    }
    let mut ops: Vec<(usize, u8, usize, usize)> = vec![];
    for (body, timestamp) in bodies.iter().zip(timestamps) {
        let (replica, sequence) = own(body);
        // The higher replica comes first.
        ops.push((
            timestamp,
            body[0],
            8 - replica,
            255 * (replica - 1) + sequence,
        ));
    }
    ops.sort_unstable();
    ops.into_iter().map(|(_, _, _, slot)| slot as u16).collect()
}

/// The buffer is the old file with one op more, and nothing else changed.
fn check_added(before: &[u8], after: &[u8], op: &[u8], end: usize) {
    let mut bodies = bodies(before);
    bodies.push(op.to_vec());
    let file = layout(&bodies);
    assert_eq!(file.len(), end);
    assert_eq!(after[..end], file);
    assert_eq!(after[end..], before[end..]);
    assert!(Log::open(after).is_some());
}

/// Judges with tables of the given lengths.
pub fn judge_in(file: &[u8], parents: usize, outcomes: usize) -> (Answer, Vec<u16>, Vec<u8>) {
    let mut parents = vec![0xeeee; parents];
    let mut outcomes = vec![0xee; outcomes];
    let answer = judge(file, &mut parents, &mut outcomes);
    let written = match answer {
        Done => 2041,
        Refused(1 | 2) => 0,
        other => panic!("{other:?}"),
    };
    assert!(parents[written..].iter().all(|&entry| entry == 0xeeee));
    assert!(outcomes[written..].iter().all(|&entry| entry == 0xee));
    (answer, parents, outcomes)
}

/// The judged tables of a sound file.
pub fn judged(file: &[u8]) -> (Vec<u16>, Vec<u8>) {
    let (answer, parents, outcomes) = judge_in(file, 2041, 2041);
    assert_eq!(answer, Done);
    (parents, outcomes)
}

/// The outcome of one op.
pub fn outcome(file: &[u8], replica: usize, sequence: usize) -> u8 {
    judged(file).1[255 * (replica - 1) + sequence]
}

pub fn path_in(file: &[u8], node: u16, room: usize) -> (Answer, Vec<u16>) {
    let mut out = vec![0xeeee; room];
    let answer = path(file, node, &mut out);
    let written = match answer {
        Count(count) => count,
        Refused(1 | 7 | 8) => 0,
        other => panic!("{other:?}"),
    };
    assert!(out[written..].iter().all(|&entry| entry == 0xeeee));
    out.truncate(written);
    (answer, out)
}

pub fn listing_in(file: &[u8], view: View, room: usize) -> (Answer, String) {
    let mut out = vec![0xee; room];
    let answer = listing(file, view, &mut out);
    let written = match answer {
        Count(count) => count,
        Refused(1 | 8) => 0,
        other => panic!("{other:?}"),
    };
    assert!(out[written..].iter().all(|&byte| byte == 0xee));
    out.truncate(written);
    (answer, String::from_utf8(out).unwrap())
}

pub fn listed(file: &[u8], view: View) -> String {
    listing_in(file, view, 24_000).1
}

/// The bodies of a sound file, read by its counts alone.
pub fn bodies(file: &[u8]) -> Vec<Vec<u8>> {
    let count: usize = (0..8)
        .map(|i| usize::from(file[4 * i]) * 256 + usize::from(file[4 * i + 1]))
        .sum();
    let end = 32 + 14 * count;
    file[32..end].chunks(14).map(<[u8]>::to_vec).collect()
}

/// The file of these bodies; those of one replica stand in their order.
pub fn layout(bodies: &[Vec<u8>]) -> Vec<u8> {
    let mut header = vec![];
    let mut rest = vec![];
    for replica in 1..=8 {
        let own: Vec<&Vec<u8>> = bodies.iter().filter(|body| body[1] == replica).collect();
        let start = 32 + rest.len();
        header.extend([0, own.len() as u8, (start / 256) as u8, (start % 256) as u8]);
        own.iter().for_each(|body| rest.extend_from_slice(body));
    }
    [header, rest].concat()
}
