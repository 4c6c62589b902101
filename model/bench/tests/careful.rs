//! The measured Rust answers and leaves behind what the model does.

#[path = "../src/distance.rs"]
mod distance;

use distance::{chain, Distance};
use outline_bench::careful;
use outline_model::cases::world::{self, full, orders, part, Style, World};
use outline_model::cases::{damage, examples};
use outline_model::rng::Rng;
use outline_model::{
    refusal, tree, Answer, Knowledge, Log, Op, Page, Tables, Tree, Vector, View, MAX_FILE,
    ORDER_LEN, SLOTS,
};

fn both<T: Clone + PartialEq + std::fmt::Debug, U: Clone + PartialEq + std::fmt::Debug>(
    one: &[T],
    two: &[U],
    careful: impl FnOnce(&mut [T], &mut [U]) -> Answer,
    model: impl FnOnce(&mut [T], &mut [U]) -> Answer,
) -> (Vec<T>, Vec<U>) {
    let (mut a, mut b) = (one.to_vec(), two.to_vec());
    let (mut c, mut d) = (one.to_vec(), two.to_vec());
    assert_eq!(careful(&mut a, &mut b), model(&mut c, &mut d));
    assert!(a == c && b == d);
    (a, b)
}

/// Every call on a buffer.
fn all_calls(rng: &mut Rng, buffer: &[u8], ops: &[Op]) {
    both(
        buffer,
        &[0u8; 0],
        |b, _| careful::make(b),
        |b, _| outline_model::make(b),
    );
    for _ in 0..12 {
        let mut op = if ops.is_empty() {
            vec![1; 14]
        } else {
            rng.pick(ops).bytes().to_vec()
        };
        if rng.one_in(3) {
            op = damage::record(rng, &op);
        }
        both(
            buffer,
            &op,
            |b, o| careful::deliver(b, o),
            |b, o| outline_model::deliver(b, o),
        );
        let node = if ops.is_empty() || rng.one_in(5) {
            0
        } else {
            rng.pick(ops).node
        };
        let parent = if ops.is_empty() || rng.one_in(5) {
            0
        } else {
            rng.pick(ops).node
        };
        let replica = rng.below(10) as u8;
        let room = vec![7u8; rng.pick(&[14, 14, 14, 20, 13])];
        both(
            buffer,
            &room,
            |b, o| careful::issue_add(b, replica, parent, o),
            |b, o| outline_model::issue_add(b, replica, parent, o),
        );
        both(
            buffer,
            &room,
            |b, o| careful::issue_remove(b, replica, node, o),
            |b, o| outline_model::issue_remove(b, replica, node, o),
        );
        both(
            buffer,
            &room,
            |b, o| careful::issue_move(b, replica, node, parent, o),
            |b, o| outline_model::issue_move(b, replica, node, parent, o),
        );
        let entries = vec![7u16; rng.pick(&[SLOTS, SLOTS, 3, 1])];
        both(
            buffer,
            &entries,
            |b, o| careful::path(b, node, o),
            |b, o| outline_model::path(b, node, o),
        );
    }
    let length = rng.pick(&[SLOTS, SLOTS + 3, SLOTS - 1]);
    both(
        &vec![7u16; length],
        &vec![7u8; SLOTS],
        |p, o| careful::judge(buffer, p, o),
        |p, o| outline_model::judge(buffer, p, o),
    );
    for bundle in [
        vec![],
        vec![0],
        examples::bundle_of(&ops[..ops.len().min(9)]),
    ] {
        open(buffer, &bundle);
    }
    for _ in 0..6 {
        some_batch(rng, buffer, ops);
    }
    for holdback in [vec![], vec![0; 449], examples::holdback_of(&examples::p1())] {
        let op = ops.first().map_or(vec![1; 14], |op| op.bytes().to_vec());
        deliver_holdback(buffer, &op, &holdback);
    }
    let page = Log::open(buffer).map_or(Tables::default(), |log| Tables::of(&log));
    for page in [
        damage::page(rng, &Tables::of(&Log::default())),
        page,
        Tables::default(),
    ] {
        for _ in 0..4 {
            some_page_call(rng, ops, &mut buffer.to_vec(), &mut page.clone());
        }
    }
    make(
        buffer,
        counts_near(rng, [3; 8]),
        rng.pick(&[0, 1, 300, 30_000]),
    );
    for view in [View::Keeping, View::Skipping] {
        let text = vec![7u8; rng.pick(&[24_492, 100, 20, 0])];
        both(
            buffer,
            &text,
            |b, o| careful::listing(b, view, o),
            |b, o| outline_model::listing(b, view, o),
        );
    }
}

fn make(file: &[u8], counts: Vector, room: usize) {
    both(
        file,
        &vec![7u8; room],
        |f, o| careful::make_bundle(f, counts, o),
        |f, o| outline_model::make_bundle(f, counts, o),
    );
}

/// Opens at both, and hands the answer back.
fn open(buffer: &[u8], bundle: &[u8]) -> Answer {
    let mut answer = Answer::Done;
    both(
        buffer,
        bundle,
        |b, o| careful::open_bundle(b, o),
        |b, o| {
            answer = outline_model::open_bundle(b, o);
            answer
        },
    );
    answer
}

/// Delivers with a holdback at both, and hands back the answer, the buffer and the
/// holdback.
fn deliver_holdback(buffer: &[u8], op: &[u8], holdback: &[u8]) -> (Answer, Vec<u8>, Vec<u8>) {
    let mut answer = Answer::Done;
    let (buffer, holdback) = both(
        buffer,
        holdback,
        |b, t| careful::deliver_holdback(b, op, t),
        |b, t| {
            answer = outline_model::deliver_holdback(b, op, t);
            answer
        },
    );
    (answer, buffer, holdback)
}

/// A bit more or less than these, or any below them.
fn counts_near(rng: &mut Rng, counts: Vector) -> Vector {
    match rng.below(4) {
        0 => counts,
        1 => [0; 8],
        2 => counts.map(|count| count.saturating_add(rng.byte() % 3)),
        _ => counts.map(|count| rng.below(usize::from(count) + 1) as u8),
    }
}

#[test]
fn short_logs() {
    let mut rng = Rng::new(1);
    for round in 0..600 {
        let style = [Style::moves, Style::mixed][round % 2](1 + round % 8, rng.below(60));
        let ops = World::random(&mut rng, style).ops;
        let held = rng.below(ops.len() + 1);
        let mut buffer = examples::file_of(&ops[..held]);
        if round % 3 == 0 {
            buffer = damage::random(&mut rng, &buffer);
        }
        buffer.resize(buffer.len() + rng.pick(&[0, 13, 14, 300]), 9);
        all_calls(&mut rng, &buffer, &ops);
    }
}

#[test]
fn full_logs() {
    let mut rng = Rng::new(2);
    for ops in [
        examples::longest_chain(),
        full(&mut rng, Style::moves),
        full(&mut rng, Style::mixed),
    ] {
        for held in [2040, 2039, 1500] {
            let mut buffer = examples::file_of(&ops[..held]);
            buffer.resize(MAX_FILE, 9);
            all_calls(&mut rng, &buffer, &ops);
        }
    }
}

/// Issues with marked, unmarked and unknown nodes in every place.
#[test]
fn marked_nodes() {
    let mut buffer = examples::file_of(&examples::marked());
    let room = [7u8; 14];
    for more in [13, 1] {
        buffer.resize(buffer.len() + more, 9);
        for node in [0, 257, 258, 259, 260, 261, 262, 263, 513] {
            both(
                &buffer,
                &room,
                |b, o| careful::issue_add(b, 4, node, o),
                |b, o| outline_model::issue_add(b, 4, node, o),
            );
            both(
                &buffer,
                &room,
                |b, o| careful::issue_remove(b, 4, node, o),
                |b, o| outline_model::issue_remove(b, 4, node, o),
            );
            for parent in [0, 257, 258, 259, 260, 261, 262, 263, 513] {
                both(
                    &buffer,
                    &room,
                    |b, o| careful::issue_move(b, 4, node, parent, o),
                    |b, o| outline_model::issue_move(b, 4, node, parent, o),
                );
            }
        }
    }
}

/// Moves under the deepest node of a chain are refused and passed over, or not,
/// as their distance says.
#[test]
fn distances() {
    for distance in [Distance::Near, Distance::Far, Distance::Beside] {
        for size in [8, 100, 1000, 2040] {
            issue_over(distance, size);
            judge_over(distance, size);
        }
    }
}

fn issue_over(distance: Distance, size: usize) {
    let ops = chain(size.min(2039));
    let (node, parent) = distance.names(&ops);
    let mut buffer = examples::file_of(&ops);
    let end = buffer.len() + 14;
    buffer.resize(end, 9);
    let expected = if distance.is_met() {
        Answer::Refused(refusal::BELOW_ITSELF)
    } else {
        Answer::Accepted(end)
    };
    both(
        &buffer,
        &[7u8; 14],
        |b, o| careful::issue_move(b, 8, node, parent, o),
        |b, o| {
            let answer = outline_model::issue_move(b, 8, node, parent, o);
            assert_eq!(answer, expected);
            answer
        },
    );
}

fn judge_over(distance: Distance, size: usize) {
    let buffer = examples::file_of(&distance.moves(size));
    let (_, outcomes) = both(
        &[7u16; SLOTS],
        &[7u8; SLOTS],
        |p, o| careful::judge(&buffer, p, o),
        |p, o| outline_model::judge(&buffer, p, o),
    );
    // The ops fill replica after replica, so their slots are in their order.
    let (adds, moves) = outcomes[1..=size].split_at(size / 2);
    let expected = if distance.is_met() {
        tree::BELOW_NODE
    } else {
        tree::APPLIED
    };
    assert!(adds.iter().all(|&outcome| outcome == tree::APPLIED));
    assert!(moves.iter().all(|&outcome| outcome == expected));
}

/// The steps of a climb are those of the model's path to the node, or the depth.
#[test]
fn climbs() {
    let mut rng = Rng::new(9);
    for ops in [
        examples::longest_chain(),
        examples::turns(2040),
        chain(2040),
        full(&mut rng, Style::moves),
    ] {
        let tree = Tree::judge(&examples::log_of(&ops));
        let parents = tree.parents[..].try_into().expect("2,041 entries");
        let nodes: Vec<u16> = tree.nodes().chain([0]).collect();
        let mut met = [0; 2];
        for _ in 0..3000 {
            let (from, node) = (rng.pick(&nodes), rng.pick(&nodes));
            let climb = careful::climb_to(parents, from, node);
            let place = tree.path(from).position(|above| above == node);
            assert_eq!(climb.met, place.is_some());
            assert_eq!(climb.steps, place.unwrap_or(tree.depth(from)));
            met[usize::from(climb.met)] += 1;
        }
        assert!(met[0] > 10 && met[1] > 10, "{met:?}");
    }
}

/// Moves between the ends of two deep chains: one step settles which are upward.
#[test]
fn two_chains() {
    for [one, two] in [[1018, 1019], [1019, 1019], [1019, 1018]] {
        let mut ops = examples::longest_chain()[..one + two].to_vec();
        ops[one].parent = 0;
        let [node, parent] = [ops[one - 1].node, ops[one + two - 1].node];
        let mut buffer = examples::file_of(&ops);
        buffer.resize(buffer.len() + 14, 9);
        let (_, op) = both(
            &buffer,
            &[7u8; 14],
            |b, o| careful::issue_move(b, 8, node, parent, o),
            |b, o| outline_model::issue_move(b, 8, node, parent, o),
        );
        assert_eq!(op[0], if two < one { 3 } else { 4 });
    }
}

/// An exchange takes one pass, and leaves the same file.
#[test]
fn exchanges() {
    let mut rng = Rng::new(3);
    for round in 0..40 {
        let style = [Style::moves, Style::mixed][round % 2](1 + round % 8, rng.below(200));
        let file = examples::file_of(&World::random(&mut rng, style).ops);
        let mut to = vec![0; file.len()];
        careful::make(&mut to);
        assert_eq!(careful::exchange(&file, &mut to), Answer::Done);
        assert_eq!(to, file);
        assert_eq!(careful::exchange(&file, &mut to), Answer::Done);
        assert_eq!(to, file);
    }
    let unsound = Answer::Refused(refusal::UNSOUND);
    assert_eq!(careful::exchange(&[], &mut [0; 40]), unsound);
}

/// Bundles for counts that are reached and others, made with more and less lent
/// than they need, and opened as made, in another order and damaged.
#[test]
fn bundles() {
    let mut rng = Rng::new(4);
    let mut seen = [0; 13];
    for round in 0..3000 {
        let style = [Style::moves, Style::mixed][round % 2](1 + round % 8, rng.below(50));
        let world = World::random(&mut rng, style).ops;
        let lost = rng.pick(&[5, 20, 60]);
        let (from, to) = (part(&mut rng, &world, lost), part(&mut rng, &world, lost));
        let counts = counts_near(&mut rng, examples::log_of(&to).held());
        let file = examples::file_of(&from);
        let mut bundle = examples::bundle_for(&file, counts);
        let length = bundle.len();
        for room in [0, length - 1, length, length + 9] {
            make(&file, counts, room);
        }
        let mut ops = from;
        match rng.below(8) {
            0 => {
                rng.shuffle(&mut ops);
                ops.truncate(8);
                bundle = examples::bundle_of(&ops);
            }
            1..=3 => bundle = damage::record(&mut rng, &bundle),
            // A count of a vector, where there is one.
            4 if length > 14 => bundle[length - 1 - round % 8] ^= 1,
            _ => {}
        }
        let mut room = 14 * (world.len() - to.len());
        if rng.one_in(4) {
            room = rng.below(room + 1);
        }
        let mut buffer = examples::file_of(&to);
        buffer.resize(buffer.len() + room, 9);
        match open(&buffer, &bundle) {
            Answer::Refused(number) => seen[usize::from(number)] += 1,
            _ => seen[0] += 1,
        }
    }
    for number in [0, 3, 4, 5, 6, 7, 8, 12] {
        assert!(seen[number] > 10, "{seen:?}");
    }
}

/// Every byte of a bundle changed, and every length.
#[test]
fn damaged_bundles() {
    for ops in examples::small_logs() {
        let half = part(&mut Rng::new(5), &ops, 3);
        let counts = examples::log_of(&half).held();
        let bundle = examples::bundle_for(&examples::file_of(&ops), counts);
        let mut buffer = examples::file_of(&half);
        buffer.resize(buffer.len() + 14 * ops.len(), 9);
        for damaged in damage::changed(&bundle).chain(damage::cut(&bundle)) {
            open(&buffer, &damaged);
            open(&buffer, &[damaged, vec![1]].concat());
        }
    }
    // Any head with any number of bytes behind it.
    let buffer = examples::file_of(&[]);
    for bits in 0..=255 {
        for rest in 0..=9 {
            for count in [0, 1, 255] {
                open(&buffer, &[vec![bits], vec![count; rest]].concat());
            }
        }
    }
}

#[test]
fn large_bundles() {
    let mut rng = Rng::new(6);
    for ops in [
        full(&mut rng, Style::moves),
        full(&mut rng, Style::mixed),
        examples::longest_chain(),
    ] {
        let file = examples::file_of(&ops);
        for room in [28_569, 28_568, 28_600] {
            make(&file, [0; 8], room);
        }
        let held = [0, 1000, 2000, 2040].map(|held| &ops[..held]);
        for held in held {
            let counts = examples::log_of(held).held();
            let bundle = examples::bundle_for(&file, counts);
            make(&file, counts, bundle.len());
            let mut buffer = examples::file_of(held);
            buffer.resize(MAX_FILE, 9);
            assert_eq!(open(&buffer, &bundle), Answer::Accepted(MAX_FILE));
            buffer.pop();
            open(&buffer, &bundle);
        }
    }
}

/// Every count of every vector, one more and one less.
#[test]
fn changed_counts() {
    let mut rng = Rng::new(3);
    let mut sound = [0; 2];
    for round in 0..40 {
        let ops = World::random(&mut rng, Style::mixed(1 + round % 8, 30)).ops;
        let file = examples::file_of(&ops);
        for body in 0..ops.len() {
            for count in 0..8 {
                for change in [1, 255] {
                    let mut buffer = file.clone();
                    let at = 32 + 14 * body + 6 + count;
                    buffer[at] = buffer[at].wrapping_add(change);
                    let root = [7u16; 1];
                    let answer = careful::path(&buffer, 0, &mut root.clone());
                    assert_eq!(answer, outline_model::path(&buffer, 0, &mut root.clone()));
                    sound[usize::from(matches!(answer, Answer::Refused(_)))] += 1;
                }
            }
        }
    }
    assert!(sound[0] > 100 && sound[1] > 100, "{sound:?}");
}

/// Parts of worlds with holdbacks of the rest of them, and of any other content. Each
/// call is lent what the last one left.
#[test]
fn holdbacks() {
    let mut rng = Rng::new(7);
    let mut refused = [0; 15];
    let [mut accepted, mut had_it, mut waiting, mut freed] = [0; 4];
    for round in 0..8000 {
        let style = [Style::moves, Style::mixed][round % 2](1 + round % 8, 1 + rng.below(50));
        let ops = World::random(&mut rng, style).ops;
        let share = rng.below(ops.len() + 1);
        let held = part(&mut rng, &ops[..share], 40);
        let mut buffer = examples::file_of(&held);
        let room = rng.pick(&[0, 13, 14, 60, 700, 700, 700]);
        buffer.resize(buffer.len() + room, 9);
        if rng.one_in(25) {
            buffer = damage::random(&mut rng, &buffer);
        }
        let counts = examples::log_of(&held).held();
        let mut holdback = world::holdback(&mut rng, &ops, &counts);
        match rng.below(25) {
            0 => holdback = damage::holdback(&mut rng, &holdback),
            1 => holdback = damage::random(&mut rng, &holdback),
            2 => holdback = (0..449).map(|_| rng.byte()).collect(),
            _ => {}
        }
        let next = ops
            .iter()
            .find(|op| op.sequence() > usize::from(counts[op.index()]));
        for call in 0..3 {
            let op = match next {
                Some(op) if call == 0 => *op,
                _ => rng.pick(&ops),
            };
            let mut op = op.bytes().to_vec();
            if rng.one_in(5) {
                op = damage::record(&mut rng, &op);
            }
            let end = outline_model::file_end(&buffer);
            let answer;
            (answer, buffer, holdback) = deliver_holdback(&buffer, &op, &holdback);
            match (end, answer) {
                (Answer::Count(old), Answer::Accepted(new)) => {
                    accepted += 1;
                    freed += (new - old) / 14 - 1;
                }
                (_, Answer::HadIt) => had_it += 1,
                (_, Answer::Waiting) => waiting += 1,
                (_, Answer::Refused(number)) => refused[usize::from(number)] += 1,
                other => panic!("{other:?}"),
            }
        }
    }
    for number in [1, 2, 3, 4, 6, 7, 8, 13, 14] {
        assert!(refused[number] > 20, "{refused:?}");
    }
    assert!(had_it > 500 && waiting > 500, "{had_it} {waiting}");
    assert!(accepted > 3000 && freed > 3000, "{accepted} {freed}");
}

/// Every byte of a small holdback changed, and every length.
#[test]
fn damaged_holdbacks() {
    for ops in examples::small_logs() {
        let waiting: Vec<Op> = ops.iter().skip(1).rev().copied().collect();
        let holdback = examples::holdback_of(&waiting);
        let op = ops.first().map_or(vec![1; 14], |op| op.bytes().to_vec());
        let mut buffer = examples::file_of(&[]);
        buffer.resize(buffer.len() + 14 * ops.len(), 9);
        for damaged in damage::changed(&holdback).chain(damage::cut(&holdback)) {
            deliver_holdback(&buffer, &op, &damaged);
            deliver_holdback(&buffer, &op, &[damaged, vec![0]].concat());
        }
    }
}

/// A chain of 33 in any order, at a short log and at one that it fills.
#[test]
fn chains() {
    let mut rng = Rng::new(8);
    for ops in [examples::turns(2040), examples::longest_chain()] {
        for end in [33, 500, 2040] {
            let (held, chain) = ops[..end].split_at(end - 33);
            let mut waiting = chain[1..].to_vec();
            waiting.reverse();
            for room in [33, 33, 32, 20, 0] {
                let mut buffer = examples::file_of(held);
                let first = chain[0].bytes();
                buffer.resize(buffer.len() + 14 * room, 9);
                deliver_holdback(&buffer, &first, &examples::holdback_of(&waiting));
                deliver_holdback(
                    &buffer,
                    &waiting[3].bytes(),
                    &examples::holdback_of(&waiting),
                );
                deliver_holdback(
                    &buffer,
                    &waiting[3].bytes(),
                    &examples::holdback_of(&waiting[4..]),
                );
                rng.shuffle(&mut waiting);
            }
        }
    }
}

/// Issues a batch at both, with so many bytes lent, and hands the answer and the
/// buffer back.
fn issue_moves(
    buffer: &[u8],
    replica: u8,
    nodes: &[u16],
    parent: u16,
    room: usize,
) -> (Answer, Vec<u8>) {
    let mut answer = Answer::Done;
    let (buffer, _) = both(
        buffer,
        &vec![7u8; room],
        |b, o| careful::issue_moves(b, replica, nodes, parent, o),
        |b, o| {
            answer = outline_model::issue_moves(b, replica, nodes, parent, o);
            answer
        },
    );
    (answer, buffer)
}

/// A batch of which most nodes can go under the parent, with the right output or
/// about that.
fn some_batch(rng: &mut Rng, buffer: &[u8], ops: &[Op]) -> (Answer, Vec<u8>) {
    let log = Log::open(buffer).unwrap_or_default();
    let tree = Tree::judge(&log);
    let mut nodes: Vec<u16> = tree.nodes().collect();
    if !rng.one_in(6) {
        nodes.retain(|&node| log.knowledge(&log.held(), node) == Knowledge::Unmarked);
    }
    let parent = match nodes[..] {
        [] => 0,
        _ if rng.one_in(5) => rng.pick(&[0, 0, 0, 513, 4000]),
        _ => rng.pick(&nodes),
    };
    if !rng.one_in(6) && (parent == 0 || nodes.contains(&parent)) {
        let path: Vec<u16> = tree.path(parent).collect();
        nodes.retain(|node| !path.contains(node));
    }
    let count = rng.pick(&[0, 1, 2, 3, 4, 7, 15, 16, 16, 17]);
    let mut list = vec![0; if nodes.is_empty() { 0 } else { count }];
    list.fill_with(|| rng.pick(&nodes));
    if rng.one_in(5) && !ops.is_empty() {
        list.insert(rng.below(list.len() + 1), rng.pick(ops).node);
    }
    let exact = 14 * list.len();
    let room = rng.pick(&[exact, exact, exact, exact + 9, exact.saturating_sub(1)]);
    let replica = rng.pick(&[0, 1, 2, 3, 4, 5, 6, 7, 8, 9]);
    issue_moves(buffer, replica, &list, parent, room)
}

/// Batches one after another in random logs, shallow and deep.
#[test]
fn batches() {
    let mut rng = Rng::new(13);
    let mut refused = [0; 12];
    let [mut accepted, mut moves] = [0; 2];
    for round in 0..2500 {
        let style = [Style::moves, Style::mixed][round % 2](1 + round % 8, 1 + rng.below(50));
        let deep = world::Deep {
            chains: 1 + rng.below(3),
            length: 3 + rng.below(20),
            moves: rng.below(20),
        };
        let ops = match round % 3 {
            0 => World::deep(&mut rng, deep).ops,
            _ => World::random(&mut rng, style).ops,
        };
        let mut buffer = examples::file_of(&ops);
        let room = rng.pick(&[0, 13, 14, 60, 224, 700, 700]);
        buffer.resize(buffer.len() + room, 9);
        if rng.one_in(25) {
            buffer = damage::random(&mut rng, &buffer);
        }
        for _ in 0..4 {
            let before = Log::open(&buffer).map_or(0, |log| log.ops().count());
            let answer;
            (answer, buffer) = some_batch(&mut rng, &buffer, &ops);
            match answer {
                Answer::Accepted(end) => {
                    accepted += 1;
                    moves += (end - 32) / 14 - before;
                }
                Answer::Refused(number) => refused[usize::from(number)] += 1,
                other => panic!("{other:?}"),
            }
        }
    }
    for number in [1, 2, 3, 7, 8, 10, 11] {
        assert!(refused[number] > 50, "{refused:?}");
    }
    assert!(accepted > 1000 && moves > 3000, "{accepted} {moves}");
}

/// Each of these in each place of a list, with room for so many moves, at replicas
/// that have so many ops left.
#[test]
fn refused_batches() {
    let mut seen = [0; 12];
    for held in [5, 252, 253, 254, 255] {
        let mut ops = examples::adds(1, held);
        // 257 > 258, which is the parent; 259 is removed.
        ops[1].parent = 257;
        ops.push(examples::remove(2, 259, &[held as u8]));
        for room in [0, 13, 14, 28, 41, 42, 56] {
            let mut buffer = examples::file_of(&ops);
            buffer.resize(buffer.len() + room, 9);
            for parent in [258, 259, 0, 4000] {
                for other in [260, 4000, 0, 258, 259, 257, 513, 769] {
                    for count in 0..4 {
                        for place in 0..count {
                            let mut nodes = vec![261; count];
                            nodes[place] = other;
                            let (answer, _) = issue_moves(&buffer, 1, &nodes, parent, 56);
                            match answer {
                                Answer::Refused(number) => seen[usize::from(number)] += 1,
                                _ => seen[0] += 1,
                            }
                            issue_moves(&buffer, 3, &nodes, parent, 14 * count);
                        }
                    }
                    issue_moves(&buffer, 1, &[], parent, 0);
                }
            }
        }
    }
    for number in [0, 7, 8, 9, 10, 11] {
        assert!(seen[number] > 50, "{seen:?}");
    }
}

/// 16 moves that fill a log, in one chain and across two, from above and from below.
#[test]
fn large_batches() {
    let mut rng = Rng::new(14);
    for ops in [
        examples::longest_chain(),
        examples::chains(2, 1012),
        full(&mut rng, Style::moves),
        full(&mut rng, Style::mixed),
    ] {
        let held = &ops[..2024];
        let mut buffer = examples::file_of(held);
        buffer.resize(MAX_FILE, 9);
        for _ in 0..12 {
            some_batch(&mut rng, &buffer, held);
        }
    }
    for ops in [examples::longest_chain(), chain(2040)] {
        let mut nodes: Vec<u16> = ops[2008..2024].iter().map(|op| op.node).collect();
        let mut buffer = examples::file_of(&ops[..2024]);
        buffer.resize(MAX_FILE, 9);
        for _ in 0..2 {
            let (answer, _) = issue_moves(&buffer, 8, &nodes, 257, 224);
            assert_eq!(answer, Answer::Accepted(MAX_FILE));
            issue_moves(&buffer, 8, &nodes, ops[1000].node, 224);
            issue_moves(&buffer, 8, &nodes, nodes[15], 224);
            issue_moves(&buffer[..MAX_FILE - 1], 8, &nodes, 257, 224);
            nodes.reverse();
        }
    }
}

/// A call with a page at both, with bytes lent for an issued op.
fn with_page(
    buffer: &mut Vec<u8>,
    page: &mut Tables,
    room: usize,
    careful: impl FnOnce(&mut [u8], &mut [u8], Page) -> (Answer, usize),
    model: impl FnOnce(&mut [u8], &mut [u8], Page) -> (Answer, usize),
) -> (Answer, usize) {
    let (mut other, mut other_page) = (buffer.clone(), page.clone());
    let (mut out, mut other_out) = (vec![7; room], vec![7; room]);
    let answer = careful(buffer, &mut out, page.lend());
    let expected = model(&mut other, &mut other_out, other_page.lend());
    assert_eq!(answer, expected);
    assert!(*buffer == other && out == other_out && *page == other_page);
    answer
}

fn deliver_page(buffer: &mut Vec<u8>, op: &[u8], page: &mut Tables) -> (Answer, usize) {
    with_page(
        buffer,
        page,
        0,
        |b, _, page| careful::deliver_page(b, op, page),
        |b, _, page| outline_model::deliver_page(b, op, page),
    )
}

/// A delivery of some op or an issue.
fn some_page_call(
    rng: &mut Rng,
    ops: &[Op],
    buffer: &mut Vec<u8>,
    page: &mut Tables,
) -> (Answer, usize) {
    let some = |rng: &mut Rng| match ops {
        [] => examples::add(1, 0, &[]),
        _ => rng.pick(ops),
    };
    let op = some(rng);
    let (node, parent) = match rng.below(5) {
        0 => (op.node, 0),
        1 => (0, op.node),
        _ => (op.node, some(rng).node),
    };
    let replica = rng.below(10) as u8;
    let room = rng.pick(&[14, 14, 14, 20, 13]);
    match rng.below(10) {
        0 => with_page(
            buffer,
            page,
            room,
            |b, o, page| careful::issue_add_page(b, replica, parent, o, page),
            |b, o, page| outline_model::issue_add_page(b, replica, parent, o, page),
        ),
        1 => with_page(
            buffer,
            page,
            room,
            |b, o, page| careful::issue_remove_page(b, replica, node, o, page),
            |b, o, page| outline_model::issue_remove_page(b, replica, node, o, page),
        ),
        2 | 3 => with_page(
            buffer,
            page,
            room,
            |b, o, page| careful::issue_move_page(b, replica, node, parent, o, page),
            |b, o, page| outline_model::issue_move_page(b, replica, node, parent, o, page),
        ),
        4 => deliver_page(buffer, &damage::record(rng, &op.bytes()), page),
        _ => deliver_page(buffer, &op.bytes(), page),
    }
}

/// Parts of worlds with the rest of their ops in any order. Each call is lent the
/// page that the last one left, now and then stained, longer or too short.
#[test]
fn pages() {
    let mut rng = Rng::new(10);
    let mut refused = [0; 12];
    let [mut accepted, mut had_it, mut late, mut rebuilt] = [0; 4];
    for round in 0..2500 {
        let style = [Style::moves, Style::mixed][round % 2](1 + round % 8, 1 + rng.below(50));
        let world = World::random(&mut rng, style).ops;
        let share = rng.below(world.len() + 1);
        let held = part(&mut rng, &world[..share], 10);
        let mut buffer = examples::file_of(&held);
        buffer.resize(buffer.len() + rng.pick(&[0, 13, 14, 90, 400, 400]), 9);
        if rng.one_in(25) {
            buffer = damage::random(&mut rng, &buffer);
        }
        let mut page = Tables::of(&examples::log_of(&held));
        for _ in 0..8 {
            let before = Log::open(&buffer).map_or(0, |log| log.ops().count());
            let mut lent = page.clone();
            match rng.below(16) {
                0 | 1 => lent = damage::page(&mut rng, &page),
                2 => lent.order.truncate(ORDER_LEN - 1),
                3 => lent.parents.truncate(SLOTS - 1),
                4 => lent.outcomes.truncate(rng.below(SLOTS)),
                5 => lent.order.resize(ORDER_LEN + 9, 5),
                6 => lent.parents.resize(SLOTS + 1, 5),
                _ => {}
            }
            let (answer, taken) = some_page_call(&mut rng, &world, &mut buffer, &mut lent);
            match answer {
                Answer::Accepted(_) => {
                    accepted += 1;
                    page = lent;
                }
                Answer::HadIt => had_it += 1,
                Answer::Refused(number) => refused[usize::from(number)] += 1,
                other => panic!("{other:?}"),
            }
            late += usize::from(taken > 0 && taken < before);
            rebuilt += usize::from(taken == before && before > 9);
        }
    }
    for number in [1, 2, 3, 4, 5, 7, 8, 10, 11] {
        assert!(refused[number] > 20, "{refused:?}");
    }
    assert!(accepted > 1000 && had_it > 500, "{accepted} {had_it}");
    assert!(late > 100 && rebuilt > 50, "{late} {rebuilt}");
}

/// Small histories op by op in every order, on a true page and on ever new stains.
#[test]
fn pages_in_every_order() {
    let mut rng = Rng::new(11);
    let mut histories = examples::small_logs();
    histories.extend([examples::rivals(), examples::all_kinds()]);
    for late in examples::late_moves() {
        histories.push([late.held, vec![late.late]].concat());
    }
    for ops in histories {
        for order in orders(&ops, 40) {
            for stained in [false, true] {
                let mut buffer = examples::file_of(&[]);
                buffer.resize(buffer.len() + 14 * ops.len(), 9);
                let mut page = Tables::of(&Log::default());
                for op in &order {
                    if stained {
                        page = damage::page(&mut rng, &page);
                    }
                    let (answer, _) = deliver_page(&mut buffer, &op.bytes(), &mut page);
                    assert!(matches!(answer, Answer::Accepted(_)));
                }
                assert_eq!(page, Tables::of(&examples::log_of(&ops)));
            }
        }
    }
}

/// The last of all that there can be, and an op that comes late by 1,785.
#[test]
fn large_pages() {
    let mut rng = Rng::new(12);
    for ops in [
        full(&mut rng, Style::moves),
        full(&mut rng, Style::mixed),
        examples::longest_chain(),
        examples::turns(2040),
    ] {
        let (last, held) = ops.split_last().expect("2,040 ops");
        let mut buffer = examples::file_of(held);
        buffer.resize(MAX_FILE, 9);
        let mut page = Tables::of(&examples::log_of(held));
        let untrue = damage::page(&mut rng, &page);
        let taken = deliver_page(&mut buffer.clone(), &last.bytes(), &mut untrue.clone()).1;
        assert_eq!(taken, held.len());
        deliver_page(&mut buffer, &last.bytes(), &mut page);
        assert_eq!(page, Tables::of(&examples::log_of(&ops)));
        for _ in 0..20 {
            some_page_call(&mut rng, &ops, &mut buffer, &mut page);
        }
    }
    let held = &examples::longest_chain()[..1785];
    let mut buffer = examples::file_of(held);
    buffer.resize(MAX_FILE, 9);
    let mut page = Tables::of(&examples::log_of(held));
    let first = examples::add(8, 0, &[]).bytes();
    let (_, taken) = deliver_page(&mut buffer, &first, &mut page);
    assert_eq!(taken, 1785);
}
