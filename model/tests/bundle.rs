//! Bundles: what they consist of, each number in its case and order, and what
//! an editor may count on.

mod common;

use common::*;
use outline_model::cases::damage;
use outline_model::cases::examples::*;
use outline_model::cases::world::{full, part, Style, World};
use outline_model::rng::Rng;
use outline_model::*;

const NOTHING: Vector = [0; 8];

fn bodies_of(ops: &[Op]) -> Vec<Vec<u8>> {
    ops.iter().map(|op| op.bytes().to_vec()).collect()
}

/// The bundle of these ops in this order.
fn bundle_of(ops: &[Op]) -> Vec<u8> {
    bundle_from(&bodies_of(ops))
}

/// All ops of both, each once.
fn union(a: &[Op], b: &[Op]) -> Vec<Op> {
    let mut all = [a, b].concat();
    all.sort_by_key(|op| (op.replica, op.sequence()));
    all.dedup();
    all
}

/// Opens a bundle on the log of these ops, with so much room behind it.
fn open_at(ops: &[Op], room: usize, bundle: &[u8]) -> Answer {
    let file = file_of(ops);
    open_checked(&mut in_buffer(&file, file.len() + room), bundle)
}

fn with(bytes: &[u8], at: usize, value: u8) -> Vec<u8> {
    damage::with(bytes, at, value)
}

fn random_world(rng: &mut Rng) -> Vec<Op> {
    let style = rng.pick(&[Style::moves as fn(usize, usize) -> Style, Style::mixed]);
    let style = style(1 + rng.below(8), rng.below(60));
    World::random(rng, style).ops
}

/// Some counts up to these.
fn some_below(rng: &mut Rng, counts: Vector) -> Vector {
    counts.map(|count| rng.below(usize::from(count) + 1) as u8)
}

// ---- making

#[test]
fn p1_for_everybody() {
    let whole: Vec<u8> = [
        &[0x03, 3, 1][..],
        &[0x01, 0x01, 0x01, 0x01, 0, 0, 0, 0, 0, 0, 0, 0, 0, 0],
        &[0x01, 0x01, 0x01, 0x02, 0, 0, 1, 0, 0, 0, 0, 0, 0, 0],
        // At the same timestamp and kind the higher replica comes first.
        &[0x04, 0x02, 0x01, 0x01, 0x01, 0x02, 2, 0, 0, 0, 0, 0, 0, 0],
        &[0x04, 0x01, 0x01, 0x02, 0x01, 0x01, 2, 0, 0, 0, 0, 0, 0, 0],
    ]
    .concat();
    let file = file_of(&p1());
    assert_eq!(bundle_checked(&file, NOTHING), whole);
    for (counts, head, bodies) in [
        (&[1][..], &[3, 2, 1][..], &[1, 3, 2][..]),
        (&[2], &[3, 1, 1], &[3, 2]),
        (&[3], &[2, 1], &[3]),
        (&[0, 1], &[1, 3], &[0, 1, 2]),
        (&[2, 1], &[1, 1], &[2]),
        (&[3, 1], &[0], &[]),
        // Replicas that have nothing to contribute count for nothing.
        (&[2, 0, 1, 2, 3, 4, 5, 255], &[3, 1, 1], &[3, 2]),
        // A counterpart that is ahead gets nothing for that replica.
        (&[4], &[2, 1], &[3]),
        (&[255], &[2, 1], &[3]),
        (&[0, 2], &[1, 3], &[0, 1, 2]),
        (&[255; 8], &[0], &[]),
    ] {
        let ops: Vec<Vec<u8>> = bodies
            .iter()
            .map(|&i| bodies_of(&p1())[i].clone())
            .collect();
        let expected = [head.to_vec(), ops.concat()].concat();
        assert_eq!(bundle_checked(&file, v(counts)), expected, "{counts:?}");
    }
}

#[test]
fn the_head_counts_what_is_in_the_bundle() {
    for replica in 1..=8 {
        let file = file_of(&adds(replica, 255));
        for had in [0, 1, 100, 253, 254] {
            let mut counts = NOTHING;
            counts[usize::from(replica) - 1] = had;
            let bundle = bundle_checked(&file, counts);
            assert_eq!(bundle[..2], [1 << (replica - 1), 255 - had]);
            assert_eq!(bundle.len(), 2 + 14 * usize::from(255 - had));
        }
    }
}

#[test]
fn making_leaves_out_a_replica_that_is_not_beyond() {
    let ops: Vec<Op> = (1..=8).map(|replica| add(replica, 0, &[])).collect();
    let file = file_of(&ops);
    for bits in 0..=255u8 {
        let counts = std::array::from_fn(|i| 1 - (bits >> i & 1));
        let bundle = bundle_checked(&file, counts);
        assert_eq!(bundle[0], bits);
        let ones = bits.count_ones() as usize;
        assert_eq!(bundle[1..=ones], vec![1; ones]);
        assert_eq!(bundle.len(), 1 + 15 * ones);
        let all: Vec<u8> = bundled(&bundle).iter().map(|body| body[1]).collect();
        assert!(all.is_sorted_by(|a, b| a > b));
    }
}

#[test]
fn making_tests_1_then_8() {
    let file = file_of(&p1());
    for counts in [&[][..], &[2], &[3], &[0, 1], &[3, 1]] {
        let length = bundle_checked(&file, v(counts)).len();
        for room in 0..length {
            assert_eq!(bundle_in(&file, v(counts), room).0, Refused(8));
            assert_eq!(bundle_in(&file[1..], v(counts), room).0, Refused(1));
        }
        for room in [length, length + 1, 1000] {
            assert_eq!(bundle_in(&file, v(counts), room).0, Count(length));
            assert_eq!(
                bundle_in(&in_buffer(&file, 99), v(counts), room).0,
                Count(length)
            );
            assert_eq!(bundle_in(&file[..87], v(counts), room).0, Refused(1));
        }
    }
    for file in [&[][..], &[0; 31], &[0; 32], &file_of(&mutual())] {
        assert_eq!(bundle_in(file, NOTHING, 0).0, Refused(1));
        assert_eq!(bundle_in(file, [255; 8], 100).0, Refused(1));
    }
}

// ---- opening: 1 and 12

/// A bundle that a log without ops takes.
fn good() -> Vec<u8> {
    bundle_checked(&file_of(&p1()), NOTHING)
}

#[test]
fn number_1_comes_first() {
    let file = file_of(&p1());
    let bundles = [vec![], vec![0], vec![0, 0], vec![9; 40], good()];
    for bundle in &bundles {
        for length in 0..file.len() {
            assert_eq!(
                open_checked(&mut file[..length].to_vec(), bundle),
                Refused(1)
            );
        }
        for at in 0..32 {
            let mut damaged = in_buffer(&with(&file, at, file[at] ^ 1), 300);
            assert_eq!(open_checked(&mut damaged, bundle), Refused(1));
        }
        let mut damaged = in_buffer(&file_of(&mutual()), 300);
        assert_eq!(open_checked(&mut damaged, bundle), Refused(1));
    }
}

/// Whatever is held, with and without room.
fn assert_12(bundle: &[u8]) {
    for ops in [&[][..], &p1()[..2], &p1(), &marked()] {
        for room in [0, 14, 300] {
            assert_eq!(open_at(ops, room, bundle), Refused(12), "{bundle:?}");
        }
    }
}

#[test]
fn number_12_no_whole_head() {
    assert_12(&[]);
    for bits in 1..=255u8 {
        for counts in 0..bits.count_ones() as usize {
            assert_12(&[vec![bits], vec![1; counts]].concat());
        }
    }
}

#[test]
fn number_12_a_count_of_zero() {
    // One op of each replica with a bit, but for one, which has the count 0.
    for bits in 1..=255u8 {
        let replicas: Vec<u8> = (1..=8).filter(|s| bits >> (s - 1) & 1 == 1).collect();
        for (place, &none) in replicas.iter().enumerate() {
            let others = replicas.iter().filter(|&&replica| replica != none);
            let ops: Vec<Op> = others.map(|&replica| add(replica, 0, &[])).collect();
            let right = bundle_of(&ops);
            assert_eq!(open_at(&[], 200, &right), Accepted(32 + 14 * ops.len()));
            let mut bundle = with(&right, 0, bits);
            bundle.insert(1 + place, 0);
            assert_12(&bundle);
        }
    }
    // Even with nothing else in it.
    assert_12(&[1, 0]);
    assert_12(&[255, 0, 0, 0, 0, 0, 0, 0, 0]);
}

#[test]
fn number_12_length() {
    let good = good();
    for length in 0..good.len() {
        assert_12(&good[..length]);
    }
    for more in 1..=30 {
        assert_12(&[good.clone(), vec![1; more]].concat());
        assert_12(&[vec![0], vec![0; more]].concat());
    }
    // A count that is one off, of either replica.
    for (at, value) in [(1, 2), (1, 4), (2, 2), (1, 255), (2, 255)] {
        assert_12(&with(&good, at, value));
    }
    // A body more of a replica that the head names, and of another.
    for op in [add(1, 0, &[3]), add(3, 0, &[])] {
        assert_12(&[good.clone(), op.bytes().to_vec()].concat());
    }
    // The counts of a file are not those of a bundle.
    let partial = bundle_checked(&file_of(&p1()), v(&[2]));
    assert_12(&with(&partial, 1, 3));
}

#[test]
fn number_12_replicas_of_the_bodies() {
    let good = good();
    for body in 0..4 {
        let at = 3 + 14 * body + 1;
        for value in 0..=255 {
            if value != good[at] {
                assert_12(&with(&good, at, value));
            }
        }
    }
    // Counts or bits that sum up to the same.
    assert_12(&with(&with(&good, 1, 2), 2, 2));
    assert_12(&with(&with(&good, 1, 1), 2, 3));
    for bits in 0..=255 {
        if bits != 3 {
            assert_12(&with(&good, 0, bits));
        }
    }
    // 0 and 9 are as wrong alone.
    for replica in [0, 9, 255] {
        for bits in [1, 128] {
            let bundle = [&[bits, 1][..], &add(1, 0, &[]).bytes()].concat();
            assert_12(&with(&bundle, 3, replica));
        }
    }
}

/// Only how many there are of each replica counts, not where they stand.
#[test]
fn replicas_of_the_bodies_in_any_order() {
    let rng = &mut Rng::new(1);
    let mut ops: Vec<Op> = (1..=8).map(|replica| add(replica, 0, &[])).collect();
    ops.extend((1..=8).map(|replica| {
        let mut counts = NOTHING;
        counts[usize::from(replica) - 1] = 1;
        add(replica, 0, &counts)
    }));
    let file = file_of(&ops);
    for _ in 0..200 {
        rng.shuffle(&mut ops);
        let in_order = |op: &Op| {
            let at = |s: usize| {
                ops.iter()
                    .position(|o| o.replica == op.replica && o.sequence() == s)
            };
            at(1) < at(2)
        };
        let all = ops.iter().all(in_order);
        let expected = if all {
            Accepted(file.len())
        } else {
            Refused(5)
        };
        assert_eq!(open_at(&[], 300, &bundle_of(&ops)), expected);
    }
}

#[test]
fn number_12_comes_before_every_body() {
    let held = p1();
    // Bodies that would be refused, each with its number.
    for (number, body) in refused_bodies() {
        let right = bundle_from(std::slice::from_ref(&body));
        assert_eq!(open_at(&receiver(), 100, &right), Refused(number));
        let long = [right.clone(), vec![0]].concat();
        let none = [vec![right[0] | 0x80], right[1..2].to_vec(), vec![0], body].concat();
        let other = with(&right, 3, 9);
        for wrong in [&right[..15], &long, &none, &other] {
            assert_eq!(open_at(&receiver(), 100, wrong), Refused(12));
        }
    }
    // A conflict in the first body, and a wrong replica in the last.
    let conflict = with(&bundle_of(&held), 5, 9);
    assert_eq!(open_at(&held, 100, &conflict), Refused(4));
    assert_eq!(open_at(&held, 100, &with(&conflict, 46, 3)), Refused(12));
    // No room, or nothing new.
    assert_eq!(open_at(&[], 0, &good()), Refused(8));
    assert_eq!(open_at(&[], 0, &good()[..58]), Refused(12));
    assert_eq!(open_at(&held, 0, &good()[..58]), Refused(12));
}

// ---- opening: the numbers of a body

/// What the receiver has: 8:1 counts 7:1.
fn receiver() -> Vec<Op> {
    vec![add(7, 0, &[]), add(8, 0, &[0, 0, 0, 0, 0, 0, 1])]
}

/// Bodies that it refuses at any time, but for want of room, each with its
/// number.
fn refused_bodies() -> Vec<(u8, Vec<u8>)> {
    let body = |op: Op| op.bytes().to_vec();
    let mut parent = remove(6, 1793, &[0, 0, 0, 0, 0, 0, 1]);
    parent.parent = 1;
    vec![
        (3, with(&body(add(6, 0, &[])), 0, 0)),
        (3, with(&body(add(6, 0, &[])), 0, 5)),
        (3, with(&body(add(6, 0, &[])), 11, 255)),
        (3, body(parent)),
        (4, body(add(7, 0, &[1]))),
        (4, body(add(8, 0, &[]))),
        (5, body(add(6, 0, &[0, 0, 0, 0, 1]))),
        (5, body(add(6, 0, &[0, 0, 0, 0, 0, 1]))),
        (5, body(add(7, 0, &[0, 0, 0, 0, 0, 0, 2]))),
        (6, body(add(6, 0, &[0, 0, 0, 0, 0, 0, 0, 1]))),
        (7, body(add(6, 1793, &[]))),
        (7, body(remove(6, 0, &[]))),
        (7, body(up(6, 1793, 1793, &[0, 0, 0, 0, 0, 0, 1]))),
        (7, with(&body(add(6, 0, &[])), 3, 2)),
    ]
}

/// Alone, and among others that are accepted before it: nothing of them stays,
/// in the file and past its old end.
#[test]
fn numbers_3_to_7_of_a_body_at_any_place() {
    let others = bundled(&good());
    let all = receiver().len() + others.len();
    assert_eq!(open_at(&receiver(), 100, &good()), Accepted(32 + 14 * all));
    for (number, body) in refused_bodies() {
        for place in 0..=others.len() {
            let mut bodies = others.clone();
            bodies.insert(place, body.clone());
            let bundle = bundle_from(&bodies);
            assert_eq!(open_at(&receiver(), 100, &bundle), Refused(number));
            // The room for it does not matter, that for those before it does.
            let room = 14 * place;
            assert_eq!(open_at(&receiver(), room, &bundle), Refused(number));
            if place > 0 {
                assert_eq!(open_at(&receiver(), room - 1, &bundle), Refused(8));
            }
        }
    }
}

#[test]
fn the_first_refused_body_gives_the_number() {
    let refused = refused_bodies();
    for (first, body) in &refused {
        for (_, other) in &refused {
            let bundle = bundle_from(&[body.clone(), other.clone()]);
            assert_eq!(open_at(&receiver(), 100, &bundle), Refused(*first));
            let accepted = add(1, 0, &[]).bytes().to_vec();
            let bundle = bundle_from(&[accepted, body.clone(), other.clone()]);
            assert_eq!(open_at(&receiver(), 100, &bundle), Refused(*first));
            assert_eq!(open_at(&receiver(), 13, &bundle), Refused(8));
        }
    }
}

#[test]
fn a_conflict_within_a_bundle() {
    let ops = [add(1, 0, &[]), add(1, 0, &[1]), down(1, 258, 257, &[2])];
    let mut other = ops[1];
    other.parent = 257;
    for place in 0..=3 {
        let mut bundle = ops.to_vec();
        bundle.insert(place, other);
        let number = if place == 0 { 5 } else { 4 };
        assert_eq!(open_at(&[], 200, &bundle_of(&bundle)), Refused(number));
    }
}

#[test]
fn number_8_room_for_new_bodies_only() {
    for held in 0..=4 {
        let ops = &p1()[..held];
        let new = 4 - held;
        for room in 0..14 * new {
            assert_eq!(open_at(ops, room, &good()), Refused(8));
        }
        for room in [14 * new, 14 * new + 1, 300] {
            assert_eq!(open_at(ops, room, &good()), Accepted(88));
        }
    }
}

// ---- opening: what is accepted

#[test]
fn a_bundle_of_no_ops() {
    for ops in small_logs() {
        for room in [0, 1, 100] {
            let end = 32 + 14 * ops.len();
            assert_eq!(open_at(&ops, room, &[0]), Accepted(end));
            assert_eq!(open_at(&ops, room, &[0, 0]), Refused(12));
        }
        let held = log_of(&ops).held();
        assert_eq!(bundle_checked(&file_of(&ops), held), [0]);
    }
    let mut short = empty(32);
    short.truncate(31);
    assert_eq!(open_checked(&mut short, &[0]), Refused(1));
}

#[test]
fn a_body_twice() {
    let body = |op: Op| op.bytes().to_vec();
    let (first, second) = (body(add(1, 0, &[])), body(add(1, 0, &[1])));
    for (bodies, end) in [
        (vec![&first, &first], 46),
        (vec![&first, &first, &first], 46),
        (vec![&first, &second, &first, &second], 60),
        (vec![&first, &first, &second], 60),
    ] {
        let bodies: Vec<Vec<u8>> = bodies.into_iter().cloned().collect();
        let bundle = bundle_from(&bodies);
        assert_eq!(usize::from(bundle[1]), bodies.len());
        assert_eq!(open_at(&[], end - 32, &bundle), Accepted(end));
        assert_eq!(open_at(&[], end - 33, &bundle), Refused(8));
    }
    let bundle = bundle_from(&[second.clone(), first.clone(), second]);
    assert_eq!(open_at(&[], 100, &bundle), Refused(5));
    // As often as the head can count.
    let often = bundle_from(&vec![first.clone(); 255]);
    assert_eq!(open_at(&[], 14, &often), Accepted(46));
}

#[test]
fn what_is_held_is_passed_by() {
    for ops in small_logs() {
        let bundle = bundle_checked(&file_of(&ops), NOTHING);
        let end = 32 + 14 * ops.len();
        assert_eq!(open_at(&ops, 0, &bundle), Accepted(end));
        for held in 0..ops.len() {
            let room = 14 * (ops.len() - held);
            assert_eq!(open_at(&ops[..held], room, &bundle), Accepted(end));
        }
        // In whatever order they stand.
        let mut bodies = bodies_of(&ops);
        bodies.reverse();
        assert_eq!(open_at(&ops, 0, &bundle_from(&bodies)), Accepted(end));
    }
}

#[test]
fn a_bundle_opened_again() {
    let mut buffer = empty(200);
    assert_eq!(open_checked(&mut buffer, &good()), Accepted(88));
    let once = buffer.clone();
    for _ in 0..3 {
        assert_eq!(open_checked(&mut buffer, &good()), Accepted(88));
        assert_eq!(buffer, once);
    }
    assert_eq!(buffer[..88], file_of(&p1()));
}

#[test]
fn the_largest_bundle() {
    let rng = &mut Rng::new(2);
    let file = file_of(&full(rng, Style::mixed));
    assert_eq!(bundle_in(&file, NOTHING, MAX_BUNDLE - 1).0, Refused(8));
    let (answer, bundle) = bundle_in(&file, NOTHING, MAX_BUNDLE + 1);
    assert_eq!(answer, Count(MAX_BUNDLE));
    assert_eq!(bundle[..9], [255; 9]);
    let mut buffer = empty(FULL);
    assert_eq!(open_checked(&mut buffer, &bundle), Accepted(FULL));
    assert_eq!(buffer, file);
    assert_eq!(open_checked(&mut empty(FULL - 1), &bundle), Refused(8));
    assert_eq!(
        open_checked(&mut buffer, &bundle[..MAX_BUNDLE - 1]),
        Refused(12)
    );
}

// ---- the order of the bodies

/// Every kind at one timestamp, by replicas of every height; and a timestamp is
/// no count of ops.
#[test]
fn judging_order_by_hand() {
    let base = adds(4, 2);
    let met = &[0, 0, 0, 2];
    let down_1 = down(1, 1025, 1026, met);
    let add_2 = add(2, 0, met);
    let remove_3 = remove(3, 1025, met);
    let up_5 = up(5, 1026, 0, met);
    let down_6 = down(6, 1026, 1025, met);
    let remove_7 = remove(7, 1026, met);
    let add_8 = add(8, 0, met);
    // Its timestamp is the least, though it stands last in the file.
    let first_8 = add(8, 0, &[]);
    let mut ops = base.clone();
    ops.extend([down_1, add_2, remove_3, up_5, down_6, remove_7, add_8]);
    let order = [
        base[0], base[1], add_8, add_2, remove_7, remove_3, up_5, down_6, down_1,
    ];
    assert_eq!(bundle_checked(&file_of(&ops), NOTHING), bundle_of(&order));
    let few = v(&[0, 1, 0, 1, 0, 0, 1]);
    let order = [base[1], add_8, remove_3, up_5, down_6, down_1];
    assert_eq!(bundle_checked(&file_of(&ops), few), bundle_of(&order));
    let file = file_of(&[base, vec![first_8]].concat());
    let order = [first_8, ops[0], ops[1]];
    assert_eq!(bundle_checked(&file, NOTHING), bundle_of(&order));
    // Timestamp 2 after six ops, and timestamp 3 after two.
    let ops = [
        (2..=7).map(|replica| add(replica, 0, &[])).collect(),
        vec![
            add(1, 0, &[0, 1, 1, 1, 1, 1, 1]),
            add(8, 0, &[0, 1]),
            add(8, 0, &[0, 1, 0, 0, 0, 0, 0, 1]),
        ],
    ]
    .concat();
    let made = bundled(&bundle_checked(&file_of(&ops), v(&[0, 1, 1, 1, 1, 1, 1])));
    assert_eq!(made, bodies_of(&[ops[7], ops[6], ops[8]]));
}

/// 1:1 counts 2:1, so the lower replica comes later.
#[test]
fn file_order_would_not_do() {
    let ops = [add(1, 0, &[0, 1]), add(2, 0, &[])];
    let file = file_of(&ops);
    assert_eq!(bodies(&file), bodies_of(&ops));
    assert_eq!(open_at(&[], 100, &bundle_of(&ops)), Refused(5));
    let made = bundle_checked(&file, NOTHING);
    assert_eq!(made, bundle_of(&[ops[1], ops[0]]));
    assert_eq!(open_at(&[], 100, &made), Accepted(60));
}

/// The order is not tested as such: one in which each comes after all it counts
/// does, and leads to the same file; any other is early.
#[test]
fn other_orders() {
    let ops = p1();
    let mut seen = [0; 2];
    for_each_order(&mut ops.clone(), 4, &mut |order| {
        let place = |i: usize| order.iter().position(|op| *op == ops[i]);
        let causal = place(0) < place(1) && place(1) < place(2) && place(1) < place(3);
        let mut buffer = empty(88);
        let answer = open_checked(&mut buffer, &bundle_of(order));
        if causal {
            assert_eq!(answer, Accepted(88));
            assert_eq!(buffer, file_of(&ops));
        } else {
            assert_eq!(answer, Refused(5));
        }
        seen[usize::from(causal)] += 1;
    });
    assert_eq!(seen, [22, 2]);
}

fn for_each_order(ops: &mut Vec<Op>, left: usize, call: &mut impl FnMut(&[Op])) {
    if left == 0 {
        return call(ops);
    }
    for i in 0..left {
        ops.swap(i, left - 1);
        for_each_order(ops, left - 1, call);
        ops.swap(i, left - 1);
    }
}

/// A world's own order does too, and file order fails often, with 5 alone.
#[test]
fn orders_of_random_logs() {
    let mut early = 0;
    for seed in 0..300 {
        let ops = random_world(&mut Rng::new(3000 + seed));
        let file = file_of(&ops);
        for order in [bundle_of(&ops), bundle_checked(&file, NOTHING)] {
            assert_eq!(open_at(&[], 14 * ops.len(), &order), Accepted(file.len()));
        }
        match open_at(&[], 14 * ops.len(), &bundle_from(&bodies(&file))) {
            Accepted(end) => assert_eq!(end, file.len()),
            answer => {
                assert_eq!(answer, Refused(5));
                early += 1;
            }
        }
    }
    assert!(early > 100, "{early}");
}

// ---- what an editor may count on

/// How the random pairs came out, so that they are known to be of use.
#[derive(Default, Debug)]
struct Tally {
    opened: usize,
    /// Some op was new to the receiver.
    new: usize,
    /// Some op of the bundle was held.
    passed_by: usize,
    /// The counts are not closed in what the receiver holds.
    not_closed: usize,
    /// The receiver is ahead of the sender somewhere.
    ahead: usize,
}

/// A bundle for counts that the receiver has reached opens wholly, in a buffer
/// that has just room for all; without that room it is 8.
fn check_promise(from: &[Op], to: &[Op], counts: Vector, tally: &mut Tally) {
    let bundle = bundle_checked(&file_of(from), counts);
    let all = file_of(&union(from, to));
    let mut buffer = in_buffer(&file_of(to), all.len());
    assert_eq!(open_checked(&mut buffer, &bundle), Accepted(all.len()));
    assert_eq!(buffer, all);
    let new = all.len() > 32 + 14 * to.len();
    if new {
        let mut short = in_buffer(&file_of(to), all.len() - 1);
        assert_eq!(open_checked(&mut short, &bundle), Refused(8));
    }
    let log = log_of(to);
    let closed = |op: &Op| op::at_most(&op.vector, &counts);
    let held = log.held();
    tally.opened += 1;
    tally.new += usize::from(new);
    tally.passed_by += usize::from(bundled(&bundle).len() > (all.len() - 32) / 14 - to.len());
    tally.not_closed += usize::from(!log.last_counted(&counts).all(closed));
    tally.ahead += usize::from(!op::at_most(&held, &log_of(from).held()));
}

#[test]
fn a_bundle_for_counts_that_are_reached_opens_wholly() {
    let mut tally = Tally::default();
    for seed in 0..1500 {
        let rng = &mut Rng::new(4000 + seed);
        let world = random_world(rng);
        let lost = rng.pick(&[4, 8, 20, 100]);
        let (from, to) = (part(rng, &world, lost), part(rng, &world, lost));
        let held = log_of(&to).held();
        for counts in [held, NOTHING, some_below(rng, held), some_below(rng, held)] {
            check_promise(&from, &to, counts, &mut tally);
        }
    }
    assert_eq!(tally.opened, 6000);
    assert!(tally.new > 3000 && tally.passed_by > 2000, "{tally:?}");
    assert!(tally.not_closed > 900 && tally.ahead > 3000, "{tally:?}");
}

#[test]
fn large_bundles_open_wholly() {
    let mut tally = Tally::default();
    for seed in 0..8 {
        let rng = &mut Rng::new(5000 + seed);
        let world = World::random(rng, Style::mixed(8, 500)).ops;
        let (from, to) = (part(rng, &world, 300), part(rng, &world, 300));
        let held = log_of(&to).held();
        check_promise(&from, &to, held, &mut tally);
        check_promise(&from, &to, some_below(rng, held), &mut tally);
    }
    assert!(tally.new > 6 && tally.not_closed > 4, "{tally:?}");
    assert!(tally.ahead > 4 && tally.passed_by > 4, "{tally:?}");
}

/// Both ways with the true counts: both have the same file, and then nothing is
/// left to hand over.
#[test]
fn two_that_meet_by_bundles_are_alike() {
    for seed in 0..300 {
        let rng = &mut Rng::new(6000 + seed);
        let world = random_world(rng);
        let (one, two) = (part(rng, &world, 10), part(rng, &world, 10));
        let counts = [&one, &two].map(|ops| log_of(ops).held());
        let mut files = [&one, &two].map(|ops| in_buffer(&file_of(ops), 1000));
        let bundles = [
            bundle_checked(&files[0], counts[1]),
            bundle_checked(&files[1], counts[0]),
        ];
        let end = 32 + 14 * union(&one, &two).len();
        assert_eq!(open_checked(&mut files[0], &bundles[1]), Accepted(end));
        assert_eq!(open_checked(&mut files[1], &bundles[0]), Accepted(end));
        assert_eq!(files[0][..end], files[1][..end]);
        assert_eq!(judged(&files[0]), judged(&files[1]));
        let counts = log_of(&union(&one, &two)).held();
        assert_eq!(bundle_checked(&files[0], counts), [0]);
        // What was lacking and no more was in the bundles.
        let lacking = 2 * union(&one, &two).len() - one.len() - two.len();
        let handed: usize = bundles.iter().map(|bundle| bundled(bundle).len()).sum();
        assert_eq!(handed, lacking);
    }
}

/// Counts that the receiver has not reached: 5 if something is missing that an
/// op in the bundle counts, and else a part is taken.
#[test]
fn counts_that_are_not_reached() {
    let mut seen = [0; 2];
    for seed in 0..400 {
        let rng = &mut Rng::new(7000 + seed);
        let world = random_world(rng);
        let (from, to) = (part(rng, &world, 30), part(rng, &world, 10));
        let held = log_of(&to).held();
        let counts = held.map(|count| count.saturating_add(rng.below(3) as u8));
        let bundle = bundle_checked(&file_of(&from), counts);
        match open_at(&to, 14 * world.len(), &bundle) {
            Accepted(_) => seen[0] += 1,
            answer => {
                assert_eq!(answer, Refused(5));
                seen[1] += 1;
            }
        }
    }
    assert!(seen[0] > 50 && seen[1] > 50, "{seen:?}");
}

/// Two that do not agree on an op: it is 4 if that op is in the bundle.
#[test]
fn two_that_do_not_agree() {
    let base = adds(1, 2);
    let one = [
        base.clone(),
        vec![down(2, 257, 258, &[2]), add(2, 257, &[2, 1])],
    ]
    .concat();
    let two = [base, vec![down(2, 258, 257, &[2])]].concat();
    let file = file_of(&one);
    assert_eq!(
        open_at(&two, 100, &bundle_checked(&file, v(&[2]))),
        Refused(4)
    );
    assert_eq!(
        open_at(&two, 100, &bundle_checked(&file, NOTHING)),
        Refused(4)
    );
    // With it left out the next is taken: nothing shows that it counts another.
    assert_eq!(
        open_at(&two, 100, &bundle_checked(&file, v(&[2, 1]))),
        Accepted(88)
    );
}

// ---- opening is delivering in turn

/// What delivering the bodies in turn, until one is refused, comes to.
fn deliver_in_turn(buffer: &mut [u8], bodies: &[Vec<u8>]) -> Answer {
    let Count(mut end) = file_end(buffer) else {
        return Refused(1);
    };
    for body in bodies {
        match deliver_checked(buffer, body) {
            Accepted(next) => end = next,
            HadIt => {}
            refused => return refused,
        }
    }
    Accepted(end)
}

/// What the receiver lacks and some of what it has, mostly in an order that
/// does, with noise of every sort.
fn some_bodies(rng: &mut Rng, world: &[Op], held: &[Op]) -> Vec<Vec<u8>> {
    let mut ops: Vec<Op> = world.to_vec();
    ops.retain(|op| !held.contains(op) || rng.one_in(4));
    ops.truncate(rng.below(20));
    let mut bodies = bodies_of(&ops);
    if bodies.is_empty() {
        return bodies;
    }
    let at = rng.below(bodies.len());
    match rng.below(8) {
        0 => rng.shuffle(&mut bodies),
        1 => bodies.extend(bodies.clone()),
        2 => drop(bodies.remove(at)),
        3 | 4 => {
            let damaged = damage::random(rng, &bodies[at]);
            // The replica is the head's affair.
            if damaged[1] == bodies[at][1] {
                bodies[at] = damaged;
            }
        }
        // A count less.
        5 => {
            let count = &mut bodies[at][6 + rng.below(8)];
            *count = count.saturating_sub(1);
        }
        _ => {}
    }
    bodies
}

#[test]
fn opening_is_delivering_in_turn() {
    let mut seen = [0; 9];
    for seed in 0..8000 {
        let rng = &mut Rng::new(10_000 + seed);
        let world = random_world(rng);
        let offered = rng.below(world.len() + 1);
        let held = part(rng, &world[..offered], 30);
        let bodies = some_bodies(rng, &world, &held);
        let room = rng.pick(&[0, 13, 50, 300, 300, 300, 300, 300, 300, 300]);
        let file = file_of(&held);
        let mut opened = in_buffer(&file, file.len() + room);
        let before = opened.clone();
        let mut delivered = opened.clone();
        let answer = open_checked(&mut opened, &bundle_from(&bodies));
        assert_eq!(answer, deliver_in_turn(&mut delivered, &bodies));
        match answer {
            Refused(number) => {
                assert_eq!(opened, before);
                seen[usize::from(number)] += 1;
            }
            _ => {
                assert_eq!(opened, delivered);
                seen[0] += 1;
            }
        }
    }
    for number in [0, 3, 4, 5, 6, 7, 8] {
        assert!(seen[number] > 50, "{seen:?}");
    }
}

/// Every byte of a bundle changed: 12 exactly where head and bodies disagree,
/// and else what delivering in turn comes to.
#[test]
fn damaged_bundles() {
    let mut seen = [0; 13];
    for ops in small_logs() {
        let file = file_of(&ops);
        let half = part(&mut Rng::new(8), &ops, 3);
        let counts = log_of(&half).held();
        let bundle = bundle_checked(&file, counts);
        let damaged = damage::changed(&bundle).chain(damage::cut(&bundle));
        for damaged in damaged {
            let buffer = in_buffer(&file_of(&half), file.len() + 14);
            let answer = open_checked(&mut buffer.clone(), &damaged);
            if answer != Refused(12) {
                let mut delivered = buffer;
                assert_eq!(answer, deliver_in_turn(&mut delivered, &bundled(&damaged)));
            }
            let rebuilt = !damaged.is_empty() && is_right(&damaged);
            assert_eq!(answer == Refused(12), !rebuilt, "{damaged:?}");
            match answer {
                Refused(number) => seen[usize::from(number)] += 1,
                _ => seen[0] += 1,
            }
        }
    }
    for number in [0, 3, 5, 7, 12] {
        assert!(seen[number] > 20, "{seen:?}");
    }
}

/// A bundle is right if its bodies give it back; there are less than 256 here.
fn is_right(bundle: &[u8]) -> bool {
    let head = 1 + bundle[0].count_ones() as usize;
    bundle.len() >= head
        && (bundle.len() - head).is_multiple_of(14)
        && bundle_from(&bundled(bundle)) == bundle
}
