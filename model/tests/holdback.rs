//! Delivering with a holdback: each answer in its case and order, the search, and
//! what the document says of one call and of many.

mod common;

use common::*;
use outline_model::cases::examples::*;
use outline_model::cases::world::{self, full, part, Style, World};
use outline_model::cases::{damage, examples};
use outline_model::rng::Rng;
use outline_model::*;

type Record = Vec<u8>;

fn record(op: Op) -> Record {
    op.bytes().to_vec()
}

fn records(ops: &[Op]) -> Vec<Record> {
    ops.iter().copied().map(record).collect()
}

fn with(bytes: &[u8], at: usize, value: u8) -> Vec<u8> {
    damage::with(bytes, at, value)
}

/// A log with so much room behind it, and a holdback.
#[derive(Clone)]
struct Desk {
    buffer: Vec<u8>,
    holdback: Vec<u8>,
}

impl Desk {
    fn new(ops: &[Op], room: usize, holdback: &[Record]) -> Desk {
        let file = file_of(ops);
        Desk {
            buffer: in_buffer(&file, file.len() + room),
            holdback: holdback_from(holdback),
        }
    }

    fn deliver(&mut self, record: &[u8]) -> Answer {
        holdback_checked(&mut self.buffer, record, &mut self.holdback)
    }

    /// The same without the holdback, on a copy.
    fn plainly(&self, record: &[u8]) -> Answer {
        deliver_checked(&mut self.buffer.clone(), record)
    }

    fn waiting(&self) -> Vec<Record> {
        waiting(&self.holdback)
    }

    fn holds(&self, op: Op) -> bool {
        bodies(&self.buffer).contains(&record(op))
    }
}

/// Delivers once, with such a holdback.
fn deliver_at(ops: &[Op], room: usize, holdback: &[u8], record: &[u8]) -> Answer {
    let file = file_of(ops);
    let mut buffer = in_buffer(&file, file.len() + room);
    holdback_checked(&mut buffer, record, &mut holdback.to_vec())
}

/// What most tests start with: 8:1 counts 7:1.
fn receiver() -> Vec<Op> {
    vec![add(7, 0, &[]), add(8, 0, &[0, 0, 0, 0, 0, 0, 1])]
}

/// Records that it refuses as long as it has no others, each with its number.
fn refused() -> Vec<(u8, Record)> {
    let good = record(add(6, 0, &[]));
    let mut parent = remove(6, 1793, &[0, 0, 0, 0, 0, 0, 1]);
    parent.parent = 1;
    vec![
        (2, vec![]),
        (2, good[..13].to_vec()),
        (2, [good.clone(), vec![0]].concat()),
        (3, with(&good, 0, 0)),
        (3, with(&good, 0, 5)),
        (3, with(&good, 1, 0)),
        (3, with(&good, 1, 9)),
        (3, with(&good, 11, 255)),
        (3, record(parent)),
        (4, record(add(7, 0, &[1]))),
        (4, record(add(8, 0, &[]))),
        (5, record(add(6, 0, &[0, 0, 0, 0, 1]))),
        (5, record(add(6, 0, &[0, 0, 0, 0, 0, 1]))),
        (5, record(add(7, 0, &[0, 0, 0, 0, 0, 0, 2]))),
        (6, record(add(6, 0, &[0, 0, 0, 0, 0, 0, 0, 1]))),
        (7, record(add(6, 1793, &[]))),
        (7, record(remove(6, 0, &[]))),
        (7, record(up(6, 1793, 1793, &[0, 0, 0, 0, 0, 0, 1]))),
        (7, with(&good, 3, 2)),
    ]
}

/// Those of them that can wait in a holdback without being early.
fn never_go() -> Vec<(u8, Record)> {
    let mut refused = refused();
    refused.retain(|(number, _)| ![2, 5].contains(number));
    refused
}

/// So many different records that are early at all short logs: of replica 3,
/// from its hundredth on.
fn early(count: usize) -> Vec<Record> {
    records(&adds(3, 99 + count)[99..])
}

/// Holdbacks in good order in which all are early, with and without places left.
fn good_holdbacks() -> Vec<Vec<u8>> {
    let counts = [0, 1, 2, 31, 32];
    counts.map(|count| holdback_from(&early(count))).to_vec()
}

/// Holdbacks that are not in good order, one of each sort.
fn bad_holdbacks() -> Vec<Vec<u8>> {
    let full = holdback_from(&early(32));
    let some = holdback_from(&early(3));
    vec![
        vec![],
        vec![0],
        full[..448].to_vec(),
        [full.clone(), vec![0]].concat(),
        with(&full, 0, 33),
        with(&full, 0, 255),
        with(&full, 0, 31),
        with(&some, 43, 1),
        with(&some, 448, 1),
        with(&holdback_from(&[]), 1, 1),
    ]
}

// ---- 14

#[test]
fn number_14_a_holdback_not_of_449_bytes() {
    let new = record(add(1, 0, &[]));
    for length in 0..=1000 {
        let expected = match length {
            449 => Accepted(46),
            _ => Refused(14),
        };
        assert_eq!(deliver_at(&[], 14, &vec![0; length], &new), expected);
    }
    // Whatever waits in it: the bytes of a holdback, cut or made longer.
    for count in 0..=32 {
        let holdback = holdback_from(&early(count));
        for length in [0, 1, 14, 15, 1 + 14 * count, 435, 448, 450, 463, 898] {
            let mut other = holdback.clone();
            other.resize(length, 0);
            if length != 449 {
                assert_eq!(deliver_at(&[], 100, &other, &new), Refused(14));
            }
        }
        assert_eq!(deliver_at(&[], 100, &holdback, &new), Accepted(46));
    }
}

#[test]
fn number_14_a_count_above_32() {
    let new = record(add(1, 0, &[]));
    let full = holdback_from(&early(32));
    assert_eq!(deliver_at(&[], 100, &full, &new), Accepted(46));
    for count in 33..=255 {
        assert_eq!(
            deliver_at(&[], 100, &with(&full, 0, count), &new),
            Refused(14)
        );
        let none = with(&[0; 449], 0, count);
        assert_eq!(deliver_at(&[], 100, &none, &new), Refused(14));
    }
    // Up to 32, with 14 zero bytes for each, which do not read.
    for count in 0..=32 {
        let zeros = with(&[0; 449], 0, count);
        assert_eq!(deliver_at(&[], 100, &zeros, &new), Accepted(46));
    }
}

#[test]
fn number_14_a_byte_past_the_records() {
    let new = record(add(1, 0, &[]));
    let wait = early(1).remove(0);
    for count in 0..=32 {
        let holdback = holdback_from(&early(count));
        for at in 1..449 {
            let past = at > 14 * count;
            for value in [1, 128, 255] {
                let holdback = with(&holdback, at, value);
                let expected = if past { Refused(14) } else { Accepted(46) };
                assert_eq!(deliver_at(&[], 14, &holdback, &new), expected);
            }
            if past {
                assert_eq!(
                    deliver_at(&[], 14, &with(&holdback, at, 1), &wait),
                    Refused(14)
                );
            }
        }
    }
    // A count that is one less than the records.
    for count in 1..=32 {
        let holdback = with(&holdback_from(&early(count)), 0, count as u8 - 1);
        assert_eq!(deliver_at(&[], 100, &holdback, &new), Refused(14));
    }
}

// ---- the order of the tests

#[test]
fn number_1_comes_first() {
    let file = file_of(&p1());
    let mut records: Vec<Record> = refused().into_iter().map(|(_, record)| record).collect();
    records.push(record(p1()[0]));
    records.push(record(add(4, 0, &[])));
    for holdback in bad_holdbacks().into_iter().chain(good_holdbacks()) {
        let unsound = |buffer: &[u8], record: &Record| {
            let answer = holdback_checked(&mut buffer.to_vec(), record, &mut holdback.clone());
            assert_eq!(answer, Refused(1));
        };
        for record in &records {
            for length in [0, 1, 31, 32, 45, 87] {
                unsound(&file[..length], record);
            }
            for at in 0..32 {
                unsound(&in_buffer(&with(&file, at, file[at] ^ 1), 300), record);
            }
            unsound(&in_buffer(&file_of(&mutual()), 300), record);
        }
    }
}

/// Also before 2: the holdback is looked at before the record.
#[test]
fn number_14_comes_second() {
    let mut records = refused();
    records.push((0, record(receiver()[0])));
    records.push((8, record(add(6, 0, &[]))));
    for holdback in bad_holdbacks() {
        for (_, record) in &records {
            for room in [0, 13, 14, 300] {
                assert_eq!(
                    deliver_at(&receiver(), room, &holdback, record),
                    Refused(14)
                );
            }
        }
        for length in 0..=28 {
            let answer = deliver_at(&receiver(), 100, &holdback, &vec![7; length]);
            assert_eq!(answer, Refused(14));
        }
    }
}

/// A plain delivery's answers, with waiting or 13 in the place of 5.
#[test]
fn each_answer_with_each_holdback() {
    let mut offered: Vec<Record> = refused().into_iter().map(|(_, record)| record).collect();
    offered.extend(records(&receiver()));
    offered.push(record(add(6, 0, &[])));
    offered.push(record(add(6, 2049, &[0, 0, 0, 0, 0, 0, 1, 1])));
    for holdback in good_holdbacks() {
        for record in &offered {
            for room in [0, 13, 14, 300] {
                let mut desk = Desk::new(&receiver(), room, &waiting(&holdback));
                let expected = match desk.plainly(record) {
                    Refused(5) if holdback[0] == 32 => Refused(13),
                    Refused(5) => Waiting,
                    other => other,
                };
                assert_eq!(desk.deliver(record), expected);
            }
        }
        for (number, record) in refused() {
            let answer = deliver_at(&receiver(), 0, &holdback, &record);
            let early = if holdback[0] == 32 {
                Refused(13)
            } else {
                Waiting
            };
            let expected = if number == 5 { early } else { Refused(number) };
            assert_eq!(answer, expected);
        }
    }
}

/// Records with several causes: the first in order is answered.
#[test]
fn each_answer_against_those_behind_it() {
    let far = &[0, 9, 0, 0, 0, 0, 1];
    let not_closed = &[0, 0, 0, 0, 0, 0, 0, 1];
    let mut own = record(add(6, 9999, far));
    own[11] = 255;
    // Not closed, early, nodes not known, and more.
    let cases = [
        (2, [record(add(7, 9999, far)), vec![0]].concat()),
        (2, with(&record(add(7, 0, &[])), 0, 9)[..13].to_vec()),
        (3, with(&record(receiver()[0]), 0, 9)),
        (3, with(&record(add(7, 9999, &[0, 9])), 0, 0)),
        (3, own),
        (4, record(add(7, 9999, &[0, 9]))),
        (4, record(add(8, 9999, &[0, 9]))),
        (4, record(add(8, 9999, &[]))),
        (5, record(add(6, 9999, far))),
        (5, record(add(6, 9999, &[0, 9, 0, 0, 0, 0, 0, 1]))),
        (5, record(up(6, 1793, 1793, &[0, 0, 0, 0, 0, 0, 1, 2]))),
        (6, record(add(6, 9999, not_closed))),
        (6, record(up(6, 1793, 1793, not_closed))),
        (7, record(add(6, 9999, &[0, 0, 0, 0, 0, 0, 1, 1]))),
        (8, record(add(6, 1793, &[0, 0, 0, 0, 0, 0, 1, 1]))),
    ];
    for holdback in good_holdbacks() {
        for (number, record) in &cases {
            let early = if holdback[0] == 32 {
                Refused(13)
            } else {
                Waiting
            };
            let expected = if *number == 5 {
                early
            } else {
                Refused(*number)
            };
            for room in [0, 13] {
                let answer = deliver_at(&receiver(), room, &holdback, record);
                assert_eq!(answer, expected, "{record:?}");
            }
        }
    }
    // Had it comes before the want of room, and of a place.
    for holdback in good_holdbacks() {
        for op in receiver() {
            assert_eq!(deliver_at(&receiver(), 0, &holdback, &record(op)), HadIt);
        }
    }
}

// ---- waiting and 13

#[test]
fn early_records_go_to_the_back() {
    let records = early(32);
    let mut desk = Desk::new(&receiver(), 0, &[]);
    for (before, record) in records.iter().enumerate() {
        assert_eq!(desk.waiting(), records[..before]);
        assert_eq!(desk.deliver(record), Waiting);
        assert_eq!(usize::from(desk.holdback[0]), before + 1);
        let place = 1 + 14 * before;
        assert_eq!(desk.holdback[place..place + 14], record[..]);
    }
    assert_eq!(desk.holdback, holdback_from(&records));
    // In any order of arrival.
    let rng = &mut Rng::new(1);
    for _ in 0..50 {
        let mut records = records.clone();
        rng.shuffle(&mut records);
        let mut desk = Desk::new(&receiver(), 0, &[]);
        for record in &records {
            assert_eq!(desk.deliver(record), Waiting);
        }
        assert_eq!(desk.waiting(), records);
    }
}

#[test]
fn the_same_bytes_wait_once() {
    for count in 1..=32 {
        let records = early(count);
        let mut desk = Desk::new(&receiver(), 100, &records);
        for record in &records {
            assert_eq!(desk.deliver(record), Waiting);
            assert_eq!(desk.deliver(record), Waiting);
            assert_eq!(desk.waiting(), records);
        }
    }
    // Those that wait are compared whole, and place by place.
    let record = early(1).remove(0);
    for at in 2..14 {
        // Its own count makes another sequence, which is early too.
        let other = with(&record, at, record[at] + 2);
        let mut desk = Desk::new(&receiver(), 100, &early(1));
        assert_eq!(desk.deliver(&other), Waiting);
        assert_eq!(desk.waiting(), [record.clone(), other]);
    }
    let two = early(2).concat();
    for shift in 1..14 {
        let between = &two[shift..shift + 14];
        let mut desk = Desk::new(&[], 100, &early(2));
        if desk.plainly(between) == Refused(5) {
            assert_eq!(desk.deliver(between), Waiting);
            assert_eq!(desk.waiting().len(), 3);
        }
    }
}

#[test]
fn number_13_only_in_a_full_holdback_and_for_other_bytes() {
    let records = early(33);
    for count in 0..=32 {
        let mut desk = Desk::new(&receiver(), 100, &records[..count]);
        let expected = if count == 32 { Refused(13) } else { Waiting };
        assert_eq!(desk.deliver(&records[32]), expected);
        assert_eq!(desk.deliver(&records[32]), expected);
    }
    let full = holdback_from(&records[..32]);
    for record in &records[..32] {
        assert_eq!(deliver_at(&receiver(), 0, &full, record), Waiting);
        // One other byte.
        for at in 2..8 {
            let other = with(record, at, record[at] ^ 64);
            assert_eq!(deliver_at(&receiver(), 0, &full, &other), Refused(13));
        }
    }
}

/// What is in a full holdback does not matter, be it held or out of form: only an
/// acceptance clears it.
#[test]
fn number_13_in_a_holdback_of_records_that_never_go() {
    let mut never: Vec<Record> = never_go().into_iter().map(|(_, record)| record).collect();
    never.extend(records(&receiver()));
    never.push(record(add(6, 0, &[])));
    never.extend(vec![vec![0; 14]; 32]);
    never.truncate(32);
    let mut desk = Desk::new(&receiver(), 28, &never);
    let late = early(1).remove(0);
    assert_eq!(desk.deliver(&late), Refused(13));
    assert_eq!(desk.deliver(&record(receiver()[0])), HadIt);
    assert_eq!(desk.deliver(&late), Refused(13));
    assert_eq!(desk.waiting().len(), 32);
    // 6:1 has waited as well, and goes; the rest is dropped.
    assert_eq!(desk.deliver(&record(add(5, 0, &[]))), Accepted(88));
    assert_eq!(desk.waiting(), Vec::<Record>::new());
    assert_eq!(desk.deliver(&late), Waiting);
}

// ---- what is not searched

/// A record that could go stays where it is, until another one is accepted.
#[test]
fn only_an_acceptance_starts_the_search() {
    let can_go = record(add(6, 0, &[]));
    for count in 0..=31 {
        let mut holdback = early(count);
        holdback.insert(count / 2, can_go.clone());
        let mut desk = Desk::new(&receiver(), 300, &holdback);
        for op in receiver() {
            assert_eq!(desk.deliver(&record(op)), HadIt);
        }
        for (number, record) in refused() {
            let early = if count == 31 { Refused(13) } else { Waiting };
            let expected = if number == 5 { early } else { Refused(number) };
            let answer = desk.clone().deliver(&record);
            assert_eq!(answer, expected);
        }
        // The same bytes that wait: a waiting one, and one that is accepted.
        if count > 0 {
            assert_eq!(desk.deliver(&early(count)[0]), Waiting);
        }
        assert_eq!(desk.waiting(), holdback);
        let mut same = desk.clone();
        assert_eq!(same.deliver(&can_go), Accepted(74));
        assert_eq!(same.waiting(), early(count));
        assert_eq!(desk.deliver(&record(add(5, 0, &[]))), Accepted(88));
        assert_eq!(desk.waiting(), early(count));
    }
}

// ---- the search

/// One call accepts 33 records, in whatever order 32 of them wait.
#[test]
fn a_chain_of_33_in_one_call() {
    let chains = [
        adds(1, 33),
        adds(8, 33),
        turns(33),
        longest_chain()[..33].to_vec(),
    ];
    let rng = &mut Rng::new(2);
    for ops in chains {
        let first = record(ops[0]);
        let mut rest = records(&ops[1..]);
        rest.reverse();
        for round in 0..60 {
            let mut desk = Desk::new(&[], 14 * 33, &rest);
            assert_eq!(desk.deliver(&first), Accepted(32 + 14 * 33));
            assert_eq!(desk.buffer, file_of(&ops));
            assert_eq!(desk.holdback, vec![0; 449]);
            rng.shuffle(&mut rest);
            if round == 0 {
                rest = records(&ops[1..]);
            }
        }
    }
}

/// A chain that comes in reverse order waits, and then goes at once.
#[test]
fn a_chain_in_reverse_order_call_by_call() {
    for ops in [adds(4, 33), turns(33)] {
        let mut desk = Desk::new(&[], 14 * 33, &[]);
        for op in ops[1..].iter().rev() {
            assert_eq!(desk.deliver(&record(*op)), Waiting);
        }
        assert_eq!(desk.holdback[0], 32);
        assert_eq!(desk.deliver(&record(ops[0])), Accepted(32 + 14 * 33));
        assert_eq!(desk.buffer, file_of(&ops));
        assert_eq!(desk.holdback, vec![0; 449]);
    }
}

/// The answer is the last file end, after each number of records that go.
#[test]
fn the_answer_is_the_last_file_end() {
    let ops = turns(33);
    for waiting in 0..=32 {
        let mut holdback = records(&ops[1..=waiting]);
        holdback.reverse();
        holdback.extend(early(32 - waiting));
        let mut desk = Desk::new(&[], 14 * 40, &holdback);
        let end = 32 + 14 * (1 + waiting);
        assert_eq!(desk.deliver(&record(ops[0])), Accepted(end));
        assert_eq!(file_end(&desk.buffer), Count(end));
        assert_eq!(desk.waiting().len(), 32 - waiting);
    }
}

/// As soon as one is accepted: 3:1 lets the first rival go before the second
/// one, which could go all the time, is met.
#[test]
fn the_search_starts_again_from_the_front() {
    let given = add(1, 0, &[]);
    let first = add(2, 0, &[1, 0, 1]);
    let between = add(3, 0, &[1]);
    let second = add(2, 0, &[1]);
    let after = |holdback: &[Op]| {
        let mut desk = Desk::new(&[], 100, &records(holdback));
        assert_eq!(desk.deliver(&record(given)), Accepted(74));
        assert_eq!(desk.waiting(), Vec::<Record>::new());
        assert!(desk.holds(between));
        assert!(desk.holds(first) != desk.holds(second));
        desk.holds(first)
    };
    assert!(after(&[first, between, second]));
    assert!(after(&[between, first, second]));
    assert!(!after(&[first, second, between]));
    assert!(!after(&[second, first, between]));
    assert!(!after(&[second, between, first]));
    assert!(!after(&[between, second, first]));
}

/// At once, not when the pass has met all: of the rivals that stand before the
/// chain, the one that counts least of it is the first that can go, and those
/// behind it are too late.
#[test]
fn the_search_does_not_first_come_to_its_end() {
    let given = add(1, 0, &[]);
    let chain = [
        add(3, 0, &[1]),
        add(3, 0, &[1, 0, 1]),
        add(3, 0, &[1, 0, 2]),
    ];
    // Rivals that count so much of the chain.
    let rivals: Vec<Op> = (0..=3).map(|length| add(2, 0, &[1, 0, length])).collect();
    for least in 1..=3 {
        let mut holdback = records(&rivals[least..]);
        holdback.reverse();
        holdback.extend(records(&chain));
        holdback.extend(records(&rivals[..least]));
        let mut desk = Desk::new(&[], 200, &holdback);
        assert_eq!(desk.deliver(&record(given)), Accepted(32 + 14 * 5));
        let held: Vec<usize> = (0..=3).filter(|&i| desk.holds(rivals[i])).collect();
        assert_eq!(held, [least]);
    }
}

#[test]
fn the_first_of_two_rivals_is_accepted() {
    let given = add(1, 0, &[]);
    let one = add(2, 0, &[1]);
    for other in [
        add(2, 257, &[1]),
        add(2, 0, &[]),
        remove(2, 257, &[1]),
        up(2, 257, 0, &[1]),
    ] {
        for (first, second) in [(one, other), (other, one)] {
            for mut holdback in [vec![], early(1), early(30)] {
                let left = holdback.clone();
                holdback.insert(0, record(first));
                holdback.push(record(second));
                let mut desk = Desk::new(&[], 100, &holdback);
                assert_eq!(desk.deliver(&record(given)), Accepted(60));
                assert!(desk.holds(first) && !desk.holds(second));
                assert_eq!(desk.waiting(), left);
            }
        }
    }
    // A rival of the delivered record itself is 4.
    let mut desk = Desk::new(
        &[given],
        100,
        &records(&[add(2, 0, &[]), add(2, 257, &[1])]),
    );
    assert_eq!(desk.deliver(&record(one)), Accepted(60));
    assert_eq!(desk.waiting(), Vec::<Record>::new());
    // Rivals that are early wait beside each other.
    let rivals = [add(2, 0, &[2]), add(2, 257, &[2]), add(2, 0, &[1])];
    let mut desk = Desk::new(&[], 100, &[]);
    for rival in rivals {
        assert_eq!(desk.deliver(&record(rival)), Waiting);
    }
    assert_eq!(desk.waiting(), records(&rivals));
    // The third is the first that can go; then the others are 4, early or not.
    assert_eq!(desk.deliver(&record(given)), Accepted(60));
    assert!(desk.holds(rivals[2]));
    assert_eq!(desk.waiting(), Vec::<Record>::new());
}

// ---- what is dropped, and what stays

/// Each number at each place among records that go and that stay.
#[test]
fn refused_with_3_4_6_or_7_or_held_is_dropped() {
    let goes = [add(4, 0, &[0, 0, 0, 0, 1]), add(5, 0, &[0, 0, 0, 0, 1])];
    let stays = early(2);
    let mut others = records(&goes);
    others.insert(0, stays[0].clone());
    others.insert(2, stays[1].clone());
    let mut dropped: Vec<Record> = never_go().into_iter().map(|(_, record)| record).collect();
    dropped.extend(records(&receiver()));
    let given = add(5, 0, &[]);
    for never in dropped {
        for place in 0..=others.len() {
            for more in [1, 2, 28] {
                let mut holdback = others.clone();
                holdback.splice(place..place, vec![never.clone(); more]);
                let mut desk = Desk::new(&receiver(), 100, &holdback);
                assert_eq!(desk.deliver(&record(given)), Accepted(32 + 14 * 5));
                assert!(goes.iter().all(|&op| desk.holds(op)));
                assert_eq!(desk.waiting(), stays);
            }
        }
    }
}

/// All that can never go at once, in any order, with those that go and stay.
#[test]
fn the_search_goes_on_after_a_dropped_one() {
    let rng = &mut Rng::new(3);
    let goes = [add(5, 0, &[0, 0, 0, 0, 1]), add(4, 0, &[0, 0, 0, 0, 2])];
    let stays = early(5);
    let given = add(5, 0, &[]);
    for _ in 0..300 {
        let mut holdback: Vec<Record> = never_go().into_iter().map(|(_, record)| record).collect();
        holdback.extend(records(&goes));
        holdback.extend(records(&receiver()));
        holdback.extend(stays.clone());
        rng.shuffle(&mut holdback);
        let left: Vec<Record> = holdback
            .iter()
            .filter(|record| stays.contains(record))
            .cloned()
            .collect();
        let mut desk = Desk::new(&receiver(), 100, &holdback);
        assert_eq!(desk.deliver(&record(given)), Accepted(32 + 14 * 5));
        assert_eq!(desk.waiting(), left);
    }
}

/// Early before the call, and refused for good after it.
#[test]
fn an_early_record_that_comes_to_nothing_is_dropped() {
    let first = add(1, 0, &[]);
    let second = add(2, 0, &[1]);
    let cases = [
        // 2:1 counts 1:1.
        (6, add(6, 0, &[0, 1])),
        // Nodes that are not known there.
        (7, add(6, 514, &[1, 1])),
        (7, remove(6, 258, &[1, 1])),
        (7, up(6, 513, 513, &[1, 1])),
        // Another 2:1 and one counting more of replica 1 than there is: 4 first.
        (4, add(2, 513, &[9])),
    ];
    for (number, op) in cases {
        let mut desk = Desk::new(&[first], 100, &[]);
        assert_eq!(desk.deliver(&record(op)), Waiting);
        assert_eq!(desk.deliver(&record(second)), Accepted(60));
        assert_eq!(desk.plainly(&record(op)), Refused(number));
        assert_eq!(desk.holdback, vec![0; 449]);
    }
}

/// Room for so many of a chain: the next one is refused with 8 and stays, and
/// those behind it are early still.
#[test]
fn refused_with_8_stays() {
    for ops in [adds(1, 6), turns(6)] {
        let mut reversed = records(&ops[1..]);
        reversed.reverse();
        for holdback in [reversed, records(&ops[1..])] {
            for room in 0..14 * 7 {
                let fit = (room / 14).min(6);
                let mut desk = Desk::new(&[], room, &holdback);
                let answer = desk.deliver(&record(ops[0]));
                if fit == 0 {
                    assert_eq!(answer, Refused(8));
                    continue;
                }
                assert_eq!(answer, Accepted(32 + 14 * fit));
                let gone = records(&ops[..fit]);
                let left: Vec<Record> = holdback
                    .iter()
                    .filter(|record| !gone.contains(record))
                    .cloned()
                    .collect();
                assert_eq!(desk.waiting(), left);
                if fit < 6 {
                    assert_eq!(desk.plainly(&record(ops[fit])), Refused(8));
                }
            }
        }
    }
}

/// In a longer buffer those that stayed go after the next acceptance, and not
/// before.
#[test]
fn what_stayed_for_want_of_room_goes_later() {
    let ops = adds(1, 6);
    let mut desk = Desk::new(&[], 28, &records(&ops[1..]));
    assert_eq!(desk.deliver(&record(ops[0])), Accepted(60));
    assert_eq!(desk.waiting(), records(&ops[2..]));
    desk.buffer.resize(300, 0x77);
    assert_eq!(desk.deliver(&record(ops[1])), HadIt);
    assert_eq!(desk.deliver(&early(1)[0]), Waiting);
    assert_eq!(desk.waiting().len(), 5);
    let mut same = desk.clone();
    // One that waits comes again: now it is not early, and is accepted.
    assert_eq!(same.deliver(&record(ops[2])), Accepted(32 + 14 * 6));
    assert_eq!(desk.deliver(&record(add(2, 0, &[]))), Accepted(32 + 14 * 7));
    assert_eq!(desk.waiting(), early(1));
    assert_eq!(same.waiting(), early(1));
}

/// 3, 4, 6, 7 and had it come before 8: without room they are dropped too.
#[test]
fn what_can_never_go_is_dropped_without_room() {
    let given = add(5, 0, &[]);
    let fits = add(4, 0, &[0, 0, 0, 0, 1]);
    let mut holdback: Vec<Record> = never_go().into_iter().map(|(_, record)| record).collect();
    holdback.extend(records(&receiver()));
    holdback.push(record(fits));
    holdback.extend(early(2));
    for room in [14, 27] {
        let mut desk = Desk::new(&receiver(), room, &holdback);
        assert_eq!(desk.deliver(&record(given)), Accepted(74));
        let left = [vec![record(fits)], early(2)].concat();
        assert_eq!(desk.waiting(), left);
    }
}

/// Nothing says that no two are alike in a holdback that is lent.
#[test]
fn doubles_in_the_holdback() {
    let given = add(1, 0, &[]);
    let next = record(add(1, 0, &[1]));
    for times in 1..=32 {
        // All of them early: they stay, and the same once more is waiting.
        let doubles = vec![early(1).remove(0); times];
        let mut desk = Desk::new(&[], 100, &doubles);
        assert_eq!(desk.deliver(&doubles[0]), Waiting);
        assert_eq!(desk.deliver(&record(given)), Accepted(46));
        assert_eq!(desk.waiting(), doubles);
        // One goes, and the others are held then.
        let mut desk = Desk::new(&[], 100, &vec![next.clone(); times]);
        assert_eq!(desk.deliver(&record(given)), Accepted(60));
        assert_eq!(desk.holdback, vec![0; 449]);
        // The delivered record itself.
        let mut desk = Desk::new(&[], 100, &vec![record(given); times]);
        assert_eq!(desk.deliver(&record(given)), Accepted(46));
        assert_eq!(desk.holdback, vec![0; 449]);
        // All are refused with 8, and stay.
        let mut desk = Desk::new(&[], 14, &vec![next.clone(); times]);
        assert_eq!(desk.deliver(&record(given)), Accepted(46));
        assert_eq!(desk.waiting(), vec![next.clone(); times]);
    }
}

/// Freed places close up, wherever they are, and those at the end are zero.
#[test]
fn freed_places_close_up() {
    let rng = &mut Rng::new(4);
    let given = add(1, 0, &[]);
    let chain = records(&adds(1, 33)[1..]);
    for _ in 0..400 {
        let count = 1 + rng.below(32);
        let gone: Vec<bool> = (0..count).map(|_| rng.one_in(2)).collect();
        let mut next = chain.iter();
        let mut stays = early(32).into_iter();
        let mut holdback: Vec<Record> = vec![];
        for &goes in &gone {
            let record = if goes {
                next.next().cloned()
            } else {
                stays.next()
            };
            holdback.extend(record);
        }
        let left: Vec<Record> = holdback
            .iter()
            .zip(&gone)
            .filter(|(_, &goes)| !goes)
            .map(|(record, _)| record.clone())
            .collect();
        let mut desk = Desk::new(&[], 14 * 33, &holdback);
        let all = holdback.len() - left.len() + 1;
        assert_eq!(desk.deliver(&record(given)), Accepted(32 + 14 * all));
        assert_eq!(usize::from(desk.holdback[0]), left.len());
        assert_eq!(desk.holdback[1..1 + 14 * left.len()], left.concat());
        assert!(desk.holdback[1 + 14 * left.len()..]
            .iter()
            .all(|&byte| byte == 0));
    }
}

/// The buffer past the file end is neither read nor changed, but for 14 bytes
/// for each record that is accepted.
#[test]
fn bytes_past_the_file_end() {
    let ops = turns(20);
    let mut holdback = records(&ops[1..]);
    holdback.reverse();
    let mut left = None;
    for fill in [0, 0x5a, 255] {
        let mut buffer = file_of(&[]);
        buffer.resize(1000, fill);
        let mut lent = holdback_from(&holdback);
        let answer = holdback_checked(&mut buffer, &record(ops[0]), &mut lent);
        assert_eq!(answer, Accepted(32 + 14 * 20));
        assert!(buffer[32 + 14 * 20..].iter().all(|&byte| byte == fill));
        assert_eq!(buffer[..32 + 14 * 20], file_of(&ops));
        let lent = Some(lent);
        assert!(left.is_none() || left == lent);
        left = lent;
    }
}

#[test]
fn the_last_33_of_a_full_log() {
    let rng = &mut Rng::new(5);
    for ops in [full(rng, Style::mixed), longest_chain()] {
        let (held, rest) = ops.split_at(ops.len() - 33);
        // One that all the others lack, if only by way of others.
        let mut holdback = records(&rest[1..]);
        holdback.reverse();
        let mut desk = Desk::new(held, 14 * 33, &holdback);
        desk.deliver(&record(rest[0]));
        let mut plain = in_buffer(&file_of(held), FULL);
        plain_rounds(&mut plain, &records(rest));
        assert_eq!(desk.buffer, plain);
        assert_eq!(file_end(&desk.buffer), Count(FULL));
        assert_eq!(desk.holdback, vec![0; 449]);
        // Nothing more can come, and nothing waits.
        assert_eq!(desk.deliver(&record(rest[5])), HadIt);
    }
}

// ---- one call is plain deliveries

/// What a call comes to by plain deliveries, each of which is checked: the
/// records that are accepted, in their order.
fn accepted_in_turn(buffer: &mut [u8], op: &[u8], holdback: &[Record]) -> Vec<Record> {
    let Accepted(_) = deliver_checked(buffer, op) else {
        return vec![];
    };
    let mut accepted = vec![op.to_vec()];
    let mut left = holdback.to_vec();
    // From the front again and again: the first that can go does.
    loop {
        let mut gone = None;
        left.retain(|record| {
            if gone.is_some() {
                return true;
            }
            match deliver_checked(buffer, record) {
                Refused(5 | 8) => true,
                Accepted(_) => {
                    gone = Some(record.clone());
                    false
                }
                _ => false,
            }
        });
        match gone {
            Some(record) => accepted.push(record),
            None => return accepted,
        }
    }
}

/// How the random calls came out, so that they are known to be of use.
#[derive(Default, Debug)]
struct Tally {
    answers: [usize; 15],
    had_it: usize,
    waiting: usize,
    /// Calls that accepted so many records.
    one: usize,
    some: usize,
    many: usize,
    /// Calls after which something was dropped, and stayed for want of room.
    dropped: usize,
    no_room: usize,
}

#[test]
fn random_calls_are_plain_deliveries() {
    let mut tally = Tally::default();
    for seed in 0..6000 {
        let rng = &mut Rng::new(20_000 + seed);
        let (desk, offered) = random_desk(rng);
        for record in offered {
            let mut after = desk.clone();
            let answer = after.deliver(&record);
            let mut plain = desk.buffer.clone();
            let accepted = accepted_in_turn(&mut plain, &record, &desk.waiting());
            match answer {
                Accepted(_) => assert_eq!(after.buffer, plain),
                Refused(number) => tally.answers[usize::from(number)] += 1,
                HadIt => tally.had_it += 1,
                _ => tally.waiting += 1,
            }
            match accepted.len() {
                0 => continue,
                1 => tally.one += 1,
                2..=4 => tally.some += 1,
                _ => tally.many += 1,
            }
            let left = after.waiting();
            let gone = desk.waiting().len() - left.len();
            tally.dropped += usize::from(gone >= accepted.len());
            let no_room = left.iter().any(|r| after.plainly(r) == Refused(8));
            tally.no_room += usize::from(no_room);
        }
    }
    for number in [2, 3, 4, 6, 7, 8, 13] {
        assert!(tally.answers[number] > 50, "{tally:?}");
    }
    assert_eq!(tally.answers[14] + tally.answers[5] + tally.answers[1], 0);
    assert!(tally.had_it > 500 && tally.waiting > 1000, "{tally:?}");
    assert!(tally.one > 500 && tally.some > 500, "{tally:?}");
    assert!(tally.many > 500 && tally.dropped > 500, "{tally:?}");
    assert!(tally.no_room > 200, "{tally:?}");
}

/// A part of a world with a holdback of the rest of it, and records to deliver.
fn random_desk(rng: &mut Rng) -> (Desk, Vec<Record>) {
    let style = rng.pick(&[Style::moves as fn(usize, usize) -> Style, Style::mixed]);
    let style = style(1 + rng.below(8), 1 + rng.below(60));
    let ops = World::random(rng, style).ops;
    let offered = rng.below(ops.len() + 1);
    let held = part(rng, &ops[..offered], 30);
    let counts = log_of(&held).held();
    let holdback = world::holdback(rng, &ops, &counts);
    let room = rng.pick(&[0, 13, 14, 30, 100, 1000, 1000, 1000]);
    let lacking = |op: &&Op| op.sequence() > usize::from(counts[op.index()]);
    let next: Vec<Op> = ops.iter().filter(lacking).copied().collect();
    let mut records: Vec<Record> = vec![record(next.first().copied().unwrap_or(ops[0]))];
    records.push(record(rng.pick(&ops)));
    let wild = records[rng.below(2)].clone();
    records.push(damage::record(rng, &wild));
    if !next.is_empty() {
        records.push(record(rng.pick(&next)));
    }
    (Desk::new(&held, room, &waiting(&holdback)), records)
}

/// Every byte of a small holdback changed, and every length: 14 exactly where the
/// document says so.
#[test]
fn damaged_holdbacks() {
    let ops = p1();
    let mut seen = [0; 2];
    for count in 0..=3 {
        let mut holdback = records(&ops[1..=count]);
        holdback.reverse();
        let holdback = holdback_from(&holdback);
        for damaged in damage::changed(&holdback).chain(damage::cut(&holdback)) {
            let is_bad = damaged.len() != 449
                || damaged[0] > 32
                || damaged[1 + 14 * usize::from(damaged[0])..]
                    .iter()
                    .any(|&byte| byte != 0);
            let answer = deliver_at(&[], 100, &damaged, &record(ops[0]));
            assert_eq!(answer == Refused(14), is_bad);
            assert!(is_bad || matches!(answer, Accepted(_)));
            seen[usize::from(is_bad)] += 1;
        }
    }
    assert!(seen[0] > 300 && seen[1] > 3000, "{seen:?}");
    let rng = &mut Rng::new(6);
    for _ in 0..2000 {
        let (desk, offered) = random_desk(rng);
        let bad = damage::holdback(rng, &desk.holdback);
        for record in offered {
            let answer = holdback_checked(&mut desk.buffer.clone(), &record, &mut bad.clone());
            assert_eq!(answer, Refused(14));
        }
    }
}

/// Holdbacks and records of any bytes.
#[test]
fn bytes_of_any_sort() {
    let rng = &mut Rng::new(7);
    let mut accepted = 0;
    for _ in 0..20_000 {
        let held = examples::small_logs()[rng.below(11)].clone();
        let mut holdback: Vec<u8> = (0..449).map(|_| rng.byte()).collect();
        match rng.below(5) {
            0 => holdback.truncate(rng.below(450)),
            1 => holdback.extend(vec![0; rng.below(3)]),
            _ => {
                holdback[0] %= 34;
                let past = 1 + 14 * usize::from(holdback[0]);
                if past < 449 {
                    holdback[past..].fill(0);
                }
            }
        }
        let new = record(add(6, 0, &[]));
        let mut offered = if rng.one_in(2) {
            new
        } else {
            damage::record(rng, &new)
        };
        if rng.one_in(10) {
            offered = (0..rng.below(40)).map(|_| rng.byte()).collect();
        }
        let answer = deliver_at(&held, 100, &holdback, &offered);
        accepted += usize::from(matches!(answer, Accepted(_)));
    }
    assert!(accepted > 3000, "{accepted}");
}

// ---- many calls

/// Offers all plainly, over and over until none is accepted.
fn plain_rounds(buffer: &mut [u8], offered: &[Record]) {
    let accepted = |buffer: &mut [u8]| {
        offered
            .iter()
            .filter(|record| matches!(deliver(buffer, record), Accepted(_)))
            .count()
    };
    while accepted(buffer) > 0 {}
}

/// What becomes of a list of deliveries with one holdback; nothing if 13 was
/// answered. Each call is lent what the last one left.
fn offer_all(desk: &mut Desk, offered: &[Record]) -> Option<usize> {
    let mut most = 0;
    for record in offered {
        match desk.deliver(record) {
            Refused(13) => return None,
            Refused(1 | 8 | 14) => panic!("the premise holds"),
            _ => most = most.max(usize::from(desk.holdback[0])),
        }
    }
    Some(most)
}

/// A world's records in any order, some more than once, with strangers among
/// them: out of form, never closed, of nodes that are not known, early for ever.
/// No two of them share replica and sequence and differ.
fn some_records(rng: &mut Rng, ops: &[Op], window: usize) -> Vec<Record> {
    let mut all = records(ops);
    for start in (0..all.len()).step_by(window) {
        let end = (start + window).min(all.len());
        rng.shuffle(&mut all[start..end]);
    }
    let again = rng.below(all.len() / 2 + 1);
    for _ in 0..again {
        let (from, to) = (rng.below(all.len()), rng.below(all.len() + 1));
        all.insert(to, all[from].clone());
    }
    let counts = log_of(ops).held();
    for replica in (1..=8u8).filter(|&replica| counts[usize::from(replica) - 1] == 0) {
        // The first of a replica that has none in this world.
        let mut vector = counts.map(|count| rng.below(usize::from(count) + 1) as u8);
        vector[usize::from(replica) - 1] = 0;
        let node = rng.pick(ops).node;
        let stranger = match rng.below(5) {
            0 => remove(replica, node, &vector),
            1 => add(replica, node, &vector),
            2 => up(replica, node, node, &vector),
            3 => {
                let at = rng.below(8);
                vector[at] = vector[at].max(1) + 1;
                vector[usize::from(replica) - 1] = 0;
                add(replica, 0, &vector)
            }
            _ => add(replica, 0, &counts),
        };
        let times = 1 + rng.below(2);
        for _ in 0..times {
            let to = rng.below(all.len() + 1);
            all.insert(to, record(stranger));
        }
    }
    for _ in 0..rng.below(3) {
        let mut noise: Vec<u8> = (0..rng.below(30)).map(|_| rng.byte()).collect();
        if noise.len() == 14 {
            noise[1] = 0;
        }
        let to = rng.below(all.len() + 1);
        all.insert(to, noise);
    }
    all
}

/// The promise: the same file, and the same whole buffer.
#[test]
fn deliveries_with_one_holdback_end_as_plain_ones_over_and_over() {
    let mut seen = [0; 2];
    let mut fullest = [0; 33];
    for seed in 0..1500 {
        let rng = &mut Rng::new(30_000 + seed);
        let style = rng.pick(&[Style::moves as fn(usize, usize) -> Style, Style::mixed]);
        let mut style = style(1 + rng.below(8), 1 + rng.below(90));
        style.hear_one_in = rng.pick(&[1, 2, 4]);
        let ops = World::random(rng, style).ops;
        let window = rng.pick(&[6, 15, 25, 33, 40, 90]);
        let offered = some_records(rng, &ops, window);
        // What is held at the start is of this world, or nothing.
        let share = rng.pick(&[0, 0, ops.len() / 2, ops.len()]);
        let mut held = part(rng, &ops[..share], 20);
        // But it may differ from what is offered.
        for op in held.iter_mut().filter(|op| op.kind == Kind::Up) {
            if rng.one_in(9) {
                op.kind = Kind::Down;
            }
        }
        let room = 14 * (ops.len() + 8) + rng.below(30);
        let mut desk = Desk::new(&held, room, &[]);
        let mut plain = desk.buffer.clone();
        let met = offer_all(&mut desk, &offered);
        seen[usize::from(met.is_some())] += 1;
        if let Some(most) = met {
            plain_rounds(&mut plain, &offered);
            assert_eq!(desk.buffer, plain);
            fullest[most] += 1;
        }
    }
    assert!(seen[0] > 50 && seen[1] > 1000, "{seen:?}");
    // Holdbacks that were of use, and some that had no place left.
    assert!(fullest[10..].iter().sum::<usize>() > 300, "{fullest:?}");
    assert!(fullest[32] > 3, "{fullest:?}");
}

/// All of a world, in an order in which each comes at most so much too soon.
#[test]
fn large_worlds_by_one_holdback() {
    for seed in 0..4 {
        let rng = &mut Rng::new(40_000 + seed);
        let ops = World::random(rng, Style::mixed(8, 400)).ops;
        let mut offered = records(&ops);
        offered
            .chunks_mut(30)
            .for_each(|window| rng.shuffle(window));
        for _ in 0..60 {
            // Again, and later.
            let from = rng.below(offered.len());
            let to = from + rng.below(offered.len() - from) + 1;
            offered.insert(to, offered[from].clone());
        }
        let mut desk = Desk::new(&[], FULL - 32, &[]);
        assert!(offer_all(&mut desk, &offered).is_some());
        assert_eq!(desk.buffer[..32 + 14 * 400], file_of(&ops));
        assert_eq!(desk.holdback, vec![0; 449]);
    }
}

/// Without the premise it may end otherwise: with 13, a record is lost.
#[test]
fn a_holdback_that_was_full_too_soon() {
    let ops = adds(1, 34);
    let mut offered = records(&ops);
    offered.reverse();
    let mut desk = Desk::new(&[], 14 * 34, &[]);
    let mut plain = desk.buffer.clone();
    assert_eq!(offer_all(&mut desk.clone(), &offered), None);
    let answers: Vec<Answer> = offered.iter().map(|record| desk.deliver(record)).collect();
    assert_eq!(answers[..32], [Waiting; 32]);
    assert_eq!(answers[32..], [Refused(13), Accepted(46)]);
    assert_eq!(desk.waiting(), offered[..32]);
    plain_rounds(&mut plain, &offered);
    assert_eq!(plain, file_of(&ops));
    // The lost one once more, and all are there.
    assert_eq!(desk.deliver(&offered[32]), Accepted(32 + 14 * 34));
    assert_eq!(desk.buffer, plain);
}

/// Without the premise it may end otherwise: of two rivals, the holdback's order
/// decides.
#[test]
fn rivals_offered_with_one_holdback() {
    let offered = [
        add(2, 0, &[1, 0, 1]),
        add(3, 0, &[1]),
        add(2, 0, &[1]),
        add(1, 0, &[]),
    ];
    let mut desk = Desk::new(&[], 200, &[]);
    let mut plain = desk.buffer.clone();
    assert!(offer_all(&mut desk, &records(&offered)).is_some());
    plain_rounds(&mut plain, &records(&offered));
    assert!(desk.holds(offered[0]) && !desk.holds(offered[2]));
    assert!(bodies(&plain).contains(&record(offered[2])));
}
