//! Damaged files and damaged ops: every call ends, and owes what it always
//! owes. The checked calls look after the lent bytes.

mod common;

use common::*;
use outline_model::cases::examples::*;
use outline_model::cases::{damage, world};
use outline_model::rng::Rng;
use outline_model::*;

/// Every call on these bytes; all agree on whether they are sound.
fn every_call(buffer: &[u8], op: &[u8], node: u16) {
    let sound = Log::open(buffer).is_some();
    let agrees = |answer| assert_eq!(answer == Refused(1), !sound);
    agrees(deliver_checked(&mut buffer.to_vec(), op));
    let waiting = [add(7, 0, &[0, 0, 0, 0, 0, 0, 1]), add(2, 257, &[1])];
    for holdback in [vec![], vec![0; 449], holdback_of(&waiting)] {
        agrees(holdback_checked(
            &mut buffer.to_vec(),
            op,
            &mut holdback.clone(),
        ));
    }
    for issue in [Issue::Add(node), Issue::Remove(node), Issue::Move(node, 0)] {
        agrees(issue_checked(&mut buffer.to_vec(), 1, issue).0);
        let call = PageCall::Issue(1, issue, 14);
        agrees(page_checked(&mut buffer.to_vec(), &call, &mut Tables::default()).answer);
    }
    // The page of the log without ops is untrue for most.
    let mut page = Tables::of(&Log::default());
    let call = PageCall::Deliver(op.to_vec());
    agrees(page_checked(&mut buffer.to_vec(), &call, &mut page).answer);
    let bundles = [
        vec![],
        vec![0],
        [&[1, 1], op].concat(),
        [&[64, 1], op].concat(),
    ];
    for bundle in bundles {
        agrees(open_checked(&mut buffer.to_vec(), &bundle));
    }
    for room in [0, 100, 1000] {
        agrees(bundle_in(buffer, [0, 1, 0, 1, 0, 1, 0, 255], room).0);
    }
    agrees(judge_in(buffer, 2041, 2041).0);
    agrees(path_in(buffer, node, 30).0);
    agrees(listing_in(buffer, View::Keeping, 400).0);
    agrees(listing_in(buffer, View::Skipping, 400).0);
    // The program minds bytes past the end, and reads no bytes as a log.
    let read = buffer.is_empty() || file_end(buffer) == Count(buffer.len());
    assert_eq!(outline(buffer) == b"refused 1\n", !read);
    make_checked(&mut buffer.to_vec());
}

#[test]
fn one_byte_changed_or_the_end_cut() {
    for ops in small_logs() {
        let file = file_of(&ops);
        let op = add(7, 0, &[]).bytes();
        for damaged in damage::changed(&file).chain(damage::cut(&file)) {
            every_call(&damaged, &op, 257);
            every_call(&in_buffer(&damaged, file.len() + 14), &op, 257);
        }
    }
}

#[test]
fn every_value_of_each_byte() {
    let file = file_of(&p1());
    let op = add(3, 0, &[2]).bytes();
    for at in 0..file.len() {
        for value in 0..=255 {
            every_call(&in_buffer(&damage::with(&file, at, value), 102), &op, 258);
        }
    }
}

#[test]
fn several_bytes_changed() {
    let rng = &mut Rng::new(51);
    for ops in small_logs() {
        let file = in_buffer(&file_of(&ops), 250);
        for _ in 0..400 {
            let once = damage::random(rng, &file);
            let twice = damage::random(rng, &once);
            let op = damage::record(rng, &add(2, 257, &[1, 1]).bytes());
            every_call(&twice, &op, rng.byte().into());
        }
    }
}

#[test]
fn bytes_of_any_sort() {
    let rng = &mut Rng::new(52);
    for _ in 0..3000 {
        let length = rng.below(200);
        let mut buffer: Vec<u8> = (0..length).map(|_| rng.byte()).collect();
        if length >= 32 && rng.one_in(2) {
            make(&mut buffer);
            buffer[rng.below(32)] = rng.below(4) as u8;
        }
        let op: Vec<u8> = (0..rng.below(20)).map(|_| rng.byte()).collect();
        every_call(&buffer, &op, 300);
    }
}

#[test]
fn damaged_ops_in_random_logs() {
    for seed in 0..60 {
        let rng = &mut Rng::new(600 + seed);
        let style = world::Style::mixed(2 + rng.below(7), 40);
        let ops = world::World::random(rng, style).ops;
        let mut buffer = empty(32 + 14 * 45);
        for op in &ops {
            for _ in 0..6 {
                deliver_checked(&mut buffer, &damage::record(rng, &op.bytes()));
            }
            deliver_checked(&mut buffer, &op.bytes());
        }
        assert!(Log::open(&buffer).is_some());
    }
}
