//! Calls with a live page.

use super::bundle::receiver;
use super::damage::{self, stained, Entry};
use super::examples::{
    add, adds, all_kinds, bundle_of, chain_not_count, down, file_of, holdback_of, late_moves,
    log_of, longest_chain, marked, mutual, p1, p10, p11, p12, removals, remove,
    rival_before_circle, rival_passed_over, rivals, rivals_with_different_vectors, turns,
    unremoved, up,
};
use super::holdback::each_sort;
use super::issue::{each, ops, some_issue};
use super::world::{full, orders, part, Style, World};
use super::Script;
use crate::log::{HEADER_LEN, MAX_FILE};
use crate::op::{Op, OP_LEN};
use crate::rng::Rng;
use crate::script::{Case, MAX_TABLE};
use crate::tree::SLOTS;
use crate::{Tables, ORDER_LEN};

const ROOM: u8 = 14;
/// Entries of the tables that count.
const LENGTHS: [usize; 3] = [ORDER_LEN, SLOTS, SLOTS];

pub fn write(script: &mut Script) {
    every_order(script);
    late_outcomes(script);
    late_by(script);
    late_adds_and_removes(script);
    issues(script);
    stains(script);
    behind_the_page(script);
    other_pages(script);
    stale_pages(script);
    no_ops(script);
    lengths(script);
    refused_deliveries(script);
    refused_issues(script);
    several_causes(script);
    unsound(script);
    full_replica(script);
    worlds(script);
    apart(script);
    large_logs(script);
    full_logs(script);
}

fn page_of(ops: &[Op]) -> Tables {
    Tables::of(&log_of(ops))
}

/// The same call with a page; only plain deliveries and issues have one.
fn paged(case: Case, page: &Tables) -> Case {
    let page = page.clone();
    match case {
        Case::Deliver(op) => Case::DeliverPage(op, page),
        Case::Add(replica, parent, room) => Case::AddPage(replica, parent, room, page),
        Case::Remove(replica, node, room) => Case::RemovePage(replica, node, room, page),
        Case::Move(replica, node, parent, room) => {
            Case::MovePage(replica, node, parent, room, page)
        }
        other => other,
    }
}

/// The call with the page as the last one left it.
fn go_on(script: &mut Script, case: Case) {
    let page = script.page().clone();
    script.push(paged(case, &page));
}

fn deliver_case(op: &Op) -> Case {
    Case::Deliver(op.bytes().to_vec())
}

/// Each call with its page, at the same file with so much room behind it.
fn each_at(
    script: &mut Script,
    file: &[u8],
    room: usize,
    calls: impl IntoIterator<Item = (Case, Tables)>,
) {
    let buffer = [file, &vec![0xa5; room]].concat();
    let mut changed = true;
    for (case, page) in calls {
        if changed {
            script.load(&buffer);
        }
        // Only an accepted op changes the buffer.
        changed = script.push(paged(case, &page)).starts_with('a');
    }
}

/// Every call with every page.
fn all_pairs(cases: &[Case], pages: &[Tables]) -> Vec<(Case, Tables)> {
    let with_each = |case: &Case| {
        pages
            .iter()
            .map(|page| (case.clone(), page.clone()))
            .collect()
    };
    cases
        .iter()
        .flat_map(|case| -> Vec<_> { with_each(case) })
        .collect()
}

/// Tables of these lengths; what is more than a page has is `eeee`.
fn resized(page: &Tables, lengths: [usize; 3]) -> Tables {
    let mut page = page.clone();
    page.order.resize(lengths[0], 0xeeee);
    page.parents.resize(lengths[1], 0xeeee);
    page.outcomes.resize(lengths[2], 0xee);
    page
}

/// One table of another length, the others as they should be.
fn one_resized(page: &Tables, table: usize, length: usize) -> Tables {
    let mut lengths = LENGTHS;
    lengths[table] = length;
    resized(page, lengths)
}

/// Pages with one short table, each by one entry.
fn short_pages(page: &Tables) -> Vec<Tables> {
    (0..3)
        .map(|table| one_resized(page, table, LENGTHS[table] - 1))
        .collect()
}

/// A true page, untrue ones and short ones, all of the same log.
fn each_page(ops: &[Op]) -> Vec<Tables> {
    let page = page_of(ops);
    let mut pages = vec![
        stained(&page, Entry::Parent(7), 1),
        stained(&page, Entry::Order(ORDER_LEN - 1), 1),
    ];
    pages.extend(short_pages(&page));
    // Short and untrue.
    pages.push(one_resized(&pages[0], 2, 0));
    pages.insert(0, page);
    pages
}

fn judge(script: &mut Script) {
    script.push(Case::Judge(SLOTS as u16, SLOTS as u16));
}

/// Small histories in every order, op by op with one page.
fn every_order(script: &mut Script) {
    let histories = [
        (p1(), 9),
        (p10(), 9),
        (p11(), 9),
        (p12(), 9),
        (rivals(), 24),
        (rival_before_circle(), 9),
        (rival_passed_over(), 9),
        (rivals_with_different_vectors(), 12),
        (all_kinds(), 30),
        (chain_not_count(), 8),
        (removals(), 8),
        (marked(), 8),
    ];
    for (ops, most) in histories {
        let start = common_start(&ops);
        for order in orders(&ops, most) {
            // What is first in every order is delivered once.
            script.load_in(&file_of(&order[..start]), HEADER_LEN + OP_LEN * ops.len());
            script.deliver_page(&order[start].bytes(), &page_of(&order[..start]));
            for op in &order[start + 1..] {
                script.deliver_on(&op.bytes());
            }
            script.deliver_on(&order[start].bytes());
        }
        judge(script);
    }
}

/// How many ops come first in every order.
fn common_start(ops: &[Op]) -> usize {
    let orders = orders(ops, 200);
    let same = |place: &usize| orders.iter().all(|order| order[*place] == ops[*place]);
    (0..ops.len() - 1).take_while(same).count()
}

/// A late op makes every outcome of another every other, on a true page and on
/// untrue ones.
fn late_outcomes(script: &mut Script) {
    for late in late_moves() {
        let page = page_of(&late.held);
        let mut pages = vec![page.clone()];
        pages.push(page_of(&late.held[..3]));
        // As it will be.
        pages.push(page_of(&[&late.held[..], &[late.late]].concat()));
        let calls = all_pairs(&[deliver_case(&late.late)], &pages);
        each_at(script, &file_of(&late.held), OP_LEN, calls);
        // Op by op in every order.
        let all = [&late.held[..], &[late.late]].concat();
        for order in orders(&all, 24) {
            script.load_in(&file_of(&order[..3]), HEADER_LEN + OP_LEN * all.len());
            script.deliver_page(&order[3].bytes(), &page_of(&order[..3]));
            for op in &order[4..] {
                script.deliver_on(&op.bytes());
            }
        }
    }
}

/// Ops that count ever more of a chain of 14: late by all of it, by all but one,
/// and so on to none.
fn late_by(script: &mut Script) {
    let chain = adds(4, 14);
    let file = file_of(&chain);
    let page = page_of(&chain);
    let mut cases = vec![];
    for count in 0..=14u8 {
        let vector = &[0, 0, 0, count];
        for replica in [3, 5] {
            cases.push(deliver_case(&add(replica, 0, vector)));
        }
        if count > 0 {
            cases.push(deliver_case(&remove(3, 1025, vector)));
            cases.push(deliver_case(&up(5, 1025, 0, vector)));
        }
        if count > 1 {
            cases.push(deliver_case(&down(3, 1026, 1025, vector)));
        }
    }
    each_at(script, &file, OP_LEN, all_pairs(&cases, &[page]));
    // Two that work apart, and then meet: each is late by what the other did.
    for (one, other) in [(adds(1, 6), adds(2, 6)), (adds(8, 6), adds(3, 6))] {
        for order in [[one.clone(), other.clone()], [other, one]] {
            let [first, then] = order;
            script.load_in(&file_of(&first), 300);
            script.deliver_page(&then[0].bytes(), &page_of(&first));
            for op in &then[1..] {
                script.deliver_on(&op.bytes());
            }
        }
    }
}

/// What sorts before the moves of its timestamp comes after them, and changes the
/// order alone, or the tree below a node too.
fn late_adds_and_removes(script: &mut Script) {
    let mut held = adds(4, 2);
    held.extend([
        up(1, 1025, 0, &[0, 0, 0, 2]),
        down(2, 1026, 1025, &[0, 0, 0, 2]),
        add(2, 1026, &[0, 1, 0, 2]),
    ]);
    let cases: Vec<Case> = [
        add(3, 0, &[]),
        add(3, 1026, &[0, 0, 0, 2]),
        add(8, 1026, &[0, 0, 0, 2]),
        remove(3, 1026, &[0, 0, 0, 2]),
        remove(8, 1025, &[0, 0, 0, 1]),
        remove(1, 1025, &[1, 0, 0, 2]),
        remove(8, 514, &[0, 2, 0, 2]),
        add(4, 1025, &[0, 0, 0, 2]),
        down(8, 1026, 1025, &[0, 0, 0, 2]),
        up(8, 1026, 1025, &[0, 0, 0, 2]),
        up(8, 1026, 0, &[0, 2, 0, 2]),
    ]
    .iter()
    .map(deliver_case)
    .collect();
    let page = page_of(&held);
    let pages = [page.clone(), damage::page(&mut Rng::new(90), &page)];
    each_at(script, &file_of(&held), OP_LEN, all_pairs(&cases, &pages));
    // All of them that do not share their sequence, one after the other.
    script.load_in(&file_of(&held), 300);
    script.deliver_page(&[], &page);
    for case in cases {
        go_on(script, case);
    }
    judge(script);
}

/// An issued op sorts last: on a true page none is taken back.
fn issues(script: &mut Script) {
    for ops in [vec![], p1(), p11(), p12(), unremoved(), marked()] {
        let file = file_of(&ops);
        let node = if ops.is_empty() { 0 } else { ops[1].node };
        let mut cases = each(2, node, 0, ROOM).to_vec();
        cases.extend(each(8, node, 0, 40));
        cases.push(Case::Move(3, 257, 258, ROOM));
        cases.push(Case::Move(3, 258, 260, ROOM));
        let pages = &each_page(&ops)[..3];
        each_at(script, &file, OP_LEN, all_pairs(&cases, pages));
        // One after the other, with one page.
        script.load_in(&file, file.len() + 200);
        script.push(paged(cases[0].clone(), &pages[0]));
        for case in cases.iter().chain(&cases) {
            go_on(script, case.clone());
        }
        judge(script);
    }
}

/// Calls on the log of P11 that are accepted: late by all, by some and by none.
fn accepted() -> Vec<Case> {
    vec![
        deliver_case(&add(8, 0, &[])),
        deliver_case(&down(8, 770, 771, &[0, 0, 3])),
        deliver_case(&add(4, 0, &[2, 2, 3])),
        Case::Move(5, 771, 0, ROOM),
    ]
}

/// Each table stained at its first entry, in the middle, and at its last one.
fn stains(script: &mut Script) {
    let ops = p11();
    let page = page_of(&ops);
    let held = ops.len();
    let mut entries: Vec<Entry> = [0, 1, 3, held - 1, held, held + 1, 1020, 2038, 2039]
        .map(Entry::Order)
        .to_vec();
    for slot in [0, 1, 2, 3, 255, 256, 257, 511, 513, 514, 1020, 2039, 2040] {
        entries.extend([Entry::Parent(slot), Entry::Outcome(slot)]);
    }
    let cases = accepted();
    let mut calls = vec![];
    for (turn, entry) in entries.into_iter().enumerate() {
        for bits in [1, 0x80] {
            calls.push((cases[turn % 4].clone(), stained(&page, entry, bits)));
        }
        // The high byte alone.
        if let Entry::Order(_) | Entry::Parent(_) = entry {
            calls.push((cases[1].clone(), stained(&page, entry, 0x0100)));
        }
    }
    // Another outcome that there can be.
    for slot in [1, 2, 256, 257, 511, 512, 513] {
        let entry = Entry::Outcome(slot);
        calls.push((cases[2].clone(), stained(&page, entry, 2)));
        calls.push((cases[0].clone(), stained(&page, entry, 3)));
    }
    // Swapped entries of the order, and one that comes twice.
    for at in 0..=held {
        let mut swapped = page.clone();
        swapped.order.swap(at, at + 1);
        calls.push((cases[at % 4].clone(), swapped));
        let mut twice = page.clone();
        twice.order[at + 1] = twice.order[at];
        calls.push((cases[(at + 1) % 4].clone(), twice));
    }
    let mut turned = page.clone();
    turned.order[..held].reverse();
    calls.push((cases[2].clone(), turned));
    each_at(script, &file_of(&ops), OP_LEN, calls);
}

/// Entries behind those that count are not looked at.
fn behind_the_page(script: &mut Script) {
    let ops = p11();
    let page = page_of(&ops);
    let mut calls = vec![];
    let long = usize::from(MAX_TABLE);
    for lengths in [
        [ORDER_LEN + 1, SLOTS, SLOTS],
        [ORDER_LEN, SLOTS + 1, SLOTS],
        [ORDER_LEN, SLOTS, SLOTS + 1],
        [ORDER_LEN + 1, SLOTS + 1, SLOTS + 1],
        [long, long, long],
    ] {
        let lent = resized(&page, lengths);
        for case in accepted() {
            calls.push((case, lent.clone()));
        }
        // As if one more op were there.
        let mut zeros = lent.clone();
        zeros.order[ORDER_LEN..].fill(0);
        zeros.parents[SLOTS..].fill(0xffff);
        zeros.outcomes[SLOTS..].fill(0);
        calls.push((accepted()[1].clone(), zeros));
        // Untrue, had it and refused as well.
        calls.push((accepted()[2].clone(), stained(&lent, Entry::Order(9), 4)));
        calls.push((deliver_case(&ops[4]), lent.clone()));
        calls.push((deliver_case(&add(6, 9999, &[])), lent));
    }
    each_at(script, &file_of(&ops), OP_LEN, calls);
}

/// Pages of other logs, and pages of nothing at all.
fn other_pages(script: &mut Script) {
    let ops = p11();
    let page = page_of(&ops);
    let mut pages: Vec<Tables> = [vec![], p1(), p10(), adds(3, 7), ops[..6].to_vec()]
        .iter()
        .map(|ops| page_of(ops))
        .collect();
    pages.push(page_of(&[&ops[..], &[add(8, 0, &[])]].concat()));
    for value in [0, 1, 0xeeee, 0xffff] {
        pages.push(Tables {
            order: vec![value; ORDER_LEN],
            parents: vec![value; SLOTS],
            outcomes: vec![value as u8; SLOTS],
        });
    }
    // Parents in a circle of one, of two, and of the root: no climb there ends.
    for circle in [[769, 769], [770, 769], [769, 770]] {
        let mut circled = page.clone();
        circled.parents[511..513].copy_from_slice(&circle);
        pages.push(circled.clone());
        circled.parents[0] = 769;
        pages.push(circled);
    }
    // One table of another log, or of nothing, and the others true.
    for other in [page_of(&p1()), pages[6].clone()] {
        let (order, parents, outcomes) = (other.order, other.parents, other.outcomes);
        pages.extend([
            Tables {
                order,
                ..page.clone()
            },
            Tables {
                parents,
                ..page.clone()
            },
            Tables {
                outcomes,
                ..page.clone()
            },
        ]);
    }
    each_at(
        script,
        &file_of(&ops),
        OP_LEN,
        all_pairs(&accepted(), &pages),
    );
    // The same tree and the same outcomes in another order of judging: replica 2
    // has met more.
    let apart = vec![add(1, 0, &[]), add(2, 0, &[])];
    let met = vec![add(1, 0, &[]), add(2, 0, &[1])];
    for (held, other) in [(&apart, &met), (&met, &apart)] {
        let cases = [deliver_case(&add(3, 0, &[])), Case::Add(1, 513, ROOM)];
        let pages = [page_of(held), page_of(other)];
        each_at(script, &file_of(held), OP_LEN, all_pairs(&cases, &pages));
    }
}

/// The log goes on without the page, which is then untrue; the next call that
/// accepts makes it true again. What changes no op leaves it true.
fn stale_pages(script: &mut Script) {
    let between = add(5, 0, &[]);
    let early = add(7, 0, &[0, 0, 0, 0, 1]);
    let aside: Vec<Vec<Case>> = vec![
        vec![deliver_case(&between)],
        vec![Case::OpenBundle(bundle_of(&[between]))],
        vec![Case::OpenBundle(bundle_of(&[between, early]))],
        vec![Case::DeliverHoldback(
            between.bytes().to_vec(),
            holdback_of(&[]),
        )],
        vec![Case::DeliverHoldback(
            between.bytes().to_vec(),
            holdback_of(&[early]),
        )],
        vec![Case::Add(5, 257, ROOM)],
        vec![Case::Remove(5, 257, ROOM)],
        vec![Case::Move(5, 257, 0, ROOM)],
        vec![Case::Make],
        vec![Case::Make, deliver_case(&between)],
        vec![Case::Load(file_of(&p12())), Case::Resize(300)],
        // Another log with as many ops, and the same one again.
        vec![
            Case::Load(file_of(&[p1(), adds(6, 1)].concat())),
            Case::Resize(300),
        ],
        vec![
            Case::Load(file_of(&[p1(), adds(4, 1)].concat())),
            Case::Resize(300),
        ],
        // These change no op.
        vec![Case::Resize(220), Case::Outline],
        vec![deliver_case(&early), deliver_case(&p1()[2])],
        vec![Case::DeliverHoldback(
            early.bytes().to_vec(),
            holdback_of(&[]),
        )],
        vec![Case::OpenBundle(bundle_of(&p1()))],
        vec![Case::Add(5, 9999, ROOM), Case::Judge(2041, 2041)],
    ];
    for cases in aside {
        for last in [add(8, 0, &[]), add(8, 257, &[3, 1])] {
            script.load_in(&file_of(&p1()), 300);
            script.deliver_page(&add(4, 0, &[]).bytes(), &page_of(&p1()));
            script.extend(cases.clone());
            // Had it, refused: the page stays as it was.
            script.deliver_on(&p1()[1].bytes());
            script.deliver_on(&add(3, 9999, &[]).bytes());
            script.deliver_on(&last.bytes());
            script.deliver_on(&add(3, 0, &[]).bytes());
            go_on(script, Case::Add(6, 0, ROOM));
            go_on(script, Case::Remove(6, 257, ROOM));
        }
    }
}

/// A log without ops: none can be taken back, whatever the page is.
fn no_ops(script: &mut Script) {
    let empty = page_of(&[]);
    let mut pages = vec![
        empty.clone(),
        page_of(&p1()),
        stained(&empty, Entry::Order(0), 1),
        stained(&empty, Entry::Parent(0), 1),
        stained(&empty, Entry::Outcome(0), 1),
        resized(&Tables::default(), LENGTHS),
        resized(&empty, [2100; 3]),
    ];
    pages.extend(short_pages(&empty));
    pages.push(Tables::default());
    let mut cases = vec![deliver_case(&add(1, 0, &[])), deliver_case(&add(8, 0, &[]))];
    cases.extend(each(8, 257, 0, ROOM));
    cases.push(deliver_case(&add(1, 0, &[1])));
    for room in [13, 14] {
        each_at(script, &file_of(&[]), room, all_pairs(&cases, &pages));
    }
}

/// Each table alone of other lengths, then all of them.
fn lengths(script: &mut Script) {
    let ops = p11();
    let page = page_of(&ops);
    let mut pages = vec![];
    for (table, right) in LENGTHS.into_iter().enumerate() {
        let all = [
            0,
            1,
            7,
            255,
            1020,
            right - 2,
            right - 1,
            right,
            right + 1,
            2100,
        ];
        pages.extend(all.map(|length| one_resized(&page, table, length)));
    }
    // Order and parents are not of one length.
    for lengths in [
        [2041, 2040, 2041],
        [2040, 2041, 2040],
        [2041, 2041, 2040],
        [2040, 2040, 2040],
        [2041, 2041, 2041],
        [2039, 2040, 2040],
        [2100, 2040, 2100],
        [2039, 2100, 2100],
        [2100, 2100, 2040],
        [0, 0, 0],
        [1, 0, 0],
    ] {
        pages.push(resized(&page, lengths));
    }
    let cases = [
        accepted()[1].clone(),
        accepted()[3].clone(),
        deliver_case(&ops[0]),
    ];
    each_at(script, &file_of(&ops), OP_LEN, all_pairs(&cases, &pages));
}

/// Each sort of record with each sort of page, with room and without.
fn refused_deliveries(script: &mut Script) {
    let cases: Vec<Case> = each_sort().into_iter().map(Case::Deliver).collect();
    let file = file_of(&receiver());
    let pages = each_page(&receiver());
    for room in [100, 13] {
        each_at(script, &file, room, all_pairs(&cases, &pages));
    }
}

/// Each cause at issue with each sort of page.
fn refused_issues(script: &mut Script) {
    for (ops, numbers) in [
        (
            p1(),
            [(257, 258), (258, 257), (4000, 0), (257, 257), (257, 0)],
        ),
        (
            marked(),
            [(257, 262), (262, 261), (258, 259), (0, 257), (262, 258)],
        ),
    ] {
        let file = file_of(&ops);
        let pages = each_page(&ops);
        let mut cases = vec![];
        for (node, parent) in numbers {
            cases.extend(each(4, node, parent, ROOM));
        }
        cases.extend(each(4, 258, 0, 13));
        cases.extend(each(4, 258, 0, 0));
        cases.extend(each(0, 258, 0, ROOM));
        cases.extend(each(9, 258, 0, ROOM));
        let calls = all_pairs(&cases, &pages);
        each_at(script, &file, OP_LEN, calls.iter().step_by(2).cloned());
        each_at(
            script,
            &file,
            OP_LEN - 1,
            calls.into_iter().skip(1).step_by(2),
        );
    }
}

/// A short page is 2, after 1 and before all others, had it as well.
fn several_causes(script: &mut Script) {
    let ops = marked();
    let file = file_of(&ops);
    let mut pages = short_pages(&page_of(&ops));
    pages.push(Tables::default());
    let mut cases: Vec<Case> = vec![
        // 3 and all behind it; held; another; early; not closed; unknown; room.
        Case::Deliver(vec![9; 14]),
        deliver_case(&ops[3]),
        deliver_case(&remove(3, 258, &[6])),
        deliver_case(&add(3, 9999, &[6, 9])),
        deliver_case(&add(4, 9999, &[0, 1])),
        deliver_case(&add(4, 9999, &[])),
        deliver_case(&add(4, 0, &[])),
        Case::Deliver(vec![]),
        Case::Deliver(vec![1; 40]),
    ];
    for replica in [0, 4, 9] {
        cases.extend(each(replica, 4000, 257, 13));
        cases.extend(each(replica, 4000, 257, ROOM));
        cases.push(Case::Move(replica, 260, 261, ROOM));
        cases.push(Case::Move(replica, 258, 259, ROOM));
    }
    let calls = all_pairs(&cases, &pages);
    each_at(script, &file, OP_LEN - 1, calls.iter().cloned());
    // The same on a log that is not sound.
    let unsound = damage::with(&file, 1, 7);
    each_at(script, &unsound, OP_LEN, calls.into_iter().step_by(3));
}

/// 1 comes first, whatever page is lent: also the one of the log before the
/// damage.
fn unsound(script: &mut Script) {
    let rng = &mut Rng::new(91);
    let file = file_of(&p1());
    let mut files = vec![vec![], vec![0; 31], vec![0; 32], file_of(&mutual())];
    for round in 0..10 {
        files.push(match round % 3 {
            0 => file[..rng.below(file.len())].to_vec(),
            1 => damage::with(&file, rng.below(32), 7),
            _ => damage::random(rng, &file),
        });
    }
    for file in files {
        script.load(&file);
        for page in [page_of(&p1()), Tables::default(), page_of(&[])] {
            script.deliver_page(&add(3, 0, &[]).bytes(), &page);
            script.deliver_page(&[1], &page);
            let cases = each(rng.below(10) as u8, 257, 0, rng.pick(&[0, ROOM]));
            script.push(paged(cases[rng.below(3)].clone(), &page));
        }
    }
}

/// Replica 5 comes to 255 ops, and has no more then.
fn full_replica(script: &mut Script) {
    let all = adds(5, 255);
    let vector = &[0, 0, 0, 0, 255];
    let last = deliver_case(&all[254]);
    let page = page_of(&all[..254]);
    for case in [last, Case::Add(5, 1281, ROOM), Case::Remove(5, 1281, ROOM)] {
        script.load_in(&file_of(&all[..254]), HEADER_LEN + OP_LEN * 256);
        script.push(paged(case, &page));
    }
    script.load_in(&file_of(&all), HEADER_LEN + OP_LEN * 256);
    let page = page_of(&all);
    for case in each(5, 1281, 0, ROOM) {
        script.push(paged(case.clone(), &page));
        script.push(paged(case, &one_resized(&Tables::default(), 0, 3)));
    }
    // Late by all, by some, by none.
    for op in [
        add(8, 0, &[]),
        add(8, 0, &[0, 0, 0, 0, 100]),
        down(1, 1300, 1301, vector),
    ] {
        script.load_in(&file_of(&all), HEADER_LEN + OP_LEN * 256);
        script.deliver_page(&op.bytes(), &page);
    }
}

/// Small worlds in any order with one page, again and again until all is held.
fn worlds(script: &mut Script) {
    for seed in 0..14 {
        let rng = &mut Rng::new(9200 + seed);
        let style = rng.pick(&[Style::moves as fn(usize, usize) -> Style, Style::mixed]);
        let style = style(2 + rng.below(7), 6 + rng.below(18));
        let mut ops = World::random(rng, style).ops;
        script.load_in(&file_of(&[]), HEADER_LEN + OP_LEN * (ops.len() + 2));
        script.deliver_page(&[], &page_of(&[]));
        let mut rounds = 0;
        while !ops.is_empty() && rounds < 9 {
            rng.shuffle(&mut ops);
            ops.retain(|op| offer(script, rng, op));
            rounds += 1;
        }
        judge(script);
    }
}

/// Delivers the op, with noise around it; true while it is not held.
fn offer(script: &mut Script, rng: &mut Rng, op: &Op) -> bool {
    match rng.below(24) {
        0 => {
            script.deliver_on(&damage::record(rng, &op.bytes()));
        }
        1 => {
            script.deliver(&op.bytes());
        }
        2 => {
            let untrue = damage::page(rng, script.page());
            script.deliver_page(&op.bytes(), &untrue);
        }
        3 => {
            let case = some_issue(rng, script.buffer(), op.replica % 8 + 1);
            go_on(script, case);
        }
        _ => {}
    }
    !matches!(script.deliver_on(&op.bytes()).as_bytes()[0], b'a' | b'h')
}

/// A replica that works apart, with its page.
struct Desk {
    file: Vec<u8>,
    page: Tables,
}

/// Replicas that issue apart and hear of each other's ops in any order, until all
/// have the same; each has its own page.
fn apart(script: &mut Script) {
    for seed in 0..7 {
        let rng = &mut Rng::new(9300 + seed);
        let replicas = 2 + rng.below(3);
        let new = |_| Desk {
            file: file_of(&[]),
            page: page_of(&[]),
        };
        let mut desks: Vec<Desk> = (0..replicas).map(new).collect();
        for _ in 0..3 * replicas {
            let at = rng.below(replicas);
            visit(script, &mut desks[at], |script| {
                for _ in 0..1 + rng.below(4) {
                    let case = some_issue(rng, script.buffer(), at as u8 + 1);
                    go_on(script, case);
                }
            });
            let from = rng.below(replicas);
            hear(script, rng, &mut desks, at, from);
        }
        while desks.iter().any(|desk| desk.file != desks[0].file) {
            for at in 0..replicas {
                let from = rng.below(replicas);
                hear(script, rng, &mut desks, at, from);
            }
        }
        script.load(&desks[0].file);
        judge(script);
    }
}

/// Calls at one replica: its file is loaded, and kept afterwards with its page.
fn visit(script: &mut Script, desk: &mut Desk, calls: impl FnOnce(&mut Script)) {
    script.load_in(&desk.file, HEADER_LEN + OP_LEN * 60);
    // A call that changes nothing: the script goes on with this page.
    script.deliver_page(&[], &desk.page);
    calls(script);
    desk.file = file_of(&ops(script.buffer()));
    desk.page = script.page().clone();
}

/// What one replica lacks of another's ops, in any order; now and then its page
/// was stained meanwhile, or one op comes without it.
fn hear(script: &mut Script, rng: &mut Rng, desks: &mut [Desk], at: usize, from: usize) {
    let held = ops(&desks[at].file);
    let mut heard = ops(&desks[from].file);
    heard.retain(|op| !held.contains(op));
    if heard.is_empty() {
        return;
    }
    rng.shuffle(&mut heard);
    if rng.one_in(5) {
        desks[at].page = damage::page(rng, &desks[at].page);
    }
    visit(script, &mut desks[at], |script| {
        for op in heard {
            if rng.one_in(15) {
                script.deliver(&op.bytes());
            } else {
                script.deliver_on(&op.bytes());
            }
        }
    });
}

/// A log of some hundred ops, and what others did meanwhile.
fn large_logs(script: &mut Script) {
    let rng = &mut Rng::new(94);
    let all = World::random(rng, Style::moves(6, 240)).ops;
    let held = part(rng, &all, 60);
    let lacking: Vec<Op> = all.into_iter().filter(|op| !held.contains(op)).collect();
    let page = page_of(&held);
    script.load_in(&file_of(&held), HEADER_LEN + OP_LEN * 260);
    script.deliver_page(&lacking[0].bytes(), &page);
    for op in lacking.iter().skip(1).take(14) {
        script.deliver_on(&op.bytes());
    }
    let case = some_issue(rng, script.buffer(), 3);
    go_on(script, case);
    let untrue = damage::page(rng, script.page());
    script.deliver_page(&add(8, 0, &[]).bytes(), &untrue);
    judge(script);
    // A deep chain in which all replicas take turns, and one op from its middle.
    let chain = turns(200);
    let other = add(7, 0, &chain[98].vector);
    script.load_in(&file_of(&chain), HEADER_LEN + OP_LEN * 201);
    for op in [other, chain[9]] {
        script.deliver_page(&op.bytes(), &page_of(&chain));
    }
}

/// All that there can be but one op, and that one; then none can come.
fn full_logs(script: &mut Script) {
    let rng = &mut Rng::new(95);
    let all = full(rng, Style::moves);
    let (last, held) = all.split_last().expect("2,040 ops");
    script.load_in(&file_of(held), MAX_FILE);
    script.deliver_page(&last.bytes(), &page_of(held));
    script.deliver_on(&held[5].bytes());
    // A chain of all nodes: the last op of replica 1 comes after all that the
    // others have.
    let mut chain = longest_chain();
    let first = chain.remove(254);
    for op in &mut chain[254..] {
        op.vector[0] = 254;
    }
    chain[254].parent = chain[253].node;
    script.load_in(&file_of(&chain), MAX_FILE);
    let page = page_of(&chain);
    script.deliver_page(&first.bytes(), &page);
    script.load_in(&file_of(&chain), MAX_FILE);
    script.deliver_page(&first.bytes(), &resized(&Tables::default(), LENGTHS));
    judge(script);
    // A replica that did nothing, and the first op of all.
    let held = &longest_chain()[..1785];
    script.load_in(&file_of(held), MAX_FILE);
    script.deliver_page(&add(8, 0, &[]).bytes(), &page_of(held));
}
