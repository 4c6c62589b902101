//! The plain calls: each with each kind of answer, and what it leaves behind.

use outline::{plain, Delivery, Refusal, View};

const ADD: [u8; 14] = [1, 1, 1, 1, 0, 0, 0, 0, 0, 0, 0, 0, 0, 0];

fn empty(length: usize) -> Vec<u8> {
    let mut buf = vec![0xa5; length];
    assert_eq!(plain::make(&mut buf), Ok(32));
    buf
}

/// Two nodes, 257 under the root and 258 under 257.
fn two_nodes() -> Vec<u8> {
    let mut buf = empty(100);
    let mut op = [0; 14];
    assert_eq!(plain::issue_add(&mut buf, 1, 0, &mut op), Ok(46));
    assert_eq!(plain::issue_add(&mut buf, 1, 257, &mut op), Ok(60));
    buf
}

#[test]
fn make_leaves_the_rest() {
    let buf = empty(40);
    assert_eq!(buf[..4], [0, 0, 0, 32]);
    assert_eq!(buf[32..], [0xa5; 8]);
    assert_eq!(plain::make(&mut []), Err(Refusal::NoRoom));
}

#[test]
fn delivery() {
    let mut buf = empty(46);
    assert_eq!(plain::deliver(&mut [], &ADD), Err(Refusal::Unsound));
    assert_eq!(plain::deliver(&mut buf, &[]), Err(Refusal::Length));
    let mut malformed = ADD;
    malformed[1] = 9;
    assert_eq!(
        plain::deliver(&mut buf, &malformed),
        Err(Refusal::Malformed)
    );
    let mut early = ADD;
    early[7] = 1;
    assert_eq!(plain::deliver(&mut buf, &early), Err(Refusal::Early));
    let mut unknown = ADD;
    unknown[3] = 2;
    assert_eq!(plain::deliver(&mut buf, &unknown), Err(Refusal::Unknown));
    assert_eq!(plain::deliver(&mut buf[..45], &ADD), Err(Refusal::NoRoom));
    assert_eq!(plain::deliver(&mut buf, &ADD), Ok(Delivery::Accepted(46)));
    assert_eq!(buf[32..], ADD);
    assert_eq!(plain::deliver(&mut buf, &ADD), Ok(Delivery::HadIt));
    assert_eq!(plain::deliver(&mut buf, &unknown), Err(Refusal::Conflict));
}

#[test]
fn delivery_with_a_holdback() {
    let ops = &two_nodes()[32..60];
    let (first, second) = ops.split_at(14);
    let mut holdback = [0; plain::HOLDBACK];
    let mut buf = empty(80);
    let answer = plain::holdback_deliver(&mut buf, second, &mut holdback);
    assert_eq!(answer, Ok(Delivery::Waiting));
    assert_eq!(buf, empty(80));
    assert_eq!((holdback[0], &holdback[1..15]), (1, second));
    assert_eq!(holdback[15..], [0; 434]);

    // What leaves all as it was: in the order of the tests.
    let unchanged = |buf: &mut [u8], op: &[u8], holdback: &mut [u8]| {
        let before = (buf.to_vec(), holdback.to_vec());
        let answer = plain::holdback_deliver(buf, op, holdback);
        assert_eq!((buf.to_vec(), holdback.to_vec()), before);
        answer
    };
    let with = |changes: &[(usize, u8)]| {
        let mut op = ADD;
        changes.iter().for_each(|&(at, byte)| op[at] = byte);
        op
    };
    let answer = unchanged(&mut buf[..31], &[], &mut holdback[..448]);
    assert_eq!(answer, Err(Refusal::Unsound));
    let answer = unchanged(&mut buf, &[], &mut holdback[..448]);
    assert_eq!(answer, Err(Refusal::BadHoldback));
    let answer = unchanged(&mut buf, &ADD[1..], &mut holdback);
    assert_eq!(answer, Err(Refusal::Length));
    let answer = unchanged(&mut buf, &with(&[(1, 9), (7, 1)]), &mut holdback);
    assert_eq!(answer, Err(Refusal::Malformed));
    let answer = unchanged(&mut buf, second, &mut holdback);
    assert_eq!(answer, Ok(Delivery::Waiting));
    let mut full = [7; plain::HOLDBACK];
    full[0] = 32;
    let answer = unchanged(&mut buf, second, &mut full);
    assert_eq!(answer, Err(Refusal::HoldbackFull));
    let answer = unchanged(&mut buf[..45], &with(&[(3, 2)]), &mut holdback);
    assert_eq!(answer, Err(Refusal::Unknown));
    let answer = unchanged(&mut buf[..45], first, &mut holdback);
    assert_eq!(answer, Err(Refusal::NoRoom));

    let answer = plain::holdback_deliver(&mut buf, first, &mut holdback);
    assert_eq!(answer, Ok(Delivery::Accepted(60)));
    assert_eq!(buf[32..60], *ops);
    assert_eq!(buf[60..], [0xa5; 20]);
    assert_eq!(holdback, [0; plain::HOLDBACK]);
    let answer = unchanged(&mut buf, second, &mut holdback);
    assert_eq!(answer, Ok(Delivery::HadIt));
    let answer = unchanged(&mut buf, &with(&[(3, 2)]), &mut holdback);
    assert_eq!(answer, Err(Refusal::Conflict));
    // Replica 3 has seen 513, and not what replica 2 had seen.
    plain::issue_add(&mut buf, 2, 257, &mut [0; 14]).unwrap();
    let gap = with(&[(1, 3), (2, 3), (7, 1)]);
    let answer = unchanged(&mut buf, &gap, &mut holdback);
    assert_eq!(answer, Err(Refusal::NotClosed));
}

#[test]
fn issuing() {
    let mut buf = two_nodes();
    let before = buf.clone();
    let mut out = [7; 20];
    assert_eq!(
        plain::issue_add(&mut buf, 1, 0, &mut out[..13]),
        Err(Refusal::Length)
    );
    assert_eq!(
        plain::issue_add(&mut buf, 0, 0, &mut out),
        Err(Refusal::Malformed)
    );
    assert_eq!(
        plain::issue_remove(&mut buf, 1, 259, &mut out),
        Err(Refusal::Unknown)
    );
    assert_eq!(
        plain::issue_move(&mut buf, 1, 257, 257, &mut out),
        Err(Refusal::Unknown)
    );
    assert_eq!(
        plain::issue_move(&mut buf, 1, 257, 258, &mut out),
        Err(Refusal::Cycle)
    );
    assert_eq!(
        plain::issue_remove(&mut buf[..73], 1, 257, &mut out),
        Err(Refusal::NoRoom)
    );
    assert_eq!((&buf, out), (&before, [7; 20]));
    assert_eq!(plain::issue_move(&mut buf, 8, 258, 0, &mut out), Ok(74));
    assert_eq!(out[..6], [3, 8, 1, 2, 0, 0]);
    assert_eq!(out[14..], [7; 6]);
    assert_eq!(buf[60..74], out[..14]);
    assert_eq!(buf[74..], [0xa5; 26]);
}

#[test]
fn removed_nodes_take_no_new_work() {
    let mut buf = two_nodes();
    let mut unmet = [0; 14];
    let mut other = buf.clone();
    assert_eq!(plain::issue_add(&mut other, 2, 257, &mut unmet), Ok(74));
    let mut out = [7; 14];
    assert_eq!(plain::issue_remove(&mut buf, 1, 257, &mut out), Ok(74));
    let (before, mut out) = (buf.clone(), [7; 14]);
    for (node, parent) in [(257, 0), (258, 257), (257, 258)] {
        let refused = plain::issue_move(&mut buf, 1, node, parent, &mut out);
        assert_eq!(refused, Err(Refusal::Marked));
    }
    let refused = plain::issue_move(&mut buf, 1, 257, 260, &mut out);
    assert_eq!(refused, Err(Refusal::Unknown));
    let refused = plain::issue_add(&mut buf[..74], 1, 257, &mut out);
    assert_eq!(refused, Err(Refusal::Marked));
    assert_eq!((&buf, out), (&before, [7; 14]));
    assert_eq!(plain::deliver(&mut buf, &unmet), Ok(Delivery::Accepted(88)));
}

#[test]
fn bundles() {
    let buf = two_nodes();
    let mut out = [7; 40];
    let nothing = [0; 8];
    assert_eq!(
        plain::bundle_make(&buf[..59], &nothing, &mut out),
        Err(Refusal::Unsound)
    );
    assert_eq!(
        plain::bundle_make(&buf, &nothing, &mut out[..29]),
        Err(Refusal::NoRoom)
    );
    assert_eq!(out, [7; 40]);
    assert_eq!(plain::bundle_make(&buf, &nothing, &mut out), Ok(30));
    assert_eq!(out[..2], [1, 2]);
    assert_eq!(out[2..30], buf[32..60]);
    assert_eq!(out[30..], [7; 10]);

    let mut other = empty(70);
    let before = other.clone();
    assert_eq!(
        plain::bundle_open(&mut other[..31], &out[..30]),
        Err(Refusal::Unsound)
    );
    assert_eq!(
        plain::bundle_open(&mut other, &out[..31]),
        Err(Refusal::BadBundle)
    );
    assert_eq!(
        plain::bundle_open(&mut other[..59], &out[..30]),
        Err(Refusal::NoRoom)
    );
    assert_eq!(other, before);
    assert_eq!(plain::bundle_open(&mut other, &out[..30]), Ok(60));
    assert_eq!(other[..60], buf[..60]);
    assert_eq!(other[60..], [0xa5; 10]);
    assert_eq!(plain::bundle_open(&mut other[..60], &out[..30]), Ok(60));
}

#[test]
fn exhausted() {
    let mut buf = empty(plain::LARGEST);
    let mut op = [0; 14];
    for sequence in 1..=255 {
        assert_eq!(
            plain::issue_add(&mut buf, 3, 0, &mut op),
            Ok(32 + 14 * sequence)
        );
    }
    assert_eq!(
        plain::issue_add(&mut buf, 3, 0, &mut op),
        Err(Refusal::Exhausted)
    );
}

#[test]
fn judging() {
    let buf = two_nodes();
    let mut parents = [7; 2050];
    let mut outcomes = [7; 2050];
    assert_eq!(
        plain::judge(&buf, &mut parents[..2040], &mut outcomes),
        Err(Refusal::Length)
    );
    assert_eq!(
        plain::judge(&buf, &mut parents, &mut outcomes[..2040]),
        Err(Refusal::Length)
    );
    assert_eq!(
        plain::judge(&buf[1..], &mut parents, &mut outcomes),
        Err(Refusal::Unsound)
    );
    assert_eq!((parents, outcomes), ([7; 2050], [7; 2050]));
    assert_eq!(plain::judge(&buf, &mut parents, &mut outcomes), Ok(()));
    assert_eq!(parents[..4], [0, 0, 257, plain::NO_PARENT]);
    assert_eq!(outcomes[..4], [0, 1, 1, 0]);
    assert_eq!(parents[2041..], [7; 9]);
    assert_eq!(outcomes[2041..], [7; 9]);
}

/// The tables of a page, and entries behind them.
#[derive(Clone, PartialEq, Debug)]
struct Page {
    order: Vec<u16>,
    parents: Vec<u16>,
    outcomes: Vec<u8>,
}

impl Page {
    /// With this in every entry.
    fn of(entry: u8) -> Page {
        Page {
            order: vec![entry.into(); 2045],
            parents: vec![entry.into(); 2045],
            outcomes: vec![entry; 2045],
        }
    }

    /// The true one of a log, whose ops are judged in this order.
    fn fresh(buf: &[u8], order: &[u16]) -> Page {
        let mut page = Page::of(7);
        page.order[..2040].fill(0);
        page.order[..order.len()].copy_from_slice(order);
        plain::judge(buf, &mut page.parents, &mut page.outcomes).unwrap();
        page
    }

    fn tables(&mut self) -> plain::Tables<'_> {
        self.lend([2045; 3])
    }

    /// So many entries of each.
    fn lend(&mut self, lengths: [usize; 3]) -> plain::Tables<'_> {
        plain::Tables {
            order: &mut self.order[..lengths[0]],
            parents: &mut self.parents[..lengths[1]],
            outcomes: &mut self.outcomes[..lengths[2]],
        }
    }
}

#[test]
fn delivery_with_a_page() {
    let with = |changes: &[(usize, u8)]| {
        let mut op = ADD;
        changes.iter().for_each(|&(at, byte)| op[at] = byte);
        op
    };
    // 513 under 258, and 769, which is judged first and comes late.
    let (mut buf, mut page) = (two_nodes(), Page::of(7));
    let third = with(&[(1, 2), (2, 2), (4, 1), (5, 2), (6, 2)]);
    let late = with(&[(1, 3), (2, 3)]);
    let answer = plain::page_deliver(&mut buf, &third, &mut page.tables());
    assert_eq!(answer, Ok((Delivery::Accepted(74), 2)));
    assert_eq!(page, Page::fresh(&buf, &[1, 2, 256]));

    // What leaves all as it was: in the order of the tests, at a true page and
    // at one that is not.
    let gap = with(&[(1, 4), (2, 4), (7, 1)]);
    for stain in [0, 1] {
        page.order[9] ^= stain;
        let before = (buf.clone(), page.clone());
        let mut unchanged = |end: usize, op: &[u8], lengths: [usize; 3]| {
            let answer = plain::page_deliver(&mut buf[..end], op, &mut page.lend(lengths));
            assert_eq!((&buf, &page), (&before.0, &before.1));
            answer
        };
        let all = [2040, 2041, 2041];
        assert_eq!(unchanged(73, &[], [0; 3]), Err(Refusal::Unsound));
        assert_eq!(unchanged(100, &late[1..], all), Err(Refusal::Length));
        for short in [[2039, 2041, 2041], [2040, 2040, 2041], [2040, 2041, 2040]] {
            let malformed = [0; 14];
            assert_eq!(unchanged(100, &malformed, short), Err(Refusal::Length));
            assert_eq!(unchanged(100, &late, short), Err(Refusal::Length));
            assert_eq!(unchanged(100, &ADD, short), Err(Refusal::Length));
        }
        assert_eq!(unchanged(100, &[0; 14], all), Err(Refusal::Malformed));
        assert_eq!(unchanged(100, &ADD, all), Ok((Delivery::HadIt, 0)));
        let other = with(&[(4, 1)]);
        assert_eq!(unchanged(100, &other, all), Err(Refusal::Conflict));
        let early = with(&[(1, 3), (2, 3), (6, 3)]);
        assert_eq!(unchanged(100, &early, all), Err(Refusal::Early));
        assert_eq!(unchanged(100, &gap, all), Err(Refusal::NotClosed));
        let unknown = with(&[(1, 3), (2, 3), (4, 1), (5, 1)]);
        assert_eq!(unchanged(87, &unknown, all), Err(Refusal::Unknown));
        assert_eq!(unchanged(87, &late, all), Err(Refusal::NoRoom));
    }
    page.order[9] = 0;

    let answer = plain::page_deliver(&mut buf, &late, &mut page.tables());
    assert_eq!(answer, Ok((Delivery::Accepted(88), 3)));
    assert_eq!(page, Page::fresh(&buf, &[511, 1, 2, 256]));
    assert_eq!(buf[88..], [0xa5; 12]);
}

#[test]
fn issuing_with_a_page() {
    let (mut buf, mut page) = (two_nodes(), Page::of(0));
    let before = buf.clone();
    let mut out = [7; 20];
    let all = [2040, 2041, 2041];
    let short = [[2039, 2041, 2041], [2040, 2040, 2041], [2040, 2041, 2040]];
    for lengths in short.into_iter().chain([all]) {
        let mut page = page.lend(lengths);
        // With the whole page the next test is met.
        let next = |why| if lengths == all { why } else { Refusal::Length };
        let answer = plain::page_issue_add(&mut buf, 9, 0, &mut out, &mut page);
        assert_eq!(answer, Err(next(Refusal::Malformed)));
        let answer = plain::page_issue_remove(&mut buf, 1, 259, &mut out, &mut page);
        assert_eq!(answer, Err(next(Refusal::Unknown)));
        let answer = plain::page_issue_move(&mut buf, 1, 257, 258, &mut out, &mut page);
        assert_eq!(answer, Err(next(Refusal::Cycle)));
        let answer = plain::page_issue_add(&mut buf[..73], 1, 0, &mut out, &mut page);
        assert_eq!(answer, Err(next(Refusal::NoRoom)));
        let answer = plain::page_issue_remove(&mut buf[..59], 1, 257, &mut out, &mut page);
        assert_eq!(answer, Err(Refusal::Unsound));
        let answer = plain::page_issue_move(&mut buf, 1, 258, 0, &mut out[..13], &mut page);
        assert_eq!(answer, Err(Refusal::Length));
    }
    assert_eq!((&buf, out, &page), (&before, [7; 20], &Page::of(0)));

    let mut plainly = buf.clone();
    let mut op = [7; 20];
    // The first finds a page that is not true, and the others what it left.
    page = Page::of(7);
    let answer = plain::page_issue_move(&mut buf, 8, 258, 0, &mut out, &mut page.tables());
    assert_eq!(answer, Ok((74, 2)));
    assert_eq!(plain::issue_move(&mut plainly, 8, 258, 0, &mut op), Ok(74));
    assert_eq!((&buf, out), (&plainly, op));
    assert_eq!(page, Page::fresh(&buf, &[1, 2, 1786]));
    let answer = plain::page_issue_remove(&mut buf, 1, 257, &mut out, &mut page.tables());
    assert_eq!(answer, Ok((88, 0)));
    assert_eq!(plain::issue_remove(&mut plainly, 1, 257, &mut op), Ok(88));
    assert_eq!((&buf, out), (&plainly, op));
    assert_eq!(page, Page::fresh(&buf, &[1, 2, 1786, 3]));
    let answer = plain::page_issue_add(&mut buf, 1, 257, &mut out, &mut page.tables());
    assert_eq!(answer, Err(Refusal::Marked));
    buf.resize(102, 0xa5);
    plainly.resize(102, 0xa5);
    let answer = plain::page_issue_add(&mut buf, 3, 258, &mut out, &mut page.tables());
    assert_eq!(answer, Ok((102, 0)));
    assert_eq!(plain::issue_add(&mut plainly, 3, 258, &mut op), Ok(102));
    assert_eq!((&buf, out), (&plainly, op));
    assert_eq!(page, Page::fresh(&buf, &[1, 2, 1786, 3, 511]));
}

/// One wrong entry that is counted, and the page is built anew.
#[test]
fn stained_pages() {
    let start = two_nodes();
    let good = Page::fresh(&start, &[1, 2]);
    let late = [1, 3, 3, 1, 0, 0, 1, 0, 0, 0, 0, 0, 0, 0];
    for table in 0..3 {
        for at in [0, 1, 2, 3, 1000, 2039, 2040, 2041, 2044] {
            let (mut buf, mut page) = (start.clone(), good.clone());
            let stain = |page: &mut Page| match table {
                0 => page.order[at] ^= 1,
                1 => page.parents[at] ^= 1,
                _ => page.outcomes[at] ^= 1,
            };
            let is_counted = at < if table == 0 { 2040 } else { 2041 };
            stain(&mut page);
            let answer = plain::page_deliver(&mut buf, &late, &mut page.tables());
            let taken_back = if is_counted { 2 } else { 1 };
            assert_eq!(answer, Ok((Delivery::Accepted(74), taken_back)));
            let mut expected = Page::fresh(&buf, &[1, 511, 2]);
            if !is_counted {
                stain(&mut expected);
            }
            assert_eq!(page, expected);
        }
    }
}

#[test]
fn paths() {
    let buf = two_nodes();
    let mut out = [7; 4];
    assert_eq!(plain::path(&buf, 513, &mut out), Err(Refusal::Unknown));
    assert_eq!(plain::path(&buf, 258, &mut out[..2]), Err(Refusal::NoRoom));
    assert_eq!(plain::path(&[], 0, &mut out), Err(Refusal::Unsound));
    assert_eq!(out, [7; 4]);
    assert_eq!(plain::path(&buf, 0, &mut out), Ok(1));
    assert_eq!(out, [0, 7, 7, 7]);
    assert_eq!(plain::path(&buf, 258, &mut out), Ok(3));
    assert_eq!(out, [258, 257, 0, 7]);
}

#[test]
fn listings() {
    let mut buf = two_nodes();
    plain::issue_remove(&mut buf, 1, 257, &mut [0; 14]).unwrap();
    let mut out = [7; 30];
    assert_eq!(
        plain::listing(&buf, View::Keeping, &mut out[..21]),
        Err(Refusal::NoRoom)
    );
    assert_eq!(
        plain::listing(&buf[..73], View::Keeping, &mut out),
        Err(Refusal::Unsound)
    );
    assert_eq!(out, [7; 30]);
    assert_eq!(plain::listing(&buf, View::Keeping, &mut out), Ok(22));
    assert_eq!(&out[..22], b"0 0 k\n1 257 r\n2 258 k\n");
    assert_eq!(out[22..], [7; 8]);
    let mut out = [7; 30];
    assert_eq!(plain::listing(&buf, View::Skipping, &mut out), Ok(6));
    assert_eq!(&out[..6], b"0 0 k\n");
    assert_eq!(out[6..], [7; 24]);
}
