//! The examples P1 to P12 of the document.

mod common;

use common::*;
use outline_model::cases::examples::*;
use outline_model::*;

const P1: [[u8; 14]; 4] = [
    [0x01, 0x01, 0x01, 0x01, 0, 0, 0, 0, 0, 0, 0, 0, 0, 0],
    [0x01, 0x01, 0x01, 0x02, 0, 0, 1, 0, 0, 0, 0, 0, 0, 0],
    [0x04, 0x01, 0x01, 0x02, 0x01, 0x01, 2, 0, 0, 0, 0, 0, 0, 0],
    [0x04, 0x02, 0x01, 0x01, 0x01, 0x02, 2, 0, 0, 0, 0, 0, 0, 0],
];

fn p1_file() -> Vec<u8> {
    let mut file = vec![0, 3, 0, 32, 0, 1, 0, 74];
    file.extend([0, 0, 0, 88].repeat(6));
    P1.iter().for_each(|body| file.extend(body));
    file
}

#[test]
fn p1_bytes_listing_and_outcome() {
    let file = p1_file();
    assert_eq!(file_of(&p1()), file);
    let text = "0 0 k\n1 258 k\n2 257 k\n";
    assert_eq!(outline(&file), text.as_bytes());
    for view in [View::Keeping, View::Skipping] {
        assert_eq!(listed(&file, view), text);
    }
    assert_eq!(outcome(&file, 1, 3), 3);
    assert_eq!(outcome(&file, 2, 1), 1);
    assert_eq!(outcome(&file, 1, 1), 1);
    assert_eq!(path_in(&file, 257, 3), (Count(3), vec![257, 258, 0]));
}

#[test]
fn p1_as_issued_and_exchanged() {
    let mut one = empty(200);
    let mut two = empty(200);
    let issued = |buffer: &mut [u8], replica, issue, body: &[u8]| {
        let (answer, op) = issue_checked(buffer, replica, issue);
        assert!(matches!(answer, Accepted(_)));
        assert_eq!(op, body);
    };
    issued(&mut one, 1, Issue::Add(0), &P1[0]);
    issued(&mut one, 1, Issue::Add(0), &P1[1]);
    assert_eq!(deliver_checked(&mut two, &P1[0]), Accepted(46));
    assert_eq!(deliver_checked(&mut two, &P1[1]), Accepted(60));
    issued(&mut one, 1, Issue::Move(258, 257), &P1[2]);
    issued(&mut two, 2, Issue::Move(257, 258), &P1[3]);
    assert_eq!(deliver_checked(&mut one, &P1[3]), Accepted(88));
    assert_eq!(deliver_checked(&mut two, &P1[2]), Accepted(88));
    assert_eq!(one[..88], p1_file());
    assert_eq!(one, two);
}

#[test]
fn p2_no_ops() {
    assert_eq!(outline(&empty(32)), b"0 0 k\n");
    assert_eq!(listed(&empty(32), View::Skipping), "0 0 k\n");
}

#[test]
fn p3_31_bytes() {
    let mut buffer = empty(32);
    buffer.truncate(31);
    assert_eq!(outline(&buffer), b"refused 1\n");
    assert_eq!(deliver_checked(&mut buffer, &P1[0]), Refused(1));
    assert_eq!(issue_checked(&mut buffer, 1, Issue::Add(0)).0, Refused(1));
    assert_eq!(judge_in(&buffer, 2041, 2041).0, Refused(1));
    assert_eq!(path_in(&buffer, 0, 1).0, Refused(1));
    assert_eq!(listing_in(&buffer, View::Keeping, 100).0, Refused(1));
    assert_eq!(make_checked(&mut buffer), Refused(8));
}

#[test]
fn p4_the_last_sequence() {
    for replica in 1..=8 {
        let mut issued = empty(FULL);
        let mut delivered = empty(FULL);
        for sequence in 1..=255 {
            let (answer, op) = issue_checked(&mut issued, replica, Issue::Add(0));
            assert_eq!(answer, Accepted(32 + 14 * sequence));
            assert_eq!(op[5 + usize::from(replica)], sequence as u8 - 1);
            assert_eq!(deliver_checked(&mut delivered, &op), answer);
        }
        for issue in [Issue::Add(0), Issue::Remove(0), Issue::Move(0, 0)] {
            assert_eq!(issue_checked(&mut issued, replica, issue).0, Refused(9));
        }
    }
}

#[test]
fn p5_own_count_one_above() {
    for held in [0, 1, 7, 253] {
        let mut buffer = in_buffer(&file_of(&adds(2, held)), FULL);
        let early = add(2, 0, &[0, held as u8 + 1]).bytes();
        assert_eq!(deliver_checked(&mut buffer, &early), Refused(5));
    }
    // At 254 held, one above is 255 and not in form.
    let mut buffer = in_buffer(&file_of(&adds(2, 254)), FULL);
    let mut op = add(2, 0, &[0, 254]).bytes();
    op[7] = 255;
    assert_eq!(deliver_checked(&mut buffer, &op), Refused(3));
}

#[test]
fn p6_the_same_op_twice() {
    let mut buffer = in_buffer(&p1_file(), 200);
    for body in P1 {
        assert_eq!(deliver_checked(&mut buffer, &body), HadIt);
    }
    // In form, with the replica and the own count kept: always 4.
    let move_op = P1[3];
    for at in [0, 2, 3, 4, 5, 6, 8, 9, 10, 11, 12, 13] {
        for value in 0..=255 {
            let mut other = move_op;
            other[at] = value;
            let in_form = at != 0 || value == 1 || value == 3 || value == 4;
            let answer = deliver_checked(&mut buffer, &other);
            if other == move_op {
                assert_eq!(answer, HadIt);
            } else {
                assert_eq!(answer, Refused(if in_form { 4 } else { 3 }));
            }
        }
    }
}

#[test]
fn p7_and_p8_itself_and_the_root() {
    let mut buffer = in_buffer(&p1_file(), 200);
    for (node, parent) in [(257, 257), (258, 258), (0, 257), (0, 0)] {
        for op in [up(3, node, parent, &[3, 1]), down(3, node, parent, &[3, 1])] {
            assert_eq!(deliver_checked(&mut buffer, &op.bytes()), Refused(7));
        }
        let issue = Issue::Move(node, parent);
        assert_eq!(issue_checked(&mut buffer, 3, issue).0, Refused(7));
    }
    let mut delivered = buffer.clone();
    let to_root = up(3, 257, 0, &[3, 1]).bytes();
    assert_eq!(deliver_checked(&mut delivered, &to_root), Accepted(102));
    let (answer, op) = issue_checked(&mut buffer, 3, Issue::Move(257, 0));
    assert_eq!((answer, &op[..]), (Accepted(102), &to_root[..]));
    assert_eq!(listed(&buffer, View::Keeping), "0 0 k\n1 257 k\n1 258 k\n");
}

#[test]
fn p9_both_sides_of_the_edge() {
    let mut short = empty(45);
    assert_eq!(deliver_checked(&mut short, &P1[0]), Refused(8));
    assert_eq!(issue_checked(&mut short, 1, Issue::Add(0)).0, Refused(8));
    assert_eq!(deliver_checked(&mut empty(46), &P1[0]), Accepted(46));
    assert_eq!(
        issue_checked(&mut empty(46), 1, Issue::Add(0)).0,
        Accepted(46)
    );
}

#[test]
fn p10_a_circle_of_three() {
    let file = file_of(&p10());
    let outcomes = [1, 2, 3].map(|replica| outcome(&file, replica, 1));
    assert_eq!(outcomes, [3, 1, 1]);
    let text = "0 0 k\n1 1025 k\n2 1027 k\n3 1026 k\n";
    assert_eq!(listed(&file, View::Keeping), text);
    // The same with the siblings made by each other replica.
    for maker in 1..=8 {
        let file = file_of(&circle(maker));
        for replica in 1..=3 {
            let sequence = if replica == usize::from(maker) { 4 } else { 1 };
            let expected = if replica == 1 { 3 } else { 1 };
            assert_eq!(outcome(&file, replica, sequence), expected);
        }
    }
}

#[test]
fn p11_upward_moves_may_lose() {
    let mut one = in_buffer(&file_of(&adds(3, 3)), 200);
    let mut two = one.clone();
    let first = issue_checked(&mut one, 1, Issue::Move(769, 771)).1;
    let second = issue_checked(&mut one, 1, Issue::Move(769, 770)).1;
    let third = issue_checked(&mut two, 2, Issue::Move(770, 771)).1;
    let fourth = issue_checked(&mut two, 2, Issue::Move(770, 769)).1;
    let kinds = [&first, &second, &third, &fourth].map(|op| op[0]);
    assert_eq!(kinds, [4, 3, 4, 3]);
    for op in [&third, &fourth] {
        assert!(matches!(deliver_checked(&mut one, op), Accepted(_)));
    }
    let file = file_of(&p11());
    assert_eq!(one[..file.len()], file);
    let outcomes = [(1, 1), (1, 2), (2, 1), (2, 2)].map(|(r, s)| outcome(&file, r, s));
    assert_eq!(outcomes, [1, 3, 1, 1]);
    let text = "0 0 k\n1 771 k\n2 769 k\n3 770 k\n";
    assert_eq!(listed(&file, View::Keeping), text);
}

#[test]
fn p12_the_first_rival_stays() {
    let base = file_of(&p12()[..3]);
    let mut one = in_buffer(&base, 200);
    let mut two = one.clone();
    let upward = issue_checked(&mut one, 1, Issue::Move(770, 0)).1;
    let downward = issue_checked(&mut two, 2, Issue::Move(770, 771)).1;
    assert_eq!((upward[0], downward[0]), (3, 4));
    assert!(matches!(deliver_checked(&mut one, &downward), Accepted(_)));
    let file = file_of(&p12());
    assert_eq!(one[..file.len()], file);
    assert_eq!(outcome(&file, 1, 1), 1);
    assert_eq!(outcome(&file, 2, 1), 2);
    assert_eq!(path_in(&file, 770, 9).1, [770, 0]);
}
