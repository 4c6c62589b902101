//! The vectors: their grammar, their size, and a few lines known by hand.

use outline_model::cases::examples::{add, down, file_of, p1, up};
use outline_model::cases::Script;
use outline_model::script::{Case, Machine};
use outline_model::tree::timestamps;
use outline_model::{
    deliver, deliver_holdback, held_counts, issue_add, issue_move, issue_remove, open_bundle,
    slot_of, Answer, Log, Op, Tables, View,
};
use std::collections::{BTreeMap, BTreeSet};

const SECTIONS: [&str; 10] = [
    "deliver", "judge", "issue", "view", "bundle", "holdback", "climb", "page", "batch", "tidy",
];

fn section(name: &str) -> Script {
    let mut script = Script::default();
    assert!(script.section(name));
    script
}

#[test]
fn lines_by_hand() {
    let mut machine = Machine::default();
    let mut run = |case| machine.run(&case);
    assert_eq!(run(Case::Make), "r 8 0 ");
    assert_eq!(run(Case::Outline), "o 2724705683 302030206b0a");
    assert_eq!(run(Case::Resize(2)), "l 42828 a5a5");
    assert_eq!(run(Case::Load(vec![0, 1, 2])), "l 66566 000102");
    let path = run(Case::Path(0, 1));
    assert_eq!(path, "r 1 66566 000102 61662 eeee");
    let judged = run(Case::Judge(1, 2));
    assert_eq!(judged, "r 1 66566 000102 61662 eeee 61662 eeee");
    assert_eq!(run(Case::Add(1, 0, 1)), "r 1 66566 000102 239 ee");
    assert!(run(Case::Outline).ends_with(" 7265667573656420310a"));
    let made = run(Case::MakeBundle([0; 8], 1));
    assert_eq!(made, "r 1 66566 000102 239 ee");
    assert_eq!(run(Case::OpenBundle(vec![0])), "r 1 66566 000102");
    let answer = run(Case::DeliverHoldback(vec![9; 3], vec![]));
    assert_eq!(answer, "r 1 66566 000102 0 ");
    let answer = run(Case::DeliverHoldback(vec![], vec![0, 1]));
    assert_eq!(answer, "r 1 66566 000102 259 0001");
    assert_eq!(run(Case::Climb(0, 0)), "r 1 66566 000102");
    assert_eq!(run(Case::Climb(257, 65535)), "r 1 66566 000102");
    let page = Tables {
        order: vec![1, 2],
        parents: vec![],
        outcomes: vec![3],
    };
    let delivered = run(Case::DeliverPage(vec![9], page.clone()));
    assert_eq!(delivered, "r 1 0 66566 000102 17106951 00010002 0  4 03");
    let issued = run(Case::AddPage(1, 0, 1, page.clone()));
    assert_eq!(
        issued,
        "r 1 0 66566 000102 239 ee 17106951 00010002 0  4 03"
    );
    let issued = run(Case::RemovePage(1, 0, 0, page));
    assert_eq!(issued, "r 1 0 66566 000102 0  17106951 00010002 0  4 03");
    let issued = run(Case::MovePage(1, 0, 0, 0, Tables::default()));
    assert_eq!(issued, "r 1 0 66566 000102 0  0  0  0 ");
    assert_eq!(run(Case::Batch(1, 0, 1, vec![])), "r 1 66566 000102 239 ee");
    run(Case::Load(vec![]));
    assert_eq!(run(Case::Batch(1, 0, 0, vec![257])), "r 1 0  0 ");
    assert_eq!(run(Case::Climb(0, 0)), "r 1 0 ");
}

/// The page of P1 lacks its last move, which sorts before the one that is held.
#[test]
fn a_page_by_hand() {
    let mut machine = Machine::default();
    let digest = |bytes: &[u8]| {
        let step = |h: u64, &b: &u8| (h * 257 + u64::from(b) + 1) % 4_294_967_291;
        bytes.iter().fold(0, step)
    };
    let high_first = |entries: &[u16]| -> Vec<u8> {
        let bytes = entries.iter().flat_map(|entry| entry.to_be_bytes());
        bytes.collect()
    };
    let ops = p1();
    machine.run(&Case::Load([file_of(&ops[..3]), vec![0xa5; 20]].concat()));
    let mut page = Tables {
        order: vec![0; 2041],
        parents: vec![65535; 2041],
        outcomes: vec![0; 2041],
    };
    page.order[..3].copy_from_slice(&[1, 2, 3]);
    page.order[2040] = 9;
    page.parents[..3].copy_from_slice(&[0, 0, 257]);
    page.outcomes[1..4].fill(1);
    let case = Case::DeliverPage(ops[3].bytes().to_vec(), page.clone());
    assert_eq!(
        case.line(),
        "0f0e0402010101020200000000000000\
         0005000100010001000200010003 07f50000 00010009\
         0003000200000001010107f6ffff\
         000300010000000300010 7f50000"
            .replace(' ', "")
    );
    let line = machine.run(&case);
    page.order[..4].copy_from_slice(&[1, 2, 256, 3]);
    page.parents[1..3].copy_from_slice(&[258, 0]);
    page.outcomes[3] = 3;
    page.outcomes[256] = 1;
    assert_eq!(
        line,
        format!(
            "a 88 1 {} {} {} {}",
            digest(&[file_of(&ops), vec![0xa5; 6]].concat()),
            digest(&high_first(&page.order)),
            digest(&high_first(&page.parents)),
            digest(&page.outcomes)
        )
    );
    assert_eq!(machine.page, page);
}

/// Two adds, and then both moves of a batch under the first of three nodes.
#[test]
fn a_batch_by_hand() {
    let mut machine = Machine::default();
    let digest = |bytes: &[u8]| {
        let step = |h: u64, &b: &u8| (h * 257 + u64::from(b) + 1) % 4_294_967_291;
        bytes.iter().fold(0, step)
    };
    let ops = [add(1, 0, &[]), add(1, 0, &[1]), add(1, 258, &[2])];
    let file = file_of(&ops);
    machine.run(&Case::Load([&file[..], &[0xa5; 30]].concat()));
    let before = digest(&machine.buffer);
    // One byte too few, a node that is not known, and none at all.
    let line = machine.run(&Case::Batch(2, 257, 27, vec![258, 259]));
    let lent = [0xee; 27];
    let written = format!("{} {}", digest(&lent), "ee".repeat(27));
    assert_eq!(line, format!("r 2 {before} {written}"));
    let line = machine.run(&Case::Batch(2, 257, 28, vec![258, 260]));
    let lent = [0xee; 28];
    let written = format!("{} {}", digest(&lent), "ee".repeat(28));
    assert_eq!(line, format!("r 7 {before} {written}"));
    let line = machine.run(&Case::Batch(2, 9999, 1, vec![]));
    assert_eq!(line, format!("a 74 {before} 239 ee"));
    let line = machine.run(&Case::Batch(2, 257, 30, vec![258, 259]));
    let moves = [
        down(2, 258, 257, &[3]).bytes(),
        up(2, 259, 257, &[3, 1]).bytes(),
    ];
    let all = [
        &ops[..],
        &[down(2, 258, 257, &[3]), up(2, 259, 257, &[3, 1])],
    ]
    .concat();
    let buffer = digest(&[file_of(&all), vec![0xa5; 2]].concat());
    let written = [&moves.concat()[..], &[0xee; 2]].concat();
    let digits: String = written.iter().map(|byte| format!("{byte:02x}")).collect();
    assert_eq!(
        line,
        format!("a 102 {buffer} {} {digits}", digest(&written))
    );
}

/// More than 40 nodes, or more than 600 bytes lent.
#[test]
fn batches_that_the_grammar_has_not() {
    assert!(Case::Batch(1, 0, 600, vec![0; 40]).fits());
    assert!(!Case::Batch(1, 0, 601, vec![0; 40]).fits());
    assert!(!Case::Batch(1, 0, 600, vec![0; 41]).fits());
}

/// P1: 257 lies under 258. The buffer stays as it is.
#[test]
fn climbs_by_hand() {
    let mut machine = Machine::default();
    let file = file_of(&p1());
    let loaded = machine.run(&Case::Load(file.clone()));
    let buffer = loaded.strip_prefix("l ").expect("the buffer was set");
    for (parent, node, answer) in [
        (257, 257, "y 0"),
        (257, 258, "y 1"),
        (257, 0, "y 2"),
        (258, 257, "n 1"),
        (258, 0, "y 1"),
        (0, 257, "n 0"),
        (0, 0, "y 0"),
    ] {
        let line = machine.run(&Case::Climb(parent, node));
        assert_eq!(line, format!("{answer} {buffer}"));
    }
    assert_eq!(machine.buffer, file);
}

/// The root and added nodes alone, but anything where there is no log.
#[test]
fn climbs_of_the_grammar() {
    let mut machine = Machine::default();
    let mut takes = |file: &[u8], parent, node| {
        machine.run(&Case::Load(file.to_vec()));
        machine.takes(&Case::Climb(parent, node))
    };
    let file = file_of(&p1());
    for end in [0, 257, 258] {
        assert!(takes(&file, end, 0) && takes(&file, 0, end) && takes(&file, end, 257));
    }
    for no_node in [1, 255, 256, 259, 512, 513, 2303, 2304, 65535] {
        assert!(!takes(&file, no_node, 0) && !takes(&file, 257, no_node));
        assert!(takes(&file[1..], no_node, no_node) && takes(&[], no_node, 0));
    }
}

#[test]
#[should_panic(expected = "the grammar has no such line")]
fn no_case_names_what_is_no_node() {
    let mut script = Script::default();
    script.load(&file_of(&p1()));
    script.climb(257, 259);
}

/// An early record waits, and goes when the one before it comes. The buffer and
/// the holdback are longer than what is printed in full.
#[test]
fn a_holdback_by_hand() {
    let mut machine = Machine::default();
    let mut run = |case| machine.run(&case);
    let digest = |bytes: &[u8]| {
        let step = |h: u64, &b: &u8| (h * 257 + u64::from(b) + 1) % 4_294_967_291;
        bytes.iter().fold(0, step)
    };
    let empty = [0, 0, 0, 32].repeat(8);
    run(Case::Load([&empty[..], &[0xa5; 33]].concat()));
    let first = [1, 1, 1, 1, 0, 0, 0, 0, 0, 0, 0, 0, 0, 0];
    let second = [1, 1, 1, 2, 0, 0, 1, 0, 0, 0, 0, 0, 0, 0];
    let none = vec![0; 449];
    let mut one = none.clone();
    one[0] = 1;
    one[1..15].copy_from_slice(&second);
    let buffer = digest(&[&empty[..], &[0xa5; 33]].concat());
    let holdback = digest(&one);
    let answer = run(Case::DeliverHoldback(second.to_vec(), none.clone()));
    assert_eq!(answer, format!("w {buffer} {holdback}"));
    let answer = run(Case::DeliverHoldback(second.to_vec(), one.clone()));
    assert_eq!(answer, format!("w {buffer} {holdback}"));
    let answer = run(Case::DeliverHoldback(
        first[..3].to_vec(),
        one[..3].to_vec(),
    ));
    assert_eq!(answer, format!("r 14 {buffer} 132614 010101"));
    let answer = run(Case::DeliverHoldback(first.to_vec(), one));
    let mut header = vec![0, 2, 0, 32];
    header.extend([0, 0, 0, 60].repeat(7));
    let file = [&header[..], &first, &second, &[0xa5; 5]].concat();
    let (buffer, holdback) = (digest(&file), digest(&none));
    assert_eq!(answer, format!("a 60 {buffer} {holdback}"));
    let answer = run(Case::DeliverHoldback(first.to_vec(), none));
    assert_eq!(answer, format!("h {buffer} {holdback}"));
}

#[test]
fn case_bytes() {
    let cases = [
        (Case::Load(vec![9]), "0009"),
        (Case::Make, "01"),
        (Case::Deliver(vec![]), "02"),
        (Case::Judge(2041, 1), "0307f90001"),
        (Case::Add(1, 257, 14), "040101010e"),
        (Case::Remove(1, 257, 14), "050101010e"),
        (Case::Move(1, 257, 258, 14), "0601010101020e"),
        (Case::Path(257, 3), "0701010003"),
        (Case::Listing(View::Keeping, 1), "08000001"),
        (Case::Listing(View::Skipping, 1), "08010001"),
        (Case::Outline, "09"),
        (Case::Resize(40_000), "0a9c40"),
        (
            Case::MakeBundle([1, 2, 3, 4, 5, 6, 7, 255], 28_600),
            "0b01020304050607ff6fb8",
        ),
        (Case::OpenBundle(vec![]), "0c"),
        (Case::OpenBundle(vec![1, 2]), "0c0102"),
        (Case::DeliverHoldback(vec![], vec![]), "0d00"),
        (Case::DeliverHoldback(vec![1, 2], vec![3]), "0d02010203"),
        (Case::Climb(257, 2303), "0e010108ff"),
        (Case::Climb(0, 258), "0e00000102"),
        (
            Case::DeliverPage(vec![], Tables::default()),
            "0f00000000000000",
        ),
        (
            Case::DeliverPage(vec![7, 8], some_tables()),
            "0f020708\
             000200020101000102ff00010003000000020001000100020007",
        ),
        (
            Case::AddPage(1, 257, 14, some_tables()),
            "100101010e\
             000200020101000102ff00010003000000020001000100020007",
        ),
        (
            Case::RemovePage(1, 257, 14, Tables::default()),
            "110101010e000000000000",
        ),
        (
            Case::MovePage(1, 257, 258, 40, Tables::default()),
            "12010101010228000000000000",
        ),
        (Case::Batch(1, 257, 600, vec![]), "130101010258"),
        (
            Case::Batch(8, 0, 28, vec![258, 2303]),
            "13080000001c010208ff",
        ),
    ];
    for (case, line) in cases {
        assert_eq!(case.line(), line);
        assert!(case.fits());
    }
}

/// Runs of equal entries, and entries alone.
fn some_tables() -> Tables {
    Tables {
        order: vec![257, 257, 767],
        parents: vec![0, 0, 0],
        outcomes: vec![1, 7, 7],
    }
}

/// A table of more than 2,100 entries, or a record of more than 40 bytes.
#[test]
fn pages_that_the_grammar_has_not() {
    let long = |order, parents, outcomes| Tables {
        order: vec![0; order],
        parents: vec![0; parents],
        outcomes: vec![0; outcomes],
    };
    assert!(Case::DeliverPage(vec![0; 40], long(2100, 2100, 2100)).fits());
    for page in [
        long(2101, 2041, 2041),
        long(2040, 2101, 2041),
        long(2040, 2041, 2101),
    ] {
        assert!(!Case::DeliverPage(vec![], page.clone()).fits());
        assert!(!Case::AddPage(1, 0, 14, page.clone()).fits());
        assert!(!Case::RemovePage(1, 0, 14, page.clone()).fits());
        assert!(!Case::MovePage(1, 0, 0, 14, page).fits());
    }
    let page = Tables::default();
    assert!(!Case::DeliverPage(vec![0; 41], page.clone()).fits());
    assert!(!Case::AddPage(1, 0, 41, page.clone()).fits());
    assert!(!Case::MovePage(1, 0, 0, 41, page).fits());
}

#[test]
fn sections_are_of_good_size_and_repeat() {
    for name in SECTIONS {
        let script = section(name);
        assert_eq!(script.cases, section(name).cases);
        assert_eq!(script.cases.len(), script.answers.len());
        let bytes: usize = script.cases.iter().map(|line| line.len() + 1).sum();
        let most = match name {
            "deliver" | "holdback" | "page" => 1_500_000,
            "batch" => 1_200_000,
            "bundle" | "climb" => 400_000,
            "tidy" => 500_000,
            _ => 1_000_000,
        };
        assert!(bytes < most && script.cases.len() > 1000);
        assert!(script.cases.iter().all(|line| line.len() <= 80_000));
        // Each section starts by setting the buffer.
        assert!(script.cases[0].starts_with("00"));
    }
}

#[test]
fn sections_reach_every_answer() {
    let reaches = |name: &str, answers: &[&str]| {
        let script = section(name);
        for answer in answers {
            let starts = |line: &&String| line.starts_with(answer);
            assert!(script.answers.iter().any(|line| starts(&line)), "{answer}");
        }
    };
    let refusals = |numbers: &[u8]| -> Vec<String> {
        numbers
            .iter()
            .map(|number| format!("r {number} "))
            .collect()
    };
    let owned = refusals(&[1, 2, 3, 4, 5, 6, 7, 8]);
    let mut deliver: Vec<&str> = owned.iter().map(String::as_str).collect();
    deliver.extend(["h ", "a 32 ", "a 28592 "]);
    reaches("deliver", &deliver);
    reaches("judge", &["r 1 ", "r 2 ", "d "]);
    let owned = refusals(&[1, 2, 3, 7, 8, 9, 10, 11]);
    let mut issue: Vec<&str> = owned.iter().map(String::as_str).collect();
    issue.push("a 28592 ");
    reaches("issue", &issue);
    reaches(
        "view",
        &["r 1 ", "r 7 ", "r 8 ", "a 22638 ", "a 2041 ", "o "],
    );
    let owned = refusals(&[1, 3, 4, 5, 6, 7, 8, 12]);
    let mut bundle: Vec<&str> = owned.iter().map(String::as_str).collect();
    bundle.extend(["a 1 ", "a 28569 ", "a 32 ", "a 28592 "]);
    reaches("bundle", &bundle);
    let owned = refusals(&[1, 2, 3, 4, 6, 7, 8, 13, 14]);
    let mut holdback: Vec<&str> = owned.iter().map(String::as_str).collect();
    holdback.extend(["h ", "w ", "a 46 ", "a 494 ", "a 28592 "]);
    reaches("holdback", &holdback);
    reaches(
        "climb",
        &[
            "r 1 ", "r 10 ", "r 11 ", "y 0 ", "y 2040 ", "n 0 ", "n 2039 ",
        ],
    );
    reaches(
        "tidy",
        &[
            "a ", "h ", "w ", "d ", "o ", "r 4 ", "r 5 ", "r 10 ", "r 11 ",
        ],
    );
}

/// Each call with a page has enough of each of its answers; each number of ops
/// taken back that is small, and the greatest that there can be.
#[test]
fn pages_reach_every_answer_often() {
    let script = section("page");
    let mut seen = std::collections::BTreeMap::new();
    let mut taken = std::collections::BTreeMap::new();
    for (case, line) in script.cases.iter().zip(&script.answers) {
        if !["0f", "10", "11", "12"].contains(&&case[..2]) {
            continue;
        }
        let words: Vec<&str> = line.split(' ').collect();
        let (key, number) = match words[0] {
            "r" => (words[1].to_string(), words[2]),
            "a" => ("a".to_string(), words[2]),
            other => (other.to_string(), words[1]),
        };
        // Only what accepts takes back.
        assert!(key == "a" || number == "0");
        if key == "a" {
            let number: usize = number.parse().unwrap();
            *taken.entry((case[..2].to_string(), number)).or_insert(0) += 1;
        }
        *seen.entry((case[..2].to_string(), key)).or_insert(0) += 1;
    }
    for (call, answers) in [
        ("0f", "1 2 3 4 5 6 7 8 a h"),
        ("10", "1 2 3 7 8 9 11 a"),
        ("11", "1 2 3 7 8 9 a"),
        ("12", "1 2 3 7 8 9 10 11 a"),
    ] {
        let mut expected: Vec<&str> = answers.split(' ').collect();
        expected.sort();
        let found = seen.keys().filter(|key| key.0 == call);
        assert_eq!(found.map(|key| &key.1).collect::<Vec<_>>(), expected);
        assert!(seen[&(call.into(), "a".into())] > 100, "{seen:?}");
        assert!(seen[&(call.into(), "2".into())] > 50, "{seen:?}");
    }
    for number in (0..15).chain([1785, 2039]) {
        assert!(taken.contains_key(&("0f".into(), number)), "{number}");
    }
    // Issues take back all or none.
    assert!(taken[&("12".into(), 0)] > 30 && taken[&("12".into(), 7)] > 20);
}

/// Each number and each size up to 16 come, accepted and refused, and longer lists
/// are refused. Moves of both kinds are issued.
#[test]
fn batches_reach_every_answer_often() {
    let script = section("batch");
    let mut seen = std::collections::BTreeMap::new();
    let mut sizes = [[0; 2]; 41];
    let mut kinds = [0; 2];
    for (case, line) in script.cases.iter().zip(&script.answers) {
        if !case.starts_with("13") {
            continue;
        }
        let words: Vec<&str> = line.split(' ').collect();
        let size = (case.len() - 12) / 4;
        let accepted = words[0] == "a";
        sizes[size][usize::from(accepted)] += 1;
        let key = if accepted { "a" } else { words[1] };
        *seen.entry(key).or_insert(0) += 1;
        // Where little is lent it is printed in full, else there is the digest alone.
        let ops = words[words.len() - 1];
        if accepted && ops.len() >= 28 * size {
            for op in 0..size {
                kinds[usize::from(&ops[28 * op..28 * op + 2] == "04")] += 1;
            }
        }
    }
    let mut expected: Vec<&str> = "1 2 3 7 8 9 10 11 a".split(' ').collect();
    expected.sort();
    assert_eq!(seen.keys().copied().collect::<Vec<_>>(), expected);
    assert!(seen.values().all(|&count| count > 100), "{seen:?}");
    for (size, [refused, accepted]) in sizes.into_iter().enumerate() {
        match size {
            0..=2 | 15 | 16 => assert!(refused > 20 && accepted > 20, "{size}"),
            3..=14 => assert!(refused > 0 && accepted > 1, "{size}"),
            _ => assert_eq!(accepted, 0, "{size}"),
        }
    }
    assert!(sizes[17][0] > 20 && sizes[40][0] > 5);
    assert!(kinds.iter().all(|&count| count > 200), "{kinds:?}");
}

/// In chains of calls each is lent the page that the last one left.
#[test]
fn pages_are_handed_on() {
    let script = section("page");
    let number = |hex: &str, at: usize| u64::from_str_radix(&hex[at..at + 4], 16).unwrap();
    let digest = |bytes: Vec<u64>| {
        let step = |h: u64, byte: &u64| (h * 257 + byte + 1) % 4_294_967_291;
        bytes.iter().fold(0, step).to_string()
    };
    // The digests of the three tables, read from the runs of a line.
    let lent = |case: &str| {
        let record = usize::from_str_radix(&case[2..4], 16).unwrap();
        let mut at = match &case[..2] {
            "0f" => 4 + 2 * record,
            "12" => 14,
            _ => 10,
        };
        let tables = [2, 2, 1].map(|width| {
            let mut bytes = vec![];
            let runs = number(case, at);
            at += 4;
            for _ in 0..runs {
                let (length, value) = (number(case, at), number(case, at + 4));
                let entry = [value >> 8, value & 255];
                bytes.extend(entry[2 - width..].repeat(length as usize));
                at += 8;
            }
            digest(bytes)
        });
        assert_eq!(at, case.len());
        tables.join(" ")
    };
    let mut left = String::new();
    let mut handed_on = 0;
    for (case, line) in script.cases.iter().zip(&script.answers) {
        if ["0f", "10", "11", "12"].contains(&&case[..2]) {
            handed_on += usize::from(lent(case) == left);
            let words: Vec<&str> = line.split(' ').collect();
            left = words[words.len() - 3..].join(" ");
        }
    }
    assert!(handed_on > 1000, "{handed_on}");
}

/// Steps of a climb that met the node, and of one that did not: none, few, more
/// than a byte can hold. Also issued moves of both kinds, and those refused.
#[test]
fn climbs_are_near_and_far() {
    let script = section("climb");
    let mut steps = [[0; 3]; 2];
    let mut moves = std::collections::BTreeMap::new();
    for (case, line) in script.cases.iter().zip(&script.answers) {
        let words: Vec<&str> = line.split(' ').collect();
        match (&case[..2], words[0]) {
            ("0e", "y" | "n") => {
                let size = match words[1].parse::<usize>().unwrap() {
                    0 => 0,
                    1..=255 => 1,
                    _ => 2,
                };
                steps[usize::from(words[0] == "y")][size] += 1;
            }
            // An issued record is printed in full, with its kind first.
            ("06", "a") => *moves.entry(&words[words.len() - 1][..2]).or_insert(0) += 1,
            ("06", _) => *moves.entry(words[1]).or_insert(0) += 1,
            _ => {}
        }
    }
    let [missed, met] = steps;
    assert!(missed[0] > 50 && missed[1] > 400 && missed[2] > 10);
    assert!(met[0] > 100 && met[1] > 400 && met[2] > 30);
    for (key, least) in [("03", 50), ("04", 40), ("10", 50), ("11", 5)] {
        assert!(moves[key] > least, "{moves:?}");
    }
}

/// The calls with holdbacks alone: there are enough of each answer, and 5 is none.
#[test]
fn holdbacks_reach_every_answer_often() {
    let script = section("holdback");
    let mut seen = std::collections::BTreeMap::new();
    for (case, line) in script.cases.iter().zip(&script.answers) {
        if case.starts_with("0d") {
            let words: Vec<&str> = line.split(' ').collect();
            let key = match words[0] {
                "r" => words[1].to_string(),
                other => other.to_string(),
            };
            *seen.entry(key).or_insert(0) += 1;
        }
    }
    let keys = "1 2 3 4 6 7 8 13 14 a h w";
    let mut expected: Vec<&str> = keys.split(' ').collect();
    expected.sort();
    assert_eq!(seen.keys().collect::<Vec<_>>(), expected);
    assert!(seen.values().all(|&count| count > 20), "{seen:?}");
    assert!(seen["a"] > 400 && seen["w"] > 400, "{seen:?}");
}

/// In chains of calls each is lent the holdback that the last one left.
#[test]
fn holdbacks_are_handed_on() {
    let script = section("holdback");
    let digest = |hex: &str| {
        let byte = |at: usize| u64::from_str_radix(&hex[at..at + 2], 16).unwrap();
        let step = |h: u64, at: usize| (h * 257 + byte(at) + 1) % 4_294_967_291;
        (0..hex.len()).step_by(2).fold(0, step).to_string()
    };
    let mut left = String::new();
    let mut handed_on = 0;
    for (case, line) in script.cases.iter().zip(&script.answers) {
        if case.starts_with("0d") {
            let record = usize::from_str_radix(&case[2..4], 16).unwrap();
            let lent = &case[4 + 2 * record..];
            handed_on += usize::from(lent.len() == 898 && digest(lent) == left);
            // Longer than what is printed in full: the last word.
            left = line.split(' ').next_back().unwrap().to_string();
        }
    }
    assert!(handed_on > 500, "{handed_on}");
}

/// The calls of bundles alone: there are enough of each answer.
#[test]
fn bundles_reach_every_answer_often() {
    let script = section("bundle");
    let count = |call: &str, answer: &str| {
        let lines = script.cases.iter().zip(&script.answers);
        let both =
            |(case, line): &(&String, &String)| case.starts_with(call) && line.starts_with(answer);
        lines.filter(both).count()
    };
    for (answer, least) in [("a ", 200), ("r 1 ", 30), ("r 8 ", 30)] {
        assert!(count("0b", answer) > least, "making: {answer}");
        assert!(count("0c", answer) > least, "opening: {answer}");
    }
    for number in [3, 4, 5, 6, 7, 12] {
        let answer = format!("r {number} ");
        assert!(count("0c", &answer) > 20, "opening: {answer}");
        assert_eq!(count("0b", &answer), 0);
    }
}

/// What the section `tidy` has when a judge line comes.
struct Judged {
    log: Log,
    /// What the buffer held when it was last set.
    held: [u8; 8],
    /// The ops that came since then, in this order.
    arrived: Vec<Op>,
    /// The line to print.
    answer: String,
}

/// Follows the section line by line. Beside what it judges: the upward moves that were
/// issued somewhere in it.
fn follow_tidy_up() -> (Vec<Judged>, BTreeSet<Vec<u8>>) {
    let script = section("tidy");
    let bytes = |hex: &str| -> Vec<u8> {
        let byte = |at: usize| u8::from_str_radix(&hex[at..at + 2], 16).unwrap();
        (0..hex.len()).step_by(2).map(byte).collect()
    };
    let (mut judged, mut upward) = (vec![], BTreeSet::new());
    let (mut buffer, mut held, mut arrived) = (vec![], [0; 8], vec![]);
    for (case, answer) in script.cases.iter().zip(&script.answers) {
        let line = bytes(case);
        let number = |at: usize| u16::from_be_bytes([line[at], line[at + 1]]);
        let before = Log::open(&buffer);
        let out = &mut [0; 14];
        match line[0] {
            0x00 => {
                buffer = line[1..].to_vec();
                assert_eq!(held_counts(&buffer, &mut held), Answer::Count(8));
                arrived = vec![];
                continue;
            }
            0x02 => {
                deliver(&mut buffer, &line[1..]);
            }
            0x04 => {
                issue_add(&mut buffer, line[1], number(2), out);
            }
            0x05 => {
                issue_remove(&mut buffer, line[1], number(2), out);
            }
            0x06 => {
                issue_move(&mut buffer, line[1], number(2), number(4), out);
                if out[0] == 3 {
                    upward.insert(out.to_vec());
                }
            }
            0x0c => {
                open_bundle(&mut buffer, &line[1..]);
            }
            0x0d => {
                deliver_holdback(&mut buffer, &line[2..16], &mut line[16..].to_vec());
            }
            0x0f => {
                deliver(&mut buffer, &line[2..16]);
            }
            0x03 => judged.push(Judged {
                log: before.clone().expect("a sound log"),
                held,
                arrived: arrived.clone(),
                answer: answer.clone(),
            }),
            0x08 | 0x09 => {}
            other => panic!("{other}"),
        }
        let old: Vec<Op> = before.iter().flat_map(Log::ops).copied().collect();
        let new = Log::open(&buffer).expect("a sound log");
        arrived.extend(new.ops().filter(|op| !old.contains(op)));
    }
    (judged, upward)
}

/// A mistake that a program could make in judging.
#[derive(Clone, Copy, PartialEq)]
enum Slip {
    None,
    LowerReplicaFirst,
    DownwardFirst,
    ByArrival,
    LastOneWins,
    UpwardNeverLoses,
    RivalsAtAnyTimestamp,
}

/// The line to print, judged with such a mistake, and the outcomes of what arrived.
fn judge_with(judged: &Judged, slip: Slip) -> (String, Vec<u8>) {
    let times = timestamps(&judged.log);
    let own_slot = |op: &Op| 255 * op.index() + op.sequence();
    let mut order: Vec<&Op> = judged.log.ops().collect();
    order.sort_by_key(|op| {
        let time = times[own_slot(op)];
        let (kind, replica) = (op.kind as usize, usize::from(op.replica));
        let place = judged.arrived.iter().position(|other| other == *op);
        match slip {
            Slip::LowerReplicaFirst => (time, kind, replica),
            Slip::DownwardFirst if kind > 2 => (time, 10 - kind, 8 - replica),
            Slip::ByArrival => match place {
                Some(place) => (usize::MAX, place, 0),
                None => (time, kind, 8 - replica),
            },
            _ => (time, kind, 8 - replica),
        }
    });
    let (mut parents, mut outcomes) = (vec![65535; 2041], vec![0; 2041]);
    let mut moved_at = vec![0; 2041];
    parents[0] = 0;
    for op in order {
        let (slot, own) = (slot_of(op.node), own_slot(op));
        outcomes[own] = 1;
        if op.kind as u8 == 1 {
            parents[slot] = op.parent;
        }
        if !op.kind.is_move() {
            continue;
        }
        let time = match slip {
            Slip::RivalsAtAnyTimestamp => 1,
            _ => times[own],
        };
        // A mistake may have closed a circle: no climb has more steps than this.
        let mut at = op.parent;
        let above = (0..2041).find_map(|_| match at {
            0 => Some(false),
            _ if at == op.node => Some(true),
            _ => {
                at = parents[slot_of(at)];
                None
            }
        });
        if moved_at[slot] == time && slip != Slip::LastOneWins {
            outcomes[own] = 2;
        } else if above != Some(false) && !(slip == Slip::UpwardNeverLoses && op.kind as u8 == 3) {
            outcomes[own] = 3;
        } else {
            (parents[slot], moved_at[slot]) = (op.parent, time);
        }
    }
    let digest = |bytes: &mut dyn Iterator<Item = u8>| {
        bytes.fold(0, |h: u64, b| (h * 257 + u64::from(b) + 1) % 4_294_967_291)
    };
    let parents = digest(&mut parents.iter().flat_map(|entry| entry.to_be_bytes()));
    let of_arrived = judged.arrived.iter().map(|op| outcomes[own_slot(op)]);
    let of_arrived = of_arrived.collect();
    let outcomes = digest(&mut outcomes.into_iter());
    (format!("{parents} {outcomes}"), of_arrived)
}

/// Tidy-ups of two to eight replicas, up to eight of which move one node, keep their
/// promise on the way too. Where a condition is not met there is outcome 3 for moves of
/// both kinds, and a node of which two upward moves are applied.
#[test]
fn tidy_ups_are_kept_and_lost() {
    let (judged, issued) = follow_tidy_up();
    let (mut movers, mut rivals) = ([0; 9], [0; 9]);
    let (mut lost, mut twice) = ([0; 2], 0);
    for judged in &judged {
        let (_, outcomes) = judge_with(judged, Slip::None);
        let is_tidy = |op: &Op| op.vector == judged.held && issued.contains(&op.bytes()[..]);
        let of_node = |node: u16| judged.arrived.iter().filter(move |op| op.node == node);
        let applied = |node: u16| {
            let arrived = judged.arrived.iter().zip(&outcomes);
            let moved = arrived.filter(|(op, _)| op.node == node && op.kind as u8 == 3);
            moved.filter(|&(_, &outcome)| outcome == 1).count()
        };
        if judged.arrived.iter().all(is_tidy) {
            movers[judged.arrived.len()] += 1;
            for op in &judged.arrived {
                rivals[of_node(op.node).count()] += 1;
                assert_eq!(applied(op.node), 1);
            }
            assert!(!outcomes.contains(&3));
        } else {
            let with_outcome = judged.arrived.iter().zip(&outcomes);
            for (op, _) in with_outcome.filter(|&(_, &outcome)| outcome == 3) {
                lost[op.kind as usize - 3] += 1;
            }
            twice += judged
                .arrived
                .iter()
                .filter(|op| applied(op.node) > 1)
                .count();
        }
    }
    assert!(movers[1..].iter().all(|&count| count > 5), "{movers:?}");
    assert!(rivals[1..].iter().all(|&count| count > 10), "{rivals:?}");
    assert!(
        lost.iter().all(|&count| count > 15) && twice > 15,
        "{lost:?} {twice}"
    );
}

/// A program with any of these mistakes prints other lines.
#[test]
fn tidy_ups_show_mistakes() {
    let (judged, _) = follow_tidy_up();
    let differ = |slip| {
        let other = |judged: &&Judged| !judged.answer.ends_with(&judge_with(judged, slip).0);
        judged.iter().filter(other).count()
    };
    assert_eq!(differ(Slip::None), 0);
    let mut seen = BTreeMap::new();
    for (name, slip) in [
        ("lower", Slip::LowerReplicaFirst),
        ("downward", Slip::DownwardFirst),
        ("arrival", Slip::ByArrival),
        ("last", Slip::LastOneWins),
        ("upward", Slip::UpwardNeverLoses),
        ("rivals", Slip::RivalsAtAnyTimestamp),
    ] {
        seen.insert(name, differ(slip));
    }
    assert!(seen.values().all(|&count| count > 20), "{seen:?}");
}

#[test]
fn views_have_outline_at_every_short_length_and_every_call_on_no_bytes() {
    let mut length = 0;
    let mut calls = vec![];
    for case in section("view").cases {
        let call = case[..2].to_string();
        match call.as_str() {
            "00" => length = case.len() / 2 - 1,
            "0a" => length = usize::from_str_radix(&case[2..], 16).unwrap(),
            _ => calls.push((length, call)),
        }
    }
    let has = |length: usize, call: &str| calls.contains(&(length, call.into()));
    assert!((0..=33).all(|length| has(length, "09")));
    for call in "01 02 03 04 05 06 07 08 09 0b 0c".split(' ') {
        assert!(has(0, call), "{call}");
    }
}

#[test]
fn no_such_section() {
    assert!(!Script::default().section("none"));
}
