//! Measures calls of an earlier build of the library and of the present one, in
//! turn, and writes what it finds at the end of docs/PERFORMANCE.md.

#[path = "../../bench/src/callgrind.rs"]
mod callgrind;
#[path = "../../bench/src/distance.rs"]
mod distance;
#[path = "../../bench/src/pick.rs"]
mod pick;

use callgrind::COUNTING;
use distance::Distance;
use outline_model::cases::examples;
use outline_model::cases::world::{Style, World};
use outline_model::rng::Rng;
use outline_model::{refusal, Op, MAX_FILE, OP_LEN, SLOTS};
use pick::{last, names};
use std::fmt::Write;
use std::hint::black_box;
use std::path::Path;
use std::sync::atomic::Ordering::Relaxed;
use std::time::Instant;

const SIZES: [usize; 3] = [100, 1000, 2040];
const SHAPES: [&str; 3] = ["flat", "deep", "random"];

/// What the page says above the table, and where the part begins.
const TITLE: &str = "## Against an earlier library";
const HEAD: &str = "
Made by `model/against/run`, which calls the library of an earlier build and this one in turn: how many times faster this one is, and in brackets
how many times fewer instructions it takes.

| Call | Log | 100 | 1,000 | 2,040 |
|---|---|---|---|---|
";

type Deliver = unsafe extern "C" fn(*mut u8, usize, *const u8, usize) -> usize;
type Add = unsafe extern "C" fn(*mut u8, usize, u8, u16, *mut u8, usize) -> usize;
type Move = unsafe extern "C" fn(*mut u8, usize, u8, u16, u16, *mut u8, usize) -> usize;
type Judge = unsafe extern "C" fn(*const u8, usize, *mut u16, usize, *mut u8, usize) -> usize;

extern "C" {
    fn before_outline_deliver(buf: *mut u8, n: usize, op: *const u8, m: usize) -> usize;
    fn after_outline_deliver(buf: *mut u8, n: usize, op: *const u8, m: usize) -> usize;
    fn before_outline_issue_add(b: *mut u8, n: usize, s: u8, p: u16, o: *mut u8, m: usize)
        -> usize;
    fn after_outline_issue_add(b: *mut u8, n: usize, s: u8, p: u16, o: *mut u8, m: usize) -> usize;
    fn before_outline_issue_remove(
        b: *mut u8,
        n: usize,
        s: u8,
        i: u16,
        o: *mut u8,
        m: usize,
    ) -> usize;
    fn after_outline_issue_remove(
        b: *mut u8,
        n: usize,
        s: u8,
        i: u16,
        o: *mut u8,
        m: usize,
    ) -> usize;
    fn before_outline_issue_move(
        b: *mut u8,
        n: usize,
        s: u8,
        i: u16,
        p: u16,
        o: *mut u8,
        m: usize,
    ) -> usize;
    fn after_outline_issue_move(
        b: *mut u8,
        n: usize,
        s: u8,
        i: u16,
        p: u16,
        o: *mut u8,
        m: usize,
    ) -> usize;
    fn before_outline_judge(
        f: *const u8,
        n: usize,
        p: *mut u16,
        i: usize,
        o: *mut u8,
        j: usize,
    ) -> usize;
    fn after_outline_judge(
        f: *const u8,
        n: usize,
        p: *mut u16,
        i: usize,
        o: *mut u8,
        j: usize,
    ) -> usize;
}

const DELIVER: [Deliver; 2] = [before_outline_deliver, after_outline_deliver];
const ADD: [Add; 2] = [before_outline_issue_add, after_outline_issue_add];
const REMOVE: [Add; 2] = [before_outline_issue_remove, after_outline_issue_remove];
const MOVE: [Move; 2] = [before_outline_issue_move, after_outline_issue_move];
const JUDGE: [Judge; 2] = [before_outline_judge, after_outline_judge];

#[derive(Clone, Copy, PartialEq, Eq)]
enum Call {
    Deliver,
    Add,
    Remove,
    Move,
    /// A move under the deepest node of a chain.
    MoveOver(Distance),
    Judge,
    /// A log of which half are such moves.
    JudgeOver(Distance),
}

impl Call {
    /// Whether the call adds an op of its own, so that a full log can take none.
    fn issues(self) -> bool {
        matches!(
            self,
            Call::Add | Call::Remove | Call::Move | Call::MoveOver(_)
        )
    }

    /// Whether the call leaves its buffer as it was.
    fn judges(self) -> bool {
        matches!(self, Call::Judge | Call::JudgeOver(_))
    }

    /// The logs that it is measured with.
    fn shapes(self) -> &'static [&'static str] {
        match self {
            Call::MoveOver(_) | Call::JudgeOver(_) => &["deep"],
            _ => &SHAPES,
        }
    }
}

const CALLS: [(Call, &str); 11] = [
    (Call::Deliver, "deliver"),
    (Call::Add, "issue_add"),
    (Call::Remove, "issue_remove"),
    (Call::Move, "issue_move"),
    (Call::MoveOver(Distance::Near), "issue_move, near"),
    (Call::MoveOver(Distance::Far), "issue_move, far"),
    (Call::MoveOver(Distance::Beside), "issue_move, beside"),
    (Call::Judge, "judge"),
    (Call::JudgeOver(Distance::Near), "judge, near"),
    (Call::JudgeOver(Distance::Far), "judge, far"),
    (Call::JudgeOver(Distance::Beside), "judge, beside"),
];

/// One call with its arguments and the memory that it is lent.
struct Work {
    call: Call,
    file: Vec<u8>,
    buffer: Vec<u8>,
    op: Vec<u8>,
    replica: u8,
    node: u16,
    parent: u16,
    parents: Vec<u16>,
    bytes: Vec<u8>,
}

fn ops(shape: &str, size: usize) -> Vec<Op> {
    match shape {
        "flat" => {
            let each = |replica: usize| (size + 8 - replica) / 8;
            (1..=8)
                .flat_map(|replica| examples::adds(replica as u8, each(replica)))
                .collect()
        }
        "deep" => examples::longest_chain()[..size].to_vec(),
        _ => World::random(&mut Rng::new(7), Style::mixed(8, size)).ops,
    }
}

impl Work {
    fn new(call: Call, shape: &str, size: usize) -> Work {
        let mut ops = match call {
            Call::MoveOver(_) => distance::chain(size),
            Call::JudgeOver(distance) => distance.moves(size),
            _ => ops(shape, size),
        };
        let last = last(&ops);
        let op = ops[last].bytes().to_vec();
        if call == Call::Deliver || (call.issues() && size == SLOTS - 1) {
            ops.remove(last);
        }
        let log = examples::log_of(&ops);
        let mut file = log.bytes();
        file.resize((file.len() + OP_LEN).min(MAX_FILE), 0);
        let replica = log
            .held()
            .iter()
            .position(|&count| count < 255)
            .unwrap_or(0);
        let (node, parent) = match call {
            Call::MoveOver(distance) => distance.names(&ops),
            _ => names(&log),
        };
        Work {
            call,
            buffer: file.clone(),
            file,
            op,
            replica: replica as u8 + 1,
            node,
            parent,
            parents: vec![0; SLOTS],
            bytes: vec![0; SLOTS],
        }
    }

    /// Makes the call once, on the buffer as it was.
    fn once(&mut self, side: usize) -> usize {
        if !self.call.judges() {
            self.buffer.copy_from_slice(&self.file);
        }
        let (buf, n) = (black_box(self.buffer.as_mut_ptr()), self.buffer.len());
        let (parents, out) = (self.parents.as_mut_ptr(), self.bytes.as_mut_ptr());
        let (replica, node, parent) = (self.replica, self.node, self.parent);
        // SAFETY: pointers and lengths are those of slices, which do not overlap.
        callgrind::count(|| unsafe {
            match self.call {
                Call::Deliver => DELIVER[side](buf, n, self.op.as_ptr(), OP_LEN),
                Call::Add => ADD[side](buf, n, replica, parent, out, OP_LEN),
                Call::Remove => REMOVE[side](buf, n, replica, node, out, OP_LEN),
                Call::Move | Call::MoveOver(_) => {
                    MOVE[side](buf, n, replica, node, parent, out, OP_LEN)
                }
                Call::Judge | Call::JudgeOver(_) => JUDGE[side](buf, n, parents, SLOTS, out, SLOTS),
            }
        })
    }

    /// Whether this is what the call is to answer: moves below themselves alone are
    /// refused.
    fn is_meant(&self, answer: usize) -> bool {
        match self.call {
            Call::MoveOver(distance) if distance.is_met() => {
                answer == usize::from(refusal::BELOW_ITSELF)
            }
            _ => answer >= 16,
        }
    }

    /// Both leave the same behind, and answer as is meant.
    fn check(&mut self) {
        let mut left = |side| {
            self.parents.fill(1);
            self.bytes.fill(1);
            let answer = self.once(side);
            (
                self.is_meant(answer),
                self.buffer.clone(),
                self.parents.clone(),
                self.bytes.clone(),
            )
        };
        let (before, after) = (left(0), left(1));
        assert!(before.0, "not the answer that is meant");
        assert!(before == after, "the two differ");
    }

    /// Keeps the least time of a call at each side, of some rounds in turn.
    fn time(&mut self, least: &mut [f64; 2]) {
        let began = Instant::now();
        let mut many = 0;
        while began.elapsed().as_micros() < 300 {
            black_box(self.once(0));
            many += 1;
        }
        for round in 0..4 {
            for turn in 0..2 {
                let side = (round + turn) % 2;
                let began = Instant::now();
                for _ in 0..many {
                    black_box(self.once(side));
                }
                least[side] = least[side].min(began.elapsed().as_nanos() as f64 / f64::from(many));
            }
        }
    }
}

fn works() -> Vec<Work> {
    let mut works = vec![];
    for (call, _) in CALLS {
        for shape in call.shapes() {
            works.extend(SIZES.map(|size| Work::new(call, shape, size)));
        }
    }
    works
}

fn main() {
    let mut works = works();
    if std::env::args().nth(1).as_deref() == Some("count") {
        for work in &mut works {
            COUNTING.store(true, Relaxed);
            for side in 0..2 {
                black_box(work.once(side));
            }
            COUNTING.store(false, Relaxed);
        }
        return;
    }
    works.iter_mut().for_each(Work::check);
    let mut times = vec![[f64::MAX; 2]; works.len()];
    for _ in 0..30 {
        for (work, least) in works.iter_mut().zip(&mut times) {
            work.time(least);
        }
    }
    let root = Path::new(env!("CARGO_MANIFEST_DIR")).join("../..");
    let counts = callgrind::counts("count", &root.join("target/callgrind")).unwrap_or_default();
    let cell = |i: usize| {
        let [before, after] = times[i];
        let fewer = counts.get(2 * i..2 * i + 2).map_or(String::new(), |pair| {
            format!(" ({:.2})", pair[0] as f64 / pair[1] as f64)
        });
        format!("{:.2}{fewer}", before / after)
    };
    let mut text = format!("{TITLE}\n{HEAD}");
    let mut next = 0..;
    for (call, name) in CALLS {
        for shape in call.shapes() {
            let cells = SIZES.map(|_| cell(next.next().expect("there is always one more")));
            let _ = writeln!(text, "| {name} | {shape} | {} |", cells.join(" | "));
        }
    }
    print!("{text}");
    let page = root.join("docs/PERFORMANCE.md");
    let old = std::fs::read_to_string(&page).expect("docs/PERFORMANCE.md is read");
    let front = old.split(TITLE).next().unwrap_or_default().trim_end();
    std::fs::write(page, format!("{front}\n\n{text}")).expect("docs/PERFORMANCE.md is written");
}
