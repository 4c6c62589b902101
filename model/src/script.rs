//! The case lines that the verified program reads, and the lines it prints.
//! The grammar is in README.md.

use crate::{
    deliver, deliver_holdback, deliver_page, issue_add, issue_add_page, issue_move,
    issue_move_page, issue_moves, issue_remove, issue_remove_page, judge, listing, make,
    make_bundle, open_bundle, outline, path, refusal, Answer, Log, Page, Tables, Tree, Vector,
    View,
};

/// Limits of the grammar.
pub const MAX_LINE: usize = 40_000;
pub const MAX_BUFFER: usize = 40_000;
pub const MAX_TABLE: u16 = 2_100;
pub const MAX_LISTING: u16 = 24_000;
pub const MAX_RECORD: u8 = 40;
pub const MAX_BUNDLE: u16 = 28_600;
pub const MAX_HOLDBACK: usize = 600;
pub const MAX_NODES: usize = 40;
pub const MAX_RECORDS: u16 = 600;

/// Bytes with at most this length are printed in full.
const SHORT: usize = 64;
const FRESH: u8 = 0xa5;
const LENT: u8 = 0xee;
const LENT_ENTRY: u16 = 0xeeee;

/// One case line.
#[derive(Clone, PartialEq, Eq, Debug)]
pub enum Case {
    Load(Vec<u8>),
    Make,
    Deliver(Vec<u8>),
    Judge(u16, u16),
    Add(u8, u16, u8),
    Remove(u8, u16, u8),
    Move(u8, u16, u16, u8),
    Path(u16, u16),
    Listing(View, u16),
    Outline,
    Resize(u16),
    MakeBundle(Vector, u16),
    OpenBundle(Vec<u8>),
    /// A record and a holdback.
    DeliverHoldback(Vec<u8>, Vec<u8>),
    /// From a parent to a node.
    Climb(u16, u16),
    /// The plain call's arguments and a page.
    DeliverPage(Vec<u8>, Tables),
    AddPage(u8, u16, u8, Tables),
    RemovePage(u8, u16, u8, Tables),
    MovePage(u8, u16, u16, u8, Tables),
    /// Of a replica to a parent, with so many bytes lent, of these nodes.
    Batch(u8, u16, u16, Vec<u16>),
}

impl Case {
    pub fn bytes(&self) -> Vec<u8> {
        let mut line = vec![];
        match self {
            Case::Load(bytes) => start(&mut line, 0x00, bytes),
            Case::Make => start(&mut line, 0x01, &[]),
            Case::Deliver(op) => start(&mut line, 0x02, op),
            Case::Judge(parents, outcomes) => numbers(&mut line, 0x03, &[*parents, *outcomes]),
            Case::Add(replica, parent, room) => {
                start(&mut line, 0x04, &[*replica]);
                line.extend(parent.to_be_bytes());
                line.push(*room);
            }
            Case::Remove(replica, node, room) => {
                start(&mut line, 0x05, &[*replica]);
                line.extend(node.to_be_bytes());
                line.push(*room);
            }
            Case::Move(replica, node, parent, room) => {
                start(&mut line, 0x06, &[*replica]);
                line.extend(node.to_be_bytes());
                line.extend(parent.to_be_bytes());
                line.push(*room);
            }
            Case::Path(node, room) => numbers(&mut line, 0x07, &[*node, *room]),
            Case::Listing(view, room) => {
                start(&mut line, 0x08, &[u8::from(*view == View::Skipping)]);
                line.extend(room.to_be_bytes());
            }
            Case::Outline => start(&mut line, 0x09, &[]),
            Case::Resize(length) => numbers(&mut line, 0x0a, &[*length]),
            Case::MakeBundle(counts, room) => {
                start(&mut line, 0x0b, counts);
                line.extend(room.to_be_bytes());
            }
            Case::OpenBundle(bundle) => start(&mut line, 0x0c, bundle),
            Case::DeliverHoldback(op, holdback) => {
                start(&mut line, 0x0d, &[op.len() as u8]);
                line.extend(op);
                line.extend(holdback);
            }
            Case::Climb(parent, node) => numbers(&mut line, 0x0e, &[*parent, *node]),
            Case::DeliverPage(op, page) => {
                start(&mut line, 0x0f, &[op.len() as u8]);
                line.extend(op);
                tables(&mut line, page);
            }
            Case::AddPage(replica, parent, room, page) => {
                start(&mut line, 0x10, &[*replica]);
                line.extend(parent.to_be_bytes());
                line.push(*room);
                tables(&mut line, page);
            }
            Case::RemovePage(replica, node, room, page) => {
                start(&mut line, 0x11, &[*replica]);
                line.extend(node.to_be_bytes());
                line.push(*room);
                tables(&mut line, page);
            }
            Case::MovePage(replica, node, parent, room, page) => {
                start(&mut line, 0x12, &[*replica]);
                line.extend(node.to_be_bytes());
                line.extend(parent.to_be_bytes());
                line.push(*room);
                tables(&mut line, page);
            }
            Case::Batch(replica, parent, room, nodes) => {
                start(&mut line, 0x13, &[*replica]);
                line.extend(parent.to_be_bytes());
                line.extend(room.to_be_bytes());
                line.extend(nodes.iter().flat_map(|node| node.to_be_bytes()));
            }
        }
        line
    }

    pub fn line(&self) -> String {
        hex(&self.bytes())
    }

    /// Whether the line keeps the limits of the grammar.
    pub fn fits(&self) -> bool {
        self.bytes().len() <= MAX_LINE
            && match self {
                Case::Judge(parents, outcomes) => *parents <= MAX_TABLE && *outcomes <= MAX_TABLE,
                Case::Add(_, _, room) | Case::Remove(_, _, room) | Case::Move(_, _, _, room) => {
                    *room <= MAX_RECORD
                }
                Case::Path(_, room) => *room <= MAX_TABLE,
                Case::Listing(_, room) => *room <= MAX_LISTING,
                Case::Resize(length) => usize::from(*length) <= MAX_BUFFER,
                Case::MakeBundle(_, room) => *room <= MAX_BUNDLE,
                Case::DeliverHoldback(op, holdback) => {
                    op.len() <= usize::from(MAX_RECORD) && holdback.len() <= MAX_HOLDBACK
                }
                Case::DeliverPage(op, page) => {
                    op.len() <= usize::from(MAX_RECORD) && page_fits(page)
                }
                Case::AddPage(_, _, room, page)
                | Case::RemovePage(_, _, room, page)
                | Case::MovePage(_, _, _, room, page) => *room <= MAX_RECORD && page_fits(page),
                Case::Batch(_, _, room, nodes) => *room <= MAX_RECORDS && nodes.len() <= MAX_NODES,
                _ => true,
            }
    }
}

fn page_fits(page: &Tables) -> bool {
    [page.order.len(), page.parents.len(), page.outcomes.len()]
        .iter()
        .all(|&length| length <= usize::from(MAX_TABLE))
}

fn start(line: &mut Vec<u8>, call: u8, rest: &[u8]) {
    line.push(call);
    line.extend(rest);
}

fn numbers(line: &mut Vec<u8>, call: u8, numbers: &[u16]) {
    line.push(call);
    line.extend(numbers.iter().flat_map(|number| number.to_be_bytes()));
}

/// The tables of a page as runs of equal entries: most of a page is alike.
fn tables(line: &mut Vec<u8>, page: &Tables) {
    let outcomes: Vec<u16> = page.outcomes.iter().copied().map(u16::from).collect();
    for table in [&page.order, &page.parents, &outcomes] {
        let runs: Vec<&[u16]> = table.chunk_by(|a, b| a == b).collect();
        line.extend((runs.len() as u16).to_be_bytes());
        for run in runs {
            line.extend((run.len() as u16).to_be_bytes());
            line.extend(run[0].to_be_bytes());
        }
    }
}

/// Runs cases on one buffer, as the verified program does.
#[derive(Clone, Default)]
pub struct Machine {
    pub buffer: Vec<u8>,
    /// What the last delivery with a holdback left there.
    pub holdback: Vec<u8>,
    /// What the last call with a page left in its tables.
    pub page: Tables,
}

impl Machine {
    /// Whether the grammar has this case at the present buffer: in a sound log a
    /// climb is between added nodes and the root.
    pub fn takes(&self, case: &Case) -> bool {
        let Case::Climb(parent, node) = case else {
            return true;
        };
        let Some(log) = Log::open(&self.buffer) else {
            return true;
        };
        let is_added = |&node: &u16| log.knowledge(&log.held(), node).is_known();
        [parent, node].iter().all(|&end| *end == 0 || is_added(end))
    }

    /// The line to print for this case.
    pub fn run(&mut self, case: &Case) -> String {
        let (answer, other) = self.call(case);
        let mut line = answer;
        if *case != Case::Outline {
            line += &show(&self.buffer);
        }
        other.iter().for_each(|memory| line += &show(memory));
        line
    }

    /// The answer, and the lent memories besides the buffer.
    fn call(&mut self, case: &Case) -> (String, Vec<Vec<u8>>) {
        let buffer = &mut self.buffer;
        match case {
            Case::Load(bytes) => {
                buffer.clone_from(bytes);
                ("l".into(), vec![])
            }
            Case::Resize(length) => {
                buffer.resize(usize::from(*length), FRESH);
                ("l".into(), vec![])
            }
            Case::Make => (text(make(buffer)), vec![]),
            Case::Deliver(op) => (text(deliver(buffer, op)), vec![]),
            Case::Judge(parents, outcomes) => run_judge(buffer, *parents, *outcomes),
            Case::Add(replica, parent, room) => {
                with_bytes(*room, |out| issue_add(buffer, *replica, *parent, out))
            }
            Case::Remove(replica, node, room) => {
                with_bytes(*room, |out| issue_remove(buffer, *replica, *node, out))
            }
            Case::Move(replica, node, parent, room) => with_bytes(*room, |out| {
                issue_move(buffer, *replica, *node, *parent, out)
            }),
            Case::Path(node, room) => {
                let mut out = vec![LENT_ENTRY; usize::from(*room)];
                let answer = path(buffer, *node, &mut out);
                (text(answer), vec![entry_bytes(&out)])
            }
            Case::Listing(view, room) => with_bytes(*room, |out| listing(buffer, *view, out)),
            Case::Outline => ("o".into(), vec![outline(buffer)]),
            Case::MakeBundle(counts, room) => {
                with_bytes(*room, |out| make_bundle(buffer, *counts, out))
            }
            Case::OpenBundle(bundle) => (text(open_bundle(buffer, bundle)), vec![]),
            Case::DeliverHoldback(op, holdback) => {
                self.holdback.clone_from(holdback);
                let answer = deliver_holdback(buffer, op, &mut self.holdback);
                (text(answer), vec![self.holdback.clone()])
            }
            Case::Climb(parent, node) => (run_climb(buffer, *parent, *node), vec![]),
            Case::DeliverPage(op, page) => {
                self.page.clone_from(page);
                run_page(&mut self.page, None, |_, page| {
                    deliver_page(buffer, op, page)
                })
            }
            Case::AddPage(replica, parent, room, page) => {
                self.page.clone_from(page);
                run_page(&mut self.page, Some(*room), |out, page| {
                    issue_add_page(buffer, *replica, *parent, out, page)
                })
            }
            Case::RemovePage(replica, node, room, page) => {
                self.page.clone_from(page);
                run_page(&mut self.page, Some(*room), |out, page| {
                    issue_remove_page(buffer, *replica, *node, out, page)
                })
            }
            Case::MovePage(replica, node, parent, room, page) => {
                self.page.clone_from(page);
                run_page(&mut self.page, Some(*room), |out, page| {
                    issue_move_page(buffer, *replica, *node, *parent, out, page)
                })
            }
            Case::Batch(replica, parent, room, nodes) => with_bytes(*room, |out| {
                issue_moves(buffer, *replica, nodes, *parent, out)
            }),
        }
    }
}

/// Makes a call that is lent a page and, if it issues, so many bytes for the
/// record. How many ops it took back stands behind the answer.
fn run_page(
    page: &mut Tables,
    room: Option<u8>,
    call: impl FnOnce(&mut [u8], Page) -> (Answer, usize),
) -> (String, Vec<Vec<u8>>) {
    let mut out = vec![LENT; room.map_or(0, usize::from)];
    let (answer, taken) = call(&mut out, page.lend());
    let tables = [
        entry_bytes(&page.order),
        entry_bytes(&page.parents),
        page.outcomes.clone(),
    ];
    let memories = room.map(|_| out).into_iter().chain(tables).collect();
    (format!("{} {taken}", text(answer)), memories)
}

/// A climb in the tree that judging the buffer leads to.
fn run_climb(file: &[u8], parent: u16, node: u16) -> String {
    let Some(log) = Log::open(file) else {
        return text(Answer::Refused(refusal::UNSOUND));
    };
    let climb = Tree::judge(&log).climb_to(parent, node);
    let met = if climb.met { "y" } else { "n" };
    format!("{met} {}", climb.steps)
}

fn run_judge(file: &[u8], parents: u16, outcomes: u16) -> (String, Vec<Vec<u8>>) {
    let mut parents = vec![LENT_ENTRY; usize::from(parents)];
    let mut outcomes = vec![LENT; usize::from(outcomes)];
    let answer = judge(file, &mut parents, &mut outcomes);
    (text(answer), vec![entry_bytes(&parents), outcomes])
}

/// Makes a call that is lent bytes besides the buffer.
fn with_bytes(
    room: impl Into<u16>,
    call: impl FnOnce(&mut [u8]) -> Answer,
) -> (String, Vec<Vec<u8>>) {
    let mut out = vec![LENT; usize::from(room.into())];
    let answer = call(&mut out);
    (text(answer), vec![out])
}

fn text(answer: Answer) -> String {
    match answer {
        Answer::Accepted(number) | Answer::Count(number) => format!("a {number}"),
        Answer::HadIt => "h".into(),
        Answer::Waiting => "w".into(),
        Answer::Done => "d".into(),
        Answer::Refused(number) => format!("r {number}"),
    }
}

fn show(memory: &[u8]) -> String {
    let mut text = format!(" {}", digest(memory));
    if memory.len() <= SHORT {
        text += " ";
        text += &hex(memory);
    }
    text
}

fn digest(bytes: &[u8]) -> u64 {
    bytes
        .iter()
        .fold(0, |h, &b| (h * 257 + u64::from(b) + 1) % 4_294_967_291)
}

fn entry_bytes(entries: &[u16]) -> Vec<u8> {
    entries.iter().flat_map(|e| e.to_be_bytes()).collect()
}

pub fn hex(bytes: &[u8]) -> String {
    bytes.iter().map(|byte| format!("{byte:02x}")).collect()
}
