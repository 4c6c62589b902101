//! What the model says a command comes to.

use crate::said::Foreseen;
use outline_model::refusal::{BAD_HOLDBACK, UNSOUND};
use outline_model::{
    self as model, Answer, Knowledge, Log, Op, Tables, Tree, Vector, View, HOLDBACK_LEN, MAX_BATCH,
    MAX_FILE, MAX_SEQUENCE, OP_LEN, SLOTS,
};
use std::collections::BTreeMap;
use std::fmt::Write;

/// The longest listing has 24,492 bytes.
pub const LISTING: usize = 24_492;
/// The longest bundle: its head and all ops.
pub const BUNDLE: usize = 9 + MAX_FILE;

/// A buffer for the largest log with the log of a file in it. No bytes are a log
/// without ops, and a file must end where its log does.
pub fn lent(file: &[u8]) -> Foreseen<Vec<u8>> {
    let mut buffer = vec![0xa5; MAX_FILE];
    if file.is_empty() {
        return accepted(model::make(&mut buffer)).map(|_| buffer);
    }
    match model::file_end(file) {
        Answer::Count(end) if end == file.len() => {
            buffer[..end].copy_from_slice(file);
            Ok(buffer)
        }
        _ => Err(UNSOUND),
    }
}

/// The number of an answer that is a number or a refusal.
pub fn accepted(answer: Answer) -> Foreseen<usize> {
    match answer {
        Answer::Accepted(number) | Answer::Count(number) => Ok(number),
        Answer::Refused(number) => Err(number),
        other => panic!("the model answers {other:?}"),
    }
}

/// The file of a log in a buffer: the buffer up to its end.
pub fn file_of(buffer: &[u8]) -> Vec<u8> {
    let end = accepted(model::file_end(buffer)).expect("the model leaves sound logs");
    buffer[..end].to_vec()
}

pub fn log_of(file: &[u8]) -> Foreseen<Log> {
    Log::open(&lent(file)?).ok_or(UNSOUND)
}

/// The held counts; none of a file that is not sound.
pub fn held(file: &[u8]) -> Vector {
    log_of(file).map_or([0; 8], |log| log.held())
}

/// The added nodes, or those of them that are not removed; none of a file that is
/// not sound.
pub fn nodes(file: &[u8], removed_too: bool) -> Vec<u32> {
    let Ok(log) = log_of(file) else {
        return Vec::new();
    };
    let unmarked = |node: &u16| log.knowledge(&log.held(), *node) == Knowledge::Unmarked;
    let tree = Tree::judge(&log);
    let chosen = tree.nodes().filter(|node| removed_too || unmarked(node));
    chosen.map(u32::from).collect()
}

/// A node as it is written. What is no two-byte number is no node, and nor is 65,535.
pub fn node(number: u32) -> u16 {
    u16::try_from(number).unwrap_or(u16::MAX)
}

/// What is asked to issue, with its numbers as they are written.
pub struct Request {
    pub command: &'static str,
    pub seat: u32,
    pub numbers: Vec<u32>,
}

/// A file after issuing, and the ops that were issued.
pub struct Issued {
    pub file: Vec<u8>,
    pub ops: Vec<u8>,
}

impl Request {
    pub fn of(command: &'static str, seat: u32, numbers: &[u32]) -> Request {
        let numbers = numbers.to_vec();
        Request {
            command,
            seat,
            numbers,
        }
    }

    pub fn line(&self, options: &str, name: &str) -> String {
        let numbers: String = self.numbers.iter().map(|it| format!(" {it}")).collect();
        let (command, seat) = (self.command, self.seat);
        format!("{command} --plain --as {seat}{options} {name}{numbers}")
    }

    pub fn foresee(&self, file: &[u8]) -> Foreseen<Issued> {
        let mut buffer = lent(file)?;
        let before = file_of(&buffer).len();
        let mut out = [0; MAX_BATCH * OP_LEN];
        let end = accepted(self.issue(&mut buffer, &mut out))?;
        Ok(Issued {
            file: buffer[..end].to_vec(),
            ops: out[..end - before].to_vec(),
        })
    }

    pub fn issue(&self, buffer: &mut [u8], out: &mut [u8]) -> Answer {
        // What is no byte is no seat, and nor is 255.
        let seat = u8::try_from(self.seat).unwrap_or(u8::MAX);
        let numbers: Vec<u16> = self.numbers.iter().map(|&it| node(it)).collect();
        match (self.command, &numbers[..]) {
            ("add", &[parent]) => model::issue_add(buffer, seat, parent, out),
            ("remove", &[node]) => model::issue_remove(buffer, seat, node, out),
            ("move", &[node, parent]) => model::issue_move(buffer, seat, node, parent, out),
            ("column", [nodes @ .., parent]) => {
                model::issue_moves(buffer, seat, nodes, *parent, out)
            }
            (command, numbers) => panic!("no request: {command} {numbers:?}"),
        }
    }
}

impl Issued {
    /// What is printed of them: the node of an add, and the name of any other op.
    pub fn text(&self) -> String {
        let ops = self.ops.chunks(OP_LEN).map(read);
        let line = |op: Op| match op.kind {
            model::Kind::Add => format!("{}\n", op.node),
            _ => format!("{}\n", name_of(&op)),
        };
        ops.map(line).collect()
    }
}

pub fn read(bytes: &[u8]) -> Op {
    Op::read(bytes).unwrap_or_else(|why| panic!("{bytes:?} is no op: {why}"))
}

/// An op by its seat and sequence.
pub fn name_of(op: &Op) -> String {
    format!("{}:{}", op.replica, op.sequence())
}

pub fn commas(counts: &Vector) -> String {
    counts.map(|count| count.to_string()).join(",")
}

pub fn bundle_of(file: &[u8], counts: Vector) -> Foreseen<Vec<u8>> {
    let mut out = vec![0; BUNDLE];
    let length = accepted(model::make_bundle(&lent(file)?, counts, &mut out))?;
    out.truncate(length);
    Ok(out)
}

/// Where the head of a bundle that the model made ends.
pub fn head_len(bundle: &[u8]) -> usize {
    1 + bundle[0].count_ones() as usize
}

/// The ops of a file that counts leave out, in judging order; none if it is not
/// sound.
pub fn ops_beyond(file: &[u8], counts: Vector) -> Vec<Vec<u8>> {
    bundle_of(file, counts).map_or(Vec::new(), |bundle| {
        let bodies = bundle[head_len(&bundle)..].chunks(OP_LEN);
        bodies.map(<[u8]>::to_vec).collect()
    })
}

/// A file after opening a bundle.
pub fn opened(file: &[u8], bundle: &[u8]) -> Foreseen<Vec<u8>> {
    let mut buffer = lent(file)?;
    let end = accepted(model::open_bundle(&mut buffer, bundle))?;
    Ok(buffer[..end].to_vec())
}

/// The one file that all have after they met. Each hands over all that it has, so
/// that ops that differ are met; then each gets what it lacks.
pub fn met(files: &[Vec<u8>]) -> Foreseen<Vec<u8>> {
    for file in files {
        lent(file)?;
    }
    let mut all = Vec::new();
    for file in files {
        all = opened(&all, &bundle_of(file, [0; 8])?)?;
    }
    for file in files {
        let back = opened(file, &bundle_of(&all, held(file))?)?;
        assert!(back == all, "the model's logs meet and are not alike");
    }
    Ok(all)
}

/// A file and a tray after post, and what is printed.
pub struct Posted {
    pub file: Vec<u8>,
    pub tray: Vec<u8>,
    pub text: String,
}

pub fn posted(file: &[u8], tray: Option<&[u8]>, offered: &[Vec<u8>]) -> Foreseen<Posted> {
    let mut buffer = lent(file)?;
    let mut tray = tray.map_or(vec![0; HOLDBACK_LEN], <[u8]>::to_vec);
    let held = file_of(&buffer).len() / OP_LEN;
    // All that waited or was taken in: what comes of it is in the log, waits, or is gone.
    let mut taken = usize::from(tray.first().copied().unwrap_or(0));
    let mut text = String::new();
    for bytes in offered {
        for op in ops_of_post(bytes) {
            let waiting = tray.first().copied();
            let answer = model::deliver_holdback(&mut buffer, op, &mut tray);
            let _ = match answer {
                Answer::HadIt => writeln!(text, "had"),
                Answer::Waiting => writeln!(text, "waiting"),
                other => writeln!(text, "accepted {}", accepted(other)?),
            };
            let grown = answer == Answer::Waiting && waiting != tray.first().copied();
            taken += usize::from(grown || matches!(answer, Answer::Accepted(_)));
        }
    }
    if offered.is_empty() {
        offer_again(&mut buffer, &mut tray)?;
    }
    let file = file_of(&buffer);
    let came = file.len() / OP_LEN - held;
    let gone = taken - came - usize::from(tray[0]);
    let _ = writeln!(text, "{} {gone}", tray[0]);
    Ok(Posted { file, tray, text })
}

/// The ops of a file that came by post. One without bytes offers no bytes, which are
/// no op; and so is a rest.
pub fn ops_of_post(bytes: &[u8]) -> Vec<&[u8]> {
    match bytes {
        [] => vec![bytes],
        _ => bytes.chunks(OP_LEN).collect(),
    }
}

/// Offers all that waits once more, beginning with an empty tray. What is refused is
/// gone.
pub fn offer_again(buffer: &mut [u8], tray: &mut Vec<u8>) -> Foreseen<()> {
    // 14 is tested before 2, so that an offer of no bytes tells whether it is a tray.
    let answer = model::deliver_holdback(buffer, &[], &mut tray.clone());
    if answer == Answer::Refused(BAD_HOLDBACK) {
        return Err(BAD_HOLDBACK);
    }
    let old = std::mem::replace(tray, vec![0; HOLDBACK_LEN]);
    for op in old[1..].chunks(OP_LEN).take(old[0].into()) {
        model::deliver_holdback(buffer, op, tray);
    }
    Ok(())
}

pub fn checked(file: &[u8]) -> Foreseen<String> {
    let log = log_of(file)?;
    Ok(format!("sound {} {}\n", log.end(), commas(&log.held())))
}

pub fn listed(file: &[u8], view: View) -> Foreseen<String> {
    let mut out = vec![0; LISTING];
    let length = accepted(model::listing(&lent(file)?, view, &mut out))?;
    out.truncate(length);
    Ok(String::from_utf8(out).expect("the model lists in ASCII"))
}

pub fn path_of(file: &[u8], number: u32) -> Foreseen<Vec<u16>> {
    let mut out = vec![0; SLOTS];
    let length = accepted(model::path(&lent(file)?, node(number), &mut out))?;
    out.truncate(length);
    Ok(out)
}

pub fn joined(path: Vec<u16>) -> String {
    let numbers: Vec<String> = path.iter().map(u16::to_string).collect();
    numbers.join(" ") + "\n"
}

pub fn judged(file: &[u8]) -> Foreseen<String> {
    let log = log_of(file)?;
    let page = Tables::of(&log);
    let stamps = timestamps(&log);
    let slots = page.order.iter().map(|&slot| usize::from(slot));
    let lines = slots.take_while(|&slot| slot > 0).map(|slot| {
        let (index, sequence) = ((slot - 1) / MAX_SEQUENCE, (slot - 1) % MAX_SEQUENCE + 1);
        let op = log.get(index, sequence).expect("the order has held ops");
        let (name, kind, counts) = (name_of(op), op.kind as u8, commas(&op.vector));
        let (stamp, outcome) = (stamps[&(index, sequence)], page.outcomes[slot]);
        let (node, parent) = (op.node, op.parent);
        format!("{name} {kind} {node} {parent} {counts} {stamp} {outcome}\n")
    });
    Ok(lines.collect())
}

/// The timestamp of each op by the document's rule: 1 plus the greatest within its
/// counts. All that is counted is looked at, and not only the last op of each seat.
pub fn timestamps(log: &Log) -> BTreeMap<(usize, usize), usize> {
    let mut ops: Vec<&Op> = log.ops().collect();
    // An op counts more than each that it counts.
    ops.sort_by_key(|op| op.vector.iter().map(|&it| usize::from(it)).sum::<usize>());
    let mut stamps = BTreeMap::new();
    for op in ops {
        let counted = |&(index, sequence): &(usize, usize)| sequence <= op.vector[index].into();
        let within = stamps.iter().filter(|(id, _)| counted(id));
        let greatest = within.map(|(_, &stamp)| stamp).max();
        stamps.insert((op.index(), op.sequence()), 1 + greatest.unwrap_or(0));
    }
    stamps
}
