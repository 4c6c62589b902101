//! Delivering with a holdback.

use super::calls::{answer, new_op};
use super::log::{Layout, Log, Op, OP};
use outline_model::{refusal, Answer};

const PLACES: usize = 32;
const HOLDBACK: usize = 1 + OP * PLACES;

#[inline(never)]
pub fn deliver_holdback(buffer: &mut [u8], op: &[u8], holdback: &mut [u8]) -> Answer {
    answer(try_deliver_holdback(buffer, op, holdback))
}

fn try_deliver_holdback(
    buffer: &mut [u8],
    bytes: &[u8],
    holdback: &mut [u8],
) -> Result<Answer, u8> {
    let log = Log::open(buffer).ok_or(refusal::UNSOUND)?;
    let mut holdback = Holdback::read(holdback).ok_or(refusal::BAD_HOLDBACK)?;
    let mut layout = log.layout;
    match new_op(&log, bytes) {
        Ok(Some(op)) if put(buffer, &mut layout, op) => {}
        Ok(Some(_)) => return Err(refusal::ROOM),
        Ok(None) => return Ok(Answer::HadIt),
        Err(refusal::EARLY) => return holdback.wait(bytes),
        Err(number) => return Err(number),
    }
    holdback.search(buffer, &mut layout);
    Ok(Answer::Accepted(layout.end))
}

/// Test 8, then the op is put in its place. The log is sound with it, so it need
/// not be looked at again.
fn put(buffer: &mut [u8], layout: &mut Layout, op: Op) -> bool {
    let fits = layout.end + OP <= buffer.len();
    if fits {
        layout.insert(buffer, op.index(), op.0);
        *layout = layout.with_one_more(op.index());
    }
    fits
}

/// A lent holdback in good order.
struct Holdback<'a> {
    bytes: &'a mut [u8; HOLDBACK],
}

impl<'a> Holdback<'a> {
    fn read(bytes: &'a mut [u8]) -> Option<Holdback<'a>> {
        let holdback = Holdback {
            bytes: bytes.try_into().ok()?,
        };
        // All at once: a test at each byte takes longer.
        let past = holdback.bytes.get(holdback.end()..)?;
        (past.iter().fold(0, |all, &byte| all | byte) == 0).then_some(holdback)
    }

    /// Where the waiting ops end.
    fn end(&self) -> usize {
        1 + OP * usize::from(self.bytes[0])
    }

    fn wait(&mut self, op: &[u8]) -> Result<Answer, u8> {
        let end = self.end();
        let mut waiting = self.bytes[1..end].chunks_exact(OP);
        if !waiting.any(|other| other == op) {
            let place = self.bytes.get_mut(end..end + OP);
            place.ok_or(refusal::HOLDBACK_FULL)?.copy_from_slice(op);
            self.bytes[0] += 1;
        }
        Ok(Answer::Waiting)
    }

    /// From the front, and again as soon as an op is put in its place.
    fn search(&mut self, buffer: &mut [u8], layout: &mut Layout) {
        let mut at = 1;
        while at < self.end() {
            at = match new_op(&Log::known(buffer, *layout), &self.bytes[at..at + OP]) {
                Err(refusal::EARLY) => at + OP,
                Ok(Some(op)) => {
                    if put(buffer, layout, op) {
                        self.free(at);
                        1
                    } else {
                        at + OP
                    }
                }
                _ => {
                    self.free(at);
                    at
                }
            };
        }
    }

    /// The later ops close up, and the last place is zero.
    fn free(&mut self, at: usize) {
        let end = self.end();
        self.bytes.copy_within(at + OP..end, at);
        self.bytes[end - OP..end].fill(0);
        self.bytes[0] -= 1;
    }
}
