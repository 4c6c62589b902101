//! The calls, and the two sides that answer them.

use crate::lent::{Guards, Lent};
use crate::page::Page;
use crate::raw;
use outline::plain::{self, Tables};
use outline::{Delivery, Refusal};
use outline_model::{Answer, Vector, View};

#[derive(Clone, Debug)]
pub enum Call {
    Make,
    Deliver(Vec<u8>),
    Add {
        replica: u8,
        parent: u16,
        room: usize,
    },
    Remove {
        replica: u8,
        node: u16,
        room: usize,
    },
    Move {
        replica: u8,
        node: u16,
        parent: u16,
        room: usize,
    },
    Moves {
        replica: u8,
        nodes: Vec<u16>,
        parent: u16,
        room: usize,
    },
    Judge {
        parents: usize,
        outcomes: usize,
    },
    Path {
        node: u16,
        room: usize,
    },
    Listing {
        view: View,
        room: usize,
    },
    Size {
        view: View,
    },
    IsSound,
    End,
    Counts {
        room: usize,
    },
    BundleMake {
        counts: Vector,
        room: usize,
    },
    BundleOpen(Vec<u8>),
    HoldbackDeliver {
        op: Vec<u8>,
        holdback: Vec<u8>,
    },
    PageDeliver {
        op: Vec<u8>,
        page: Page,
    },
    PageAdd {
        replica: u8,
        parent: u16,
        room: usize,
        page: Page,
    },
    PageRemove {
        replica: u8,
        node: u16,
        room: usize,
        page: Page,
    },
    PageMove {
        replica: u8,
        node: u16,
        parent: u16,
        room: usize,
        page: Page,
    },
}

pub const NAMES: [&str; 20] = [
    "make",
    "deliver",
    "issue_add",
    "issue_remove",
    "issue_move",
    "issue_moves",
    "judge",
    "path",
    "listing",
    "listing_size",
    "is_sound",
    "end",
    "counts",
    "bundle_make",
    "bundle_open",
    "holdback_deliver",
    "page_deliver",
    "page_issue_add",
    "page_issue_remove",
    "page_issue_move",
];

impl Call {
    /// Its place in `NAMES`.
    pub fn index(&self) -> usize {
        match self {
            Call::Make => 0,
            Call::Deliver(_) => 1,
            Call::Add { .. } => 2,
            Call::Remove { .. } => 3,
            Call::Move { .. } => 4,
            Call::Moves { .. } => 5,
            Call::Judge { .. } => 6,
            Call::Path { .. } => 7,
            Call::Listing { .. } => 8,
            Call::Size { .. } => 9,
            Call::IsSound => 10,
            Call::End => 11,
            Call::Counts { .. } => 12,
            Call::BundleMake { .. } => 13,
            Call::BundleOpen(_) => 14,
            Call::HoldbackDeliver { .. } => 15,
            Call::PageDeliver { .. } => 16,
            Call::PageAdd { .. } => 17,
            Call::PageRemove { .. } => 18,
            Call::PageMove { .. } => 19,
        }
    }

    /// Whether it goes with a page.
    pub fn has_page(&self) -> bool {
        matches!(
            self,
            Call::PageDeliver { .. }
                | Call::PageAdd { .. }
                | Call::PageRemove { .. }
                | Call::PageMove { .. }
        )
    }

    /// Whether it issues or delivers one op, or judges.
    pub fn is_single(&self) -> bool {
        let plainly = matches!(
            self,
            Call::Deliver(_)
                | Call::Add { .. }
                | Call::Remove { .. }
                | Call::Move { .. }
                | Call::Judge { .. }
        );
        plainly || self.has_page()
    }
}

/// What both sides answer, in one form.
#[derive(Clone, Copy, PartialEq, Eq, Debug)]
pub enum Outcome {
    Refused(u8),
    HadIt,
    Waiting,
    Done,
    Value(usize),
}

/// A bool as 0 or 1.
fn truth(holds: bool) -> Outcome {
    Outcome::Value(usize::from(holds))
}

/// The answer, and all memory that was lent besides the buffer.
#[derive(PartialEq, Eq, Debug)]
pub struct After {
    pub outcome: Outcome,
    /// How many ops a call with a page took back.
    pub taken_back: usize,
    pub bytes: Vec<Lent<u8>>,
    pub words: Vec<Lent<u16>>,
}

impl After {
    /// The page that a call with one left.
    pub fn page(&self, call: &Call) -> Option<Page> {
        match (&self.words[..], &self.bytes[..]) {
            ([order, parents], [_, outcomes]) if call.has_page() => Some(Page {
                order: order.get().to_vec(),
                parents: parents.get().to_vec(),
                outcomes: outcomes.get().to_vec(),
            }),
            _ => None,
        }
    }
}

/// One implementation of the calls.
pub trait Side {
    fn make(buf: &mut [u8]) -> Outcome;
    fn deliver(buf: &mut [u8], op: &[u8]) -> Outcome;
    fn issue_add(buf: &mut [u8], replica: u8, parent: u16, out: &mut [u8]) -> Outcome;
    fn issue_remove(buf: &mut [u8], replica: u8, node: u16, out: &mut [u8]) -> Outcome;
    fn issue_move(buf: &mut [u8], replica: u8, node: u16, parent: u16, out: &mut [u8]) -> Outcome;
    fn issue_moves(
        buf: &mut [u8],
        replica: u8,
        nodes: &[u16],
        parent: u16,
        out: &mut [u8],
    ) -> Outcome;
    fn judge(file: &[u8], parents: &mut [u16], outcomes: &mut [u8]) -> Outcome;
    fn path(file: &[u8], node: u16, out: &mut [u16]) -> Outcome;
    fn listing(file: &[u8], view: View, out: &mut [u8]) -> Outcome;
    fn listing_size(file: &[u8], view: View) -> Outcome;
    fn is_sound(file: &[u8]) -> Outcome;
    fn end(file: &[u8]) -> Outcome;
    fn counts(file: &[u8], out: &mut [u8]) -> Outcome;
    fn bundle_make(file: &[u8], counts: &Vector, out: &mut [u8]) -> Outcome;
    fn bundle_open(buf: &mut [u8], bundle: &[u8]) -> Outcome;
    fn holdback_deliver(buf: &mut [u8], op: &[u8], holdback: &mut [u8]) -> Outcome;
    fn page_deliver(buf: &mut [u8], op: &[u8], page: &mut Tables) -> Paged;
    fn page_add(
        buf: &mut [u8],
        replica: u8,
        parent: u16,
        out: &mut [u8],
        page: &mut Tables,
    ) -> Paged;
    fn page_remove(
        buf: &mut [u8],
        replica: u8,
        node: u16,
        out: &mut [u8],
        page: &mut Tables,
    ) -> Paged;
    fn page_move(
        buf: &mut [u8],
        replica: u8,
        node: u16,
        parent: u16,
        out: &mut [u8],
        page: &mut Tables,
    ) -> Paged;
}

/// The answer of a call with a page, and how many ops were taken back.
type Paged = (Outcome, usize);

pub struct Library;
pub struct Model;

fn value(answer: Result<usize, Refusal>) -> Outcome {
    answer.map_or_else(|why| Outcome::Refused(why.number()), Outcome::Value)
}

/// What a plain delivery can answer.
fn delivered(answer: Result<Delivery, Refusal>) -> Outcome {
    match answer {
        Ok(Delivery::Accepted(end)) => Outcome::Value(end),
        Ok(Delivery::HadIt) => Outcome::HadIt,
        Ok(other) => unreachable!("a plain delivery answers {other:?}"),
        Err(why) => Outcome::Refused(why.number()),
    }
}

/// An answer with a page, by what is said of the one without it. A refusal comes
/// with nothing taken back, or the crate would not have handed it on.
fn paged<T>(
    answer: Result<(T, usize), Refusal>,
    plain: impl FnOnce(Result<T, Refusal>) -> Outcome,
) -> Paged {
    match answer {
        Ok((answer, taken_back)) => (plain(Ok(answer)), taken_back),
        Err(why) => (plain(Err(why)), 0),
    }
}

/// The number of an answer that is refused or has a value.
fn numbered(answer: usize) -> Outcome {
    match answer {
        256.. => Outcome::Value(answer - 256),
        _ => Outcome::Refused(answer as u8),
    }
}

fn library_view(view: View) -> outline::View {
    match view {
        View::Keeping => outline::View::Keeping,
        View::Skipping => outline::View::Skipping,
    }
}

impl Side for Library {
    fn make(buf: &mut [u8]) -> Outcome {
        value(plain::make(buf))
    }

    fn deliver(buf: &mut [u8], op: &[u8]) -> Outcome {
        delivered(plain::deliver(buf, op))
    }

    fn issue_add(buf: &mut [u8], replica: u8, parent: u16, out: &mut [u8]) -> Outcome {
        value(plain::issue_add(buf, replica, parent, out))
    }

    fn issue_remove(buf: &mut [u8], replica: u8, node: u16, out: &mut [u8]) -> Outcome {
        value(plain::issue_remove(buf, replica, node, out))
    }

    fn issue_move(buf: &mut [u8], replica: u8, node: u16, parent: u16, out: &mut [u8]) -> Outcome {
        value(plain::issue_move(buf, replica, node, parent, out))
    }

    fn issue_moves(
        buf: &mut [u8],
        replica: u8,
        nodes: &[u16],
        parent: u16,
        out: &mut [u8],
    ) -> Outcome {
        value(plain::issue_moves(buf, replica, nodes, parent, out))
    }

    fn judge(file: &[u8], parents: &mut [u16], outcomes: &mut [u8]) -> Outcome {
        match plain::judge(file, parents, outcomes) {
            Ok(()) => Outcome::Done,
            Err(why) => Outcome::Refused(why.number()),
        }
    }

    fn path(file: &[u8], node: u16, out: &mut [u16]) -> Outcome {
        value(plain::path(file, node, out))
    }

    fn listing(file: &[u8], view: View, out: &mut [u8]) -> Outcome {
        value(plain::listing(file, library_view(view), out))
    }

    fn listing_size(file: &[u8], view: View) -> Outcome {
        value(plain::listing_size(file, library_view(view)))
    }

    fn is_sound(file: &[u8]) -> Outcome {
        truth(plain::is_sound(file))
    }

    fn end(file: &[u8]) -> Outcome {
        value(plain::end(file))
    }

    fn counts(file: &[u8], out: &mut [u8]) -> Outcome {
        numbered(raw::counts(file, out))
    }

    fn bundle_make(file: &[u8], counts: &Vector, out: &mut [u8]) -> Outcome {
        value(plain::bundle_make(file, counts, out))
    }

    fn bundle_open(buf: &mut [u8], bundle: &[u8]) -> Outcome {
        value(plain::bundle_open(buf, bundle))
    }

    fn holdback_deliver(buf: &mut [u8], op: &[u8], holdback: &mut [u8]) -> Outcome {
        match plain::holdback_deliver(buf, op, holdback) {
            Ok(Delivery::Waiting) => Outcome::Waiting,
            other => delivered(other),
        }
    }

    fn page_deliver(buf: &mut [u8], op: &[u8], page: &mut Tables) -> Paged {
        paged(plain::page_deliver(buf, op, page), delivered)
    }

    fn page_add(
        buf: &mut [u8],
        replica: u8,
        parent: u16,
        out: &mut [u8],
        page: &mut Tables,
    ) -> Paged {
        let answer = plain::page_issue_add(buf, replica, parent, out, page);
        paged(answer, value)
    }

    fn page_remove(
        buf: &mut [u8],
        replica: u8,
        node: u16,
        out: &mut [u8],
        page: &mut Tables,
    ) -> Paged {
        let answer = plain::page_issue_remove(buf, replica, node, out, page);
        paged(answer, value)
    }

    fn page_move(
        buf: &mut [u8],
        replica: u8,
        node: u16,
        parent: u16,
        out: &mut [u8],
        page: &mut Tables,
    ) -> Paged {
        let answer = plain::page_issue_move(buf, replica, node, parent, out, page);
        paged(answer, value)
    }
}

impl From<Answer> for Outcome {
    fn from(answer: Answer) -> Outcome {
        match answer {
            Answer::Accepted(value) | Answer::Count(value) => Outcome::Value(value),
            Answer::HadIt => Outcome::HadIt,
            Answer::Waiting => Outcome::Waiting,
            Answer::Done => Outcome::Done,
            Answer::Refused(number) => Outcome::Refused(number),
        }
    }
}

impl Side for Model {
    fn make(buf: &mut [u8]) -> Outcome {
        outline_model::make(buf).into()
    }

    fn deliver(buf: &mut [u8], op: &[u8]) -> Outcome {
        outline_model::deliver(buf, op).into()
    }

    fn issue_add(buf: &mut [u8], replica: u8, parent: u16, out: &mut [u8]) -> Outcome {
        outline_model::issue_add(buf, replica, parent, out).into()
    }

    fn issue_remove(buf: &mut [u8], replica: u8, node: u16, out: &mut [u8]) -> Outcome {
        outline_model::issue_remove(buf, replica, node, out).into()
    }

    fn issue_move(buf: &mut [u8], replica: u8, node: u16, parent: u16, out: &mut [u8]) -> Outcome {
        outline_model::issue_move(buf, replica, node, parent, out).into()
    }

    fn issue_moves(
        buf: &mut [u8],
        replica: u8,
        nodes: &[u16],
        parent: u16,
        out: &mut [u8],
    ) -> Outcome {
        outline_model::issue_moves(buf, replica, nodes, parent, out).into()
    }

    fn judge(file: &[u8], parents: &mut [u16], outcomes: &mut [u8]) -> Outcome {
        outline_model::judge(file, parents, outcomes).into()
    }

    fn path(file: &[u8], node: u16, out: &mut [u16]) -> Outcome {
        outline_model::path(file, node, out).into()
    }

    fn listing(file: &[u8], view: View, out: &mut [u8]) -> Outcome {
        outline_model::listing(file, view, out).into()
    }

    fn listing_size(file: &[u8], view: View) -> Outcome {
        outline_model::listing_size(file, view).into()
    }

    fn is_sound(file: &[u8]) -> Outcome {
        truth(outline_model::is_sound(file))
    }

    fn end(file: &[u8]) -> Outcome {
        outline_model::file_end(file).into()
    }

    fn counts(file: &[u8], out: &mut [u8]) -> Outcome {
        outline_model::held_counts(file, out).into()
    }

    fn bundle_make(file: &[u8], counts: &Vector, out: &mut [u8]) -> Outcome {
        outline_model::make_bundle(file, *counts, out).into()
    }

    fn bundle_open(buf: &mut [u8], bundle: &[u8]) -> Outcome {
        outline_model::open_bundle(buf, bundle).into()
    }

    fn holdback_deliver(buf: &mut [u8], op: &[u8], holdback: &mut [u8]) -> Outcome {
        outline_model::deliver_holdback(buf, op, holdback).into()
    }

    fn page_deliver(buf: &mut [u8], op: &[u8], page: &mut Tables) -> Paged {
        told(outline_model::deliver_page(buf, op, lent(page)))
    }

    fn page_add(
        buf: &mut [u8],
        replica: u8,
        parent: u16,
        out: &mut [u8],
        page: &mut Tables,
    ) -> Paged {
        told(outline_model::issue_add_page(
            buf,
            replica,
            parent,
            out,
            lent(page),
        ))
    }

    fn page_remove(
        buf: &mut [u8],
        replica: u8,
        node: u16,
        out: &mut [u8],
        page: &mut Tables,
    ) -> Paged {
        told(outline_model::issue_remove_page(
            buf,
            replica,
            node,
            out,
            lent(page),
        ))
    }

    fn page_move(
        buf: &mut [u8],
        replica: u8,
        node: u16,
        parent: u16,
        out: &mut [u8],
        page: &mut Tables,
    ) -> Paged {
        told(outline_model::issue_move_page(
            buf,
            replica,
            node,
            parent,
            out,
            lent(page),
        ))
    }
}

/// The tables, as the model is lent them.
fn lent<'a>(page: &'a mut Tables) -> outline_model::Page<'a> {
    outline_model::Page {
        order: page.order,
        parents: page.parents,
        outcomes: page.outcomes,
    }
}

fn told((answer, taken_back): (Answer, usize)) -> Paged {
    (answer.into(), taken_back)
}

/// Fresh lent memory of a length, with content and guards by place and salt.
struct Lender {
    guards: Guards,
    salt: usize,
}

impl Lender {
    fn byte(&self, place: usize) -> u8 {
        (place.wrapping_mul(31) ^ self.salt) as u8
    }

    fn word(&self, place: usize) -> u16 {
        (place.wrapping_mul(40_503) ^ self.salt) as u16
    }

    fn bytes(&self, length: usize) -> Lent<u8> {
        let content: Vec<u8> = (0..length).map(|i| self.byte(!i)).collect();
        self.copy(&content)
    }

    fn copy(&self, content: &[u8]) -> Lent<u8> {
        Lent::new(content, self.guards, |i| self.byte(i))
    }

    fn words(&self, length: usize) -> Lent<u16> {
        let content: Vec<u16> = (0..length).map(|i| self.word(!i)).collect();
        self.copy_words(&content)
    }

    fn copy_words(&self, content: &[u16]) -> Lent<u16> {
        Lent::new(content, self.guards, |i| self.word(i))
    }

    fn page(&self, page: &Page) -> LentPage {
        LentPage {
            order: self.copy_words(&page.order),
            parents: self.copy_words(&page.parents),
            outcomes: self.copy(&page.outcomes),
        }
    }
}

/// The tables of a page, each with its own guards.
struct LentPage {
    order: Lent<u16>,
    parents: Lent<u16>,
    outcomes: Lent<u8>,
}

impl LentPage {
    fn tables(&mut self) -> Tables<'_> {
        Tables {
            order: self.order.get_mut(),
            parents: self.parents.get_mut(),
            outcomes: self.outcomes.get_mut(),
        }
    }
}

/// Makes a call at one side.
pub fn run<S: Side>(call: &Call, buffer: &mut Lent<u8>, guards: Guards, salt: usize) -> After {
    let lender = Lender { guards, salt };
    let (mut bytes, mut words) = (vec![], vec![]);
    let mut taken_back = 0;
    let buf = buffer.get_mut();
    // Of a call with a page: op or `out`, and the tables.
    let mut paged = |(outcome, taken): Paged, beside: Lent<u8>, page: LentPage| {
        taken_back = taken;
        bytes.extend([beside, page.outcomes]);
        words.extend([page.order, page.parents]);
        outcome
    };
    let outcome = match *call {
        Call::Make => S::make(buf),
        Call::Deliver(ref op) => {
            bytes.push(lender.copy(op));
            S::deliver(buf, bytes[0].get())
        }
        Call::Add {
            replica,
            parent,
            room,
        } => {
            bytes.push(lender.bytes(room));
            S::issue_add(buf, replica, parent, bytes[0].get_mut())
        }
        Call::Remove {
            replica,
            node,
            room,
        } => {
            bytes.push(lender.bytes(room));
            S::issue_remove(buf, replica, node, bytes[0].get_mut())
        }
        Call::Move {
            replica,
            node,
            parent,
            room,
        } => {
            bytes.push(lender.bytes(room));
            S::issue_move(buf, replica, node, parent, bytes[0].get_mut())
        }
        Call::Moves {
            replica,
            ref nodes,
            parent,
            room,
        } => {
            words.push(lender.copy_words(nodes));
            bytes.push(lender.bytes(room));
            S::issue_moves(buf, replica, words[0].get(), parent, bytes[0].get_mut())
        }
        Call::Judge { parents, outcomes } => {
            words.push(lender.words(parents));
            bytes.push(lender.bytes(outcomes));
            S::judge(buf, words[0].get_mut(), bytes[0].get_mut())
        }
        Call::Path { node, room } => {
            words.push(lender.words(room));
            S::path(buf, node, words[0].get_mut())
        }
        Call::Listing { view, room } => {
            bytes.push(lender.bytes(room));
            S::listing(buf, view, bytes[0].get_mut())
        }
        Call::Size { view } => S::listing_size(buf, view),
        Call::IsSound => S::is_sound(buf),
        Call::End => S::end(buf),
        Call::Counts { room } => {
            bytes.push(lender.bytes(room));
            S::counts(buf, bytes[0].get_mut())
        }
        Call::BundleMake { ref counts, room } => {
            let counts = lender.copy(counts);
            let eight = counts.get().try_into().expect("as many as were lent");
            let mut out = lender.bytes(room);
            let outcome = S::bundle_make(buf, eight, out.get_mut());
            bytes.extend([counts, out]);
            outcome
        }
        Call::BundleOpen(ref bundle) => {
            bytes.push(lender.copy(bundle));
            S::bundle_open(buf, bytes[0].get())
        }
        Call::HoldbackDeliver {
            ref op,
            ref holdback,
        } => {
            let op = lender.copy(op);
            let mut holdback = lender.copy(holdback);
            let outcome = S::holdback_deliver(buf, op.get(), holdback.get_mut());
            bytes.extend([op, holdback]);
            outcome
        }
        Call::PageDeliver { ref op, ref page } => {
            let (op, mut page) = (lender.copy(op), lender.page(page));
            let answer = S::page_deliver(buf, op.get(), &mut page.tables());
            paged(answer, op, page)
        }
        Call::PageAdd {
            replica,
            parent,
            room,
            ref page,
        } => {
            let (mut out, mut page) = (lender.bytes(room), lender.page(page));
            let answer = S::page_add(buf, replica, parent, out.get_mut(), &mut page.tables());
            paged(answer, out, page)
        }
        Call::PageRemove {
            replica,
            node,
            room,
            ref page,
        } => {
            let (mut out, mut page) = (lender.bytes(room), lender.page(page));
            let answer = S::page_remove(buf, replica, node, out.get_mut(), &mut page.tables());
            paged(answer, out, page)
        }
        Call::PageMove {
            replica,
            node,
            parent,
            room,
            ref page,
        } => {
            let (mut out, mut page) = (lender.bytes(room), lender.page(page));
            let mut tables = page.tables();
            let answer = S::page_move(buf, replica, node, parent, out.get_mut(), &mut tables);
            paged(answer, out, page)
        }
    };
    After {
        outcome,
        taken_back,
        bytes,
        words,
    }
}
