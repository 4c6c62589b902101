//! The calls of `include/outline.h`, on slices. This is the only module with
//! unsafe code.
//!
//! Each call asks of its pointers what a slice of that length has, that memory
//! which it may write overlaps no other, and nothing else. So a slice for every
//! pointer and length is enough, and an array for a pointer without a length.

#![allow(unsafe_code)]

use crate::answer::Answer;
use crate::plain::Tables;

mod c {
    extern "C" {
        pub fn outline_make(buf: *mut u8, buf_len: usize) -> usize;
        pub fn outline_is_sound(file: *const u8, file_len: usize) -> bool;
        pub fn outline_end(file: *const u8, file_len: usize) -> usize;
        pub fn outline_counts(
            file: *const u8,
            file_len: usize,
            out: *mut u8,
            out_len: usize,
        ) -> usize;
        pub fn outline_deliver(buf: *mut u8, buf_len: usize, op: *const u8, op_len: usize)
            -> usize;
        pub fn outline_holdback_deliver(
            buf: *mut u8,
            buf_len: usize,
            op: *const u8,
            op_len: usize,
            holdback: *mut u8,
            holdback_len: usize,
        ) -> usize;
        pub fn outline_bundle_make(
            file: *const u8,
            file_len: usize,
            counts: *const [u8; 8],
            out: *mut u8,
            out_len: usize,
        ) -> usize;
        pub fn outline_bundle_open(
            buf: *mut u8,
            buf_len: usize,
            bundle: *const u8,
            bundle_len: usize,
        ) -> usize;
        pub fn outline_issue_add(
            buf: *mut u8,
            buf_len: usize,
            replica: u8,
            parent: u16,
            out: *mut u8,
            out_len: usize,
        ) -> usize;
        pub fn outline_issue_remove(
            buf: *mut u8,
            buf_len: usize,
            replica: u8,
            node: u16,
            out: *mut u8,
            out_len: usize,
        ) -> usize;
        pub fn outline_issue_move(
            buf: *mut u8,
            buf_len: usize,
            replica: u8,
            node: u16,
            parent: u16,
            out: *mut u8,
            out_len: usize,
        ) -> usize;
        pub fn outline_issue_moves(
            buf: *mut u8,
            buf_len: usize,
            replica: u8,
            nodes: *const u16,
            nodes_len: usize,
            parent: u16,
            out: *mut u8,
            out_len: usize,
        ) -> usize;
        pub fn outline_judge(
            file: *const u8,
            file_len: usize,
            parents: *mut u16,
            parents_len: usize,
            outcomes: *mut u8,
            outcomes_len: usize,
        ) -> usize;
        pub fn outline_page_deliver(
            buf: *mut u8,
            buf_len: usize,
            op: *const u8,
            op_len: usize,
            order: *mut u16,
            order_len: usize,
            parents: *mut u16,
            parents_len: usize,
            outcomes: *mut u8,
            outcomes_len: usize,
        ) -> usize;
        pub fn outline_page_issue_add(
            buf: *mut u8,
            buf_len: usize,
            replica: u8,
            parent: u16,
            out: *mut u8,
            out_len: usize,
            order: *mut u16,
            order_len: usize,
            parents: *mut u16,
            parents_len: usize,
            outcomes: *mut u8,
            outcomes_len: usize,
        ) -> usize;
        pub fn outline_page_issue_remove(
            buf: *mut u8,
            buf_len: usize,
            replica: u8,
            node: u16,
            out: *mut u8,
            out_len: usize,
            order: *mut u16,
            order_len: usize,
            parents: *mut u16,
            parents_len: usize,
            outcomes: *mut u8,
            outcomes_len: usize,
        ) -> usize;
        pub fn outline_page_issue_move(
            buf: *mut u8,
            buf_len: usize,
            replica: u8,
            node: u16,
            parent: u16,
            out: *mut u8,
            out_len: usize,
            order: *mut u16,
            order_len: usize,
            parents: *mut u16,
            parents_len: usize,
            outcomes: *mut u8,
            outcomes_len: usize,
        ) -> usize;
        pub fn outline_path(
            file: *const u8,
            file_len: usize,
            node: u16,
            out: *mut u16,
            out_len: usize,
        ) -> usize;
        pub fn outline_listing_size(file: *const u8, file_len: usize, skipping: bool) -> usize;
        pub fn outline_listing(
            file: *const u8,
            file_len: usize,
            skipping: bool,
            out: *mut u8,
            out_len: usize,
        ) -> usize;
    }
}

#[inline]
pub fn make(buf: &mut [u8]) -> Answer {
    // SAFETY: pointer and length are those of a slice.
    Answer(unsafe { c::outline_make(buf.as_mut_ptr(), buf.len()) })
}

#[inline]
pub fn is_sound(file: &[u8]) -> bool {
    // SAFETY: pointer and length are those of a slice.
    unsafe { c::outline_is_sound(file.as_ptr(), file.len()) }
}

#[inline]
pub fn end(file: &[u8]) -> Answer {
    // SAFETY: pointer and length are those of a slice.
    Answer(unsafe { c::outline_end(file.as_ptr(), file.len()) })
}

#[inline]
pub fn counts(file: &[u8], out: &mut [u8]) -> Answer {
    let (out, out_len) = (out.as_mut_ptr(), out.len());
    // SAFETY: pointers and lengths are those of slices, which do not overlap.
    Answer(unsafe { c::outline_counts(file.as_ptr(), file.len(), out, out_len) })
}

#[inline]
pub fn deliver(buf: &mut [u8], op: &[u8]) -> Answer {
    let (op, op_len) = (op.as_ptr(), op.len());
    // SAFETY: pointers and lengths are those of slices, which do not overlap.
    Answer(unsafe { c::outline_deliver(buf.as_mut_ptr(), buf.len(), op, op_len) })
}

#[inline]
pub fn holdback_deliver(buf: &mut [u8], op: &[u8], holdback: &mut [u8]) -> Answer {
    let (buf, buf_len) = (buf.as_mut_ptr(), buf.len());
    let (op, op_len) = (op.as_ptr(), op.len());
    let (holdback, holdback_len) = (holdback.as_mut_ptr(), holdback.len());
    // SAFETY: pointers and lengths are those of slices, which do not overlap.
    Answer(unsafe { c::outline_holdback_deliver(buf, buf_len, op, op_len, holdback, holdback_len) })
}

#[inline]
pub fn bundle_make(file: &[u8], counts: &[u8; 8], out: &mut [u8]) -> Answer {
    let (out, out_len) = (out.as_mut_ptr(), out.len());
    // SAFETY: pointers and lengths are those of slices, which do not overlap, and
    // the counts are eight.
    Answer(unsafe { c::outline_bundle_make(file.as_ptr(), file.len(), counts, out, out_len) })
}

#[inline]
pub fn bundle_open(buf: &mut [u8], bundle: &[u8]) -> Answer {
    let (bundle, bundle_len) = (bundle.as_ptr(), bundle.len());
    // SAFETY: pointers and lengths are those of slices, which do not overlap.
    Answer(unsafe { c::outline_bundle_open(buf.as_mut_ptr(), buf.len(), bundle, bundle_len) })
}

#[inline]
pub fn issue_add(buf: &mut [u8], replica: u8, parent: u16, out: &mut [u8]) -> Answer {
    let (buf, buf_len) = (buf.as_mut_ptr(), buf.len());
    let (out, out_len) = (out.as_mut_ptr(), out.len());
    // SAFETY: pointers and lengths are those of slices, which do not overlap.
    Answer(unsafe { c::outline_issue_add(buf, buf_len, replica, parent, out, out_len) })
}

#[inline]
pub fn issue_remove(buf: &mut [u8], replica: u8, node: u16, out: &mut [u8]) -> Answer {
    let (buf, buf_len) = (buf.as_mut_ptr(), buf.len());
    let (out, out_len) = (out.as_mut_ptr(), out.len());
    // SAFETY: pointers and lengths are those of slices, which do not overlap.
    Answer(unsafe { c::outline_issue_remove(buf, buf_len, replica, node, out, out_len) })
}

#[inline]
pub fn issue_move(buf: &mut [u8], replica: u8, node: u16, parent: u16, out: &mut [u8]) -> Answer {
    let (buf, buf_len) = (buf.as_mut_ptr(), buf.len());
    let (out, out_len) = (out.as_mut_ptr(), out.len());
    // SAFETY: pointers and lengths are those of slices, which do not overlap.
    Answer(unsafe { c::outline_issue_move(buf, buf_len, replica, node, parent, out, out_len) })
}

#[inline]
pub fn issue_moves(
    buf: &mut [u8],
    replica: u8,
    nodes: &[u16],
    parent: u16,
    out: &mut [u8],
) -> Answer {
    let (buf, buf_len) = (buf.as_mut_ptr(), buf.len());
    let (nodes, nodes_len) = (nodes.as_ptr(), nodes.len());
    let (out, out_len) = (out.as_mut_ptr(), out.len());
    // SAFETY: pointers and lengths are those of slices, which do not overlap.
    Answer(unsafe {
        c::outline_issue_moves(
            buf, buf_len, replica, nodes, nodes_len, parent, out, out_len,
        )
    })
}

#[inline]
pub fn judge(file: &[u8], parents: &mut [u16], outcomes: &mut [u8]) -> Answer {
    let (file, file_len) = (file.as_ptr(), file.len());
    let (parents, parents_len) = (parents.as_mut_ptr(), parents.len());
    let (outcomes, outcomes_len) = (outcomes.as_mut_ptr(), outcomes.len());
    // SAFETY: pointers and lengths are those of slices, which do not overlap.
    Answer(unsafe {
        c::outline_judge(file, file_len, parents, parents_len, outcomes, outcomes_len)
    })
}

#[inline]
pub fn page_deliver(buf: &mut [u8], op: &[u8], page: &mut Tables<'_>) -> Answer {
    let (order, parents, outcomes) = (&mut *page.order, &mut *page.parents, &mut *page.outcomes);
    // SAFETY: pointers and lengths are those of slices, which do not overlap.
    Answer(unsafe {
        c::outline_page_deliver(
            buf.as_mut_ptr(),
            buf.len(),
            op.as_ptr(),
            op.len(),
            order.as_mut_ptr(),
            order.len(),
            parents.as_mut_ptr(),
            parents.len(),
            outcomes.as_mut_ptr(),
            outcomes.len(),
        )
    })
}

#[inline]
pub fn page_issue_add(
    buf: &mut [u8],
    replica: u8,
    parent: u16,
    out: &mut [u8],
    page: &mut Tables<'_>,
) -> Answer {
    let (order, parents, outcomes) = (&mut *page.order, &mut *page.parents, &mut *page.outcomes);
    // SAFETY: pointers and lengths are those of slices, which do not overlap.
    Answer(unsafe {
        c::outline_page_issue_add(
            buf.as_mut_ptr(),
            buf.len(),
            replica,
            parent,
            out.as_mut_ptr(),
            out.len(),
            order.as_mut_ptr(),
            order.len(),
            parents.as_mut_ptr(),
            parents.len(),
            outcomes.as_mut_ptr(),
            outcomes.len(),
        )
    })
}

#[inline]
pub fn page_issue_remove(
    buf: &mut [u8],
    replica: u8,
    node: u16,
    out: &mut [u8],
    page: &mut Tables<'_>,
) -> Answer {
    let (order, parents, outcomes) = (&mut *page.order, &mut *page.parents, &mut *page.outcomes);
    // SAFETY: pointers and lengths are those of slices, which do not overlap.
    Answer(unsafe {
        c::outline_page_issue_remove(
            buf.as_mut_ptr(),
            buf.len(),
            replica,
            node,
            out.as_mut_ptr(),
            out.len(),
            order.as_mut_ptr(),
            order.len(),
            parents.as_mut_ptr(),
            parents.len(),
            outcomes.as_mut_ptr(),
            outcomes.len(),
        )
    })
}

#[inline]
pub fn page_issue_move(
    buf: &mut [u8],
    replica: u8,
    node: u16,
    parent: u16,
    out: &mut [u8],
    page: &mut Tables<'_>,
) -> Answer {
    let (order, parents, outcomes) = (&mut *page.order, &mut *page.parents, &mut *page.outcomes);
    // SAFETY: pointers and lengths are those of slices, which do not overlap.
    Answer(unsafe {
        c::outline_page_issue_move(
            buf.as_mut_ptr(),
            buf.len(),
            replica,
            node,
            parent,
            out.as_mut_ptr(),
            out.len(),
            order.as_mut_ptr(),
            order.len(),
            parents.as_mut_ptr(),
            parents.len(),
            outcomes.as_mut_ptr(),
            outcomes.len(),
        )
    })
}

#[inline]
pub fn path(file: &[u8], node: u16, out: &mut [u16]) -> Answer {
    let (out, out_len) = (out.as_mut_ptr(), out.len());
    // SAFETY: pointers and lengths are those of slices, which do not overlap.
    Answer(unsafe { c::outline_path(file.as_ptr(), file.len(), node, out, out_len) })
}

#[inline]
pub fn listing_size(file: &[u8], skipping: bool) -> Answer {
    // SAFETY: pointer and length are those of a slice.
    Answer(unsafe { c::outline_listing_size(file.as_ptr(), file.len(), skipping) })
}

#[inline]
pub fn listing(file: &[u8], skipping: bool, out: &mut [u8]) -> Answer {
    let (out, out_len) = (out.as_mut_ptr(), out.len());
    // SAFETY: pointers and lengths are those of slices, which do not overlap.
    Answer(unsafe { c::outline_listing(file.as_ptr(), file.len(), skipping, out, out_len) })
}
