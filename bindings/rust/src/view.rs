//! Views and listings.

use crate::plain::LONGEST_LISTING;
use crate::Node;
use core::borrow::Borrow;
use core::fmt;
use core::iter::FusedIterator;

/// Which nodes a listing shows. The root is always shown.
#[derive(Clone, Copy, PartialEq, Eq, Hash, Debug)]
pub enum View {
    /// A node is shown if it or some node below it is not removed.
    Keeping,
    /// A node is shown if neither it nor any node above it is removed.
    Skipping,
}

/// A line of a listing: a node that the view shows.
#[derive(Clone, Copy, PartialEq, Eq, Hash, Debug)]
pub struct Line {
    /// Steps to the root.
    pub depth: usize,
    /// The node.
    pub node: Node,
    /// Whether it is removed.
    pub removed: bool,
}

impl Line {
    /// Reads a line without its line feed.
    fn read(line: &[u8]) -> Option<Line> {
        let mut words = core::str::from_utf8(line).ok()?.split(' ');
        Some(Line {
            depth: words.next()?.parse().ok()?,
            node: Node::from_number(words.next()?.parse().ok()?)?,
            removed: words.next()? == "r",
        })
    }
}

impl fmt::Display for Line {
    /// As the listing has it, without a line feed.
    fn fmt(&self, f: &mut fmt::Formatter<'_>) -> fmt::Result {
        let mark = if self.removed { 'r' } else { 'k' };
        write!(f, "{} {} {mark}", self.depth, self.node)
    }
}

/// The text of a view, as the program `outline` prints it: a line for each node
/// that is shown, children after their parent in rising number.
///
/// [`Log::listing`](crate::Log::listing) makes it. It has room for the longest,
/// 24,492 bytes.
#[derive(Clone)]
pub struct Listing {
    text: [u8; LONGEST_LISTING],
    length: usize,
}

impl Listing {
    /// Has `write` put the text down and say its length.
    pub(crate) fn new(write: impl FnOnce(&mut [u8]) -> usize) -> Listing {
        let mut text = [0; LONGEST_LISTING];
        let length = write(&mut text);
        Listing { text, length }
    }

    /// The text, each line with its line feed.
    pub fn as_str(&self) -> &str {
        core::str::from_utf8(&self.text[..self.length]).expect("digits, spaces and letters")
    }

    /// What the lines say.
    pub fn lines(&self) -> Lines<&Listing> {
        Lines::new(self)
    }
}

impl AsRef<str> for Listing {
    fn as_ref(&self) -> &str {
        self.as_str()
    }
}

impl PartialEq for Listing {
    fn eq(&self, other: &Listing) -> bool {
        self.as_str() == other.as_str()
    }
}

impl Eq for Listing {}

impl fmt::Display for Listing {
    fn fmt(&self, f: &mut fmt::Formatter<'_>) -> fmt::Result {
        f.write_str(self.as_str())
    }
}

impl fmt::Debug for Listing {
    fn fmt(&self, f: &mut fmt::Formatter<'_>) -> fmt::Result {
        f.debug_list().entries(self.lines()).finish()
    }
}

impl<'a> IntoIterator for &'a Listing {
    type Item = Line;
    type IntoIter = Lines<&'a Listing>;

    fn into_iter(self) -> Lines<&'a Listing> {
        self.lines()
    }
}

impl IntoIterator for Listing {
    type Item = Line;
    type IntoIter = Lines<Listing>;

    fn into_iter(self) -> Lines<Listing> {
        Lines::new(self)
    }
}

/// The lines of a listing, which it borrows or has: see [`Listing::lines`] and
/// [`Log::lines`](crate::Log::lines).
#[derive(Clone, Debug)]
pub struct Lines<L> {
    listing: L,
    at: usize,
}

impl<L> Lines<L> {
    fn new(listing: L) -> Lines<L> {
        Lines { listing, at: 0 }
    }
}

impl<L: Borrow<Listing>> Iterator for Lines<L> {
    type Item = Line;

    fn next(&mut self) -> Option<Line> {
        let listing = self.listing.borrow();
        let rest = &listing.text[self.at..listing.length];
        let length = rest.iter().position(|&byte| byte == b'\n')?;
        self.at += length + 1;
        Some(Line::read(&rest[..length]).expect("a listing has such lines alone"))
    }
}

impl<L: Borrow<Listing>> FusedIterator for Lines<L> {}
