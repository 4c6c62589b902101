//! Path, listing and the `outline` program.

use crate::calls::{answer, open};
use crate::tree::{slot_of, Tree, SLOTS};
use crate::{refusal, Answer, Knowledge, Log};

#[derive(Clone, Copy, PartialEq, Eq, Debug)]
pub enum View {
    /// Shows a node if it or some node below it is unmarked.
    Keeping,
    /// Shows a node if neither it nor any node above it is marked.
    Skipping,
}

/// The node, its parent, and so on to the root.
pub fn path(file: &[u8], node: u16, out: &mut [u16]) -> Answer {
    answer(try_path(file, node, out))
}

fn try_path(file: &[u8], node: u16, out: &mut [u16]) -> Result<Answer, u8> {
    let log = open(file)?;
    if node != 0 && !log.knowledge(&log.held(), node).is_known() {
        return Err(refusal::UNKNOWN);
    }
    let path: Vec<u16> = Tree::judge(&log).path(node).collect();
    put(&path, out)
}

/// The lines of a view.
pub fn listing(file: &[u8], view: View, out: &mut [u8]) -> Answer {
    answer(open(file).and_then(|log| put(&lines(&log, view), out)))
}

/// How many bytes the lines of a view have.
pub fn listing_size(file: &[u8], view: View) -> Answer {
    answer(open(file).map(|log| Answer::Count(lines(&log, view).len())))
}

/// Test 8, then the written part.
pub(crate) fn put<T: Copy>(written: &[T], out: &mut [T]) -> Result<Answer, u8> {
    let lent = out.get_mut(..written.len()).ok_or(refusal::ROOM)?;
    lent.copy_from_slice(written);
    Ok(Answer::Count(written.len()))
}

/// What the program `outline` prints for this input.
pub fn outline(input: &[u8]) -> Vec<u8> {
    match read_input(input) {
        Some(log) => lines(&log, View::Keeping),
        None => b"refused 1\n".to_vec(),
    }
}

/// The program reads an input of no bytes as the log without ops. In the library
/// a buffer of length zero remains unsound: nothing could be written there.
fn read_input(input: &[u8]) -> Option<Log> {
    if input.is_empty() {
        return Some(Log::default());
    }
    // The program alone refuses bytes past the end.
    Log::open(input).filter(|log| log.end() == input.len())
}

fn lines(log: &Log, view: View) -> Vec<u8> {
    let tree = Tree::judge(log);
    let marks = marks(log, &tree);
    let shown = shown(&tree, &marks, view);
    let children = children(&tree);
    let mut text = Vec::new();
    // A stack instead of recursion: a tree may be 2,040 deep.
    let mut waiting = vec![(0, 0)];
    while let Some((depth, node)) = waiting.pop() {
        // What hangs below a hidden node is hidden too, in both views.
        if shown[slot_of(node)] {
            let mark = if marks[slot_of(node)] { 'r' } else { 'k' };
            text.extend(format!("{depth} {node} {mark}\n").bytes());
            let below = children[slot_of(node)].iter().rev();
            waiting.extend(below.map(|&child| (depth + 1, child)));
        }
    }
    text
}

/// Children by slot of the parent, in rising number.
fn children(tree: &Tree) -> Vec<Vec<u16>> {
    let mut children = vec![Vec::new(); SLOTS];
    for node in tree.nodes() {
        children[slot_of(tree.parents[slot_of(node)])].push(node);
    }
    children
}

/// Which slots have a marked node.
fn marks(log: &Log, tree: &Tree) -> Vec<bool> {
    let mut marks = vec![false; SLOTS];
    for node in tree.nodes() {
        marks[slot_of(node)] = log.knowledge(&log.held(), node) == Knowledge::Marked;
    }
    marks
}

/// Which slots the view shows; the root always is.
fn shown(tree: &Tree, marks: &[bool], view: View) -> Vec<bool> {
    let mut shown = vec![false; SLOTS];
    shown[0] = true;
    for node in tree.nodes() {
        match view {
            View::Keeping if !marks[slot_of(node)] => {
                for above in tree.path(node) {
                    shown[slot_of(above)] = true;
                }
            }
            View::Keeping => {}
            View::Skipping => {
                shown[slot_of(node)] = !tree.path(node).any(|above| marks[slot_of(above)]);
            }
        }
    }
    shown
}
