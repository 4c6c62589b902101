//! Looking.

use crate::foreseen::{checked, joined, judged, listed, path_of};
use crate::play::Play;
use crate::said::Done;
use outline_model::View;

impl Play {
    /// One of five ways to look at a log.
    pub fn look(&mut self, seat: u8, way: usize) {
        let file = self.file(seat);
        let (operand, input) = self.operand(seat);
        let (line, text) = match way {
            0 => (format!("check --plain {operand}"), checked(&file)),
            1 => (
                format!("list --plain {operand}"),
                listed(&file, View::Keeping),
            ),
            2 => (
                format!("list --plain --skipping {operand}"),
                listed(&file, View::Skipping),
            ),
            3 => {
                let node = self.some_node(&file);
                (
                    format!("path --plain {operand} {node}"),
                    path_of(&file, node).map(joined),
                )
            }
            _ => (format!("ops --plain {operand}"), judged(&file)),
        };
        self.play(&format!("{line}{input}"), text.map(Done::text));
    }

    pub fn look_all(&mut self, seat: u8) {
        for way in 0..5 {
            self.look(seat, way);
        }
    }
}
