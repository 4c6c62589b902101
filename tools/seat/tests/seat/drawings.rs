//! Drawings: what stands in them. How they look was looked at.

use crate::common::Folder;

/// A removed node, and two moves of which one is left out; a third that gives way.
fn drawn(options: &str) -> String {
    let folder = Folder::new();
    for line in [
        "new a",
        "add a 0",
        "add a 0",
        "add a 257",
        "remove a 259",
        "new b",
        "meet a b",
        "move a 258 257",
        "move b 257 258 --as 2",
        "new c",
        "meet b c",
        "move c 257 0 --as 3",
        "move b 257 0 --as 2",
        "meet a b c",
    ] {
        folder.done(line);
    }
    folder.done(&format!("draw a{options}"))
}

fn count(svg: &str, part: &str) -> usize {
    svg.matches(part).count()
}

#[test]
fn every_node_has_a_box_and_a_line_to_its_parent() {
    let svg = drawn("");
    // The paper, and the root with three nodes; three edges, and a node struck through.
    assert_eq!(
        (count(&svg, "<rect "), count(&svg, "<path ")),
        (5, 4),
        "{svg}"
    );
    for name in ["root", "257", "258", "259"] {
        assert_eq!(count(&svg, &format!(">{name}</text>")), 1, "{name}");
    }
    assert_eq!(
        (count(&svg, "stroke-dasharray"), count(&svg, "lost")),
        (0, 1)
    );
    assert_eq!(svg, drawn(""));
}

#[test]
fn the_moves_that_lost_are_drawn_with_the_reason() {
    let svg = drawn(" --moves");
    assert_eq!(count(&svg, "stroke-dasharray"), 2, "{svg}");
    for text in [
        "1:5: 258 under 257",
        "left out, 257 was 1 below 258 (outcome 3)",
        "2:2: 257 under 0",
        "gave way to 3:1 (outcome 2)",
    ] {
        assert_eq!(count(&svg, &format!(">{text}</text>")), 1, "{text}: {svg}");
    }
    for seat in 1..=3 {
        assert_eq!(count(&svg, &format!(">seat {seat}</text>")), 1, "{svg}");
    }
}

#[test]
fn every_line_is_an_element_of_its_own() {
    let svg = drawn(" --moves");
    let lines: Vec<&str> = svg.lines().collect();
    let [first, inner @ .., last] = &lines[..] else {
        panic!("{svg}");
    };
    assert!(first.starts_with("<svg xmlns=\"http://www.w3.org/2000/svg\" ") && *last == "</svg>");
    for line in inner {
        let name = line
            .trim_start_matches('<')
            .split([' ', '>'])
            .next()
            .unwrap_or_default();
        let closed = line.ends_with("/>") || line.ends_with(&format!("</{name}>"));
        assert!(
            line.starts_with('<') && closed && count(line, "\"").is_multiple_of(2),
            "{line}"
        );
    }
}
