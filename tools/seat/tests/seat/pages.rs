//! The page for editors, and the examples of the help: every command is run, and
//! prints what the page says.

use crate::common::{repository, Folder, SEAT};
use std::fs;
use std::path::Path;
use std::process::Command;

/// Runs a command as a shell does, and says what it printed, also as trouble.
fn shell(folder: &Folder, line: &str) -> (Option<i32>, String) {
    let bin = Path::new(SEAT)
        .parent()
        .expect("a folder")
        .display()
        .to_string();
    let path = format!("{bin}:{}", std::env::var("PATH").unwrap_or_default());
    let mut command = Command::new("bash");
    command.args(["-c", &format!("exec 2>&1; {line}")]);
    command
        .current_dir(folder.path())
        .env("PATH", path)
        .env_remove("SEAT");
    let output = command.output().expect("a shell");
    (
        output.status.code(),
        String::from_utf8_lossy(&output.stdout).into_owned(),
    )
}

/// The commands of a page, each with what it prints: lines that are set in by four,
/// the command behind a dollar.
fn commands(page: &str) -> Vec<(String, String)> {
    let mut commands: Vec<(String, String)> = Vec::new();
    let mut open = false;
    for line in page.lines() {
        let Some(line) = line.strip_prefix("    ") else {
            open = false;
            continue;
        };
        match (line.strip_prefix("$ "), commands.last_mut()) {
            (Some(command), _) => {
                commands.push((command.to_owned(), String::new()));
                open = true;
            }
            (None, Some((_, printed))) if open => *printed += &format!("{line}\n"),
            _ => {}
        }
    }
    commands
}

#[test]
fn the_page_for_editors_says_what_is_printed() {
    let page = fs::read_to_string(repository("docs/SEAT.md")).expect("the page");
    let commands = commands(&page);
    assert!(commands.len() > 20, "{} commands", commands.len());
    let folder = Folder::new();
    for (command, printed) in commands {
        let (_, said) = shell(&folder, &command);
        assert_eq!(said, printed, "{command}");
    }
    // The drawing on the page is the one that the program drew.
    let drawing = fs::read(repository("docs/seat.svg")).expect("the drawing");
    assert_eq!(folder.read("meeting.svg"), drawing);
}

#[test]
fn the_first_screen_says_what_is_printed() {
    let page = fs::read_to_string(repository("README.md")).expect("the first page");
    let folder = Folder::new();
    let mut printed = String::new();
    for command in page.lines().filter_map(|line| line.strip_prefix("    ")) {
        if command.starts_with("seat ") {
            let (status, said) = shell(&folder, command);
            assert_eq!(status, Some(0), "{command}: {said}");
            printed = said;
        }
    }
    let table = page
        .lines()
        .skip_while(|line| !line.starts_with("    op   kind"));
    let table = table.map_while(|line| line.strip_prefix("    "));
    let table: String = table.map(|line| format!("{line}\n")).collect();
    assert!(
        table.lines().count() == 5 && printed.ends_with(&table),
        "{printed}"
    );
    assert_eq!(folder.read("ann.outline"), folder.read("bob.outline"));
}

#[test]
fn the_examples_of_the_help_work() {
    let overview = Folder::new().done("--help");
    let names = overview
        .lines()
        .skip_while(|line| *line != "Commands:")
        .skip(1);
    let names: Vec<&str> = names
        .map_while(|line| line.strip_prefix("  ")?.split(' ').next())
        .collect();
    assert_eq!(names.len(), 15, "{names:?}");
    for name in names {
        let folder = Folder::new();
        let help = folder.done(&format!("{name} --help"));
        assert!(help.starts_with(&format!("usage: seat {name} ")), "{help}");
        let (_, example) = help.split_once("\nExample:\n").expect("an example");
        assert!(example.contains(&format!("seat {name} ")), "{example}");
        for line in example.lines() {
            let (status, said) = shell(&folder, line.trim());
            assert_eq!(status, Some(0), "{line}: {said}");
        }
    }
}
