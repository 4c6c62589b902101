//! A disk that is full.

use crate::common::{Folder, SEAT};
use std::process::{Command, Output};

/// Runs a script in a folder, with `seat` as its first argument.
fn script(folder: &Folder, wrapper: &[&str], script: &str) -> Output {
    let shell = ["bash", "-c", script, "bash", SEAT];
    let mut words = wrapper.iter().chain(&shell);
    let mut command = Command::new(words.next().expect("a program"));
    let output = command
        .args(words)
        .current_dir(folder.path())
        .env("SEAT", "1")
        .output();
    output.expect("the script runs")
}

/// No file may grow beyond nothing: what a full disk does to a write, wherever a small
/// file system cannot be made.
#[test]
fn a_write_that_fails_leaves_the_old_file() {
    let folder = Folder::new();
    for name in ["a", "b"] {
        folder.done(&format!("new {name}"));
    }
    folder.done("add a 0");
    folder.done("bundle a --out bundle");
    let before = folder.files();
    for line in [
        "add a 0",
        "add a 0 --out op",
        "meet a b",
        "open b bundle",
        "new c",
        "new --force a",
        "post a tray bundle bundle",
        "draw a --out svg",
    ] {
        let limited = format!("trap '' XFSZ; ulimit -f 0; \"$1\" {line}");
        let output = script(&folder, &[], &limited);
        let told = String::from_utf8_lossy(&output.stderr);
        match line.starts_with("post") {
            // Refused before anything is written.
            true => assert_eq!(output.status.code(), Some(1), "{line}: {told}"),
            false => {
                assert_eq!(output.status.code(), Some(3), "{line}: {told}");
                assert!(told.contains("File too large"), "{line}: {told}");
            }
        }
        assert_eq!(folder.files(), before, "{line}");
    }
}

/// A file system of 32 KiB, which is full but for what the script takes away again.
const SMALL: &str = r#"
mkdir disk && mount -t tmpfs -o size=32k none disk && cd disk || exit 99
set -e
"$1" new a && "$1" new b && "$1" add a 0
cp a ../a.before; cp b ../b.before
cat /dev/zero >fill || true
for line in 'add a 0' 'meet a b' 'new c' 'new --force a' 'draw a --out svg' 'add a 0 --out op'; do
  status=0; "$1" $line 2>told || status=$?
  [ $status = 3 ] || { echo "$line ends with $status"; exit 1; }
  cmp a ../a.before; cmp b ../b.before
  [ "$(ls -A)" = "$(printf 'a\nb\nfill\ntold')" ] || { ls -A; exit 1; }
done
rm fill
"$1" meet a b && cmp a b
echo held
"#;

#[test]
fn a_full_file_system_leaves_the_old_files() {
    let folder = Folder::new();
    let output = script(&folder, &["unshare", "--map-root-user", "--mount"], SMALL);
    let (out, err) = (
        String::from_utf8_lossy(&output.stdout),
        String::from_utf8_lossy(&output.stderr),
    );
    let denied = output.status.code() == Some(99) || err.contains("unshare failed");
    if denied {
        // Not on every machine may a program mount; the other tests here hold there too.
        println!("no file system of its own: {err}");
        return;
    }
    assert!(out.ends_with("held\n"), "{out}{err}");
}

#[test]
fn a_full_standard_output_is_told() {
    let folder = Folder::new();
    folder.done("new a");
    for line in [
        "list a",
        "check a",
        "ops a",
        "draw a",
        "bundle a",
        "--help",
        "add --help",
        "--version",
        "new -",
        "add - 0 <a",
        "compare a a",
    ] {
        let output = script(&folder, &[], &format!("\"$1\" {line} >/dev/full"));
        let told = String::from_utf8_lossy(&output.stderr);
        assert_eq!(output.status.code(), Some(3), "{line}: {told}");
        assert!(told.contains("seat: standard output"), "{line}: {told}");
        // One that is closed is like the null device: no file can come to stand there.
        let output = script(&folder, &[], &format!("\"$1\" {line} >&- 2>&-"));
        assert_eq!(output.status.code(), Some(0), "{line}");
    }
    assert_eq!(folder.read("a").len(), 32);
    // What was done stays done, and the message says what failed.
    let output = script(&folder, &[], "\"$1\" add a 0 >/dev/full");
    let told = String::from_utf8_lossy(&output.stderr);
    assert_eq!(output.status.code(), Some(3));
    assert!(told.contains("after the change was made"), "{told}");
    assert_eq!(folder.read("a").len(), 46);
}

/// What goes to standard output goes before what goes into files beside it: an op that
/// waited stays in its tray, and no op is handed on that its outline lacks.
#[test]
fn nothing_is_lost_where_a_changed_file_cannot_be_printed() {
    let folder = Folder::new();
    for line in [
        "new a",
        "add a 0 --out 1",
        "add a 257 --out 2",
        "new b",
        "post b tray 2",
    ] {
        folder.done(line);
    }
    let before = folder.files();
    for line in [
        "post - tray 1 <b",
        "add --out 3 - 0 <a",
        "meet - b <a",
        "open - b <a",
    ] {
        let output = script(&folder, &[], &format!("\"$1\" {line} >/dev/full"));
        assert!(matches!(output.status.code(), Some(1 | 3)), "{line}");
        assert_eq!(folder.files(), before, "{line}");
    }
    // A file that the shell has emptied is told, and not taken for a new one.
    let output = script(&folder, &[], "cp a c; \"$1\" add - 0 <c >c");
    assert_eq!(output.status.code(), Some(3));
    // The other way round: the log is changed by then, and that is told.
    let output = script(&folder, &[], "\"$1\" column --out - a 0 2>&1 >/dev/full");
    assert_eq!(
        (output.status.code(), &output.stdout[..]),
        (Some(0), &b"nothing to move\n"[..])
    );
    let output = script(&folder, &[], "\"$1\" add --out - a 0 >/dev/full");
    let told = String::from_utf8_lossy(&output.stderr);
    assert_eq!(output.status.code(), Some(3));
    assert!(told.ends_with("; changed by then: a\n"), "{told}");
}
