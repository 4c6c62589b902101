//! Names of files are any bytes, and files are of many sorts.

use crate::common::{Folder, SEAT};
use std::ffi::{OsStr, OsString};
use std::fs::{self, Permissions};
use std::io::{BufRead, BufReader};
use std::os::unix::ffi::{OsStrExt, OsStringExt};
use std::os::unix::fs::{chown, symlink, MetadataExt, PermissionsExt};
use std::process::{Command, Stdio};
use std::thread;

/// Spaces, bytes that are no UTF-8, what could be an option, a line feed.
const NAMES: [&[u8]; 6] = [
    b"parish news.outline",
    b"\xff\xfe.outline",
    b"--force",
    b"two\nlines",
    b"F\xc3\xaate",
    b"-x",
];

#[test]
fn names_with_spaces_and_bytes_that_are_no_utf8() {
    let folder = Folder::new();
    let names = NAMES.map(OsStr::from_bytes);
    let asked = |before: &[&str], names: &[&OsStr], after: &[&str]| {
        let (before, after) = (before.iter().map(OsStr::new), after.iter().map(OsStr::new));
        let ran = folder.run(before.chain(names.iter().copied()).chain(after));
        assert_eq!(ran.status, Some(0), "{ran:?}");
    };
    for name in names {
        asked(&["new", "--"], &[name], &[]);
        asked(&["add", "--"], &[name], &["0"]);
        assert_eq!(folder.read(name).len(), 46);
    }
    // Each has an op 1:1 of its own making, and they are the same.
    asked(&["meet", "--"], &names, &[]);
    assert_eq!(folder.files().len(), names.len());
    // What a terminal could take for a command is not printed as it is.
    let ran = folder.run([OsStr::new("check"), OsStr::from_bytes(b"\x1b[2J\xff")]);
    assert_eq!(ran.status, Some(3));
    let told = "seat: \\u{1b}[2J\\xff: No such file";
    assert!(ran.err.starts_with(told), "{}", ran.err);
}

#[test]
fn a_link_stays_and_what_it_names_is_changed() {
    let folder = Folder::new();
    fs::create_dir(folder.path().join("archive")).unwrap();
    folder.done("new archive/news");
    symlink("archive/news", folder.path().join("link")).unwrap();
    folder.done("add link 0");
    assert!(fs::symlink_metadata(folder.path().join("link"))
        .unwrap()
        .is_symlink());
    assert_eq!(folder.read("archive/news").len(), 46);
    // One file under two names is one file.
    let ran = folder.run(["meet", "link", "archive/news"]);
    assert_eq!(ran.status, Some(2), "{ran:?}");
    symlink("nowhere", folder.path().join("dangling")).unwrap();
    assert_eq!(folder.run(["add", "dangling", "0"]).status, Some(3));
    assert_eq!(folder.run(["new", "dangling"]).status, Some(3));
}

#[test]
fn permissions_stay_and_a_read_only_file_is_left() {
    let folder = Folder::new();
    folder.done("new news");
    let path = folder.path().join("news");
    fs::set_permissions(&path, Permissions::from_mode(0o640)).unwrap();
    folder.done("add news 0");
    assert_eq!(
        fs::metadata(&path).unwrap().permissions().mode() & 0o777,
        0o640
    );
    fs::set_permissions(&path, Permissions::from_mode(0o440)).unwrap();
    let before = folder.files();
    for line in ["add news 0", "new --force news", "meet news other"] {
        folder.write("other", b"");
        let ran = folder.run(line.split(' '));
        assert_eq!(ran.status, Some(3), "{line}: {ran:?}");
        assert!(ran.err.contains("news: read-only"), "{line}: {}", ran.err);
        fs::remove_file(folder.path().join("other")).unwrap();
    }
    assert_eq!(folder.files(), before);
}

#[test]
fn what_is_no_file_is_told() {
    let folder = Folder::new();
    fs::create_dir(folder.path().join("folder")).unwrap();
    for line in [
        "list folder",
        "add folder 0",
        "new folder",
        "new --force folder",
        "new missing/news",
        "add missing 0",
        "list missing",
        "new folder/..",
        "new news/",
        "new news/.",
        "draw --out folder folder",
    ] {
        let ran = folder.run(line.split(' '));
        assert_eq!(ran.status, Some(3), "{line}: {ran:?}");
    }
    for device in ["/dev/null", "/dev/zero", "/dev/full"] {
        let ran = folder.run(["new", "--force", device]);
        assert_eq!(ran.status, Some(3), "{device}: {ran:?}");
    }
    assert!(folder.files().is_empty());
    // No bytes are an outline without ops; bytes without end are none.
    assert_eq!(folder.done("list /dev/null"), "0\n");
    folder.refused(1, "list /dev/zero");
    // The longest name has no room beside it.
    let long = OsString::from_vec(vec![b'n'; 255]);
    let ran = folder.run([OsStr::new("new"), &long]);
    assert_eq!(ran.status, Some(3), "{ran:?}");
}

#[test]
fn standard_input_and_output() {
    let folder = Folder::new();
    let empty = folder.run(["new", "-"]);
    folder.done("new news");
    assert_eq!(empty.out, folder.read("news"));
    let ran = folder.run_with(["add", "-", "0"], &empty.out);
    folder.done("add news 0");
    assert_eq!(
        (&ran.out, &ran.err[..]),
        (&folder.read("news"), "1:1 added 257 under 0\n")
    );
    let listed = folder.run_with(["list", "-"], &ran.out);
    assert_eq!(listed.text(), "0\n  257\n");
    // One stands for standard input, and the other one is a file.
    folder.done("new other");
    let met = folder.run_with(["meet", "-", "other"], &ran.out);
    assert_eq!((met.status, &met.out), (Some(0), &ran.out));
    assert_eq!(folder.read("other"), ran.out);
    for line in [
        "meet - -",
        "compare - -",
        "open - -",
        "post - tray -",
        "add --out - - 0",
        "bundle --for-file - -",
    ] {
        let ran = folder.run_with(line.split(' '), &ran.out);
        assert_eq!(
            (ran.status, ran.out.len()),
            (Some(2), 0),
            "{line}: {}",
            ran.err
        );
    }
    let refused = folder.run_with(["add", "-", "999"], &ran.out);
    assert_eq!((refused.status, refused.out.len()), (Some(1), 0));
}

#[test]
fn owner_and_group_stay_where_that_can_be() {
    let folder = Folder::new();
    folder.done("new news");
    let path = folder.path().join("news");
    if chown(&path, Some(65534), Some(1234)).is_err() {
        println!("only root gives files away");
        return;
    }
    folder.done("add news 0");
    let news = fs::metadata(&path).unwrap();
    assert_eq!((news.uid(), news.gid()), (65534, 1234));
}

/// Users of one group, each with another first group, change a file of that group.
#[test]
fn a_group_shares_a_file() {
    let folder = Folder::new();
    folder.done("new news");
    let path = folder.path().join("news");
    if chown(&path, Some(3000), Some(1234)).is_err() {
        println!("only root gives files away");
        return;
    }
    fs::set_permissions(&path, Permissions::from_mode(0o660)).unwrap();
    fs::set_permissions(folder.path(), Permissions::from_mode(0o777)).unwrap();
    let seat = folder.path().join("seat");
    fs::copy(SEAT, &seat).unwrap();
    // What one of them left who was killed is no hindrance.
    folder.write(".news.seat-new", b"half a l");
    chown(folder.path().join(".news.seat-new"), Some(4000), Some(1234)).unwrap();
    fs::set_permissions(
        folder.path().join(".news.seat-new"),
        Permissions::from_mode(0o660),
    )
    .unwrap();
    let work = |user: u32| {
        for _ in 0..15 {
            let mut command = Command::new("setpriv");
            let user = user.to_string();
            command.args(["--reuid", &user, "--regid", &user, "--groups", "1234"]);
            command
                .arg(&seat)
                .args(["add", "news", "0", "--as", &user[..1]]);
            let output = command
                .current_dir(folder.path())
                .output()
                .expect("setpriv");
            assert_eq!(output.status.code(), Some(0), "{output:?}");
        }
    };
    thread::scope(|scope| {
        for user in [3000, 4000, 5000] {
            scope.spawn(move || work(user));
        }
    });
    assert_eq!(
        folder.done("check --plain news"),
        "sound 662 0,0,15,15,15,0,0,0\n"
    );
    let news = fs::metadata(&path).unwrap();
    assert_eq!((news.gid(), news.mode() & 0o777), (1234, 0o660));
}

/// Whoever cannot give a file its group gives no other group its rights.
#[test]
fn another_group_gets_what_others_have() {
    let folder = Folder::new();
    folder.done("new news");
    let path = folder.path().join("news");
    if chown(&path, Some(3000), Some(1234)).is_err() {
        println!("only root gives files away");
        return;
    }
    fs::set_permissions(&path, Permissions::from_mode(0o664)).unwrap();
    fs::set_permissions(folder.path(), Permissions::from_mode(0o777)).unwrap();
    let seat = folder.path().join("seat");
    fs::copy(SEAT, &seat).unwrap();
    let mut command = Command::new("setpriv");
    command.args(["--reuid", "3000", "--regid", "3000", "--clear-groups"]);
    command
        .arg(&seat)
        .args(["add", "news", "0", "--as", "3"])
        .current_dir(folder.path());
    assert!(command.status().expect("setpriv").success());
    let news = fs::metadata(&path).unwrap();
    assert_eq!(
        (news.uid(), news.gid(), news.mode() & 0o777),
        (3000, 3000, 0o644)
    );
}

#[test]
fn what_is_in_the_way_is_left() {
    let folder = Folder::new();
    folder.done("new news");
    let beside = folder.path().join(".news.seat-new");
    folder.write("precious", b"a letter");
    fs::hard_link(folder.path().join("precious"), &beside).unwrap();
    let ran = folder.run(["add", "news", "0"]);
    assert_eq!(
        (ran.status, ran.err.contains("is in the way")),
        (Some(3), true),
        "{ran:?}"
    );
    assert_eq!(folder.read("precious"), b"a letter");
    fs::remove_file(&beside).unwrap();
    for target in ["precious", "nowhere", "."] {
        symlink(target, &beside).unwrap();
        let ran = folder.run(["add", "news", "0"]);
        assert_eq!(
            (ran.status, ran.err.contains("is in the way")),
            (Some(3), true),
            "{ran:?}"
        );
        fs::remove_file(&beside).unwrap();
    }
    for line in [
        "new .news.seat-new",
        "add .news.seat-new 0",
        "add news 0 --out .news.seat-new",
    ] {
        assert_eq!(folder.run(line.split(' ')).status, Some(2), "{line}");
    }
    assert_eq!(folder.files().len(), 2);
    assert_eq!(folder.read("precious"), b"a letter");
}

#[test]
fn one_folder_by_two_ways() {
    let folder = Folder::new();
    let script = "mkdir other && mount --bind . other && \"$1\" new news && timeout 20 \"$1\" meet news other/news";
    let mut command = Command::new("unshare");
    command.args([
        "--map-root-user",
        "--mount",
        "bash",
        "-c",
        script,
        "bash",
        SEAT,
    ]);
    let output = command
        .current_dir(folder.path())
        .output()
        .expect("a shell");
    let told = String::from_utf8_lossy(&output.stderr);
    // Not on every machine may a program mount.
    assert!(
        told.contains("is named twice")
            || told.contains("unshare failed")
            || told.contains("mount"),
        "{told}"
    );
    assert_ne!(output.status.code(), Some(124), "it waits for itself");
}

#[test]
fn one_who_waits_for_long_says_so() {
    let folder = Folder::new();
    folder.done("new news");
    let held = fs::File::create(folder.path().join(".news.seat-new")).unwrap();
    held.lock().unwrap();
    let mut command = folder.command(["add", "news", "0"]);
    let waiting = command.stdout(Stdio::null()).stderr(Stdio::piped()).spawn();
    let mut waiting = waiting.expect("the program starts");
    let mut told = String::new();
    let stderr = waiting.stderr.take().expect("a pipe");
    BufReader::new(stderr).read_line(&mut told).expect("a line");
    assert_eq!(
        told,
        "seat: news: waiting for another program that changes it\n"
    );
    assert_eq!(folder.read("news").len(), 32);
    drop(held);
    assert!(waiting.wait().expect("it ends").success());
    assert_eq!(folder.read("news").len(), 46);
}
