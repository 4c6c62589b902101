//! Instruction counts by callgrind, which counts only where it is asked to.

use std::path::Path;
use std::process::{Command, Stdio};
use std::sync::atomic::{AtomicBool, Ordering::Relaxed};

/// Set in the process that runs under callgrind.
pub static COUNTING: AtomicBool = AtomicBool::new(false);

const BASE: usize = ((b'C' as usize) << 24) | ((b'T' as usize) << 16);
const TOGGLE_COLLECT: usize = BASE + 2;
const DUMP_STATS: usize = BASE;

/// Asks the tool that the program runs under, if any, for something.
#[cfg(target_arch = "x86_64")]
fn request(code: usize) {
    let words = [code, 0, 0, 0, 0, 0];
    // SAFETY: outside of valgrind these instructions change nothing.
    unsafe {
        std::arch::asm!(
            "rol rdi, 3",
            "rol rdi, 13",
            "rol rdi, 61",
            "rol rdi, 51",
            "xchg rbx, rbx",
            in("rax") words.as_ptr(),
            inout("rdx") 0usize => _,
            options(nostack),
        );
    }
}

/// Runs a call, and has its instructions counted.
#[inline]
pub fn count<T>(call: impl FnOnce() -> T) -> T {
    if !COUNTING.load(Relaxed) {
        return call();
    }
    request(TOGGLE_COLLECT);
    let result = call();
    request(TOGGLE_COLLECT);
    request(DUMP_STATS);
    result
}

/// The counts that this program makes if it is called with `word`, in their
/// order; none where valgrind is not there.
pub fn counts(word: &str, folder: &Path) -> Option<Vec<u64>> {
    let program = std::env::current_exe().ok()?;
    let _ = std::fs::remove_dir_all(folder);
    std::fs::create_dir_all(folder).ok()?;
    let out = folder.join("count");
    let status = Command::new("valgrind")
        .args(["--tool=callgrind", "--collect-atstart=no", "--quiet"])
        .arg(format!("--callgrind-out-file={}", out.display()))
        .arg(program)
        .arg(word)
        .stderr(Stdio::null())
        .status()
        .ok()?;
    if !status.success() {
        return None;
    }
    // Each dump is a file: count.1, count.2, ..
    let dumps = (1..).map(|i| std::fs::read_to_string(folder.join(format!("count.{i}"))));
    dumps
        .map_while(Result::ok)
        .map(|dump| {
            let total = dump.lines().find_map(|line| {
                line.strip_prefix("summary: ")
                    .or(line.strip_prefix("totals: "))
            })?;
            total.trim().parse().ok()
        })
        .collect()
}
