//! Instructions and mispredicted branches a batch: the difference of two runs of this program under valgrind.
use std::path::PathBuf;
use std::process::Command;

use bagwezin::{outcome, raw};

use crate::callgrind::{self, Counts};
use crate::scan::Words;
use crate::workload::Workload;

/// Opens and applies the first so many batches.
pub fn apply(w: &Workload, most: usize) -> Result<(), String> {
    let mut words = Words::written();
    let mut areas = words.areas();
    outcome(raw::open(&w.network, &mut areas)).map_err(|e| format!("{}: {e}", w.name))?;
    for (at, batch) in w.batches.iter().enumerate().take(most) {
        outcome(raw::apply(&w.network, batch, &mut areas)).map_err(|e| w.refused(at, &e))?;
    }
    Ok(())
}

/// A folder that is removed in the end. Its name is always of one length, so that arguments do not move the stack.
pub struct Folder(PathBuf);

impl Folder {
    pub fn new() -> Result<Folder, String> {
        let path = std::env::temp_dir().join(format!("bagwezin-bench-{:010}", std::process::id()));
        match std::fs::create_dir(&path) {
            Ok(()) => Ok(Folder(path)),
            Err(e) => Err(format!("{}: {e}: set TMPDIR to a folder that can be written", path.display())),
        }
    }
}

impl Drop for Folder {
    fn drop(&mut self) {
        let _ = std::fs::remove_dir_all(&self.0);
    }
}

/// What is said where valgrind is missing.
pub const MISSING: &str = "no counts: there is no valgrind on the PATH; install it to count instructions and branches";

/// Whether there is a valgrind.
pub fn is_there() -> bool {
    Command::new("valgrind").arg("--version").output().is_ok()
}

/// Counts of this program on these words.
pub fn counts(words: &[String], folder: &Folder) -> Result<Counts, String> {
    let program = std::env::current_exe().map_err(|e| format!("this program's own file is not found: {e}"))?;
    let out = folder.0.join("callgrind.out");
    let ran = Command::new("valgrind")
        .args(["-q", "--tool=callgrind", "--branch-sim=yes"])
        .arg(format!("--callgrind-out-file={}", out.display()))
        .arg(program)
        .args(words)
        .output()
        .map_err(|e| format!("valgrind: {e}"))?;
    if !ran.status.success() {
        let said = String::from_utf8_lossy(&ran.stderr);
        return Err(format!("valgrind failed ({}), mend it, or leave out what counts:\n{said}", ran.status));
    }
    let text = std::fs::read_to_string(&out).map_err(|e| format!("{}: {e}", out.display()))?;
    callgrind::counts(&text).ok_or_else(|| "callgrind wrote a file of another form: try another valgrind".into())
}

/// Counts of this program on the first so many batches of the folder.
fn run(folder: &Folder, most: usize) -> Result<Counts, String> {
    let path = folder.0.to_str().ok_or("the folder's name is not in UTF-8: set TMPDIR to another")?;
    counts(&["--apply".into(), most.to_string(), path.into()], folder)
}

/// Counts a batch, over the batches that are timed.
fn count(w: &Workload, folder: &Folder) -> Result<[f64; 2], String> {
    w.write(&folder.0).map_err(|e| format!("{}: {e}", folder.0.display()))?;
    let measured = w.measured();
    let (less, more) = (run(folder, measured.start)?, run(folder, measured.end)?);
    let each = |less: i64, more: i64| (more - less) as f64 / measured.len() as f64;
    Ok([each(less.instructions, more.instructions), each(less.mispredicted, more.mispredicted)])
}

/// Counts the workloads, and prints a line for each; where valgrind is missing, it says so.
pub fn table(list: &[Workload]) -> Result<(), String> {
    if !is_there() {
        println!("\n{MISSING}");
        return Ok(());
    }
    let folder = Folder::new()?;
    println!("\n{:12} {:>8} {:>14} {:>14}", "workload", "batches", "instructions", "mispredicted");
    for w in list {
        let [instructions, mispredicted] = count(w, &folder)?;
        println!("{:12} {:>8} {instructions:>14.0} {mispredicted:>14.0}", w.name, w.measured().len());
    }
    Ok(())
}
