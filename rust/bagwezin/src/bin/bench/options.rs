//! What the program was asked for.
use std::path::Path;

use crate::opened::{Call, NODES};

pub const USAGE: &str = "\
usage: bench [--count] [FOLDER...]
       bench [--count] --growth [FILE.svg]
       bench --alerts
       bench --opened
       bench --apply N FOLDER
       bench --opened N CALL NODES

Times a batch: the library, the independent model, and one scan of the areas, in microseconds and in scans.

  FOLDER...            folders with network.bin and batch.bin, each batch ended by a mark;
                       without any, the five workloads that the program makes itself
  --growth [FILE.svg]  the time by events a batch, nodes and rows a table; and a plot of it, if a file is named
  --alerts             instead the time of folding and of taking, in nanoseconds and in scans of the pending area
  --opened             instead the check of areas just opened, by a report and by the coherence check, on networks of 1
                       and of 32 nodes: nanoseconds, scans of the areas, instructions
  --count              also instructions and mispredicted branches a batch, by valgrind; takes a minute
  --apply N FOLDER     only opens and applies the first N batches, as --count does under valgrind
  --opened N CALL NODES
                       only opens and makes N calls, report or check, as --opened does under valgrind
  --help               this text
";

/// What is measured.
#[derive(Debug, Default)]
pub struct Options {
    pub folders: Vec<String>,
    pub count: bool,
    /// Growth, and the file of its plot.
    pub growth: Option<Option<String>>,
}

pub enum Task {
    Help,
    /// So many batches of a folder.
    Apply(usize, String),
    /// Folding and taking.
    Alerts,
    /// The check of areas just opened.
    Opened,
    /// So many calls on areas just opened, of a network of so many nodes.
    Call(usize, Call, usize),
    Measure(Options),
}

/// The task that the words ask for.
pub fn read(words: &[String]) -> Result<Task, String> {
    if words.iter().any(|word| word == "--help" || word == "-h") {
        return Ok(Task::Help);
    }
    if words.first().is_some_and(|word| word == "--apply") {
        return apply(&words[1..]);
    }
    if words.iter().any(|word| word == "--alerts") {
        return match words {
            [_] => Ok(Task::Alerts),
            _ => Err("--alerts makes its own workloads, and stands alone: bench --alerts".into()),
        };
    }
    if words.iter().any(|word| word == "--opened") {
        return opened(words);
    }
    let mut options = Options::default();
    let mut rest = words.iter().peekable();
    while let Some(word) = rest.next() {
        match word.as_str() {
            "--count" => options.count = true,
            "--growth" => options.growth = Some(rest.next_if(|next| next.ends_with(".svg")).cloned()),
            _ if word.starts_with('-') => return Err(format!("there is no option {word}: --help lists them")),
            _ => options.folders.push(word.clone()),
        }
    }
    fits(&options)?;
    Ok(Task::Measure(options))
}

fn apply(words: &[String]) -> Result<Task, String> {
    let [most, folder] = words else {
        return Err("--apply takes a number of batches and one folder: --apply 100 FOLDER".into());
    };
    match most.parse() {
        Ok(most) => Ok(Task::Apply(most, folder.clone())),
        Err(_) => Err(format!("'{most}' is not a number of batches: --apply 100 FOLDER")),
    }
}

fn opened(words: &[String]) -> Result<Task, String> {
    let words: Vec<&str> = words.iter().map(String::as_str).collect();
    match words[..] {
        ["--opened"] => Ok(Task::Opened),
        ["--opened", most, call, nodes] => match (most.parse(), Call::of_name(call), nodes.parse()) {
            (Ok(most), Some(call), Ok(nodes)) if NODES.contains(&nodes) => Ok(Task::Call(most, call, nodes)),
            _ => Err("a number, report or check, and 1 or 32 nodes: bench --opened 100 report 32".into()),
        },
        _ => Err("--opened makes its own networks, and stands alone: bench --opened".into()),
    }
}

/// Whether the options go together, and the plot's folder is there; told before anything is measured.
fn fits(options: &Options) -> Result<(), String> {
    let Some(svg) = &options.growth else { return Ok(()) };
    if let Some(folder) = options.folders.first() {
        return Err(format!("--growth makes its own workloads: leave out {folder}, or end the plot's name in .svg"));
    }
    let parent = svg.as_ref().and_then(|file| Path::new(file).parent());
    match parent.filter(|folder| !folder.as_os_str().is_empty() && !folder.is_dir()) {
        Some(folder) => Err(format!("there is no folder {} for the plot: make it, or name another", folder.display())),
        None => Ok(()),
    }
}
