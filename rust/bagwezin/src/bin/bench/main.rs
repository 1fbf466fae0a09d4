//! The time of a batch, in one run: the library, the independent model's full evaluation, and one scan of the areas.
//! And that of folding and taking, and of the check of areas just opened.
//!
//! `cargo run --release --bin bench` times the five workloads of `workloads`; `options::USAGE` has the rest.
//! docs/PERFORMANCE.md says what the columns mean.
mod alerts;
mod callgrind;
mod clock;
mod count;
mod growth;
#[allow(dead_code)]
#[path = "../../../tests/model/mod.rs"]
mod model;
mod networks;
mod opened;
mod options;
mod plot;
mod scan;
mod times;
mod workload;
mod workloads;

use options::{Options, Task};
use workload::Workload;

/// The workloads of the named folders, or the five that are made here.
fn listed(folders: &[String]) -> Result<Vec<Workload>, String> {
    if folders.is_empty() {
        return Ok(workloads::all());
    }
    folders.iter().map(|path| Workload::of_folder(path)).collect()
}

/// Times the workloads, or the families of growth, and counts them if that is asked for.
fn measure(options: &Options) -> Result<(), String> {
    scan::is_sse2()?;
    let list = match &options.growth {
        Some(svg) => growth::run(svg.as_deref())?,
        None => {
            let list = listed(&options.folders)?;
            times::table(&list)?;
            list
        }
    };
    if options.count {
        count::table(&list)?;
    }
    Ok(())
}

fn run(words: &[String]) -> Result<(), String> {
    match options::read(words)? {
        Task::Help => {
            print!("{}", options::USAGE);
            Ok(())
        }
        Task::Apply(most, folder) => count::apply(&Workload::of_folder(&folder)?, most),
        Task::Alerts => scan::is_sse2().and_then(|()| alerts::table()),
        Task::Opened => scan::is_sse2().and_then(|()| opened::table()),
        Task::Call(most, call, nodes) => opened::run(most, call, nodes),
        Task::Measure(options) => measure(&options),
    }
}

fn main() {
    let words: Vec<String> = std::env::args().skip(1).collect();
    if let Err(text) = run(&words) {
        eprintln!("bench: {text}");
        std::process::exit(1);
    }
}
