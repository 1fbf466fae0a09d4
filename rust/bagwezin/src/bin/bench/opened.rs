//! The check of areas just opened, where nearly every word is unused: the time of a report and of the coherence check,
//! and their instructions.
use bagwezin::{outcome, raw};

use crate::clock::time;
use crate::count::{self, Folder};
use crate::networks;
use crate::scan::Words;
use crate::times::median;

/// How often a call is timed, and how many calls are timed together; medians are told.
const ROUNDS: usize = 201;
const CALLS: usize = 20;

/// The calls that are counted: the difference of so many and none.
const COUNTED: usize = 100;

/// Both judge 1 to 8; the report then finds no change, the check evaluates every derived node.
#[derive(Clone, Copy, Debug, PartialEq)]
pub enum Call {
    Report,
    Check,
}

impl Call {
    const ALL: [Call; 2] = [Call::Report, Call::Check];

    fn name(self) -> &'static str {
        match self {
            Call::Report => "report",
            Call::Check => "check",
        }
    }

    pub fn of_name(name: &str) -> Option<Call> {
        Call::ALL.into_iter().find(|call| call.name() == name)
    }
}

/// A network of so many nodes just opened, and a node of it that is watched.
struct Opened {
    network: Vec<u8>,
    watched: u32,
    words: Words,
}

/// The networks: a table, and an orchard of 32 nodes.
pub const NODES: [usize; 2] = [1, 32];

impl Opened {
    fn new(nodes: usize) -> Result<Opened, String> {
        let (network, watched) = if nodes == 1 { (networks::table(), 0) } else { (networks::orchard(nodes), 12) };
        let mut words = Words::written();
        outcome(raw::open(&network, &mut words.areas())).map_err(|e| format!("{nodes} nodes: {e}"))?;
        Ok(Opened { network, watched, words })
    }

    fn call(&mut self, call: Call) {
        let a = self.words.areas();
        let answer = match call {
            Call::Report => raw::report(&self.network, self.watched, a.rows, a.gained, a.lost, a.head, &mut []),
            Call::Check => raw::check(&self.network, a.rows, a.gained, a.lost, a.head),
        };
        assert!(outcome(answer).is_ok(), "areas just opened are of good form");
    }

    fn calls(&mut self, call: Call, most: usize) {
        (0..most).for_each(|_| self.call(call));
    }

    /// Nanoseconds of a call and of a scan.
    fn measure(&mut self, call: Call) -> [f64; 2] {
        let rounds: Vec<[f64; 2]> = (0..ROUNDS)
            .map(|_| {
                let called = time(CALLS, || self.calls(call, CALLS));
                [called, time(CALLS, || (0..CALLS).for_each(|_| self.words.scan()))]
            })
            .collect();
        [0, 1].map(|k| 1e3 * median(rounds.iter().map(|round| round[k]).collect()))
    }
}

/// Opens, and makes one call so often, as the table does under valgrind.
pub fn run(most: usize, call: Call, nodes: usize) -> Result<(), String> {
    Opened::new(nodes)?.calls(call, most);
    Ok(())
}

/// Instructions of one call.
fn instructions(call: Call, nodes: usize, folder: &Folder) -> Result<f64, String> {
    let counted = |most: usize| {
        let words = ["--opened", &most.to_string(), call.name(), &nodes.to_string()].map(String::from);
        count::counts(&words, folder).map(|counts| counts.instructions)
    };
    Ok((counted(COUNTED)? - counted(0)?) as f64 / COUNTED as f64)
}

/// Measures both calls on both networks, and prints a line for each.
pub fn table() -> Result<(), String> {
    let folder = if count::is_there() { Some(Folder::new()?) } else { None };
    println!("call   nodes        ns   scan ns     scans  instructions");
    for call in Call::ALL {
        for nodes in NODES {
            let [called, scan] = Opened::new(nodes)?.measure(call);
            let counted = match &folder {
                Some(folder) => format!("{:.0}", instructions(call, nodes, folder)?),
                None => "-".into(),
            };
            let name = call.name();
            println!("{name:6} {nodes:>5} {called:>9.0} {scan:>9.0} {:>9.2} {counted:>13}", called / scan);
        }
    }
    if folder.is_none() {
        println!("{}", count::MISSING);
    }
    Ok(())
}
