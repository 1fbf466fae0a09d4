//! The times of a batch of a workload, and their table.
use bagwezin::{outcome, raw};

use crate::clock::time;
use crate::model::{Network, Station};
use crate::scan::Words;
use crate::workload::Workload;

/// How often a workload is run; medians are told.
const ROUNDS: usize = 31;

/// The least number of scans in a round.
const SCANS: usize = 200;

/// Microseconds a batch, and for one scan.
#[derive(Clone, Copy)]
pub struct Times {
    pub library: f64,
    pub model: f64,
    pub scan: f64,
}

/// Library and model before the first batch that is timed.
struct Start {
    words: Words,
    station: Station,
}

/// Opens, and applies the batches before those that are timed; every batch must be accepted, by both.
fn start(w: &Workload) -> Result<Start, String> {
    let network = Network::read(&w.network).map_err(|(number, place)| {
        format!("{}: the network is refused: {}", w.name, bagwezin::Refusal { number, place })
    })?;
    let (mut words, mut station) = (Words::written(), Station::open(&network));
    outcome(raw::open(&w.network, &mut words.areas())).map_err(|e| format!("{}: {e}", w.name))?;
    let mut begin = Start { words: words.clone(), station: station.clone() };
    for (at, batch) in w.batches.iter().enumerate().take(w.measured().end) {
        if at == w.measured().start {
            begin = Start { words: words.clone(), station: station.clone() };
        }
        outcome(raw::apply(&w.network, batch, &mut words.areas())).map_err(|e| w.refused(at, &e))?;
        match station.apply(batch) {
            (0, 0) => {}
            (number, _) => return Err(w.refused(at, &format!("the model refuses it with {number}"))),
        }
    }
    Ok(begin)
}

/// One round: library, scan and model, one after the other.
fn round(w: &Workload, begin: &Start, words: &mut Words) -> Times {
    let batches = &w.batches[w.measured()];
    words.copy(&begin.words);
    let library = time(batches.len(), || {
        for batch in batches {
            outcome(raw::apply(&w.network, batch, &mut words.areas())).unwrap();
        }
    });
    let scans = batches.len().max(SCANS);
    let scan = time(scans, || (0..scans).for_each(|_| words.scan()));
    let mut station = begin.station.clone();
    let model = time(batches.len(), || {
        for batch in batches {
            assert_eq!(station.apply(batch), (0, 0));
        }
    });
    Times { library, model, scan }
}

pub fn median(mut times: Vec<f64>) -> f64 {
    times.sort_by(f64::total_cmp);
    times[times.len() / 2]
}

/// The medians of all rounds of a workload.
fn measure(w: &Workload) -> Result<Times, String> {
    let (begin, mut words) = (start(w)?, Words::written());
    let rounds: Vec<Times> = (0..ROUNDS).map(|_| round(w, &begin, &mut words)).collect();
    let of = |what: fn(&Times) -> f64| median(rounds.iter().map(what).collect());
    Ok(Times { library: of(|t| t.library), model: of(|t| t.model), scan: of(|t| t.scan) })
}

/// A line of the table.
fn line(w: &Workload, t: &Times) -> String {
    let (library, model) = (t.library / t.scan, t.model / t.scan);
    format!(
        "{:12} {:>8} {:>11.2} {:>11.2} {:>9.2} {library:>14.1} {model:>12.1} {:>14.1}",
        w.name,
        w.measured().len(),
        t.library,
        t.model,
        t.scan,
        t.model / t.library
    )
}

/// Measures the workloads, and prints a line for each.
pub fn table(list: &[Workload]) -> Result<Vec<Times>, String> {
    println!("workload      batches  library us    model us   scan us  library scans  model scans  model/library");
    let mut all = Vec::new();
    for w in list {
        let times = measure(w)?;
        println!("{}", line(w, &times));
        all.push(times);
    }
    Ok(all)
}
