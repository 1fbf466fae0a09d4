//! The time of folding and of taking, in nanoseconds and in scans of the pending area.
use bagwezin::{outcome, raw, FIELDS, PENDING};

use crate::clock::time;
use crate::scan::{scan, Words};
use crate::times::median;
use crate::workload::Workload;
use crate::workloads;

/// How often a state is timed: after each of so many batches, or over and over once there are no more. The second half is told.
const MOMENTS: usize = 400;

/// How many pending areas with the same words there are: one call on each is timed, so that no call meets what another one left.
const COPIES: usize = 8;

/// Nanoseconds of one call, and of one scan.
struct Times {
    fold: f64,
    take: f64,
    scan: f64,
}

/// A network with its areas and its pending area, and copies of the latter, on which the calls are timed.
struct Timed<'a> {
    network: &'a [u8],
    words: Words,
    pending: Vec<u32>,
    copies: Vec<Vec<u32>>,
}

impl Timed<'_> {
    /// Every copy with the words of the pending area.
    fn copy(&mut self) {
        self.copies.iter_mut().for_each(|copy| copy.copy_from_slice(&self.pending));
    }

    /// Nanoseconds of a fold, of a taking after it, and of a scan.
    fn moment(&mut self) -> Times {
        self.copy();
        let (network, a) = (self.network, self.words.areas());
        let fold = time(COPIES, || {
            for copy in &mut self.copies {
                outcome(raw::fold(network, a.rows, a.gained, a.lost, a.head, copy)).unwrap();
            }
        });
        self.pending.copy_from_slice(&self.copies[0]);
        let mut row = [0; FIELDS];
        let take = time(COPIES, || {
            for copy in &mut self.copies {
                // With nothing pending it is refused by 18, and timed all the same.
                let _ = outcome(raw::take(network, a.rows, a.gained, a.lost, a.head, copy, &mut row));
            }
        });
        self.copy();
        let scan = time(COPIES, || self.copies.iter().for_each(|copy| scan(copy)));
        let [fold, take, scan] = [fold, take, scan].map(|us| 1e3 * us);
        Times { fold, take, scan }
    }
}

/// The medians of a state.
fn measure(w: &Workload) -> Result<Times, String> {
    let (pending, copies) = (vec![0; PENDING], vec![vec![0; PENDING]; COPIES]);
    let mut timed = Timed { network: &w.network, words: Words::written(), pending, copies };
    outcome(raw::open(&w.network, &mut timed.words.areas())).map_err(|e| format!("{}: {e}", w.name))?;
    let mut moments = Vec::new();
    for at in 0..MOMENTS {
        if let Some(batch) = w.batches.get(at) {
            outcome(raw::apply(&w.network, batch, &mut timed.words.areas())).map_err(|e| w.refused(at, &e))?;
        }
        moments.push(timed.moment());
    }
    let of = |what: fn(&Times) -> f64| median(moments[MOMENTS / 2..].iter().map(what).collect());
    Ok(Times { fold: of(|t| t.fold), take: of(|t| t.take), scan: of(|t| t.scan) })
}

/// Measures both calls in every state, and prints a line for each.
pub fn table() -> Result<(), String> {
    let states = workloads::alerts();
    let times: Vec<Times> = states.iter().map(measure).collect::<Result<_, _>>()?;
    println!("call  state             ns   scan ns     scans");
    for (call, what) in [("fold", (|t| t.fold) as fn(&Times) -> f64), ("take", |t| t.take)] {
        for (w, t) in states.iter().zip(&times) {
            println!("{call:5} {:10} {:>9.0} {:>9.0} {:>9.2}", w.name, what(t), t.scan, what(t) / t.scan);
        }
    }
    Ok(())
}
