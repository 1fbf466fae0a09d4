//! Files of batches, to and from bytes and text.
use std::ops::Range;

use bagwezin::{Monitor, Refusal};

use crate::grammar::{self, lines, Checked, Line, Problem, EVENTS};
use crate::network::{halves, length, offsets, record, two};
use crate::{refused, Network};

/// The most events of a batch, and the most bytes of a file that the station program reads.
pub const EVENTS_OF_A_BATCH: usize = 64;
pub const FILE: usize = 65536;

const PUT: usize = 32;
const REMOVE: usize = 33;
const MARK: [u8; 4] = [4, 0, 34, 0];

/// A file of batches made from text: its bytes, and the line of each batch's `end`.
#[derive(Clone, Debug, Default, PartialEq, Eq)]
pub struct Assembled {
    pub bytes: Vec<u8>,
    pub ends: Vec<usize>,
}

/// What stands after the last mark of a file.
#[derive(Clone, Debug, PartialEq, Eq)]
pub enum Rest {
    Nothing,
    /// Whole records without a mark.
    Unfinished(Range<usize>),
    /// A broken length at an offset from the batch's first byte.
    Broken(Range<usize>, u32),
}

/// A file cut at its marks.
#[derive(Clone, Debug, PartialEq, Eq)]
pub struct Pieces {
    pub batches: Vec<Range<usize>>,
    pub rest: Rest,
}

/// Cuts a file as the station program does: by record lengths.
pub fn pieces(file: &[u8]) -> Pieces {
    let (mut batches, mut start, mut end) = (Vec::new(), 0, 0);
    for at in offsets(file) {
        end = at + length(&file[at..]).unwrap_or(4);
        if file[at..end] == MARK {
            batches.push(start..at);
            start = end;
        }
    }
    let rest = match file.len() {
        n if end < n => Rest::Broken(start..n, (end - start) as u32),
        n if start < n => Rest::Unfinished(start..n),
        _ => Rest::Nothing,
    };
    Pieces { batches, rest }
}

/// A file of batches from its text.
pub fn assemble(net: &Network, text: &str) -> Checked<Assembled> {
    let mut out = Assembled::default();
    let (mut events, mut last, mut closed) = (0, 1, false);
    for (number, words) in lines(text) {
        let mut line = Line::new(number, words, &EVENTS)?;
        if closed {
            return line.fail("nothing may follow 'unfinished'");
        }
        match line.word() {
            "end" => {
                out.bytes.extend(MARK);
                out.ends.push(number);
                events = 0;
            }
            "unfinished" if events == 0 => {
                return line.fail("'unfinished' stands for the missing 'end' of events, and there are none above it")
            }
            "unfinished" => closed = true,
            _ => {
                events += 1;
                if events > EVENTS_OF_A_BATCH {
                    return line.fail(format!(
                        "this is event {events} of its batch, and a batch has at most {EVENTS_OF_A_BATCH}: write 'end' before it"
                    ));
                }
                out.bytes.extend(event(net, &mut line)?);
            }
        }
        line.done()?;
        last = number;
    }
    if events > 0 && !closed {
        let text = "the last batch has no 'end' (a rest that the station shall not apply ends in 'unfinished')";
        return Err(Problem { line: last, text: text.into() });
    }
    Ok(out)
}

/// An event's record.
fn event(net: &Network, line: &mut Line) -> Checked<Vec<u8>> {
    let kind = if line.word() == "put" { PUT } else { REMOVE };
    let table = line.node(net)?;
    let node = &net.nodes[table];
    if !net.is_table(table) {
        return line.fail(format!("'{}' is no table: events name tables alone", node.name));
    }
    let mut fields = vec![table];
    let mut count = 0;
    while line.peek().is_some() {
        let word = line.next("a number")?;
        fields.extend(halves(line.tell(grammar::number(word))?));
        count += 1;
    }
    if count != node.columns.len() {
        return line.fail(format!(
            "{}, and a row of '{}' has {} ({})",
            grammar::counted(count, "number", "numbers"),
            node.name,
            node.columns.len(),
            node.columns.join(", ")
        ));
    }
    Ok(record(kind, &fields))
}

/// The text of a file of batches, or why there is none: what rules 10 to 13 refuse is no text.
pub fn text(net: &Network, file: &[u8]) -> Result<String, String> {
    let pieces = pieces(file);
    let mut out = String::new();
    for (k, batch) in pieces.batches.iter().enumerate() {
        let place = format!("batch {} of the file, from byte {} on", k + 1, batch.start);
        let records = records_text(net, &file[batch.clone()]);
        out += &records.map_err(|e| format!("{place}: {e}"))?;
        out += "end\n";
    }
    let place = |start: usize| format!("after the last mark, from byte {start} on");
    match pieces.rest {
        Rest::Nothing => {}
        Rest::Unfinished(r) => {
            let start = place(r.start);
            out += &records_text(net, &file[r]).map_err(|e| format!("{start}: {e}"))?;
            out += "unfinished\n";
        }
        Rest::Broken(r, at) => return Err(format!("{}: {}", place(r.start), broken(net, &file[r], at))),
    }
    Ok(out)
}

/// The refusal of a batch with a broken length at an offset, which the station finds before it looks at the batch's records.
pub fn broken(net: &Network, batch: &[u8], place: u32) -> String {
    refused::batch(net, batch, Refusal { number: 10, place })
}

/// The library's verdict on a batch's records: 10 to 13.
pub fn judged(net: &Network, batch: &[u8]) -> Result<(), Refusal> {
    let answer = Monitor::open(&net.bytes()).and_then(|mut m| m.apply(batch));
    match answer {
        Err(refusal) if refusal.number != 14 => Err(refusal),
        _ => Ok(()),
    }
}

fn records_text(net: &Network, batch: &[u8]) -> Result<String, String> {
    judged(net, batch).map_err(|refusal| refused::batch(net, batch, refusal))?;
    let events = offsets(batch).map(|at| event_text(net, &batch[at..]));
    Ok(events.collect())
}

/// The line of an event that the library accepts.
fn event_text(net: &Network, record: &[u8]) -> String {
    let half = |at: usize| two(record, at).unwrap_or(0);
    let table = &net.nodes[half(4)];
    let word = if half(2) == PUT { "put" } else { "remove" };
    let fields = (0..table.columns.len()).map(|k| half(6 + 4 * k) + (half(8 + 4 * k) << 16));
    let row: String = fields.map(|v| format!(" {v}")).collect();
    format!("{word} {}{row}\n", table.name)
}
