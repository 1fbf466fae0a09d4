//! Folding and taking against the independent model: lists of turns from opening on, and any networks, areas and pending areas.
use std::collections::BTreeMap;

use bagwezin::{outcome, raw, Alert, Monitor, Refusal, AREA, FIELDS, HEAD, PENDING, PENDING_COUNTS};

use super::model::{self, put, Areas, Happening, History, Network, Pending, Relation, Row, Station, Verdict};
use super::{batch, damage, event, network, record, seeds, Random, PAST};

/// How often each of the listed cases was met: a random test that misses one says nothing of it.
struct Met(BTreeMap<String, usize>);

impl Met {
    fn new<T: ToString>(cases: impl IntoIterator<Item = T>) -> Met {
        Met(cases.into_iter().map(|case| (case.to_string(), 0)).collect())
    }

    fn when(&mut self, case: &str, holds: bool) {
        *self.0.get_mut(case).unwrap_or_else(|| panic!("'{case}' is not listed")) += usize::from(holds);
    }

    fn every_case(&self) {
        println!("{:#?}", self.0);
        let missed: Vec<&String> = self.0.iter().filter(|(_, times)| **times == 0).map(|(case, _)| case).collect();
        assert!(missed.is_empty(), "never met: {missed:?}");
    }
}

// ---- lists of turns

const TURNS: [&str; 14] = [
    "a batch is folded",
    "a refused batch is not folded",
    "a row is taken",
    "nothing is pending",
    "a pending row is lost at sign 1",
    "a pending row is lost at sign 3",
    "a taken row is lost",
    "a taken row is gained again",
    "rows are gained at sign 2",
    "rows are gained without a watch",
    "taken at a node above one of a lower priority",
    "taken at the lowest of nodes of one priority",
    "taken at a node below one of a lower priority",
    "taken is the lowest of several rows",
];

/// The library, and beside it the plain station, its folds and takings, and what happened.
struct Day {
    net: Network,
    monitor: Monitor,
    station: Station,
    pending: Pending,
    history: History,
}

impl Day {
    /// A batch, and its folding if it is accepted.
    fn batch(&mut self, events: &[u8], met: &mut Met) {
        let (given, (number, place)) = (self.monitor.apply(events), self.station.apply(events));
        met.when("a refused batch is not folded", number != 0);
        if number != 0 {
            assert_eq!(given, Err(Refusal { number, place }));
            return;
        }
        assert_eq!(given, Ok(self.station.number));
        assert_eq!(self.monitor.fold(), Ok(()), "a fold within the premises is refused");
        met.when("a batch is folded", true);
        for (i, (gained, lost)) in self.station.changes.iter().enumerate() {
            let taken = |row: &Row| {
                self.history.happened.iter().any(|h| matches!(h, Happening::Took(n, x) if *n == i && x == row))
            };
            let sign = self.net.signs[i];
            let leaves = lost.iter().any(|row| self.pending.rows[i].contains(row));
            met.when("a pending row is lost at sign 1", sign == 1 && leaves);
            met.when("a pending row is lost at sign 3", sign == 3 && leaves);
            met.when("a taken row is lost", lost.iter().any(taken));
            met.when("a taken row is gained again", gained.iter().any(taken));
            met.when("rows are gained at sign 2", sign == 2 && !gained.is_empty());
            met.when("rows are gained without a watch", sign == 0 && !gained.is_empty());
        }
        self.pending =
            self.pending.fold(&self.net, &self.station.changes).expect("pending rows are rows of their node");
        self.history.happened.push(Happening::Batch(self.station.changes.clone()));
    }

    /// A taking: by the plain station, and by the sentence about what is pending now.
    fn take(&mut self, met: &mut Met) {
        let before = self.history.pending(&self.net).rows;
        let given = self.monitor.take().unwrap();
        let next = self.pending.take(&self.net).map(|(node, row)| Alert { node, row });
        assert_eq!(given, next);
        met.when("nothing is pending", given.is_none());
        let Some(Alert { node, row }) = given else {
            assert!(before.iter().all(Relation::is_empty));
            return;
        };
        let priority = |i: usize| self.net.priorities[i];
        let others: Vec<usize> = (0..before.len()).filter(|&i| i != node && !before[i].is_empty()).collect();
        assert_eq!(before[node].first(), Some(&row));
        assert!(others.iter().all(|&i| priority(i) <= priority(node)), "a higher priority waits");
        assert!(others.iter().all(|&i| i > node || priority(i) < priority(node)), "a lower node waits");
        met.when("a row is taken", true);
        met.when("taken at a node above one of a lower priority", others.iter().any(|&i| i < node));
        met.when(
            "taken at a node below one of a lower priority",
            others.iter().any(|&i| i > node && priority(i) < priority(node)),
        );
        met.when("taken at the lowest of nodes of one priority", others.iter().any(|&i| priority(i) == priority(node)));
        met.when("taken is the lowest of several rows", before[node].len() > 1);
        self.history.happened.push(Happening::Took(node, row));
    }

    /// A batch of some rows that were in a table before: those that are there go, those that are not come back.
    fn back_and_forth(&self, r: &mut Random) -> Vec<u8> {
        let tables = (0..self.net.nodes.len()).filter(|&i| self.net.nodes[i].inputs().is_empty());
        let known: Vec<(usize, Row)> =
            tables.flat_map(|i| self.history.ever_gained(i).into_iter().map(move |row| (i, row))).collect();
        let count = if known.is_empty() { 0 } else { 1 + r.below(3) };
        let chosen = (0..count).map(|_| &known[r.below(known.len())]);
        chosen.flat_map(|(i, row)| event(!self.station.tables[*i].contains(row), *i, row)).collect()
    }

    /// The claim, and that both models and the library agree on every word.
    fn compare(&self) {
        assert_eq!(
            self.pending,
            self.history.pending(&self.net),
            "not what was gained and neither lost nor taken since"
        );
        assert!(self.monitor.pending_area() == self.pending.words(), "the pending area is not the plain station's");
        let Areas { rows, gained, lost, head } = self.station.areas();
        assert!(self.monitor.areas() == [&rows[..], &gained, &lost, &head], "the areas are not the plain station's");
        let fresh = self.net.evaluate(&self.station.tables);
        for (i, rows) in self.pending.rows.iter().enumerate() {
            assert!(self.monitor.pending(i).eq(rows.iter()));
            assert!(rows.is_subset(&fresh[i]), "a pending row is no row of its node");
        }
    }
}

fn day(seed: u64, met: &mut Met) {
    let r = &mut Random::new(seed);
    let bytes = network(r);
    let Ok(net) = Network::read(&bytes) else { return };
    let monitor = Monitor::open(&bytes).unwrap();
    let (station, pending) = (Station::open(&net), Pending::open(&net));
    let mut day = Day { net, monitor, station, pending, history: History::default() };
    for _ in 0..4 + r.below(20) {
        if r.one_in(2) {
            day.take(met);
        } else {
            let mut events = if r.one_in(2) { batch(r, &day.net) } else { day.back_and_forth(r) };
            if r.one_in(6) {
                damage(r, &mut events);
            }
            day.batch(&events, met);
        }
        day.compare();
    }
}

#[test]
fn a_row_is_pending_exactly_if_it_was_gained_and_neither_lost_nor_taken_since() {
    let mut met = Met::new(TURNS);
    seeds(200, |seed| day(seed, &mut met));
    met.every_case();
}

// ---- any bytes and words

/// What a folding and a taking are lent.
#[derive(Clone)]
struct Lent {
    network: Vec<u8>,
    areas: Areas,
    pending: Vec<u32>,
    answer: Vec<u32>,
}

/// A whole answer of the library.
fn whole(answer: u64) -> Result<u32, Verdict> {
    outcome(answer).map_err(|refusal| (refusal.number, refusal.place))
}

/// What both calls answer, the same as in the model, with every lent word afterwards.
fn agree(lent: &Lent) -> [Result<u32, Verdict>; 2] {
    let (Lent { network, areas: a, .. }, kept) = (lent, lent.areas.clone());
    let (mut given, mut expected) = (lent.pending.clone(), lent.pending.clone());
    let folded = model::fold(network, a, &mut expected);
    assert_eq!(whole(raw::fold(network, &a.rows, &a.gained, &a.lost, &a.head, &mut given)), folded, "folding");
    assert!(given == expected, "the pending area after folding, {folded:?}");

    let (mut given, mut expected) = (lent.pending.clone(), lent.pending.clone());
    let (mut row, mut expected_row) = (lent.answer.clone(), lent.answer.clone());
    let took = model::take(network, a, &mut expected, &mut expected_row);
    let answer = raw::take(network, &a.rows, &a.gained, &a.lost, &a.head, &mut given, &mut row);
    assert_eq!(whole(answer), took, "taking");
    assert!(given == expected, "the pending area after taking, {took:?}");
    assert_eq!(row, expected_row, "the row of a taking, {took:?}");
    assert!(*a == kept, "a call wrote to the areas");
    [folded, took]
}

/// Row v of 96 of some width: the digits of v, so that rows differ in any of their fields; the last row has the highest there are.
fn row(v: usize, width: usize) -> Row {
    let base = [96_usize, 10, 5, 4][width - 1];
    let digit = |k: usize| if v == 95 { u32::MAX } else { (v / base.pow(k as u32) % base) as u32 };
    (0..width).rev().map(digit).collect()
}

/// So many of the 96 rows.
fn rows(r: &mut Random, width: usize, count: usize) -> Relation {
    let mut out = Relation::new();
    while out.len() < count {
        out.insert(row(r.below(96), width));
    }
    out
}

/// Gained, lost and pending rows: about 64 are left once they are folded, if so many rows can be lost.
fn nearly_full(r: &mut Random, width: usize) -> [Relation; 3] {
    let counts = [30 + r.below(25), 40 + r.below(25)];
    let [gained, waiting] = counts.map(|count| rows(r, width, count));
    let (aim, mut lost) = (62 + r.below(5), Relation::new());
    while lost.len() < 64 && (&(&waiting - &lost) | &gained).len() > aim {
        lost.insert(row(r.below(96), width));
    }
    [gained, lost, waiting]
}

/// Areas of good form that no list of batches need give, and pending rows: few at each node, but many at one.
fn odd(r: &mut Random, net: &Network) -> (Areas, Pending) {
    let (mut a, mut pending) = (Areas::zero(), Pending::open(net));
    let full = any(r, (0..net.nodes.len()).filter(|&i| net.alerts(i))).unwrap_or(0);
    for i in 0..net.nodes.len() {
        let width = net.widths[i];
        let [gained, lost, waiting] = if i == full {
            nearly_full(r, width)
        } else {
            let counts = [r.below(6), r.below(6), r.below(6)];
            counts.map(|count| rows(r, width, count))
        };
        put(&mut a.gained, &mut a.head[65 + i], i, &gained);
        put(&mut a.lost, &mut a.head[97 + i], i, &lost);
        let count = r.below(65);
        put(&mut a.rows, &mut a.head[1 + i], i, &rows(r, width, count));
        if net.alerts(i) {
            pending.rows[i] = waiting;
        }
    }
    (a, pending)
}

/// Areas after some batches, and rows that wait, whether they were gained or not.
fn usual(r: &mut Random, net: &Network) -> (Areas, Pending) {
    let (mut station, mut pending) = (Station::open(net), Pending::open(net));
    for _ in 0..r.below(4) {
        let events = batch(r, net);
        station.apply(&events);
    }
    for i in (0..net.nodes.len()).filter(|&i| net.alerts(i)) {
        let count = r.below(4);
        pending.rows[i] = rows(r, net.widths[i], count);
    }
    (station.areas(), pending)
}

const FOLDS: [&str; 7] = [
    "a row both lost and gained is folded",
    "pending and gained rows above 64, and 64 or fewer once the lost ones are out",
    "64 rows are left",
    "65 rows would be left",
    "lost rows go out at sign 1",
    "gained rows are left at sign 2",
    "gained rows are left without a watch",
];

/// Which cases a fold of good areas was.
fn note_fold(net: &Network, a: &Areas, pending: &Pending, folded: bool, met: &mut Met) {
    for (i, (gained, lost)) in Station::from(net, a).changes.iter().enumerate() {
        let (waiting, sign) = (&pending.rows[i], net.signs[i]);
        let left = (&(waiting - lost) | gained).len();
        met.when("gained rows are left at sign 2", folded && sign == 2 && !gained.is_empty());
        met.when("gained rows are left without a watch", folded && sign == 0 && !gained.is_empty());
        if net.alerts(i) {
            met.when("a row both lost and gained is folded", folded && !gained.is_disjoint(lost));
            let crowded = (waiting | gained).len() > 64;
            met.when(
                "pending and gained rows above 64, and 64 or fewer once the lost ones are out",
                folded && crowded && left <= 64,
            );
            met.when("64 rows are left", folded && left == 64);
            met.when("65 rows would be left", !folded && left == 65);
            met.when("lost rows go out at sign 1", folded && sign == 1 && !(waiting & lost).is_subset(gained));
        }
    }
}

/// The ways in which a pending area falls under rule 17 by itself.
const SPOILT: [&str; 11] = [
    "it is one word too short",
    "it has no words",
    "a count is 65",
    "a count is 4294967295",
    "two rows stand in the other order",
    "a row stands there twice",
    "a word past a row's width is not 0",
    "a word past the last row is not 0",
    "a node without a watch has rows",
    "a node of sign 2 has rows",
    "a node past the last has rows",
];

/// Any of these.
fn any(r: &mut Random, of: impl Iterator<Item = usize>) -> Option<usize> {
    let all: Vec<usize> = of.collect();
    (!all.is_empty()).then(|| all[r.below(all.len())])
}

/// Rows where there must be none: a row and its count, a count alone, or a word alone.
fn intrude(r: &mut Random, words: &mut [u32], node: usize) {
    let which = r.below(3);
    words[PENDING_COUNTS + node] = u32::from(which < 2);
    words[256 * node + if which == 2 { r.below(256) } else { 0 }] = u32::from(which != 1);
}

/// Spoils words of good form in one way, if the network and the rows allow it.
fn spoil(r: &mut Random, net: &Network, words: &mut Vec<u32>, way: &str) -> Option<()> {
    let n = net.nodes.len();
    let count = |words: &[u32], i: usize| words[PENDING_COUNTS + i] as usize;
    let with = |words: &[u32], least: usize| -> Vec<usize> {
        (0..n).filter(|&i| net.alerts(i) && count(words, i) >= least).collect()
    };
    match way {
        "it is one word too short" => words.truncate(PENDING - 1),
        "it has no words" => words.clear(),
        "a count is 65" | "a count is 4294967295" => {
            let i = any(r, with(words, 0).into_iter())?;
            words[PENDING_COUNTS + i] = if way == "a count is 65" { 65 } else { u32::MAX };
        }
        "two rows stand in the other order" | "a row stands there twice" => {
            let i = any(r, with(words, 2).into_iter())?;
            let at = 256 * i + 4 * r.below(count(words, i) - 1);
            let (first, second) = words[at..at + 8].split_at_mut(4);
            if way == "a row stands there twice" {
                second.copy_from_slice(first);
            } else {
                first.swap_with_slice(second);
            }
        }
        "a word past a row's width is not 0" => {
            let i = any(r, with(words, 1).into_iter().filter(|&i| net.widths[i] < 4))?;
            let (j, k) = (r.below(count(words, i)), net.widths[i] + r.below(4 - net.widths[i]));
            words[256 * i + 4 * j + k] = 1 + r.below(3) as u32;
        }
        "a word past the last row is not 0" => {
            let i = any(r, with(words, 0).into_iter().filter(|&i| count(words, i) < 64))?;
            let past = 4 * count(words, i);
            words[256 * i + past + r.below(256 - past)] = 1 + r.below(3) as u32;
        }
        "a node without a watch has rows" | "a node of sign 2 has rows" => {
            let sign = if way == "a node of sign 2 has rows" { 2 } else { 0 };
            let i = any(r, (0..n).filter(|&i| net.signs[i] == sign))?;
            intrude(r, words, i);
        }
        "a node past the last has rows" => {
            let i = any(r, n..32)?;
            intrude(r, words, i);
        }
        _ => panic!("there is no way '{way}'"),
    }
    Some(())
}

/// What each call answered, as cases.
fn answered(given: [Result<u32, Verdict>; 2], met: &mut Met) {
    for (call, answer) in ["fold", "take"].iter().zip(given) {
        met.when(&format!("{call}: {}", answer.map_or_else(|(number, _)| number, |_| 0)), true);
    }
}

/// Some words changed, as a fault of memory would.
fn flip(r: &mut Random, words: &mut [u32], reach: usize) {
    for _ in 0..1 + r.below(3) {
        let at = r.below(reach);
        words[at] = if r.one_in(8) { u32::MAX } else { r.below(5) as u32 };
    }
}

/// A word of the areas changed, or one of them cut.
fn harm(r: &mut Random, net: &Network, a: &mut Areas) {
    let (area, named, used) = match r.below(4) {
        0 => (&mut a.rows, AREA, 256 * net.nodes.len()),
        1 => (&mut a.gained, AREA, 256 * net.nodes.len()),
        2 => (&mut a.lost, AREA, 256 * net.nodes.len()),
        _ => (&mut a.head, HEAD, HEAD),
    };
    if r.one_in(4) {
        area.truncate(r.below(named));
    } else {
        flip(r, area, used);
    }
}

fn any_words(seed: u64, met: &mut Met) {
    let r = &mut Random::new(seed);
    let mut network = network(r);
    if r.one_in(4) {
        damage(r, &mut network);
    }
    let past = |words: Vec<u32>| [words, vec![PAST; 3]].concat();
    let read = Network::read(&network);
    let (areas, pending) = match &read {
        Err(_) => (Areas::zero(), Pending { rows: vec![] }),
        Ok(net) if r.one_in(3) => usual(r, net),
        Ok(net) => odd(r, net),
    };
    let Areas { rows, gained, lost, head } = areas;
    let areas = Areas { rows: past(rows), gained: past(gained), lost: past(lost), head: past(head) };
    let words = if r.one_in(6) { vec![0; PENDING] } else { pending.words() };
    let good = Lent { network, areas, pending: past(words), answer: vec![9; FIELDS + r.below(3)] };
    let given @ [folded, _] = agree(&good);
    answered(given, met);

    // a short answer is refused before anything else, by the taking alone
    let short = Lent { answer: vec![9; r.below(FIELDS)], ..good.clone() };
    assert_eq!(agree(&short), [folded, Err((1, 0))]);

    let Ok(net) = read else { return };
    let waiting = Pending::read(&net, &good.pending).expect("good form");
    note_fold(&net, &good.areas, &waiting, folded == Ok(0), met);
    for way in SPOILT {
        let mut bad = good.clone();
        if spoil(r, &net, &mut bad.pending, way).is_some() {
            assert_eq!(agree(&bad), [Err((17, 0)); 2], "{way}");
            met.when(way, true);
            resumes(&net, &bad);
        }
    }
    resumes(&net, &good);
    let mut other = good.clone();
    let reach = if r.one_in(2) { PENDING } else { 256 * net.nodes.len() };
    flip(r, &mut other.pending, reach);
    answered(agree(&other), met);
    resumes(&net, &other);
    let mut other = good.clone();
    harm(r, &net, &mut other.areas);
    answered(agree(&other), met);
    let mut other = good;
    if r.one_in(8) {
        other.network.clear();
    } else {
        damage(r, &mut other.network);
    }
    answered(agree(&other), met);
}

/// A monitor on these areas takes the pending area, or refuses it by 17 and stays as it was.
fn resumes(net: &Network, lent: &Lent) {
    let Areas { rows, gained, lost, head } = &lent.areas;
    let mut monitor = Monitor::from_areas(&lent.network, rows, gained, lost, head).expect("good form").monitor;
    let before = monitor.clone();
    let given = monitor.set_pending(&lent.pending);
    match Pending::read(net, &lent.pending) {
        Some(pending) => assert!(given == Ok(()) && monitor.pending_area() == pending.words()),
        None => assert!(given == Err(Refusal { number: 17, place: 0 }) && monitor == before),
    }
}

#[test]
fn folding_and_taking_on_any_words_give_what_the_model_gives() {
    let numbers =
        ["fold", "take"].iter().flat_map(|call| [0, 1, 2, 3, 4, 5, 6, 7, 8, 17].map(|n| format!("{call}: {n}")));
    let listed = FOLDS.iter().chain(&SPOILT).map(ToString::to_string);
    let mut met = Met::new(numbers.chain(["take: 18".to_string()]).chain(listed));
    seeds(200, |seed| any_words(seed, &mut met));
    met.every_case();
}

// ---- worked out by hand

/// A table of width 1, watched with sign 3, and a row (5) that waits.
fn one_row() -> Lent {
    let network = [record(1, &[1]), record(9, &[0, 3])].concat();
    let mut pending = vec![0; PENDING];
    (pending[0], pending[PENDING_COUNTS]) = (5, 1);
    Lent { network, areas: Areas::zero(), pending, answer: vec![9; FIELDS] }
}

#[test]
fn the_first_rule_in_checking_order_is_told() {
    let tables = |n: usize| (0..n).flat_map(|_| record(1, &[1])).collect::<Vec<u8>>();
    // behind the network's 14 bytes: records that 3 to 7 refuse
    let faults: [(Verdict, Vec<u8>); 6] = [
        ((3, 14), vec![8, 0, 9]),
        ((4, 14), record(11, &[0])),
        ((5, 14 + 31 * 6), tables(32)),
        ((6, 14), vec![9, 0, 9, 0, 0, 0, 1, 0, 0]),
        ((7, 14), record(9, &[1, 1])),
        ((7, 14 + 6), [record(1, &[1]), record(9, &[1, 1, 10])].concat()),
    ];
    let mut count = 0;
    for (fault, bits) in (0..8).flat_map(|fault| (0..64).map(move |bits| (fault, bits))) {
        let has = |bit: usize| bits >> bit & 1 == 1;
        let mut lent = one_row();
        let mut expected = Vec::new();
        if has(0) {
            lent.areas.lost.pop();
            expected.push((1, 0));
        }
        match fault {
            0 => {}
            1 => {
                lent.network.clear();
                expected.push((2, 0));
            }
            _ => {
                lent.network.extend(&faults[fault - 2].1);
                expected.push(faults[fault - 2].0);
            }
        }
        if has(1) {
            lent.areas.head[1] = 65;
            expected.push((8, 0));
        }
        if has(2) {
            lent.pending[PENDING_COUNTS] = 65;
            expected.push((17, 0));
        } else if has(3) {
            lent.pending.pop();
            expected.push((17, 0));
        }
        let fold = expected.first().map_or(Ok(0), |&refusal| Err(refusal));
        if has(4) {
            lent.pending[0] = 0;
            lent.pending[PENDING_COUNTS] = if has(2) { 65 } else { 0 };
            expected.push((18, 0));
        }
        if has(5) {
            lent.answer.pop();
            expected.insert(0, (1, 0));
        }
        let take = expected.first().map_or(Ok(0), |&refusal| Err(refusal));
        assert_eq!(agree(&lent), [fold, take], "network {fault}, faults {bits:b}");
        count += 1;
    }
    assert_eq!(count, 512);
}

#[test]
fn folding_twice_may_be_too_much() {
    // rows 0 to 39 are gained, then rows 40 to 79, while so many of the first are lost
    let gaining = |from: u32, lost: u32| {
        let mut a = Areas::zero();
        put(&mut a.gained, &mut a.head[65], 0, &(from..from + 40).map(|x| vec![x]).collect());
        put(&mut a.lost, &mut a.head[97], 0, &(0..lost).map(|x| vec![x]).collect());
        a
    };
    for (lost, second) in [(0, Err((17, 0))), (15, Err((17, 0))), (16, Ok(0)), (40, Ok(0))] {
        let mut lent = Lent { pending: vec![0; PENDING], areas: gaining(0, 0), ..one_row() };
        for (areas, expected) in [(gaining(0, 0), Ok(0)), (gaining(40, lost), second)] {
            lent.areas = areas;
            assert_eq!(agree(&lent)[0], expected, "{lost} lost");
            let a = &lent.areas;
            raw::fold(&lent.network, &a.rows, &a.gained, &a.lost, &a.head, &mut lent.pending);
        }
        let left = if second == Ok(0) { 80 - lost } else { 40 };
        assert_eq!(lent.pending[PENDING_COUNTS], left);
        let first = if second == Ok(0) { lost } else { 0 };
        assert!((0..left).all(|j| lent.pending[4 * j as usize] == first + j), "{lost} lost");
    }
}

#[test]
fn a_65th_row_is_one_too_many_even_if_it_ascends() {
    // 32 tables of width 1, all watched; rows 0 to 63 wait at a node, and behind its place stands 100, or 64, the count of node 0
    let tables: Vec<u8> = (0..32).flat_map(|_| record(1, &[1])).collect();
    let watches: Vec<u8> = (0..32).flat_map(|i| record(9, &[i, 1])).collect();
    let sixty_four = |pending: &mut [u32], node: usize| {
        (0..64).for_each(|j| pending[256 * node + 4 * j] = j as u32);
        pending[PENDING_COUNTS + node] = 64;
    };
    for node in [0, 30, 31] {
        let mut lent =
            Lent { network: [tables.clone(), watches.clone()].concat(), pending: vec![0; PENDING], ..one_row() };
        sixty_four(&mut lent.pending, node);
        if node < 31 {
            (lent.pending[256 * (node + 1)], lent.pending[PENDING_COUNTS + node + 1]) = (100, 1);
        } else {
            sixty_four(&mut lent.pending, 0);
        }
        assert_eq!(agree(&lent), [Ok(0), Ok(if node == 31 { 0 } else { node as u32 })]);
        lent.pending[PENDING_COUNTS + node] = 65;
        assert_eq!(agree(&lent), [Err((17, 0)); 2], "node {node}");
    }
}

#[test]
fn a_row_that_is_lost_and_gained_is_pending() {
    for (waits, sign) in [(false, 1), (true, 1), (false, 3), (true, 3)] {
        let mut lent = one_row();
        lent.network[12] = sign;
        if !waits {
            lent.pending.fill(0);
        }
        let five = Relation::from([vec![5]]);
        put(&mut lent.areas.gained, &mut lent.areas.head[65], 0, &five);
        put(&mut lent.areas.lost, &mut lent.areas.head[97], 0, &five);
        assert_eq!(agree(&lent)[0], Ok(0));
        let a = &lent.areas;
        raw::fold(&lent.network, &a.rows, &a.gained, &a.lost, &a.head, &mut lent.pending);
        assert_eq!((lent.pending[0], lent.pending[PENDING_COUNTS]), (5, 1));
    }
}
