//! The library against the independent model, on random networks and batches, valid and damaged; folding and taking in `alerts`.
//!
//! `BAGWEZIN_SECONDS=60 cargo test --release -- --nocapture` runs each of the random tests for that long; `BAGWEZIN_SEED=7` starts from that seed.
use std::panic::{catch_unwind, AssertUnwindSafe};
use std::time::{Duration, Instant};

use bagwezin::{outcome, raw, Monitor, ANSWER, AREA, FIELDS, HEAD, PENDING};
use model::{Areas, Network, Pending, Station, Verdict};

mod alerts;
mod model;

struct Random(u64);

impl Random {
    fn new(seed: u64) -> Random {
        Random(seed.wrapping_mul(0x9e37_79b9_7f4a_7c15) | 1)
    }

    fn next(&mut self) -> u64 {
        self.0 ^= self.0 << 13;
        self.0 ^= self.0 >> 7;
        self.0 ^= self.0 << 17;
        self.0
    }

    fn below(&mut self, n: usize) -> usize {
        (self.next() >> 11) as usize % n
    }

    fn one_in(&mut self, n: usize) -> bool {
        self.below(n) == 0
    }
}

fn record(kind: usize, fields: &[usize]) -> Vec<u8> {
    let mut out = Vec::new();
    for x in [4 + 2 * fields.len(), kind].iter().chain(fields) {
        out.extend((*x as u16).to_le_bytes());
    }
    out
}

/// A watch of any sign, half of them with a priority.
fn watch(r: &mut Random, node: usize) -> Vec<u8> {
    let sign = 1 + r.below(3);
    if r.one_in(2) {
        record(9, &[node, sign])
    } else {
        record(9, &[node, sign, r.below(10)])
    }
}

/// A network that is accepted, unless it has more than 32 nodes.
fn network(r: &mut Random) -> Vec<u8> {
    let (mut net, mut widths, mut watched) = (Vec::new(), Vec::<usize>::new(), Vec::new());
    let most = match r.below(8) {
        0 => 33,
        1 => 32,
        _ => 1 + r.below(14),
    };
    loop {
        let n = widths.len();
        if n > 0 && r.one_in(3) {
            let node = r.below(n);
            if !watched.contains(&node) {
                watched.push(node);
                net.extend(watch(r, node));
            }
        }
        if n == most {
            return net;
        }
        if n == 0 || r.one_in(4) {
            widths.push(1 + r.below(4));
            net.extend(record(1, &[widths[n]]));
            continue;
        }
        let (left, right) = (r.below(n), r.below(n));
        let column = |r: &mut Random, w: usize| r.below(w);
        match [2, 3, 4, 5, 6, 7, 8, 10][r.below(8)] {
            2 => {
                let (c, k, v) = (column(r, widths[left]), r.below(6), r.below(4));
                net.extend(record(2, &[left, c, k, v, 0]));
                widths.push(widths[left]);
            }
            3 => {
                let (c, k, o) = (column(r, widths[left]), r.below(6), column(r, widths[left]));
                net.extend(record(3, &[left, c, k, o]));
                widths.push(widths[left]);
            }
            4 => {
                let c = 1 + r.below(4);
                let mut fields = vec![left, c];
                (0..c).for_each(|_| fields.push(r.below(widths[left])));
                net.extend(record(4, &fields));
                widths.push(c);
            }
            5 => {
                let (p, c) = (r.below(3), 1 + r.below(4));
                let mut fields = vec![left, right, p];
                (0..p).for_each(|_| fields.extend([r.below(widths[left]), r.below(widths[right])]));
                fields.push(c);
                (0..c).for_each(|_| fields.push(r.below(widths[left] + widths[right])));
                net.extend(record(5, &fields));
                widths.push(c);
            }
            10 => {
                let p = 1 + r.below(2);
                let mut fields = vec![left, right, p];
                (0..p).for_each(|_| fields.extend([r.below(widths[left]), r.below(widths[right])]));
                net.extend(record(10, &fields));
                widths.push(widths[left]);
            }
            kind => {
                let twins: Vec<usize> = (0..n).filter(|&j| widths[j] == widths[left]).collect();
                net.extend(record(kind, &[left, twins[r.below(twins.len())]]));
                widths.push(widths[left]);
            }
        }
    }
}

/// A put or a remove.
fn event(put: bool, table: usize, row: &[u32]) -> Vec<u8> {
    let mut out = record(if put { 32 } else { 33 }, &[table]);
    out.extend(row.iter().flat_map(|x| x.to_le_bytes()));
    out[0] = out.len() as u8;
    out
}

fn batch(r: &mut Random, net: &Network) -> Vec<u8> {
    let tables: Vec<usize> = (0..net.nodes.len()).filter(|&i| net.nodes[i].inputs().is_empty()).collect();
    let (most, top) = if r.one_in(6) { (66, 40) } else { (6, 4) };
    let mut out = Vec::new();
    for _ in 0..r.below(most + 1) {
        let (node, put) = (tables[r.below(tables.len())], !r.one_in(3));
        let row: Vec<u32> = (0..net.widths[node]).map(|_| r.below(top) as u32).collect();
        out.extend(event(put, node, &row));
    }
    out
}

/// One byte changed, bytes cut off or put on.
fn damage(r: &mut Random, bytes: &mut Vec<u8>) {
    match r.below(4) {
        0 if !bytes.is_empty() => {
            let cut = r.below(bytes.len());
            bytes.truncate(cut);
        }
        1 => bytes.extend((0..1 + r.below(5)).map(|_| r.next() as u8).collect::<Vec<u8>>()),
        _ if !bytes.is_empty() => {
            let at = r.below(bytes.len());
            bytes[at] = if r.one_in(2) { r.next() as u8 } else { r.below(12) as u8 };
        }
        _ => {}
    }
}

fn verdict(answer: u64) -> Verdict {
    outcome(answer).map(|_| (0, 0)).unwrap_or_else(|e| (e.number, e.place))
}

/// Areas lent with some words more than are named, which must stay.
struct Lent {
    areas: Areas,
}

const PAST: u32 = 0xdead_beef;

impl Lent {
    fn new(a: &Areas) -> Lent {
        let mut areas = a.clone();
        for area in [&mut areas.rows, &mut areas.gained, &mut areas.lost, &mut areas.head] {
            area.extend([PAST; 3]);
        }
        Lent { areas }
    }

    fn raw(&mut self) -> raw::Areas<'_> {
        let a = &mut self.areas;
        raw::Areas { rows: &mut a.rows, gained: &mut a.gained, lost: &mut a.lost, head: &mut a.head }
    }

    fn named(&self) -> Areas {
        let a = &self.areas;
        for (area, n) in [(&a.rows, AREA), (&a.gained, AREA), (&a.lost, AREA), (&a.head, HEAD)] {
            assert_eq!(area[n..], [PAST; 3], "a word past the named ones changed");
        }
        Areas {
            rows: a.rows[..AREA].to_vec(),
            gained: a.gained[..AREA].to_vec(),
            lost: a.lost[..AREA].to_vec(),
            head: a.head[..HEAD].to_vec(),
        }
    }
}

fn check(bytes: &[u8], a: &Areas) -> u64 {
    raw::check(bytes, &a.rows, &a.gained, &a.lost, &a.head)
}

/// The reader's answer and opening, on any bytes.
fn reads(bytes: &[u8]) -> Option<Network> {
    let mut answer = [7; ANSWER];
    let given = verdict(raw::read(bytes, &mut answer));
    let mut lent =
        Lent::new(&Areas { rows: vec![5; AREA], gained: vec![5; AREA], lost: vec![5; AREA], head: vec![5; HEAD] });
    let before = lent.named();
    let opened = verdict(raw::open(bytes, &mut lent.raw()));
    match Network::read(bytes) {
        Err(refusal) => {
            assert_eq!((given, opened), (refusal, refusal));
            assert_eq!(answer, [7; ANSWER], "a refusal wrote");
            assert!(lent.named() == before, "a refusal wrote");
            None
        }
        Ok(net) => {
            assert_eq!((given, opened), ((0, 0), (0, 0)));
            let mut words = [0; ANSWER];
            words[0] = net.nodes.len() as u32;
            for i in 0..net.nodes.len() {
                (words[1 + i], words[33 + i], words[65 + i]) =
                    (net.nodes[i].kind(), net.widths[i] as u32, net.levels[i] as u32);
            }
            assert_eq!(answer, words);
            assert!(lent.named() == Areas::zero());
            Some(net)
        }
    }
}

/// A batch on areas that hold the station's state, and the calls that only read.
fn steps(bytes: &[u8], station: &mut Station, batch: &[u8], room: usize) {
    let mut lent = Lent::new(&station.areas());
    assert_eq!(verdict(raw::apply(bytes, batch, &mut lent.raw())), station.apply(batch));
    let after = station.areas();
    assert!(lent.named() == after, "the areas are not the plain station's");
    assert_eq!(outcome(check(bytes, &after)), Ok(1));
    for node in 0..station.net.nodes.len() + 1 {
        reports(bytes, &station.net, &after, node, room);
    }
}

fn reports(bytes: &[u8], net: &Network, a: &Areas, node: usize, room: usize) {
    let mut out = vec![9; room];
    let given = outcome(raw::report(bytes, node as u32, &a.rows, &a.gained, &a.lost, &a.head, &mut out));
    let mut expected = vec![9; room];
    match a.report(net, node, room) {
        Err(refusal) => assert_eq!(given.unwrap_err(), bagwezin::Refusal { number: refusal.0, place: refusal.1 }),
        Ok(text) => {
            assert_eq!(given, Ok(text.len() as u32));
            expected[..text.len()].copy_from_slice(&text);
        }
    }
    assert_eq!(out, expected);
}

/// Areas with a word changed: refusal 8, or what holds of areas of good form.
fn damaged(r: &mut Random, bytes: &[u8], net: &Network, mut a: Areas, batch: &[u8]) {
    for _ in 0..1 + r.below(3) {
        let n = net.nodes.len().max(1);
        let (area, at) = match r.below(4) {
            0 => (&mut a.rows, 256 * r.below(n) + r.below(24)),
            1 => (&mut a.gained, 256 * r.below(n) + r.below(24)),
            2 => (&mut a.lost, 256 * r.below(n + 1).min(31) + r.below(256)),
            _ => (&mut a.head, r.below(HEAD)),
        };
        area[at] = if r.one_in(12) { u32::MAX } else { r.below(5) as u32 };
    }
    let (good, coherent) = (a.good_form(net), a.coherent(net));
    let given = outcome(check(bytes, &a));
    let resumed = Monitor::from_areas(bytes, &a.rows, &a.gained, &a.lost, &a.head);
    assert_eq!(resumed.map(|r| r.coherent as u32), given);
    let mut lent = Lent::new(&a);
    let applied = verdict(raw::apply(bytes, batch, &mut lent.raw()));
    if !good {
        assert_eq!(given.unwrap_err().number, 8);
        assert_eq!(applied, (8, 0));
        assert!(lent.named() == a, "a refusal wrote");
        return;
    }
    assert_eq!(given, Ok(coherent as u32));
    let mut station = Station::from(net, &a);
    let expected = station.apply(batch);
    if coherent || (9..=13).contains(&expected.0) {
        assert_eq!(applied, expected);
        assert!(lent.named() == if expected == (0, 0) { station.areas() } else { a });
    } else {
        assert!(applied == (0, 0) || applied.0 == 14 && lent.named() == a, "{:?}", applied);
        lent.named();
    }
}

fn round(seed: u64) {
    let r = &mut Random::new(seed);
    let mut bytes = network(r);
    if r.one_in(3) {
        damage(r, &mut bytes);
    }
    let Some(net) = reads(&bytes) else { return };
    let mut station = Station::open(&net);
    for _ in 0..1 + r.below(8) {
        let mut events = batch(r, &net);
        if r.one_in(6) {
            damage(r, &mut events);
        }
        let room = if r.one_in(3) { r.below(60) } else { bagwezin::REPORT };
        steps(&bytes, &mut station, &events, room);
        let more = batch(r, &net);
        damaged(r, &bytes, &net, station.areas(), &more);
    }
}

/// Rounds from the seed that BAGWEZIN_SEED names on, for BAGWEZIN_SECONDS, and so many at least; one that fails is told by its seed.
fn seeds(least: u64, mut round: impl FnMut(u64)) {
    let number = |name: &str| std::env::var(name).ok().and_then(|x| x.parse::<u64>().ok());
    let first = number("BAGWEZIN_SEED").unwrap_or(1);
    let end = Instant::now() + Duration::from_secs(number("BAGWEZIN_SECONDS").unwrap_or(5));
    let (mut seed, mut told) = (first, Instant::now());
    while seed < first + least || Instant::now() < end {
        if catch_unwind(AssertUnwindSafe(|| round(seed))).is_err() {
            panic!("failed with seed {seed}: repeat with BAGWEZIN_SEED={seed}");
        }
        seed += 1;
        if told.elapsed() > Duration::from_secs(10) {
            println!("seeds {first} to {} agree", seed - 1);
            told = Instant::now();
        }
    }
    println!("seeds {first} to {} agree", seed - 1);
}

#[test]
fn the_library_gives_what_the_model_gives() {
    seeds(50, round);
}

/// Stations on a table of width 3, and on 32 of widths 1 to 4: just opened; with rows in some tables, so that runs of
/// unused words go over several places; and after some of these are gone.
fn stations() -> Vec<(Vec<u8>, Station)> {
    let mut all = Vec::new();
    for (nodes, every) in [(1, 1), (32, 4)] {
        let bytes: Vec<u8> = (0..nodes).flat_map(|i| record(1, &[1 + (i + 2) % 4])).collect();
        let net = Network::read(&bytes).unwrap();
        let mut station = Station::open(&net);
        let mut states = vec![(bytes.clone(), station.clone())];
        for (put, count) in [(true, 3), (true, 64), (false, 2)] {
            for node in (0..nodes).filter(|node| node % 5 != 1 && (count < 64 || node % 7 == 0)) {
                let events = (0..(count + node as u32 % 3).min(64))
                    .flat_map(|x| event(put, node, &vec![x + 1; net.widths[node]]))
                    .collect::<Vec<u8>>();
                assert_eq!(station.apply(&events), (0, 0));
                states.push((bytes.clone(), station.clone()));
            }
        }
        all.extend(states.into_iter().step_by(every));
    }
    all
}

/// The indices of an area's words that are in no row, by the nodes' widths and their counts.
fn unused(net: &Network, counts: &[u32]) -> Vec<usize> {
    let is_unused = |at: &usize| {
        let (node, row, field) = (at / 256, at % 256 / 4, at % 4);
        node >= net.nodes.len() || row >= counts[node] as usize || field >= net.widths[node]
    };
    (0..AREA).filter(is_unused).collect()
}

/// Each of these words, which are 0, is set to 1 and to 2^31, one at a time, judged, and put back.
fn each_alone(words: &mut [u32], indices: &[usize], mut judge: impl FnMut(&mut [u32], usize)) {
    for &at in indices {
        for value in [1, 1 << 31] {
            words[at] = value;
            judge(words, at);
            words[at] = 0;
        }
    }
}

#[test]
fn an_unused_word_that_is_not_0_is_refused_by_8() {
    for (bytes, station) in stations() {
        let (net, mut a) = (&station.net, station.areas());
        let n = net.nodes.len();
        assert_eq!(outcome(check(&bytes, &a)), Ok(1));
        let (rows, gained, lost) = (unused(net, &a.head[1..]), unused(net, &a.head[65..]), unused(net, &a.head[97..]));
        let refused = |answer, area: &str, at| assert_eq!(verdict(answer), (8, 0), "{n} nodes, {area}, word {at}");
        each_alone(&mut a.rows, &rows, |words, at| {
            refused(raw::check(&bytes, words, &a.gained, &a.lost, &a.head), "rows", at)
        });
        each_alone(&mut a.gained, &gained, |words, at| {
            refused(raw::check(&bytes, &a.rows, words, &a.lost, &a.head), "gained", at)
        });
        each_alone(&mut a.lost, &lost, |words, at| {
            refused(raw::check(&bytes, &a.rows, &a.gained, words, &a.head), "lost", at)
        });
        let lists = [1 + n..33, 33 + n..65, 65 + n..97, 97 + n..129, 130 + a.head[129] as usize..162];
        let head: Vec<usize> = lists.into_iter().flatten().collect();
        each_alone(&mut a.head, &head, |words, at| {
            refused(raw::check(&bytes, &a.rows, &a.gained, &a.lost, words), "head", at)
        });
        assert_eq!(outcome(check(&bytes, &a)), Ok(1));
    }
}

#[test]
fn an_unused_word_of_the_pending_area_that_is_not_0_is_refused_by_17() {
    for (tables, station) in stations() {
        let n = station.net.nodes.len();
        let watches: Vec<u8> = (0..n).flat_map(|node| record(9, &[node, 1 + node % 3, node % 10])).collect();
        let bytes = [tables, watches].concat();
        let (a, mut pending) = (station.areas(), vec![0; PENDING]);
        assert_eq!(verdict(raw::fold(&bytes, &a.rows, &a.gained, &a.lost, &a.head, &mut pending)), (0, 0));
        let indices: Vec<usize> = unused(&station.net, &pending[AREA..]).into_iter().chain(AREA + n..PENDING).collect();
        let before = pending.clone();
        each_alone(&mut pending, &indices, |words, at| {
            let mut row = [7; FIELDS];
            let taken = raw::take(&bytes, &a.rows, &a.gained, &a.lost, &a.head, words, &mut row);
            assert_eq!((verdict(taken), row), ((17, 0), [7; FIELDS]), "{n} nodes, word {at}");
        });
        assert!(pending == before, "a refusal wrote");
    }
}

#[test]
fn the_last_batch_number_is_refused_by_9() {
    let bytes = record(1, &[1]);
    let net = Network::read(&bytes).unwrap();
    let mut station = Station::open(&net);
    station.number = u32::MAX - 1;
    steps(&bytes, &mut station, &[], 10);
    assert_eq!(station.number, u32::MAX);
    steps(&bytes, &mut station, &[], 10);
    steps(&bytes, &mut station, &[1], 10);
    assert_eq!(station.number, u32::MAX);
}

#[test]
fn a_no_match_has_1_or_2_pairs_and_their_length_or_is_refused_by_6() {
    for (p, size) in (0..5).flat_map(|p| (4..=30).map(move |size| (p, size))) {
        let mut bytes = [record(1, &[1]), record(10, &[&[0, 0, p][..], &[0; 10]].concat())].concat();
        bytes.truncate(6 + size);
        bytes[6] = size as u8;
        let fits = (1..=2).contains(&p) && size == 10 + 4 * p;
        assert_eq!(Network::read(&bytes).err(), if fits { None } else { Some((6, 6)) }, "p {p}, {size} bytes");
        assert_eq!(reads(&bytes).is_some(), fits);
    }
}

#[test]
fn a_watch_has_8_or_10_bytes_or_is_refused_by_6() {
    for size in 4..=20 {
        let mut bytes = [record(1, &[1]), record(9, &[0, 1, 2, 0, 0, 0, 0, 0])].concat();
        bytes.truncate(6 + size);
        bytes[6] = size as u8;
        let fits = size == 8 || size == 10;
        assert_eq!(Network::read(&bytes).err(), if fits { None } else { Some((6, 6)) }, "{size} bytes");
        assert_eq!(reads(&bytes).is_some(), fits);
    }
}

#[test]
fn a_watch_with_a_priority_above_9_is_refused_by_7() {
    for (sign, priority) in (0..5).flat_map(|sign| [0, 1, 8, 9, 10, 11, 255, 256, 0xffff].map(|p| (sign, p))) {
        let bytes = [record(1, &[1]), record(9, &[0, sign, priority])].concat();
        let fits = (1..=3).contains(&sign) && priority <= 9;
        assert_eq!(Network::read(&bytes).err(), if fits { None } else { Some((7, 6)) }, "sign {sign}, {priority}");
        assert_eq!(reads(&bytes).is_some(), fits);
    }
    // a node that is not there, and a second watch
    for (second, place) in [(record(9, &[1, 1, 0]), 16), (record(9, &[0, 1]), 16), (record(9, &[0, 1, 3]), 16)] {
        let bytes = [record(1, &[1]), record(9, &[0, 3, 9]), second].concat();
        assert_eq!(Network::read(&bytes).err(), Some((7, place)));
        assert!(reads(&bytes).is_none());
    }
}

#[test]
fn an_area_that_is_too_short_is_refused_by_1_before_anything_else() {
    for short in 0..4 {
        let mut sizes = [AREA, AREA, AREA, HEAD];
        sizes[short] -= 1;
        let mut words: Vec<Vec<u32>> = sizes.iter().map(|&n| vec![3; n]).collect();
        let before = words.clone();
        let [rows, gained, lost, head] = &mut words[..] else { unreachable!() };
        let mut a = raw::Areas { rows, gained, lost, head };
        assert_eq!(verdict(raw::open(&[], &mut a)), (1, 0));
        assert_eq!(verdict(raw::apply(&[], &[1], &mut a)), (1, 0));
        assert_eq!(verdict(raw::check(&[], a.rows, a.gained, a.lost, a.head)), (1, 0));
        assert_eq!(verdict(raw::report(&[], 0, a.rows, a.gained, a.lost, a.head, &mut [])), (1, 0));
        assert_eq!(verdict(raw::fold(&[], a.rows, a.gained, a.lost, a.head, &mut [])), (1, 0));
        assert_eq!(verdict(raw::take(&[], a.rows, a.gained, a.lost, a.head, &mut [], &mut [0; FIELDS])), (1, 0));
        assert_eq!(words, before);
    }
    assert_eq!(verdict(raw::read(&[], &mut [0; ANSWER - 1])), (1, 0));
    assert_eq!(verdict(raw::take(&[], &[], &[], &[], &[], &mut [], &mut [])), (1, 0));
}

/// Memory whose last word is followed by a page that stops the test when it is touched.
mod guarded {
    extern "C" {
        fn mmap(at: *mut u8, size: usize, protection: i32, flags: i32, fd: i32, offset: i64) -> *mut u8;
        fn mprotect(at: *mut u8, size: usize, protection: i32) -> i32;
    }

    pub fn bytes(size: usize) -> &'static mut [u8] {
        const PAGE: usize = 4096;
        let pages = size.div_ceil(PAGE) * PAGE;
        // SAFETY: a fresh private mapping of zeros that is never unmapped; the slice ends where the guard page begins.
        unsafe {
            let start = mmap(std::ptr::null_mut(), pages + PAGE, 3, 0x22, -1, 0);
            assert!(start as isize > 0 && mprotect(start.add(pages), PAGE, 0) == 0);
            std::slice::from_raw_parts_mut(start.add(pages - size), size)
        }
    }

    pub fn words(n: usize) -> &'static mut [u32] {
        let b = bytes(4 * n);
        // SAFETY: aligned, since a page's end is, and as long.
        unsafe { std::slice::from_raw_parts_mut(b.as_mut_ptr().cast(), n) }
    }
}

#[test]
fn nothing_past_the_lent_memory_is_touched() {
    let r = &mut Random(77);
    for _ in 0..20 {
        let bytes = network(r);
        let Ok(net) = Network::read(&bytes) else { continue };
        let lent = guarded::bytes(bytes.len());
        lent.copy_from_slice(&bytes);
        let mut a = raw::Areas {
            rows: guarded::words(AREA),
            gained: guarded::words(AREA),
            lost: guarded::words(AREA),
            head: guarded::words(HEAD),
        };
        let answer = guarded::words(ANSWER);
        assert_eq!(verdict(raw::read(lent, answer)), (0, 0));
        assert_eq!(verdict(raw::open(lent, &mut a)), (0, 0));
        let (pending, short) = (guarded::words(PENDING), guarded::words(PENDING - 1));
        let (row, three) = (guarded::words(FIELDS), guarded::words(FIELDS - 1));
        let (mut station, mut waiting) = (Station::open(&net), Pending::open(&net));
        for _ in 0..4 {
            let events = batch(r, &net);
            let last = guarded::bytes(events.len());
            last.copy_from_slice(&events);
            assert_eq!(verdict(raw::apply(lent, last, &mut a)), station.apply(&events));
            let named = Areas {
                rows: a.rows.to_vec(),
                gained: a.gained.to_vec(),
                lost: a.lost.to_vec(),
                head: a.head.to_vec(),
            };
            assert!(named == station.areas());
            assert_eq!(outcome(raw::check(lent, a.rows, a.gained, a.lost, a.head)), Ok(1));
            for node in 0..net.nodes.len() {
                if let Ok(text) = named.report(&net, node, bagwezin::REPORT) {
                    let out = guarded::bytes(text.len());
                    assert_eq!(
                        outcome(raw::report(lent, node as u32, a.rows, a.gained, a.lost, a.head, out)),
                        Ok(text.len() as u32)
                    );
                    assert_eq!(out, &text[..]);
                }
            }
            assert_eq!(outcome(raw::fold(lent, a.rows, a.gained, a.lost, a.head, pending)), Ok(0));
            waiting = waiting.fold(&net, &station.changes).unwrap();
            assert!(*pending == waiting.words());
            let given = outcome(raw::take(lent, a.rows, a.gained, a.lost, a.head, pending, row));
            match waiting.take(&net) {
                Some((node, next)) => assert!(given == Ok(node as u32) && row[..next.len()] == next),
                None => assert_eq!(given, Err(bagwezin::Refusal { number: 18, place: 0 })),
            }
            assert!(*pending == waiting.words());
            assert_eq!(verdict(raw::take(lent, a.rows, a.gained, a.lost, a.head, pending, three)), (1, 0));
            assert_eq!(verdict(raw::take(lent, a.rows, a.gained, a.lost, a.head, short, row)), (17, 0));
            assert_eq!(verdict(raw::fold(lent, a.rows, a.gained, a.lost, a.head, short)), (17, 0));
        }
    }
}
