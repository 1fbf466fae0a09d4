//! The wrapper as its users see it, on the order's network N.
use std::process::{Command, Output};

use bagwezin::{
    batches, cut, read, Alert, End, Monitor, NodeShape, Refusal, Resumed, ANSWER, AREA, FIELDS, HEAD, NODES, PENDING,
    PENDING_COUNTS, PRIORITY, REPORT, STACK,
};

const N: &[u8] = &[
    6, 0, 1, 0, 2, 0, // node 0: table of width 2
    14, 0, 2, 0, 0, 0, 1, 0, 5, 0, 8, 0, 0, 0, // node 1: its rows with field 1 at least 8
    10, 0, 4, 0, 1, 0, 1, 0, 0, 0, // node 2: their field 0
    6, 0, 1, 0, 1, 0, // node 3: table of width 1
    8, 0, 7, 0, 2, 0, 3, 0, // node 4: 2 without 3
    8, 0, 9, 0, 4, 0, 3, 0, // watch on 4, gained and lost
];
const MARK: &[u8] = &[4, 0, 34, 0];

fn event(kind: u8, node: u8, row: &[u32]) -> Vec<u8> {
    let mut out = vec![6 + 4 * row.len() as u8, 0, kind, 0, node, 0];
    row.iter().for_each(|x| out.extend(x.to_le_bytes()));
    out
}

fn put(node: u8, row: &[u32]) -> Vec<u8> {
    event(32, node, row)
}

/// N after its first batch.
fn first() -> Monitor {
    let mut monitor = Monitor::open(N).unwrap();
    assert_eq!(monitor.apply(&[put(0, &[5, 9]), put(0, &[5, 12])].concat()), Ok(1));
    monitor
}

/// The constants of the C header: names and values, which may be a product.
fn header() -> Vec<(String, usize)> {
    let constant = |line: &str| {
        let (name, rest) = line.trim().strip_prefix("BAGWEZIN_")?.split_once(" = ")?;
        let value = rest.split([',', '/']).next()?.split('*').map(|x| x.trim().parse::<usize>().ok());
        Some((name.to_string(), value.product::<Option<usize>>()?))
    };
    include_str!("../../../include/bagwezin.h").lines().filter_map(constant).collect()
}

#[test]
fn the_constants_are_those_of_the_header() {
    let header = header();
    let value = |name: &str| header.iter().find(|c| c.0 == name).unwrap_or_else(|| panic!("no {name}")).1;
    assert_eq!((value("NODES"), value("AREA"), value("HEAD")), (NODES, AREA, HEAD));
    assert_eq!((value("ANSWER"), value("REPORT")), (ANSWER, REPORT));
    assert_eq!((value("FIELDS"), value("PRIORITY")), (FIELDS, PRIORITY));
    assert_eq!((value("PENDING"), value("PENDING_COUNTS")), (PENDING, PENDING_COUNTS));
    assert_eq!((PENDING_COUNTS, PENDING), (AREA, AREA + NODES));
    let stacks: Vec<usize> = header.iter().filter(|c| c.0.starts_with("STACK_")).map(|c| c.1).collect();
    assert_eq!((stacks.len(), stacks.into_iter().max()), (7, Some(STACK)));
    // a text for each refusal that the header names
    let text = |number| Refusal { number, place: 0 }.text();
    assert_eq!((value("SHORT_AREA"), value("NOTHING_PENDING"), text(19)), (1, 18, "not a rule"));
    assert!((1..=18).all(|number| text(number) != "not a rule"));
}

#[test]
fn a_batch_shows_what_the_order_shows() {
    let mut monitor = first();
    assert_eq!(monitor.gained(4).collect::<Vec<_>>(), [[5]]);
    assert_eq!(monitor.rows(0).collect::<Vec<_>>(), [[5, 9], [5, 12]]);
    assert_eq!(monitor.worked().collect::<Vec<_>>(), [1, 2, 4]);
    assert_eq!(monitor.apply(&put(3, &[5])), Ok(2));
    assert_eq!((monitor.gained(4).count(), monitor.lost(4).collect::<Vec<_>>()), (0, vec![&[5][..]]));
    assert_eq!((0..6).map(|i| monitor.stamp(i)).collect::<Vec<_>>(), [1, 1, 1, 2, 2, 0]);
    assert_eq!(monitor.report(4).unwrap(), [10, 0, 65, 0, 4, 0, 5, 0, 0, 0]);
    assert_eq!(monitor.check(), Ok(true));
}

#[test]
fn a_no_match_gains_a_row_when_the_last_agreeing_one_is_lost() {
    const NETWORK: &[u8] = &[
        6, 0, 1, 0, 1, 0, // node 0: table of width 1 (block)
        6, 0, 1, 0, 2, 0, // node 1: table of width 2 (week, sprayed block)
        14, 0, 10, 0, 0, 0, 1, 0, 1, 0, 0, 0, 1, 0, // node 2: rows of 0 whose field 0 is no row's field 1 in 1
    ];
    let mut monitor = Monitor::open(NETWORK).unwrap();
    assert_eq!(monitor.node(2), Some(NodeShape { kind: 10, width: 1, level: 1 }));
    let mut changes = |batch: &[u8]| {
        monitor.apply(batch).unwrap();
        assert_eq!((monitor.worked().collect::<Vec<_>>(), monitor.check()), (vec![2], Ok(true)));
        (
            monitor.gained(2).flatten().copied().collect::<Vec<_>>(),
            monitor.lost(2).flatten().copied().collect::<Vec<_>>(),
        )
    };
    assert_eq!(changes(&put(0, &[5])), (vec![5], vec![]));
    assert_eq!(changes(&[put(1, &[21, 5]), put(1, &[22, 5])].concat()), (vec![], vec![5]));
    assert_eq!(changes(&event(33, 1, &[21, 5])), (vec![], vec![]));
    assert_eq!(changes(&event(33, 1, &[22, 5])), (vec![5], vec![]));
    // a block and its entry in one batch
    assert_eq!(changes(&[put(0, &[6]), put(1, &[22, 6])].concat()), (vec![], vec![]));
}

/// Tables of width 2 (node 0) and 1. Watched are 0, gained, without a priority; 1, gained and lost, priority 4; 2, lost, priority 9; 3, gained,
/// priority 4.
const ALERTS: &[u8] = &[
    6, 0, 1, 0, 2, 0, 6, 0, 1, 0, 1, 0, 6, 0, 1, 0, 1, 0, 6, 0, 1, 0, 1, 0, 6, 0, 1, 0, 1, 0, // nodes 0 to 4
    8, 0, 9, 0, 0, 0, 1, 0, // watch on 0
    10, 0, 9, 0, 1, 0, 3, 0, 4, 0, // watch on 1
    10, 0, 9, 0, 2, 0, 2, 0, 9, 0, // watch on 2
    10, 0, 9, 0, 3, 0, 1, 0, 4, 0, // watch on 3
];

fn remove(node: u8, row: &[u32]) -> Vec<u8> {
    event(33, node, row)
}

fn alert(node: usize, row: &[u32]) -> Result<Option<Alert>, Refusal> {
    Ok(Some(Alert { node, row: row.to_vec() }))
}

/// The tables with a row or two each, folded.
fn alerted() -> Monitor {
    let mut monitor = Monitor::open(ALERTS).unwrap();
    let rows: [(u8, &[u32]); 6] = [(0, &[7, 8]), (0, &[7, 1]), (1, &[6]), (2, &[5]), (3, &[9]), (4, &[4])];
    monitor.apply(&rows.map(|(node, row)| put(node, row)).concat()).unwrap();
    assert_eq!(monitor.fold(), Ok(()));
    monitor
}

#[test]
fn alerts_are_taken_by_priority_then_node_then_row() {
    let mut monitor = alerted();
    let waiting = |monitor: &Monitor| (0..6).map(|i| monitor.pending(i).len()).collect::<Vec<_>>();
    assert_eq!(waiting(&monitor), [2, 1, 0, 1, 0, 0]);
    assert_eq!(monitor.pending(0).collect::<Vec<_>>(), [[7, 1], [7, 8]]);
    assert_eq!(monitor.pending(usize::MAX).len(), 0);
    assert_eq!(monitor.take(), alert(1, &[6]));
    assert_eq!(monitor.take(), alert(3, &[9]));
    assert_eq!(monitor.take(), alert(0, &[7, 1]));
    assert_eq!(waiting(&monitor), [1, 0, 0, 0, 0, 0]);
    // a higher priority comes in between
    monitor.apply(&put(3, &[2])).unwrap();
    monitor.fold().unwrap();
    assert_eq!(monitor.take(), alert(3, &[2]));
    assert_eq!(monitor.take(), alert(0, &[7, 8]));
    let ended = monitor.clone();
    assert_eq!((monitor.take(), monitor.take()), (Ok(None), Ok(None)));
    assert_eq!(monitor, ended);
    assert_eq!(monitor.pending_area(), [0; PENDING]);
}

#[test]
fn lost_rows_are_pending_no_longer_and_taken_ones_only_if_they_are_gained_again() {
    let mut monitor = alerted();
    // lost at a node whose losses are not reported, and at one whose losses are
    monitor.apply(&[remove(0, &[7, 8]), remove(1, &[6])].concat()).unwrap();
    monitor.fold().unwrap();
    assert_eq!((monitor.take(), monitor.take(), monitor.take()), (alert(3, &[9]), alert(0, &[7, 1]), Ok(None)));
    // (9) stays in its table: nothing new to tell. Once it went and came, it is
    monitor.apply(&put(3, &[9])).unwrap();
    monitor.fold().unwrap();
    assert_eq!(monitor.take(), Ok(None));
    for batch in [remove(3, &[9]), put(3, &[9])] {
        monitor.apply(&batch).unwrap();
        monitor.fold().unwrap();
    }
    assert_eq!((monitor.take(), monitor.take()), (alert(3, &[9]), Ok(None)));
}

#[test]
fn folding_twice_folds_twice() {
    let mut monitor = alerted();
    let once = monitor.clone();
    assert_eq!(monitor.fold(), Ok(()));
    assert_eq!(monitor, once);
    // the rows of the last batch that were taken come in again
    assert_eq!(monitor.take(), alert(1, &[6]));
    assert_eq!(monitor.fold(), Ok(()));
    assert_eq!(monitor, once);
    // a refused batch changes nothing, and a fold after it is one more of the last that was accepted
    assert_eq!(monitor.take(), alert(1, &[6]));
    let before = monitor.clone();
    assert_eq!(monitor.apply(&[1]).unwrap_err().number, 10);
    assert_eq!(monitor, before);
    assert_eq!(monitor.fold(), Ok(()));
    assert_eq!(monitor, once);
}

#[test]
fn a_pending_area_is_stored_and_set() {
    let monitor = alerted();
    let mut words = vec![0; PENDING];
    words[..6].copy_from_slice(&[7, 1, 0, 0, 7, 8]);
    (words[256], words[3 * 256]) = (6, 9);
    words[PENDING_COUNTS..][..4].copy_from_slice(&[2, 1, 0, 1]);
    assert_eq!(monitor.pending_area(), words);

    let [rows, gained, lost, head] = monitor.areas();
    let mut again = Monitor::from_areas(ALERTS, rows, gained, lost, head).unwrap().monitor;
    assert_eq!(again.pending_area(), [0; PENDING]);
    assert_ne!(again, monitor);
    assert_eq!(again.set_pending(&[&words[..], &[7; 3]].concat()), Ok(()));
    assert_eq!(again, monitor);

    // refused by 17, and nothing is changed: too short, a count, a wrong order, no zeros at the end, nodes not so watched
    let spoilt: [(usize, u32); 6] =
        [(PENDING_COUNTS, 65), (1, 9), (2, 1), (PENDING_COUNTS + 2, 1), (4 * 256, 1), (PENDING - 1, 1)];
    for (at, word) in spoilt {
        let mut bad = words.clone();
        bad[at] = word;
        assert_eq!(again.set_pending(&bad), Err(Refusal { number: 17, place: 0 }), "word {at}");
    }
    assert_eq!(again.set_pending(&words[..PENDING - 1]), Err(Refusal { number: 17, place: 0 }));
    assert_eq!(again.set_pending(&[]), Err(Refusal { number: 17, place: 0 }));
    assert_eq!(again, monitor);
    // nothing pending is no fault
    assert_eq!((again.set_pending(&[0; PENDING]), again.take()), (Ok(()), Ok(None)));
}

#[test]
fn a_fold_above_64_rows_is_refused_by_17() {
    // 64 rows wait at node 1, which gained another one
    let mut monitor = Monitor::open(ALERTS).unwrap();
    monitor.apply(&put(1, &[100])).unwrap();
    let mut words = vec![0; PENDING];
    (0..64).for_each(|j| words[256 + 4 * j] = j as u32);
    words[PENDING_COUNTS + 1] = 64;
    monitor.set_pending(&words).unwrap();
    let before = monitor.clone();
    let refusal = monitor.fold().unwrap_err();
    assert_eq!((refusal.number, refusal.place), (17, 0));
    assert_eq!(
        refusal.to_string(),
        "refused 17: the pending area is too short or not of good form, or folding would take a node above 64 rows"
    );
    assert_eq!(monitor, before);
    // one taken, and there is room
    assert_eq!(monitor.take(), alert(1, &[0]));
    assert_eq!(monitor.fold(), Ok(()));
    assert_eq!(monitor.pending(1).map(|row| row[0]).collect::<Vec<_>>(), (1..64).chain([100]).collect::<Vec<_>>());
}

#[test]
fn refusals_carry_number_place_and_words() {
    let mut monitor = first();
    let before = monitor.clone();
    let said = |refusal: Refusal| refusal.to_string();
    assert_eq!(said(monitor.report(1).unwrap_err()), "refused 15: the node does not exist or has no watch");
    for node in [5, 1 << 32, usize::MAX] {
        assert_eq!(monitor.report(node).unwrap_err().number, 15);
        assert_eq!((monitor.node(node), monitor.rows(node).len(), monitor.stamp(node)), (None, 0, 0));
    }
    assert_eq!(said(monitor.apply(&[1, 2]).unwrap_err()), "refused 10 at byte 0: an event record's length is broken");
    let full: Vec<u8> = (0..63).flat_map(|x| put(0, &[5, 100 + x])).collect();
    assert_eq!(
        said(monitor.apply(&full).unwrap_err()),
        "refused 14 at node 0: after the batch a node has more than 64 rows"
    );
    assert_eq!(Monitor::open(&[6, 0, 1, 0, 5, 0]).unwrap_err(), Refusal { number: 7, place: 0 });
    assert_eq!(
        said(Monitor::open(&[4, 0, 11, 0]).unwrap_err()),
        "refused 4 at byte 0: the network record has a kind outside 1 to 10"
    );
    let nothing = Refusal { number: 18, place: 0 };
    assert_eq!(said(nothing), "refused 18: nothing is pending");
    assert_eq!(monitor, before, "a refusal changed something");
}

#[test]
fn the_reader_gives_shapes() {
    let nodes = read(N).unwrap();
    let shape = |kind, width, level| NodeShape { kind, width, level };
    assert_eq!(nodes, [shape(1, 2, 0), shape(2, 2, 1), shape(4, 1, 2), shape(1, 1, 0), shape(7, 1, 3)]);
    let monitor = Monitor::open(N).unwrap();
    assert_eq!((0..monitor.nodes()).map(|i| monitor.node(i).unwrap()).collect::<Vec<_>>(), nodes);
    assert_eq!(monitor.network(), N);
    assert_eq!(read(&N[1..]).unwrap_err().number, 3);
}

#[test]
fn a_station_resumes_from_its_words() {
    let monitor = first();
    let resume = |areas: &[Vec<u32>]| Monitor::from_areas(N, &areas[0], &areas[1], &areas[2], &areas[3]);
    let stored: Vec<Vec<u32>> = monitor.areas().map(<[u32]>::to_vec).into();
    assert_eq!(stored.iter().map(Vec::len).collect::<Vec<_>>(), [AREA, AREA, AREA, HEAD]);
    assert_eq!(stored.concat(), monitor.words().copied().collect::<Vec<_>>());
    assert_eq!(resume(&stored), Ok(Resumed { monitor: monitor.clone(), coherent: true }));

    // the two go on alike
    let (mut one, mut other) = (monitor, resume(&stored).unwrap().monitor);
    assert_eq!(one.apply(&put(3, &[5])), other.apply(&put(3, &[5])));
    assert_eq!(one, other);

    // longer areas are taken, and what is past the named words is left
    let longer: Vec<Vec<u32>> = stored.iter().map(|area| [&area[..], &[7; 3]].concat()).collect();
    assert_eq!(resume(&longer), resume(&stored));

    // 1: too short, before anything else
    for k in 0..4 {
        let mut short = stored.clone();
        short[k].pop();
        assert_eq!(resume(&short).unwrap_err().number, 1);
    }
    // 2 to 7: the network
    let on = |network: &[u8]| Monitor::from_areas(network, &stored[0], &stored[1], &stored[2], &stored[3]);
    assert_eq!(on(&[]).unwrap_err(), Refusal { number: 2, place: 0 });
    assert_eq!(on(&N[..N.len() - 1]).unwrap_err(), Refusal { number: 3, place: 44 });
    // 8: not of good form
    let mut bad = stored.clone();
    bad[3][1] = 65;
    assert_eq!(resume(&bad).unwrap_err(), Refusal { number: 8, place: 0 });
    // of good form, and not coherent: a row of node 1 is not in table 0
    let mut other = stored.clone();
    other[0][256] = 4;
    let resumed = resume(&other).unwrap();
    assert!(!resumed.coherent);
    assert_eq!(resumed.monitor.check(), Ok(false));
}

#[test]
fn debug_tells_numbers_and_not_32962_words() {
    let text = format!("{:?}", first());
    assert!(text.starts_with("Monitor { number: 1, worked: [1, 2, 4], nodes: [Node { shape: NodeShape { kind: 1, width: 2, level: 0 }, stamp: 1, rows: 2, gained: 2, lost: 0, pending: 0 }"), "{text}");
    assert!(text.len() < 1000, "{text}");
    assert!(format!("{:?}", alerted()).contains("stamp: 1, rows: 2, gained: 2, lost: 0, pending: 2 }"));
}

#[test]
fn monitors_go_to_other_threads() {
    fn sendable<T: Send + Sync>() {}
    sendable::<Monitor>();
    let one = first();
    let ended: Vec<Monitor> = std::thread::scope(|scope| {
        let run = |_| {
            let mut mine = one.clone();
            scope.spawn(move || {
                for i in 0..500 {
                    mine.apply(&event(if i % 2 == 0 { 32 } else { 33 }, 3, &[5])).unwrap();
                }
                mine
            })
        };
        let threads: Vec<_> = (0..4).map(run).collect();
        threads.into_iter().map(|t| t.join().unwrap()).collect()
    });
    assert!(ended.iter().all(|m| *m == ended[0] && m.number() == 501));
}

#[test]
fn a_file_is_cut_at_its_marks() {
    let (a, b) = (put(0, &[5, 9]), put(3, &[5]));
    let file = [&a[..], &b, MARK, MARK, &b, MARK].concat();
    let ab = [&a[..], &b].concat();
    let whole = vec![&ab[..], &[], &b];
    assert_eq!(cut(&file), (whole.clone(), End::Whole));
    assert_eq!(batches(&file), whole);
    let with = |more: &[u8]| [&file[..], more].concat();
    assert_eq!(cut(&with(&a)), (whole.clone(), End::Unfinished));
    assert_eq!(cut(&with(&[&a[..], &[4]].concat())), (whole.clone(), End::Broken { offset: 14 }));
    assert_eq!(cut(&with(&[3, 0, 34, 0])), (whole.clone(), End::Broken { offset: 0 }));
    assert_eq!(cut(&with(&[5, 0, 34, 0])), (whole.clone(), End::Broken { offset: 0 }));
    // a mark of another length is a record of kind 34
    assert_eq!(cut(&with(&[5, 0, 34, 0, 0])), (whole, End::Unfinished));
    assert_eq!(cut(&[]), (vec![], End::Whole));
}

/// Runs the program `areas` on N and a file of batches.
fn areas(name: &str, file: &[u8], more: &[&str]) -> (Output, Option<Vec<u8>>) {
    let folder = std::env::temp_dir().join(format!("bagwezin-areas-{}-{name}", std::process::id()));
    std::fs::create_dir_all(&folder).unwrap();
    std::fs::write(folder.join("network.bin"), N).unwrap();
    std::fs::write(folder.join("batch.bin"), file).unwrap();
    let out = folder.join("areas.bin");
    let ran = Command::new(env!("CARGO_BIN_EXE_areas")).arg(&folder).arg(&out).args(more).output().unwrap();
    let written = std::fs::read(&out).ok();
    std::fs::remove_dir_all(&folder).unwrap();
    (ran, written)
}

#[test]
fn the_program_areas_tells_how_a_file_ends() {
    let batch = [&put(0, &[5, 9])[..], &put(0, &[5, 12]), MARK].concat();
    let bytes: Vec<u8> = first().words().flat_map(|w| w.to_le_bytes()).collect();
    let cases: [(&str, Vec<u8>, &[&str], &str); 6] = [
        ("whole", batch.clone(), &[], ""),
        ("unfinished", [&batch[..], &put(3, &[5])].concat(), &[], "batch 2: unfinished"),
        (
            "broken",
            [&batch[..], &put(3, &[5]), &[1, 2]].concat(),
            &[],
            "batch 2: refused 10 at byte 10: an event record's length is broken",
        ),
        ("refused", [&batch[..], &put(1, &[5, 9]), MARK].concat(), &[], "batch 2: refused 13 at byte 0"),
        ("first", [&batch[..], &put(3, &[5]), MARK].concat(), &["1"], ""),
        ("few", batch.clone(), &["3"], "whole batches: 1, not 3"),
    ];
    for (name, file, more, said) in cases {
        let (ran, written) = areas(name, &file, more);
        let text = String::from_utf8(ran.stderr).unwrap();
        assert!(ran.status.success() && text.contains(said) && text.is_empty() == said.is_empty(), "{name}: {text}");
        assert!(written.as_ref() == Some(&bytes), "{name}: not the areas after the first batch");
    }
    let (ran, written) = areas("number", &batch, &["x"]);
    assert!(!ran.status.success() && written.is_none());
}

/// The lines of a report.
fn lines(report: &[u8]) -> String {
    let (mut out, mut rest) = (String::new(), report);
    while !rest.is_empty() {
        let (record, more) = rest.split_at(usize::from(rest[0]));
        out += &format!("{} {}", if record[2] == 64 { '+' } else { '-' }, record[4]);
        for field in record[6..].chunks(4) {
            out += &format!(" {}", u32::from_le_bytes(field.try_into().unwrap()));
        }
        out.push('\n');
        rest = more;
    }
    out
}

/// What the station program prints on two files, through the wrapper.
fn station(network: &[u8], file: &[u8]) -> String {
    let refused = |number: u32, place: u32| format!("refused {number} {place}\n");
    let mut monitor = match Monitor::open(network) {
        Ok(monitor) => monitor,
        Err(refusal) => return refused(refusal.number, refusal.place),
    };
    let (batches, end) = cut(file);
    let mut out = String::new();
    for batch in batches {
        match monitor.apply(batch) {
            Ok(number) => {
                out += &format!("batch {number}\n");
                (0..monitor.nodes())
                    .filter_map(|node| monitor.report(node).ok())
                    .for_each(|report| out += &lines(&report));
            }
            Err(refusal) => out += &refused(refusal.number, refusal.place),
        }
    }
    match end {
        End::Whole => out,
        End::Unfinished => out + "unfinished\n",
        End::Broken { offset } => out + &refused(10, offset as u32),
    }
}

#[test]
fn the_wrapper_gives_what_the_outside_vectors_have() {
    let mut folders = vec![concat!(env!("CARGO_MANIFEST_DIR"), "/../../tests/data/vectors").into()];
    let mut count = 0;
    while let Some(folder) = folders.pop() {
        let folder: std::path::PathBuf = folder;
        folders.extend(std::fs::read_dir(&folder).unwrap().map(|x| x.unwrap().path()).filter(|path| path.is_dir()));
        let read = |name: &str| std::fs::read(folder.join(name)).ok();
        let small = |name: &str| read(name).filter(|bytes| bytes.len() <= 65_536);
        let Some(expected) = read("stdout") else { continue };
        let given = match (small("network.bin"), small("batch.bin")) {
            (Some(network), Some(file)) => station(&network, &file),
            _ => "no input\n".to_string(),
        };
        assert!(given.as_bytes() == expected, "{}", folder.display());
        count += 1;
    }
    assert!(count >= 180, "{count} vectors");
}
