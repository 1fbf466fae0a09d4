//! `run` tells what the station tells, with names; `why` tells where rows come from.
mod common;

use bagwezin_tools::batches::{self, Assembled};
use bagwezin_tools::network::{Op, Record};
use bagwezin_tools::station::{run, Station};
use bagwezin_tools::why::{row, why};
use bagwezin_tools::{Network, Row};
use common::{example, example_bytes, example_network, Random, N};

/// A line of `run` on a network with made-up names, as the station prints it.
fn plain(line: &str) -> String {
    let words: Vec<&str> = line.split([' ', ':']).collect();
    match words[..] {
        ["refused", n, "at", "byte" | "node", place, ..] => format!("refused {n} {place}"),
        ["refused", n, ..] => format!("refused {n} 0"),
        ["unfinished", ..] => "unfinished".into(),
        ["no", "input", ..] => "no input".into(),
        [mark @ ("+" | "-"), node, ref fields @ ..] => {
            let values = fields.iter().map(|f| f.split_once('=').unwrap().1);
            let values: Vec<&str> = values.collect();
            format!("{mark} {} {}", &node[1..], values.join(" "))
        }
        _ => line.into(),
    }
}

#[test]
fn run_tells_what_the_station_prints_for_the_outside_vectors() {
    let mut lines = 0;
    for (name, network, bytes, stdout) in common::vectors() {
        let Ok(net) = Network::from_bytes(&network) else {
            continue;
        };
        let file = Assembled { bytes, ends: vec![] };
        let (told, fine) = run(&net, "batch.bin", &file).unwrap();
        let told: String = told.lines().map(|l| plain(l) + "\n").collect();
        assert_eq!(told, stdout, "{name}");
        let bad = ["refused", "unfinished", "no input"];
        let faults = stdout.lines().any(|l| bad.iter().any(|b| l.starts_with(b)));
        assert_eq!(fine, !faults, "{name}");
        lines += stdout.lines().count();
    }
    assert!(lines > 1000, "{lines}");
}

/// What `why` tells of a network after a batch of a file's text.
fn answer(net: &Network, events: &str, after: u32, node: &str, fields: &[&str]) -> String {
    let file = batches::assemble(net, events).unwrap();
    let mut station = Station::open(net).unwrap();
    station.play(&file.bytes, Some(after)).unwrap();
    let node = bagwezin_tools::grammar::node(net, node).unwrap();
    let row = row(net, node, fields).unwrap();
    why(&station, node, &row, false)
}

/// What `why` tells after a batch of the orchard.
fn asked(after: u32, node: &str, fields: &[&str]) -> String {
    answer(&example_network("orchard/network"), &example("orchard/batches.txt"), after, node, fields)
}

/// The orchard drawn with a minus and with a no match: its text and its bytes tell the same day.
#[test]
fn the_orchards_day_with_names() {
    let day = "batch 1\nbatch 2\n+ unsprayed block=5 week=22\n+ advice owner=70 block=5 week=22\nbatch 3\nbatch 4\nbatch 5\n- advice owner=70 block=5 week=22\nbatch 6\n";
    for path in ["orchard/network", "orchard/no-match"] {
        let net = example_network(path);
        let file = batches::assemble(&net, &example("orchard/batches.txt")).unwrap();
        let (told, fine) = run(&net, "batches.txt", &file).unwrap();
        assert_eq!((told.as_str(), fine), (day, true), "{path}.txt");
        let net = Network::from_bytes(&example_bytes(&format!("{path}.bin"))).unwrap();
        let file = Assembled { bytes: example_bytes("orchard/batch.bin"), ends: vec![] };
        let (told, fine) = run(&net, "batch.bin", &file).unwrap();
        let told: String = told.lines().map(|l| plain(l) + "\n").collect();
        assert_eq!((told, fine), (example("orchard/stdout"), true), "{path}.bin");
    }
}

/// The two networks of the orchard differ in one node alone, and every node has the same rows after every batch.
#[test]
fn the_orchards_minus_and_its_no_match_have_the_same_rows() {
    let nets = ["orchard/network", "orchard/no-match"].map(example_network);
    let [minus, no_match] = &nets;
    assert_eq!(minus.records, no_match.records);
    for (a, b) in minus.nodes.iter().zip(&no_match.nodes) {
        assert_eq!((&a.name, &a.columns, a.level), (&b.name, &b.columns, b.level));
        assert_eq!(a.op == b.op, a.name != "unsprayed");
    }
    assert_eq!(no_match.nodes[8].op, Op::NoMatch { left: 7, right: 3, pairs: vec![(0, 0), (1, 1)] });
    let file = batches::assemble(minus, &example("orchard/batches.txt")).unwrap();
    for after in 0..=6 {
        let rows = nets.each_ref().map(|net| {
            let mut station = Station::open(net).unwrap();
            station.play(&file.bytes, Some(after)).unwrap();
            (station.rows, station.moved)
        });
        assert_eq!(rows[0], rows[1], "after batch {after}");
    }
}

#[test]
fn why_an_advice_is_there() {
    let told = "after batch 4, advice (owner 70, block 5, week 22) is there
  advice (owner 70, block 5, week 22): from 1 pair of unsprayed and blocks with block = block
    unsprayed (block 5, week 22): in reached and not in sprays
      reached (block 5, week 22): from 1 row of codling
        codling (block 5, week 22, species 1): passes species = 1
          lured (block 5, week 22, species 1): from 1 pair of heavy and lures with trap = trap
            heavy (block 5, trap 102, week 22, count 12): passes count >= 8
              catches (block 5, trap 102, week 22, count 12): put in batch 3
            and lures (trap 102, species 1): put in batch 1
    and blocks (block 5, owner 70): put in batch 1
";
    assert_eq!(asked(4, "advice", &["70", "5", "22"]), told);
    assert_eq!(asked(4, "@9", &["owner=70", "week=22", "block=5"]), told);
}

#[test]
fn why_an_advice_is_not_there() {
    let sprayed = "after batch 5, advice (owner 70, block 5, week 22) is not there
  advice (owner 70, block 5, week 22): not there: no pair of unsprayed and blocks makes it
    unsprayed (block 5, week 22): not there: kept out by sprays
      sprays (block 5, week 22): put in batch 5
";
    assert_eq!(asked(5, "advice", &["70", "5", "22"]), sprayed);
    let other = asked(5, "advice", &["71", "6", "22"]);
    assert!(other.contains("codling with block 6, week 22: no such row: 1 row of lured fails species = 1\n"));
    assert!(other.contains("lured (block 6, week 22, species 2): from 1 pair of heavy and lures"));
    let gone = asked(6, "catches", &["5", "101", "22", "9"]);
    assert!(gone.ends_with("removed in batch 4\n"));
    let never = asked(6, "blocks", &["5", "71"]);
    assert!(never.ends_with("not there: no batch has put it\n"));
}

#[test]
fn why_a_row_of_a_no_match_is_there_or_not() {
    let (orchard, day) = (example_network("orchard/no-match"), example("orchard/batches.txt"));
    let unsprayed = |after: u32, week: &str| answer(&orchard, &day, after, "unsprayed", &["5", week]);
    let there = unsprayed(4, "22");
    let start = "after batch 4, unsprayed (block 5, week 22) is there
  unsprayed (block 5, week 22): in reached, and no row of sprays agrees on block = block and week = week
    reached (block 5, week 22): from 1 row of codling
";
    assert!(there.starts_with(start), "{there}");
    let sprayed = "after batch 5, unsprayed (block 5, week 22) is not there
  unsprayed (block 5, week 22): not there: kept out by 1 row of sprays with block = block and week = week
    sprays (block 5, week 22): put in batch 5
";
    assert_eq!(unsprayed(5, "22"), sprayed);
    let other = unsprayed(5, "23");
    let start = "after batch 5, unsprayed (block 5, week 23) is not there
  unsprayed (block 5, week 23): not there: not in reached
    reached (block 5, week 23): not there
";
    assert!(other.starts_with(start), "{other}");
}

/// One agreeing row on the right keeps a row out, and the last one that goes lets it in.
#[test]
fn blocks_that_were_never_sprayed() {
    let net = example_network("pictures/no-match/network");
    let events = "put blocks 5 70
put blocks 6 71
put sprays 5 21
end
put sprays 5 22
put sprays 6 22
end
remove sprays 5 21
end
remove sprays 5 22
end
";
    let file = batches::assemble(&net, events).unwrap();
    let day = "batch 1
+ never block=6 owner=71
batch 2
- never block=6 owner=71
batch 3
batch 4
+ never block=5 owner=70
";
    assert_eq!(run(&net, "events", &file).unwrap(), (day.into(), true));
    let never = |after: u32| answer(&net, events, after, "never", &["5", "70"]);
    let kept = "after batch 2, never (block 5, owner 70) is not there
  never (block 5, owner 70): not there: kept out by 2 rows of sprays with block = block
    sprays (block 5, week 21): put in batch 1
    sprays (block 5, week 22): put in batch 2
";
    assert_eq!(never(2), kept);
    let there = "after batch 4, never (block 5, owner 70) is there
  never (block 5, owner 70): in blocks, and no row of sprays agrees on block = block
    blocks (block 5, owner 70): put in batch 1
";
    assert_eq!(never(4), there);
}

/// A network with its watches' priorities left out, and how many there were.
fn without_priorities(net: &Network) -> (Network, usize) {
    let (mut plain, mut count) = (net.clone(), 0);
    for record in &mut plain.records {
        if let Record::Watch { priority, .. } = record {
            count += usize::from(priority.take().is_some());
        }
    }
    assert_eq!(net.bytes().len(), plain.bytes().len() + 2 * count);
    (plain, count)
}

#[test]
fn a_day_with_priorities() {
    let net = example_network("pictures/priorities/network");
    let events = "put lures 1 1
put catches 5 1 22 9
put catches 6 2 22 3
end
put sprays 5 22
remove lures 1 1
put lures 2 1
end
remove catches 5 1 22 9
end
";
    let file = batches::assemble(&net, events).unwrap();
    let day = "batch 1
+ reached block=5 week=22
+ unsprayed block=5 week=22
+ unlured trap=2 block=6
batch 2
- lures trap=1 species=1
- unsprayed block=5 week=22
+ unlured trap=1 block=5
batch 3
";
    let (plain, count) = without_priorities(&net);
    assert_eq!(count, 2);
    for net in [&net, &plain] {
        assert_eq!(run(net, "events", &file).unwrap(), (day.into(), true));
    }
    let unlured = "after batch 2, unlured (trap 1, block 5) is there
  unlured (trap 1, block 5): in standing, and no row of lures agrees on trap = trap
    standing (trap 1, block 5): from 1 row of catches
      catches (block 5, trap 1, week 22, count 9): put in batch 1
";
    assert_eq!(answer(&net, events, 2, "unlured", &["1", "5"]), unlured);
}

/// Priorities change no line of the station.
#[test]
fn random_networks_run_alike_without_their_priorities() {
    let (mut left_out, mut changes) = (0, 0);
    for seed in 0..400 {
        let mut r = Random::new(seed + 5_000_000);
        let made = common::network(&mut r);
        let net = Network::from_bytes(&made.bytes).unwrap();
        let file = Assembled { bytes: common::batches(&mut r, &made), ends: vec![] };
        let (plain, count) = without_priorities(&net);
        let told = run(&net, "batch.bin", &file).unwrap();
        assert_eq!(told, run(&plain, "batch.bin", &file).unwrap(), "seed {seed}");
        left_out += count;
        changes += told.0.lines().filter(|l| l.starts_with(['+', '-'])).count();
    }
    assert!(left_out > 200 && changes > 200, "{left_out} {changes}");
}

#[test]
fn a_row_is_all_of_its_fields_once() {
    let net = Network::assemble(N).unwrap();
    let told = |words: &[&str]| row(&net, 0, words).unwrap_err();
    let form = "a row of 'catches' is 2 numbers, or block=NUMBER count=NUMBER";
    assert_eq!(told(&["1"]), form);
    assert_eq!(told(&["1", "2", "3"]), form);
    assert_eq!(told(&["block=1", "block=2"]), form);
    assert_eq!(told(&["row=1", "2"]), "'catches' has no column 'row' (it has block, count)");
    assert_eq!(told(&["1", "x"]), "'x' is no number from 0 to 4294967295");
}

/// Hands a random network and its station after some batches to a test.
fn with_random_station(seed: u64, test: impl FnOnce(&Network, &Station)) {
    let mut r = Random::new(seed);
    let made = common::network(&mut r);
    let net = Network::from_bytes(&made.bytes).unwrap();
    let mut station = Station::open(&net).unwrap();
    for _ in 0..4 {
        station.play(&common::batches(&mut r, &made), None).unwrap();
    }
    test(&net, &station);
}

/// Asks for every row of every node, and for rows with one field changed: the answer ends, and its tables' rows are there.
#[test]
fn why_answers_for_random_networks() {
    let mut asked = 0;
    for seed in 0..400 {
        with_random_station(seed, |net, station| {
            for node in 0..net.nodes.len() {
                let rows: Vec<Row> = station.rows[node].iter().take(3).cloned().collect();
                for row in rows {
                    let told = why(station, node, &row, false);
                    assert!(told.contains(" is there\n") && told.contains("put in batch"), "{told}");
                    let mut other = row.clone();
                    other[0] ^= 1;
                    if !station.rows[node].contains(&other) {
                        let told = why(station, node, &other, false);
                        assert!(told.contains(" is not there\n"), "{told}");
                    }
                    asked += 1;
                }
            }
        });
    }
    assert!(asked > 1000, "{asked}");
}

/// Asks for every left row of every no match: it is there where no right row agrees, and else the right rows that keep it out are counted.
#[test]
fn why_counts_the_right_rows_that_keep_a_row_out() {
    let (mut there, mut kept) = (0, 0);
    for seed in 0..1000 {
        with_random_station(seed + 4_000_000, |net, station| {
            for node in 0..net.nodes.len() {
                let Op::NoMatch { left, right, pairs } = &net.nodes[node].op else {
                    continue;
                };
                for row in &station.rows[*left] {
                    let agrees = |other: &&Row| pairs.iter().all(|&(a, b)| row[a] == other[b]);
                    let count = station.rows[*right].iter().filter(agrees).count();
                    let reason = match count {
                        0 => format!(": in n{left}, and no row of n{right} agrees on "),
                        1 => format!(": not there: kept out by 1 row of n{right} with "),
                        n => format!(": not there: kept out by {n} rows of n{right} with "),
                    };
                    let told = why(station, node, row, false);
                    assert!(told.lines().nth(1).unwrap().contains(&reason), "{told}");
                    assert_eq!(station.rows[node].contains(row), count == 0, "seed {seed}, node {node}: {row:?}");
                    there += usize::from(count == 0);
                    kept += usize::from(count > 0);
                }
            }
        });
    }
    assert!(there > 200 && kept > 200, "{there} {kept}");
}
