//! The command line: what it prints where, and its exit status.
mod common;

use std::fs::File;
use std::path::PathBuf;
use std::process::{Command, Output, Stdio};

struct Told {
    status: i32,
    out: String,
    err: String,
}

fn told(output: Output) -> Told {
    Told {
        status: output.status.code().unwrap(),
        out: String::from_utf8(output.stdout).unwrap(),
        err: String::from_utf8(output.stderr).unwrap(),
    }
}

fn command(args: &[&str]) -> Command {
    let mut c = Command::new(env!("CARGO_BIN_EXE_bagwezin-tools"));
    c.args(args).current_dir(common::root());
    c
}

fn tool(args: &[&str]) -> Told {
    told(command(args).output().unwrap())
}

fn bytes(path: &str) -> Vec<u8> {
    std::fs::read(common::root().join(path)).unwrap()
}

/// A file of its own for a test.
fn made(name: &str, bytes: impl AsRef<[u8]>) -> String {
    let path = PathBuf::from(env!("CARGO_TARGET_TMPDIR")).join(name);
    std::fs::write(&path, bytes).unwrap();
    path.to_str().unwrap().into()
}

const NETWORK: &str = "examples/orchard/network.txt";
const NETWORK_BIN: &str = "examples/orchard/network.bin";
const NO_MATCH: &str = "examples/orchard/no-match.txt";
const NO_MATCH_BIN: &str = "examples/orchard/no-match.bin";
const PRIORITIES: &str = "examples/pictures/priorities/network.txt";
const BATCHES: &str = "examples/orchard/batches.txt";
const BATCHES_BIN: &str = "examples/orchard/batch.bin";
const NAMES: [&str; 8] = ["network", "text", "batches", "events", "check", "run", "why", "draw"];

#[test]
fn help_is_on_standard_output() {
    for args in [&["--help"][..], &["-h"], &["help"]] {
        let t = tool(args);
        assert_eq!((t.status, t.err.as_str()), (0, ""));
        for name in NAMES {
            assert!(t.out.contains(&format!("\n  {name} ")));
        }
    }
    for name in NAMES {
        let t = tool(&[name, "--help"]);
        assert_eq!((t.status, t.err.as_str()), (0, ""));
        assert!(t.out.contains(&format!("bagwezin-tools {name} ")), "{}", t.out);
    }
}

/// Every example of the help runs, outputs going to a folder of the test.
#[test]
fn the_examples_of_the_help_run() {
    let help = tool(&["--help"]).out;
    let lines = help.lines().filter_map(|l| l.trim().strip_prefix("bagwezin-tools "));
    let mut ran = 0;
    for line in lines {
        let words: Vec<String> = line
            .split(' ')
            .map(|w| match w {
                "network.bin" | "batch.bin" | "after.svg" => made(&format!("help-{w}"), ""),
                _ => w.into(),
            })
            .collect();
        let t = tool(&words.iter().map(String::as_str).collect::<Vec<_>>());
        assert_eq!((t.status, t.err.as_str()), (0, ""), "{line}");
        ran += 1;
    }
    assert_eq!(ran, NAMES.len());
}

#[test]
fn wrong_command_lines_exit_2() {
    let list: [(&[&str], &str); 10] = [
        (&[], "usage: bagwezin-tools COMMAND"),
        (&["draws"], "there is no command 'draws': there are network, text,"),
        (&["text"], "text: wrong arguments\nusage:\n  text NETWORK\n"),
        (&["text", NETWORK_BIN, "x"], "text: wrong arguments"),
        (&["network", NETWORK], "network: wrong arguments"),
        (&["run", NETWORK], "run: wrong arguments"),
        (&["run", NETWORK, BATCHES, "--all"], "run: it takes no --all"),
        (&["why", NETWORK, BATCHES, "advice", "--after"], "why: --after needs a value after it"),
        (&["why", NETWORK, BATCHES, "advice", "--after", "x"], "why: --after: 'x' is no number"),
        (&["draw", NETWORK, "--picture"], "draw: there is no option --picture"),
    ];
    for (args, start) in list {
        let t = tool(args);
        assert_eq!((t.status, t.out.as_str()), (2, ""), "{args:?}");
        assert!(t.err.contains(start), "{args:?}: {}", t.err);
    }
}

#[test]
fn bad_input_exits_1_with_file_and_line() {
    let wrong = made("wrong.txt", "table a x\nselect b = a where y = 1\n");
    let latin = made("latin.txt", b"table a x\n# \xe4\n");
    let short = made("short.bin", [6, 0, 1]);
    let pairless = made("pairless.bin", [6, 0, 1, 0, 1, 0, 10, 0, 10, 0, 0, 0, 0, 0, 0, 0]);
    let onless = made("onless.txt", "table a x\nnomatch b = a a\n");
    let above = made("above.bin", [6, 0, 1, 0, 1, 0, 10, 0, 9, 0, 0, 0, 1, 0, 10, 0]);
    let too_high = made("too-high.txt", "table a x\nwatch a both priority 10\n");
    let over = made("over.txt", "put sprays 5 22\nput sprays 5\nend\n");
    let list: [(&[&str], String); 16] = [
        (&["text", NETWORK], format!("{NETWORK}: this is text already")),
        (&["events", NETWORK, BATCHES], format!("{BATCHES}: this is text already")),
        (&["network", &wrong, "/dev/null"], format!("{wrong}:2: 'a' has no column 'y' (it has x)\n")),
        (&["network", &latin, "/dev/null"], format!("{latin}:2: this is no text in UTF-8\n")),
        (&["network", NETWORK_BIN, "/dev/null"], format!("{NETWORK_BIN}: this is no text but bytes")),
        (&["network", "nowhere.txt", "/dev/null"], "nowhere.txt: No such file".into()),
        (&["text", &short], format!("{short}: refused 3 at byte 0: a network record's length is broken (3 bytes remain, a record has at least 4)\n")),
        (&["check", &short], format!("{short}: refused 3 at byte 0")),
        (&["text", &pairless], format!("{pairless}: refused 6 at byte 6: ")),
        (&["network", &onless, "/dev/null"], format!("{onless}:2: 'on' is missing at the end\n")),
        (&["text", &above], format!("{above}: refused 7 at byte 6: ")),
        (&["network", &too_high, "/dev/null"], format!("{too_high}:2: '10' is no priority: a priority is 0 to 9\n")),
        (&["batches", NETWORK, &over, "/dev/null"], format!("{over}:2: 1 number, and a row of 'sprays' has 2 (block, week)\n")),
        (&["run", NETWORK, &over], format!("{over}:2: ")),
        (&["why", NETWORK, BATCHES, "advise", "1"], format!("{NETWORK}: there is no node 'advise'")),
        (&["why", NETWORK, BATCHES, "sprays", "5", "22", "--after", "7"], format!("{BATCHES}: there is no batch 7: the last one that is accepted is batch 6\n")),
    ];
    for (args, start) in list {
        let t = tool(args);
        assert_eq!((t.status, t.out.as_str()), (1, ""), "{args:?}");
        assert!(t.err.starts_with(&start), "{args:?}: {}", t.err);
    }
}

#[test]
fn text_prints_nothing_for_a_refused_network() {
    let mut refused = 0;
    for (name, network, _, _) in common::vectors() {
        let Err(refusal) = bagwezin_tools::network::judged(&network) else {
            continue;
        };
        if network.len() < 2000 {
            let t = tool(&["text", &made(&format!("refused-{name}.bin"), &network)]);
            assert_eq!((t.status, t.out.as_str()), (1, ""), "{name}");
            assert!(t.err.contains(&format!(": {refusal}")), "{}", t.err);
            refused += 1;
        }
    }
    assert!(refused > 30);
}

#[test]
fn a_full_disk_is_told() {
    for args in [
        &["network", NETWORK, "/dev/full"][..],
        &["batches", NETWORK, BATCHES, "/dev/full"],
        &["draw", NETWORK, "/dev/full"],
        &["draw", NETWORK, "/dev/full", "--batches", BATCHES],
    ] {
        let t = tool(args);
        assert_eq!(t.status, 1, "{args:?}");
        assert!(t.err.starts_with("/dev/full: No space left"), "{}", t.err);
    }
    for args in [
        &["--help"][..],
        &["text", NETWORK_BIN],
        &["events", NETWORK, BATCHES_BIN],
        &["check", NETWORK, BATCHES],
        &["run", NETWORK, BATCHES],
        &["why", NETWORK, BATCHES, "sprays", "5", "22"],
    ] {
        let full = File::options().write(true).open("/dev/full").unwrap();
        let output = command(args).stdout(full).stderr(Stdio::piped()).output();
        let t = told(output.unwrap());
        assert_eq!(t.status, 1, "{args:?}");
        assert!(t.err.starts_with("standard output: No space left"), "{}", t.err);
    }
}

#[test]
fn a_full_disk_behind_standard_error_is_no_panic() {
    for (args, status) in [(&["draws"][..], 2), (&["text", "nowhere.bin"], 1)] {
        let full = File::options().write(true).open("/dev/full").unwrap();
        assert_eq!(command(args).stderr(full).status().unwrap().code(), Some(status));
    }
}

#[test]
fn text_and_events_come_back() {
    for network in [NETWORK_BIN, NO_MATCH_BIN] {
        let text = tool(&["text", network]);
        let (path, out) = (made("again.txt", &text.out), made("again.bin", ""));
        assert_eq!(tool(&["network", &path, &out]).status, 0);
        assert_eq!(bytes(&out), bytes(network));
        let events = tool(&["events", &path, BATCHES_BIN]);
        let events = made("again-events.txt", &events.out);
        assert_eq!(tool(&["batches", &path, &events, &out]).status, 0);
        assert_eq!(bytes(&out), bytes(BATCHES_BIN));
    }
}

/// The files of the orchard with a no match are made from its text, and its day is told as that with the minus.
#[test]
fn the_orchard_with_a_no_match() {
    let (network, picture) = (made("no-match.bin", ""), made("no-match.svg", ""));
    assert_eq!(tool(&["network", NO_MATCH, &network]).status, 0);
    assert_eq!(bytes(&network), bytes(NO_MATCH_BIN));
    assert_eq!(tool(&["draw", NO_MATCH, &picture]).status, 0);
    assert!(bytes(&picture) == bytes("examples/orchard/no-match.svg"));
    let t = tool(&["check", NO_MATCH_BIN, BATCHES_BIN]);
    let accepted = "accepted: 10 nodes, 2 watches, levels 0 to 6";
    assert_eq!(t.out, format!("{NO_MATCH_BIN}: {accepted}\n{BATCHES_BIN}: accepted: 6 batches\n"));
    let [minus, no_match] = [NETWORK, NO_MATCH].map(|n| tool(&["run", n, BATCHES]));
    assert!(minus.status == 0 && minus.out.contains("\n+ advice owner=70 block=5 week=22\n"), "{}", minus.out);
    assert_eq!((no_match.status, no_match.out), (0, minus.out));
    let t = tool(&["why", NO_MATCH, BATCHES, "advice", "70", "5", "22", "--after", "5"]);
    let kept = "\n    unsprayed (block 5, week 22): not there: kept out by 1 row of sprays with block = block and week = week\n";
    assert!(t.status == 0 && t.out.contains(kept), "{}", t.out);
}

/// The example with priorities: its bytes come back with them, and its picture is the stored one.
#[test]
fn watches_with_a_priority() {
    let [network, again, picture] = ["priorities.bin", "priorities-again.bin", "priorities.svg"].map(|n| made(n, ""));
    assert_eq!(tool(&["network", PRIORITIES, &network]).status, 0);
    let t = tool(&["text", &network]);
    let watches = "\nwatch n5 both priority 9\nwatch n7 gained priority 4\nwatch n4 gained\nwatch n1 lost\n";
    assert!(t.status == 0 && t.out.ends_with(watches), "{}", t.out);
    assert_eq!(tool(&["network", &made("priorities.txt", &t.out), &again]).status, 0);
    assert_eq!(bytes(&again), bytes(&network));
    let t = tool(&["check", &network]);
    assert_eq!((t.status, t.out), (0, format!("{network}: accepted: 8 nodes, 4 watches, levels 0 to 3\n")));
    assert_eq!(tool(&["draw", PRIORITIES, &picture]).status, 0);
    assert!(bytes(&picture) == bytes("examples/pictures/priorities/network.svg"));
}

#[test]
fn more_bytes_than_the_station_reads_are_warned_of() {
    let batch = "put sprays 5 22\n".repeat(60) + "end\n";
    let text = made("long.txt", batch.repeat(80));
    let out = made("long.bin", "");
    let t = tool(&["batches", NETWORK, &text, &out]);
    let size = 80 * (60 * 14 + 4);
    assert_eq!(t.status, 0);
    assert_eq!(
        t.err,
        format!("{text}: warning: this makes {size} bytes; the station program reads no file above 65536: split it\n")
    );
    assert_eq!(std::fs::metadata(&out).unwrap().len(), size);
    let t = tool(&["run", NETWORK, &out]);
    assert_eq!(t.out, format!("no input: {out} has {size} bytes, and the station reads at most 65536\n"));
    assert_eq!(t.status, 1);
}

#[test]
fn check_and_run_tell_refusals_in_words() {
    let rows: String = (0..33).map(|k| format!("put lures {k} 1\n")).collect();
    let more: String = (33..66).map(|k| format!("put lures {k} 1\n")).collect();
    let text = made("over-64.txt", format!("{rows}end\n{more}end\nput lures 1 2\nend\nput lures 1 3\nunfinished\n"));
    let refusal = format!("refused 14 at node 1 (lures): after the batch a node has more than 64 rows [{text}:68]");
    let rest = "unfinished: 1 record after the last mark, not applied";
    let t = tool(&["run", NETWORK, &text]);
    assert_eq!((t.status, t.out), (1, format!("batch 1\n{refusal}\nbatch 2\n{rest}\n")));
    let t = tool(&["check", NETWORK, BATCHES, &text, BATCHES_BIN]);
    let told = format!(
        "{NETWORK}: accepted: 10 nodes, 2 watches, levels 0 to 6\n{BATCHES}: accepted: 6 batches\n{text}: not all accepted\n  batch 2 of the file: {refusal}\n  {rest}\n{BATCHES_BIN}: accepted: 6 batches\n"
    );
    assert_eq!((t.status, t.out), (1, told));
}

#[test]
fn the_picture_is_drawn_without_graphviz_too() {
    let (built_in, fallen_back) = (made("built-in.svg", ""), made("fallen-back.svg", ""));
    assert_eq!(tool(&["draw", NETWORK, &built_in]).status, 0);
    let mut without = command(&["draw", NETWORK, &fallen_back, "--dot"]);
    let t = told(without.env("PATH", "").output().unwrap());
    assert_eq!((t.status, t.out.as_str()), (0, ""));
    assert_eq!(t.err, "Graphviz (dot) is not installed: the built-in layout serves\n");
    assert!(bytes(&built_in) == bytes(&fallen_back));
    let graph = made("graph.dot", "");
    assert_eq!(tool(&["draw", "--dot", NETWORK, &graph]).status, 0);
    assert!(bytes(&graph).starts_with(b"digraph network {"));
}
