//! The bench: what it says to wrong words and wrong files, that it times and counts a small folder, that it times
//! folding and taking, and the check of areas just opened.
//!
//! Where programs are compiled for more than SSE2, the bench refuses to measure, and nothing is tested.
#![cfg(not(target_feature = "avx"))]
use std::path::PathBuf;
use std::process::{Command, Output};

const ORCHARD: &str = concat!(env!("CARGO_MANIFEST_DIR"), "/../../examples/orchard");

fn bench(words: &[&str]) -> Output {
    Command::new(env!("CARGO_BIN_EXE_bench")).args(words).output().expect("the bench runs")
}

fn out(ran: &Output) -> String {
    String::from_utf8_lossy(&ran.stdout).into_owned()
}

/// It fails, says this, and prints nothing else.
fn refuses(words: &[&str], says: &str) {
    let ran = bench(words);
    let said = String::from_utf8_lossy(&ran.stderr);
    assert!(!ran.status.success() && said.contains(says), "{words:?}: {said}");
}

/// A folder of a network and a file of batches.
fn folder(name: &str, network: &[u8], batches: &[u8]) -> String {
    let path = PathBuf::from(env!("CARGO_TARGET_TMPDIR")).join(name);
    std::fs::create_dir_all(&path).expect("a folder");
    std::fs::write(path.join("network.bin"), network).expect("a network");
    std::fs::write(path.join("batch.bin"), batches).expect("batches");
    path.to_str().expect("a path in UTF-8").to_string()
}

const TABLE: [u8; 6] = [6, 0, 1, 0, 1, 0];
const PUT: [u8; 10] = [10, 0, 32, 0, 0, 0, 5, 0, 0, 0];
const MARK: [u8; 4] = [4, 0, 34, 0];

#[test]
fn help_names_every_option() {
    let help = out(&bench(&["--help"]));
    for option in ["--count", "--growth", "--alerts", "--opened", "--apply", "FOLDER"] {
        assert!(help.contains(option), "{help}");
    }
}

#[test]
fn wrong_words_are_told() {
    refuses(&["--grow"], "there is no option --grow: --help lists them");
    refuses(&["--growth", "some"], "leave out some");
    refuses(&["--growth", "no/such/folder/plot.svg"], "there is no folder no/such/folder");
    refuses(&["--alerts", "some"], "stands alone: bench --alerts");
    refuses(&["--count", "--alerts"], "stands alone: bench --alerts");
    refuses(&["--opened", "some"], "stands alone: bench --opened");
    refuses(&["--count", "--opened"], "stands alone: bench --opened");
    refuses(&["--opened", "1", "fold", "1"], "bench --opened 100 report 32");
    refuses(&["--opened", "1", "check", "12"], "bench --opened 100 report 32");
    refuses(&["--apply", "x", "some"], "'x' is not a number of batches");
    refuses(&["--apply", "1"], "--apply 100 FOLDER");
    refuses(&["no/such"], "name folders with network.bin and batch.bin");
}

#[test]
fn wrong_files_are_told() {
    let ended = [&PUT[..], &MARK].concat();
    refuses(&[&folder("no-batch", &TABLE, &[])], "it holds no batch");
    refuses(&[&folder("open-end", &TABLE, &PUT)], "batch 1 is not ended");
    refuses(&[&folder("broken", &TABLE, &[1, 0])], "batch 1 is broken at its byte 0");
    refuses(&[&folder("bad-network", &[1], &ended)], "the network is refused: refused 3 at byte 0");
    let other = [&ended[..], &[10, 0, 32, 0, 7, 0, 5, 0, 0, 0], &MARK].concat();
    refuses(&[&folder("bad-batch", &TABLE, &other)], "batch 2: refused 13 at byte 0");
    refuses(&["--apply", "2", &folder("bad-batch-again", &TABLE, &other)], "batch 2: refused 13 at byte 0");
}

#[test]
fn a_folder_is_timed() {
    let ran = bench(&[ORCHARD]);
    let (said, lines) = (out(&ran), out(&ran).lines().count());
    assert!(ran.status.success() && lines == 2, "{said}");
    let numbers: Vec<f64> = said.split_whitespace().filter_map(|word| word.parse().ok()).collect();
    let [batches, library, model, scan, by_scan, ..] = numbers[..] else { panic!("{said}") };
    assert!(batches == 3.0 && library > 0.0 && model > 0.0 && scan > 0.0, "{said}");
    assert!((by_scan - library / scan).abs() < 0.1 + 0.05 * by_scan, "{said}");
}

#[test]
fn folding_and_taking_are_timed() {
    let ran = bench(&["--alerts"]);
    let said = out(&ran);
    let lines: Vec<&str> = said.lines().skip(1).collect();
    assert!(ran.status.success() && lines.len() == 8, "{said}");
    let states = ["opened", "1 event", "64 events", "64 rows"];
    let names = ["fold", "take"].iter().flat_map(|call| states.map(|state| format!("{call}  {state} ")));
    for (line, name) in lines.iter().zip(names) {
        assert!(line.starts_with(&name), "{said}");
        let numbers: Vec<f64> = line[name.len()..].split_whitespace().filter_map(|word| word.parse().ok()).collect();
        let [call, scan, scans] = numbers[..] else { panic!("{said}") };
        assert!(call > 0.0 && scan > 0.0 && (scans - call / scan).abs() < 0.01 + 0.01 * scans, "{said}");
    }
}

#[test]
fn areas_just_opened_are_timed_and_counted() {
    let ran = bench(&["--opened"]);
    let said = out(&ran);
    assert!(ran.status.success() && said.lines().count() >= 5, "{said}");
    for (line, name) in said.lines().skip(1).zip(["report     1", "report    32", "check      1", "check     32"]) {
        assert!(line.starts_with(name), "{said}");
        let numbers: Vec<f64> = line[name.len()..].split_whitespace().filter_map(|word| word.parse().ok()).collect();
        let [call, scan, scans, ref instructions @ ..] = numbers[..] else { panic!("{said}") };
        assert!(call > 0.0 && scan > 0.0 && (scans - call / scan).abs() < 0.01 + 0.01 * scans, "{said}");
        // Every pair of the 24,738 words takes an instruction at least.
        assert!(matches!(instructions, [n] if *n > 12_369.0) || said.contains("no valgrind"), "{said}");
    }
}

#[test]
fn a_folder_is_counted_where_valgrind_is() {
    let said = out(&bench(&["--count", ORCHARD]));
    let last = said.lines().last().expect("lines");
    let counted: Vec<f64> = last.split_whitespace().filter_map(|word| word.parse().ok()).collect();
    assert!(
        matches!(counted[..], [_, instructions, _] if instructions > 1e4) || last.contains("no valgrind"),
        "{said}"
    );
}

#[test]
fn a_missing_valgrind_is_told() {
    let ran = Command::new(env!("CARGO_BIN_EXE_bench")).args(["--count", ORCHARD]).env("PATH", "").output();
    let ran = ran.expect("the bench runs");
    assert!(ran.status.success() && out(&ran).contains("there is no valgrind on the PATH"), "{}", out(&ran));
}
