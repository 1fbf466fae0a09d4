//! The command line.
use std::ffi::OsString;
use std::io::{ErrorKind, Write};
use std::path::Path;

use crate::batches::{self, Assembled, FILE};
use crate::draw::{self, Held};
use crate::grammar::{counted, Problem};
use crate::station::{run, Station};
use crate::{grammar, why, Network};

/// A command: its name, its arguments, what it does, and an example.
struct Command {
    name: &'static str,
    arguments: &'static str,
    says: &'static str,
    example: &'static str,
    run: fn(&Arguments) -> Result<Done, Failure>,
}

const COMMANDS: [Command; 8] = [
    Command {
        name: "network",
        arguments: "TEXT OUT.bin",
        says: "a network's bytes from its text",
        example: "network examples/orchard/network.txt network.bin",
        run: network,
    },
    Command {
        name: "text",
        arguments: "NETWORK",
        says: "the text of a network",
        example: "text examples/orchard/network.bin",
        run: text,
    },
    Command {
        name: "batches",
        arguments: "NETWORK TEXT OUT.bin",
        says: "a file of batches from its text",
        example: "batches examples/orchard/network.txt examples/orchard/batches.txt batch.bin",
        run: assemble_batches,
    },
    Command {
        name: "events",
        arguments: "NETWORK BATCHES",
        says: "the text of a file of batches",
        example: "events examples/orchard/network.txt examples/orchard/batch.bin",
        run: events,
    },
    Command {
        name: "check",
        arguments: "NETWORK [BATCHES ...]",
        says: "what the library says to a network, and to files of batches for it",
        example: "check examples/orchard/network.bin examples/orchard/batch.bin",
        run: check,
    },
    Command {
        name: "run",
        arguments: "NETWORK BATCHES",
        says: "the station's lines with names, and refusals in words",
        example: "run examples/orchard/network.txt examples/orchard/batch.bin",
        run: run_station,
    },
    Command {
        name: "why",
        arguments: "NETWORK BATCHES NODE ROW [--after K] [--all]",
        says: "why a row is at a node (after batch K), down to the tables' rows; or why not",
        example: "why examples/orchard/network.txt examples/orchard/batches.txt advice 70 5 22 --after 4",
        run: tell_why,
    },
    Command {
        name: "draw",
        arguments: "NETWORK OUT.svg [AREAS.bin] [--batches BATCHES [--after K]] [--dot]",
        says: "a picture, with rows and last changes from a station's areas or from batches",
        example: "draw examples/orchard/network.txt after.svg --batches examples/orchard/batches.txt --after 5",
        run: draw_network,
    },
];

const NOTES: &str =
    "NETWORK and BATCHES are text or bytes: a file is bytes if its name ends in .bin or if it has a zero byte.
A node is a name, or @ and its number. ROW is the row's numbers, or COLUMN=NUMBER for each column, as `run` prints it.
--dot hands the picture to Graphviz if that is installed; with an OUT that ends in .dot the graph itself is written.
Exit status: 0 done, 1 bad input or a refusal, 2 a wrong command line. The grammar of the texts: docs/TEXT.md.
";

/// Why a command was not done.
enum Failure {
    /// A wrong command line.
    Usage(String),
    /// Bad input.
    Input(String),
}

/// What a command prints, and whether all of its input was accepted.
struct Done {
    text: String,
    fine: bool,
}

impl Done {
    fn quiet() -> Result<Done, Failure> {
        Done::text(String::new())
    }

    fn text(text: String) -> Result<Done, Failure> {
        Ok(Done { text, fine: true })
    }
}

fn input(text: String) -> Failure {
    Failure::Input(text)
}

/// The words of a command line, its options taken out.
#[derive(Default)]
struct Arguments {
    words: Vec<String>,
    after: Option<u32>,
    batches: Option<String>,
    all: bool,
    dot: bool,
}

impl Arguments {
    fn new(given: &[String]) -> Result<Arguments, Failure> {
        let mut out = Arguments::default();
        let mut rest = given.iter();
        while let Some(word) = rest.next() {
            let mut value = || {
                let missing = || Failure::Usage(format!("{word} needs a value after it"));
                rest.next().ok_or_else(missing)
            };
            match word.as_str() {
                "--all" => out.all = true,
                "--dot" => out.dot = true,
                "--batches" => out.batches = Some(value()?.clone()),
                "--after" => {
                    let number = grammar::number(value()?);
                    let number = number.map_err(|e| Failure::Usage(format!("--after: {e}")))?;
                    out.after = Some(number);
                }
                w if w.starts_with("--") => return Err(Failure::Usage(format!("there is no option {w}"))),
                _ => out.words.push(word.clone()),
            }
        }
        Ok(out)
    }

    /// The options that are given.
    fn options(&self) -> Vec<&'static str> {
        let given = [
            ("--after", self.after.is_some()),
            ("--batches", self.batches.is_some()),
            ("--all", self.all),
            ("--dot", self.dot),
        ];
        let given = given.iter().filter(|x| x.1);
        given.map(|x| x.0).collect()
    }

    fn words(&self) -> Vec<&str> {
        self.words.iter().map(String::as_str).collect()
    }
}

/// A wrong number of words; the caller adds the command's form.
fn misused() -> Failure {
    Failure::Usage(String::new())
}

fn bytes_of(path: &str) -> Result<Vec<u8>, Failure> {
    std::fs::read(path).map_err(|e| input(format!("{path}: {e}")))
}

fn write(path: &str, bytes: &[u8]) -> Result<Done, Failure> {
    std::fs::write(path, bytes).map_err(|e| input(format!("{path}: {e}")))?;
    Done::quiet()
}

/// Whether a file holds bytes of records rather than text.
fn is_bytes(path: &str, bytes: &[u8]) -> bool {
    path.ends_with(".bin") || bytes.contains(&0)
}

/// The bytes of a file that must not be text already.
fn records_of(path: &str) -> Result<Vec<u8>, Failure> {
    let bytes = bytes_of(path)?;
    let letter = |c: char| !c.is_control() || c.is_whitespace();
    let is_text = std::str::from_utf8(&bytes).is_ok_and(|t| !t.is_empty() && t.chars().all(letter));
    if is_text && !is_bytes(path, &bytes) {
        return Err(input(format!("{path}: this is text already: the commands network and batches make bytes of it")));
    }
    Ok(bytes)
}

fn as_text(path: &str, bytes: Vec<u8>) -> Result<String, Failure> {
    if bytes.contains(&0) {
        let text = format!("{path}: this is no text but bytes: the commands text and events make text of them");
        return Err(input(text));
    }
    String::from_utf8(bytes).map_err(|e| {
        let at = e.utf8_error().valid_up_to();
        let line = 1 + e.as_bytes()[..at].iter().filter(|&&b| b == b'\n').count();
        input(format!("{path}:{line}: this is no text in UTF-8"))
    })
}

fn located<T>(path: &str, answer: Result<T, Problem>) -> Result<T, Failure> {
    answer.map_err(|e| input(format!("{path}:{e}")))
}

fn from_text(path: &str) -> Result<Network, Failure> {
    let text = as_text(path, bytes_of(path)?)?;
    located(path, Network::assemble(&text))
}

/// A network from its text or its bytes.
fn network_of(path: &str) -> Result<Network, Failure> {
    let bytes = bytes_of(path)?;
    if is_bytes(path, &bytes) {
        return Network::from_bytes(&bytes).map_err(|e| input(format!("{path}: {}", e.1)));
    }
    located(path, Network::assemble(&as_text(path, bytes)?))
}

/// A file of batches from its text or its bytes.
fn batches_of(net: &Network, path: &str) -> Result<Assembled, Failure> {
    let bytes = bytes_of(path)?;
    if is_bytes(path, &bytes) {
        return Ok(Assembled { bytes, ends: Vec::new() });
    }
    located(path, batches::assemble(net, &as_text(path, bytes)?))
}

fn network(given: &Arguments) -> Result<Done, Failure> {
    match given.words()[..] {
        [text, out] => write(out, &from_text(text)?.bytes()),
        _ => Err(misused()),
    }
}

fn text(given: &Arguments) -> Result<Done, Failure> {
    let [path] = given.words()[..] else {
        return Err(misused());
    };
    let net = Network::from_bytes(&records_of(path)?);
    Done::text(net.map_err(|e| input(format!("{path}: {}", e.1)))?.text())
}

fn assemble_batches(given: &Arguments) -> Result<Done, Failure> {
    let [net, path, out] = given.words()[..] else {
        return Err(misused());
    };
    let net = network_of(net)?;
    let text = as_text(path, bytes_of(path)?)?;
    let file = located(path, batches::assemble(&net, &text))?;
    let size = file.bytes.len();
    if size > FILE {
        complain(&format!(
            "{path}: warning: this makes {size} bytes; the station program reads no file above {FILE}: split it"
        ));
    }
    write(out, &file.bytes)
}

fn events(given: &Arguments) -> Result<Done, Failure> {
    let [net, path] = given.words()[..] else {
        return Err(misused());
    };
    let net = network_of(net)?;
    let text = batches::text(&net, &records_of(path)?);
    Done::text(text.map_err(|e| input(format!("{path}: {e}")))?)
}

fn check(given: &Arguments) -> Result<Done, Failure> {
    let words = given.words();
    let Some((first, files)) = words.split_first() else {
        return Err(misused());
    };
    let net = network_of(first)?;
    let watches = net.records.len() - net.nodes.len();
    let top = net.nodes.iter().map(|n| n.level).max().unwrap_or(0);
    let mut done = Done {
        text: format!(
            "{first}: accepted: {}, {}, levels 0 to {top}\n",
            counted(net.nodes.len(), "node", "nodes"),
            counted(watches, "watch", "watches")
        ),
        fine: true,
    };
    for path in files {
        let (text, fine) = match check_file(&net, path) {
            Ok(told) => told,
            Err(Failure::Input(text) | Failure::Usage(text)) => (text, false),
        };
        done.text += &format!("{text}\n");
        done.fine &= fine;
    }
    Ok(done)
}

/// The library's words on one file of batches.
fn check_file(net: &Network, path: &str) -> Result<(String, bool), Failure> {
    let file = batches_of(net, path)?;
    let (told, fine) = run(net, path, &file).map_err(|e| input(e.to_string()))?;
    let number = told.lines().filter(|l| l.starts_with("batch ")).count();
    if fine {
        let batches = counted(number, "batch", "batches");
        return Ok((format!("{path}: accepted: {batches}"), true));
    }
    let mut turn = 0;
    let mut faults = vec![format!("{path}: not all accepted")];
    for line in told.lines().filter(|l| !l.starts_with(['+', '-'])) {
        turn += 1;
        if line.starts_with("refused ") {
            faults.push(format!("  batch {turn} of the file: {line}"));
        } else if !line.starts_with("batch ") {
            faults.push(format!("  {line}"));
        }
    }
    Ok((faults.join("\n"), false))
}

fn run_station(given: &Arguments) -> Result<Done, Failure> {
    let [net, path] = given.words()[..] else {
        return Err(misused());
    };
    let net = network_of(net)?;
    let file = batches_of(&net, path)?;
    let (text, fine) = run(&net, path, &file).map_err(|e| input(e.to_string()))?;
    Ok(Done { text, fine })
}

/// A station after a file's batches.
fn played<'a>(net: &'a Network, path: &str, after: Option<u32>) -> Result<Station<'a>, Failure> {
    let file = batches_of(net, path)?;
    let mut station = Station::open(net).map_err(|e| input(e.to_string()))?;
    let answer = station.play(&file.bytes, after);
    answer.map_err(|e| input(format!("{path}: {e}")))?;
    Ok(station)
}

fn tell_why(given: &Arguments) -> Result<Done, Failure> {
    let words = given.words();
    let [path, batches, node, fields @ ..] = &words[..] else {
        return Err(misused());
    };
    let net = network_of(path)?;
    let node = grammar::node(&net, node).map_err(|e| input(format!("{path}: {e}")))?;
    let row = why::row(&net, node, fields).map_err(input)?;
    let station = played(&net, batches, given.after)?;
    Done::text(why::why(&station, node, &row, given.all))
}

fn draw_network(given: &Arguments) -> Result<Done, Failure> {
    let words = given.words();
    let (path, out, areas) = match (&words[..], &given.batches) {
        ([path, out], _) => (*path, *out, None),
        ([path, out, areas], None) => (*path, *out, Some(*areas)),
        _ => return Err(misused()),
    };
    let net = network_of(path)?;
    let state: Option<Vec<Held>> = match (areas, &given.batches) {
        (Some(areas), _) => {
            let held = draw::held(&net, &bytes_of(areas)?);
            Some(held.map_err(|e| input(format!("{areas}: {e}")))?)
        }
        (None, Some(batches)) => Some(draw::state(&played(&net, batches, given.after)?)),
        (None, None) => None,
    };
    if given.dot {
        let graph = draw::dot(&net, state.as_deref());
        if out.ends_with(".dot") {
            return write(out, graph.as_bytes());
        }
        match draw::graphviz(&graph, Path::new(out)) {
            Ok(true) => return Done::quiet(),
            Ok(false) => complain("Graphviz (dot) is not installed: the built-in layout serves"),
            Err(e) => return Err(input(format!("{out}: {e}"))),
        }
    }
    write(out, draw::svg(&net, state.as_deref()).as_bytes())
}

/// The form of a command, what it does, and its example.
fn help_of(c: &Command) -> String {
    let (name, arguments) = (c.name, c.arguments);
    format!("  {name} {arguments}\n      {}\n      bagwezin-tools {}\n", c.says, c.example)
}

fn help() -> String {
    let all: String = COMMANDS.iter().map(help_of).collect();
    format!("Networks and batches of the trap stations as text, judged, run, explained and drawn.\n\nusage: bagwezin-tools COMMAND ...\n\n{all}\n{NOTES}")
}

/// Runs a command line: what it prints, and whether its input was accepted.
fn done(args: &[String]) -> Result<Done, Failure> {
    let asks = |w: &String| w == "--help" || w == "-h";
    let Some(first) = args.first() else {
        return Err(Failure::Usage(help()));
    };
    if asks(first) || first == "help" {
        return Done::text(help());
    }
    let Some(command) = COMMANDS.iter().find(|c| c.name == first) else {
        let names: Vec<&str> = COMMANDS.iter().map(|c| c.name).collect();
        return Err(Failure::Usage(format!(
            "there is no command '{first}': there are {} (--help says more)\n",
            names.join(", ")
        )));
    };
    if args[1..].iter().any(asks) {
        return Done::text(format!("usage: bagwezin-tools\n{}", help_of(command)));
    }
    let usage = |text: String| {
        let text = if text.is_empty() { "wrong arguments".into() } else { text };
        Failure::Usage(format!("{first}: {text}\nusage:\n{}", help_of(command)))
    };
    let answer = Arguments::new(&args[1..]).and_then(|given| {
        let strange = |o: &&'static str| !command.arguments.contains(o);
        match given.options().into_iter().find(strange) {
            Some(option) => Err(Failure::Usage(format!("it takes no {option}"))),
            None => (command.run)(&given),
        }
    });
    answer.map_err(|e| match e {
        Failure::Usage(text) => usage(text),
        other => other,
    })
}

/// A line on standard error, if that can be written.
fn complain(text: &str) {
    let _ = writeln!(std::io::stderr(), "{}", text.trim_end());
}

/// Runs a command line, prints, and gives the exit status.
pub fn main(args: impl Iterator<Item = OsString>) -> i32 {
    let words: Result<Vec<String>, OsString> = args.map(OsString::into_string).collect();
    let answer = match words {
        Ok(words) => done(&words),
        Err(word) => Err(Failure::Usage(format!("{} is no text in UTF-8", word.to_string_lossy()))),
    };
    match answer {
        Err(Failure::Usage(text)) => {
            complain(&text);
            2
        }
        Err(Failure::Input(text)) => {
            complain(&text);
            1
        }
        Ok(done) => {
            let mut out = std::io::stdout().lock();
            let written = out.write_all(done.text.as_bytes()).and_then(|()| out.flush());
            match written {
                Err(e) if e.kind() != ErrorKind::BrokenPipe => {
                    complain(&format!("standard output: {e}"));
                    1
                }
                _ => i32::from(!done.fine),
            }
        }
    }
}
