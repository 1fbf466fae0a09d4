//! `areas FOLDER OUT.bin [N]`: opens network.bin of a folder, applies the first N batches of batch.bin (all, if no number is given), and writes the
//! areas: rows, gained, lost and head one after the other, each word in 4 bytes, the lowest first. `bagwezin-tools draw` shows them.
//!
//! It tells each refused batch, and a file that ends in a broken or unfinished batch; like the station program it goes on after the first, and leaves
//! out the second.
use bagwezin::{cut, End, Monitor, Refusal};

const USAGE: &str = "usage: areas FOLDER OUT.bin [N]";

fn run(args: &[String]) -> Result<(), String> {
    let (folder, out, most) = match args {
        [folder, out] => (folder, out, None),
        [folder, out, n] => (folder, out, Some(n.parse().map_err(|_| format!("'{n}' is not a number of batches"))?)),
        _ => return Err(USAGE.into()),
    };
    let read = |name: &str| std::fs::read(format!("{folder}/{name}")).map_err(|e| format!("{folder}/{name}: {e}"));
    let mut monitor = Monitor::open(&read("network.bin")?).map_err(|e| format!("{folder}/network.bin: {e}"))?;
    let file = read("batch.bin")?;
    let (batches, end) = cut(&file);
    let tell = |batch: usize, what: String| eprintln!("{folder}/batch.bin: batch {batch}: {what}");
    for (i, batch) in batches.iter().enumerate().take(most.unwrap_or(usize::MAX)) {
        if let Err(refusal) = monitor.apply(batch) {
            tell(i + 1, refusal.to_string());
        }
    }
    let last = batches.len() + 1;
    match end {
        End::Whole => {}
        End::Unfinished => tell(last, "unfinished: the file ends without its mark; it is left out".into()),
        End::Broken { offset } => {
            let refusal = Refusal { number: 10, place: offset as u32 };
            tell(last, format!("{refusal}; it and what follows are left out"));
        }
    }
    if let Some(n) = most.filter(|&n| n > batches.len()) {
        eprintln!("{folder}/batch.bin: whole batches: {}, not {n}", batches.len());
    }
    let bytes: Vec<u8> = monitor.words().flat_map(|w| w.to_le_bytes()).collect();
    std::fs::write(out, bytes).map_err(|e| format!("{out}: {e}"))
}

fn main() {
    let args: Vec<String> = std::env::args().skip(1).collect();
    if matches!(args[..], [ref word] if word == "--help" || word == "-h") {
        println!("{USAGE}");
        return;
    }
    if let Err(text) = run(&args) {
        eprintln!("{text}");
        std::process::exit(1);
    }
}
