//! A workload: made here, or read from a folder.
use std::ops::Range;
use std::path::Path;

use bagwezin::{cut, End};

/// A name, a network's bytes and its batches.
pub struct Workload {
    pub name: String,
    pub network: Vec<u8>,
    pub batches: Vec<Vec<u8>>,
}

/// The most batches that are timed or counted.
const MEASURED: usize = 200;

impl Workload {
    /// The workload of a folder.
    pub fn of_folder(path: &str) -> Result<Workload, String> {
        let read = |name: &str| {
            let file = Path::new(path).join(name);
            std::fs::read(&file)
                .map_err(|e| format!("{}: {e}: name folders with network.bin and batch.bin", file.display()))
        };
        let (network, file) = (read("network.bin")?, read("batch.bin")?);
        let (batches, end) = cut(&file);
        let wrong = |what: String| Err(format!("{path}/batch.bin: {what}: end each batch with a mark, 4 0 34 0"));
        match end {
            End::Broken { offset } => wrong(format!("batch {} is broken at its byte {offset}", batches.len() + 1)),
            End::Unfinished => wrong(format!("batch {} is not ended", batches.len() + 1)),
            End::Whole if batches.is_empty() => wrong("it holds no batch".into()),
            End::Whole => {
                let name = path.trim_end_matches('/').rsplit('/').next().unwrap_or(path).to_string();
                Ok(Workload { name, network, batches: batches.into_iter().map(<[u8]>::to_vec).collect() })
            }
        }
    }

    /// Writes it to a folder.
    pub fn write(&self, folder: &Path) -> std::io::Result<()> {
        let file: Vec<u8> = self.batches.iter().flat_map(|batch| batch.iter().chain(&[4, 0, 34, 0])).copied().collect();
        std::fs::write(folder.join("network.bin"), &self.network)?;
        std::fs::write(folder.join("batch.bin"), file)
    }

    /// The batches that are timed and counted: from the middle on, when the tables are filled.
    pub fn measured(&self) -> Range<usize> {
        let (from, all) = (self.batches.len() / 2, self.batches.len());
        from..all.min(from + MEASURED)
    }

    /// The message of a batch that is refused.
    pub fn refused(&self, batch: usize, why: &dyn std::fmt::Display) -> String {
        format!("{}: batch {}: {why}: only batches that are accepted can be timed", self.name, batch + 1)
    }
}
