//! The areas' words, and the floor of a batch: one read of all of them.
use std::hint::black_box;

use bagwezin::{raw, AREA, HEAD};

/// Rows, gained, lost and head.
#[derive(Clone)]
pub struct Words([Vec<u32>; 4]);

impl Words {
    /// Words of zero, each written: memory that was never written is one page of zeros over and over, which stays in
    /// the nearest cache.
    pub fn written() -> Words {
        Words([AREA, AREA, AREA, HEAD].map(|size| {
            let mut words = vec![black_box(1); size];
            black_box(&mut words).fill(0);
            words
        }))
    }

    pub fn areas(&mut self) -> raw::Areas<'_> {
        let [rows, gained, lost, head] = &mut self.0;
        raw::Areas { rows, gained, lost, head }
    }

    /// The same words as others, in this memory.
    pub fn copy(&mut self, from: &Words) {
        for (to, from) in self.0.iter_mut().zip(&from.0) {
            to.copy_from_slice(from);
        }
    }

    /// One read of every word.
    pub fn scan(&self) {
        self.0.iter().for_each(|words| scan(words));
    }
}

/// One read of these words.
pub fn scan(words: &[u32]) {
    black_box(any(black_box(words)));
}

/// All words, gathered by `|`: for x86-64 the compiler takes four at a time, in registers of SSE2.
#[inline(never)]
fn any(words: &[u32]) -> u32 {
    words.iter().fold(0, |x, y| x | y)
}

/// Whether the scan is compiled to SSE2 code, as the library is.
pub fn is_sse2() -> Result<(), String> {
    if cfg!(target_feature = "avx") {
        return Err("this program is compiled for more than SSE2, so its scan is another floor: build it without \
                    -C target-cpu and -C target-feature (RUSTFLAGS, .cargo/config.toml)"
            .into());
    }
    Ok(())
}
