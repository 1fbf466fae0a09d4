//! The functions of the static library, one block each, as `include/bagwezin.h` declares them: a slice is a pointer and a count.
//!
//! A range that a call may write must overlap no other range of that call. Here it is a `&mut` slice, and a `&mut` slice overlaps no other slice;
//! the slices that are only read may overlap each other. Slices are never null and always aligned. So no call here can break a rule of the header.

extern "C" {
    fn bagwezin_read(net: *const u8, net_len: usize, answer: *mut u32, answer_len: usize) -> u64;
}

/// The reader's answer in [`crate::ANSWER`] words.
pub fn read(net: &[u8], answer: &mut [u32]) -> u64 {
    // SAFETY: every pointer and count is that of a slice; the one that is written is `&mut`.
    unsafe { bagwezin_read(net.as_ptr(), net.len(), answer.as_mut_ptr(), answer.len()) }
}

/// The four areas, lent to be written.
#[derive(Debug)]
pub struct Areas<'a> {
    pub rows: &'a mut [u32],
    pub gained: &'a mut [u32],
    pub lost: &'a mut [u32],
    pub head: &'a mut [u32],
}

extern "C" {
    fn bagwezin_open(
        net: *const u8,
        net_len: usize,
        rows: *mut u32,
        rows_len: usize,
        gained: *mut u32,
        gained_len: usize,
        lost: *mut u32,
        lost_len: usize,
        head: *mut u32,
        head_len: usize,
    ) -> u64;
}

/// Opens the areas for a network.
pub fn open(net: &[u8], a: &mut Areas) -> u64 {
    // SAFETY: as in `read`.
    unsafe {
        bagwezin_open(
            net.as_ptr(),
            net.len(),
            a.rows.as_mut_ptr(),
            a.rows.len(),
            a.gained.as_mut_ptr(),
            a.gained.len(),
            a.lost.as_mut_ptr(),
            a.lost.len(),
            a.head.as_mut_ptr(),
            a.head.len(),
        )
    }
}

extern "C" {
    fn bagwezin_apply(
        net: *const u8,
        net_len: usize,
        batch: *const u8,
        batch_len: usize,
        rows: *mut u32,
        rows_len: usize,
        gained: *mut u32,
        gained_len: usize,
        lost: *mut u32,
        lost_len: usize,
        head: *mut u32,
        head_len: usize,
    ) -> u64;
}

/// Applies a batch.
pub fn apply(net: &[u8], batch: &[u8], a: &mut Areas) -> u64 {
    // SAFETY: as in `read`.
    unsafe {
        bagwezin_apply(
            net.as_ptr(),
            net.len(),
            batch.as_ptr(),
            batch.len(),
            a.rows.as_mut_ptr(),
            a.rows.len(),
            a.gained.as_mut_ptr(),
            a.gained.len(),
            a.lost.as_mut_ptr(),
            a.lost.len(),
            a.head.as_mut_ptr(),
            a.head.len(),
        )
    }
}

extern "C" {
    fn bagwezin_check(
        net: *const u8,
        net_len: usize,
        rows: *const u32,
        rows_len: usize,
        gained: *const u32,
        gained_len: usize,
        lost: *const u32,
        lost_len: usize,
        head: *const u32,
        head_len: usize,
    ) -> u64;
}

/// Whether the areas are coherent.
pub fn check(net: &[u8], rows: &[u32], gained: &[u32], lost: &[u32], head: &[u32]) -> u64 {
    // SAFETY: every pointer and count is that of a slice; nothing is written.
    unsafe {
        bagwezin_check(
            net.as_ptr(),
            net.len(),
            rows.as_ptr(),
            rows.len(),
            gained.as_ptr(),
            gained.len(),
            lost.as_ptr(),
            lost.len(),
            head.as_ptr(),
            head.len(),
        )
    }
}

extern "C" {
    fn bagwezin_report(
        net: *const u8,
        net_len: usize,
        node: u32,
        rows: *const u32,
        rows_len: usize,
        gained: *const u32,
        gained_len: usize,
        lost: *const u32,
        lost_len: usize,
        head: *const u32,
        head_len: usize,
        out: *mut u8,
        out_len: usize,
    ) -> u64;
}

/// Writes the report of a watched node.
pub fn report(net: &[u8], node: u32, rows: &[u32], gained: &[u32], lost: &[u32], head: &[u32], out: &mut [u8]) -> u64 {
    // SAFETY: as in `read`.
    unsafe {
        bagwezin_report(
            net.as_ptr(),
            net.len(),
            node,
            rows.as_ptr(),
            rows.len(),
            gained.as_ptr(),
            gained.len(),
            lost.as_ptr(),
            lost.len(),
            head.as_ptr(),
            head.len(),
            out.as_mut_ptr(),
            out.len(),
        )
    }
}

extern "C" {
    fn bagwezin_fold(
        net: *const u8,
        net_len: usize,
        rows: *const u32,
        rows_len: usize,
        gained: *const u32,
        gained_len: usize,
        lost: *const u32,
        lost_len: usize,
        head: *const u32,
        head_len: usize,
        pending: *mut u32,
        pending_len: usize,
    ) -> u64;
}

/// Folds the last batch's changes into the pending area.
pub fn fold(net: &[u8], rows: &[u32], gained: &[u32], lost: &[u32], head: &[u32], pending: &mut [u32]) -> u64 {
    // SAFETY: as in `read`.
    unsafe {
        bagwezin_fold(
            net.as_ptr(),
            net.len(),
            rows.as_ptr(),
            rows.len(),
            gained.as_ptr(),
            gained.len(),
            lost.as_ptr(),
            lost.len(),
            head.as_ptr(),
            head.len(),
            pending.as_mut_ptr(),
            pending.len(),
        )
    }
}

extern "C" {
    fn bagwezin_take(
        net: *const u8,
        net_len: usize,
        rows: *const u32,
        rows_len: usize,
        gained: *const u32,
        gained_len: usize,
        lost: *const u32,
        lost_len: usize,
        head: *const u32,
        head_len: usize,
        pending: *mut u32,
        pending_len: usize,
        answer: *mut u32,
        answer_len: usize,
    ) -> u64;
}

/// Takes the next alert out of the pending area: its row in [`crate::FIELDS`] words.
pub fn take(
    net: &[u8],
    rows: &[u32],
    gained: &[u32],
    lost: &[u32],
    head: &[u32],
    pending: &mut [u32],
    answer: &mut [u32],
) -> u64 {
    // SAFETY: every pointer and count is that of a slice; the two that are written are `&mut`.
    unsafe {
        bagwezin_take(
            net.as_ptr(),
            net.len(),
            rows.as_ptr(),
            rows.len(),
            gained.as_ptr(),
            gained.len(),
            lost.as_ptr(),
            lost.len(),
            head.as_ptr(),
            head.len(),
            pending.as_mut_ptr(),
            pending.len(),
            answer.as_mut_ptr(),
            answer.len(),
        )
    }
}
