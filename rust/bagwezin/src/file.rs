/// What follows the last whole batch of a file.
#[derive(Clone, Copy, Debug, PartialEq, Eq)]
pub enum End {
    /// Nothing.
    Whole,
    /// Whole records without a mark.
    Unfinished,
    /// A broken length (rule 10); the offset of its record from that batch's first byte.
    Broken { offset: usize },
}

/// A file of batches, cut at its marks: records of length 4 and kind 34, which are not part of a batch.
///
/// ```
/// use bagwezin::{cut, End};
/// let mark = [4, 0, 34, 0];
/// let put = [10, 0, 32, 0, 3, 0, 5, 0, 0, 0];
/// let file = [&put[..], &mark, &mark, &put].concat();
/// assert_eq!(cut(&file), (vec![&put[..], &[]], End::Unfinished));
/// assert_eq!(cut(&file[..file.len() - 1]).1, End::Broken { offset: 0 });
/// ```
pub fn cut(file: &[u8]) -> (Vec<&[u8]>, End) {
    let (mut batches, mut start, mut at) = (Vec::new(), 0, 0);
    while at < file.len() {
        let left = &file[at..];
        let size = if left.len() < 4 { 0 } else { usize::from(u16::from_le_bytes([left[0], left[1]])) };
        if size < 4 || size > left.len() {
            return (batches, End::Broken { offset: at - start });
        }
        at += size;
        if left[..4] == [4, 0, 34, 0] {
            batches.push(&file[start..at - 4]);
            start = at;
        }
    }
    (batches, if start == at { End::Whole } else { End::Unfinished })
}

/// The whole batches of a file; [`cut`] also says what follows them.
pub fn batches(file: &[u8]) -> Vec<&[u8]> {
    cut(file).0
}
