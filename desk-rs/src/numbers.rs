//! A text of numbers: one line of any number of words.

use crate::answer::{taken, Numbers, Refusal};
use crate::sys;
use crate::texts::TEXT_LIMIT;

/// The numbers of a text of one line, each up to 999,999,999,999,999,999. A text
/// of no word has none.
///
/// ```
/// use tenderchock::numbers;
///
/// assert_eq!(numbers(b"567 488\n"), Ok(vec![567, 488]));
///
/// let refusal = numbers(b"12 567,488").unwrap_err();
/// assert_eq!((refusal.number, refusal.place), (4, 3));
/// ```
pub fn numbers(text: &[u8]) -> Result<Vec<u64>, Refusal> {
    let mut out = vec![0; 8 * most_numbers(text.len())];
    let count = taken(sys::numbers(text, &mut out))?;
    let mut read = Numbers::of(&out, count);
    Ok((0..read.left()).map(|_| read.next()).collect())
}

/// Most numbers in a text of so many bytes: a blank stands between any two. A
/// text over the limit is refused, and needs no room.
fn most_numbers(length: usize) -> usize {
    match length <= TEXT_LIMIT {
        true => length / 2 + 1,
        false => 0,
    }
}
