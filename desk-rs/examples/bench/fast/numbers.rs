//! A text of numbers: one line of any number of words. One loop passes each byte
//! once; where it meets a fault it is left, and the fault is looked for apart.

use std::slice::IterMut;

use super::words::{blank, check_text, no_surplus_line, number, split, Answer, Refused};
use super::TEXT_LIMIT;

/// Most digits of a number.
const DIGITS: usize = 18;
/// Largest number, of that many nines.
const MOST: u64 = 10u64.pow(DIGITS as u32) - 1;
/// Most numbers in a text: every other byte of the longest may be one.
const MOST_NUMBERS: usize = TEXT_LIMIT / 2;

/// Working room for the numbers of one text, used again for each text.
pub type Numbers = [u64; MOST_NUMBERS];

/// Room for any text.
pub fn room() -> Box<Numbers> {
    Box::new([0; MOST_NUMBERS])
}

/// The least number of so many digits. A word of this length that spells less
/// begins with a zero.
const LEAST: [u64; DIGITS + 1] = {
    let mut least = [0; DIGITS + 1];
    let mut length = 2;
    while length <= DIGITS {
        least[length] = 10u64.pow(length as u32 - 1);
        length += 1;
    }
    least
};

/// Reads the numbers of a text into the lent bytes, 8 each, the lowest first;
/// answers how many they are.
pub fn read(text: &[u8], room: &mut Numbers, lent: &mut [u8]) -> Answer<usize> {
    let Some(count) = read_words(text, room) else {
        return Err(fault(text));
    };
    hand_over(&room[..count], lent, text.len())?;
    Ok(count)
}

/// The words of a text without a fault. As long as the longest number and a blank
/// fit what is left, a word's bytes are taken as an array of that length, so that
/// the text's end is looked for once a word and not at each digit.
fn read_words(text: &[u8], room: &mut Numbers) -> Option<usize> {
    if text.len() > TEXT_LIMIT {
        return None;
    }
    let mut places = room.iter_mut();
    let mut rest = text.strip_suffix(b"\n").unwrap_or(text);
    while let Some(front) = rest.first_chunk::<{ DIGITS + 1 }>() {
        let (value, length) = digits(front);
        store(value, length, &mut places)?;
        if !blank(front.get(length)?) {
            return None;
        }
        rest = &rest[length + 1..];
    }
    for word in rest.split(blank) {
        let (value, length) = digits(word);
        if length < word.len() {
            return None;
        }
        store(value, length, &mut places)?;
    }
    Some(MOST_NUMBERS - places.len())
}

/// What the digits at the front of these bytes spell, and how many they are.
#[inline(always)]
fn digits(bytes: &[u8]) -> (u64, usize) {
    let mut value = 0u64;
    for (at, byte) in bytes.iter().enumerate() {
        let digit = u64::from(*byte).wrapping_sub(u64::from(b'0'));
        if digit > 9 {
            return (value, at);
        }
        value = value.wrapping_mul(10).wrapping_add(digit);
    }
    (value, bytes.len())
}

/// Stores what a word of so many digits spells; where there is no digit, there is
/// no word.
#[inline(always)]
fn store(value: u64, length: usize, places: &mut IterMut<u64>) -> Option<()> {
    if value < *LEAST.get(length)? {
        return None;
    }
    if length > 0 {
        *places.next()? = value;
    }
    Some(())
}

/// Copies the numbers of an accepted text to the lent bytes, given room.
fn hand_over(numbers: &[u64], lent: &mut [u8], text_end: usize) -> Answer<()> {
    let Some(front) = lent.get_mut(..8 * numbers.len()) else {
        return Err(Refused::new(11, text_end));
    };
    for (place, number) in front.chunks_exact_mut(8).zip(numbers) {
        place.copy_from_slice(&number.to_le_bytes());
    }
    Ok(())
}

/// What is wrong with a text whose words could not be read.
#[cold]
fn fault(text: &[u8]) -> Refused {
    check(text).expect_err("a text without a fault is read")
}

/// The checks in the ledger's order, one after the other.
fn check(text: &[u8]) -> Answer<()> {
    check_text(text)?;
    let mut at = 0;
    loop {
        let line = split::<1>(text, at);
        if line.count == 0 {
            return no_surplus_line(text, line.end);
        }
        number(text, line.words[0], (0, MOST))?;
        at = line.words[0].1;
    }
}
