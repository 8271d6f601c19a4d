//! What may happen to a text on its way: words and lines lost, doubled or
//! changed, bytes changed, blanks added.

use crate::dice::Dice;
use crate::drafts::{Draft, Word};

/// The bytes of a draft: blanks between words, a line feed between lines.
pub fn written(dice: &mut Dice, draft: &Draft) -> Vec<u8> {
    let tidy = dice.once_in(2);
    let mut text = Vec::new();
    for (at, line) in draft.iter().enumerate() {
        if at > 0 {
            text.push(b'\n');
        }
        write_line(dice, line, tidy, &mut text);
    }
    match dice.between(0, 59) {
        0 => (),
        1 => text.extend(b"\n\n"),
        2 => text.extend(b"\n "),
        3 => text.extend(b"\n \t\nchr 1 2"),
        4 => text.extend(b"\nchr1"),
        5..=15 => (),
        _ => text.push(b'\n'),
    }
    text
}

fn write_line(dice: &mut Dice, line: &[Word], tidy: bool, text: &mut Vec<u8>) {
    if !tidy {
        text.extend(blanks(dice, 0));
    }
    for (at, word) in line.iter().enumerate() {
        if at > 0 {
            text.extend(if tidy {
                b"\t".to_vec()
            } else {
                blanks(dice, 1)
            });
        }
        text.extend(word);
    }
    if !tidy {
        text.extend(blanks(dice, 0));
    }
}

fn blanks(dice: &mut Dice, least: u64) -> Vec<u8> {
    let most = dice.of(&[1, 1, 1, 3]);
    (0..dice.between(least, most))
        .map(|_| dice.of(b" \t"))
        .collect()
}

/// One change to the words or the lines of a draft.
pub fn to_draft(dice: &mut Dice, draft: &mut Draft) {
    let at = dice.index(draft.len());
    match dice.between(0, 19) {
        0 if draft.len() > 1 => drop(draft.remove(at)),
        1 => draft.insert(at, draft[at].clone()),
        2 => {
            let other = dice.index(draft.len());
            draft.swap(at, other);
        }
        3 => draft.insert(at, Vec::new()),
        _ => to_line(dice, &mut draft[at]),
    }
}

fn to_line(dice: &mut Dice, line: &mut Vec<Word>) {
    if line.is_empty() {
        return line.push(odd_word(dice));
    }
    let at = dice.index(line.len());
    match dice.between(0, 19) {
        0 => drop(line.remove(at)),
        1 => line.insert(at, line[at].clone()),
        2 => line.insert(at, odd_word(dice)),
        3 | 4 => line[at] = odd_word(dice),
        5 => line.truncate(at),
        _ => to_word(dice, &mut line[at]),
    }
}

/// One change inside a word; most often a number goes up or down a little.
fn to_word(dice: &mut Dice, word: &mut Word) {
    let mut items: Vec<Word> = word
        .split(|byte| *byte == b',')
        .map(<[u8]>::to_vec)
        .collect();
    let at = dice.index(items.len());
    match dice.between(0, 9) {
        0 => drop(items.remove(at)),
        1 => items.insert(at, Vec::new()),
        2 => items.insert(at, items[at].clone()),
        3 => items[at] = odd_word(dice),
        4 => items[at].insert(0, b'0'),
        _ => nudge(dice, &mut items[at]),
    }
    *word = items.join(&b","[..]);
}

fn nudge(dice: &mut Dice, item: &mut Word) {
    let spelt = String::from_utf8_lossy(item).parse::<u64>();
    if let Ok(value) = spelt {
        let nudged = match dice.between(0, 3) {
            0 => value.saturating_sub(1),
            1 => value.saturating_add(1),
            2 => value.saturating_mul(10),
            _ => dice.between(0, value),
        };
        *item = nudged.to_string().into_bytes();
    }
}

/// Words at some edge of the rules, and words that a spreadsheet leaves.
const ODD_WORDS: &str = "0 1 00 007 255 256 512 513 1000 1001 2147483646 2147483647 2147483648 \
    4294967295 4294967296 999999999999999999 1000000000000000000 9223372036854775807 \
    9223372036854775808 18446744073709551615 18446744073709551616 18446744073709551617 \
    340282366920938463463374607431768211456 + - . +- chain Chain 1,000 567.0 567.488 567,488 \
    567,488, , ,, 5,, 5,,6 1,2,3 1,2,3, 0,0,0 1,2,3,256 1e6 -1 +5 2-Sep \"chr1\" track";

fn odd_word(dice: &mut Dice) -> Word {
    let words: Vec<&str> = ODD_WORDS.split(' ').collect();
    match dice.between(0, 9) {
        0 => vec![b'a'; dice.of(&[63, 64, 65, 200])],
        1 => vec![b'9'; dice.of(&[9, 10, 18, 19, 20, 40])],
        _ => dice.of(&words).as_bytes().to_vec(),
    }
}

/// One change to the bytes of a text.
pub fn to_bytes(dice: &mut Dice, text: &mut Vec<u8>) {
    if text.is_empty() {
        return text.push(dice.any() as u8);
    }
    let at = dice.index(text.len());
    match dice.between(0, 9) {
        0 => text[at] = dice.any() as u8,
        1 => text[at] = dice.of(&[0, 8, 9, 10, 11, 13, 31, 32, 33, 126, 127, 128, 255]),
        2 | 3 => text[at] = dice.of(b"0123456789,+-. \t\n"),
        4 => text.insert(at, text[at]),
        5 => drop(text.remove(at)),
        6 => text.truncate(at),
        7 => text.insert(at, dice.of(b"\r\n \t0,")),
        8 => drop(text.splice(0..0, *b"\xEF\xBB\xBF")),
        _ => stretch(dice, text),
    }
}

/// Blanks in one place, up to the text limit or just past it.
fn stretch(dice: &mut Dice, text: &mut Vec<u8>) {
    let Some(at) = text.iter().position(|byte| matches!(byte, b' ' | b'\t')) else {
        return;
    };
    let length = dice.between(65_534, 65_538) as usize;
    let more = length.saturating_sub(text.len());
    text.splice(at..at, std::iter::repeat_n(b' ', more));
}
