//! Valid texts: lines of words, before blanks are put between them.

use crate::dice::Dice;
use tenderchock::Kind;

pub type Word = Vec<u8>;
/// Lines of words.
pub type Draft = Vec<Vec<Word>>;

/// The coordinate limit.
const LIMIT: u64 = 2_147_483_647;

/// A valid text of this kind.
pub fn any(dice: &mut Dice, kind: Kind) -> Draft {
    match kind {
        Kind::Bed => bed(dice),
        Kind::Psl => psl(dice),
        Kind::Chain => chain(dice),
    }
}

/// A line of 1 to 40 words of digits, most of them numbers in range. A word of no
/// digit leaves only the blanks on its two sides.
pub fn numbers(dice: &mut Dice) -> Draft {
    let most = dice.of(&[9, 18, 18, 18, 21]);
    let count = dice.between(1, 40);
    vec![(0..count).map(|_| digits(dice, most)).collect()]
}

/// Up to so many digits: any without a leading zero, all nines, or one and zeros.
fn digits(dice: &mut Dice, most: u64) -> Word {
    let length = dice.between(0, most);
    let (first, others) = match dice.between(0, 19) {
        0 => ("9", "9"),
        1 => ("1", "0"),
        _ if length == 1 => ("0123456789", ""),
        _ => ("123456789", "0123456789"),
    };
    (0..length)
        .map(|at| dice.of(if at == 0 { first } else { others }.as_bytes()))
        .collect()
}

/// A block, and the gaps after it on both sides (0 after the last).
struct Block {
    size: u64,
    dt: u64,
    dq: u64,
}

/// Two sides and the blocks between them.
struct Alignment {
    target: Side,
    query: Side,
    minus: bool,
    blocks: Vec<Block>,
}

struct Side {
    name: Word,
    size: u64,
    start: u64,
    end: u64,
}

impl Side {
    /// Start and end on the other strand.
    fn turned(&self) -> (u64, u64) {
        (self.size - self.end, self.size - self.start)
    }
}

fn bed(dice: &mut Dice) -> Draft {
    let Alignment { target, blocks, .. } = alignment(dice);
    let (start, end) = (target.start, target.end);
    let thick_start = dice.between(start, end);
    let thick_end = dice.between(thick_start, end);
    let words = vec![
        target.name,
        number(start),
        number(end),
        name(dice),
        number(dice.between(0, 1000)),
        vec![dice.of(b"+-.")],
        number(thick_start),
        number(thick_end),
        colour(dice),
        number(blocks.len() as u64),
        list(dice, blocks.iter().map(|block| block.size)),
        list(dice, starts(&blocks, 0, |block| block.dt)),
    ];
    let count = dice.of(&[3, 4, 5, 6, 7, 8, 9, 12, 12, 12]);
    let mut line = words[..count].to_vec();
    if count == 7 && dice.once_in(2) {
        line[6] = number(start);
    }
    vec![line]
}

fn psl(dice: &mut Dice) -> Draft {
    let found = alignment(dice);
    let Alignment {
        target,
        query,
        minus,
        blocks,
    } = &found;
    let (q_start, q_end) = match minus {
        true => query.turned(),
        false => (query.start, query.end),
    };
    let [matches, mis_matches, rep_matches, n_count] = counts(dice, blocks);
    let gaps = |gap: fn(&Block) -> u64| {
        let count = blocks.iter().filter(|block| gap(block) > 0).count() as u64;
        (number(count), number(blocks.iter().map(gap).sum()))
    };
    let (q_num, q_bases) = gaps(|block| block.dq);
    let (t_num, t_bases) = gaps(|block| block.dt);
    vec![vec![
        number(matches),
        number(mis_matches),
        number(rep_matches),
        number(n_count),
        q_num,
        q_bases,
        t_num,
        t_bases,
        strand(*minus),
        query.name.clone(),
        number(query.size),
        number(q_start),
        number(q_end),
        target.name.clone(),
        number(target.size),
        number(target.start),
        number(target.end),
        number(blocks.len() as u64),
        list(dice, blocks.iter().map(|block| block.size)),
        list(dice, starts(blocks, query.start, |block| block.dq)),
        list(dice, starts(blocks, target.start, |block| block.dt)),
    ]]
}

/// Four counts that add up to the bases of the blocks.
fn counts(dice: &mut Dice, blocks: &[Block]) -> [u64; 4] {
    let mut left = blocks.iter().map(|block| block.size).sum();
    let first = [0; 3].map(|_| {
        let count = dice.between(0, left);
        left -= count;
        count
    });
    [first[0], first[1], first[2], left]
}

fn chain(dice: &mut Dice) -> Draft {
    let Alignment {
        target,
        query,
        minus,
        blocks,
    } = alignment(dice);
    let score_digits = dice.between(0, 17) as u32;
    let mut draft = vec![vec![
        b"chain".to_vec(),
        number(dice.between(0, 10u64.pow(score_digits) * 10 - 1)),
        target.name,
        number(target.size),
        b"+".to_vec(),
        number(target.start),
        number(target.end),
        query.name,
        number(query.size),
        strand(minus),
        number(query.start),
        number(query.end),
        number(dice.between(0, 4_294_967_295)),
    ]];
    let last = blocks.len() - 1;
    for (at, block) in blocks.iter().enumerate() {
        let words = [number(block.size), number(block.dt), number(block.dq)];
        draft.push(words[..if at == last { 1 } else { 3 }].to_vec());
    }
    draft
}

fn alignment(dice: &mut Dice) -> Alignment {
    let count = match dice.between(0, 59) {
        0 | 1 => 512,
        2 => 100,
        _ => dice.between(1, 6),
    };
    // Now and then the blocks are so large that the whole is near the limit.
    let huge = dice.once_in(12);
    let most_size = if huge { LIMIT / (2 * count) } else { 9 };
    let most_gap = match dice.between(0, 9) {
        0 => 0,
        1 => LIMIT / (2 * count) - 1,
        _ => 5,
    };
    let mut blocks: Vec<Block> = (0..count)
        .map(|_| Block {
            size: dice.between(1, most_size),
            dt: gap(dice, most_gap),
            dq: gap(dice, most_gap),
        })
        .collect();
    let last = blocks.len() - 1;
    (blocks[last].dt, blocks[last].dq) = (0, 0);
    let target_span = blocks.iter().map(|block| block.size + block.dt).sum();
    let query_span = blocks.iter().map(|block| block.size + block.dq).sum();
    Alignment {
        target: side(dice, target_span),
        query: side(dice, query_span),
        minus: dice.once_in(2),
        blocks,
    }
}

fn gap(dice: &mut Dice, most: u64) -> u64 {
    match dice.once_in(3) {
        true => 0,
        false => dice.between(0, most),
    }
}

/// A side that the blocks span, somewhere below the limit.
fn side(dice: &mut Dice, span: u64) -> Side {
    let room = LIMIT - span;
    let start = match dice.between(0, 5) {
        0 => 0,
        1 => room,
        2 => dice.between(0, room),
        _ => dice.between(0, 30.min(room)),
    };
    let end = start + span;
    let after = match dice.between(0, 3) {
        0 => 0,
        1 => LIMIT - end,
        _ => dice.between(0, 30.min(LIMIT - end)),
    };
    Side {
        name: name(dice),
        size: end + after,
        start,
        end,
    }
}

fn starts(blocks: &[Block], first: u64, gap: fn(&Block) -> u64) -> impl Iterator<Item = u64> + '_ {
    let mut next = first;
    blocks.iter().map(move |block| {
        let start = next;
        next += block.size + gap(block);
        start
    })
}

fn name(dice: &mut Dice) -> Word {
    let length = match dice.between(0, 19) {
        0 => 64,
        _ => dice.between(1, 12),
    };
    (0..length).map(|_| dice.between(33, 126) as u8).collect()
}

fn strand(minus: bool) -> Word {
    vec![if minus { b'-' } else { b'+' }]
}

fn colour(dice: &mut Dice) -> Word {
    if dice.once_in(3) {
        return b"0".to_vec();
    }
    let most = dice.of(&[0, 255]);
    let parts = [0; 3].map(|_| dice.between(0, most));
    format!("{},{},{}", parts[0], parts[1], parts[2]).into_bytes()
}

fn number(number: u64) -> Word {
    number.to_string().into_bytes()
}

/// A comma list, with or without a comma at its end.
fn list(dice: &mut Dice, items: impl Iterator<Item = u64>) -> Word {
    let words: Vec<Word> = items.map(number).collect();
    let mut list = words.join(&b","[..]);
    if dice.once_in(2) {
        list.push(b',');
    }
    list
}
