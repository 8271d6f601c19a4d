//! Chains and lines from a seed.

use crate::common::Dice;

const TARGET: u64 = 9_000;

/// A chain from here on, and where it ends.
fn chain(dice: &mut Dice, id: u64, target: &str, start: u64, blocks: u64) -> (String, u64) {
    let (mut rows, mut at, mut query) = (String::new(), start, 0);
    for left in (0..blocks).rev() {
        let size = dice.roll(1, 120);
        let (dt, dq) = match dice.roll(0, 3) {
            0 => (dice.roll(1, 9), 0),
            1 => (0, dice.roll(1, 60)),
            _ => (dice.roll(1, 30), dice.roll(1, 30)),
        };
        at += size;
        query += size;
        match left {
            0 => rows += &format!("{size}\n"),
            _ => {
                rows += &format!("{size} {dt} {dq}\n");
                at += dt;
                query += dq;
            }
        }
    }
    let strand = ['+', '-'][dice.roll(0, 1) as usize];
    let text = format!(
        "chain {} {target} {TARGET} + {start} {at} q{id} {} {strand} 7 {} {id}\n{rows}",
        dice.roll(1, 3),
        query + 50,
        query + 7
    );
    (text, at)
}

/// Chains side by side on one target, over each other on another, here and there
/// on a third.
pub fn chains(dice: &mut Dice) -> Vec<String> {
    let (mut all, mut end) = (Vec::new(), 10);
    for id in 1..=6 {
        let (text, to) = chain(dice, id, "side", end, 16);
        all.push(text);
        end = to + dice.roll(0, 5);
    }
    for id in 7..=10 {
        let start = dice.roll(0, 4_000);
        all.push(chain(dice, id, "over", start, 30).0);
    }
    for id in 11..=16 {
        let (start, blocks) = (dice.roll(0, 6_000), dice.roll(1, 12));
        all.push(chain(dice, id, "both", start, blocks).0);
    }
    all
}

/// A line of 3 to 12 columns, with up to so many blocks.
fn line(dice: &mut Dice, most_blocks: u64) -> String {
    let chrom = ["side", "side", "over", "both", "none"][dice.roll(0, 4) as usize];
    let start = dice.roll(0, TARGET - 1_000);
    let (mut end, mut sizes, mut starts) = (start, String::new(), String::new());
    let count = dice.roll(1, most_blocks);
    for block in 0..count {
        let gap = if block == 0 { 0 } else { dice.roll(0, 12) };
        let size = dice.roll(1, 12);
        starts += &format!("{},", end + gap - start);
        sizes += &format!("{size},");
        end += gap + size;
    }
    let thick = dice.roll(start, end);
    let words = [
        chrom.to_string(),
        start.to_string(),
        end.to_string(),
        format!("name{}", dice.roll(0, 99)),
        dice.roll(0, 1_000).to_string(),
        ["+", "-", "."][dice.roll(0, 2) as usize].to_string(),
        thick.to_string(),
        dice.roll(thick, end).to_string(),
        format!("{},0,9", dice.roll(0, 255)),
        count.to_string(),
        sizes,
        starts,
    ];
    let columns = [3, 4, 5, 6, 7, 8, 9, 12, 12, 12][dice.roll(0, 9) as usize];
    words[..columns].join("\t")
}

/// A line that is refused, passed over, noted or outside its target.
fn odd_line(dice: &mut Dice) -> String {
    [
        "# x",
        "#side\t10\t20",
        "track name=x",
        "#N/A\t1\t2",
        "",
        "side\t1,000\t2,000",
        "side\t20\t10",
        "side\t20\t40\r",
        "side\t20\t40\t\t960",
        "side\t20\t40\t2-Sep",
        "side\t8990\t9001",
        "over\t9500\t9600\tn\t0\t+",
    ][dice.roll(0, 11) as usize]
        .to_string()
}

/// So many lines, one in ten of them odd.
pub fn file(dice: &mut Dice, lines: usize, most_blocks: u64) -> String {
    let mut all = String::new();
    for _ in 0..lines {
        all += &match dice.roll(0, 9) {
            0 => odd_line(dice),
            _ => line(dice, most_blocks),
        };
        all.push('\n');
    }
    all
}
