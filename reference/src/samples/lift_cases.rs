//! Cases of lifts, turns, tallies, batches and conversions. A case is its question, then the chain
//! it is asked of: an escaped text, which begins with `c`, or a record's words.

use reference::chain::{self, Chain, Names};
use reference::ledger::Answer;
use reference::lift::{self, BatchRow, LiftedRegion, Tally};
use reference::rows::Row;
use reference::text::Part;

use super::escape::unescape;
use super::{checked, part, refused, row_list, shown, Handed};

/// The room for the rows of a chain's text.
const ROOM: usize = 1024;

/// The most regions of a batch, and the most rows lent for their answers.
const MOST_REGIONS: u64 = 16;
const MOST_ANSWERS: u64 = 20;

/// A chain that a case hands in, its table, and the bytes that its names stand in.
struct Given {
    chain: Chain,
    table: Vec<Row>,
    text: Vec<u8>,
}

/// The answer to a question about a chain; `tally` is as the last case left it.
pub fn answer(letter: u8, payload: &[u8], tally: &mut Tally) -> Vec<u8> {
    let words = Handed::new(payload);
    let question = match letter {
        b'p' | b'u' => 1,
        b'g' | b'm' => 2,
        b'R' => 2 + 2 * region_count(&words),
        _ => 5,
    };
    let given = match given(payload.splitn(question + 1, |byte| *byte == b' ').last()) {
        Ok(given) => given,
        Err(refusal) => return [b"text ", &refused(refusal)[..]].concat(),
    };
    match letter {
        b'p' => position(&given, words.number(0)),
        b'g' => region(lift_region(&given, words.number(0), words.number(1))),
        b'u' => turn(&given, words.number(0) as usize),
        b'm' => tallied(&given, words.number(0), words.number(1), tally),
        b'R' => batch(&given, &words, tally),
        _ => {
            *tally = Tally {
                asked: words.number(0),
                kept: words.number(1),
                dropped: words.number(2),
            };
            tallied(&given, words.number(3), words.number(4), tally)
        }
    }
}

/// A chain from its text, or from a record's words.
fn given(chain: Option<&[u8]>) -> Answer<Given> {
    let chain = chain.unwrap_or_default();
    if !chain.starts_with(b"c") {
        return Ok(from_words(&Handed::new(chain)));
    }
    let text = unescape(chain);
    let (chain, table) = chain::read(&text, ROOM)?;
    Ok(Given { chain, table, text })
}

/// The record of a line's words: score, tSize, tStart, tEnd, qSize, qStrand, qStart, qEnd, id,
/// blockCount, `=` and a name twice (the target's, the query's), then rows.
fn from_words(words: &Handed) -> Given {
    let (target, query) = (words.name(10), words.name(11));
    let (t_length, q_length) = (target.len() as u64, query.len() as u64);
    let chain = Chain {
        score: words.number(0),
        t_name: Part {
            start: 0,
            length: t_length,
        },
        t_size: words.number(1),
        t_start: words.number(2),
        t_end: words.number(3),
        q_name: Part {
            start: t_length,
            length: q_length,
        },
        q_size: words.number(4),
        q_strand: words.strand(5),
        q_start: words.number(6),
        q_end: words.number(7),
        id: words.number(8),
        block_count: words.number(9),
    };
    Given {
        chain,
        table: words.rows(12),
        text: [target, query].concat(),
    }
}

fn position(given: &Given, position: u64) -> Vec<u8> {
    match lift::lift_position(&given.chain, &given.table, position) {
        Ok(lifted) => format!("lifted {} drift {}", lifted.partner, lifted.drift).into_bytes(),
        Err(refusal) => refused(refusal),
    }
}

fn lift_region(given: &Given, start: u64, end: u64) -> Answer<LiftedRegion> {
    lift::lift_region(&given.chain, &given.table, start, end)
}

fn region(answer: Answer<LiftedRegion>) -> Vec<u8> {
    match answer {
        Ok(lifted) => format!(
            "kept {} dropped {} query {} {}",
            lifted.kept, lifted.dropped, lifted.start, lifted.end
        )
        .into_bytes(),
        Err(refusal) => refused(refusal),
    }
}

/// A region with a tally: its answer, and the tally that it leaves.
fn tallied(given: &Given, start: u64, end: u64, tally: &mut Tally) -> Vec<u8> {
    let (after, answer) = lift::step(&given.chain, &given.table, start, end, *tally);
    *tally = after;
    [region(answer), sums(tally)].concat()
}

fn sums(tally: &Tally) -> Vec<u8> {
    format!(" tally {} {} {}", tally.asked, tally.kept, tally.dropped).into_bytes()
}

/// How many regions a batch has.
fn region_count(words: &Handed) -> usize {
    words.number(1).min(MOST_REGIONS) as usize
}

/// A batch: how many rows are lent, how many regions there are, and their starts and ends. Its
/// answer is the row of each region, and the tally that the batch leaves.
fn batch(given: &Given, words: &Handed, tally: &mut Tally) -> Vec<u8> {
    let room = words.number(0).min(MOST_ANSWERS) as usize;
    let region = |at| (words.number(2 + 2 * at), words.number(3 + 2 * at));
    let regions: Vec<(u64, u64)> = (0..region_count(words)).map(region).collect();
    let answer = match lift::batch(&given.chain, &given.table, &regions, room, *tally) {
        Ok((after, rows)) => {
            *tally = after;
            let rows: String = rows.iter().map(batch_row).collect();
            format!("ok{rows}").into_bytes()
        }
        Err(refusal) => refused(refusal),
    };
    [answer, sums(tally)].concat()
}

fn batch_row([reason, kept, dropped, start, end]: &BatchRow) -> String {
    format!(" | {reason} {kept} {dropped} {start} {end}")
}

/// A turn into a table of `room` rows: the record, its rows, its standard text and what the
/// record checker says.
fn turn(given: &Given, room: usize) -> Vec<u8> {
    match lift::turn(&given.chain, &given.table, room) {
        Ok((turned, rows)) => {
            let names = turned.names(&given.text);
            [
                columns(&turned).as_bytes(),
                b" rows",
                row_list(&rows).as_bytes(),
                b" text ",
                &written(&turned, names, &rows),
                b" check ",
                &checked(chain::check_record(&turned, &rows)),
            ]
            .concat()
        }
        Err(refusal) => refused(refusal),
    }
}

fn written(chain: &Chain, names: Names, rows: &[Row]) -> Vec<u8> {
    shown(chain::write(chain, names, rows, usize::MAX))
}

/// A turned record: score, target and query, the query's strand, id and block count.
fn columns(chain: &Chain) -> String {
    format!(
        "turned {} {} {} {} {} {} {} {} {} {} {} {}",
        chain.score,
        part(chain.t_name),
        chain.t_size,
        chain.t_start,
        chain.t_end,
        part(chain.q_name),
        chain.q_size,
        chain.q_start,
        chain.q_end,
        char::from(chain.q_strand.letter()),
        chain.id,
        chain.block_count,
    )
}

/// A span converted to the other strand: start, end and the sequence's size.
pub fn conversion(payload: &[u8]) -> Vec<u8> {
    let words = Handed::new(payload);
    match lift::convert(words.number(2), words.number(0), words.number(1)) {
        Ok((start, end)) => format!("span {start} {end}").into_bytes(),
        Err(refusal) => refused(refusal),
    }
}
