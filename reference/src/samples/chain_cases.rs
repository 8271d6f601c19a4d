//! Cases of chains.

use reference::chain::{self, Chain, Names};

use super::{accepted, checker, handed_in, part, part_of, refused, Handed};

/// Reads a text into a table of `room` rows, writes it back and checks its record.
pub fn read(text: &[u8], room: usize) -> Vec<u8> {
    match chain::read(text, room) {
        Ok((chain, rows)) => accepted(
            &columns(&chain),
            &rows,
            chain::write(&chain, chain.names(text), &rows, usize::MAX),
            chain::check_record(&chain, &rows),
        ),
        Err(refusal) => refused(refusal),
    }
}

/// Checks a text.
pub fn check(text: &[u8]) -> Vec<u8> {
    checker(chain::check(text).map(|chain| columns(&chain)))
}

/// A record's columns; a name by its place and length.
fn columns(chain: &Chain) -> String {
    format!(
        "chain {} {} {} {} {} {} {} {} {} {} {} {}",
        chain.score,
        part(chain.t_name),
        chain.t_size,
        chain.t_start,
        chain.t_end,
        part(chain.q_name),
        chain.q_size,
        char::from(chain.q_strand.letter()),
        chain.q_start,
        chain.q_end,
        chain.id,
        chain.block_count,
    )
}

/// Checks and writes a record that is handed in: score, tSize, tStart, tEnd, qSize, qStrand, qStart,
/// qEnd, id, blockCount, room, `=` and a name twice (the target's, the query's), then rows.
pub fn record(payload: &[u8]) -> Vec<u8> {
    let words = Handed::new(payload);
    let (target, query) = (words.name(11), words.name(12));
    let names = Names {
        target: &target,
        query: &query,
    };
    let rows = words.rows(13);
    let chain = record_of(&words, names);
    let room = words.number(10) as usize;
    handed_in(
        chain::check_record(&chain, &rows),
        chain::write(&chain, names, &rows, room),
    )
}

/// The record of the first ten words.
fn record_of(words: &Handed, names: Names) -> Chain {
    Chain {
        score: words.number(0),
        t_name: part_of(names.target),
        t_size: words.number(1),
        t_start: words.number(2),
        t_end: words.number(3),
        q_name: part_of(names.query),
        q_size: words.number(4),
        q_strand: words.strand(5),
        q_start: words.number(6),
        q_end: words.number(7),
        id: words.number(8),
        block_count: words.number(9),
    }
}
