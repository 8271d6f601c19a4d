//! Cases of PSL.

use reference::psl::{self, Inserts, Names, Psl};

use super::{accepted, checker, handed_in, part, part_of, refused, Handed};

/// Reads a text into a table of `room` rows, writes it back and checks its record.
pub fn read(text: &[u8], room: usize) -> Vec<u8> {
    match psl::read(text, room) {
        Ok((psl, rows)) => accepted(
            &columns(&psl),
            &rows,
            psl::write(&psl, psl.names(text), &rows, usize::MAX),
            psl::check_record(&psl, &rows),
        ),
        Err(refusal) => refused(refusal),
    }
}

/// Checks a text.
pub fn check(text: &[u8]) -> Vec<u8> {
    checker(psl::check(text).map(|psl| columns(&psl)))
}

/// A record's columns; a name by its place and length.
fn columns(psl: &Psl) -> String {
    let counts = [
        psl.matches,
        psl.mis_matches,
        psl.rep_matches,
        psl.n_count,
        psl.q_inserts.number,
        psl.q_inserts.bases,
        psl.t_inserts.number,
        psl.t_inserts.bases,
    ];
    let counts: String = counts.iter().map(|count| format!(" {count}")).collect();
    format!(
        "psl{} {} {} {} {} {} {} {} {} {} {}",
        counts,
        char::from(psl.strand.letter()),
        part(psl.q_name),
        psl.q_size,
        psl.q_start,
        psl.q_end,
        part(psl.t_name),
        psl.t_size,
        psl.t_start,
        psl.t_end,
        psl.block_count,
    )
}

/// Checks and writes a record that is handed in: the eight counts, strand, qSize, qStart, qEnd,
/// tSize, tStart, tEnd, blockCount, room, `=` and a name twice (the query's, the target's), then rows.
pub fn record(payload: &[u8]) -> Vec<u8> {
    let words = Handed::new(payload);
    let (query, target) = (words.name(17), words.name(18));
    let names = Names {
        query: &query,
        target: &target,
    };
    let rows = words.rows(19);
    let psl = record_of(&words, names);
    let room = words.number(16) as usize;
    handed_in(
        psl::check_record(&psl, &rows),
        psl::write(&psl, names, &rows, room),
    )
}

/// The record of the first sixteen words.
fn record_of(words: &Handed, names: Names) -> Psl {
    let inserts = |at: usize| Inserts {
        number: words.number(at),
        bases: words.number(at + 1),
    };
    Psl {
        matches: words.number(0),
        mis_matches: words.number(1),
        rep_matches: words.number(2),
        n_count: words.number(3),
        q_inserts: inserts(4),
        t_inserts: inserts(6),
        strand: words.strand(8),
        q_name: part_of(names.query),
        q_size: words.number(9),
        q_start: words.number(10),
        q_end: words.number(11),
        t_name: part_of(names.target),
        t_size: words.number(12),
        t_start: words.number(13),
        t_end: words.number(14),
        block_count: words.number(15),
    }
}
