//! Cases of BED.

use reference::bed::{self, Bed, Names};

use super::{accepted, checker, handed_in, part, part_of, refused, Handed};

/// Reads a text into a table of `room` rows, writes it back and checks its record.
pub fn read(text: &[u8], room: usize) -> Vec<u8> {
    match bed::read(text, room) {
        Ok((bed, rows)) => accepted(
            &columns(&bed),
            &rows,
            bed::write(&bed, bed.names(text), &rows, usize::MAX),
            bed::check_record(&bed, &rows),
        ),
        Err(refusal) => refused(refusal),
    }
}

/// Checks a text.
pub fn check(text: &[u8]) -> Vec<u8> {
    checker(bed::check(text).map(|bed| columns(&bed)))
}

/// A record's columns; a name by its place and length, a colour as one number.
fn columns(bed: &Bed) -> String {
    let [red, green, blue] = bed.colour;
    format!(
        "bed {} {} {} {} {} {} {} {} {} {} {}",
        bed.word_count,
        part(bed.chrom),
        bed.chrom_start,
        bed.chrom_end,
        part(bed.name),
        bed.score,
        char::from(bed.strand.letter()),
        bed.thick_start,
        bed.thick_end,
        (red * 256 + green) * 256 + blue,
        bed.block_count,
    )
}

/// Checks and writes a record that is handed in: words, chromStart, chromEnd, score, strand,
/// thickStart, thickEnd, colour, blockCount, room, `=` and a name twice, then rows.
pub fn record(payload: &[u8]) -> Vec<u8> {
    let words = Handed::new(payload);
    let (chrom, name) = (words.name(10), words.name(11));
    let names = Names {
        chrom: &chrom,
        name: &name,
    };
    let rows = words.rows(12);
    let bed = record_of(&words, names);
    let room = words.number(9) as usize;
    handed_in(
        bed::check_record(&bed, &rows),
        bed::write(&bed, names, &rows, room),
    )
}

/// The record of the first nine words.
fn record_of(words: &Handed, names: Names) -> Bed {
    let colour = words.number(7);
    Bed {
        word_count: words.number(0),
        chrom: part_of(names.chrom),
        chrom_start: words.number(1),
        chrom_end: words.number(2),
        name: part_of(names.name),
        score: words.number(3),
        strand: words.strand(4),
        thick_start: words.number(5),
        thick_end: words.number(6),
        colour: [colour >> 16, (colour >> 8) & 255, colour & 255],
        block_count: words.number(8),
    }
}
