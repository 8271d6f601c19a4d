//! The records of BED lines, PSL lines and chains, field by field. Names are
//! parts of the text that was read.

use crate::answer::{taken, Numbers, Refusal};
use crate::sys;
use crate::texts::{Kind, Room, BLOCK_LIMIT, TEXT_LIMIT};

/// The strand of a feature or of a query.
#[derive(Clone, Copy, Debug, PartialEq, Eq)]
pub enum Strand {
    Plus,
    Minus,
    /// No strand, `.`.
    Dot,
}

impl Strand {
    /// The other strand; no strand is its own opposite.
    pub fn opposite(self) -> Strand {
        match self {
            Strand::Plus => Strand::Minus,
            Strand::Minus => Strand::Plus,
            Strand::Dot => Strand::Dot,
        }
    }

    /// The letter that spells this strand.
    pub fn letter(self) -> char {
        match self {
            Strand::Plus => '+',
            Strand::Minus => '-',
            Strand::Dot => '.',
        }
    }

    fn of_letter(letter: u64) -> Strand {
        match u8::try_from(letter) {
            Ok(b'+') => Strand::Plus,
            Ok(b'-') => Strand::Minus,
            _ => Strand::Dot,
        }
    }
}

/// One block: where it starts on the target, where on the query (with `-`, on the
/// reversed query), and its size.
#[derive(Clone, Copy, Debug, PartialEq, Eq)]
pub struct Row {
    pub target_start: u64,
    pub query_start: u64,
    pub size: u64,
}

/// A BED line. Columns left out hold their defaults.
#[derive(Clone, Debug, PartialEq, Eq)]
pub struct Bed<'t> {
    pub word_count: u64,
    pub chrom: &'t [u8],
    pub chrom_start: u64,
    pub chrom_end: u64,
    pub name: &'t [u8],
    pub score: u64,
    pub strand: Strand,
    pub thick_start: u64,
    pub thick_end: u64,
    /// Red, green and blue.
    pub item_rgb: [u8; 3],
    pub rows: Vec<Row>,
}

impl<'t> Bed<'t> {
    /// Reads a BED line.
    pub fn parse(text: &'t [u8]) -> Result<Bed<'t>, Refusal> {
        Bed::read(&mut [0; PARSE_ROOM], text)
    }

    /// Reads a BED line; the numbers go through this room.
    pub fn parse_in(room: &mut Room, text: &'t [u8]) -> Result<Bed<'t>, Refusal> {
        Bed::read(room.lent(), text)
    }

    fn read(out: &mut [u8], text: &'t [u8]) -> Result<Bed<'t>, Refusal> {
        parsed(out, Kind::Bed, text, |fields| Bed {
            word_count: fields.number(),
            chrom: fields.name(),
            chrom_start: fields.number(),
            chrom_end: fields.number(),
            name: fields.name(),
            score: fields.number(),
            strand: fields.strand(),
            thick_start: fields.number(),
            thick_end: fields.number(),
            item_rgb: fields.colour(),
            rows: fields.rows(),
        })
    }
}

/// A PSL line. `strand` is the query's; qStart and qEnd count on the forward strand.
#[derive(Clone, Debug, PartialEq, Eq)]
pub struct Psl<'t> {
    pub matches: u64,
    pub mis_matches: u64,
    pub rep_matches: u64,
    pub n_count: u64,
    pub q_num_insert: u64,
    pub q_base_insert: u64,
    pub t_num_insert: u64,
    pub t_base_insert: u64,
    pub strand: Strand,
    pub q_name: &'t [u8],
    pub q_size: u64,
    pub q_start: u64,
    pub q_end: u64,
    pub t_name: &'t [u8],
    pub t_size: u64,
    pub t_start: u64,
    pub t_end: u64,
    pub rows: Vec<Row>,
}

impl<'t> Psl<'t> {
    /// Reads a PSL line.
    pub fn parse(text: &'t [u8]) -> Result<Psl<'t>, Refusal> {
        Psl::read(&mut [0; PARSE_ROOM], text)
    }

    /// Reads a PSL line; the numbers go through this room.
    pub fn parse_in(room: &mut Room, text: &'t [u8]) -> Result<Psl<'t>, Refusal> {
        Psl::read(room.lent(), text)
    }

    fn read(out: &mut [u8], text: &'t [u8]) -> Result<Psl<'t>, Refusal> {
        parsed(out, Kind::Psl, text, |fields| Psl {
            matches: fields.number(),
            mis_matches: fields.number(),
            rep_matches: fields.number(),
            n_count: fields.number(),
            q_num_insert: fields.number(),
            q_base_insert: fields.number(),
            t_num_insert: fields.number(),
            t_base_insert: fields.number(),
            strand: fields.strand(),
            q_name: fields.name(),
            q_size: fields.number(),
            q_start: fields.number(),
            q_end: fields.number(),
            t_name: fields.name(),
            t_size: fields.number(),
            t_start: fields.number(),
            t_end: fields.number(),
            rows: fields.rows(),
        })
    }
}

/// A chain. Its target's strand is always `+`; with `-`, qStart and qEnd count on
/// the reversed query.
#[derive(Clone, Debug, PartialEq, Eq)]
pub struct Chain<'t> {
    pub score: u64,
    pub t_name: &'t [u8],
    pub t_size: u64,
    pub t_start: u64,
    pub t_end: u64,
    pub q_name: &'t [u8],
    pub q_size: u64,
    pub q_strand: Strand,
    pub q_start: u64,
    pub q_end: u64,
    pub id: u64,
    pub rows: Vec<Row>,
}

impl<'t> Chain<'t> {
    /// Reads a chain.
    pub fn parse(text: &'t [u8]) -> Result<Chain<'t>, Refusal> {
        Chain::read(&mut [0; PARSE_ROOM], text)
    }

    /// Reads a chain; the numbers go through this room.
    pub fn parse_in(room: &mut Room, text: &'t [u8]) -> Result<Chain<'t>, Refusal> {
        Chain::read(room.lent(), text)
    }

    fn read(out: &mut [u8], text: &'t [u8]) -> Result<Chain<'t>, Refusal> {
        parsed(out, Kind::Chain, text, |fields| Chain {
            score: fields.number(),
            t_name: fields.name(),
            t_size: fields.number(),
            t_start: fields.number(),
            t_end: fields.number(),
            q_name: fields.name(),
            q_size: fields.number(),
            q_strand: fields.strand(),
            q_start: fields.number(),
            q_end: fields.number(),
            id: fields.number(),
            rows: fields.rows(),
        })
    }
}

/// Most fields before the rows, those of a PSL line.
const MOST_FIELDS: usize = 20;
/// Bytes for the numbers of any record.
const PARSE_ROOM: usize = 8 * (MOST_FIELDS + 3 * BLOCK_LIMIT);
// A room is long enough for them.
const _: () = assert!(PARSE_ROOM <= TEXT_LIMIT);

/// Reads a text and builds its record from the numbers, in their order.
fn parsed<'t, T>(
    out: &mut [u8],
    kind: Kind,
    text: &'t [u8],
    build: impl FnOnce(&mut Fields<'t, '_>) -> T,
) -> Result<T, Refusal> {
    let count = taken(sys::parse(kind.number(), text, out))?;
    let numbers = Numbers::of(out, count);
    Ok(build(&mut Fields { text, numbers }))
}

/// The fields of a record, taken from the front of its numbers.
struct Fields<'t, 'b> {
    text: &'t [u8],
    numbers: Numbers<'b>,
}

impl<'t> Fields<'t, '_> {
    fn number(&mut self) -> u64 {
        self.numbers.next()
    }

    /// Where a name stands and its length; a name that is left out is empty.
    fn name(&mut self) -> &'t [u8] {
        let start = usize::try_from(self.number()).unwrap_or(usize::MAX);
        let length = usize::try_from(self.number()).unwrap_or(usize::MAX);
        let end = start.saturating_add(length);
        self.text.get(start..end).unwrap_or_default()
    }

    fn strand(&mut self) -> Strand {
        Strand::of_letter(self.number())
    }

    /// red × 65,536 + green × 256 + blue.
    fn colour(&mut self) -> [u8; 3] {
        let [blue, green, red, ..] = self.number().to_le_bytes();
        [red, green, blue]
    }

    /// The block count, and the rows after it.
    fn rows(&mut self) -> Vec<Row> {
        let count = self.number().min(self.numbers.left() as u64 / 3);
        (0..count)
            .map(|_| Row {
                target_start: self.number(),
                query_start: self.number(),
                size: self.number(),
            })
            .collect()
    }
}
