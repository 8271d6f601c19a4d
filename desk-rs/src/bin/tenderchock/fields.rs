//! The columns of each kind of line by name, and what may stand in them.

use tenderchock::Kind;

/// A column.
#[derive(Clone, Copy, Debug, PartialEq, Eq)]
pub struct Field {
    pub name: &'static str,
    /// What may stand in it.
    pub holds: &'static str,
}

const fn field(name: &'static str, holds: &'static str) -> Field {
    Field { name, holds }
}

const NAME: &str = "a name of 1 to 64 bytes";
const COORDINATE: &str = "a number from 0 to 2147483647";
const SIZE: &str = "a number from 1 to 2147483647";
const BLOCK_COUNT: &str = "a number from 1 to 512";
const SIZES: &str = "a list of numbers from 1 to 2147483647";
const STARTS: &str = "a list of numbers from 0 to 2147483647";
const STRAND: &str = "`+` or `-`";

const BED: [Field; 12] = [
    field("chrom", NAME),
    field("chromStart", COORDINATE),
    field("chromEnd", COORDINATE),
    field("name", NAME),
    field("score", "a number from 0 to 1000"),
    field("strand", "`+`, `-` or `.`"),
    field("thickStart", COORDINATE),
    field("thickEnd", COORDINATE),
    field("itemRgb", "`0` or a list of three numbers from 0 to 255"),
    field("blockCount", BLOCK_COUNT),
    field("blockSizes", SIZES),
    field("blockStarts", STARTS),
];

const PSL: [Field; 21] = [
    field("matches", COORDINATE),
    field("misMatches", COORDINATE),
    field("repMatches", COORDINATE),
    field("nCount", COORDINATE),
    field("qNumInsert", COORDINATE),
    field("qBaseInsert", COORDINATE),
    field("tNumInsert", COORDINATE),
    field("tBaseInsert", COORDINATE),
    field("strand", STRAND),
    field("qName", NAME),
    field("qSize", SIZE),
    field("qStart", COORDINATE),
    field("qEnd", COORDINATE),
    field("tName", NAME),
    field("tSize", SIZE),
    field("tStart", COORDINATE),
    field("tEnd", COORDINATE),
    field("blockCount", BLOCK_COUNT),
    field("blockSizes", SIZES),
    field("qStarts", STARTS),
    field("tStarts", STARTS),
];

const CHAIN: [Field; 13] = [
    field("the first word", "the word `chain`"),
    field("score", "a number from 0 to 999999999999999999"),
    field("tName", NAME),
    field("tSize", SIZE),
    field("tStrand", "`+`"),
    field("tStart", COORDINATE),
    field("tEnd", COORDINATE),
    field("qName", NAME),
    field("qSize", SIZE),
    field("qStrand", STRAND),
    field("qStart", COORDINATE),
    field("qEnd", COORDINATE),
    field("id", "a number from 0 to 4294967295"),
];

const BLOCK: [Field; 3] = [
    field("size", SIZE),
    field("dt", COORDINATE),
    field("dq", COORDINATE),
];

/// The columns of a text's first line, or of a later one: a chain's block lines.
pub fn of_line(kind: Kind, first: bool) -> &'static [Field] {
    match (kind, first) {
        (Kind::Bed, _) => &BED,
        (Kind::Psl, _) => &PSL,
        (Kind::Chain, true) => &CHAIN,
        (Kind::Chain, false) => &BLOCK,
    }
}

/// How many words such a line has.
pub fn words_wanted(kind: Kind, first: bool) -> &'static str {
    match (kind, first) {
        (Kind::Bed, _) => "a BED line has 3 to 9 or 12",
        (Kind::Psl, _) => "a PSL line has 21",
        (Kind::Chain, true) => "a chain's header has 13",
        (Kind::Chain, false) => "a block line has 3, and the last one 1",
    }
}
