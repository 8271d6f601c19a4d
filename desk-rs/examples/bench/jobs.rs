//! The jobs of the benchmark. Each has its input, and the same work on two sides:
//! the proved library through its entries, and plain Rust.

use std::hint::black_box;

use crate::fast::{self, Answer, Bed, Chain, Numbers, Psl, Record, Refused, Room, Row};
use crate::texts::{self, damage, NUMBERS};
use tenderchock::{sys, Kind};

/// Who does the work.
#[derive(Clone, Copy, PartialEq, Eq)]
pub enum Side {
    Library,
    Rust,
}

/// What is done with each text.
#[derive(Clone, Copy)]
enum Work {
    Check,
    Parse,
    /// The standard text, into lent bytes.
    Format,
    /// The numbers of the text, into lent bytes.
    Numbers,
    /// Each region goes through the text, a chain.
    Lift,
    /// The regions go through the text, a chain, in one call.
    Batch,
}

pub struct Job {
    pub name: String,
    pub about: String,
    work: Work,
    kind: Kind,
    texts: Vec<Vec<u8>>,
    regions: Vec<(u64, u64)>,
    /// Regions as bytes.
    batch: Vec<u8>,
    /// What one time is divided by, and what that is.
    pub units: u64,
    pub unit: &'static str,
}

/// What lent bytes hold before they are compared.
const MARK: u8 = 0xA5;
const BLOCKS: u64 = fast::BLOCK_LIMIT as u64;
const REGIONS: u64 = 10_000;
/// Bytes of a region in a batch, and of its row of answers.
const REGION_SIZE: usize = 16;
const ROW_SIZE: usize = 40;
/// The tally that a batch begins with.
const EMPTY: [u8; 24] = [0; 24];
/// Regions of a batch that are tried with each tally and room.
const FEW: usize = 40;

/// The jobs; `small` has fewer regions to lift one by one, for counting instructions.
pub fn all(small: bool) -> Vec<Job> {
    let regions = if small { REGIONS / 100 } else { REGIONS };
    let long = |kind| vec![texts::text(kind, BLOCKS)];
    let mut jobs = vec![
        job(
            "numbers",
            ABOUT_NUMBERS,
            Work::Numbers,
            Kind::Bed,
            vec![texts::numbers()],
        )
        .per(NUMBERS, "number"),
        job("scores", SCORES, Work::Check, Kind::Chain, texts::scores()),
        job(
            "list",
            LIST,
            Work::Check,
            Kind::Bed,
            vec![texts::long_list()],
        )
        .per(NUMBERS, "number"),
    ];
    jobs.extend(bed_lines());
    for (name, about, kind) in [
        ("bed", "a BED line of 12 words with 512 blocks", Kind::Bed),
        ("psl", "a PSL line with 512 blocks", Kind::Psl),
        ("chain", "a chain of 512 blocks", Kind::Chain),
    ] {
        let about = format!("{about}, parsed");
        jobs.push(job(name, &about, Work::Parse, kind, long(kind)));
    }
    jobs.push(Job {
        regions: texts::regions(regions, BLOCKS),
        ..job("lift", LIFT, Work::Lift, Kind::Chain, long(Kind::Chain)).per(regions, "region")
    });
    jobs.push(batch(long(Kind::Chain).remove(0), REGIONS, BLOCKS));
    jobs
}

/// BED lines of a few words, checked and formatted.
fn bed_lines() -> Vec<Job> {
    let mut jobs = Vec::new();
    for (does, done, work) in [
        ("check", "checked", Work::Check),
        ("format", "written as standard text", Work::Format),
    ] {
        for words in [3, 6, 12] {
            let (name, lines) = (format!("bed{words}-{does}"), texts::exons(words));
            let about = format!("{} BED lines of {words} words, each {done}", lines.len());
            jobs.push(job(&name, &about, work, Kind::Bed, lines));
        }
    }
    jobs
}

/// So many regions through a chain of so many blocks, in one call.
fn batch(chain: Vec<u8>, regions: u64, blocks: u64) -> Job {
    Job {
        batch: texts::batch(regions, blocks),
        ..job("batch", BATCH, Work::Batch, Kind::Chain, vec![chain]).per(regions, "region")
    }
}

/// The numbers of blocks at which growth is shown.
pub const GROWTH: [u64; 4] = [1, 8, 64, BLOCKS];

/// For each kind of text and each entry, a job at each number of blocks.
pub fn growth() -> Vec<[Job; GROWTH.len()]> {
    let mut rows = Vec::new();
    for (text, kind) in [
        ("bed", Kind::Bed),
        ("psl", Kind::Psl),
        ("chain", Kind::Chain),
    ] {
        for (does, work) in [
            ("check", Work::Check),
            ("parse", Work::Parse),
            ("format", Work::Format),
        ] {
            let about = format!("{text}, {does}");
            rows.push(GROWTH.map(|blocks| {
                let (name, text) = (format!("{text}-{does}-{blocks}"), texts::text(kind, blocks));
                job(&name, &about, work, kind, vec![text]).per(blocks, "block")
            }));
        }
    }
    rows
}

const ABOUT_NUMBERS: &str = "3,000 numbers of 1 to 18 digits in one text, read into lent bytes";
const SCORES: &str =
    "3,000 numbers of 1 to 18 digits, each the score of a chain of one block, checked";
const LIST: &str = "3,000 numbers of 1 to 10 digits in one list of a BED line, \
     which is read to its end and refused by 8";
const LIFT: &str =
    "10,000 regions lifted one by one through that chain, whose text is handed in each time";
const BATCH: &str =
    "10,000 regions of all sorts lifted through that chain in one call, with a tally";

/// Work on each of these texts.
fn job(name: &str, about: &str, work: Work, kind: Kind, texts: Vec<Vec<u8>>) -> Job {
    Job {
        name: name.into(),
        about: about.into(),
        work,
        kind,
        units: texts.len() as u64,
        unit: if kind == Kind::Chain { "chain" } else { "line" },
        texts,
        regions: Vec::new(),
        batch: Vec::new(),
    }
}

impl Job {
    /// The same, with another unit.
    fn per(self, units: u64, unit: &'static str) -> Job {
        Job {
            units,
            unit,
            ..self
        }
    }

    /// Does all of it once.
    pub fn run(&self, side: Side, lent: &mut Lent) {
        match (side, self.kind) {
            (Side::Library, _) => self.run_library(lent),
            (Side::Rust, Kind::Bed) => self.run_rust::<Bed>(lent),
            (Side::Rust, Kind::Psl) => self.run_rust::<Psl>(lent),
            (Side::Rust, Kind::Chain) => self.run_rust::<Chain>(lent),
        }
    }

    fn run_library(&self, lent: &mut Lent) {
        let kind = self.kind.number();
        match self.work {
            Work::Check => self.each(lent, |text, _| sys::check(kind, text)),
            Work::Parse => self.each(lent, |text, lent| sys::parse(kind, text, &mut lent.bytes)),
            Work::Format => self.each(lent, |text, lent| sys::format(kind, text, &mut lent.bytes)),
            Work::Numbers => self.each(lent, |text, lent| sys::numbers(text, &mut lent.bytes)),
            Work::Lift => self.each_region(lent, |text, start, end, lent| {
                sys::lift_region(text, start, end, &mut lent.bytes)
            }),
            Work::Batch => self.each(lent, |text, lent| {
                lent.tally = EMPTY;
                sys::lift_batch(text, &self.batch, &mut lent.tally, &mut lent.answers)
            }),
        }
    }

    fn run_rust<R: Record>(&self, lent: &mut Lent) {
        match self.work {
            Work::Check => self.each(lent, |text, lent| fast::check::<R>(text, &mut lent.room)),
            Work::Parse => self.each(lent, |text, lent| {
                fast::parse::<R>(text, &mut lent.room, &mut lent.rows)
            }),
            Work::Format => self.each(lent, |text, lent| {
                fast::format::<R>(text, &mut lent.room, &mut lent.bytes)
            }),
            Work::Numbers => self.each(lent, |text, lent| {
                fast::numbers(text, &mut lent.numbers, &mut lent.bytes)
            }),
            Work::Lift => self.each_region(lent, |text, start, end, lent| {
                fast::lift_region(text, start, end, &mut lent.room)
            }),
            Work::Batch => self.each(lent, |text, lent| {
                lent.tally = EMPTY;
                let (tally, answers) = (&mut lent.tally, &mut lent.answers);
                fast::lift_batch(text, &self.batch, tally, answers, &mut lent.room)
            }),
        }
    }

    fn each<T>(&self, lent: &mut Lent, work: impl Fn(&[u8], &mut Lent) -> T) {
        for text in &self.texts {
            black_box(work(black_box(text), black_box(lent)));
        }
    }

    fn each_region<T>(&self, lent: &mut Lent, work: impl Fn(&[u8], u64, u64, &mut Lent) -> T) {
        for (start, end) in &self.regions {
            self.each(lent, |text, lent| work(text, *start, *end, lent));
        }
    }

    /// Whether both sides answer the same, on these texts and on damaged ones.
    pub fn sides_agree(&self, damaged: u64) -> bool {
        let mut lent = Lent::new();
        let good = self.texts.iter().all(|text| self.agree_on(text, &mut lent));
        good && (0..damaged).all(|seed| {
            let text = &self.texts[seed as usize % self.texts.len()];
            self.agree_on(&damage(text, seed), &mut lent)
        })
    }

    fn agree_on(&self, text: &[u8], lent: &mut Lent) -> bool {
        match self.kind {
            Kind::Bed => self.agree_as::<Bed>(text, lent),
            Kind::Psl => self.agree_as::<Psl>(text, lent),
            Kind::Chain => self.agree_as::<Chain>(text, lent),
        }
    }

    fn agree_as<R: Record>(&self, text: &[u8], lent: &mut Lent) -> bool {
        let kind = self.kind.number();
        match self.work {
            Work::Check | Work::Parse => {
                let count = sys::parse(kind, text, &mut lent.bytes);
                let checked = code(fast::check::<R>(text, &mut lent.room));
                lent.parsed(count) == lent.read_numbers::<R>(text)
                    && sys::check(kind, text) == checked
            }
            Work::Format => {
                let written = fast::format::<R>(text, &mut lent.room, &mut lent.bytes);
                let exact = written.unwrap_or(0);
                [exact + 9, exact, exact.saturating_sub(1), 0]
                    .into_iter()
                    .all(|room| {
                        let library = |out: &mut [u8]| sys::format(kind, text, out);
                        agree_in(room, library, |out| {
                            fast::format::<R>(text, &mut lent.room, out)
                        })
                    })
            }
            Work::Numbers => {
                let exact = 8 * NUMBERS as usize;
                [exact, exact - 1, 0]
                    .into_iter()
                    .all(|room| lent.numbers_agree(text, room))
            }
            Work::Lift => self.regions.iter().take(3).all(|(start, end)| {
                let count = sys::lift_region(text, *start, *end, &mut lent.bytes);
                let rust = fast::lift_region(text, *start, *end, &mut lent.room);
                lent.parsed(count) == rust.map(|numbers| numbers.to_vec())
            }),
            Work::Batch => {
                let whole = lent.batch_agrees(text, &self.batch, &EMPTY, lent.answers.len());
                let few = &self.batch[..self.batch.len().min(FEW * REGION_SIZE)];
                whole && lent.batches_agree(text, few)
            }
        }
    }
}

/// Whether both sides give the same answer and leave the same bytes in so much room.
fn agree_in(
    room: usize,
    library: impl FnOnce(&mut [u8]) -> u64,
    rust: impl FnOnce(&mut [u8]) -> Answer<usize>,
) -> bool {
    agree_from(vec![MARK; room], library, rust)
}

/// The same where what is lent holds these bytes. A refusal must leave them.
fn agree_from(
    lent: Vec<u8>,
    library: impl FnOnce(&mut [u8]) -> u64,
    rust: impl FnOnce(&mut [u8]) -> Answer<usize>,
) -> bool {
    let (mut given, mut wanted) = (lent.clone(), lent.clone());
    let (answer, code) = (library(&mut given), code(rust(&mut wanted)));
    let kept = code % 16 == 0 || wanted == lent;
    answer == code && given == wanted && kept
}

/// Tallies of all sorts: too short, too long, at and near the limit, and bad ones.
fn tallies() -> Vec<Vec<u8>> {
    let most = u64::MAX / 2;
    let good = [[9, 4, 5], [most, most, 0], [most - 5_000, 0, most - 5_000]];
    let bad = [
        [1, 0, 0],
        [most + 1, most, 1],
        [0, most + 1, most + 1],
        [u64::MAX, u64::MAX, 0],
    ];
    let numbers = good.into_iter().chain(bad);
    let whole = numbers.map(|sums| sums.map(u64::to_le_bytes).concat());
    let zeros = [0, 23, 24, 30].map(|length| vec![0; length]);
    whole.chain(zeros).collect()
}

/// An answer as the library codes it.
fn code(answer: Answer<usize>) -> u64 {
    match answer {
        Ok(count) => count as u64 * 16,
        Err(refused) => refused.place as u64 * 16 + u64::from(refused.number),
    }
}

/// What is lent to both sides.
pub struct Lent {
    bytes: Vec<u8>,
    rows: Vec<Row>,
    room: Box<Room>,
    numbers: Box<Numbers>,
    answers: Vec<u8>,
    tally: [u8; 24],
}

impl Lent {
    pub fn new() -> Lent {
        Lent {
            bytes: vec![0; 8 * NUMBERS.max(20 + 3 * BLOCKS) as usize],
            rows: vec![Row::default(); fast::BLOCK_LIMIT],
            room: Box::new(Room::new()),
            numbers: fast::numbers_room(),
            answers: vec![0; ROW_SIZE * REGIONS as usize],
            tally: EMPTY,
        }
    }

    /// The record and rows that plain Rust reads, as the library's parse gives them.
    fn read_numbers<R: Record>(&mut self, text: &[u8]) -> Answer<Vec<u64>> {
        let record = fast::parse::<R>(text, &mut self.room, &mut self.rows)?;
        let mut numbers = record.numbers();
        for row in &self.rows[..record.block_count()] {
            numbers.extend([row.target, row.query, row.size]);
        }
        Ok(numbers)
    }

    /// Whether both sides agree on a text of numbers, given so much room.
    fn numbers_agree(&mut self, text: &[u8], room: usize) -> bool {
        let library = |out: &mut [u8]| sys::numbers(text, out);
        agree_in(room, library, |out| {
            fast::numbers(text, &mut self.numbers, out)
        })
    }

    /// Whether both sides agree on a batch with this tally, given so much room.
    fn batch_agrees(&mut self, text: &[u8], regions: &[u8], tally: &[u8], room: usize) -> bool {
        let lent = [tally, &vec![MARK; room]].concat();
        let library = |lent: &mut [u8]| {
            let (tally, out) = lent.split_at_mut(tally.len());
            sys::lift_batch(text, regions, tally, out)
        };
        agree_from(lent, library, |lent| {
            let (tally, out) = lent.split_at_mut(tally.len());
            fast::lift_batch(text, regions, tally, out, &mut self.room)
        })
    }

    /// The same with each tally, with room that is enough and that isn't, and with
    /// regions cut.
    fn batches_agree(&mut self, text: &[u8], regions: &[u8]) -> bool {
        let exact = regions.len() / REGION_SIZE * ROW_SIZE;
        let rooms = [exact + ROW_SIZE, exact, exact - 1, exact - ROW_SIZE, 0];
        let lengths = [0, 1, 8, REGION_SIZE, regions.len() - 1, regions.len()];
        tallies().iter().all(|tally| {
            rooms.iter().all(|room| {
                lengths
                    .iter()
                    .all(|length| self.batch_agrees(text, &regions[..*length], tally, *room))
            })
        })
    }

    /// The library's answer taken apart.
    fn parsed(&self, answer: u64) -> Answer<Vec<u64>> {
        let (number, value) = ((answer % 16) as u8, (answer / 16) as usize);
        match number {
            0 => {
                let front = self.bytes.chunks_exact(8).take(value);
                Ok(front
                    .map(|bytes| bytes.iter().rev().fold(0, |n, b| n << 8 | u64::from(*b)))
                    .collect())
            }
            _ => Err(Refused::new(number, value)),
        }
    }
}

#[cfg(test)]
mod tests {
    use super::{batch, job, texts, Kind, Lent, Side, Work, REGION_SIZE, ROW_SIZE};

    #[test]
    fn both_sides_answer_the_same() {
        for job in super::all(true) {
            assert!(job.sides_agree(1_000), "{}", job.name);
        }
        for job in super::growth().iter().flatten() {
            assert!(job.sides_agree(100), "{}", job.name);
        }
    }

    /// Lines of the other numbers of words, and texts that aren't standard.
    #[test]
    fn both_sides_write_odd_texts_the_same() {
        let odd = [
            (Kind::Bed, " c\t0  9 "),
            (Kind::Bed, "c 0 9 n 0 . 0 9 0,0,0\n"),
            (Kind::Bed, "c 0 9 n 7 . 0 9 0,0,9\n"),
            (Kind::Bed, "c 0 9 n 10 . 0 9 100,20,0 2 1,8 0,1\n"),
            (
                Kind::Psl,
                "3 0 0 0 0 0 1 2 + q  9 1 4 t 9 0 5 2 1,2 1,2, 0,3",
            ),
            (
                Kind::Chain,
                " chain 100 t 9 + 1 9 q\t9 - 0 9 4294967295 \n 1 0\t1\n7",
            ),
        ];
        for (kind, text) in odd {
            let texts = vec![text.as_bytes().to_vec()];
            let good = tenderchock::check(kind, text.as_bytes()).is_ok();
            assert!(
                good && job("odd", "", Work::Format, kind, texts).sides_agree(1_000),
                "{text}"
            );
        }
        for words in [4, 5, 7, 8, 9] {
            let job = job("odd", "", Work::Format, Kind::Bed, texts::exons(words));
            assert!(job.sides_agree(1_000), "{words} words");
        }
    }

    /// Chains of other numbers of blocks, on both query strands.
    #[test]
    fn both_sides_answer_batches_the_same() {
        for blocks in [1, 2, 3, 8, 64, 511] {
            let minus = String::from_utf8(texts::text(Kind::Chain, blocks)).unwrap();
            for chain in [minus.replace(" - ", " + "), minus] {
                let job = batch(chain.into_bytes(), 1_000, blocks);
                assert!(job.sides_agree(20), "{blocks} blocks");
            }
        }
    }

    /// Every region of a small chain, and some far out, with tallies that take all of
    /// them, some or none.
    #[test]
    fn both_sides_answer_every_region_of_a_small_chain_the_same() {
        let minus = "chain 100 tA 100 + 10 40 qB 80 - 5 33 7\n10 3 0\n8 0 1\n9\n";
        let places = || (0..=102u64).chain([u64::MAX - 1, u64::MAX]);
        let pairs = places().flat_map(|start| places().map(move |end| [start, end]));
        let regions: Vec<u8> = pairs.flatten().flat_map(u64::to_le_bytes).collect();
        let room = regions.len() / REGION_SIZE * ROW_SIZE;
        let mut lent = Lent::new();
        for chain in [minus, &minus.replace(" - ", " + ")] {
            for left in [u64::MAX / 2, 100_000, 101, 100, 99, 6, 5, 1, 0] {
                let asked = (u64::MAX / 2 - left).to_le_bytes();
                let tally = [asked, [0; 8], asked].concat();
                let agree = lent.batch_agrees(chain.as_bytes(), &regions, &tally, room);
                assert!(agree, "{left} left of the tally");
            }
        }
    }

    /// Regions with a pair, with none, and not inside the target.
    #[test]
    fn a_batch_has_all_sorts_of_regions() {
        let mut lent = Lent::new();
        let job = super::all(true).pop().unwrap();
        job.run(Side::Library, &mut lent);
        let rows = lent.answers.chunks_exact(ROW_SIZE);
        let count = |reason| rows.clone().filter(|row| row[0] == reason).count();
        let counts = [0, 12, 13].map(count);
        assert_eq!(counts.iter().sum::<usize>(), rows.len());
        assert!(counts.iter().all(|count| *count >= 100), "{counts:?}");
    }

    /// Each word near the start and near the end of texts of all small lengths.
    #[test]
    fn both_sides_read_short_texts_of_numbers_the_same() {
        let mut lent = Lent::new();
        let words =
            "|0|00|7|007|x|1x|x1|,|1:|/1|-1|\t|\n|\n\n|\n \t|\r|\x7F|1\n|\n1|x\n|1\nx|1 \n\x00|\
            99999999999999999|100000000000000000|999999999999999999|000000000000000001|\
            1000000000000000000|0999999999999999999|999999999999999999x|18446744073709551616|\
            99999999999999999999999999|99999999999999999999999999x";
        for word in words.split('|') {
            for more in 0..24 {
                for (before, after) in [("7 ", " 8"), ("7", ""), (" ", ""), ("", "9"), ("", "\t")] {
                    let text = before.repeat(more) + word + &after.repeat(more);
                    let agree = lent.numbers_agree(text.as_bytes(), 8 * 24);
                    assert!(agree, "{}", text.escape_default());
                }
            }
        }
    }
}
