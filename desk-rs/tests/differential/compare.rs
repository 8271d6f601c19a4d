//! One case: a text sent through every entry of the library, and each answer
//! held against the second program's, with every byte of what was lent.

use std::collections::BTreeMap;

use crate::dice::Dice;
use crate::expected;
use reference::chain::Chain;
use reference::ledger::{Answer, Reason, Refusal};
use reference::rows::Row;
use tenderchock::{sys, Kind};

/// How often each entry gave each number, 0 for accepted.
pub type Seen = BTreeMap<(&'static str, u8), u64>;

/// More bases than this are too many to list one by one.
const MOST_BASES: u128 = 20_000;

/// A text and the kind that it is sent as.
pub struct Case {
    pub kind: u64,
    pub text: Vec<u8>,
}

pub struct Compare<'a> {
    pub dice: &'a mut Dice,
    pub seen: &'a mut Seen,
    /// What to print where the two differ.
    pub label: &'a str,
}

impl Compare<'_> {
    /// Every entry on this text.
    pub fn case(&mut self, case: &Case) {
        let kind = expected::kind(case.kind);
        self.texts(case, kind);
        if let Ok(Kind::Chain) = kind {
            self.chain(&case.text);
        }
        if self.dice.once_in(4) {
            self.convert();
        }
    }

    fn texts(&mut self, case: &Case, kind: Answer<Kind>) {
        let (number, text) = (case.kind, &case.text[..]);
        let entry = match kind {
            Ok(Kind::Bed) => ["bed check", "bed parse", "bed format"],
            Ok(Kind::Psl) => ["psl check", "psl parse", "psl format"],
            Ok(Kind::Chain) => ["chain check", "chain parse", "chain format"],
            Err(_) => ["other check", "other parse", "other format"],
        };
        let checked = kind.and_then(|kind| expected::check(kind, text));
        self.number(entry[0], sys::check(number, text), &checked);
        let parsed = kind.and_then(|kind| expected::parse(kind, text));
        self.lent(entry[1], parsed.map(bytes_of), 8, text.len(), |out| {
            sys::parse(number, text, out)
        });
        let formatted = kind.and_then(|kind| expected::format(kind, text));
        self.lent(entry[2], formatted, 1, text.len(), |out| {
            sys::format(number, text, out)
        });
    }

    /// Turns, lifts, tallies and batches through a chain's text, accepted or not.
    fn chain(&mut self, text: &[u8]) {
        let turned = expected::turn(text);
        self.lent("turn", turned, 1, text.len(), |out| sys::turn(text, out));
        let read = expected::read_chain(text);
        let times = match &read {
            Ok((_, rows)) if expected::bases(rows) > MOST_BASES => return,
            Ok(_) => 4,
            Err(_) => 1,
        };
        let edges = self.edges(&read);
        for _ in 0..times {
            self.lifts(text, &edges);
            self.batch(text, &read);
        }
    }

    /// Where a block, drawn anew at each call, the span and the target begin and end.
    pub fn edges(&mut self, read: &Answer<(Chain, Vec<Row>)>) -> Vec<u64> {
        let Ok((chain, rows)) = read else {
            return vec![0, 10];
        };
        let row = self.dice.of(rows);
        let ends = [
            row.target,
            row.target + row.size,
            chain.t_start,
            chain.t_end,
        ];
        [&ends[..], &[chain.t_size, 0]].concat()
    }

    fn lifts(&mut self, text: &[u8], edges: &[u64]) {
        let position = self.near(edges);
        let lifted = expected::lift_position(text, position);
        self.lent(
            "lift position",
            lifted.map(bytes_of),
            8,
            text.len(),
            |out| sys::lift_position(text, position, out),
        );
        let (start, end) = (self.near(edges), self.near(edges));
        let (start, end) = match self.dice.once_in(8) {
            true => (start, end),
            false => (start.min(end), start.max(end)),
        };
        let lifted = expected::lift_region(text, start, end);
        self.lent("lift region", lifted.map(bytes_of), 8, text.len(), |out| {
            sys::lift_region(text, start, end, out)
        });
        self.tally(text, start, end);
    }

    fn tally(&mut self, text: &[u8], start: u64, end: u64) {
        let mut lent = self.any_lent_tally(end.wrapping_sub(start));
        self.tally_call(text, start, end, &mut lent);
    }

    /// One region with a tally in lent bytes, which are compared after the call.
    pub fn tally_call(&mut self, text: &[u8], start: u64, end: u64, lent: &mut [u8]) {
        let mut after = lent.to_vec();
        let answer = expected::tally(text, start, end, &mut after);
        let got = sys::tally(text, start, end, lent);
        self.number("tally", got, &answer);
        assert!(lent == after, "{}: the tally left behind", self.label);
    }

    /// A tally in lent bytes, now and then too few or too many.
    pub fn any_lent_tally(&mut self, length: u64) -> Vec<u8> {
        let mut lent = bytes_of(self.any_tally(length).to_vec());
        let more = self.dice.bytes(20);
        lent.extend(more);
        lent.truncate(match self.dice.between(0, 9) {
            0 => self.dice.index(24),
            1 => 24 + self.dice.index(20),
            _ => 24,
        });
        lent
    }

    /// Good tallies, some near the limit for a region of this length, and bad ones.
    fn any_tally(&mut self, length: u64) -> [u64; 3] {
        const MOST: u64 = i64::MAX as u64;
        let dice = &mut *self.dice;
        let asked = match dice.between(0, 5) {
            0 => 0,
            1 => MOST,
            2 => MOST
                .wrapping_sub(length)
                .wrapping_add(dice.between(0, 2))
                .wrapping_sub(1),
            3 => dice.between(0, MOST),
            _ => dice.between(0, 1000),
        };
        let kept = dice.between(0, asked);
        let dropped = asked - kept;
        match dice.between(0, 15) {
            0 => [asked, kept, dropped.wrapping_add(1)],
            1 => [asked, dice.any(), dice.any()],
            2 => [asked, u64::MAX, asked.wrapping_add(1)],
            3 => [MOST + 1, kept, (MOST + 1).wrapping_sub(kept)],
            4 => [MOST + 1, MOST + 1, 0],
            _ => [asked, kept, dropped],
        }
    }

    fn convert(&mut self) {
        let limit = 2_147_483_647;
        let size = self.near(&[limit, 100, 1]);
        let (start, end) = (self.near(&[0, size]), self.near(&[0, size, 50]));
        let converted = expected::convert(start, end, size);
        self.lent("convert", converted.map(bytes_of), 8, 0, |out| {
            sys::convert(start, end, size, out)
        });
    }

    /// The numbers of a text, with room that is enough, exact, a byte too little,
    /// and none.
    pub fn numbers(&mut self, text: &[u8]) {
        let needed = match expected::numbers(text, expected::ROOM) {
            Ok(numbers) => 8 * numbers.len(),
            Err(_) => 8,
        };
        let enough = needed + self.dice.index(40);
        for room in [enough, needed, needed.saturating_sub(1), 0] {
            let wanted = expected::numbers(text, room / 8).map(bytes_of);
            self.lent_room("numbers", wanted, 8, text.len(), room, |out| {
                sys::numbers(text, out)
            });
        }
    }

    /// A number at one of these edges, near it, below it, or anywhere.
    pub fn near(&mut self, edges: &[u64]) -> u64 {
        let edge = self.dice.of(edges);
        match self.dice.between(0, 24) {
            0 => self.dice.any(),
            1 => u64::MAX,
            2 => 2_147_483_646 + self.dice.between(0, 3),
            3..=8 => edge,
            9..=16 => edge
                .saturating_add(self.dice.between(0, 4))
                .saturating_sub(2),
            _ => self.dice.between(0, edge.saturating_add(1)),
        }
    }

    /// An entry that writes into what is lent, which is now and then too small,
    /// exact, or larger.
    fn lent(
        &mut self,
        entry: &'static str,
        wanted: Answer<Vec<u8>>,
        unit: usize,
        end: usize,
        call: impl FnOnce(&mut [u8]) -> u64,
    ) {
        let needed = wanted.as_ref().map_or(8, Vec::len);
        let room = match self.dice.between(0, 5) {
            0 => self.dice.index(needed + 1),
            1 => needed - 1,
            2 => needed,
            _ => needed + self.dice.index(40),
        };
        self.lent_room(entry, wanted, unit, end, room, call);
    }

    /// An entry that writes into so much room: its number, and each byte of what
    /// is lent. `unit` is the size of what it counts, `end` the text's end.
    fn lent_room(
        &mut self,
        entry: &'static str,
        wanted: Answer<Vec<u8>>,
        unit: usize,
        end: usize,
        room: usize,
        call: impl FnOnce(&mut [u8]) -> u64,
    ) {
        let mut out = self.dice.bytes(room);
        let mut after = out.clone();
        let answer = wanted.and_then(|bytes| match after.get_mut(..bytes.len()) {
            Some(front) => {
                front.copy_from_slice(&bytes);
                Ok((bytes.len() / unit) as u64)
            }
            None => Err(Refusal::new(Reason::NoRoom, end)),
        });
        let got = call(&mut out);
        self.number(entry, got, &answer);
        assert!(
            out == after,
            "{}: {entry}: the lent bytes differ",
            self.label
        );
    }

    pub fn number(&mut self, entry: &'static str, got: u64, wanted: &Answer<u64>) {
        let reason = wanted
            .as_ref()
            .map_or_else(|refusal| refusal.reason.number(), |_| 0);
        *self.seen.entry((entry, reason)).or_default() += 1;
        let wanted = expected::packed(wanted);
        assert!(
            got == wanted,
            "{}: {entry}: the library answers {} with {}, the second program {} with {}",
            self.label,
            got % 16,
            got / 16,
            wanted % 16,
            wanted / 16,
        );
    }
}

pub fn bytes_of(numbers: Vec<u64>) -> Vec<u8> {
    numbers.into_iter().flat_map(u64::to_le_bytes).collect()
}
