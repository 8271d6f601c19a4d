//! The chains of a file, held by the name of their target.

use std::collections::HashMap;
use std::io::BufRead;

use crate::args::Input;
use crate::input::Texts;
use crate::outcome::{Status, Trouble};
use crate::part::Part;
use crate::report::{walk, Report, Verdict};
use crate::spans::Spans;
use crate::text::Text;
use tenderchock::{Chain, Room, Strand};

/// A chain of the file: its text, and what is needed to choose it.
pub struct Held {
    pub text: Box<[u8]>,
    span: Part,
    t_size: u64,
    pub q_name: Box<[u8]>,
    pub minus: bool,
    pub score: u64,
    pub id: u64,
}

impl Held {
    pub fn new(text: &[u8], chain: &Chain) -> Held {
        Held {
            text: text.into(),
            span: Part {
                start: chain.t_start,
                end: chain.t_end,
            },
            t_size: chain.t_size,
            q_name: chain.q_name.into(),
            minus: chain.q_strand == Strand::Minus,
            score: chain.score,
            id: chain.id,
        }
    }
}

/// The chains of the file by the name of their target.
#[derive(Default)]
pub struct Chains {
    by_target: HashMap<Vec<u8>, Named>,
}

/// The chains with one target, in the file's order, and their spans.
#[derive(Default)]
struct Named {
    chains: Vec<Held>,
    spans: Spans,
}

impl Chains {
    /// Reads a file of chains.
    pub fn read<R: BufRead>(
        input: &Input,
        texts: &mut Texts<R>,
        report: &mut Report,
    ) -> Result<(Chains, Status), Trouble> {
        let (mut chains, mut room) = (Chains::default(), Room::new());
        let status = walk(input, texts, report, |report, text| {
            match text.judged(|bytes| Chain::parse_in(&mut room, bytes)) {
                Ok(chain) => chains.take(report, text, &chain),
                Err(refusal) => Ok(report.refuse(text, refusal)?),
            }
        })?;
        for named in chains.by_target.values_mut() {
            named.spans = Spans::new(named.chains.iter().map(|held| held.span));
        }
        Ok((chains, status))
    }

    /// A chain that the library accepts; its target must be as long as before.
    fn take(&mut self, report: &mut Report, text: &Text, chain: &Chain) -> Result<(), Trouble> {
        let named = self.by_target.entry(chain.t_name.to_vec()).or_default();
        match named.chains.first() {
            Some(first) if first.t_size != chain.t_size => {
                let told = format!(
                    "the target {} has {} bases here, and {} in the chain with the id {}",
                    chain.t_name.escape_ascii(),
                    chain.t_size,
                    first.t_size,
                    first.id
                );
                report.refuse_among(text, &told)?;
            }
            _ => {
                if let Verdict::Taken = report.accept(text)? {
                    named.chains.push(Held::new(text.bytes, chain));
                }
            }
        }
        Ok(())
    }

    /// A target of the file whose name is this one with `chr` in front, or without it.
    pub fn near(&self, target: &[u8]) -> Option<Vec<u8>> {
        let near = match target.strip_prefix(b"chr") {
            Some(bare) => bare.to_vec(),
            None => [b"chr", target].concat(),
        };
        self.by_target.contains_key(&near).then_some(near)
    }

    /// The chains with this target whose span a part overlaps, in the file's order; if
    /// there is none, the first with this target.
    pub fn candidates(&self, target: &[u8], parts: &[Part]) -> Vec<&Held> {
        let Some(named) = self.by_target.get(target) else {
            return Vec::new();
        };
        let mut places = named.spans.overlapping(parts);
        if places.is_empty() {
            places.push(0);
        }
        places
            .iter()
            .filter_map(|place| named.chains.get(*place))
            .collect()
    }
}

#[cfg(test)]
pub mod tests {
    use super::*;
    use crate::args::Telling;
    use tenderchock::Kind;

    /// The chains of a file that is good.
    pub fn chains(file: &str) -> Chains {
        let input = Input {
            path: "a.chain".into(),
            kind: Kind::Chain,
        };
        let (mut texts, mut told) = (Texts::new(file.as_bytes(), Kind::Chain), Vec::new());
        let mut report = Report::new(&input, Telling::default(), &mut told);
        let read = Chains::read(&input, &mut texts, &mut report);
        let (chains, status) = read.expect("bytes can be read");
        assert_eq!(status, Status::Accepted);
        chains
    }

    #[test]
    fn candidates_overlap_a_line_in_the_order_of_the_file() {
        let chains = chains(
            "chain 1 t 90 + 50 60 q 10 + 0 10 1\n10\nchain 1 t 90 + 0 80 q 80 + 0 80 2\n80\n\
             chain 1 s 9 + 0 9 q 9 + 0 9 3\n9\nchain 1 t 90 + 10 20 q 10 - 0 10 4\n10\n",
        );
        for (target, parts, wanted) in [
            ("t", &[(15, 55)][..], &[1, 2, 4][..]),
            ("t", &[(15, 16), (79, 85)], &[2, 4]),
            ("t", &[(20, 50)], &[2]),
            ("t", &[(80, 90)], &[1]),
            ("s", &[(0, 1)], &[3]),
            ("u", &[(0, 1)], &[]),
        ] {
            let part = |(start, end): &(u64, u64)| Part {
                start: *start,
                end: *end,
            };
            let parts: Vec<Part> = parts.iter().map(part).collect();
            let found = chains.candidates(target.as_bytes(), &parts);
            let ids: Vec<u64> = found.iter().map(|held| held.id).collect();
            assert_eq!(ids, wanted, "{target} {parts:?}");
        }
    }
}
