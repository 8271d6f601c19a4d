//! Questions to chains, answered together: the text of a chain is read once for all that
//! are asked of it.

use std::ops::Range;
use std::ptr;

use crate::chains::Held;
use crate::part::Part;
use tenderchock::{Batch, LiftedRegion, Refusal, Tally};

/// The library's answer for a part.
pub type Answer = Result<LiftedRegion, Refusal>;

/// Parts, each with the chain that it is asked of, and their answers.
#[derive(Default)]
pub struct Round<'c> {
    asked: Vec<(&'c Held, Part)>,
    answers: Vec<Answer>,
    /// The places of what is asked, chain by chain.
    order: Vec<usize>,
    batch: Batch,
}

impl<'c> Round<'c> {
    pub fn clear(&mut self) {
        self.asked.clear();
        self.answers.clear();
    }

    /// Asks a chain about these parts; says where the answers will stand.
    pub fn ask(&mut self, chain: &'c Held, parts: &[Part]) -> Range<usize> {
        let start = self.asked.len();
        self.asked.extend(parts.iter().map(|part| (chain, *part)));
        start..self.asked.len()
    }

    /// Answers all, with one batch for each chain; the tally grows.
    pub fn answer(&mut self, tally: &mut Tally) {
        let Round {
            asked,
            answers,
            order,
            batch,
        } = self;
        let chain = |at: &usize| ptr::from_ref(asked[*at].0);
        order.clear();
        order.extend(0..asked.len());
        order.sort_by_key(chain);
        answers.resize(asked.len(), Err(NOT_ASKED));
        for of_chain in order.chunk_by(|left, right| chain(left) == chain(right)) {
            let held = asked[of_chain[0]].0;
            batch.clear();
            for at in of_chain {
                let Part { start, end } = asked[*at].1;
                batch.push(start, end);
            }
            match batch.lift(&held.text, tally) {
                Ok(lifted) => {
                    for (at, answer) in of_chain.iter().zip(lifted) {
                        answers[*at] = answer;
                    }
                }
                Err(refusal) => of_chain.iter().for_each(|at| answers[*at] = Err(refusal)),
            }
        }
    }

    /// The answers that stand here.
    pub fn answers(&self, at: &Range<usize>) -> &[Answer] {
        self.answers.get(at.clone()).unwrap_or_default()
    }

    /// Whether a part is refused by the tally, which is full.
    pub fn is_over(&self) -> bool {
        let is_full = |answer: &Answer| answer.is_err_and(|refusal| is_full(&refusal));
        self.answers.iter().any(is_full)
    }
}

/// What stands for an answer until there is one.
const NOT_ASKED: Refusal = Refusal {
    number: 12,
    place: 0,
};

/// Whether it is the tally's: a part itself has no pair, or is not inside the target.
pub fn is_full(refusal: &Refusal) -> bool {
    !matches!(refusal.number, 12 | 13)
}

#[cfg(test)]
mod tests {
    use super::*;
    use crate::chains::tests::chains;

    #[test]
    fn a_chain_is_read_once_however_often_it_is_asked() {
        let chains = chains(
            "chain 1 t 90 + 0 50 q 60 - 0 60 1\n20 10 20\n20\nchain 1 t 90 + 40 90 q 50 + 0 50 2\n50\n",
        );
        let part = |start, end| Part { start, end };
        let held = chains.candidates(b"t", &[part(0, 90)]);
        let (mut round, mut tally, mut single) = Default::default();
        for _ in 0..2 {
            Round::clear(&mut round);
            let mut asked = Vec::new();
            for start in 0..90 {
                let parts = [part(start, 90), part(start, start + 7)];
                let held = held[start as usize % held.len()];
                asked.push((held, parts, round.ask(held, &parts)));
            }
            round.answer(&mut tally);
            for (held, parts, at) in asked {
                let answers = parts.map(|part| {
                    let _ = Tally::add(&mut single, &held.text, part.start, part.end);
                    tenderchock::lift_region(&held.text, part.start, part.end)
                });
                assert_eq!(round.answers(&at), answers);
            }
            let chain = |at: &usize| ptr::from_ref(round.asked[*at].0);
            let read = round
                .order
                .chunk_by(|left, right| chain(left) == chain(right));
            assert_eq!((read.count(), tally), (held.len(), single));
        }
        assert!(!round.is_over());
    }
}
