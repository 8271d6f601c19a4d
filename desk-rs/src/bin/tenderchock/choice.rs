//! Which chains a line goes through: of several candidates those in which it keeps bases,
//! and of these the one that was asked for.

use crate::args::Several;
use crate::ready::Through;
use crate::why::Why;

/// The candidates that a line goes through: one alone unasked, and if it keeps bases in
/// none of several, the first. That is as good as any other: the chains of a target have
/// one size, so a part that none of them keeps is refused by the same number in each.
pub fn chosen<'c>(
    candidates: Vec<Through<'c>>,
    keeps_bases: impl Fn(&Through<'c>) -> bool,
    several: Several,
) -> Result<Vec<Through<'c>>, Why> {
    if candidates.len() < 2 {
        return Ok(candidates);
    }
    let (mut kept, mut not): (Vec<Through>, Vec<Through>) =
        candidates.into_iter().partition(keeps_bases);
    match (kept.len(), several) {
        (0, _) => {
            not.truncate(1);
            Ok(not)
        }
        (1, _) | (_, Several::All) => Ok(kept),
        (_, Several::None) => Err(Why::Several(
            kept.iter().map(|through| through.chain.id).collect(),
        )),
        (_, Several::Best) => {
            kept.sort_by_key(|through| (u64::MAX - through.chain.score, through.chain.id));
            kept.truncate(1);
            Ok(kept)
        }
    }
}

#[cfg(test)]
mod tests {
    use super::*;
    use crate::chains::tests::chains;
    use crate::chains::Chains;
    use crate::part::Part;

    /// Chains of one target, given by score, tStart, tEnd and id; each has its outer
    /// quarters as blocks.
    fn of_target(each: &[(u64, u64, u64, u64)]) -> Chains {
        let text = |(score, start, end, id): &(u64, u64, u64, u64)| {
            let (size, quarter) = (end - start, (end - start) / 4);
            let gap = size - 2 * quarter;
            format!(
                "chain {score} t 100 + {start} {end} q 100 + 0 {size} {id}\n{quarter} {gap} {gap}\n{quarter}\n"
            )
        };
        chains(&each.iter().map(text).collect::<String>())
    }

    fn ids(chains: &Chains, parts: &[(u64, u64)], several: Several) -> Result<Vec<u64>, Vec<u64>> {
        let part = |(start, end): &(u64, u64)| Part {
            start: *start,
            end: *end,
        };
        let parts: Vec<Part> = parts.iter().map(part).collect();
        let keeps_bases = |through: &Through| {
            let text = &through.chain.text;
            let lifted = |part: &Part| tenderchock::lift_region(text, part.start, part.end);
            parts.iter().any(|part| lifted(part).is_ok())
        };
        let candidates = chains.candidates(b"t", &parts).into_iter();
        match chosen(candidates.map(Through::new).collect(), keeps_bases, several) {
            Ok(through) => Ok(through.iter().map(|through| through.chain.id).collect()),
            Err(Why::Several(ids)) => Err(ids),
            Err(_) => Err(Vec::new()),
        }
    }

    #[test]
    fn the_chain_in_which_a_line_keeps_bases_is_chosen() {
        let chains = of_target(&[(9, 0, 12, 1), (5, 20, 32, 2), (5, 30, 42, 3)]);
        for (parts, wanted) in [
            (&[(20, 29)][..], Ok(vec![2])),
            (&[(0, 3), (12, 15)], Ok(vec![1])),
            (&[(29, 31)], Err(vec![2, 3])),
            (&[(0, 3), (39, 40)], Err(vec![1, 3])),
            // In one of two candidates, and in none of them.
            (&[(25, 31)], Err(vec![2, 3])),
            (&[(5, 6), (24, 26), (40, 41)], Ok(vec![3])),
            (&[(5, 6), (24, 26)], Ok(vec![1])),
            // One candidate that keeps nothing, and no candidate.
            (&[(24, 26)], Ok(vec![2])),
            (&[(12, 15)], Ok(vec![1])),
            (&[(200, 300)], Ok(vec![1])),
        ] {
            assert_eq!(ids(&chains, parts, Several::None), wanted, "{parts:?}");
        }
    }

    #[test]
    fn the_best_has_the_greatest_score_then_the_smallest_id() {
        let chains = of_target(&[(5, 0, 12, 1), (9, 0, 12, 8), (9, 0, 12, 4), (99, 50, 62, 2)]);
        assert_eq!(ids(&chains, &[(0, 5)], Several::Best), Ok(vec![4]));
        assert_eq!(ids(&chains, &[(0, 5)], Several::All), Ok(vec![1, 8, 4]));
    }
}
