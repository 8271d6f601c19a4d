//! Which of many spans a part overlaps, found by halving.

use crate::part::Part;

/// Spans in the order of their starts. The middle one stands above those before it and
/// those behind it, and so on in each half.
#[derive(Default)]
pub struct Spans {
    sorted: Vec<Span>,
}

struct Span {
    part: Part,
    /// Its place among the spans as they were given.
    at: usize,
    /// The greatest end of itself and of those that it stands above.
    reach: u64,
}

impl Spans {
    pub fn new(parts: impl Iterator<Item = Part>) -> Spans {
        let span = |(at, part)| Span { part, at, reach: 0 };
        let mut sorted: Vec<Span> = parts.enumerate().map(span).collect();
        sorted.sort_by_key(|span| span.part.start);
        set_reach(&mut sorted);
        Spans { sorted }
    }

    /// The places of the spans that any of these parts overlaps, in order.
    pub fn overlapping(&self, parts: &[Part]) -> Vec<usize> {
        let mut found = Vec::new();
        for part in parts {
            find(&self.sorted, *part, &mut found);
        }
        found.sort_unstable();
        found.dedup();
        found
    }
}

/// Answers the greatest end of all.
fn set_reach(spans: &mut [Span]) -> u64 {
    let (before, from) = spans.split_at_mut(spans.len() / 2);
    let Some((middle, behind)) = from.split_first_mut() else {
        return 0;
    };
    let reach = set_reach(before).max(set_reach(behind));
    middle.reach = reach.max(middle.part.end);
    middle.reach
}

fn find(spans: &[Span], part: Part, found: &mut Vec<usize>) {
    let (before, from) = spans.split_at(spans.len() / 2);
    let Some((middle, behind)) = from.split_first() else {
        return;
    };
    if middle.reach <= part.start {
        return;
    }
    find(before, part, found);
    if middle.part.overlaps(part) {
        found.push(middle.at);
    }
    if middle.part.start < part.end {
        find(behind, part, found);
    }
}

#[cfg(test)]
mod tests {
    use super::*;

    /// All parts of a short sequence, beside a look at each span.
    #[test]
    fn overlapping_spans_are_found() {
        let part = |start, end| Part { start, end };
        let given = [
            vec![],
            vec![part(3, 7)],
            vec![part(12, 15), part(0, 20), part(4, 5), part(4, 9)],
            (0..17).map(|at| part(at * 5 % 17, 18)).collect(),
            (0..18)
                .map(|at| part(at * 5 % 18, at * 5 % 18 + 2))
                .collect(),
        ];
        for parts in given {
            let spans = Spans::new(parts.iter().copied());
            for (start, end) in (1..22).flat_map(|end| (0..end).map(move |start| (start, end))) {
                let asked = [part(start, end), part(21, 22)];
                let overlaps = |at: &usize| asked.iter().any(|one| parts[*at].overlaps(*one));
                let wanted: Vec<usize> = (0..parts.len()).filter(overlaps).collect();
                assert_eq!(spans.overlapping(&asked), wanted, "{start} {end}");
            }
        }
    }
}
