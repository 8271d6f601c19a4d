//! A flood of like refusals is told in part, and counted.

/// How many of one sort are told of a file.
const TOLD: u64 = 20;

/// What is told of a line: a note, a refusal by a number of the ledger, or one for
/// what the file holds besides it.
#[derive(Clone, Copy, Debug, PartialEq, Eq)]
pub enum Sort {
    Note,
    Number(u8),
    Among,
}

/// The numbers of the ledger end at 13.
const SORTS: usize = 15;

impl Sort {
    fn place(self) -> usize {
        match self {
            Sort::Note => 0,
            Sort::Number(number) => usize::from(number),
            Sort::Among => SORTS - 1,
        }
    }

    fn named(place: usize) -> String {
        match place {
            0 => "noted".to_string(),
            number if number < SORTS - 1 => format!("refused by {number}"),
            _ => "refused for a target of another size".to_string(),
        }
    }
}

/// What was seen of each sort.
pub struct Flood {
    seen: [Seen; SORTS],
    all: bool,
}

#[derive(Clone, Copy, Default)]
struct Seen {
    count: u64,
    last: u64,
}

impl Flood {
    /// With `all`, everything is told.
    pub fn new(all: bool) -> Flood {
        Flood {
            seen: [Seen::default(); SORTS],
            all,
        }
    }

    /// Whether this one is told.
    pub fn tells(&mut self, sort: Sort, line: u64) -> bool {
        let Some(seen) = self.seen.get_mut(sort.place()) else {
            return true;
        };
        seen.count += 1;
        seen.last = line;
        self.all || seen.count <= TOLD
    }

    /// One line for each sort of which some were not told.
    pub fn rest(&self, file: &str) -> Vec<String> {
        let untold = |(place, seen): (usize, &Seen)| {
            let more = seen.count.saturating_sub(TOLD);
            let told = format!(
                "{file}: {more} more {}, the last in line {}; --all shows them",
                Sort::named(place),
                seen.last
            );
            (more > 0 && !self.all).then_some(told)
        };
        self.seen.iter().enumerate().filter_map(untold).collect()
    }
}

#[cfg(test)]
mod tests {
    use super::*;

    #[test]
    fn twenty_of_a_sort_are_told() {
        let mut flood = Flood::new(false);
        for line in 1..=20 {
            assert!(flood.tells(Sort::Number(3), line) && flood.tells(Sort::Among, line));
        }
        assert!(!flood.tells(Sort::Number(3), 21) && !flood.tells(Sort::Number(3), 40));
        assert!(!flood.tells(Sort::Among, 41) && flood.tells(Sort::Note, 42));
        assert_eq!(
            flood.rest("a"),
            [
                "a: 2 more refused by 3, the last in line 40; --all shows them",
                "a: 1 more refused for a target of another size, the last in line 41; --all shows them"
            ]
        );
        let mut all = Flood::new(true);
        assert!((1..=99).all(|line| all.tells(Sort::Number(13), line)));
        assert_eq!(all.rest("a"), [""; 0]);
    }
}
