//! What an answer is measured by, and how many answers are measured by what.

/// What says what the port must answer.
#[derive(Clone, Copy, Debug, PartialEq)]
pub(super) enum Measure {
    /// The original, which met no overflow. The second reading says the same, or the
    /// answer is none.
    Original,
    /// The second reading: the original overflowed, or cannot hold what is asked.
    Second,
    /// A check before any of this, which the harness decides.
    Check,
}

impl Measure {
    /// What an answer is measured by that rests on two others, none of them a check.
    pub(super) fn with(self, other: Measure) -> Measure {
        match (self, other) {
            (Measure::Original, Measure::Original) => Measure::Original,
            _ => Measure::Second,
        }
    }
}

/// How many answers of one sort there were, by their measure, and how many of those by
/// the second reading are refused by 8.
struct Count {
    sort: &'static str,
    original: usize,
    second: usize,
    too_large: usize,
    checks: usize,
}

/// The same of each sort.
#[derive(Default)]
pub(super) struct Counts {
    sorts: Vec<Count>,
}

impl Counts {
    /// One answer more.
    pub(super) fn add(&mut self, sort: &'static str, measure: Measure, answer: &str) {
        let known = self.sorts.iter().position(|count| count.sort == sort);
        let place = known.unwrap_or_else(|| {
            self.sorts.push(Count {
                sort,
                original: 0,
                second: 0,
                too_large: 0,
                checks: 0,
            });
            self.sorts.len() - 1
        });
        let count = &mut self.sorts[place];
        match measure {
            Measure::Original => count.original += 1,
            Measure::Second => count.second += 1,
            Measure::Check => count.checks += 1,
        }
        if measure == Measure::Second && answer.starts_with("refused 8 ") {
            count.too_large += 1;
        }
    }

    /// A line for each sort on standard error, where the answers are not. What
    /// `oracle/compare` and `oracle/record` print is made of it.
    pub(super) fn tell(&self) {
        for count in &self.sorts {
            let Count {
                sort,
                original,
                second,
                too_large,
                checks,
            } = count;
            eprintln!("measured {sort} {original} {second} {too_large} {checks}");
        }
    }
}
