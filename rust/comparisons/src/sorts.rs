//! Sorts of rows and of calls, each of which must be met often enough.

/// How often each sort was met, in the order in which they are printed.
pub struct Sorts {
    met: Vec<(String, u64)>,
    /// How often each must be met.
    fewest: u64,
}

impl Sorts {
    /// Sorts of these names, not met yet.
    pub fn new(names: Vec<String>, fewest: u64) -> Sorts {
        let met = names.into_iter().map(|name| (name, 0));
        Sorts {
            met: met.collect(),
            fewest,
        }
    }

    /// Counts something of the sort.
    pub fn count(&mut self, name: &str) {
        let sort = self.met.iter_mut().find(|(sort, _)| sort == name);
        let (_, times) = sort.unwrap_or_else(|| panic!("{name} is none of the sorts"));
        *times += 1;
    }

    /// Each sort, and how often it was met.
    pub fn met(&self) -> Vec<(String, u64)> {
        self.met.clone()
    }

    /// The sorts that were met too few times, and how often they were.
    pub fn met_too_few_times(&self) -> Vec<(String, u64)> {
        let sorts = self.met().into_iter();
        sorts.filter(|&(_, times)| times < self.fewest).collect()
    }

    /// Counts each sort as often as it must be met.
    #[cfg(test)]
    pub fn count_each_often_enough(&mut self) {
        for (_, times) in &mut self.met {
            *times += self.fewest;
        }
    }
}

#[cfg(test)]
mod tests {
    use super::Sorts;

    #[test]
    fn a_sort_is_counted_up_to_its_fewest() {
        let mut sorts = Sorts::new(vec!["one".to_string(), "other".to_string()], 2);
        for name in ["one", "other", "other"] {
            sorts.count(name);
        }
        assert_eq!(sorts.met_too_few_times(), [("one".to_string(), 1)]);
        sorts.count("one");
        assert_eq!(sorts.met_too_few_times(), []);
        assert_eq!(
            sorts.met(),
            [("one".to_string(), 2), ("other".to_string(), 2)]
        );
    }

    #[test]
    #[should_panic(expected = "another is none of the sorts")]
    fn nothing_else_is_counted() {
        Sorts::new(vec!["one".to_string()], 1).count("another");
    }
}
