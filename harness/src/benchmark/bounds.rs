//! What the engine is held to.

/// A bound on what the engine takes, in every row of the run that it is for.
#[derive(Clone, Copy)]
pub enum Bound {
    /// The same algorithm in Rust, but for the next.
    Levels,
    /// Votes by plain rounds, where Rust counts 64 bits at once.
    VotesPlainly,
    /// Rust with a whole query at each leaf, over trees at 64 lines.
    Whole,
    /// Built-in trees, by the one-sided route, at 64 lines and 8 levels.
    OneSided,
    /// The deepest runs.
    Stack,
}

/// Each with its words and the most that is allowed.
pub const BOUNDS: [(Bound, &str, f64); 5] = [
    (Bound::Levels, "its time / the same algorithm's in Rust (levels)", 1.1),
    (Bound::VotesPlainly, "the same, votes by plain rounds", 1.8),
    (Bound::Whole, "its time / Rust's with whole queries (whole), over trees at 64 lines", 0.1),
    (Bound::OneSided, "its time by the one-sided route / by built-in trees, 64 lines, 8 levels", 0.5),
    (Bound::Stack, "its stack in KiB", 32.0),
];

/// The largest that the run has had so far of what each bound is for.
#[derive(Default)]
pub struct Largest([f64; BOUNDS.len()]);

impl Largest {
    pub fn note(&mut self, bound: Bound, value: f64) {
        let largest = &mut self.0[bound as usize];
        *largest = largest.max(value);
    }

    /// Prints each bound beside the largest of the run. Gives whether all are held.
    pub fn print(&self) -> bool {
        println!("\nwhat the engine is held to, and the largest of this run");
        println!("{:70} {:>7} {:>7}", "", "at most", "largest");
        let mut all = true;
        for (bound, words, most) in BOUNDS {
            let largest = self.0[bound as usize];
            let held = largest <= most;
            all &= held;
            let (digits, held) = (if most < 10.0 { 2 } else { 0 }, if held { "held" } else { "NOT held" });
            println!("{words:70} {most:7.digits$} {largest:7.digits$} {held}");
        }
        all
    }
}

#[cfg(test)]
mod tests {
    use super::*;

    #[test]
    fn each_bound_is_held_up_to_its_most_and_no_further() {
        for (bound, _, most) in BOUNDS {
            let mut largest = Largest::default();
            largest.note(bound, most);
            assert!(largest.print());
            largest.note(bound, most * 1.01);
            largest.note(bound, 0.0);
            assert!(!largest.print());
        }
    }
}
