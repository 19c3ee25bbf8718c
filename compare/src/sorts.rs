//! Tallies by sorts: a count for each of them, in the order of a table that has
//! their names.

/// The sort that came up least.
pub fn rarest<T>(counts: &[u64], sorts: &[(T, &str)], call: &str) -> Option<(u64, String)> {
    counts.iter().zip(sorts).map(|(&times, (_, name))| (times, format!("{call} {name}"))).min()
}

/// How many cases make a full run, and how often each thing comes up in one at least.
pub struct Least {
    pub full: u64,
    pub fewest: u64,
}

impl Least {
    /// Says what came up least in so many cases, and whether that was too seldom for so
    /// many to say much.
    pub fn is_missed(&self, rarest: impl IntoIterator<Item = Option<(u64, String)>>, many: u64, cases: &str) -> bool {
        let Least { full, fewest } = *self;
        let mut seldom = false;
        for (times, what) in rarest.into_iter().flatten().filter(|_| many > 0) {
            println!("rarest: {what}, {times} times");
            seldom |= many >= full && times < fewest;
        }
        if seldom {
            eprintln!("compare: something came up fewer than {fewest} times in {cases}");
        }
        seldom
    }
}

/// Prints a row for each.
pub fn print<T>(what: &str, counts: &[u64], sorts: &[(T, &str)], call: &str) {
    println!("{what:<34} {call:>10}");
    for (count, (_, name)) in counts.iter().zip(sorts) {
        match count {
            0 => println!("{name:<34} {:>10}", "-"),
            count => println!("{name:<34} {count:>10}"),
        }
    }
}
