//! Counts of what was compared, and of each kind of difference the smallest input found.

use std::collections::BTreeMap;
use std::fmt::Debug;

struct Found {
    times: u64,
    size: usize,
    input: String,
    ours: String,
    theirs: String,
}

pub struct Tally {
    pub part: &'static str,
    pub compared: u64,
    pub differences: u64,
    found: BTreeMap<String, Found>,
}

/// Lists as they are printed, with "x (5 times)" for x, x, x, x, x.
fn runs_shortened(text: String) -> String {
    let mut out: Vec<String> = Vec::new();
    // what the harness writes into a lent number before a call
    let text = text.replace("11936128518282651045", "untouched");
    let (mut last, mut times) = ("", 0);
    let end = |last: &str, times: usize| match times {
        0..=3 => vec![last.to_string(); times],
        _ => vec![format!("{last} ({times} times)")],
    };
    for word in text.split(", ") {
        if word == last {
            times += 1;
        } else {
            out.extend(end(last, times));
            (last, times) = (word, 1);
        }
    }
    out.extend(end(last, times));
    out.join(", ")
}

#[allow(dead_code)]
impl Tally {
    pub fn new(part: &'static str) -> Tally {
        Tally {
            part,
            compared: 0,
            differences: 0,
            found: BTreeMap::new(),
        }
    }

    /// One answer compared. `size` and `input` say what was asked.
    pub fn same<T: PartialEq + Debug>(
        &mut self,
        kind: &str,
        size: usize,
        input: impl FnOnce() -> String,
        ours: &T,
        theirs: &T,
    ) -> bool {
        self.compared += 1;
        if ours == theirs {
            return true;
        }
        self.differences += 1;
        let (ours, theirs) = (
            runs_shortened(format!("{ours:?}")),
            runs_shortened(format!("{theirs:?}")),
        );
        self.keep(kind, size, input(), ours, theirs, 1);
        false
    }

    /// Takes over the smallest input of a trial for a difference already counted here.
    pub fn take_smallest(&mut self, kind: &str, trial: &Tally) {
        if let Some(f) = trial.found.get(kind) {
            self.keep(kind, f.size, f.input.clone(), f.ours.clone(), f.theirs.clone(), 0);
        }
    }

    fn keep(&mut self, kind: &str, size: usize, input: String, ours: String, theirs: String, times: u64) {
        let found = Found {
            times,
            size,
            input,
            ours,
            theirs,
        };
        match self.found.get_mut(kind) {
            None => {
                self.found.insert(kind.to_string(), found);
            }
            Some(f) => {
                let times = f.times + times;
                if found.size < f.size {
                    *f = found;
                }
                f.times = times;
            }
        }
    }

    /// How often this kind of difference was met.
    pub fn times(&self, kind: &str) -> u64 {
        self.found.get(kind).map_or(0, |f| f.times)
    }

    pub fn print(&self) {
        for (kind, f) in &self.found {
            println!(
                "DIFFERENCE {}, {kind}, {} times; smallest input found:",
                self.part, f.times
            );
            println!("  input: {}", f.input);
            println!("  ours:  {}", f.ours);
            println!("  due:   {}", f.theirs);
        }
        println!(
            "{}: {} compared, {} differences",
            self.part, self.compared, self.differences
        );
    }
}
