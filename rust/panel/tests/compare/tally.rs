//! How many cases to run, and how many were run.

use std::io::{self, Write};
use std::time::Instant;

use second::{Style, STYLES};

/// Runs a test in each style, and writes how many cases it ran.
pub fn in_each_style(what: &str, test: impl Fn(Style, &mut Tally)) {
    for style in STYLES {
        let word = match style {
            Style::OneBend => "one-bend",
            Style::Straight => "straight",
        };
        once(&format!("{word} {what}"), |tally| test(style, tally));
    }
}

/// Runs a test that has no style, and writes how many cases it ran.
pub fn once(what: &str, test: impl FnOnce(&mut Tally)) {
    let mut tally = Tally {
        cases: 0,
        started: Instant::now(),
    };
    test(&mut tally);
    tally.say(what);
}

/// Counts the cases of a test.
pub struct Tally {
    cases: u64,
    started: Instant,
}

impl Tally {
    /// So many random cases, times PANEL_ROUNDS.
    pub fn rounds(&self, cases: u64) -> u64 {
        let times = std::env::var("PANEL_ROUNDS").map_or(1, |text| {
            text.parse()
                .expect("PANEL_ROUNDS is a whole number from 1 up")
        });
        cases * u64::max(times, 1)
    }

    /// One case more.
    pub fn count(&mut self) {
        self.cases += 1;
    }

    /// Writes the count to standard output, also where the test harness keeps back what is printed.
    fn say(self, what: &str) {
        let line = format!(
            "{what}: {} cases in {:.1} s\n",
            self.cases,
            self.started.elapsed().as_secs_f64()
        );
        io::stdout()
            .write_all(line.as_bytes())
            .expect("standard output");
    }
}
