//! What was counted, and the table of it.
use crate::form::FORMS;
use crate::subject::{Class, SUBJECTS};
use crate::verdict::Apart;
use std::fmt::Write;

/// The rows after the subjects: the frames that runs hand out, and the runs.
pub const HANDED: usize = SUBJECTS;
pub const RUNS: usize = SUBJECTS + 1;
const ROWS: usize = SUBJECTS + 2;

/// Refusals by number.
const NUMBERS: usize = 20;

#[derive(Clone, Copy, Default)]
struct Row {
    inputs: u64,
    accepted: u64,
    refused: [u64; NUMBERS],
    apart: [u64; 4],
    differences: u64,
}

/// The smallest differing input of a row, as a person reads it.
pub struct Finding {
    size: usize,
    story: String,
}

impl Finding {
    pub fn new(size: usize, story: String) -> Finding {
        Finding { size, story }
    }
}

pub struct Tally {
    rows: [Row; ROWS],
    findings: [Option<Finding>; ROWS],
}

fn name(row: usize) -> &'static str {
    let others = [
        "varint",
        "frame header",
        "frame",
        "frames of runs",
        "runs of frames",
    ];
    FORMS
        .get(row)
        .map_or_else(|| others[row - FORMS.len()], |form| form.name())
}

fn place(why: Apart) -> usize {
    match why {
        Apart::Long => 0,
        Apart::Deep => 1,
        Apart::Panic => 2,
        Apart::Reserve => 3,
    }
}

impl Tally {
    pub fn new() -> Tally {
        Tally {
            rows: [Row::default(); ROWS],
            findings: [const { None }; ROWS],
        }
    }

    pub fn count(&mut self, row: usize, class: Class) {
        let row = &mut self.rows[row];
        row.inputs += 1;
        match class {
            Class::Accepted => row.accepted += 1,
            Class::Refused(number) => row.refused[number as usize] += 1,
            Class::Apart(why) => row.apart[place(why)] += 1,
        }
    }

    /// Counts a difference, and says whether it is worth shrinking: only the first few of a row are.
    pub fn differs(&mut self, row: usize) -> bool {
        self.rows[row].differences += 1;
        self.rows[row].differences <= 3
    }

    /// Keeps a finding that is smaller than the one kept before.
    pub fn keep(&mut self, row: usize, found: Finding) {
        if self.findings[row]
            .as_ref()
            .is_none_or(|kept| found.size < kept.size)
        {
            self.findings[row] = Some(found);
        }
    }

    pub fn differences(&self) -> u64 {
        self.rows.iter().map(|row| row.differences).sum()
    }

    /// Refusals that no payload met: a comparison that is too small to say anything of them.
    fn unmet(&self) -> String {
        let mut text = String::new();
        for form in FORMS {
            let refused = self.rows[form.place()].refused;
            for (number, _) in form
                .refusals()
                .iter()
                .filter(|(n, _)| refused[*n as usize] == 0)
            {
                let _ = writeln!(text, "not met: {} refused by {number}", form.name());
            }
        }
        text
    }

    pub fn table(&self) -> String {
        let mut table = format!(
            "{:<18}{:>11}{:>11}{:>9}{:>12}  {}\n",
            "what", "how many", "accepted", "apart", "differences", "refused, number:times"
        );
        for (i, row) in self.rows.iter().enumerate() {
            let apart: u64 = row.apart.iter().sum();
            let _ = write!(
                table,
                "{:<18}{:>11}{:>11}{:>9}{:>12} ",
                name(i),
                row.inputs,
                row.accepted,
                apart,
                row.differences
            );
            for (number, times) in row.refused.iter().enumerate().filter(|(_, n)| **n > 0) {
                let _ = write!(table, " {number}:{times}");
            }
            table.push('\n');
        }
        let messages: u64 = self.rows[..FORMS.len()]
            .iter()
            .map(|row| row.accepted)
            .sum();
        let _ = writeln!(
            table,
            "the {messages} accepted messages and descriptors were encoded too"
        );
        table + &self.apart() + &self.unmet()
    }

    fn apart(&self) -> String {
        let sum = |i: usize| self.rows.iter().map(|row| row.apart[i]).sum::<u64>();
        format!(
            "apart: {} payloads over the maximum, {} of depth 65, {} panics of the original, {} that would reserve over 1 GiB\n",
            sum(0), sum(1), sum(2), sum(3)
        )
    }

    pub fn findings(&self) -> String {
        let mut text = String::new();
        for (i, finding) in self.findings.iter().enumerate() {
            if let Some(Finding { story, .. }) = finding {
                let _ = writeln!(text, "\n{}: {story}", name(i));
            }
        }
        text
    }
}
