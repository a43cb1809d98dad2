//! The report: what was compared, part by part, what came of it, and a last line that says it in a sentence.

use crate::grouped::grouped;
use crate::part::Part;
use crate::tally::Difference;
use std::process::ExitCode;

#[derive(Default)]
pub struct Report {
    parts: Vec<Part>,
}

impl Report {
    pub fn push(&mut self, part: Part) {
        self.parts.push(part);
    }

    pub fn inputs(&self) -> u64 {
        self.parts.iter().map(Part::inputs).sum()
    }

    /// Prints the report. The status is 1 where something differs.
    pub fn print(self) -> ExitCode {
        println!();
        row("", ["inputs", "answered", "refused", "known", "differ"]);
        let mut all = Part::new("all");
        for part in self.parts {
            counts(&part);
            all.add(part);
        }
        counts(&all);
        println!();
        for (departure, tally) in &all.known {
            println!(
                "known, {}: {departure}; the smallest:",
                grouped(tally.count)
            );
            tally.smallest.iter().take(1).for_each(in_full);
        }
        if all.differ.count > 0 {
            println!("different, {}; the smallest:", grouped(all.differ.count));
            all.differ.smallest.iter().for_each(in_full);
        }
        println!("{}", sentence(&all));
        match all.differ.count {
            0 => ExitCode::SUCCESS,
            _ => ExitCode::from(1),
        }
    }
}

fn counts(part: &Part) {
    let numbers = [
        part.inputs(),
        part.answered,
        part.refused,
        part.known(),
        part.differ.count,
    ];
    row(&part.name, numbers.map(grouped));
}

fn row<T: AsRef<str>>(name: &str, numbers: [T; 5]) {
    print!("{name:<26}");
    for number in numbers {
        print!("{:>14}", number.as_ref());
    }
    println!();
}

fn in_full(difference: &Difference) {
    println!("    {}", difference.question);
    println!("        the Rust  {}", difference.rust);
    println!("        ours      {}", difference.ours);
}

fn sentence(all: &Part) -> String {
    let inputs = grouped(all.inputs());
    if all.differ.count > 0 {
        return format!("{} of {inputs} inputs DIFFER.", grouped(all.differ.count));
    }
    let agreed = match all.known() {
        0 => format!("All {inputs} inputs agree"),
        known => format!(
            "No difference in {inputs} inputs but {} known departures",
            grouped(known)
        ),
    };
    let (answered, refused) = (grouped(all.answered), grouped(all.refused));
    format!("{agreed}: {answered} answered alike, {refused} refused by both.")
}
