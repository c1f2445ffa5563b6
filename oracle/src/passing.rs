//! How often choices pass over draws (02, S-6), by the number of items: is each size met that passes over any?

use std::fmt::Write;

use rand::{MOST_ITEMS, PICKS, SHUFFLES};

use crate::{
    stored,
    text::{self, Form},
};

/// Of so many items some draws are passed over; of 1, 2, 4, 8, 16 and 32 none.
fn passes_over(items: usize) -> bool {
    (1u64 << 32) % items as u64 != 0
}

/// Runs the stored histories of the texts, and a line for each size that passes over draws: how many picks and how many
/// places of shuffles did. `Err` where a size is met by none.
pub fn run(texts: &[String]) -> Result<String, String> {
    for stored in texts {
        for history in stored::read_all(stored).ok_or("not in the stored form\n")? {
            text::run(&history.input, history.start, Form::Station);
        }
    }
    let (picks, shuffles) = (PICKS.counts(), SHUFFLES.counts());
    let sizes: Vec<_> = (1..=MOST_ITEMS).filter(|size| passes_over(*size)).collect();
    let mut table = format!("{:>5} {:>7} {:>8}\n", "items", "picks", "shuffles");
    for size in &sizes {
        writeln!(table, "{size:5} {:7} {:8}", picks[*size], shuffles[*size]).unwrap();
    }
    let missing =
        |counts: [u64; MOST_ITEMS + 1]| sizes.iter().filter(|size| counts[**size] == 0).count();
    let (no_picks, no_shuffles) = (missing(picks), missing(shuffles));
    writeln!(table, "{} sizes, {no_picks} without a pick and {no_shuffles} without a shuffle that passes over a draw", sizes.len()).unwrap();
    if no_picks + no_shuffles == 0 {
        Ok(table)
    } else {
        Err(table)
    }
}
