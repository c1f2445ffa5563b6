//! A smaller input that still shows what a larger one showed.

use crate::input::Input;

/// Drops events, from long stretches to single ones, then draws from the end, while `shows` holds.
pub fn smallest(input: &Input, shows: impl Fn(&Input) -> bool) -> Input {
    let mut best = input.clone();
    let mut stretch = best.events.len();
    while stretch > 0 {
        let mut place = 0;
        while place < best.events.len() {
            let mut less = best.clone();
            let end = (place + stretch).min(less.events.len());
            less.events.drain(place..end);
            if shows(&less) {
                best = less;
            } else {
                place += stretch;
            }
        }
        stretch /= 2;
    }
    let mut stretch = best.draws.len();
    while stretch > 0 {
        let mut less = best.clone();
        less.draws
            .truncate(best.draws.len().saturating_sub(stretch));
        if stretch <= best.draws.len() && shows(&less) {
            best = less;
        } else {
            stretch /= 2;
        }
    }
    best
}
