//! Times, and the medians of sides that take turns.

use std::time::{Duration, Instant};

/// One side of a comparison: does its work in the room that it is lent, and says how long that took.
pub type Side<'a> = Box<dyn Fn(&mut [u8]) -> Duration + 'a>;

/// How long one run takes.
pub fn time(run: impl FnOnce()) -> Duration {
    let start = Instant::now();
    run();
    start.elapsed()
}

/// The median time of each side. Every side has one turn in each round, and each round begins with another side: what
/// slows the machine down then slows all of them down.
pub fn medians(rounds: usize, sides: &[Side], room: &mut [u8]) -> Vec<Duration> {
    let mut times = vec![Vec::new(); sides.len()];
    for round in 0..rounds {
        for turn in 0..sides.len() {
            let side = (round + turn) % sides.len();
            times[side].push(sides[side](room));
        }
    }
    times.iter_mut().map(|times| median(times)).collect()
}

/// The middle one of an odd number of times.
fn median(times: &mut [Duration]) -> Duration {
    times.sort();
    times[times.len() / 2]
}

/// The middle one of some figures, or halfway between the two in the middle.
pub fn middle(mut figures: Vec<f64>) -> f64 {
    figures.sort_by(f64::total_cmp);
    let (below, above) = ((figures.len() - 1) / 2, figures.len() / 2);
    f64::midpoint(figures[below], figures[above])
}

/// How many times longer `first` is.
pub fn ratio(first: Duration, second: Duration) -> f64 {
    first.as_secs_f64() / second.as_secs_f64()
}

/// Nanoseconds for each of `items`.
pub fn per_item(time: Duration, items: usize) -> f64 {
    time.as_secs_f64() * 1e9 / items as f64
}

pub fn milliseconds(time: Duration) -> f64 {
    time.as_secs_f64() * 1e3
}

#[cfg(test)]
mod tests {
    use super::*;
    use std::cell::RefCell;

    #[test]
    fn the_middle_time_is_the_median() {
        let mut times = [9, 1, 5, 2, 7].map(Duration::from_millis);
        assert_eq!(median(&mut times), Duration::from_millis(5));
    }

    #[test]
    fn the_middle_of_figures_may_be_between_two() {
        assert_eq!(middle(vec![9.0, 1.0, 4.0]), 4.0);
        assert_eq!(middle(vec![9.0, 1.0, 4.0, 3.0]), 3.5);
    }

    #[test]
    fn sides_take_turns_and_each_keeps_its_own_times() {
        let order = RefCell::new(Vec::new());
        let side = |number: u64| -> Side {
            let order = &order;
            Box::new(move |_| {
                order.borrow_mut().push(number);
                Duration::from_millis(number)
            })
        };
        let found = medians(3, &[side(4), side(5), side(6)], &mut []);
        assert_eq!(found, [4, 5, 6].map(Duration::from_millis));
        assert_eq!(*order.borrow(), [4, 5, 6, 5, 6, 4, 6, 4, 5]);
    }
}
