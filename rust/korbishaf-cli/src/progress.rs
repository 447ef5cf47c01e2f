//! The progress bar.

use crate::signals;
use std::io::{IsTerminal, Write, stderr};
use std::sync::mpsc::{RecvTimeoutError, Sender, channel};
use std::sync::{Arc, Mutex, MutexGuard, PoisonError};
use std::thread::{self, JoinHandle};
use std::time::{Duration, Instant};

/// How often the bar is drawn, and how long a step has to take for one.
const TICK: Duration = Duration::from_millis(100);

/// How many places the bar has.
const WIDTH: usize = 24;

/// Shows how far a command is, on standard error, where that is a terminal.
pub struct Progress {
    drawing: Option<Drawing>,
}

struct Drawing {
    step: Arc<Mutex<Step>>,
    stop: Option<Sender<()>>,
    thread: Option<JoinHandle<()>>,
}

/// What the command is doing.
struct Step {
    what: &'static str,
    began: Instant,
    done: u64,
    total: Option<u64>,
    /// How long the step will take, where nobody says how far it is.
    expected: Option<Duration>,
}

impl Progress {
    /// A bar, unless it is not wanted or nobody would see it.
    pub fn new(quiet: bool) -> Self {
        if quiet || !stderr().is_terminal() {
            return Progress::none();
        }
        let step = Arc::new(Mutex::new(Step::new("", None)));
        let (stop, stopped) = channel();
        let seen = Arc::clone(&step);
        let draw = move || {
            let mut drawn = false;
            while stopped.recv_timeout(TICK) == Err(RecvTimeoutError::Timeout) {
                if let Some(line) = locked(&seen).line(Instant::now()) {
                    signals::clear_on_end(true);
                    show(&format!("\r{line}\x1B[K"));
                    drawn = true;
                }
            }
            if drawn {
                show(signals::CLEAR);
                signals::clear_on_end(false);
            }
        };
        let started = signals::undisturbed(|| thread::Builder::new().spawn(draw));
        Progress {
            drawing: started.ok().map(|thread| Drawing {
                step,
                stop: Some(stop),
                thread: Some(thread),
            }),
        }
    }

    /// No bar.
    pub fn none() -> Self {
        Progress { drawing: None }
    }

    /// Begins a step over so many bytes, if that is known.
    pub fn begin(&self, what: &'static str, total: Option<u64>) {
        self.change(|step| *step = Step::new(what, total));
    }

    /// Begins a step over so many bytes that does not say how far it is, and should take about so long.
    pub fn begin_expecting(&self, what: &'static str, total: u64, expected: Duration) {
        self.change(|step| {
            *step = Step {
                expected: Some(expected),
                ..Step::new(what, Some(total))
            }
        });
    }

    /// So many bytes of the step are done.
    pub fn advance(&self, done: u64) {
        self.change(|step| step.done = done);
    }

    /// So many more bytes of the step are done.
    pub fn add(&self, more: u64) {
        self.change(|step| step.done += more);
    }

    fn change(&self, change: impl FnOnce(&mut Step)) {
        if let Some(drawing) = &self.drawing {
            change(&mut locked(&drawing.step));
        }
    }
}

impl Drop for Drawing {
    fn drop(&mut self) {
        self.stop = None;
        if let Some(thread) = self.thread.take() {
            let _ = thread.join();
        }
    }
}

fn locked(step: &Mutex<Step>) -> MutexGuard<'_, Step> {
    step.lock().unwrap_or_else(PoisonError::into_inner)
}

fn show(text: &str) {
    let _ = stderr().write_all(text.as_bytes());
}

impl Step {
    fn new(what: &'static str, total: Option<u64>) -> Self {
        Step {
            what,
            began: Instant::now(),
            done: 0,
            total,
            expected: None,
        }
    }

    /// The line for this moment; none while the step has just begun.
    fn line(&self, now: Instant) -> Option<String> {
        let gone = now.duration_since(self.began);
        if self.what.is_empty() || gone < TICK {
            return None;
        }
        let seconds = gone.as_secs_f64();
        let what = format!("{:9}", self.what);
        let Some(total) = self.total else {
            if self.done == 0 {
                return Some(self.what.into());
            }
            let rate = self.done as f64 / seconds;
            return Some(format!(
                "{what} {}  {}/s",
                size(self.done as f64),
                size(rate)
            ));
        };
        // a step that does not say how far it is never looks finished
        let part = match self.expected {
            Some(expected) => (seconds / expected.as_secs_f64()).min(0.99),
            None => (self.done as f64 / total.max(1) as f64).min(1.0),
        };
        let filled = (part * WIDTH as f64) as usize;
        let bar = format!(
            "[{}{}] {:3.0} %",
            "#".repeat(filled),
            "-".repeat(WIDTH - filled),
            part * 100.0
        );
        if part <= 0.0 {
            return Some(format!("{what} {bar}"));
        }
        let rate = part * total as f64 / seconds;
        let left = (seconds / part - seconds).ceil() as u64;
        Some(format!(
            "{what} {bar}  {}/s  {}:{:02} left",
            size(rate),
            left / 60,
            left % 60
        ))
    }
}

/// A number of bytes, short.
fn size(bytes: f64) -> String {
    let units = [(1e9, "GB"), (1e6, "MB"), (1e3, "kB")];
    match units.iter().find(|(unit, _)| bytes >= *unit) {
        Some((unit, name)) => format!("{:.1} {name}", bytes / unit),
        None => format!("{bytes:.0} B"),
    }
}

#[cfg(test)]
mod tests {
    use super::*;

    fn line(step: Step, seconds: u64) -> Option<String> {
        let began = step.began;
        step.line(began + Duration::from_secs(seconds))
    }

    #[test]
    fn a_bar_has_rate_and_time_left() {
        let step = Step {
            done: 250_000_000,
            ..Step::new("reading", Some(1_000_000_000))
        };
        let wanted = "reading   [######------------------]  25 %  125.0 MB/s  0:06 left";
        assert_eq!(line(step, 2).as_deref(), Some(wanted));
    }

    #[test]
    fn a_step_that_says_nothing_goes_by_time_and_never_looks_finished() {
        let expecting = || Step {
            expected: Some(Duration::from_secs(4)),
            ..Step::new("releasing", Some(400))
        };
        let half = "releasing [############------------]  50 %  100 B/s  0:02 left";
        assert_eq!(line(expecting(), 2).as_deref(), Some(half));
        assert!(line(expecting(), 100).is_some_and(|line| line.contains(" 99 %")));
    }

    #[test]
    fn an_unknown_length_has_no_bar() {
        let step = Step {
            done: 3_000,
            ..Step::new("reading", None)
        };
        assert_eq!(line(step, 2).as_deref(), Some("reading   3.0 kB  1.5 kB/s"));
        assert_eq!(
            line(Step::new("reading", None), 2).as_deref(),
            Some("reading")
        );
    }

    #[test]
    fn what_has_just_begun_is_not_drawn() {
        assert_eq!(line(Step::new("reading", Some(1)), 0), None);
        assert_eq!(line(Step::new("", Some(1)), 9), None);
    }

    #[test]
    fn nothing_to_do_and_nothing_done_are_no_trouble() {
        for (done, total) in [(0, 0), (0, 7), (9, 7), (7, 0)] {
            let step = Step {
                done,
                ..Step::new("writing", Some(total))
            };
            assert!(line(step, 1).is_some());
        }
        let step = Step {
            expected: Some(Duration::ZERO),
            ..Step::new("releasing", Some(0))
        };
        assert!(line(step, 1).is_some());
    }
}
