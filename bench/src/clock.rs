//! Time on a processor.

use std::fs;
use std::path::Path;
use std::sync::LazyLock;
use std::time::{Duration, Instant};

static START: LazyLock<Instant> = LazyLock::new(Instant::now);

/// How long this thread has run, where the system tells it: other programs
/// then disturb little. It is told in steps of some milliseconds. Where it is
/// not told, the time that has passed.
pub fn clock() -> Duration {
    ran().unwrap_or_else(|| START.elapsed())
}

fn ran() -> Option<Duration> {
    told(Path::new("/proc/thread-self"))
}

/// How long a thread has run.
fn told(thread: &Path) -> Option<Duration> {
    let told = fs::read_to_string(thread.join("schedstat")).ok()?;
    let nanoseconds = told.split_whitespace().next()?;
    Some(Duration::from_nanos(nanoseconds.parse().ok()?))
}

/// How long the threads of another process have run, where the system tells it. A thread
/// that ends while they are asked is left out.
pub fn process(number: u32) -> Option<Duration> {
    let threads = fs::read_dir(format!("/proc/{number}/task")).ok()?;
    let ran = threads.filter_map(|thread| told(&thread.ok()?.path()));
    ran.reduce(|all, one| all + one)
}

/// How long `work` takes.
pub fn timed<T>(work: impl FnOnce() -> T) -> (T, Duration) {
    let start = clock();
    let done = work();
    (done, clock() - start)
}

#[cfg(test)]
mod tests {
    use super::*;

    #[test]
    fn a_process_is_no_younger_than_its_thread() {
        let Some(thread) = ran() else {
            return;
        };
        assert!(process(std::process::id()).is_some_and(|process| process >= thread));
    }

    #[test]
    fn the_clock_goes_on() {
        let start = clock();
        while clock() - start < Duration::from_millis(10) {}
    }
}
