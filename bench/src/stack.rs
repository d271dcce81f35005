//! How much stack a call takes.

use std::fs::File;
use std::hint::{black_box, spin_loop};
use std::os::unix::fs::FileExt;
use std::sync::atomic::{AtomicBool, AtomicUsize, Ordering};
use std::thread;
use std::time::Duration;

const STACK: usize = 64 << 20;
/// So much of the stack is painted; what goes deeper is not seen.
const WINDOW: usize = 16 << 20;
const PAINT: u8 = 0xA7;

/// How deep `work` writes to the stack, in bytes below its caller; none where
/// the system does not let a process read its own memory as a file.
///
/// A thread paints the stack that `work` will use and runs it; then it waits
/// without a call, while the paint that is left is looked for from the outside.
pub fn depth(work: impl FnOnce() + Send) -> Option<usize> {
    let window = AtomicUsize::new(0);
    let (done, seen) = (AtomicBool::new(false), AtomicBool::new(false));
    thread::scope(|scope| {
        let worker = thread::Builder::new()
            .stack_size(STACK)
            .spawn_scoped(scope, || {
                window.store(paint(), Ordering::Relaxed);
                work();
                done.store(true, Ordering::Release);
                while !seen.load(Ordering::Acquire) {
                    spin_loop();
                }
            })
            .expect("a thread can be started");
        while !done.load(Ordering::Acquire) && !worker.is_finished() {
            thread::sleep(Duration::from_millis(1));
        }
        let left = paint_left(window.load(Ordering::Relaxed));
        seen.store(true, Ordering::Release);
        Some(WINDOW - left?)
    })
}

/// Fills the stack below its caller, and says from where.
#[inline(never)]
fn paint() -> usize {
    let mut window = [PAINT; WINDOW];
    black_box(&mut window).as_ptr().addr()
}

/// How many bytes from the window's lowest on still hold paint. The stack is
/// read as a file, since it is no one's memory as far as Rust knows.
fn paint_left(window: usize) -> Option<usize> {
    let memory = File::open("/proc/self/mem").ok()?;
    let mut bytes = vec![0; WINDOW];
    memory.read_exact_at(&mut bytes, window as u64).ok()?;
    let touched = bytes.iter().position(|&byte| byte != PAINT);
    Some(touched.unwrap_or(WINDOW))
}

/// Runs `work` on a thread with a stack of so many bytes. Where that is too
/// small, the process ends.
pub fn on_thread(stack: usize, work: impl FnOnce() + Send) {
    thread::scope(|scope| {
        thread::Builder::new()
            .stack_size(stack)
            .spawn_scoped(scope, work)
            .expect("a thread can be started")
            .join()
            .expect("it does not panic");
    });
}

#[cfg(test)]
mod tests {
    use super::*;

    #[inline(never)]
    fn uses<const N: usize>() {
        black_box(&mut [1_u8; N]);
    }

    #[test]
    fn what_is_used_is_seen() {
        let (Some(none), Some(some)) = (depth(|| ()), depth(uses::<100_000>)) else {
            return;
        };
        assert!(none < 4_096, "{none}");
        assert!((100_000..110_000).contains(&some), "{some}");
    }

    #[test]
    fn a_thread_holds_what_fits() {
        on_thread(256 << 10, uses::<100_000>);
    }
}
