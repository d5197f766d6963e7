//! Work shared among threads, none of which may stop unnoticed.

use std::any::Any;
use std::panic::{catch_unwind, AssertUnwindSafe};
use std::thread;

/// What `work` gives, or what its panic said.
pub fn guarded<T>(work: impl FnOnce() -> T) -> Result<T, String> {
    catch_unwind(AssertUnwindSafe(work)).map_err(|panic| said(panic.as_ref()))
}

/// What every one of so many workers gives; an error if one of them stops.
pub fn all_of<T: Send>(workers: usize, work: impl Fn(usize) -> T + Sync) -> Result<Vec<T>, String> {
    let work = &work;
    thread::scope(|scope| {
        let one = |worker| scope.spawn(move || guarded(|| work(worker)));
        let threads: Vec<_> = (0..workers).map(one).collect();
        let joined = threads.into_iter().enumerate().map(|(worker, thread)| {
            let given = thread.join().unwrap_or_else(|panic| Err(said(panic.as_ref())));
            given.map_err(|why| format!("worker {worker} panicked: {why}"))
        });
        joined.collect()
    })
}

fn said(panic: &(dyn Any + Send)) -> String {
    let text = panic.downcast_ref::<String>().map(String::as_str);
    text.or(panic.downcast_ref::<&str>().copied()).unwrap_or("(no words)").to_string()
}

#[cfg(test)]
mod tests {
    use super::*;

    #[test]
    fn every_worker_counts() {
        assert_eq!(all_of(3, |worker| worker), Ok(vec![0, 1, 2]));
    }

    #[test]
    fn a_worker_that_panics_is_an_error() {
        let work = |worker: usize| assert!(worker != 1, "on purpose, in {worker}");
        assert_eq!(all_of(3, work), Err("worker 1 panicked: on purpose, in 1".to_string()));
    }

    #[test]
    fn a_panic_keeps_its_words() {
        assert_eq!(guarded(|| 7), Ok(7));
        let panicking = || -> u32 { panic!("on purpose") };
        assert_eq!(guarded(panicking), Err("on purpose".to_string()));
    }
}
