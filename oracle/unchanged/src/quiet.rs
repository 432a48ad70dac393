//! Panics of the source are caught without a word; an exit of the source must not look like success.
use std::any::Any;
use std::cell::Cell;
use std::panic::{catch_unwind, set_hook, take_hook, AssertUnwindSafe};
use std::sync::atomic::{AtomicUsize, Ordering};
use std::sync::Once;

thread_local!(static QUIET: Cell<bool> = const { Cell::new(false) });
static RUNNING: AtomicUsize = AtomicUsize::new(0);
static HOOK: Once = Once::new();
static WATCH: Once = Once::new();

extern "C" {
    fn atexit(call: extern "C" fn()) -> i32;
}

/// The source calls `exit(0)`; whoever compares in this process must see that as a failure.
extern "C" fn on_exit() {
    if RUNNING.load(Ordering::SeqCst) > 0 {
        eprintln!("the source ended the process where an image or a panic was due");
        std::process::abort();
    }
}

/// Runs what must not end the process.
pub fn without_exit<T>(run: impl FnOnce() -> T) -> T {
    WATCH.call_once(|| {
        let failed = unsafe { atexit(on_exit) };
        assert_eq!(failed, 0, "atexit");
    });
    RUNNING.fetch_add(1, Ordering::SeqCst);
    let result = run();
    RUNNING.fetch_sub(1, Ordering::SeqCst);
    result
}

/// Catches a panic without a word, as its own words.
pub fn catch<T>(run: impl FnOnce() -> T) -> Result<T, String> {
    HOOK.call_once(|| {
        let loud = take_hook();
        set_hook(Box::new(move |info| {
            if !QUIET.get() {
                loud(info);
            }
        }));
    });
    QUIET.set(true);
    let result = catch_unwind(AssertUnwindSafe(run));
    QUIET.set(false);
    result.map_err(words)
}

fn words(panic: Box<dyn Any + Send>) -> String {
    match panic.downcast::<String>() {
        Ok(text) => *text,
        Err(other) => other.downcast::<&str>().map_or("a panic without words".into(), |text| text.to_string()),
    }
}
