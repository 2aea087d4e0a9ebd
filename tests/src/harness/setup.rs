//! What the tests are run with: a large stack, and the number of generated cases.

/// Does the work on a thread with a large stack: the reader, the judge, the executor and the
/// generators call themselves as deeply as programs nest.
pub fn with_large_stack<T: Send>(work: impl FnOnce() -> T + Send) -> T {
    std::thread::scope(|scope| {
        let thread = std::thread::Builder::new().stack_size(256 << 20).spawn_scoped(scope, work).unwrap();
        match thread.join() {
            Ok(value) => value,
            Err(panic) => std::panic::resume_unwind(panic),
        }
    })
}

/// The number of generated cases a test looks at: the environment's CUE_CASES, or this.
pub fn case_count(usual: usize) -> usize {
    match std::env::var("CUE_CASES") {
        Ok(text) => text.parse().expect("CUE_CASES is a number"),
        Err(_) => usual,
    }
}
