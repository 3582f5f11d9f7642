//! On how many threads the original's parallel loops run: those of the rayon pool
//! that the call is made in.

#[cfg(feature = "original")]
thread_local! {
    static ONE: rayon::ThreadPool = {
        let pool = rayon::ThreadPoolBuilder::new().num_threads(1).build();
        pool.expect("a pool of one thread")
    };
}

/// Makes a call on the only thread of a pool.
#[cfg(feature = "original")]
pub fn on_one<T: Send>(call: impl FnOnce() -> T + Send) -> T {
    ONE.with(|pool| pool.install(call))
}

/// Makes a call in the pool of all threads.
#[cfg(feature = "original")]
pub fn on_all<T: Send>(call: impl FnOnce() -> T + Send) -> T {
    rayon::scope(|_| call())
}

#[cfg(not(feature = "original"))]
pub fn on_one<T: Send>(call: impl FnOnce() -> T + Send) -> T {
    call()
}

#[cfg(not(feature = "original"))]
pub fn on_all<T: Send>(call: impl FnOnce() -> T + Send) -> T {
    call()
}
