// The time of a loop, without what comes before its first round.
#[repr(C)]
struct TimeSpec {
    seconds: i64,
    nanoseconds: i64,
}

unsafe extern "C" {
    fn clock_gettime(clock: i32, time: *mut TimeSpec) -> i32;
}

/// The seconds that this thread has run, so that other programs count little.
pub fn thread_time() -> f64 {
    const THREAD_CPU: i32 = 3;
    let mut time = TimeSpec { seconds: 0, nanoseconds: 0 };
    unsafe { clock_gettime(THREAD_CPU, &mut time) };
    time.seconds as f64 + time.nanoseconds as f64 * 1e-9
}

/// The least seconds of several goes, and what they gave.
pub struct Timed<F: FnMut(u32) -> u64> {
    run: F,
    once: f64,
    many: f64,
    pub digest: u64,
}

impl<F: FnMut(u32) -> u64> Timed<F> {
    pub fn new(run: F) -> Self {
        Timed { run, once: f64::MAX, many: f64::MAX, digest: 0 }
    }

    /// The seconds of one round, with what comes before it.
    #[allow(dead_code)]
    pub fn first(&mut self) -> f64 {
        let start = thread_time();
        (self.run)(1);
        thread_time() - start
    }

    pub fn go(&mut self, rounds: u32) {
        let start = thread_time();
        (self.run)(1);
        self.once = self.once.min(thread_time() - start);
        let start = thread_time();
        self.digest = (self.run)(rounds + 1);
        self.many = self.many.min(thread_time() - start);
    }

    /// The seconds of a round, without what comes before the first.
    pub fn each(&self, rounds: u32) -> f64 {
        (self.many - self.once) / rounds as f64
    }
}
