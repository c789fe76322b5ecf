//! Two ways to do the same, timed in one run: turns about, the best of several stretches of each. Processor time is counted, so that what other
//! programs do meanwhile counts little.

#[repr(C)]
#[derive(Default, Clone, Copy)]
struct Pair {
    seconds: i64,
    /// nanoseconds in one call, microseconds in the other
    part: i64,
}

/// What getrusage fills; only the first two are read.
#[repr(C)]
#[derive(Default)]
struct Usage {
    user: Pair,
    system: Pair,
    rest: [i64; 14],
}

extern "C" {
    fn clock_gettime(clock: i32, time: *mut Pair) -> i32;
    fn getrusage(who: i32, usage: *mut Usage) -> i32;
}

/// Seconds that this process has used.
pub fn used() -> f64 {
    const PROCESS: i32 = 2;
    let mut t = Pair::default();
    // SAFETY: the call fills one pair of 64-bit numbers on the platforms that we run on (Linux, x86-64).
    assert_eq!(unsafe { clock_gettime(PROCESS, &mut t) }, 0);
    t.seconds as f64 + t.part as f64 / 1e9
}

/// Seconds that the processes started from here, and ended, have used.
pub fn used_by_others() -> f64 {
    const CHILDREN: i32 = -1;
    let mut u = Usage::default();
    // SAFETY: as above; the structure has two pairs and 14 numbers.
    assert_eq!(unsafe { getrusage(CHILDREN, &mut u) }, 0);
    let seconds = |p: Pair| p.seconds as f64 + p.part as f64 / 1e6;
    seconds(u.user) + seconds(u.system)
}

fn stretch(f: &mut dyn FnMut(), times: u64) -> f64 {
    let start = used();
    for _ in 0..times {
        f();
    }
    (used() - start) * 1e6 / times as f64
}

fn times_for(f: &mut dyn FnMut()) -> u64 {
    let mut times = 1;
    loop {
        let each = stretch(f, times);
        if each * times as f64 > 2000.0 {
            return ((10_000.0 / each) as u64).max(1);
        }
        times *= 4;
    }
}

/// Microseconds of ours and of the Rust's, and how many times faster ours is.
pub fn beside(what: &str, ours: &mut dyn FnMut(), theirs: &mut dyn FnMut()) {
    let (a, b) = (times_for(ours), times_for(theirs));
    let (mut x, mut y) = (f64::MAX, f64::MAX);
    for _ in 0..9 {
        x = x.min(stretch(ours, a));
        y = y.min(stretch(theirs, b));
    }
    println!(
        "time: {what}: ours {x:.3} us, the Rust {y:.3} us, ratio {:.2} (the Rust's time over ours)",
        y / x
    );
}
