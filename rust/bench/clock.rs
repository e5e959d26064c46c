// The thread's own time, and medians of runs that take turns.
use std::hint::black_box;

// C's struct timespec on x86-64 Linux.
#[repr(C)]
struct Time {
    seconds: i64,
    nanoseconds: i64,
}

extern "C" {
    fn clock_gettime(clock: i32, time: *mut Time) -> i32;
}

// The seconds that this thread has had a processor: what else runs on the machine does not count, but for its share of caches and memory.
fn now() -> f64 {
    const THREAD_CPUTIME: i32 = 3;
    let mut time = Time { seconds: 0, nanoseconds: 0 };
    assert_eq!(unsafe { clock_gettime(THREAD_CPUTIME, &mut time) }, 0);
    time.seconds as f64 + time.nanoseconds as f64 / 1e9
}

// The seconds that one of `turns` calls takes.
pub fn timed<R>(turns: usize, mut call: impl FnMut() -> R) -> f64 {
    let start = now();
    for _ in 0..turns {
        black_box(call());
    }
    (now() - start) / turns as f64
}

pub fn median(mut times: Vec<f64>) -> f64 {
    times.sort_by(f64::total_cmp);
    times[times.len() / 2]
}

// The medians of several timings; in each run another one goes first.
pub fn in_turns<const N: usize>(runs: usize, mut timing: impl FnMut(usize) -> f64) -> [f64; N] {
    let mut times = [const { vec![] }; N];
    for run in 0..runs {
        for place in 0..N {
            let which = (run + place) % N;
            times[which].push(timing(which));
        }
    }
    times.map(median)
}
