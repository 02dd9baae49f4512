//! Medians of interleaved runs.

/// C's struct timespec on 64-bit Linux, where the library runs.
#[repr(C)]
#[derive(Default)]
struct Timespec {
    seconds: i64,
    nanoseconds: i64,
}

extern "C" {
    fn clock_gettime(clock: i32, time: *mut Timespec) -> i32;
}

/// The processor time of this thread in nanoseconds, so that what else the machine does in between is not counted.
fn processor_time() -> f64 {
    const CLOCK_THREAD_CPUTIME_ID: i32 = 3;
    let mut time = Timespec::default();
    // SAFETY: the pointer is to a timespec of our own, which the call fills.
    let status = unsafe { clock_gettime(CLOCK_THREAD_CPUTIME_ID, &mut time) };
    assert_eq!(status, 0, "Linux has this clock");
    time.seconds as f64 * 1e9 + time.nanoseconds as f64
}

/// At least this long is measured at a time, in nanoseconds; short calls are repeated.
const LEAST: f64 = 2_000_000.0;

fn nanoseconds<B>(buffers: &mut B, side: &dyn Fn(&mut B), times: usize) -> f64 {
    let start = processor_time();
    for _ in 0..times {
        side(buffers);
    }
    (processor_time() - start) / times as f64
}

/// The middle one, or half the sum of the middle two.
pub fn median(mut all: Vec<f64>) -> f64 {
    all.sort_by(f64::total_cmp);
    let middle = all.len() / 2;
    (all[middle] + all[(all.len() - 1) / 2]) / 2.0
}

/// Medians over the repetitions.
pub struct Medians<const N: usize> {
    /// Each side's time, in nanoseconds.
    pub times: [f64; N],
    /// The first side's time over each side's time in the same repetition: a slow phase of the machine
    /// slows both.
    pub over: [f64; N],
}

/// Runs a side once. tools/instructions counts what is done in here, and knows it by its name.
#[inline(never)]
#[no_mangle]
fn bench_counted(run: &mut dyn FnMut()) {
    run();
}

/// Measures. Every repetition runs all sides, one after the other, in an order that turns; the buffers
/// are the same for all and were written before the first. Without a repetition nothing is measured: each side is run, to be counted.
pub fn medians<B, const N: usize>(buffers: &mut B, repetitions: usize, sides: [&dyn Fn(&mut B); N]) -> Medians<N> {
    if repetitions == 0 {
        sides.iter().for_each(|side| bench_counted(&mut || side(buffers)));
        return Medians { times: [0.0; N], over: [0.0; N] };
    }
    let once = nanoseconds(buffers, sides[0], 1);
    let times = (LEAST / once.max(1.0)).clamp(1.0, 100_000.0) as usize;
    let mut all = vec![[0.0; N]; repetitions];
    for (repetition, row) in all.iter_mut().enumerate() {
        for i in 0..N {
            let side = (i + repetition) % N;
            row[side] = nanoseconds(buffers, sides[side], times);
        }
    }
    let over = |side: usize| median(all.iter().map(|row| row[0] / row[side]).collect());
    let time = |side: usize| median(all.iter().map(|row| row[side]).collect());
    Medians { times: std::array::from_fn(time), over: std::array::from_fn(over) }
}
