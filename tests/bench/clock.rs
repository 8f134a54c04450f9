// The processor time of this thread in nanoseconds: what other programs take of a processor meanwhile is not in it.
pub fn now() -> f64 {
    #[repr(C)]
    struct Time {
        seconds: i64,
        nanoseconds: i64,
    }
    extern "C" {
        fn clock_gettime(clock: i32, time: *mut Time) -> i32;
    }
    const CLOCK_THREAD_CPUTIME_ID: i32 = 3;
    let mut time = Time { seconds: 0, nanoseconds: 0 };
    assert_eq!(unsafe { clock_gettime(CLOCK_THREAD_CPUTIME_ID, &mut time) }, 0);
    time.seconds as f64 * 1e9 + time.nanoseconds as f64
}

// What a call gave, and its time in nanoseconds.
pub fn timed<T>(call: impl FnOnce() -> T) -> (T, f64) {
    let began = now();
    let value = std::hint::black_box(call());
    (value, now() - began)
}
