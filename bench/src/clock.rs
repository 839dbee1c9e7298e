// CPU time in nanoseconds, so that what else runs on the machine does not count. Both calls are of the C library that std links.
#[repr(C)]
struct Time {
    seconds: i64,
    nanoseconds: i64,
}

// On x86-64 Linux: user time and system time, each in seconds and microseconds, and fourteen numbers more.
type Usage = [i64; 18];

unsafe extern "C" {
    fn clock_gettime(clock: i32, time: &mut Time) -> i32;
    fn getrusage(who: i32, usage: &mut Usage) -> i32;
}

// Of this thread.
pub fn thread() -> f64 {
    const THREAD: i32 = 3;
    let mut time = Time { seconds: 0, nanoseconds: 0 };
    assert_eq!(unsafe { clock_gettime(THREAD, &mut time) }, 0);
    time.seconds as f64 * 1e9 + time.nanoseconds as f64
}

// Of all child processes that have ended.
pub fn children() -> f64 {
    const CHILDREN: i32 = -1;
    let mut usage = [0; 18];
    assert_eq!(unsafe { getrusage(CHILDREN, &mut usage) }, 0);
    (usage[0] + usage[2]) as f64 * 1e9 + (usage[1] + usage[3]) as f64 * 1e3
}
