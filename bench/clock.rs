// The processor time that this program has taken. Unlike the time of day, it is not the longer for what runs beside.
#[repr(C)]
struct Timespec {
    seconds: i64,
    nanoseconds: i64,
}

const PROCESS_CPUTIME_ID: i32 = 2;

unsafe extern "C" {
    fn clock_gettime(clock: i32, time: *mut Timespec) -> i32;
}

pub fn seconds() -> f64 {
    let mut time = Timespec { seconds: 0, nanoseconds: 0 };
    let failed = unsafe { clock_gettime(PROCESS_CPUTIME_ID, &mut time) };
    assert_eq!(failed, 0, "there is a clock");
    time.seconds as f64 + time.nanoseconds as f64 / 1e9
}
