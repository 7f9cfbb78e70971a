//! CPU time, of contenders that take turns: so what else the machine does, and how fast it runs at the moment, meets all of them alike.

// One turn of a contender takes so many seconds at least. After as many seconds no further round starts.
const TURN: f64 = 2e-3;
const ROUNDS: usize = 25;
const ENOUGH: f64 = 3.0;

#[repr(C)]
struct Timespec {
    seconds: i64,
    nanoseconds: i64,
}

extern "C" {
    fn clock_gettime(clock: i32, time: *mut Timespec) -> i32;
}

/// The CPU time of this thread, in seconds.
pub fn cpu() -> f64 {
    const CLOCK_THREAD_CPUTIME_ID: i32 = 3;
    let mut time = Timespec { seconds: 0, nanoseconds: 0 };
    // SAFETY: `time` is as Linux on x86-64 lays it out, and is lent for the call.
    let failed = unsafe { clock_gettime(CLOCK_THREAD_CPUTIME_ID, &mut time) };
    assert_eq!(failed, 0);
    time.seconds as f64 + time.nanoseconds as f64 * 1e-9
}

/// The CPU time that some work takes once.
pub fn seconds(work: impl FnOnce()) -> f64 {
    let start = cpu();
    work();
    cpu() - start
}

/// Work that asks so many calls.
pub struct Contender<'a> {
    pub calls: usize,
    pub work: Box<dyn FnMut() + 'a>,
}

/// The seconds of one call of each contender: the least of many turns.
pub fn in_turns(mut contenders: Vec<Contender>) -> Vec<f64> {
    let repeats: Vec<_> = contenders
        .iter_mut()
        .map(|contender| {
            (contender.work)();
            (TURN / seconds(|| (contender.work)())).ceil().clamp(1.0, 1e6)
        })
        .collect();
    let mut least = vec![f64::INFINITY; contenders.len()];
    let start = cpu();
    for round in 0..ROUNDS {
        if round >= 3 && cpu() - start > ENOUGH {
            break;
        }
        for ((contender, repeats), least) in contenders.iter_mut().zip(&repeats).zip(&mut least) {
            let turn = seconds(|| (0..*repeats as usize).for_each(|_| (contender.work)()));
            *least = least.min(turn / repeats / contender.calls as f64);
        }
    }
    least
}
