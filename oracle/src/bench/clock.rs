//! Times: the processor time of one call, the least of several rounds.

use std::time::Duration;

pub type Work<'a> = Box<dyn FnMut() + 'a>;

/// One timing of a work takes at least so long: short calls are repeated.
const SAMPLE: Duration = Duration::from_micros(1_000);

/// A work that has taken so long in all is not timed again, after the least rounds.
const ENOUGH: Duration = Duration::from_millis(600);
const LEAST_ROUNDS: u32 = 3;

extern "C" {
    fn clock_gettime(clock: i32, seconds_and_nanoseconds: *mut [i64; 2]) -> i32;
}

/// The processor time of this thread: what else the machine does counts less
/// than by a clock on the wall.
fn processor_time() -> Duration {
    const THREAD_CPUTIME: i32 = 3;
    let mut time = [0; 2];
    // SAFETY: the C library's own function, and room for what it writes on a
    // Linux of 64 bits.
    let answer = unsafe { clock_gettime(THREAD_CPUTIME, &mut time) };
    assert_eq!(answer, 0, "no processor time to be had");
    Duration::new(time[0] as u64, time[1] as u32)
}

/// Seconds for one call of each work: the least of the rounds. Each round times
/// every work in turn, so that a busy moment strikes all alike.
pub fn least_seconds(works: &mut [Work<'_>], rounds: u32) -> Vec<f64> {
    let repeats: Vec<u32> = works.iter_mut().map(repeats_of).collect();
    let mut least = vec![f64::INFINITY; works.len()];
    let mut taken = vec![Duration::ZERO; works.len()];
    for round in 0..rounds {
        for (nth, work) in works.iter_mut().enumerate() {
            if round >= LEAST_ROUNDS && taken[nth] >= ENOUGH {
                continue;
            }
            let took = time_of(work, repeats[nth]);
            taken[nth] += took;
            least[nth] = least[nth].min(took.as_secs_f64() / f64::from(repeats[nth]));
        }
    }
    least
}

fn time_of(work: &mut Work<'_>, repeats: u32) -> Duration {
    let began = processor_time();
    for _ in 0..repeats {
        work();
    }
    processor_time() - began
}

/// How many calls make a sample. The calls that find it out warm the caches.
fn repeats_of(work: &mut Work<'_>) -> u32 {
    let mut repeats = 1;
    while time_of(work, repeats) < SAMPLE {
        repeats *= 2;
    }
    repeats
}
