// To compare with `asio_speed channel`: `std_channel CAPACITY VALUES` passes so many values through a bounded channel of Rust's std
// on one thread, as many at a time as it holds. It prints how many came, and to standard error how many nanoseconds that took, by
// the clock and of processor time. At capacity 0 two threads have to meet there, so it takes 1 and more. `rustc -O` builds it.
use std::sync::mpsc::{Receiver, SyncSender, sync_channel};
use std::time::Instant;

unsafe extern "C" {
    fn clock_gettime(clock: i32, time: *mut [i64; 2]) -> i32;
}

/// CLOCK_PROCESS_CPUTIME_ID of Linux.
const PROCESSOR_TIME: i32 = 2;

/// How many nanoseconds of processor time the process has taken.
fn worked() -> i64 {
    let mut time = [0; 2];
    // On 64-bit Linux a time is the seconds and then the nanoseconds, of 64 bits each.
    let status = unsafe { clock_gettime(PROCESSOR_TIME, &mut time) };
    assert_eq!(status, 0);
    time[0] * 1_000_000_000 + time[1]
}

fn round(sender: &SyncSender<u64>, receiver: &Receiver<u64>, values: u64) -> usize {
    for value in 0..values {
        sender.try_send(value).expect("there is room");
    }
    (0..values).filter(|_| receiver.try_recv().is_ok()).count()
}

fn main() {
    let words: Vec<u64> = std::env::args().skip(1).map(|word| word.parse().expect("a number")).collect();
    let [capacity @ 1..=u64::MAX, values] = words[..] else {
        panic!("usage: std_channel CAPACITY VALUES");
    };
    let (sender, receiver) = sync_channel(capacity as usize);
    let begun = (Instant::now(), worked());
    let mut count = 0;
    for _ in 0..values / capacity {
        count += round(&sender, &receiver, capacity);
    }
    count += round(&sender, &receiver, values % capacity);
    let took = (begun.0.elapsed().as_nanos(), worked() - begun.1);
    println!("{count}");
    eprintln!("{} {}", took.0, took.1);
}
