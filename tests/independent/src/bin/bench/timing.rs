//! Taking times on a machine that others use too: what is compared runs in turns,
//! in short batches, at several times; what a batch waited for a processor is taken
//! off, and the least time of all batches counts.

use independent::rows::RowDesk;
use std::arch::asm;
use std::cell::RefCell;
use std::fs::File;
use std::os::unix::fs::FileExt;
use std::rc::Rc;
use std::time::{Duration, Instant};

/// How long a comparison is repeated before the next one has its turn, and how
/// often at least.
const TURN: Duration = Duration::from_millis(350);
const LEAST_REPETITIONS: usize = 3;

/// How many turns each comparison has.
const TURNS: usize = 4;

/// A batch is so many goes as take this long, so that the clock is no part of it.
const BATCH: Duration = Duration::from_millis(1);

/// What is timed: one go of it with a desk; gives the last reply or length.
pub type Go = Rc<dyn Fn(&dyn RowDesk) -> u64>;

/// Hands a value back, as something of which the compiler knows nothing: what it
/// is worked out from, or for, is not left out. `std::hint::black_box` does the
/// same from Rust 1.66 on.
pub fn black_box<T>(mut value: T) -> T {
    // no instruction, but one that may read and write what it is shown
    unsafe { asm!("/* {} */", in(reg) &mut value as *mut T, options(nostack, preserves_flags)) };
    value
}

/// One go with a fresh copy of a row.
pub fn on_copy(row: Vec<u32>, go: impl Fn(&dyn RowDesk, &mut [u32]) -> u64 + 'static) -> Go {
    let copy = RefCell::new(row.clone());
    Rc::new(move |desk| {
        let mut copy = copy.borrow_mut();
        copy.copy_from_slice(&row);
        go(desk, &mut copy)
    })
}

/// A go and the desk that it goes with.
#[derive(Clone)]
pub struct Side {
    pub go: Go,
    pub desk: &'static dyn RowDesk,
}

impl Side {
    /// The waiting is read within the time that it is taken off from, so that no
    /// batch gets too little.
    fn time(&self, goes: u32, queue: &Queue) -> Duration {
        let begin = Instant::now();
        let waited = queue.waited();
        for _ in 0..goes {
            black_box((self.go)(self.desk));
        }
        let waited = queue.waited().saturating_sub(waited);
        begin.elapsed().saturating_sub(waited)
    }

    /// Powers of two are tried; three times each, since a batch may be disturbed.
    fn goes_per_batch(&self) -> u32 {
        let queue = Queue::new();
        let mut goes = 1;
        while (0..3).any(|_| self.time(goes, &queue) < BATCH) {
            goes *= 2;
        }
        goes
    }
}

/// Where Linux tells how long this thread has waited for a processor.
struct Queue {
    file: Option<File>,
}

impl Queue {
    fn new() -> Queue {
        Queue {
            file: File::open("/proc/thread-self/schedstat").ok(),
        }
    }

    /// The second of the file's numbers, in nanoseconds; 0 where there is none.
    fn waited(&self) -> Duration {
        let number = || {
            let mut text = [0; 64];
            let length = self.file.as_ref()?.read_at(&mut text, 0).ok()?;
            let text = std::str::from_utf8(&text[..length]).ok()?;
            text.split_whitespace().nth(1)?.parse().ok()
        };
        Duration::from_nanos(number().unwrap_or(0))
    }
}

/// Two sides that are held against each other, and their least times so far.
pub struct Comparison {
    /// The first side, if there is one, and the second twice, as if it were two.
    sides: Vec<Side>,
    least: Vec<Duration>,
    goes: u32,
}

impl Comparison {
    pub fn new(first: Option<Side>, second: Side) -> Comparison {
        let goes = second.goes_per_batch();
        let sides: Vec<Side> = first.into_iter().chain([second.clone(), second]).collect();
        Comparison {
            least: vec![Duration::MAX; sides.len()],
            sides,
            goes,
        }
    }

    /// One turn; another side begins each time.
    fn repeat(&mut self) {
        let (queue, begin) = (Queue::new(), Instant::now());
        for repetition in 0.. {
            if repetition >= LEAST_REPETITIONS && begin.elapsed() >= TURN {
                break;
            }
            for place in 0..self.sides.len() {
                let number = (repetition + place) % self.sides.len();
                let time = self.sides[number].time(self.goes, &queue);
                self.least[number] = self.least[number].min(time);
            }
        }
    }

    /// The nanoseconds of one go of the first side, if there is one.
    pub fn first(&self) -> Option<f64> {
        (self.sides.len() == 3).then(|| self.of_one_go(0))
    }

    /// The nanoseconds of one go of the second side.
    pub fn second(&self) -> f64 {
        self.of_one_go(self.sides.len() - 2)
    }

    pub fn ratio(&self) -> Option<f64> {
        self.first().map(|first| first / self.second())
    }

    /// The second side against itself: what this is away from 1 is noise.
    pub fn noise(&self) -> f64 {
        self.of_one_go(self.sides.len() - 1) / self.second()
    }

    fn of_one_go(&self, side: usize) -> f64 {
        self.least[side].as_nanos() as f64 / f64::from(self.goes)
    }
}

/// Takes the times of all, one after the other, several times over: a bad second
/// is then only a part of what one of them gets.
pub fn take_times(mut comparisons: Vec<&mut Comparison>) {
    for _ in 0..TURNS {
        for comparison in &mut comparisons {
            comparison.repeat();
        }
    }
}
