//! Two sides of one call, timed in turns.
use std::fmt::Debug;
use std::hint::black_box;
use std::rc::Rc;
use std::time::{Duration, Instant};

/// The same work on both sides: each runs its call that many times on every part of the input.
pub struct Pair {
    rust: Box<dyn Fn(usize)>,
    rattle: Box<dyn Fn(usize)>,
    parts: usize,
}

impl Pair {
    /// Each part is one argument of the call, made before the clock runs. `check` says what differs between the two sides' results; it is
    /// asked for every part before anything is timed.
    pub fn new<P: 'static, R, T>(
        parts: Vec<P>,
        check: impl Fn(&P) -> Result<(), String>,
        rust: impl Fn(&P) -> R + 'static,
        rattle: impl Fn(&P) -> T + 'static,
    ) -> Result<Self, String> {
        parts.iter().try_for_each(check)?;
        let parts = Rc::new(parts);
        Ok(Self { rust: repeated(parts.clone(), rust), rattle: repeated(parts.clone(), rattle), parts: parts.len() })
    }

    /// For results that are compared as they are.
    pub fn of_values<P: 'static, A: PartialEq + Debug>(
        parts: Vec<P>,
        rust: impl Fn(&P) -> A + Copy + 'static,
        rattle: impl Fn(&P) -> A + Copy + 'static,
    ) -> Result<Self, String> {
        let check = move |part: &P| {
            let (expected, got) = (rust(part), rattle(part));
            if expected == got { Ok(()) } else { Err(format!("Rust {expected:?}, Rattle {got:?}")) }
        };
        Self::new(parts, check, rust, rattle)
    }

    /// The library's call, once on every part.
    pub fn rattle_once(&self) {
        (self.rattle)(1);
    }
}

fn repeated<P: 'static, R>(parts: Rc<Vec<P>>, call: impl Fn(&P) -> R + 'static) -> Box<dyn Fn(usize)> {
    Box::new(move |times| {
        for _ in 0..times {
            for part in parts.iter() {
                black_box(call(black_box(part)));
            }
        }
    })
}

/// The shortest time of one call on each side, in nanoseconds.
pub struct Times {
    pub rust: f64,
    pub rattle: f64,
}

impl Times {
    pub fn ratio(&self) -> f64 {
        self.rattle / self.rust
    }
}

fn time(side: &dyn Fn(usize), times: usize) -> Duration {
    let start = Instant::now();
    side(times);
    start.elapsed()
}

/// How often a side is run so that it takes about two milliseconds.
fn times_for(side: &dyn Fn(usize)) -> usize {
    let mut times = 1;
    while times < 1 << 20 && time(side, times) < Duration::from_millis(2) {
        times *= 2;
    }
    times
}

/// Rounds in turns, the first side changing; the shortest time of each.
pub fn measure(pair: &Pair, rounds: usize) -> Times {
    let (rust_times, rattle_times) = (times_for(&pair.rust), times_for(&pair.rattle));
    let (mut rust, mut rattle) = (Duration::MAX, Duration::MAX);
    for round in 0..rounds {
        if round % 2 == 0 {
            rust = rust.min(time(&pair.rust, rust_times));
        }
        rattle = rattle.min(time(&pair.rattle, rattle_times));
        if round % 2 == 1 {
            rust = rust.min(time(&pair.rust, rust_times));
        }
    }
    let each = |shortest: Duration, times: usize| shortest.as_secs_f64() * 1e9 / (times * pair.parts) as f64;
    Times { rust: each(rust, rust_times), rattle: each(rattle, rattle_times) }
}
