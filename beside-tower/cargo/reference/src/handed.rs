//! What the reference is handed in place of its own: instants, decay, and an ordered pending list.

use futures_core::Stream;
use std::cell::Cell;
use std::fmt;
use std::future::Future;
use std::pin::Pin;
use std::task::{Context, Poll};
use std::time::Duration;

/// The share of an estimate that is kept.
#[derive(Clone, Copy, PartialEq, Debug)]
pub enum Decay {
    Halving,
    Squaring,
}

thread_local! {
    static NOW: Cell<u64> = const { Cell::new(0) };
    static DECAY: Cell<Decay> = const { Cell::new(Decay::Halving) };
}

/// Sets the present instant.
pub fn set_now(nanos: u64) {
    NOW.with(|now| now.set(nanos));
}

/// Sets the decay.
pub fn set_decay(decay: Decay) {
    DECAY.with(|d| d.set(decay));
}

/// An instant in nanoseconds, in place of the clock's.
#[derive(Clone, Copy, PartialEq, Eq, PartialOrd, Ord, Debug)]
pub struct Instant(pub u64);

impl Instant {
    pub fn now() -> Self {
        Instant(NOW.with(Cell::get))
    }

    pub fn saturating_duration_since(&self, earlier: Instant) -> Duration {
        Duration::from_nanos(self.0.saturating_sub(earlier.0))
    }
}

/// The decay at x, in place of `exp`.
pub fn decay(x: f64) -> f64 {
    if !(x < 0.0) {
        return 1.0;
    }
    match DECAY.with(Cell::get) {
        Decay::Halving => halving(x),
        Decay::Squaring => squaring(x),
    }
}

/// A half for each whole period.
fn halving(x: f64) -> f64 {
    let periods = (-x).floor();
    if periods >= 1075.0 {
        return 0.0;
    }
    let mut share = 1.0;
    for _ in 0..periods as u32 {
        share *= 0.5;
    }
    share
}

/// 1 + x / 1024, squared ten times.
fn squaring(x: f64) -> f64 {
    if x <= -1024.0 {
        return 0.0;
    }
    let mut share = 1.0 + x / 1024.0;
    for _ in 0..10 {
        share *= share;
    }
    share
}

/// Futures in the order in which they were pushed, in place of `FuturesUnordered`: a pass asks them in that
/// order, those that are done leave, and the others keep their order.
pub struct Ordered<F> {
    items: Vec<F>,
    resume: usize,
}

impl<F> Ordered<F> {
    pub fn new() -> Self {
        Ordered { items: Vec::new(), resume: 0 }
    }

    pub fn push(&mut self, item: F) {
        self.items.push(item);
    }

    pub fn len(&self) -> usize {
        self.items.len()
    }

    pub fn is_empty(&self) -> bool {
        self.items.is_empty()
    }

    pub fn iter(&self) -> std::slice::Iter<'_, F> {
        self.items.iter()
    }

    pub fn resume(&self) -> usize {
        self.resume
    }
}

impl<F: Future + Unpin> Stream for Ordered<F> {
    type Item = F::Output;

    fn poll_next(self: Pin<&mut Self>, cx: &mut Context<'_>) -> Poll<Option<F::Output>> {
        let this = self.get_mut();
        while this.resume < this.items.len() {
            if let Poll::Ready(output) = Pin::new(&mut this.items[this.resume]).poll(cx) {
                this.items.remove(this.resume);
                return Poll::Ready(Some(output));
            }
            this.resume += 1;
        }
        this.resume = 0;
        if this.items.is_empty() {
            Poll::Ready(None)
        } else {
            Poll::Pending
        }
    }
}

impl<F> Unpin for Ordered<F> {}

impl<F> fmt::Debug for Ordered<F> {
    fn fmt(&self, f: &mut fmt::Formatter<'_>) -> fmt::Result {
        write!(f, "Ordered({})", self.items.len())
    }
}
