//! Keys, workers, feeds and words as tower is handed them.

use crate::run::{Item, Making};
use futures_core::Stream;
use futures_util::future::{ready, Ready};
use reference::discover::Change;
use reference::handed::Instant;
use reference::load::TrackCompletion;
use reference::util::rng::Rng;
use std::cell::{Cell, RefCell};
use std::collections::VecDeque;
use std::fmt;
use std::hash::{BuildHasher, Hash, Hasher};
use std::pin::Pin;
use std::task::{Context, Poll};
use tower_service::Service;

thread_local! {
    /// The serial of the next worker.
    pub static NEXT_SERIAL: Cell<u64> = const { Cell::new(0) };
    /// How many questions were answered with a failure.
    pub static FAILED: Cell<u64> = const { Cell::new(0) };
    /// How many words were taken.
    pub static WORDS: Cell<u64> = const { Cell::new(0) };
    /// The names that the feed removed.
    pub static REMOVED: RefCell<Vec<Name>> = const { RefCell::new(Vec::new()) };
}

// ---- names, compared without case

#[derive(Clone, Debug)]
pub struct Name(pub String);

impl PartialEq for Name {
    fn eq(&self, other: &Name) -> bool {
        self.0.eq_ignore_ascii_case(&other.0)
    }
}

impl Eq for Name {}

impl Hash for Name {
    fn hash<H: Hasher>(&self, state: &mut H) {
        self.0.to_ascii_lowercase().hash(state);
    }
}

// ---- workers

#[derive(Debug)]
enum Kind {
    Patterned { pattern: Vec<u8>, next: usize, calls: u64 },
    Paced { free: u64 },
}

/// A bare service under its serial.
#[derive(Debug)]
pub struct Worker {
    pub serial: u64,
    kind: Kind,
    granted: bool,
}

impl Worker {
    /// A worker under the next serial.
    pub fn new(making: &Making) -> Self {
        let serial = NEXT_SERIAL.with(|n| n.replace(n.get() + 1));
        let kind = match making {
            Making::Patterned(pattern) => {
                assert!(pattern.len() <= 32);
                Kind::Patterned { pattern: pattern.bytes().collect(), next: 0, calls: 0 }
            }
            Making::Paced => Kind::Paced { free: 0 },
        };
        Worker { serial, kind, granted: false }
    }
}

/// The failure of a worker: the place of the answer in its pattern.
#[derive(Debug)]
pub struct Broken(pub u64);

impl fmt::Display for Broken {
    fn fmt(&self, f: &mut fmt::Formatter<'_>) -> fmt::Result {
        write!(f, "{}", self.0)
    }
}

impl std::error::Error for Broken {}

impl Service<u64> for Worker {
    type Response = u64;
    type Error = Broken;
    type Future = Ready<Result<u64, Broken>>;

    fn poll_ready(&mut self, _cx: &mut Context<'_>) -> Poll<Result<(), Broken>> {
        let answer = match &mut self.kind {
            Kind::Patterned { pattern, .. } if pattern.is_empty() => Poll::Pending,
            Kind::Patterned { pattern, next, .. } => {
                let place = *next;
                *next = (place + 1) % pattern.len();
                match pattern[place] {
                    b'r' => Poll::Ready(Ok(())),
                    b'p' => Poll::Pending,
                    _ => {
                        FAILED.with(|n| n.set(n.get() + 1));
                        Poll::Ready(Err(Broken(place as u64)))
                    }
                }
            }
            Kind::Paced { free } if *free <= Instant::now().0 => Poll::Ready(Ok(())),
            Kind::Paced { .. } => Poll::Pending,
        };
        self.granted = matches!(answer, Poll::Ready(Ok(())));
        answer
    }

    fn call(&mut self, request: u64) -> Self::Future {
        assert!(self.granted, "a worker is called only after it said that it is ready");
        self.granted = false;
        ready(Ok(match &mut self.kind {
            Kind::Patterned { calls, .. } => {
                *calls = calls.saturating_add(1);
                *calls
            }
            Kind::Paced { free } => {
                *free = Instant::now().0.saturating_add(request);
                *free
            }
        }))
    }
}

/// Keeps the handle of a request with its response, until the ticket is completed.
#[derive(Clone, Debug)]
pub struct Keep;

impl<H, V> TrackCompletion<H, V> for Keep {
    type Output = (H, V);

    fn track_completion(&self, handle: H, value: V) -> (H, V) {
        (handle, value)
    }
}

// ---- the feed

#[derive(Debug)]
pub struct Feed {
    items: VecDeque<Item>,
}

impl Feed {
    pub fn new(items: &[Item]) -> Self {
        Feed { items: items.iter().cloned().collect() }
    }
}

/// A fault of the feed.
#[derive(Debug)]
pub struct Fault(pub u32);

impl fmt::Display for Fault {
    fn fmt(&self, f: &mut fmt::Formatter<'_>) -> fmt::Result {
        write!(f, "{}", self.0)
    }
}

impl std::error::Error for Fault {}

impl Stream for Feed {
    type Item = Result<Change<Name, Worker>, Fault>;

    fn poll_next(mut self: Pin<&mut Self>, _cx: &mut Context<'_>) -> Poll<Option<Self::Item>> {
        match self.items.pop_front() {
            None | Some(Item::End) => Poll::Ready(None),
            Some(Item::Pending) => Poll::Pending,
            Some(Item::Fault(error)) => Poll::Ready(Some(Err(Fault(error)))),
            Some(Item::Insert(name, making)) => {
                Poll::Ready(Some(Ok(Change::Insert(Name(name), Worker::new(&making)))))
            }
            Some(Item::Remove(name)) => {
                REMOVED.with(|r| r.borrow_mut().push(Name(name.clone())));
                Poll::Ready(Some(Ok(Change::Remove(Name(name)))))
            }
        }
    }
}

// ---- words

/// Words from a list, over and over; an empty one gives 0.
pub struct ListWords {
    pub words: Vec<u64>,
    pub next: usize,
}

impl Rng for ListWords {
    fn next_u64(&mut self) -> u64 {
        if self.words.is_empty() {
            return 0;
        }
        let word = self.words[self.next];
        self.next = (self.next + 1) % self.words.len();
        word
    }
}

/// FNV-1a of 64 bits, for tower's `HasherRng`.
pub struct Fnv(u64);

impl Hasher for Fnv {
    fn write(&mut self, bytes: &[u8]) {
        for byte in bytes {
            self.0 = (self.0 ^ u64::from(*byte)).wrapping_mul(1_099_511_628_211);
        }
    }

    fn write_u64(&mut self, n: u64) {
        self.write(&n.to_le_bytes());
    }

    fn finish(&self) -> u64 {
        self.0
    }
}

#[derive(Clone)]
pub struct BuildFnv;

impl BuildHasher for BuildFnv {
    type Hasher = Fnv;

    fn build_hasher(&self) -> Fnv {
        Fnv(14_695_981_039_346_656_037)
    }
}

/// Counts the words that are taken.
pub struct Counted<R>(pub R);

impl<R: Rng> Rng for Counted<R> {
    fn next_u64(&mut self) -> u64 {
        WORDS.with(|n| n.set(n.get() + 1));
        self.0.next_u64()
    }
}
