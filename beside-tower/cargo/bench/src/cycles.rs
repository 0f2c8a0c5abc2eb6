//! The cycles that are measured: poll, call, complete.

/// What cycles are run: as the crate `cycles` has it.
#[derive(Clone, Copy, Debug)]
pub struct Shape {
    pub workers: u32,
    pub unready: u32,
    pub turnover: u32,
    pub cycles: u32,
    pub out: u32,
}

pub const STEP: u64 = 1_000;
pub const DEFAULT_RTT: u64 = 1_000_000_000;
pub const DECAY_PERIOD: u64 = 10_000_000_000;

pub mod ours {
    use super::Shape;

    extern "C" {
        fn cycles_by_count(workers: u32, unready: u32, turnover: u32, cycles: u32, out: u32) -> u64;
        fn cycles_by_time(workers: u32, unready: u32, turnover: u32, cycles: u32, out: u32) -> u64;
        fn counted_entry_bytes() -> usize;
        fn timed_entry_bytes() -> usize;
        fn record_bytes() -> usize;
    }

    pub fn by_count(s: Shape) -> u64 {
        unsafe { cycles_by_count(s.workers, s.unready, s.turnover, s.cycles, s.out) }
    }

    pub fn by_time(s: Shape) -> u64 {
        unsafe { cycles_by_time(s.workers, s.unready, s.turnover, s.cycles, s.out) }
    }

    /// The bytes of an entry by requests out, of one by response time, and of a record.
    pub fn bytes() -> (usize, usize, usize) {
        unsafe { (counted_entry_bytes(), timed_entry_bytes(), record_bytes()) }
    }
}

/// The same cycles with a build of tower's code.
macro_rules! tower {
    ($module:ident, $tower:ident, $balance:expr, $now:expr) => {
        pub mod $module {
            use super::{Shape, DECAY_PERIOD, DEFAULT_RTT, STEP};
            use futures_core::Stream;
            use futures_util::future::{ready, FutureExt, Ready};
            use futures_util::task::noop_waker;
            use std::collections::VecDeque;
            use std::convert::Infallible;
            use std::fmt::Debug;
            use std::future::Future;
            use std::pin::Pin;
            use std::task::{Context, Poll};
            use std::time::Duration;
            use tower_service::Service;
            use $tower::balance::p2c::service::Balance;
            use $tower::discover::{Change, Discover};
            use $tower::load::peak_ewma::PeakEwmaDiscover;
            use $tower::load::pending_requests::PendingRequestsDiscover;
            use $tower::load::{Load, TrackCompletion};

            /// A worker that is always ready or never; it counts its calls.
            pub struct Worker {
                ready: bool,
                serial: u64,
                calls: u64,
            }

            impl Service<u32> for Worker {
                type Response = u64;
                type Error = Infallible;
                type Future = Ready<Result<u64, Infallible>>;

                fn poll_ready(&mut self, _cx: &mut Context<'_>) -> Poll<Result<(), Infallible>> {
                    if self.ready {
                        Poll::Ready(Ok(()))
                    } else {
                        Poll::Pending
                    }
                }

                fn call(&mut self, _request: u32) -> Self::Future {
                    self.calls += 1;
                    ready(Ok(self.serial.wrapping_add(self.calls)))
                }
            }

            #[derive(Clone)]
            pub struct Keep;

            impl<H, V> TrackCompletion<H, V> for Keep {
                type Output = (H, V);

                fn track_completion(&self, handle: H, value: V) -> (H, V) {
                    (handle, value)
                }
            }

            /// All workers, and then at each cycle those that leave and come back.
            pub struct Feed {
                shape: Shape,
                inserted: u32,
                cycle: u32,
                step: u32,
                serial: u64,
            }

            impl Feed {
                fn insert(&mut self, key: u32) -> Poll<Option<Result<Change<u32, Worker>, Infallible>>> {
                    self.serial += 1;
                    let unready = self.shape.unready > 0 && key % self.shape.unready == 0;
                    let worker = Worker { ready: !unready, serial: self.serial, calls: 0 };
                    Poll::Ready(Some(Ok(Change::Insert(key, worker))))
                }
            }

            impl Stream for Feed {
                type Item = Result<Change<u32, Worker>, Infallible>;

                fn poll_next(mut self: Pin<&mut Self>, _cx: &mut Context<'_>) -> Poll<Option<Self::Item>> {
                    let shape = self.shape;
                    if self.inserted < shape.workers {
                        self.inserted += 1;
                        let key = self.inserted - 1;
                        return self.insert(key);
                    }
                    // The end of a round, as at the start, is a Pending of its own.
                    if self.inserted == shape.workers || self.cycle == shape.turnover * shape.workers {
                        self.inserted = shape.workers + 1;
                        self.cycle = 0;
                        return Poll::Pending;
                    }
                    let key = self.cycle % shape.workers;
                    if self.cycle % shape.turnover == 0 && self.step < 2 {
                        self.step += 1;
                        if self.step == 1 {
                            return Poll::Ready(Some(Ok(Change::Remove(key))));
                        }
                        return self.insert(key);
                    }
                    self.step = 0;
                    self.cycle += 1;
                    Poll::Pending
                }
            }

            fn feed(shape: Shape) -> Feed {
                Feed { shape, inserted: 0, cycle: 0, step: 0, serial: 0 }
            }

            fn run<D, H>(discover: D, shape: Shape) -> u64
            where
                D: Discover<Key = u32, Error = Infallible> + Unpin,
                D::Service: Service<u32, Response = (H, u64), Error = Infallible> + Load,
                <D::Service as Load>::Metric: Debug,
                <D::Service as Service<u32>>::Future: Future<Output = Result<(H, u64), Infallible>> + Unpin,
            {
                let mut balance: Balance<D, u32> = $balance(discover);
                let waker = noop_waker();
                let mut cx = Context::from_waker(&waker);
                let mut out: VecDeque<H> = VecDeque::with_capacity(shape.out as usize + 1);
                let mut sum = 0u64;
                for i in 0..shape.cycles {
                    $now(u64::from(i) * STEP);
                    if balance.poll_ready(&mut cx).is_pending() {
                        continue;
                    }
                    let Some(Ok((handle, response))) = balance.call(0).now_or_never() else { continue };
                    sum = sum.wrapping_add(response);
                    out.push_back(handle);
                    if out.len() > shape.out as usize {
                        out.pop_front();
                    }
                }
                sum
            }

            pub fn by_count(shape: Shape) -> u64 {
                run(PendingRequestsDiscover::new::<u32>(feed(shape), Keep), shape)
            }

            pub fn by_time(shape: Shape) -> u64 {
                let (default, period) = (Duration::from_nanos(DEFAULT_RTT), Duration::from_nanos(DECAY_PERIOD));
                run(PeakEwmaDiscover::new::<u32>(feed(shape), default, period, Keep), shape)
            }
        }
    };
}

tower!(
    as_reference,
    reference,
    |discover| Balance::from_rng(discover, reference::util::rng::HasherRng::with_hasher(super::BuildFnv)),
    |at| reference::handed::set_now(at)
);

tower!(as_published, published, |discover| Balance::new(discover), |_at: u64| ());

/// Sets the decay of the reference to ours.
pub fn set_up() {
    reference::handed::set_decay(reference::handed::Decay::Squaring);
}

/// FNV-1a of 64 bits, for tower's `HasherRng`.
pub struct Fnv(u64);

impl std::hash::Hasher for Fnv {
    fn write(&mut self, bytes: &[u8]) {
        for byte in bytes {
            self.0 = (self.0 ^ u64::from(*byte)).wrapping_mul(1_099_511_628_211);
        }
    }

    fn finish(&self) -> u64 {
        self.0
    }
}

pub struct BuildFnv;

impl std::hash::BuildHasher for BuildFnv {
    type Hasher = Fnv;

    fn build_hasher(&self) -> Fnv {
        Fnv(14_695_981_039_346_656_037)
    }
}
