//! Drives tower through a run, and prints what it answers and holds after each pick.

use crate::kinds::{
    BuildFnv, Broken, Counted, Fault, Feed, Keep, ListWords, Name, Worker, FAILED, NEXT_SERIAL, REMOVED, WORDS,
};
use crate::run::{Item, Load, Making, Pick, Run, Words};
use futures_util::future::FutureExt;
use futures_util::task::noop_waker;
use reference::balance::error;
use reference::balance::p2c::service::Balance;
use reference::discover::{Change, Discover};
use reference::handed;
use reference::load::peak_ewma::{self, PeakEwma, PeakEwmaDiscover};
use reference::load::pending_requests::{self, PendingRequests, PendingRequestsDiscover};
use reference::ready_cache::error::Failed;
use reference::util::rng::HasherRng;
use reference::BoxError;
use std::fmt::{Debug, Write};
use std::future::Future;
use std::panic::{catch_unwind, AssertUnwindSafe};
use std::pin::Pin;
use std::task::{Context, Poll};
use std::time::Duration;
use tower_service::Service;

/// Where a run ends early, and why.
#[derive(Clone, Copy, Debug, PartialEq)]
pub enum Ended {
    /// A call after a poll that a fault ended: tower goes on with the index that it still has.
    CallAfterFault,
    /// An evict removed or moved the selected entry: tower keeps the index.
    SelectedEvicted,
    /// A call by an index that names nobody any more: tower panics and has lost the index.
    CallPanicked,
}

/// What was compared.
#[derive(Default, Clone, Debug)]
pub struct Totals {
    pub runs: u64,
    pub polls: u64,
    pub calls: u64,
    pub completions: u64,
    pub cache_calls: u64,
    pub draws: u64,
    pub after_fault: u64,
    pub evicted: u64,
    pub panicked: u64,
}

/// What a comparison looks at in an endpoint.
pub trait Seen {
    fn serial(&self) -> u64;
    fn describe(&self) -> String;
}

impl Seen for PendingRequests<Worker, Keep> {
    fn serial(&self) -> u64 {
        self.service().serial
    }

    fn describe(&self) -> String {
        format!("{}", self.count())
    }
}

impl Seen for PeakEwma<Worker, Keep> {
    fn serial(&self) -> u64 {
        self.service().serial
    }

    fn describe(&self) -> String {
        let (bits, at) = self.estimate();
        format!("{}:{bits:016x}:{at}", self.count())
    }
}

/// Answers a run: the text, and the number of picks that are compared, with the reason where that is not all of them.
pub fn answer(run: &Run, totals: &mut Totals) -> (String, usize, Option<Ended>) {
    match run.load {
        Load::Count => {
            let wrap = |feed| PendingRequestsDiscover::new::<u64>(feed, Keep);
            Driver::<_, pending_requests::Handle, _>::new(run, wrap).drive(run, totals)
        }
        Load::Halving { default, period } => {
            handed::set_decay(handed::Decay::Halving);
            answer_ewma(run, default, period, totals)
        }
        Load::Squaring { default, period } => {
            handed::set_decay(handed::Decay::Squaring);
            answer_ewma(run, default, period, totals)
        }
    }
}

fn answer_ewma(run: &Run, default: u64, period: u64, totals: &mut Totals) -> (String, usize, Option<Ended>) {
    let (default, period) = (Duration::from_nanos(default), Duration::from_nanos(period));
    let wrap = move |feed| PeakEwmaDiscover::new::<u64>(feed, default, period, Keep);
    Driver::<_, peak_ewma::Handle, _>::new(run, wrap).drive(run, totals)
}

/// A request out: its ticket, the serial of its worker, and tower's handle.
struct Out<H> {
    ticket: u64,
    serial: u64,
    #[allow(dead_code)]
    handle: H,
}

struct Driver<D: Discover, H, W>
where
    D::Key: std::hash::Hash,
{
    balance: Balance<D, u64>,
    wrap: W,
    out: Vec<Out<H>>,
    next_ticket: u64,
    fresh: bool,
    text: String,
}

impl<D, H, W> Driver<D, H, W>
where
    W: Fn(Feed) -> D,
    D: Discover<Key = Name, Error = Fault> + Unpin,
    D::Service: Service<u64, Response = (H, u64), Error = Broken> + reference::load::Load + Seen,
    <D::Service as reference::load::Load>::Metric: Debug,
    <D::Service as Service<u64>>::Future: Future<Output = Result<(H, u64), Broken>> + Unpin,
{
    fn new(run: &Run, wrap: W) -> Self {
        NEXT_SERIAL.with(|n| n.set(run.serial));
        let feed = wrap(Feed::new(&run.feed));
        let balance = match &run.words {
            Words::List(words) => Balance::from_rng(feed, Counted(ListWords { words: words.clone(), next: 0 })),
            Words::Hash => Balance::from_rng(feed, Counted(HasherRng::with_hasher(BuildFnv))),
        };
        Driver { balance, wrap, out: Vec::new(), next_ticket: run.ticket, fresh: false, text: String::new() }
    }

    fn drive(mut self, run: &Run, totals: &mut Totals) -> (String, usize, Option<Ended>) {
        totals.runs += 1;
        self.text.push_str("run\n");
        for (i, pick) in run.picks.iter().enumerate() {
            let length = self.text.len();
            if let Some(ended) = self.pick(pick, totals) {
                self.text.truncate(length);
                match ended {
                    Ended::CallAfterFault => totals.after_fault += 1,
                    Ended::SelectedEvicted => totals.evicted += 1,
                    Ended::CallPanicked => totals.panicked += 1,
                }
                return (self.text, i, Some(ended));
            }
            self.state();
        }
        (self.text, run.picks.len(), None)
    }

    fn pick(&mut self, pick: &Pick, totals: &mut Totals) -> Option<Ended> {
        match pick {
            Pick::Poll(at) => {
                handed::set_now(*at);
                self.poll(totals)
            }
            Pick::Call(at, request) => {
                handed::set_now(*at);
                self.call(*request, totals)
            }
            Pick::Done(at, ticket) => {
                handed::set_now(*at);
                totals.completions += 1;
                self.done(*ticket);
                None
            }
            _ => {
                totals.cache_calls += 1;
                self.cache_pick(pick);
                None
            }
        }
    }

    // ---- the balancer

    fn poll(&mut self, totals: &mut Totals) -> Option<Ended> {
        let mut keys: Vec<Name> = self.balance.services().iter_ready().map(|(k, _)| k.clone()).collect();
        let selected = self.balance.ready_index();
        REMOVED.with(|r| r.borrow_mut().clear());
        FAILED.with(|n| n.set(0));
        WORDS.with(|n| n.set(0));
        let answer = with_context(|cx| self.balance.poll_ready(cx));
        if let Some(i) = selected {
            if REMOVED.with(|r| evicts(&mut keys, i, &r.borrow())) {
                return Some(Ended::SelectedEvicted);
            }
        }
        totals.polls += 1;
        totals.draws += WORDS.with(|n| n.get()) / 2;
        let lost = FAILED.with(|n| n.get());
        self.fresh = false;
        match answer {
            Poll::Ready(Ok(())) => {
                self.fresh = true;
                let i = self.balance.ready_index().expect("a selected index");
                let (_, service) = self.balance.services().get_ready_index(i).expect("a selected service");
                write!(self.text, "ready {} {lost}", service.serial()).unwrap();
            }
            Poll::Pending => write!(self.text, "pending {lost}").unwrap(),
            Poll::Ready(Err(error)) => write!(self.text, "fault 12 {}", feed_error(error)).unwrap(),
        }
        None
    }

    fn call(&mut self, request: u64, totals: &mut Totals) -> Option<Ended> {
        if !self.fresh && self.balance.ready_index().is_some() {
            return Some(Ended::CallAfterFault);
        }
        let selected = self.balance.ready_index();
        let serial = selected.and_then(|i| self.balance.services().get_ready_index(i)).map(|(_, s)| s.serial());
        if selected.is_some() && serial.is_none() {
            let panicked = catch_unwind(AssertUnwindSafe(|| self.balance.call(request))).is_err();
            assert!(panicked);
            return Some(Ended::CallPanicked);
        }
        totals.calls += 1;
        match catch_unwind(AssertUnwindSafe(|| self.balance.call(request))) {
            Err(_) => self.text.push_str("no 6"),
            Ok(future) => {
                self.fresh = false;
                let (handle, response) = future.now_or_never().expect("a response").expect("no error");
                self.sent(serial.expect("a serial"), handle, response);
            }
        }
        None
    }

    fn sent(&mut self, serial: u64, handle: H, response: u64) {
        let ticket = self.next_ticket;
        self.next_ticket += 1;
        self.out.push(Out { ticket, serial, handle });
        write!(self.text, "sent {ticket} {response}").unwrap();
    }

    fn done(&mut self, ticket: u64) {
        let Some(i) = self.out.iter().position(|o| o.ticket == ticket) else {
            self.text.push_str("no 9");
            return;
        };
        let out = self.out.swap_remove(i);
        let cache = self.balance.services();
        let held = cache.iter_ready().any(|(_, s)| s.serial() == out.serial)
            || cache.iter_pending().any(|(_, s, _)| s.serial() == out.serial);
        drop(out);
        self.text.push_str(if held { "held" } else { "gone" });
    }

    // ---- the cache's own calls

    fn cache_pick(&mut self, pick: &Pick) {
        match pick {
            Pick::Push(at, name, making) => {
                handed::set_now(*at);
                self.push(name, making);
            }
            Pick::Evict(name) => {
                let evicted = self.balance.services_mut().evict(&Name(name.clone()));
                write!(self.text, "{evicted}").unwrap();
            }
            Pick::Pending(at) => {
                handed::set_now(*at);
                self.pass();
            }
            Pick::Check(at, i) => {
                handed::set_now(*at);
                let i = *i as usize;
                let answer = with_context(|cx| self.balance.services_mut().check_ready_index(cx, i));
                self.checked(answer);
            }
            Pick::CheckKey(at, name) => {
                handed::set_now(*at);
                let key = Name(name.clone());
                let answer = with_context(|cx| self.balance.services_mut().check_ready(cx, &key));
                self.checked(answer);
            }
            Pick::Send(at, i, request) => {
                handed::set_now(*at);
                self.send(*i as usize, *request);
            }
            Pick::SendKey(at, name, request) => {
                handed::set_now(*at);
                self.send_key(&Name(name.clone()), *request);
            }
            Pick::Poll(_) | Pick::Call(..) | Pick::Done(..) => unreachable!(),
        }
    }

    fn push(&mut self, name: &str, making: &Making) {
        let mut one = (self.wrap)(Feed::new(&[Item::Insert(name.to_string(), making.clone())]));
        let change = with_context(|cx| Pin::new(&mut one).poll_discover(cx));
        let Poll::Ready(Some(Ok(Change::Insert(key, service)))) = change else { panic!("an insert") };
        write!(self.text, "pushed {}", service.serial()).unwrap();
        self.balance.services_mut().push(key, service);
    }

    fn pass(&mut self) {
        let answer = with_context(|cx| self.balance.services_mut().poll_pending(cx));
        match answer {
            Poll::Ready(Ok(())) => self.text.push_str("ready"),
            Poll::Pending => self.text.push_str("pending"),
            Poll::Ready(Err(failed)) => self.failed(failed),
        }
        write!(self.text, " {}", self.balance.services().resume()).unwrap();
    }

    fn checked(&mut self, answer: Result<bool, Failed<Name>>) {
        match answer {
            Ok(ready) => write!(self.text, "{ready}").unwrap(),
            Err(failed) => self.failed(failed),
        }
    }

    fn failed(&mut self, Failed(key, error): Failed<Name>) {
        let broken = error.downcast::<Broken>().expect("a worker's failure");
        write!(self.text, "fault 11 {} {broken}", key.0).unwrap();
    }

    fn send(&mut self, i: usize, request: u64) {
        let serial = self.balance.services().get_ready_index(i).map(|(_, s)| s.serial());
        let cache = self.balance.services_mut();
        match catch_unwind(AssertUnwindSafe(|| cache.call_ready_index(i, request))) {
            Err(_) => self.text.push_str("no 3"),
            Ok(future) => {
                let (handle, response) = future.now_or_never().expect("a response").expect("no error");
                self.sent(serial.expect("a serial"), handle, response);
            }
        }
    }

    fn send_key(&mut self, key: &Name, request: u64) {
        let serial = self.balance.services().get_ready(key).map(|(_, _, s)| s.serial());
        let cache = self.balance.services_mut();
        match catch_unwind(AssertUnwindSafe(|| cache.call_ready(key, request))) {
            Err(_) => self.text.push_str("no 3"),
            Ok(future) => {
                let (handle, response) = future.now_or_never().expect("a response").expect("no error");
                self.sent(serial.expect("a serial"), handle, response);
            }
        }
    }

    // ---- what is held

    fn state(&mut self) {
        self.text.push_str(" |");
        let cache = self.balance.services();
        for (key, service) in cache.iter_ready() {
            write!(self.text, " {}:{}:-:{}", key.0, service.serial(), service.describe()).unwrap();
        }
        self.text.push_str(" |");
        for (key, service, cancelled) in cache.iter_pending() {
            let mark = if cancelled { 'x' } else { '-' };
            write!(self.text, " {}:{}:{mark}:{}", key.0, service.serial(), service.describe()).unwrap();
        }
        self.text.push('\n');
    }
}

fn with_context<T>(f: impl FnOnce(&mut Context<'_>) -> T) -> T {
    let waker = noop_waker();
    f(&mut Context::from_waker(&waker))
}

fn feed_error(error: BoxError) -> u32 {
    let fault = error.downcast::<error::Discover>().expect("a feed's fault");
    fault.0.downcast_ref::<Fault>().expect("a feed's fault").0
}

/// Whether one of the removals takes the ready entry at a place away or moves it.
fn evicts(keys: &mut Vec<Name>, selected: usize, removed: &[Name]) -> bool {
    for name in removed {
        if let Some(gone) = keys.iter().position(|k| k == name) {
            if selected == gone || selected + 1 == keys.len() {
                return true;
            }
            keys.swap_remove(gone);
        }
    }
    false
}
