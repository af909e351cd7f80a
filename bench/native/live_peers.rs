//! What others reach at the work of `bench960 live`, in the same lines: one sender, and followers each of which takes each item once, none lost.
//! By the word `broadcast` tokio's `broadcast`, one queue for all; by `bounded` crossbeam's `bounded`, a queue for each follower, and the
//! sender sends to all. The second word is the number of senders, the third the nanoseconds between two items at the pace of a game. Where
//! a fourth word comes, it only opens that many senders, each with as many followers as the third says.

use crossbeam_channel::{Receiver as BoundedReceiver, Sender as BoundedSender, bounded};
use std::time::{Duration, Instant};
use std::{hint, thread};
use tokio::sync::broadcast;
use tokio::sync::broadcast::error::TryRecvError;

/// How many items each sender sends: no more than a queue holds, so that none is lost.
const ITEMS: u64 = 1000;

const CAPACITY: usize = 1024;

/// How the next item comes to a follower, if there is one.
trait Source: Send + 'static {
    fn take(&mut self) -> Option<u64>;
}

impl Source for broadcast::Receiver<u64> {
    fn take(&mut self) -> Option<u64> {
        match self.try_recv() {
            Ok(item) => Some(item),
            Err(TryRecvError::Empty) => None,
            Err(error) => panic!("{error}"),
        }
    }
}

impl Source for BoundedReceiver<u64> {
    fn take(&mut self) -> Option<u64> {
        self.try_recv().ok()
    }
}

/// Who sends an item to all followers at once.
trait Sink: Sized {
    type Source: Source;

    fn open(followers: usize) -> (Self, Vec<Self::Source>);

    fn send(&self, item: u64);
}

impl Sink for broadcast::Sender<u64> {
    type Source = broadcast::Receiver<u64>;

    fn open(followers: usize) -> (Self, Vec<Self::Source>) {
        let sender = broadcast::channel(CAPACITY).0;
        let receivers = (0..followers).map(|_| sender.subscribe()).collect();
        (sender, receivers)
    }

    fn send(&self, item: u64) {
        broadcast::Sender::send(self, item).unwrap();
    }
}

impl Sink for Vec<BoundedSender<u64>> {
    type Source = BoundedReceiver<u64>;

    fn open(followers: usize) -> (Self, Vec<Self::Source>) {
        (0..followers).map(|_| bounded(CAPACITY)).unzip()
    }

    fn send(&self, item: u64) {
        for sender in self {
            sender.try_send(item).unwrap();
        }
    }
}

/// This many senders, and for each follower its sources.
fn open<S: Sink>(senders: usize, followers: usize) -> (Vec<S>, Vec<Vec<S::Source>>) {
    let mut lists: Vec<Vec<S::Source>> = (0..followers).map(|_| Vec::new()).collect();
    let mut all = Vec::new();
    for _ in 0..senders {
        let (sender, sources) = S::open(followers);
        for (list, source) in lists.iter_mut().zip(sources) {
            list.push(source);
        }
        all.push(sender);
    }
    (all, lists)
}

/// Sends all items of each sender, none sooner after the one before than at this pace, and gives how many that were.
fn send_all<S: Sink>(senders: &[S], pace: Option<Duration>) -> u64 {
    for sender in senders {
        for item in 0..ITEMS {
            let start = pace.map(|_| Instant::now());
            sender.send(item);
            while start.is_some_and(|start| Some(start.elapsed()) < pace) {
                hint::spin_loop();
            }
        }
    }
    senders.len() as u64 * ITEMS
}

/// Takes the items of all sources in their order, waiting for those that have not come yet, and gives how many these were.
fn take_all(sources: &mut [impl Source]) -> u64 {
    for source in sources.iter_mut() {
        let mut next = 0;
        while next < ITEMS {
            match source.take() {
                Some(item) => {
                    assert_eq!(item, next);
                    next += 1;
                }
                None => thread::yield_now(),
            }
        }
    }
    sources.len() as u64 * ITEMS
}

/// Takes in a thread for each follower, while that is done.
fn take_in_threads(lists: Vec<Vec<impl Source>>, meanwhile: impl FnOnce()) -> u64 {
    let handles: Vec<_> = lists
        .into_iter()
        .map(|mut list| thread::spawn(move || take_all(&mut list)))
        .collect();
    meanwhile();
    handles.into_iter().map(|handle| handle.join().unwrap()).sum()
}

unsafe extern "C" {
    fn clock_gettime(clock: i32, time: *mut [i64; 2]) -> i32;
}

/// The processor time that the process has used, in nanoseconds.
fn processor_time() -> i64 {
    let mut time = [0; 2];
    // Linux numbers this clock so; a time is seconds and nanoseconds, of 64 bits each where pointers are.
    assert_eq!(unsafe { clock_gettime(2, &mut time) }, 0);
    time[0] * 1_000_000_000 + time[1]
}

/// Reports on the error stream how much was done, in how many nanoseconds, and how many the processors worked on it.
fn time(what: &str, followers: usize, work: impl FnOnce() -> u64) {
    let (start, before) = (Instant::now(), processor_time());
    let count = work();
    let (wall, processor) = (start.elapsed().as_nanos(), processor_time() - before);
    eprintln!("{what} {followers}: {count} {wall} {processor}");
}

fn run<S: Sink>(senders: usize, pace: Duration) {
    for followers in [1, 64, 1024] {
        let (sinks, _sources) = open::<S>(senders, followers);
        time("submits, followers", followers, || send_all(&sinks, None));
    }
    for threads in [1, 4, 64] {
        let (sinks, lists) = open::<S>(senders, threads);
        send_all(&sinks, None);
        time("takes afterwards, threads", threads, || take_in_threads(lists, || ()));
    }
    for (what, pace) in [("takes meanwhile, threads", None), ("takes at the pace of a game, threads", Some(pace))] {
        for threads in [1, 4, 64] {
            let (sinks, lists) = open::<S>(senders, threads);
            time(what, threads, || {
                take_in_threads(lists, || {
                    send_all(&sinks, pace);
                })
            });
        }
    }
}

fn start<S: Sink>(words: &[String]) {
    let (senders, number) = (words[2].parse().unwrap(), words[3].parse().unwrap());
    match words.get(4) {
        Some(_plies) => drop(open::<S>(senders, number)),
        None => run::<S>(senders, Duration::from_nanos(number as u64)),
    }
}

fn main() {
    let words: Vec<String> = std::env::args().collect();
    match words[1].as_str() {
        "broadcast" => start::<broadcast::Sender<u64>>(&words),
        "bounded" => start::<Vec<BoundedSender<u64>>>(&words),
        word => panic!("{word}"),
    }
}
