// The program of plain.rs with threads that sleep when idle: a node that has found all its queues empty some times says that
// it sleeps, looks once more, and parks; who puts a packet into one of its queues looks then whether it sleeps, and wakes it.
// The thread that waits until packets are settled sleeps likewise.
mod network;

use network::{Fate, Line, Network, Packet};
use std::sync::OnceLock;
use std::sync::atomic::{AtomicBool, AtomicUsize, Ordering::SeqCst};
use std::thread::{self, Thread};

// How often all queues are found empty before a node sleeps.
const LOOKS: usize = 4;

// A bell beside which one thread sleeps, and which others ring.
#[derive(Default)]
struct Bell {
    asleep: AtomicBool,
    sleeper: OnceLock<Thread>,
}

impl Bell {
    // The thread that calls is the one that sleeps here.
    fn take(&self) {
        self.sleeper.set(thread::current()).unwrap();
    }

    // Sleeps until it is rung, unless something is there; it may wake for no reason.
    fn sleep(&self, is_there: impl Fn() -> bool) {
        self.asleep.store(true, SeqCst);
        if !is_there() {
            thread::park();
        }
        self.asleep.store(false, SeqCst);
    }

    fn ring(&self) {
        if self.asleep.load(SeqCst) && self.asleep.swap(false, SeqCst) {
            self.sleeper.get().unwrap().unpark();
        }
    }
}

struct Run {
    network: Network,
    bells: Vec<Bell>,
    settled_bell: Bell,
    settled: AtomicUsize,
    stop: AtomicBool,
}

impl Run {
    // The next packet of a node's queues, from this one on, and the queue behind it.
    fn next(&self, u: usize, way: usize) -> Option<(Packet, usize)> {
        let degree = self.network.degree(u);
        (way..way + degree).find_map(|way| Some((self.network.way(u, way % degree).pop()?, (way + 1) % degree)))
    }

    fn is_there(&self, u: usize) -> bool {
        self.stop.load(SeqCst) || (0..self.network.degree(u)).any(|way| !self.network.way(u, way).is_empty())
    }

    // A node's thread: the packets that ended there.
    fn turn(&self, u: usize) -> Vec<(Packet, Fate)> {
        self.bells[u].take();
        let (mut outcomes, mut way, mut idle) = (Vec::new(), 0, 0);
        while !self.stop.load(SeqCst) {
            let Some((packet, behind)) = self.next(u, way) else {
                idle += 1;
                if idle < LOOKS {
                    thread::yield_now();
                } else {
                    self.bells[u].sleep(|| self.is_there(u));
                    idle = 0;
                }
                continue;
            };
            (way, idle) = (behind, 0);
            match self.network.act(u, packet) {
                Ok(to) => self.bells[to].ring(),
                Err(outcome) => {
                    outcomes.push(outcome);
                    self.settled.fetch_add(1, SeqCst);
                    self.settled_bell.ring();
                }
            }
        }
        outcomes
    }

    // Carries out the lines, and has the nodes end.
    fn command(&self, lines: Vec<Line>) {
        self.settled_bell.take();
        let mut count = 0;
        for line in lines {
            match line {
                Line::Inject(i, source, dest) => match self.network.inboxes[source].push(self.network.packet(count, source, dest)) {
                    Ok(()) => {
                        count += 1;
                        self.bells[source].ring();
                    }
                    Err(_) => eprintln!("refused {i} InboxFull"),
                },
                Line::Drain => {
                    while self.settled.load(SeqCst) < count {
                        self.settled_bell.sleep(|| self.settled.load(SeqCst) >= count);
                    }
                }
            }
        }
        self.stop.store(true, SeqCst);
        self.bells.iter().for_each(Bell::ring);
    }
}

fn main() {
    let (network, lines) = Network::opened();
    let run = Run {
        bells: network.names.iter().map(|_| Bell::default()).collect(),
        settled_bell: Bell::default(),
        settled: AtomicUsize::new(0),
        stop: AtomicBool::new(false),
        network,
    };
    let rows = thread::scope(|scope| {
        let run = &run;
        let running: Vec<_> = (0..run.network.names.len()).map(|u| scope.spawn(move || run.turn(u))).collect();
        run.command(lines);
        running.into_iter().flat_map(|node| node.join().unwrap()).collect()
    });
    print!("{}", run.network.trace(rows));
}
