// A running network in plain Rust: a thread for each node, full tables, crossbeam's bounded queues, threads that give way
// when idle. Words: the files of an adjacency list and of a script with lines `inject A B` and `drain`, and the room of a
// queue. Prints what `route live` prints.
mod network;

use network::{Fate, Line, Network, Packet};
use std::sync::atomic::{AtomicBool, AtomicUsize, Ordering::SeqCst};
use std::thread;

// A node's thread: the packets that ended there.
fn turn(network: &Network, u: usize, stop: &AtomicBool, settled: &AtomicUsize) -> Vec<(Packet, Fate)> {
    let (mut outcomes, mut way) = (Vec::new(), 0);
    while !stop.load(SeqCst) {
        let found = network.way(u, way).pop();
        way = (way + 1) % network.degree(u);
        let Some(packet) = found else {
            thread::yield_now();
            continue;
        };
        if let Err(outcome) = network.act(u, packet) {
            outcomes.push(outcome);
            settled.fetch_add(1, SeqCst);
        }
    }
    outcomes
}

fn main() {
    let (network, lines) = Network::opened();
    let (stop, settled) = (AtomicBool::new(false), AtomicUsize::new(0));
    let rows = thread::scope(|scope| {
        let (network, stop, settled) = (&network, &stop, &settled);
        let running: Vec<_> = (0..network.names.len()).map(|u| scope.spawn(move || turn(network, u, stop, settled))).collect();
        let mut count = 0;
        for line in lines {
            match line {
                Line::Inject(i, source, dest) => match network.inboxes[source].push(network.packet(count, source, dest)) {
                    Ok(()) => count += 1,
                    Err(_) => eprintln!("refused {i} InboxFull"),
                },
                Line::Drain => {
                    while settled.load(SeqCst) < count {
                        thread::yield_now();
                    }
                }
            }
        }
        stop.store(true, SeqCst);
        running.into_iter().flat_map(|node| node.join().unwrap()).collect()
    });
    print!("{}", network.trace(rows));
}
