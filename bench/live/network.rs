// What the two plain programs of this folder share: a network with full tables, its queues, packets, and their rows.
use crossbeam_queue::ArrayQueue;
use std::collections::{HashMap, VecDeque};
use std::{env, fs};

pub struct Packet {
    pub id: usize,
    pub source: usize,
    pub dest: usize,
    pub hops: Vec<usize>,
}

pub enum Fate {
    Delivered,
    Full(usize),
}

/// A line of a script, with its number.
pub enum Line {
    Inject(usize, usize, usize),
    Drain,
}

pub struct Network {
    pub names: Vec<String>,
    pub neighbors: Vec<Vec<usize>>,
    /// For each node and port, the neighbour's port to this node.
    pub back: Vec<Vec<usize>>,
    /// For each node and destination, the port to it.
    pub table: Vec<Vec<usize>>,
    pub inboxes: Vec<ArrayQueue<Packet>>,
    /// For each node and port, the queue of what it sends there.
    pub ways: Vec<Vec<ArrayQueue<Packet>>>,
}

// For each node the number of its name, and its neighbours, in the order of the text.
fn read(topology: &str) -> (HashMap<&str, usize>, Vec<String>, Vec<Vec<usize>>) {
    let (mut number, mut names, mut neighbors) = (HashMap::new(), Vec::new(), Vec::new());
    for line in topology.lines() {
        let words = line.split('#').next().unwrap().split_whitespace();
        let ends: Vec<usize> = words
            .map(|name| {
                *number.entry(name).or_insert_with(|| {
                    names.push(name.to_string());
                    neighbors.push(Vec::new());
                    names.len() - 1
                })
            })
            .collect();
        for &end in ends.iter().skip(1).filter(|&&end| end != ends[0]) {
            if !neighbors[ends[0]].contains(&end) {
                neighbors[ends[0]].push(end);
                neighbors[end].push(ends[0]);
            }
        }
    }
    (number, names, neighbors)
}

// For each node and destination the first port of a shortest way, by rounds from the destination.
fn full_table(neighbors: &[Vec<usize>]) -> Vec<Vec<usize>> {
    let n = neighbors.len();
    let mut table = vec![vec![0; n]; n];
    for dest in 0..n {
        let mut distance = vec![usize::MAX; n];
        let mut queue = VecDeque::from([dest]);
        distance[dest] = 0;
        while let Some(u) = queue.pop_front() {
            for &v in &neighbors[u] {
                if distance[v] == usize::MAX {
                    distance[v] = distance[u] + 1;
                    queue.push_back(v);
                }
            }
        }
        for u in (0..n).filter(|&u| u != dest) {
            table[u][dest] = neighbors[u].iter().position(|&v| distance[v] + 1 == distance[u]).unwrap();
        }
    }
    table
}

impl Network {
    /// The network and the script's lines, by the words of the program: two files, and the room of a queue.
    pub fn opened() -> (Network, Vec<Line>) {
        let words: Vec<String> = env::args().collect();
        let (topology, script) = (fs::read_to_string(&words[1]).unwrap(), fs::read_to_string(&words[2]).unwrap());
        let room: usize = words[3].parse().unwrap();
        let (number, names, neighbors) = read(&topology);
        let lines = script
            .lines()
            .enumerate()
            .map(|(i, line)| match line.split_whitespace().collect::<Vec<&str>>()[..] {
                ["inject", a, b] => Line::Inject(i + 1, number[a], number[b]),
                _ => Line::Drain,
            })
            .collect();
        let port = |u: usize, v: usize| neighbors[v].iter().position(|&w| w == u).unwrap();
        let network = Network {
            back: neighbors.iter().enumerate().map(|(u, row)| row.iter().map(|&v| port(u, v)).collect()).collect(),
            table: full_table(&neighbors),
            inboxes: names.iter().map(|_| ArrayQueue::new(room)).collect(),
            ways: neighbors.iter().map(|row| row.iter().map(|_| ArrayQueue::new(room)).collect()).collect(),
            names,
            neighbors,
        };
        (network, lines)
    }

    /// A packet of this number from a node to another, with room for its hops.
    pub fn packet(&self, id: usize, source: usize, dest: usize) -> Packet {
        let mut hops = Vec::with_capacity(self.names.len());
        hops.push(source);
        Packet { id, source, dest, hops }
    }

    /// How many queues a node takes from: its inbox and one for each neighbour.
    pub fn degree(&self, u: usize) -> usize {
        1 + self.neighbors[u].len()
    }

    /// The queue from which a node takes by this number: its inbox, or that of a neighbour.
    pub fn way(&self, u: usize, way: usize) -> &ArrayQueue<Packet> {
        match way {
            0 => &self.inboxes[u],
            _ => &self.ways[self.neighbors[u][way - 1]][self.back[u][way - 1]],
        }
    }

    /// A node acts on a packet that it took: the neighbour to which it sent it, or the packet with its fate.
    pub fn act(&self, u: usize, mut packet: Packet) -> Result<usize, (Packet, Fate)> {
        if packet.hops.last() != Some(&u) {
            packet.hops.push(u);
        }
        if packet.dest == u {
            return Err((packet, Fate::Delivered));
        }
        let port = self.table[u][packet.dest];
        let to = self.neighbors[u][port];
        self.ways[u][port].push(packet).map(|()| to).map_err(|packet| (packet, Fate::Full(to)))
    }

    /// The text of the packets' rows, as `route live` writes it.
    pub fn trace(&self, mut rows: Vec<(Packet, Fate)>) -> String {
        rows.sort_by_key(|(packet, _)| packet.id);
        let mut text = String::from("trace 1\n");
        for (packet, fate) in &rows {
            let hops: Vec<&str> = packet.hops.iter().map(|&u| self.names[u].as_str()).collect();
            let fate = match fate {
                Fate::Delivered => "delivered".to_string(),
                Fate::Full(to) => format!("full {} {}", self.names[*packet.hops.last().unwrap()], self.names[*to]),
            };
            let (source, dest) = (&self.names[packet.source], &self.names[packet.dest]);
            text += &format!("{} 1 {} {} {} {} {}\n", packet.id, source, dest, hops.len() - 1, fate, hops.join(" "));
        }
        text
    }
}
