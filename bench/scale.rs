// Plans of large networks in plain Rust, to compare times with. `scale rows THREADS KIND FILE` makes each row by one
// pass of Dijkstra at its own node that hands the least port on, in O(n + m) memory for a thread, and prints the text
// that `route plan --kind KIND --format edgelist FILE` prints. KIND is shortest, or tree, whose rows come from the
// subtrees alone. `scale distances 1 shortest FILE` prints the sum of the distances of all pairs. Built by `rustc -O`; it
// takes a weighted edge list, and is no part of the gate.
use std::cmp::Reverse;
use std::collections::{BinaryHeap, HashMap};
use std::io::Write;
use std::sync::atomic::{AtomicUsize, Ordering};

const NONE: u16 = u16::MAX;

/// The starts of a row: the label at which each interval begins, and the interval's port.
type Row = Vec<(u16, u16)>;

/// A network: names by node, and for each node its neighbours with the weights, in the order of its ports.
struct Network {
    names: Vec<String>,
    ports: Vec<Vec<(usize, u32)>>,
}

fn read(text: &str) -> Network {
    let mut network = Network { names: Vec::new(), ports: Vec::new() };
    let mut nodes: HashMap<String, usize> = HashMap::new();
    let mut links: HashMap<(usize, usize), (usize, usize)> = HashMap::new();
    for line in text.lines() {
        let words: Vec<&str> = line.split('#').next().unwrap().split_whitespace().collect();
        if words.len() < 3 {
            continue;
        }
        let mut ends = [0; 2];
        for (end, word) in ends.iter_mut().zip(&words) {
            *end = *nodes.entry(word.to_string()).or_insert_with(|| {
                network.names.push(word.to_string());
                network.ports.push(Vec::new());
                network.names.len() - 1
            });
        }
        let weight: u32 = words[2].split('.').next().unwrap().parse().unwrap();
        let [u, v] = ends;
        if u == v {
            continue;
        }
        if let Some(&(p, q)) = links.get(&(u.min(v), u.max(v))) {
            network.ports[u.min(v)][p].1 = weight;
            network.ports[u.max(v)][q].1 = weight;
        } else {
            links.insert((u.min(v), u.max(v)), (network.ports[u.min(v)].len(), network.ports[u.max(v)].len()));
            network.ports[u].push((v, weight));
            network.ports[v].push((u, weight));
        }
    }
    network
}

/// The network by depth-first labels from its first node: for each label the node, the end of its subtree, the port to
/// its father, and the hops, one for each port: the neighbour's label and the weight.
struct Labelled {
    nodes: Vec<usize>,
    ends: Vec<usize>,
    fathers: Vec<u16>,
    firsts: Vec<usize>,
    hops: Vec<(u16, u32)>,
}

impl Labelled {
    fn of(network: &Network) -> Labelled {
        let n = network.names.len();
        let (mut labels, mut nodes) = (vec![NONE; n], vec![0]);
        let (mut ends, mut fathers) = (vec![n; n], vec![NONE; n]);
        labels[0] = 0;
        let mut stack = vec![(0, 0)];
        while let Some((u, next)) = stack.pop() {
            let ports = &network.ports[u];
            if let Some(p) = (next..ports.len()).find(|&p| labels[ports[p].0] == NONE) {
                let v = ports[p].0;
                stack.push((u, p + 1));
                stack.push((v, 0));
                labels[v] = nodes.len() as u16;
                fathers[nodes.len()] = network.ports[v].iter().position(|port| port.0 == u).unwrap() as u16;
                nodes.push(v);
            } else {
                ends[labels[u] as usize] = nodes.len();
            }
        }
        let mut labelled = Labelled { nodes, ends, fathers, firsts: vec![0], hops: Vec::new() };
        for &u in &labelled.nodes {
            labelled.hops.extend(network.ports[u].iter().map(|&(v, weight)| (labels[v], weight)));
            labelled.firsts.push(labelled.hops.len());
        }
        labelled
    }

    fn hops(&self, x: usize) -> &[(u16, u32)] {
        &self.hops[self.firsts[x]..self.firsts[x + 1]]
    }
}

/// What a thread uses for one row after the other.
struct Room {
    weights: Vec<u32>,
    ports: Vec<u16>,
    frontier: BinaryHeap<Reverse<u64>>,
}

impl Room {
    fn new(n: usize) -> Room {
        Room { weights: vec![0; n], ports: vec![0; n], frontier: BinaryHeap::new() }
    }

    /// The distances from a label, and for each label the least port that begins a shortest way there. Weights are
    /// positive: what is taken from the frontier has its distance and its port, so it hands both on.
    fn reach(&mut self, labelled: &Labelled, from: usize) {
        self.weights.fill(u32::MAX);
        self.ports.fill(NONE);
        self.weights[from] = 0;
        self.frontier.push(Reverse(from as u64));
        while let Some(Reverse(entry)) = self.frontier.pop() {
            let (weight, x) = ((entry >> 16) as u32, (entry & 0xffff) as usize);
            if weight > self.weights[x] {
                continue;
            }
            let handed = self.ports[x];
            for (p, &(y, more)) in labelled.hops(x).iter().enumerate() {
                let (sum, y) = (weight + more, y as usize);
                let port = if x == from { p as u16 } else { handed };
                if sum < self.weights[y] {
                    self.weights[y] = sum;
                    self.ports[y] = port;
                    self.frontier.push(Reverse((sum as u64) << 16 | y as u64));
                } else if sum == self.weights[y] && port < self.ports[y] {
                    self.ports[y] = port;
                }
            }
        }
    }
}

/// The starts of a row: the labels at which the port differs from that of the label before, its own left out.
fn starts(ports: &[u16], own: usize) -> Row {
    let n = ports.len();
    let mut row = Row::new();
    if n == 1 {
        return row;
    }
    let mut before = if own == n - 1 { ports[n - 2] } else { ports[n - 1] };
    for (label, &port) in ports.iter().enumerate().filter(|&(label, _)| label != own) {
        if port != before {
            row.push((label as u16, port));
            before = port;
        }
    }
    if row.is_empty() {
        row.push((((own + 1) % n) as u16, before));
    }
    row.shrink_to_fit();
    row
}

/// The row of a label in the tree of the labels: each son's subtree by its port, all else by the father's.
fn tree_row(labelled: &Labelled, own: usize) -> Row {
    let n = labelled.nodes.len();
    let (end, father) = (labelled.ends[own], labelled.fathers[own]);
    let mut row = Row::new();
    for (p, &(v, _)) in labelled.hops(own).iter().enumerate() {
        let son = v as usize;
        let back = labelled.fathers[son];
        if son > own && back != NONE && labelled.hops(son)[back as usize].0 as usize == own {
            row.push((v, p as u16));
        }
    }
    if father != NONE {
        row.push(((end % n) as u16, father));
    }
    row.sort_unstable();
    row.shrink_to_fit();
    row
}

/// The rows by label, made by so many threads: each takes the next label that none has taken.
fn rows(labelled: &Labelled, threads: usize, tree: bool) -> Vec<Row> {
    let n = labelled.nodes.len();
    let next = AtomicUsize::new(0);
    let work = || {
        let mut room = if tree { Room::new(0) } else { Room::new(n) };
        let mut made = Vec::new();
        loop {
            let own = next.fetch_add(1, Ordering::Relaxed);
            if own >= n {
                return made;
            }
            let row = if tree {
                tree_row(labelled, own)
            } else {
                room.reach(labelled, own);
                starts(&room.ports, own)
            };
            made.push((own, row));
        }
    };
    let mut rows = vec![Row::new(); n];
    std::thread::scope(|scope| {
        let others: Vec<_> = (1..threads).map(|_| scope.spawn(work)).collect();
        let mut made = work();
        for other in others {
            made.extend(other.join().unwrap());
        }
        for (own, row) in made {
            rows[own] = row;
        }
    });
    rows
}

/// The sum of the distances of all pairs, each of them both ways.
fn sum_of_distances(labelled: &Labelled) -> u64 {
    let n = labelled.nodes.len();
    let mut room = Room::new(n);
    let mut sum = 0;
    for from in 0..n {
        room.reach(labelled, from);
        sum += room.weights.iter().map(|&weight| weight as u64).sum::<u64>();
    }
    sum
}

fn print(network: &Network, labelled: &Labelled, kind: &str, rows: &[Row]) -> std::io::Result<()> {
    let n = rows.len();
    let total: usize = rows.iter().map(Vec::len).sum();
    let mut labels = vec![0; n];
    for (label, &u) in labelled.nodes.iter().enumerate() {
        labels[u] = label;
    }
    let numbers: Vec<String> = (0..n).map(|label| format!(" {label} ")).collect();
    let mut out = std::io::stdout().lock();
    let mut text = format!("plan {kind} {n} {total}\n").into_bytes();
    for u in 0..n {
        text.extend_from_slice(network.names[u].as_bytes());
        text.extend_from_slice(numbers[labels[u]].trim_end().as_bytes());
        for &(start, port) in &rows[labels[u]] {
            text.extend_from_slice(numbers[start as usize].as_bytes());
            text.extend_from_slice(network.names[network.ports[u][port as usize].0].as_bytes());
        }
        text.push(b'\n');
        if text.len() > 1 << 20 {
            out.write_all(&text)?;
            text.clear();
        }
    }
    out.write_all(&text)
}

fn main() {
    let words: Vec<String> = std::env::args().skip(1).collect();
    let [way, threads, kind, file] = words.as_slice() else { panic!("scale rows|distances THREADS shortest|tree FILE") };
    let network = read(&std::fs::read_to_string(file).expect("a text"));
    let labelled = Labelled::of(&network);
    if way == "distances" {
        println!("{}", sum_of_distances(&labelled));
        return;
    }
    let rows = rows(&labelled, threads.parse().expect("a number of threads"), kind == "tree");
    print(&network, &labelled, kind, &rows).expect("a reader");
}
