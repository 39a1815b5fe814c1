// Reads of a board beside one writer, in plain Rust: over an RwLock, and by swapping an Arc under SeqCst.
// Words: lock or swap, the number of readers, the reads of each, and the changes.
use std::sync::atomic::{AtomicPtr, AtomicUsize, Ordering::SeqCst};
use std::sync::{Arc, RwLock};
use std::{env, hint, thread};

#[derive(Clone, Copy)]
#[allow(dead_code)]
struct Board {
    version: u32,
    current: u32,
    floor: u32,
    up: [bool; 256],
}

const OPENING: Board = Board { version: 0, current: 1, floor: 1, up: [true; 256] };

impl Board {
    fn with(&self, up: bool) -> Board {
        let mut next = *self;
        next.version += 1;
        next.up[0] = up;
        next
    }
}

/// An Arc that one writer swaps: a reader says that it is inside, takes a count of the Arc, and leaves; the writer lets an
/// old Arc go once no reader is inside.
struct Swapped {
    newest: AtomicPtr<Board>,
    inside: AtomicUsize,
}

impl Swapped {
    fn read(&self) -> Arc<Board> {
        self.inside.fetch_add(1, SeqCst);
        let found = self.newest.load(SeqCst);
        let board = unsafe {
            Arc::increment_strong_count(found);
            Arc::from_raw(found)
        };
        self.inside.fetch_sub(1, SeqCst);
        board
    }

    fn write(&self, board: Board) {
        let old = self.newest.swap(Arc::into_raw(Arc::new(board)) as *mut Board, SeqCst);
        while self.inside.load(SeqCst) != 0 {
            hint::spin_loop();
        }
        unsafe { drop(Arc::from_raw(old)) };
    }
}

fn main() {
    let words: Vec<String> = env::args().collect();
    let number = |i: usize| words[i].parse::<u32>().unwrap();
    let (readers, reads, changes) = (number(2), number(3), number(4));
    let locked = RwLock::new(OPENING);
    let swapped = Swapped { newest: AtomicPtr::new(Arc::into_raw(Arc::new(OPENING)) as *mut Board), inside: AtomicUsize::new(0) };
    let lock = words[1] == "lock";
    let last = thread::scope(|s| {
        s.spawn(|| {
            for k in 0..changes {
                if lock {
                    let mut board = locked.write().unwrap();
                    *board = board.with(k % 2 == 1);
                } else {
                    let now = *swapped.read();
                    swapped.write(now.with(k % 2 == 1));
                }
            }
        });
        let threads: Vec<_> = (0..readers)
            .map(|_| {
                s.spawn(|| {
                    let mut last = 0;
                    for _ in 0..reads {
                        let board: Board = if lock { *locked.read().unwrap() } else { *swapped.read() };
                        last = hint::black_box(board).version;
                    }
                    last
                })
            })
            .collect();
        threads.into_iter().map(|t| t.join().unwrap()).max()
    });
    println!("{}", if last.unwrap_or(0) <= changes { "read" } else { "behind" });
}
