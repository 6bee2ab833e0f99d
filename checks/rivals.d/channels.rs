//! Rust's standard channels: each rank is a thread with one `std::sync::mpsc` channel to receive from.
//! Items for the same rank travel together, as one `Vec`. A rank receives what came each time it has
//! sent, and at its end until all senders are gone. The work is that of work.h.
//!
//! usage: channels RANKS ITEMS BATCH

use std::sync::mpsc::{channel, Receiver, Sender};
use std::time::Instant;
use std::{env, mem, thread};

/// The cells of one rank's table.
const CELLS: u64 = 65_536;

struct Item {
    to: u64,
    cell: u64,
    value: u64,
}

type Batch = Vec<Item>;

/// The items of one rank.
struct Draws {
    seed: u64,
    ranks: u64,
}

impl Draws {
    fn next_item(&mut self) -> Item {
        self.seed = self.seed.wrapping_mul(6364136223846793005).wrapping_add(1442695040888963407);
        let place = ((self.seed >> 33) * (self.ranks * CELLS)) >> 31;
        Item { to: place / CELLS, cell: place % CELLS, value: self.seed >> 24 & 255 }
    }
}

/// What one rank has received.
struct Table {
    counts: Vec<u64>,
    sum: u64,
}

impl Table {
    fn absorb(&mut self, batch: Batch) {
        for item in batch {
            self.counts[item.cell as usize] += item.value;
            self.sum = self.sum.wrapping_add(item.cell ^ item.value);
        }
    }

    fn checksum(&self, rank: u64) -> u64 {
        let cells = self.counts.iter().zip(rank * CELLS + 1..);
        cells.fold(self.sum, |sum, (count, place)| sum.wrapping_add(count.wrapping_mul(place)))
    }
}

/// Sends all items of one rank, and receives all that are sent to it.
fn run_rank(
    rank: u64,
    items: u64,
    capacity: usize,
    outboxes: Vec<Sender<Batch>>,
    inbox: Receiver<Batch>,
) -> Table {
    let mut table = Table { counts: vec![0; CELLS as usize], sum: 0 };
    let mut draws = Draws { seed: rank + 1, ranks: outboxes.len() as u64 };
    let mut open: Vec<Batch> = outboxes.iter().map(|_| Vec::with_capacity(capacity)).collect();
    for _ in 0..items {
        let item = draws.next_item();
        let to = item.to as usize;
        open[to].push(item);
        if open[to].len() == capacity {
            let full = mem::replace(&mut open[to], Vec::with_capacity(capacity));
            outboxes[to].send(full).expect("a receiver is gone");
            while let Ok(batch) = inbox.try_recv() {
                table.absorb(batch);
            }
        }
    }
    for (outbox, rest) in outboxes.into_iter().zip(open) {
        outbox.send(rest).expect("a receiver is gone");
    }
    for batch in inbox {
        table.absorb(batch);
    }
    table
}

/// Word `k` of the command line as a number.
fn number(k: usize) -> u64 {
    let word = env::args().nth(k).expect("usage: channels RANKS ITEMS BATCH");
    word.parse().expect("a word is no number")
}

fn main() {
    let (ranks, items, capacity) = (number(1), number(2), number(3) as usize);
    let (outboxes, inboxes): (Vec<_>, Vec<_>) = (0..ranks).map(|_| channel()).unzip();
    let start = Instant::now();
    let start_rank = |(rank, inbox)| {
        let outboxes = outboxes.clone();
        thread::spawn(move || run_rank(rank, items, capacity, outboxes, inbox))
    };
    let threads: Vec<_> = (0..ranks).zip(inboxes).map(start_rank).collect();
    drop(outboxes);
    let tables: Vec<Table> =
        threads.into_iter().map(|it| it.join().expect("a rank failed")).collect();
    let seconds = start.elapsed().as_secs_f64();
    let checksum =
        (0..).zip(&tables).fold(0u64, |sum, (rank, table)| sum.wrapping_add(table.checksum(rank)));
    println!("{:.3} {}", (items * ranks) as f64 / seconds / 1e6, checksum);
}
