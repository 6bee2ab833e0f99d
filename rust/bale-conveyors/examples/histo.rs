//! A histogram of random indices: its table is dealt out over four ranks, each on a thread of its
//! own. It is compared with a plain loop.
use bale_conveyors::{Error, Group, Item, Pushed, Rank};
use std::thread;

const RANKS: u64 = 4;
const UPDATES: u64 = 250_000;
const TABLE: u64 = 10_000;

/// Count at this place of the receiver's part of the table.
struct Count(u64);

impl From<Count> for Item {
    fn from(count: Count) -> Item {
        Item { a: count.0, ..Item::default() }
    }
}

impl From<Item> for Count {
    fn from(item: Item) -> Count {
        Count(item.a)
    }
}

/// The indices that a rank counts, by splitmix64.
fn indices(me: u64) -> impl Iterator<Item = u64> {
    let mut seed = me;
    (0..UPDATES).map(move |_| {
        seed = seed.wrapping_add(0x9e37_79b9_7f4a_7c15);
        let z = (seed ^ (seed >> 30)).wrapping_mul(0xbf58_476d_1ce4_e5b9);
        let z = (z ^ (z >> 27)).wrapping_mul(0x94d0_49bb_1331_11eb);
        (z ^ (z >> 31)) % TABLE
    })
}

/// One rank: what it counted in its part of the table, which has every fourth place.
fn count(mut rank: Rank<Count>) -> Result<Vec<u64>, Error> {
    let mut counts = vec![0; (TABLE / RANKS) as usize];
    let mut left = indices(rank.number().into()).peekable();
    rank.begin()?;
    loop {
        while let Some(index) = left.peek() {
            match rank.push(Count(index / RANKS), (index % RANKS) as u32)? {
                Pushed::Accepted => left.next(),
                Pushed::Full(_) => break,
            };
        }
        let progress = rank.advance(left.peek().is_none())?;
        for (_sender, Count(place)) in rank.drain() {
            counts[place as usize] += 1;
        }
        if progress.is_complete() {
            eprintln!("rank {}: {:?}", rank.number(), rank.statistics());
            return Ok(counts);
        }
        thread::yield_now();
    }
}

fn main() -> Result<(), Error> {
    let ranks = Group::new(&[2, 2], 128, 2, false)?.ranks()?;
    let threads: Vec<_> = ranks.into_iter().map(|rank| thread::spawn(|| count(rank))).collect();
    let mut wanted = vec![0; TABLE as usize];
    (0..RANKS).flat_map(indices).for_each(|index| wanted[index as usize] += 1);
    let (mut all, mut wrong) = (0, 0);
    for (me, thread) in threads.into_iter().enumerate() {
        for (place, count) in thread.join().expect("a rank's thread")?.into_iter().enumerate() {
            all += count;
            wrong += u64::from(count != wanted[place * RANKS as usize + me]);
        }
    }
    println!("rust histo: {all} counted, {wrong} places wrong");
    assert!(all == RANKS * UPDATES && wrong == 0);
    Ok(())
}
