//! Breadth-first search of Graph500's kind: the vertices of an R-MAT graph are dealt out over the
//! ranks, and each level is an epoch. The distances are compared with those of a plain loop.
//!
//!     cargo run --release --example bfs [SCALE [RANKS]]     # 2^SCALE vertices, 16 edges for each
use bale_conveyors::{Error, Group, Pushed, Rank};
use std::{collections::VecDeque, env, thread, time::Instant};

const UNREACHED: u32 = u32::MAX;

/// The neighbours of each vertex. Each bit of an edge's two ends is (0,0), (0,1), (1,0) or (1,1) in
/// 57, 19, 19 and 5 of 100 cases; every edge leads both ways.
fn rmat(scale: u32) -> Vec<Vec<u32>> {
    let (mut graph, mut seed) = (vec![Vec::new(); 1 << scale], 1_u64);
    for _ in 0..graph.len() * 16 {
        let (mut from, mut to) = (0, 0);
        for _ in 0..scale {
            seed = seed.wrapping_mul(6_364_136_223_846_793_005).wrapping_add(1);
            let percent = (seed >> 33) % 100;
            from = from << 1 | u32::from(percent >= 76);
            to = to << 1 | u32::from((57..76).contains(&percent) || percent >= 95);
        }
        graph[from as usize].push(to);
        graph[to as usize].push(from);
    }
    graph
}

/// One epoch: pushes each word toward its rank, and hands over the words that come.
fn exchange(
    rank: &mut Rank<[u64; 3]>,
    words: impl Iterator<Item = (u64, u32)>,
    mut take: impl FnMut(u64),
) -> Result<(), Error> {
    let mut words = words.peekable();
    rank.begin()?;
    loop {
        while let Some(&(word, to)) = words.peek() {
            match rank.push([word, 0, 0], to)? {
                Pushed::Accepted => words.next(),
                Pushed::Full(_) => break,
            };
        }
        let progress = rank.advance(words.peek().is_none())?;
        rank.drain().for_each(|(_from, [word, ..])| take(word));
        if progress.is_complete() {
            return rank.reset();
        }
        thread::yield_now();
    }
}

/// One rank: the distances of its vertices, those with `vertex % ranks == number`.
fn distances(graph: &[Vec<u32>], mut rank: Rank<[u64; 3]>) -> Result<Vec<u32>, Error> {
    let (me, ranks) = (rank.number(), rank.ranks());
    let mut distances = vec![UNREACHED; graph.len().div_ceil(ranks as usize)];
    let mut frontier = if me == 0 { vec![0] } else { vec![] };
    frontier.iter().for_each(|&vertex: &u32| distances[vertex as usize] = 0);
    for level in 1.. {
        let targets = frontier.iter().flat_map(|&vertex| &graph[vertex as usize]);
        let mut next = Vec::new();
        exchange(&mut rank, targets.map(|&to| (to.into(), to % ranks)), |word| {
            let vertex = word as u32;
            let distance = &mut distances[(vertex / ranks) as usize];
            if *distance == UNREACHED {
                *distance = level;
                next.push(vertex);
            }
        })?;
        // Each rank says to all how many vertices it found; the search ends if none found any.
        let (mine, mut found) = (next.len() as u64, 0);
        exchange(&mut rank, (0..ranks).map(|to| (mine, to)), |count| found += count)?;
        if found == 0 {
            break;
        }
        frontier = next;
    }
    Ok(distances)
}

fn serial_distances(graph: &[Vec<u32>]) -> Vec<u32> {
    let (mut distances, mut queue) = (vec![UNREACHED; graph.len()], VecDeque::from([0_usize]));
    distances[0] = 0;
    while let Some(vertex) = queue.pop_front() {
        for &to in &graph[vertex] {
            if distances[to as usize] == UNREACHED {
                distances[to as usize] = distances[vertex] + 1;
                queue.push_back(to as usize);
            }
        }
    }
    distances
}

fn main() -> Result<(), Error> {
    let mut words = env::args().skip(1).map(|word| word.parse().expect("SCALE and RANKS, numbers"));
    let (scale, ranks) = (words.next().unwrap_or(14), words.next().unwrap_or(4));
    let graph = rmat(scale);
    let handles = Group::new(&[ranks], 1024, 2, false)?.ranks()?;
    let began = Instant::now();
    let parts = thread::scope(|scope| {
        let start = |rank| scope.spawn(|| distances(&graph, rank));
        let threads: Vec<_> = handles.into_iter().map(start).collect();
        threads
            .into_iter()
            .map(|thread| thread.join().expect("a rank"))
            .collect::<Result<Vec<_>, _>>()
    })?;
    let (time, began) = (began.elapsed(), Instant::now());
    let wanted = serial_distances(&graph);
    println!("rust bfs: {ranks} ranks {time:.1?}, a plain loop {:.1?}", began.elapsed());
    let found = |v: usize| parts[v % ranks as usize][v / ranks as usize];
    let wrong = (0..graph.len()).filter(|&v| found(v) != wanted[v]).count();
    let reached = wanted.iter().filter(|&&distance| distance != UNREACHED).count();
    println!("rust bfs: {reached} of {} vertices reached, {wrong} distances wrong", graph.len());
    assert!(wrong == 0 && reached > graph.len() / 4);
    Ok(())
}
