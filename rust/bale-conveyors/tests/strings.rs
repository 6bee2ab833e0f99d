//! Strings: what was pushed is what is pulled, as a whole and in the order of each sender.
use bale_conveyors::{Elastic, Error, Group, Phase};
use std::thread;

/// All ranks of a new group of one number, for strings.
fn ranks(count: u32, buffer: u32) -> Vec<Elastic> {
    let mut group = Group::<[u64; 3]>::new(&[count], buffer, 2, false).unwrap();
    (0..count).map(|number| group.elastic(number).unwrap()).collect()
}

/// String number `k` of a rank.
fn string(rank: u32, k: u32) -> Vec<u8> {
    let length = [0, 1, 16, 17, 40, 41, 5_000, 65_535][k as usize % 8];
    (0..length).map(|n| (rank * 7 + k + n) as u8).collect()
}

/// Sends 40 strings to each rank in turn; what each sender's were.
fn exchange(mut rank: Elastic) -> Vec<Vec<Vec<u8>>> {
    let mut came = vec![Vec::new(); rank.ranks() as usize];
    let (mut k, all) = (0, 40 * rank.ranks());
    rank.begin().unwrap();
    loop {
        while k < all {
            let bytes = string(rank.number(), k / rank.ranks());
            if !rank.push(&bytes, k % rank.ranks()).unwrap().is_accepted() {
                break;
            }
            k += 1;
        }
        let progress = rank.advance(k == all).unwrap();
        while let Some((from, bytes)) = rank.pull().unwrap() {
            came[from as usize].push(bytes.to_vec());
        }
        if progress.is_complete() {
            return came;
        }
        thread::yield_now();
    }
}

#[test]
fn strings_of_any_length_arrive_whole_and_in_order() {
    for buffer in [1, 64] {
        thread::scope(|scope| {
            let threads: Vec<_> =
                ranks(3, buffer).into_iter().map(|rank| scope.spawn(|| exchange(rank))).collect();
            for thread in threads {
                for (from, came) in thread.join().unwrap().into_iter().enumerate() {
                    let wanted: Vec<_> = (0..40).map(|k| string(from as u32, k)).collect();
                    assert!(came == wanted, "from rank {from}, buffers of {buffer}");
                }
            }
        });
    }
}

#[test]
fn a_string_that_finds_no_room_is_kept_and_the_next_one_refused() {
    let mut rank = ranks(1, 2).remove(0);
    rank.begin().unwrap();
    assert!(rank.push(&[5; 1_000], 0).unwrap().is_accepted());
    assert_eq!(rank.push(b"next", 0).unwrap().refused(), Some(&b"next"[..]));
    let mut came = Vec::new();
    for _ in 0..1_000 {
        rank.advance(true).unwrap();
        if let Some((_, bytes)) = rank.pull().unwrap() {
            came.push(bytes.to_vec());
        }
    }
    assert_eq!(came, [[5; 1_000]]);
    assert_eq!(rank.phase(), Phase::Complete);
    rank.reset().unwrap();
    assert_eq!(rank.phase(), Phase::Dormant);
}

#[test]
fn misuse_is_an_error() {
    let mut rank = ranks(1, 2).remove(0);
    assert_eq!(rank.push(b"", 0), Err(Error::NotBegun));
    assert_eq!(rank.pull(), Err(Error::NotBegun));
    assert_eq!(rank.reset(), Err(Error::NotComplete));
    rank.begin().unwrap();
    assert_eq!(rank.begin(), Err(Error::Begun));
    assert_eq!(rank.push(b"", 1), Err(Error::NoRank));
    assert_eq!(rank.push(&[0; 65_536], 0), Err(Error::TooLong));
    rank.advance(true).unwrap();
    assert_eq!(rank.push(b"", 0), Err(Error::SaidDone));
    assert_eq!(rank.advance(false), Err(Error::SaidDone));
}
