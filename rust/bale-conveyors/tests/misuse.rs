//! Each misuse has its error, and what the values of this crate say of themselves.
use bale_conveyors::{Error, Group, Item, Phase, Progress, Pushed, Rank};
use std::rc::Rc;

type Words = [u64; 3];

fn alone() -> Rank<Words> {
    Group::new(&[1], 4, 2, false).unwrap().rank(0).unwrap()
}

#[test]
fn numbers_out_of_range_make_no_group() {
    let new = |dims: &[u32], buffer, slots| Group::<Words>::new(dims, buffer, slots, false).err();
    let bad = Some(Error::BadNumbers);
    assert_eq!(new(&[2, 2, 2], 1024, 8), None);
    assert_eq!(new(&[], 64, 2), bad);
    assert_eq!(new(&[0], 64, 2), bad);
    assert_eq!(new(&[65], 64, 2), bad);
    assert_eq!(new(&[1, 1, 1, 1], 64, 2), bad);
    assert_eq!(new(&[2], 3, 2), bad);
    assert_eq!(new(&[2], 2048, 2), bad);
    assert_eq!(new(&[2], 64, 3), bad);
}

#[test]
fn a_rank_is_made_once() {
    let mut group = Group::<Words>::new(&[2, 3], 4, 2, false).unwrap();
    assert_eq!(group.rank(6).err(), Some(Error::NoRank));
    let rank = group.rank(5).unwrap();
    assert_eq!((rank.number(), rank.ranks()), (5, 6));
    assert_eq!(group.rank(5).err(), Some(Error::Taken));
    assert_eq!(group.ranks().err(), Some(Error::Taken));
}

#[test]
fn calls_out_of_order_are_errors() {
    let mut rank = alone();
    assert_eq!(rank.push([1, 2, 3], 0), Err(Error::NotBegun));
    assert_eq!(rank.push_many(&[], &[]), Err(Error::NotBegun));
    assert_eq!(rank.pull(), Err(Error::NotBegun));
    assert_eq!(rank.pull_many(&mut [], &mut []), Err(Error::NotBegun));
    assert_eq!(rank.advance(false), Err(Error::NotBegun));
    assert_eq!(rank.reset(), Err(Error::NotComplete));
    assert_eq!(rank.drain().next(), None);
    assert_eq!(rank.begin(), Ok(()));
    assert_eq!(rank.begin(), Err(Error::Begun));
    assert_eq!(rank.push([1, 2, 3], 1), Err(Error::NoRank));
    assert_eq!(rank.push_many(&[Item::default(); 2], &[0, 1]), Err(Error::NoRank));
    assert_eq!(rank.advance(false), Ok(Progress::More));
    while !rank.advance(true).unwrap().is_complete() {}
    assert_eq!(rank.push([1, 2, 3], 0), Err(Error::SaidDone));
    assert_eq!(rank.advance(false), Err(Error::SaidDone));
    assert_eq!(rank.reset(), Ok(()));
}

#[test]
fn each_phase_has_its_name() {
    let mut ranks = Group::<Words>::new(&[2], 1, 1, false).unwrap().ranks().unwrap();
    let (mut second, mut first) = (ranks.pop().unwrap(), ranks.pop().unwrap());
    assert_eq!(first.phase(), Phase::Dormant);
    first.begin().unwrap();
    assert_eq!(first.phase(), Phase::Working);
    // The link has one slot, so the second buffer waits until the receiver took the first.
    assert!(first.push([1, 0, 0], 1).unwrap().is_accepted());
    assert_eq!(first.advance(false), Ok(Progress::More));
    assert!(first.push([2, 0, 0], 1).unwrap().is_accepted());
    assert_eq!(first.advance(true), Ok(Progress::More));
    assert_eq!(first.phase(), Phase::Endgame);
    second.begin().unwrap();
    while first.advance(true) != Ok(Progress::Near) {
        second.advance(false).unwrap();
        second.drain().for_each(drop);
    }
    assert_eq!(first.phase(), Phase::Cleanup);
    while !first.advance(true).unwrap().is_complete() {
        second.advance(true).unwrap();
        second.drain().for_each(drop);
    }
    assert_eq!(first.phase(), Phase::Complete);
}

#[test]
fn errors_are_errors() {
    let error: Box<dyn std::error::Error + Send + Sync> = Error::NoRank.into();
    assert_eq!(error.to_string(), "no rank has this number");
}

#[test]
fn values_show_their_numbers_and_no_address() {
    let mut group = Group::<Words>::new(&[3], 4, 2, false).unwrap();
    assert_eq!(format!("{group:?}"), "Group { .. }");
    let mut rank = group.rank(1).unwrap();
    assert_eq!(format!("{rank:?}"), "Rank { number: 1, ranks: 3, .. }");
    assert_eq!(format!("{:?}", rank.drain()), "Drain { rank: Rank { number: 1, ranks: 3, .. } }");
    assert_eq!(format!("{:?}", Pushed::Full(3)), "Full(3)");
}

/// An `Rc` may not leave its thread, but neither a group nor a rank has an item in it. What is
/// tested is that this compiles.
#[test]
fn groups_and_ranks_go_to_threads_whatever_items_are() {
    fn goes_to_threads<T: Send + Sync>() {}
    goes_to_threads::<Group<Rc<u64>>>();
    goes_to_threads::<Rank<Rc<u64>>>();
}

#[test]
fn the_version_is_said() {
    assert!(["1", "1 (unproved)"].contains(&bale_conveyors::version().as_str()));
}
