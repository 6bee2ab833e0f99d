//! Exchanges: what was pushed is what is pulled, in the order of each sender.
use bale_conveyors::{Error, Group, Item, Pushed, Rank, Statistics};
use std::{sync::mpsc, thread};

type Words = [u64; 3];

/// All ranks of a new group of one number.
fn ranks(count: u32, buffer: u32) -> Vec<Rank<Words>> {
    Group::new(&[count], buffer, 2, false).unwrap().ranks().unwrap()
}

/// A rank alone, in an epoch; its open buffer is full after this many items.
fn alone(buffer: u32) -> Rank<Words> {
    let mut rank = ranks(1, buffer).remove(0);
    rank.begin().unwrap();
    rank
}

/// Polls ranks that have pushed all until their epoch is over; what each pulled.
fn finish(ranks: &mut [Rank<Words>]) -> Vec<Vec<(u32, Words)>> {
    let mut pulled = vec![Vec::new(); ranks.len()];
    let mut open = ranks.len();
    while open > 0 {
        open = 0;
        for (rank, pulled) in ranks.iter_mut().zip(&mut pulled) {
            let progress = rank.advance(true).unwrap();
            pulled.extend(rank.drain());
            open += usize::from(!progress.is_complete());
        }
    }
    pulled
}

#[test]
fn a_full_buffer_gives_the_item_back() {
    let mut rank = alone(4);
    for k in 0..4 {
        assert_eq!(rank.push([k, 0, 0], 0), Ok(Pushed::Accepted));
    }
    assert_eq!(rank.push([7, 8, u64::MAX], 0), Ok(Pushed::Full([7, 8, u64::MAX])));
    assert_eq!(rank.push([7, 8, 9], 0).unwrap().refused(), Some([7, 8, 9]));
    assert!(!rank.push([7, 8, 9], 0).unwrap().is_accepted());
    let wanted: Vec<_> = (0..4).map(|k| (0, [k, 0, 0])).collect();
    assert_eq!(finish(&mut [rank]), [wanted]);
}

#[test]
fn statistics_count_buffers_and_their_items() {
    let mut ranks = ranks(2, 4);
    assert_eq!(ranks[0].statistics(), Statistics::default());
    for rank in &mut ranks {
        rank.begin().unwrap();
    }
    for k in 0..4 {
        assert!(ranks[0].push([k, 0, 0], 1).unwrap().is_accepted());
    }
    finish(&mut ranks);
    let (sender, receiver) = (ranks[0].statistics(), ranks[1].statistics());
    assert_eq!((sender.items_sent, sender.items_received), (4, 0));
    assert_eq!((receiver.items_sent, receiver.items_received), (0, 4));
    // One buffer on each link: the last one of the epoch, which to rank 1 has the four items.
    for counts in [sender, receiver] {
        assert_eq!((counts.buffers_sent, counts.buffers_received), (2, 2));
    }
}

#[test]
fn accepted_has_nothing_refused() {
    let pushed = alone(4).push([1, 2, 3], 0).unwrap();
    assert!(pushed.is_accepted());
    assert_eq!(pushed.refused(), None);
}

#[test]
fn many_items_give_the_rest_back() {
    let mut rank = alone(4);
    let items: Vec<Item> = (0..6).map(|k| [k, k, k].into()).collect();
    let to = [0; 6];
    assert_eq!(rank.push_many(&items[..3], &to[..3]), Ok(Pushed::Accepted));
    assert_eq!(rank.push_many(&items[3..], &to[3..]), Ok(Pushed::Full((&items[4..], &to[4..]))));
    assert_eq!(rank.push_many(&[], &[]), Ok(Pushed::Accepted));
}

#[test]
fn many_items_are_pulled_in_order() {
    let mut rank = alone(8);
    for k in 0..6 {
        assert!(rank.push([k, 2 * k, 3 * k], 0).unwrap().is_accepted());
    }
    while rank.pull_many(&mut [], &mut []) == Ok(0) && !rank.advance(true).unwrap().is_complete() {
        let (mut items, mut from) = ([Item { a: 99, b: 99, c: 99 }; 4], [99; 4]);
        match rank.pull_many(&mut items, &mut from).unwrap() {
            4 => assert_eq!(
                items.map(|it| [it.a, it.b, it.c]),
                [0, 1, 2, 3].map(|k| [k, 2 * k, 3 * k])
            ),
            2 => {
                assert_eq!(items.map(|it| it.c), [12, 15, 99, 99]);
                assert_eq!(from, [0, 0, 99, 99]);
                return;
            }
            0 => (),
            other => panic!("{other} items"),
        }
    }
    panic!("the epoch was over too early");
}

#[test]
#[should_panic(expected = "as many ranks as items")]
fn items_and_ranks_of_other_numbers_are_refused() {
    let _ = alone(4).push_many(&[Item::default(); 2], &[0; 3]);
}

#[test]
#[should_panic(expected = "as many senders as items")]
fn places_of_other_numbers_are_refused() {
    let _ = alone(4).pull_many(&mut [Item::default(); 2], &mut [0; 1]);
}

#[test]
fn a_pulled_item_can_be_put_back_once() {
    let mut rank = alone(1);
    assert!(rank.push([5, 0, 0], 0).unwrap().is_accepted());
    assert!(!rank.unpull());
    let pulled = loop {
        rank.advance(true).unwrap();
        if let Some(pulled) = rank.pull().unwrap() {
            break pulled;
        }
    };
    assert!(rank.unpull());
    assert!(!rank.unpull());
    assert_eq!(rank.pull(), Ok(Some(pulled)));
    assert_eq!(rank.pull(), Ok(None));
}

#[test]
fn a_drain_that_is_left_early_leaves_the_rest() {
    let mut rank = alone(4);
    for k in 0..4 {
        assert!(rank.push([k, 0, 0], 0).unwrap().is_accepted());
    }
    while rank.drain().next().is_none() {
        rank.advance(true).unwrap();
    }
    assert_eq!(rank.drain().map(|(_, [k, ..])| k).collect::<Vec<_>>(), [1, 2, 3]);
}

#[test]
fn ranks_exchange_in_one_epoch_after_another() {
    let mut ranks = ranks(3, 16);
    for epoch in 0..3 {
        for rank in &mut ranks {
            rank.begin().unwrap();
            for to in 0..3 {
                for k in 0..4 {
                    let item = [rank.number().into(), epoch, k];
                    assert!(rank.push(item, to).unwrap().is_accepted());
                }
            }
        }
        for mut pulled in finish(&mut ranks) {
            // By sender; of one sender, the order in which they came stays.
            pulled.sort_by_key(|(from, _)| *from);
            let wanted =
                (0..3).flat_map(|from| (0..4).map(move |k| (from, [from.into(), epoch, k])));
            assert_eq!(pulled, wanted.collect::<Vec<_>>());
        }
        ranks.iter_mut().for_each(|rank| rank.reset().unwrap());
    }
}

#[test]
fn a_rank_goes_on_after_its_group_and_on_another_thread() -> Result<(), Error> {
    let mut group = Group::<Words>::new(&[2], 4, 1, true)?;
    let (mut here, there) = (group.rank(0)?, group.rank(1)?);
    drop(group);
    let (to_thread, mail) = mpsc::channel::<Rank<Words>>();
    let thread = thread::spawn(move || {
        let mut rank = mail.recv().unwrap();
        rank.begin().unwrap();
        assert!(rank.push([1, 2, 3], 0).unwrap().is_accepted());
        while !rank.advance(true).unwrap().is_complete() {
            thread::yield_now();
        }
    });
    to_thread.send(there).unwrap();
    here.begin()?;
    let mut pulled = Vec::new();
    while !here.advance(true)?.is_complete() {
        pulled.extend(here.drain());
        thread::yield_now();
    }
    thread.join().unwrap();
    assert_eq!(pulled, [(1, [1, 2, 3])]);
    Ok(())
}

/// What a type of items makes of the words is what is pulled, and what comes back.
#[derive(Debug, PartialEq)]
struct Even(u64);

impl From<Even> for Item {
    fn from(even: Even) -> Item {
        [even.0 / 2, 0, 0].into()
    }
}

impl From<Item> for Even {
    fn from(item: Item) -> Even {
        Even(item.a * 2)
    }
}

#[test]
fn items_have_a_type() -> Result<(), Error> {
    let mut rank = Group::<Even>::new(&[1], 1, 1, false)?.rank(0)?;
    rank.begin()?;
    assert_eq!(rank.push(Even(6), 0), Ok(Pushed::Accepted));
    assert_eq!(rank.push(Even(8), 0), Ok(Pushed::Full(Even(8))));
    while !rank.advance(true)?.is_complete() {
        if let Some(pulled) = rank.pull()? {
            assert_eq!(pulled, (0, Even(6)));
            return Ok(());
        }
    }
    panic!("nothing was pulled");
}

#[test]
fn a_view_lends_what_came_and_takes_a_part() -> Result<(), Error> {
    let mut rank = alone(4);
    for k in 0..4 {
        assert!(rank.push([k, 0, 0], 0)?.is_accepted());
    }
    assert!(rank.view()?.is_none());
    // The first sends the buffer, and the second collects it.
    rank.advance(true)?;
    rank.advance(true)?;
    let view = rank.view()?.expect("four items came");
    assert_eq!(view.from(), 0);
    assert_eq!(view.entries().iter().map(|entry| entry.item().a).collect::<Vec<_>>(), [0, 1, 2, 3]);
    view.take(3)?;
    let view = rank.view()?.expect("one is left");
    assert_eq!(view.entries().len(), 1);
    assert_eq!(view.take(2), Err(Error::NotLent));
    assert_eq!(rank.pull()?, Some((0, [3, 0, 0])));
    Ok(())
}

#[test]
fn items_may_be_pushed_while_a_view_lasts() -> Result<(), Error> {
    let mut rank = alone(4);
    for k in 0..4 {
        assert!(rank.push([k, 0, 0], 0)?.is_accepted());
    }
    rank.advance(false)?;
    rank.advance(false)?;
    let mut view = rank.view()?.expect("four items came");
    for k in 0..view.entries().len() {
        let answer = [view.entries()[k].item().a + 10, 0, 0];
        assert!(view.push(answer, 0)?.is_accepted());
    }
    view.take(4)?;
    let pulled = finish(std::slice::from_mut(&mut rank));
    assert_eq!(pulled[0].iter().map(|(_, words)| words[0]).collect::<Vec<_>>(), [10, 11, 12, 13]);
    Ok(())
}
