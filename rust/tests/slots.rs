//! The iterator over the slots of a card, against the reference.

use crate::{reference, tools};
use reference::card::{is_blank, restore, RECORD};
use tools::wear::worn_card;
use tools::{refusal, Chance, Tally};

#[test]
fn slots_are_the_pieces_of_the_card() {
    let (mut chance, mut tally, mut blanks) = (Chance::new(), Tally::default(), 0);
    for slots in 0..40 {
        let further = [0, 1, 7, RECORD - 1][chance.below(4)];
        let card = worn_card(&mut chance, slots, further);
        let found: Vec<xrs::Slot> = xrs::slots(&card).collect();
        assert_eq!(found.len(), slots + (further > 0) as usize);
        assert_eq!(found.iter().map(|slot| slot.number).collect::<Vec<_>>(), (1..=found.len() as u64).collect::<Vec<_>>());
        assert_eq!(found.iter().flat_map(|slot| slot.bytes).copied().collect::<Vec<_>>(), card);
        for (slot, piece) in found.iter().zip(card.chunks(RECORD)) {
            assert_eq!(slot.is_blank(), is_blank(piece));
            let wanted = refusal(restore(piece)).map(|(changed, record)| (record, changed));
            assert_eq!(slot.restored().map(|(record, changed)| (record.to_vec(), changed)), wanted);
            tally.add(&wanted);
            blanks += slot.is_blank() as usize;
        }
    }
    tally.given(&[0, 1, 2, 3, 6, 7, 8], 2);
    assert!(blanks > 40, "{blanks} blank slots");
}

#[test]
fn slots_can_be_taken_from_both_ends() {
    let card = worn_card(&mut Chance::new(), 3, 50);
    let mut slots = xrs::slots(&card);
    assert_eq!(slots.len(), 4);
    let (first, last) = (slots.next().unwrap(), slots.next_back().unwrap());
    assert_eq!((first.number, last.number, last.bytes.len(), slots.len()), (1, 4, 50, 2));
    assert_eq!(slots.map(|slot| slot.number).collect::<Vec<_>>(), [2, 3]);
    assert_eq!(xrs::slots(&[]).next(), None);
}
