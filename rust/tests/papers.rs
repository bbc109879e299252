//! The reference against what documents 01 and 02 say in numbers. Nothing of the library is called here.

use crate::reference;
use reference::{card, compare, dock, masked, search, sheet, walk, window};

/// The zero word of width 3 with other symbols at some places.
fn zeros_but(symbols: &[(usize, u8)]) -> Vec<u8> {
    let mut word = vec![0; 12];
    symbols.iter().for_each(|&(place, symbol)| word[place] = symbol);
    word
}

#[test]
fn cases_f_to_n() {
    let word_c = vec![1, 2, 4, 3, 6, 0, 1, 0, 0, 0, 0, 0];
    let word_d = vec![1, 0, 0, 0, 0, 1, 1, 1, 1, 1, 1, 1];
    let restored = |word: &[u8], marks: &[u8]| search::restore(3, word, marks);
    assert_eq!(restored(&zeros_but(&[(5, 1)]), &[]), Ok((1, vec![0; 12])), "case F");
    assert_eq!(restored(&zeros_but(&[(0, 7), (5, 7)]), &[]), Ok((2, vec![0; 12])), "case G");
    assert_eq!(restored(&zeros_but(&[(0, 1), (1, 1), (2, 1)]), &[]), Err(7), "case H");
    assert_eq!(restored(&zeros_but(&[(1, 1), (2, 1)]), &[0]), Err(7), "case I");
    assert_eq!(restored(&zeros_but(&[(7, 5)]), &[0, 1]), Ok((1, vec![0; 12])), "case J");
    assert_eq!(restored(&zeros_but(&[(7, 5)]), &[0, 1, 2]), Err(7), "case K");
    assert_eq!(restored(&word_d, &[5]), Ok((0, word_d.clone())), "case L");
    assert_eq!(restored(&[1, 2, 0, 3, 6, 0, 0, 0, 0, 0, 0, 0], &[2, 5, 6, 8]), Ok((0, word_c)), "case M");
    assert_eq!(restored(&zeros_but(&[(4, 1)]), &[0, 1, 2, 3]), Err(7), "case N");
}

#[test]
fn d_sums_beside_the_marks() {
    // Case N: what is left beside its marks is seen by S_4 alone.
    assert_eq!(masked::sums(3, &zeros_but(&[(4, 1)]), &[0, 1, 2, 3]), Ok([0, 0, 0, 0, 1]));
    // c_1 = 1 alone: the powers 0 to 4 of α.
    let word = zeros_but(&[(6, 1)]);
    assert_eq!(masked::sums(3, &word, &[]), Ok([1, 2, 4, 3, 6]));
    assert_eq!(masked::sums(3, &word, &[0, 11, 2]), Ok([1, 2, 4, 3, 6]));
    // Any byte may stand at a mark.
    for byte in 0..=255 {
        assert_eq!(masked::sums(3, &zeros_but(&[(6, byte)]), &[6]), Ok([0; 5]));
        assert_eq!(masked::sums(3, &zeros_but(&[(0, byte), (6, 1)]), &[0]), Ok([1, 2, 4, 3, 6]));
    }
    assert_eq!(masked::sums(3, &zeros_but(&[(0, 8)]), &[6]), Err(6));
    assert_eq!(masked::sums(3, &zeros_but(&[(0, 8)]), &[3, 3]), Err(5));
    assert_eq!(masked::sums(3, &zeros_but(&[(0, 8)]), &[12, 12]), Err(4));
    assert_eq!(masked::sums(3, &[8; 11], &[12, 12]), Err(2));
    assert_eq!(masked::sums(6, &[8; 11], &[12, 12]), Err(1));
}

#[test]
fn e_five_marks() {
    assert_eq!(search::restore(3, &[0; 12], &[2, 4, 5, 6, 8]), Err(14));
    assert_eq!(search::restore(3, &zeros_but(&[(0, 1)]), &[2, 4, 5, 6, 8]), Err(7));
    // All check symbols are marked: they are the powers 0, 4, 8, 12 and 16 of α, times c_4.
    let only = vec![1, 6, 2, 7, 4, 0, 0, 0, 0, 1, 0, 0];
    assert_eq!(search::restore(3, &zeros_but(&[(0, 200), (4, 8), (9, 1)]), &[0, 1, 2, 3, 4]), Ok((0, only)));
    assert_eq!(search::restore(3, &[8; 12], &[0, 1, 2, 3, 4, 12]), Err(3));
    assert_eq!(search::restore(3, &[8; 12], &[3, 3, 2, 3, 12]), Err(4));
    assert_eq!(search::restore(3, &[8; 12], &[0, 1, 2, 3, 3]), Err(5));
    assert_eq!(search::restore(3, &[8; 12], &[0, 1, 2, 3, 4]), Err(6));
}

#[test]
fn e_records_of_139_bytes() {
    let marked = card::record(3, &zeros_but(&[(9, 1)]), &[4, 3, 2, 1, 0]);
    assert_eq!(marked[..9], [3, 5, 4, 3, 2, 1, 0, 0, 0]);
    assert_eq!((marked.len(), marked[7 + 9]), (139, 1));
    let (changed, restored) = card::restore(&marked).expect("one codeword agrees");
    assert_eq!((changed, &restored[..7]), (0, &[3, 0, 255, 255, 255, 255, 255][..]));
    assert_eq!(restored[7..19], [1, 6, 2, 7, 4, 0, 0, 0, 0, 1, 0, 0]);
    assert_eq!(card::judge(&card::record(3, &[0; 12], &[2, 4, 5, 6, 8])), Err(14));
    assert_eq!(card::judge(&card::record(3, &zeros_but(&[(0, 1)]), &[2, 4, 5, 6, 8])), Err(7));
    assert_eq!(card::judge(&[255; 139]), Err(1));
    assert_eq!(card::judge(&marked[..138]), Err(2));
    let with = |at: usize, byte: u8| {
        let mut bytes = card::record(3, &[0; 12], &[1, 2, 3, 4]);
        bytes[at] = byte;
        card::judge(&bytes)
    };
    assert_eq!(with(1, 4), Ok(0));
    assert_eq!((with(1, 3), with(6, 0), with(19, 1), with(138, 1)), (Err(8), Err(8), Err(8), Err(8)));
    assert_eq!((with(1, 5), with(1, 6), with(1, 255), with(2, 255)), (Err(4), Err(3), Err(3), Err(4)));
}

#[test]
fn f_old_cards_into_new() {
    let old = card::record_of(4, 3, &zeros_but(&[(0, 200)]), &[12, 12, 255, 0]);
    let new = [&old[..6], &[255], &old[6..]].concat();
    assert_eq!((old.len(), new.len()), (138, 139));
    let (old, new) = ([&old[..], &[255; 138]].concat(), [&new[..], &[255; 139]].concat());
    assert_eq!(card::to_new(&old, 278), Ok(new.clone()));
    assert_eq!(card::to_old(&new, 276), Ok(old.clone()));
    let with = |bytes: &[(usize, u8)]| {
        let mut card = [&new[..139], &new[..139]].concat();
        bytes.iter().for_each(|&(at, byte)| card[at] = byte);
        card::to_old(&card, 276).map(|_| ())
    };
    assert_eq!((with(&[(1, 5)]), with(&[(1, 5), (139 + 138, 1)])), (Err(15), Err(8)));
    assert_eq!((with(&[(6, 5), (140, 6)]), with(&[(19, 1), (140, 6), (139, 9)])), (Err(3), Err(1)));
    assert_eq!((card::to_new(&old, 277), card::to_new(&old[1..], 278), card::to_old(&[], 0)), (Err(2), Err(2), Ok(vec![])));
}

#[test]
fn h_a_shorter_reach() {
    let at =
        |reach: u8, symbols: &[(usize, u8)], marks: &[u8]| search::restore_at(3, &zeros_but(symbols), marks, Some(reach)).map(|(changed, _)| changed);
    assert_eq!((at(0, &[(5, 1)], &[]), at(1, &[(5, 1)], &[])), (Err(7), Ok(1)), "case F");
    assert_eq!((at(1, &[(0, 7), (5, 7)], &[]), at(2, &[(0, 7), (5, 7)], &[])), (Err(7), Ok(2)), "case G");
    for (count, longest) in [2, 1, 1, 0, 0, 0].into_iter().enumerate() {
        assert_eq!(at(longest, &[], &[0, 1, 2, 3, 4][..count]), Ok(0), "{count} marks");
        assert_eq!(at(longest + 1, &[], &[0, 1, 2, 3, 4][..count]), Err(16), "{count} marks");
    }
    assert_eq!((at(3, &[(0, 1), (1, 1), (2, 1)], &[]), at(3, &[(0, 8)], &[])), (Err(16), Err(6)));
    assert_eq!((at(0, &[], &[2, 4, 5, 6, 8]), at(1, &[], &[2, 4, 5, 6, 8])), (Err(14), Err(16)));
    let three_wrong = card::record(3, &zeros_but(&[(0, 1), (1, 1), (2, 1)]), &[]);
    let within = |reach| card::restore_of(card::MARKS, &three_wrong, Some(reach));
    assert_eq!((within(2), within(3)), (Err(7), Err(16)));
}

#[test]
fn i_width_4() {
    assert_eq!((reference::multiply(4, 8, 2), reference::multiply(4, 9, 2)), (0b0011, 0b0001));
    let light = |symbols: &[(usize, u8)]| {
        let mut word = vec![0; 20];
        symbols.iter().for_each(|&(place, symbol)| word[place] = symbol);
        word
    };
    let codeword = light(&[(5, 1), (10, 6), (15, 7), (2, 1)]);
    assert_eq!(reference::is_codeword(4, &codeword), Ok(true));
    // Halfway to it: two symbols of four are wrong.
    let between = light(&[(5, 1), (10, 6)]);
    assert_eq!(search::restore(4, &between, &[]), Err(7));
    assert_eq!(search::restore(4, &between, &[5]), Ok((1, vec![0; 20])));
    assert_eq!(search::restore(4, &between, &[15]), Ok((1, codeword.clone())));
    assert_eq!(search::restore(4, &between, &[2, 15]), Ok((0, codeword)));
    for (count, longest) in [1, 1, 0, 0].into_iter().enumerate() {
        let at = |reach| search::restore_at(4, &[0; 20], &[19, 0, 7][..count], Some(reach)).map(|(changed, _)| changed);
        assert_eq!((at(longest), at(longest + 1)), (Ok(0), Err(16)), "{count} marks");
    }
    assert_eq!(search::restore(4, &[16; 20], &[0, 1, 2, 20]), Err(3));
    assert_eq!(search::restore(4, &[16; 20], &[1, 1, 20]), Err(4));
    assert_eq!(search::restore(6, &[0; 68], &[]), Err(1));
    let record = |count| card::judge(&card::record(4, &[0; 20], &[0, 1, 2, 3][..count]));
    assert_eq!((record(3), record(4)), (Ok(0), Err(3)));
    assert_eq!(sheet::write(4, &[0; 100], 20), Err(11));
}

#[test]
fn k_a_walk_and_a_look() {
    let slot = card::record(3, &zeros_but(&[(5, 1)]), &[]);
    let clean = card::record(3, &[0; 12], &[]);
    // 33 records: 31 slots, a blank one and a short last piece.
    let card = [slot.repeat(31), vec![255; 139], slot[..138].to_vec()].concat();
    let end = [clean.repeat(31), vec![255; 139], slot[..138].to_vec()].concat();
    let length = card.len() as u64;
    let (second, first_half) = walk::step(length, 1, &card).expect("a step");
    assert_eq!((second, &first_half[..16 * 139], &first_half[16 * 139..]), (17, &end[..16 * 139], &card[16 * 139..]));
    let (third, after) = walk::step(length, second, &first_half).expect("a step");
    assert_eq!((third, walk::step(length, third, &after)), (33, Ok((34, end.clone()))));
    assert_eq!(walk::step(length, 34, &card), Ok((34, card.clone())));
    let refused = |length, next| walk::step(length, next, &card).expect_err("a refusal");
    assert_eq!((refused(length, 0), refused(length, 35), refused(length - 1, 35)), (17, 17, 2));
    for card in [&card, &first_half, &end] {
        assert_eq!(walk::look(card, 1, 132), Ok(vec![0; 132]));
        assert_eq!((walk::look(card, 32, 132), walk::look(card, 33, 132), walk::look(card, 31, 131)), (Err(1), Err(2), Err(2)));
        assert_eq!((walk::look(card, 0, 0), walk::look(card, 34, 132)), (Err(17), Err(17)));
    }
}

#[test]
fn l_one_dock_four_bays() {
    assert_eq!(dock::charge(5), Ok(vec![100, 100, 100, 100, 600]));
    assert_eq!(dock::charge(4), Err(2));
    let (wrong, clean) = (card::record(3, &zeros_but(&[(5, 1)]), &[]), card::record(3, &[0; 12], &[]));
    let mut left = dock::charge(5).expect("five counts");
    for number in 1..=700 {
        let (changed, then, restored) = dock::restore(1, &left, &wrong, None).expect("a rewrite is left");
        assert_eq!((changed, &restored, then.iter().sum::<u16>()), (1, &clean, 1000 - number));
        left = then;
    }
    assert_eq!(left, [100, 0, 100, 100, 0]);
    assert_eq!(dock::restore(1, &left, &wrong, None), Err(19));
    assert_eq!(dock::restore(1, &left, &wrong, Some(0)), Err(7));
    assert_eq!(dock::restore(1, &left, &clean, None), Ok((0, left.clone(), clean.clone())));
    assert_eq!(dock::restore(1, &left, &card::record(3, &[0; 12], &[3]), None), Err(19));
    assert_eq!(dock::restore(0, &left, &card::record(3, &[0; 12], &[3]), None), Ok((0, vec![99, 0, 100, 100, 0], clean)));
    assert_eq!((dock::restore(4, &[], &[], None), dock::restore(3, &left[1..], &wrong, None)), (Err(18), Err(2)));
}

/// A clean record of width 7 with these counts and what follows them.
fn sheet_of(counts: &[(usize, u8)], dated: [u8; 4]) -> Vec<u8> {
    let mut symbols = vec![0; 100];
    counts.iter().for_each(|&(quarter, count)| symbols[quarter] = count);
    symbols[96..].copy_from_slice(&dated);
    card::record(7, &sheet::write(7, &symbols, 132).expect("a date that exists"), &[])
}

#[test]
fn m_controller_and_meter_cupboard() {
    let day = [24, 2, 29, 5];
    let controller = sheet_of(&[(0, 127), (1, 3), (95, 1)], day);
    let mut cupboard = sheet_of(&[(0, 127), (1, 2), (95, 2)], day);
    let compared = |number, cupboard: &[u8]| compare::compare((&controller, number), (cupboard, 1), 96);
    let same = compared(1, &cupboard).expect("one pump and day");
    assert_eq!((same.signs[0], same.signs[1], same.signs[95], same.totals, same.cupboard_chosen), (0, 1, 2, [94, 1, 1], false));
    assert_eq!((compared(0, &cupboard), compared(2, &cupboard), compared(1, &[])), (Err(17), Err(17), Err(17)));
    assert_eq!(compared(1, &sheet_of(&[], [24, 2, 28, 5])), Err(20));
    assert_eq!(compared(1, &sheet_of(&[], [24, 2, 29, 6])), Err(20));
    assert_eq!((compared(1, &cupboard[1..]), compared(1, &[255; 139])), (Err(2), Err(1)));
    cupboard[7] ^= 1;
    assert_eq!(compared(1, &cupboard).map(|same| same.cupboard_chosen), Ok(false));
    let worse = compare::compare((&cupboard, 1), (&controller, 1), 96).expect("one pump and day");
    assert_eq!((worse.totals, worse.cupboard_chosen), ([94, 1, 1], true));
    assert_eq!(compare::compare((&cupboard, 1), (&controller, 1), 95), Err(2));
}

#[test]
fn n_starts_in_a_window() {
    let card = [
        sheet_of(&[(3, 127), (4, 2)], [24, 2, 29, 5]),
        vec![255; 139],
        sheet_of(&[(4, 1), (5, 9)], [24, 2, 28, 5]),
        sheet_of(&[(5, 9)], [99, 1, 1, 6]),
        sheet_of(&[(5, 9)], [98, 12, 31, 6]),
        card::record(5, &[0; 36], &[]),
        vec![255; 138],
    ]
    .concat();
    let report = window::report(&card, 3, 5, 1155).expect("a window");
    assert_eq!(report[45..54], [2, 130, 1, 127, 24, 2, 29, 65, 0]);
    assert_eq!(report[54..63], [2, 0, 0, 0, 98, 12, 31, 0, 0]);
    assert_eq!(report[1152..], [2, 1, 0]);
    assert!(report[..45].iter().chain(&report[63..1152]).all(|&number| number == 0));
    let refused = |first, end, length| window::report(&card, first, end, length).expect_err("a refusal");
    assert_eq!((refused(3, 3, 0), refused(4, 3, 1155), refused(0, 97, 1155), refused(95, 96, 1154)), (21, 21, 21, 2));
}
