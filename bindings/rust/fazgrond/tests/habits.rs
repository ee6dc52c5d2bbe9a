//! What a player's habits answer: refusals, and guesses that were worked out by bench/choices.py.
use fazgrond::{Error, Habits};

#[test]
fn parts_have_no_bit_in_common() {
    assert_eq!(Habits::open(&[240, 256, 16], &[]).unwrap_err(), Error::InvalidRequest);
    assert_eq!(Habits::open(&[240, 0], &[]).unwrap_err(), Error::InvalidRequest);
    assert_eq!(Habits::open(&[1; 33], &[]).unwrap_err(), Error::InvalidRequest);
    assert!(Habits::open(&[], &[]).is_ok());
}

/// One who holds each of five buttons for as long as it is let go.
fn five_buttons(parts: &[u32]) -> Habits {
    let mut habits = Habits::open(parts, &[]).unwrap();
    for frame in 0..120 {
        habits.note([6, 10, 14, 9, 22].iter().enumerate().map(|(at, held)| frame / held % 2 << at).sum());
    }
    habits
}

#[test]
fn words_are_foreseen_by_their_parts() {
    let best = five_buttons(&[1, 2, 4, 8, 16]).guesses(4);
    assert_eq!(best.len(), 32);
    assert_eq!((best[0].worth, best[0].words()), (12680, &[26][..]));
    assert_eq!((best[1].worth, best[1].words()), (4311, &[27, 26][..]));
    assert_eq!((best[4].worth, best[4].words()), (1728, &[27, 19][..]));
}

#[test]
fn words_are_foreseen_whole_without_parts() {
    let (whole, parts) = (five_buttons(&[]).guesses(4), five_buttons(&[1, 2, 4, 8, 16]).guesses(4));
    assert_ne!(whole[0].worth, parts[0].worth);
    assert!(five_buttons(&[]).guesses(0).is_empty());
}

#[test]
fn the_library_is_of_the_headers_version() {
    let header = include_str!("../../../../include/fazgrond.h");
    let line = header.lines().find_map(|it| it.strip_prefix("#define FAZGROND_VERSION 0x")).unwrap();
    assert_eq!(fazgrond::version(), u32::from_str_radix(line.trim(), 16).unwrap());
}
