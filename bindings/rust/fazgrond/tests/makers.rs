//! What is made without a word more is what tests/c/makers.c prints.
use fazgrond::{Epoch, Mark, Match, Settings};

const DUE: &str = include_str!("../../../../tests/c/makers.stdout");

/// The names and numbers of a struct that is shown.
fn words(of: &impl std::fmt::Debug) -> String {
    let shown = format!("{of:?}");
    let words: Vec<&str> =
        shown.split(|sign: char| !sign.is_alphanumeric() && sign != '_').filter(|it| !it.is_empty()).collect();
    words.join(" ").to_lowercase()
}

#[test]
fn makers_make_what_those_of_c_do() {
    let (two, five) = (Settings::new(2, &[2]), Settings::new(5, &[2, 5]));
    let of = Match::new(2, 1, &[0, 1], 5).number(7);
    let due: Vec<&str> = DUE.lines().collect();
    assert_eq!([words(&two), words(&five), words(&of), words(&Mark::new())], [due[0], due[1], due[2], due[4]]);
    let Epoch { id, base, words, threshold, machines, owners, delays } = Epoch::first(&of, &two);
    let told = format!("words {words} threshold {threshold} machines {machines} id {id} base {base} owners 0 1 255");
    assert!(due[3].contains(&told), "{told}");
    assert_eq!((owners, delays), (vec![Some(0), Some(1)], vec![0, 0]));
}
