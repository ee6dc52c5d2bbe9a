//! States in pieces, over a line that loses, doubles and turns round. tests/c/states.c has what each call answers.
use fazgrond::{Error, Giver, Piece, StateName, Taker};

const NUMBER: u64 = 0x1122_3344_5566_7788;
const GIVER: u8 = 0;
const TAKER: u8 = 1;

fn state(length: usize) -> Vec<u8> {
    (0..length).map(|place| (place * place >> 7) as u8).collect()
}

#[test]
fn a_state_of_no_bytes_or_of_too_many_is_refused() {
    let giver = Giver::open(1, 0, &state(1500)).unwrap();
    assert_eq!(Giver::open(1, 0, &[]).unwrap_err(), Error::InvalidRequest);
    assert_eq!(Taker::open(&giver.name(), 1499).unwrap_err(), Error::TooLong);
    assert_eq!(Taker::open(&StateName::default(), 1499).unwrap_err(), Error::InvalidRequest);
    assert_eq!(Taker::open(&giver.name(), 1500).unwrap().bytes(), None);
}

#[test]
fn a_state_goes_over() {
    let whole = state(100_000);
    let giver = Giver::open(1, 7, &whole).unwrap();
    let mut taker = Taker::open(&giver.name(), 100_000).unwrap();
    let mut came = Vec::new();
    let mut sent = 0;
    assert_eq!((taker.pieces(), taker.left(), taker.takes_of(GIVER)), (98, 98, true));
    while let Some(ask) = taker.send(NUMBER, TAKER, 5) {
        assert_eq!(StateName::sender(&ask), Some(TAKER));
        let replies = (0..).map_while(|place| giver.reply(NUMBER, GIVER, &ask, place).unwrap());
        let mut pieces: Vec<_> = replies
            .filter(|_| {
                sent += 1;
                sent % 3 != 0
            })
            .collect();
        pieces.reverse();
        for piece in pieces.iter().chain(pieces.first()) {
            came.push(taker.receive(NUMBER, piece).unwrap());
        }
    }
    assert!(came.contains(&Piece::Again) && came.contains(&Piece::Taken) && came.contains(&Piece::Whole));
    assert_eq!(taker.bytes().unwrap(), whole);
    assert_eq!((giver.bytes(), taker.name()), (whole, giver.name()));
}

#[test]
fn who_gives_a_wrong_state_is_named() {
    let giver = Giver::open(1, 0, b"right").unwrap();
    let named = StateName { digest: [7; 32], ..giver.name() };
    let mut taker = Taker::open(&named, 5).unwrap();
    let first = StateName::ask(NUMBER, TAKER, 1, 0);
    let piece = giver.reply(NUMBER, GIVER, &first, 0).unwrap().unwrap();
    assert_eq!(StateName::told(NUMBER, &piece), Ok(giver.name()));
    assert_eq!(StateName::told(NUMBER + 1, &piece), Err(Error::NotSealed));
    assert_eq!(taker.receive(NUMBER, &piece), Err(Error::OtherState));
    assert_eq!(giver.reply(NUMBER, GIVER, &taker.send(NUMBER, TAKER, 1).unwrap(), 0).unwrap_err(), Error::OtherState);
    taker.take_of(Some(TAKER));
    assert!(!taker.takes_of(GIVER));
    taker.take_of(None);
    assert!(taker.takes_of(GIVER));
    assert_ne!(named.digest_with(1), giver.name().digest_with(1));
}
