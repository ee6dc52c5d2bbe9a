//! Two machines with a line in one process.
#![cfg(feature = "online")]
use fazgrond::online::{Keys, Line, LineSettings, Relay, Stage, Way};
use std::ffi::CString;
use std::thread::sleep;
use std::time::{Duration, Instant};

const COUNT: usize = 50;

fn datagram(number: usize) -> Vec<u8> {
    let mut bytes = vec![b'x'; 1 + number * 23];
    bytes[0] = number as u8;
    bytes
}

fn settings(me: u32, other: u32) -> LineSettings {
    LineSettings { me, other, ..LineSettings::default() }
}

#[test]
fn two_machines_talk() {
    let (mut one, mut two) = (Keys::draw().unwrap(), Keys::draw().unwrap());
    let (open_one, open_two) = (one.open(), two.open());
    assert_ne!(open_one, open_two);
    assert_eq!(
        Line::open(&settings(1, 1), &mut one, &open_two).unwrap_err(),
        "the two are not two machines of a match"
    );
    let text = |text: &str| CString::new(text).unwrap();
    let relay = Relay {
        address: text("127.0.0.1"),
        port: 3478,
        user: text("user"),
        password: text(&"x".repeat(300)),
        by_tcp: false,
    };
    let relayed = LineSettings { relays: vec![relay.clone()], stun: Some((text("127.0.0.1"), 3478)), ..settings(0, 1) };
    assert!(Line::open(&relayed, &mut one, &open_two).unwrap_err().contains("too long"));
    let many = LineSettings { relays: vec![relay.clone(); 9], ..settings(0, 1) };
    assert_eq!(Line::open(&many, &mut one, &open_two).unwrap_err(), "there are too many relays");
    let mut lines = [
        Line::open(&settings(0, 1), &mut one, &open_two).unwrap(),
        Line::open(&settings(1, 0), &mut two, &open_one).unwrap(),
    ];
    assert_eq!(lines[0].number(), lines[1].number());
    assert!(!lines[0].relays(&[relay]) && lines[0].relays(&[]));
    assert!(!lines[0].signalled(b"abc") && !lines[0].send(b"abc") && lines[0].receive().is_none());

    let begun = Instant::now();
    let (mut came, mut sent) = ([0, 0], 0);
    while came != [COUNT, COUNT] {
        assert!(begun.elapsed() < Duration::from_secs(20), "{came:?}");
        for at in 0..2 {
            lines[at].turn(begun.elapsed().as_millis() as u32);
            while let Some(signal) = lines[at].signal() {
                assert!(lines[1 - at].signalled(&signal));
            }
            while let Some(bytes) = lines[at].receive() {
                assert_eq!(bytes, datagram(came[at]));
                came[at] += 1;
            }
        }
        if sent < COUNT && lines.iter().all(|line| line.look().stage == Stage::Up) {
            assert!(lines.iter_mut().all(|line| line.send(&datagram(sent))));
            sent += 1;
        }
        sleep(Duration::from_millis(1));
    }
    let seen = lines[0].look();
    assert_eq!((seen.way, seen.received, seen.forged, seen.misnamed), (Way::Lan, COUNT as u64, 1, 0));
}
