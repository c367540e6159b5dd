//! The model's messages: bytes written down by hand, what a standby answers to them, and whose number is
//! used.

use second::message::{message_bytes, read, write, Fault, Numbered};
use second::messages::WAYS;
use second::model::{self, order_words, Hold, Mode, Model, Request, Settings, ALL_ONES, NONE_LEFT};
use second::random::Random;
use second::table::{judge, picture, NEXT};

/// Number 1, addresses 100 and 200.
const M: [u8; 41] = [
    1, 0, 8, 0, 0, 0, 0, 0, 0, 0, 1, // the number
    2, 0, 2, 0, 2, // the count
    3, 0, 8, 0, 0, 0, 0, 0, 0, 0, 0x64, // 100
    3, 0, 8, 0, 0, 0, 0, 0, 0, 0, 0xc8, // 200
    9, 0, 0, // the end
];
/// Number 2, no address.
const E2: [u8; 19] = [1, 0, 8, 0, 0, 0, 0, 0, 0, 0, 2, 2, 0, 2, 0, 0, 9, 0, 0];
/// Number 0, no address.
const E0: [u8; 19] = [1, 0, 8, 0, 0, 0, 0, 0, 0, 0, 0, 2, 0, 2, 0, 0, 9, 0, 0];
/// The last number, address all ones.
const F: [u8; 30] = [
    1, 0, 8, 255, 255, 255, 255, 255, 255, 255, 255, 2, 0, 2, 0, 1, 3, 0, 8, 255, 255, 255, 255, 255, 255, 255, 255, 9,
    0, 0,
];

fn numbered(number: u64, list: &[u64]) -> Result<Numbered, Fault> {
    Ok(Numbered { number, list: list.to_vec() })
}

fn open(mode: Mode) -> Model {
    let settings = Settings { clean_fraction: 0.3, ..Settings::default_values(mode) };
    let mut m = model::open(4, true, Some(mode), 1_000, settings).unwrap();
    for address in [100, 200] {
        step(&mut m, Request::Insert { address, size: 10 }).unwrap();
    }
    m
}

fn standby() -> Model {
    open(Mode::Standby)
}

fn step(m: &mut Model, request: Request) -> Result<usize, u64> {
    m.step(&request, &[], order_words(m.rows)).map(|orders| orders.len()).map_err(|r| r.number)
}

fn take(m: &mut Model, message: &[u8]) -> u64 {
    m.step(&Request::Take, message, 0).map_or_else(|r| r.number, |_| 0)
}

/// M with some bytes changed.
fn changed(bytes: &[(usize, u8)]) -> Vec<u8> {
    let mut message = M.to_vec();
    for (place, byte) in bytes {
        message[*place] = *byte;
    }
    message
}

#[test]
fn written_and_read() {
    for (bytes, number, list) in
        [(&M[..], 1, &[100, 200][..]), (&E2, 2, &[]), (&E0, 0, &[]), (&F, u64::MAX, &[ALL_ONES])]
    {
        assert_eq!(write(number, list), bytes);
        assert_eq!(read(bytes), numbered(number, list));
        assert_eq!(bytes.len(), message_bytes(list.len()));
    }
    assert_eq!(write(7, &[5; 65_535]).len(), 720_904);
}

#[test]
fn random_lists_are_read_as_written() {
    let mut r = Random::new(3);
    for _ in 0..2_000 {
        let number = r.word() >> r.below(64);
        let list: Vec<u64> = (0..r.below(30)).map(|_| r.word() >> r.below(64)).collect();
        let bytes = write(number, &list);
        assert_eq!(read(&bytes), numbered(number, &list));
        let cut = r.below(bytes.len() as u64) as usize;
        assert_eq!(read(&bytes[..cut]), Err(Fault::EndsEarly));
        assert_eq!(read(&[&bytes[..], &[r.below(256) as u8]].concat()), Err(Fault::WrongByte));
    }
}

/// Whatever is read was written: bytes of the same length are another list's message, or none.
#[test]
fn one_message_has_one_list() {
    for place in 0..M.len() {
        for byte in 0..=255 {
            if let Ok(Numbered { number, list }) = read(&changed(&[(place, byte)])) {
                assert_eq!(write(number, &list), changed(&[(place, byte)]));
            }
        }
    }
}

#[test]
fn a_standby_takes_messages_in_turn() {
    let mut m = standby();
    assert_eq!((m.next, m.report().count), (1, 20));
    assert_eq!(take(&mut m, &E2), 16);
    assert_eq!(take(&mut m, &E0), 16);
    assert_eq!(take(&mut m, &M), 0);
    assert_eq!((m.next, m.report().next, m.report().count, m.report().dirty), (2, 2, 0, 0));
    assert_eq!(take(&mut m, &M), 16);
    assert_eq!(take(&mut m, &E2), 0);
    assert_eq!(m.next, 3);
}

#[test]
fn damaged_messages() {
    for length in [0, 1, 15, 16, 17, 26, 37, 38, 40] {
        assert_eq!(take(&mut standby(), &M[..length]), 14, "cut to {length} bytes");
    }
    for (place, byte) in [(0, 2), (2, 4), (40, 1), (15, 1), (15, 3), (38, 3)] {
        assert_eq!(take(&mut standby(), &changed(&[(place, byte)])), 15, "byte {place} = {byte}");
    }
    assert_eq!(take(&mut standby(), &[&M[..], &[0]].concat()), 15);
    assert_eq!(take(&mut standby(), &changed(&[(16, 9)])[..17]), 15);
    assert_eq!(take(&mut standby(), &changed(&[(10, 7)])), 16);
    assert_eq!(take(&mut standby(), &changed(&[(37, 0x64)])), 13);
    let all_ones: Vec<(usize, u8)> = (19..27).map(|place| (place, 255)).collect();
    assert_eq!(take(&mut standby(), &changed(&all_ones)), 3);
    assert_eq!(take(&mut standby(), &changed(&[&all_ones[..], &[(10, 7)]].concat())), 16);
    for message in [&M[..], &M[..7], &changed(&[(0, 2)]), &changed(&all_ones)] {
        assert_eq!([Mode::Lead, Mode::Alone].map(|mode| take(&mut open(mode), message)), [5, 5]);
    }
}

/// More addresses than a cache has entries are judged as any others.
#[test]
fn long_messages() {
    for count in [4_096, 4_097, 65_535] {
        let mut list = vec![100; count];
        assert_eq!(take(&mut standby(), &write(1, &list)), 13);
        assert_eq!(take(&mut standby(), &write(2, &list)), 16);
        list[count - 1] = ALL_ONES;
        assert_eq!(take(&mut standby(), &write(1, &list)), 3);
        assert_eq!(take(&mut standby(), &write(2, &list)), 16);
    }
}

#[test]
fn a_lead_uses_a_number_for_each_list() {
    let mut m = open(Mode::Lead);
    assert_eq!((m.next, step(&mut m, Request::Flush)), (1, Ok(2)));
    assert_eq!((m.next, step(&mut m, Request::Flush)), (2, Ok(0)));
    assert_eq!((m.next, step(&mut m, Request::Sync)), (3, Ok(0)));
    assert_eq!(m.next, 4);
    let mut m = open(Mode::Alone);
    assert_eq!((step(&mut m, Request::Flush), m.next), (Ok(2), 1));
}

#[test]
fn the_last_number() {
    let mut lead = open(Mode::Lead);
    lead.next = u64::MAX - 2;
    for request in [Request::Sync, Request::Flush, Request::Sync] {
        assert!(step(&mut lead, request).is_ok());
    }
    assert_eq!((lead.next, lead.report().next), (NONE_LEFT, 0));
    assert_eq!([Request::Flush, Request::Sync].map(|request| step(&mut lead, request)), [Err(16); 2]);
    assert_eq!(lead.step(&Request::Flush, &[], 0).unwrap_err().number, 2);
    assert_eq!(lead.step(&Request::Sync, &[], 0).unwrap_err().number, 2);
    lead.entries.get_mut(&100).unwrap().hold = Hold::Writer;
    assert_eq!(step(&mut lead, Request::Flush), Err(8));

    let mut follower = standby();
    follower.next = u64::MAX - 2;
    for number in [u64::MAX - 2, u64::MAX - 1, u64::MAX] {
        assert_eq!(take(&mut follower, &write(number, &[])), 0);
    }
    assert_eq!(follower.next, NONE_LEFT);
    for message in [&E0[..], &F, &M, &E2] {
        assert_eq!(take(&mut follower, message), 16);
    }
    assert_eq!(step(&mut follower, Request::Sync), Err(5));
    let mut alone = open(Mode::Alone);
    alone.next = NONE_LEFT;
    assert_eq!((step(&mut alone, Request::Flush), alone.next), (Ok(2), NONE_LEFT));
}

#[test]
fn the_number_stands_in_word_8() {
    let mut words = picture(&standby());
    assert_eq!((words[NEXT], words.len()), (1, 31 + 8 * 4));
    for next in [0, 1, u64::MAX] {
        words[8] = next;
        assert_eq!(judge(&words).unwrap().next, next);
    }
}

#[test]
fn the_ways_stand_in_their_order() {
    assert!(WAYS.iter().enumerate().all(|(i, (way, ..))| *way as usize == i));
}
