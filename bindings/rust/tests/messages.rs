//! Messages: their bytes, what a standby answers to each, the writer's limits, and the numbers to their
//! end. The bytes are those of docs/MESSAGE.md.

use speldervacht::{
    ask, message_bytes, open, order_words, raw, report, step, table_words, write_message, Cache, Message, Mode,
    PlainRequest, Refusal, Request, Settings, View, MOST_LISTED, MOST_ROWS, NO_ADDRESS,
};

/// Number 1: 100 and 200.
const M: [u8; 41] = [
    1, 0, 8, 0, 0, 0, 0, 0, 0, 0, 1, 2, 0, 2, 0, 2, 3, 0, 8, 0, 0, 0, 0, 0, 0, 0, 100, 3, 0, 8, 0, 0, 0, 0, 0, 0, 0,
    200, 9, 0, 0,
];
/// Number 2, and number 0: no address.
const E2: [u8; 19] = [1, 0, 8, 0, 0, 0, 0, 0, 0, 0, 2, 2, 0, 2, 0, 0, 9, 0, 0];
const E0: [u8; 19] = [1, 0, 8, 0, 0, 0, 0, 0, 0, 0, 0, 2, 0, 2, 0, 0, 9, 0, 0];
/// The last number: all ones.
const F: [u8; 30] = [
    1, 0, 8, 255, 255, 255, 255, 255, 255, 255, 255, 2, 0, 2, 0, 1, 3, 0, 8, 255, 255, 255, 255, 255, 255, 255, 255, 9,
    0, 0,
];

/// Where the number of the next message stands in a table, and where the settings do.
const NEXT: usize = 8;
const SETTINGS: usize = 10;

/// A cache of 4 rows in which 100 and 200 are dirty.
fn opened(mode: Mode) -> Cache {
    let settings = Settings { clean_fraction: 0.3, ..Settings::fixed(mode, 4_096) };
    let mut cache = Cache::builder().rows(4).mode(mode).settings(settings).open().unwrap();
    cache.insert(100, 10).unwrap();
    cache.insert(200, 20).unwrap();
    cache
}

/// The same with another next number.
fn opened_at(mode: Mode, next: u64) -> Cache {
    let mut words = opened(mode).as_words().to_vec();
    words[NEXT] = next;
    Cache::from_words(words).unwrap()
}

/// Takes the bytes. A refusal is what asking told, and changes no word.
fn take(cache: &mut Cache, message: &[u8]) -> Result<(), Refusal> {
    let (before, told) = (cache.clone(), cache.ask(&Request::Take { message }));
    let answer = cache.take(message);
    assert_eq!(answer, told);
    assert_eq!(answer.is_err(), *cache == before);
    answer
}

/// The message with another byte at a place.
fn with_byte(at: usize, byte: u8) -> Vec<u8> {
    let mut bytes = M.to_vec();
    bytes[at] = byte;
    bytes
}

#[test]
fn a_message_is_taken_once_in_its_turn() {
    let mut standby = opened(Mode::Standby);
    assert_eq!((standby.next_number(), standby.report().unwrap().next), (1, 1));
    assert_eq!(take(&mut standby, &E2), Err(Refusal::WrongNumber { next: 1 }));
    assert_eq!(take(&mut standby, &E0), Err(Refusal::WrongNumber { next: 1 }));
    assert_eq!(take(&mut standby, &M), Ok(()));
    let figures = standby.report().unwrap();
    assert_eq!((figures.next, figures.dirty, figures.held, figures.count), (2, 0, 30, 0));
    assert_eq!(take(&mut standby, &M), Err(Refusal::WrongNumber { next: 2 }));
    assert_eq!(take(&mut standby, &E2), Ok(()));
    assert_eq!(standby.next_number(), 3);
}

#[test]
fn bytes_that_end_early_are_refused() {
    let mut standby = opened(Mode::Standby);
    for bytes in 0..M.len() {
        assert_eq!(take(&mut standby, &M[..bytes]), Err(Refusal::CutMessage), "{bytes} bytes");
    }
}

#[test]
fn a_wrong_byte_is_refused() {
    let mut standby = opened(Mode::Standby);
    // A tag, a length, the end; a count too low or too high for what follows; a tag in place of the end.
    for (at, byte) in [(0, 2), (2, 4), (40, 1), (15, 1), (15, 3), (14, 1), (38, 3), (16, 9), (27, 9)] {
        assert_eq!(take(&mut standby, &with_byte(at, byte)), Err(Refusal::BadMessage), "byte {at} as {byte}");
    }
    assert_eq!(take(&mut standby, &[&M[..], &[0]].concat()), Err(Refusal::BadMessage));
    // A wrong byte is told before an early end.
    assert_eq!(take(&mut standby, &with_byte(16, 9)[..17]), Err(Refusal::BadMessage));
    assert_eq!(take(&mut standby, &[9]), Err(Refusal::BadMessage));
}

/// Every byte but those of the number, the count and the addresses has one right value.
#[test]
fn each_byte_has_its_place() {
    let mut standby = opened(Mode::Standby);
    for (at, byte) in M.iter().enumerate() {
        let told = take(&mut standby, &with_byte(at, byte ^ 1)).unwrap_err();
        let expected = match at {
            3..=10 => Refusal::WrongNumber { next: 1 },
            19..=26 | 30..=37 => Refusal::BadList,
            _ => Refusal::BadMessage,
        };
        assert_eq!(told, expected, "byte {at}");
    }
}

#[test]
fn a_right_message_is_judged_by_number_and_then_by_addresses() {
    let mut standby = opened(Mode::Standby);
    let mut taken = |number, list: &[u64]| take(&mut standby, Message::new(number, list).unwrap().as_bytes());
    assert_eq!(taken(7, &[100, 200]), Err(Refusal::WrongNumber { next: 1 }));
    assert_eq!(taken(7, &[NO_ADDRESS, 100, 100]), Err(Refusal::WrongNumber { next: 1 }));
    assert_eq!(taken(1, &[NO_ADDRESS, 200]), Err(Refusal::BadAddress));
    assert_eq!(taken(1, &[300, 300, NO_ADDRESS]), Err(Refusal::BadAddress));
    assert_eq!(taken(1, &[100, 100]), Err(Refusal::BadList));
    assert_eq!(taken(1, &[100, 300]), Err(Refusal::BadList));
    assert_eq!(taken(1, &[200, 100]), Ok(()));
}

#[test]
fn only_a_standby_takes() {
    for mode in [Mode::Alone, Mode::Lead] {
        let mut cache = opened(mode);
        for bytes in [&M[..], &E0, &F, &M[..7], &[9; 3], &[]] {
            assert_eq!(take(&mut cache, bytes), Err(Refusal::WrongMode { mode }));
        }
    }
}

#[test]
fn a_message_longer_than_any_cache_is_judged_to_its_end() {
    let mut standby = opened(Mode::Standby);
    let mut taken = |number, list: &[u64]| take(&mut standby, Message::new(number, list).unwrap().as_bytes());
    let mut list: Vec<u64> = (0..MOST_ROWS as u64 + 1).collect();
    assert_eq!(taken(1, &list), Err(Refusal::BadList));
    assert_eq!(taken(2, &list), Err(Refusal::WrongNumber { next: 1 }));
    list[MOST_ROWS] = NO_ADDRESS;
    assert_eq!(taken(1, &list), Err(Refusal::BadAddress));
    assert_eq!(taken(1, &vec![5; MOST_LISTED]), Err(Refusal::BadList));
}

#[test]
fn a_lead_of_the_most_rows_is_taken_whole() {
    let rows = Cache::builder().rows(MOST_ROWS).settings(Settings::fixed(Mode::Lead, 134_217_728));
    let (mut lead, mut standby) = (rows.mode(Mode::Lead).open().unwrap(), rows.mode(Mode::Standby).open().unwrap());
    let inserts: Vec<PlainRequest> = (0..MOST_ROWS as u64).map(|n| PlainRequest::insert(3 * n, 1)).collect();
    for cache in [&mut lead, &mut standby] {
        assert!(cache.batch(&inserts).unwrap().all(|answer| answer.is_ok()));
    }
    let message = Message::of(lead.next_number(), lead.flush().unwrap());
    assert!(message.addresses().eq((0..MOST_ROWS as u64).map(|n| 3 * n)));
    assert_eq!(message.as_bytes().len(), 19 + 11 * MOST_ROWS);
    assert_eq!(take(&mut standby, message.as_bytes()), Ok(()));
    assert_eq!(standby.dirty().count(), 0);
}

// ---- numbers

#[test]
fn a_flush_and_a_sync_of_a_lead_use_up_a_number_each() {
    let mut lead = opened(Mode::Lead);
    assert_eq!(Message::of(lead.next_number(), lead.flush().unwrap()).as_bytes(), M);
    assert_eq!(Message::of(lead.next_number(), lead.sync().unwrap()).as_bytes(), E2);
    assert_eq!(lead.next_number(), 3);
    // What is refused, and other requests, use up none.
    lead.protect_for_reading(100, 10).unwrap();
    assert!(lead.flush().is_err());
    lead.configure(&Settings::fixed(Mode::Lead, 4_096)).unwrap();
    lead.release(100).unwrap();
    assert_eq!(lead.next_number(), 3);
    // Nor does a flush alone.
    let mut alone = opened(Mode::Alone);
    assert_eq!(alone.flush().unwrap().len(), 2);
    assert_eq!((alone.next_number(), alone.report().unwrap().next), (1, 1));
}

#[test]
fn after_the_last_number_none_is_left() {
    let mut lead = opened_at(Mode::Lead, u64::MAX);
    let mut standby = opened_at(Mode::Standby, u64::MAX);
    assert_eq!(take(&mut standby, &F), Err(Refusal::BadAddress));
    let message = Message::of(lead.next_number(), lead.flush().unwrap());
    assert_eq!(message.number(), u64::MAX);
    assert_eq!(take(&mut standby, message.as_bytes()), Ok(()));
    assert_eq!((lead.next_number(), standby.next_number()), (0, 0));
    assert_eq!(standby.report().unwrap().next, 0);
    for bytes in [&E0[..], &F, &M, message.as_bytes()] {
        assert_eq!(take(&mut standby, bytes), Err(Refusal::WrongNumber { next: 0 }));
    }
    for request in [Request::Flush, Request::Sync] {
        assert_eq!(lead.ask(&request), Err(Refusal::NoNumberLeft));
        assert_eq!(lead.step(&request).unwrap_err(), Refusal::NoNumberLeft);
    }
}

#[test]
fn a_lead_without_a_number_is_refused_last() {
    let mut lead = opened_at(Mode::Lead, 0);
    for request in [Request::Flush, Request::Sync] {
        let few = ask(lead.as_words(), order_words(4) - 1, &request);
        assert_eq!(few, Err(Refusal::FewOrderWords { needed: 27, lent: 26 }));
    }
    let both = [PlainRequest::flush(), PlainRequest::sync()];
    let mut answers = lead.batch(&both).unwrap();
    assert!(answers.all(|answer| matches!(answer, Err(Refusal::NoNumberLeft))));
    lead.protect_for_reading(100, 10).unwrap();
    assert_eq!(lead.flush().unwrap_err().number(), 8);
    assert_eq!(lead.sync().unwrap_err(), Refusal::NoNumberLeft);
    // All else goes on.
    assert!(lead.insert(300, 30).is_ok());
    assert!(opened_at(Mode::Alone, 0).flush().is_ok());
    assert_eq!(opened_at(Mode::Standby, 0).sync().unwrap_err().number(), 5);
}

#[test]
fn a_batch_uses_up_numbers_as_single_requests_do() {
    let mut lead = opened(Mode::Lead);
    let requests = [PlainRequest::flush(), PlainRequest::sync(), PlainRequest::flush()];
    assert!(lead.batch(&requests).unwrap().all(|answer| answer.is_ok()));
    assert_eq!(lead.next_number(), 4);
    let mut lead = opened_at(Mode::Lead, u64::MAX);
    let answered = lead.batch(&requests).unwrap().map(|answer| answer.map_or_else(|refusal| refusal.number(), |_| 0));
    assert_eq!(answered.collect::<Vec<_>>(), [0, 16, 16]);
}

#[test]
fn any_next_number_is_a_cache() {
    for mode in [Mode::Alone, Mode::Lead, Mode::Standby] {
        for next in [0, 1, 2, 1 << 63, u64::MAX] {
            let cache = opened_at(mode, next);
            assert_eq!((cache.next_number(), cache.report().unwrap().next), (next, next));
        }
    }
}

/// Layout 2 has one word less before the settings, layout 1 has two less.
#[test]
fn a_table_of_a_layout_before_is_refused() {
    for mode in [Mode::Alone, Mode::Lead, Mode::Standby] {
        for layout in [1, 2] {
            let mut words = opened(mode).as_words().to_vec();
            assert_eq!(words[0], 0x5350_4c44_5654_0003);
            words[0] = 0x5350_4c44_5654_0000 + layout;
            assert_eq!(Cache::from_words(words.clone()), Err(Refusal::BadTable), "{mode:?}, layout {layout}");
            words.drain(NEXT + layout as usize - 1..SETTINGS);
            assert_eq!(words.len(), 28 + layout as usize + 8 * 4);
            assert_eq!(Cache::from_words(words.clone()), Err(Refusal::BadTable), "{mode:?}, layout {layout}");
            words.resize(table_words(4), u64::MAX);
            assert_eq!(Cache::from_words(words), Err(Refusal::BadTable), "{mode:?}, layout {layout}");
        }
    }
}

#[test]
fn a_table_of_lent_words_tells_its_next_number() {
    let (mut table, mut orders) = ([7; table_words(2)], [0; order_words(2)]);
    for mode in [Mode::Alone, Mode::Lead, Mode::Standby] {
        open(&mut table, 2, mode, 1, &Settings { clean_fraction: 0.3, ..Settings::fixed(mode, 4_096) }).unwrap();
        assert_eq!((report(&table).unwrap().next, View::of(&table).unwrap().next_number(), table[NEXT]), (1, 1, 1));
    }
    step(&mut table, &mut orders, &Request::Insert { address: 100, size: 1 }).unwrap();
    step(&mut table, &mut [], &Request::Take { message: Message::new(1, &[100]).unwrap().as_bytes() }).unwrap();
    assert_eq!((report(&table).unwrap().next, table[NEXT]), (2, 2));
}

// ---- the writer

#[test]
fn the_writer_writes_these_bytes() {
    for (bytes, number, list) in
        [(&M[..], 1, &[100, 200][..]), (&E2, 2, &[]), (&E0, 0, &[]), (&F, u64::MAX, &[NO_ADDRESS])]
    {
        let mut lent = vec![7; bytes.len() + 9];
        assert_eq!(write_message(&mut lent, number, list), Ok(bytes.len()));
        assert_eq!(lent, [bytes, &[7; 9]].concat(), "the bytes past the message stay");
        let message = Message::new(number, list).unwrap();
        assert_eq!((message.as_bytes(), message.number()), (bytes, number));
        assert!(message.addresses().eq(list.iter().copied()));
        assert_eq!(message.addresses().len(), list.len());
        assert_eq!(message.into_bytes(), bytes);
    }
}

#[test]
fn debug_tells_number_and_addresses() {
    let message = Message::new(1, &[100, 200]).unwrap();
    assert_eq!(format!("{message:?}"), "Message { number: 1, addresses: [100, 200] }");
}

#[test]
fn the_writer_needs_the_messages_bytes() {
    for (list, needed) in [(&[100, 200][..], 41), (&[], 19)] {
        let mut bytes = vec![7; needed];
        for lent in [0, 1, needed - 1] {
            assert_eq!(write_message(&mut bytes[..lent], 1, list), Err(Refusal::FewBytes { needed, lent }));
            assert!(bytes.iter().all(|byte| *byte == 7), "a refusal changes no byte");
        }
        assert_eq!(write_message(&mut bytes, 1, list), Ok(needed));
    }
}

#[test]
fn a_message_has_at_most_65_535_addresses() {
    let list: Vec<u64> = (0..65_536).map(|n| n * 0x0123_4567_89ab).collect();
    let mut bytes = vec![7; 720_915];
    assert_eq!(
        write_message(&mut bytes[..720_914], 1, &list),
        Err(Refusal::FewBytes { needed: 720_915, lent: 720_914 })
    );
    assert_eq!(write_message(&mut bytes, 1, &list), Err(Refusal::LongList { addresses: 65_536 }));
    assert_eq!(Message::new(1, &list), Err(Refusal::LongList { addresses: 65_536 }));
    assert!(bytes.iter().all(|byte| *byte == 7));
    assert_eq!(write_message(&mut bytes[..720_904], 1, &list[..MOST_LISTED]), Ok(720_904));
    assert_eq!(bytes[11..16], [2, 0, 2, 255, 255]);
    for (n, address) in list[..MOST_LISTED].iter().enumerate() {
        let field = &bytes[16 + 11 * n..27 + 11 * n];
        assert_eq!((&field[..3], &field[3..]), (&[3, 0, 8][..], &address.to_be_bytes()[..]));
    }
    assert_eq!(bytes[720_901..], [&[9, 0, 0][..], &[7; 11]].concat());
}

#[test]
fn the_bytes_of_a_message_are_counted() {
    assert_eq!([0, 1, 2, MOST_LISTED, MOST_LISTED + 1].map(message_bytes), [19, 30, 41, 720_904, 720_915]);
    assert_eq!(message_bytes(usize::MAX), usize::MAX);
}

/// What is lent as no bytes and no words may be null.
#[test]
fn nothing_lent_is_answered() {
    let written = |lent: &mut [u8], list: *const u64| {
        // SAFETY: the slice is borrowed for the call, and there is no list.
        unsafe { raw::speldervacht_write_message(lent.as_mut_ptr(), lent.len(), 2, list, 0) }
    };
    let mut bytes = [7; 19];
    assert_eq!(written(&mut bytes, std::ptr::null()), raw::Written { number: 0, bytes: 19 });
    assert_eq!(bytes, E2);
    // SAFETY: nothing is lent.
    let none = unsafe { raw::speldervacht_write_message(std::ptr::null_mut(), 0, 2, std::ptr::null(), 0) };
    assert_eq!(none, raw::Written { number: 2, bytes: 0 });
}

#[test]
fn refusals_are_sentences() {
    let said = [
        Refusal::FewBytes { needed: 41, lent: 40 },
        Refusal::CutMessage,
        Refusal::BadMessage,
        Refusal::LongList { addresses: 65_536 },
        Refusal::WrongNumber { next: 3 },
        Refusal::WrongNumber { next: 0 },
        Refusal::NoNumberLeft,
    ]
    .map(|refusal| refusal.to_string());
    assert_eq!(
        said,
        [
            "the message needs 41 bytes and was lent 40 (2)",
            "the message's bytes end early (14)",
            "the message has a byte that no right message can have there (15)",
            "the list to write has 65536 addresses, and a message can have 65535 (15)",
            "the message does not have the next number, 3 (16)",
            "the message does not have the next number: none is left (16)",
            "no number is left to send (16)",
        ]
    );
}
