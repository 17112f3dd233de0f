//! Whatever the archive answers and writes, nothing panics. The archive's functions are defined here, so that the linker takes none of the
//! archive's own: each answers and writes what the test says.

#![allow(unsafe_code)] // the archive's functions

use std::cell::Cell;

use jws::ffi::{MEMBER_WORDS, RECORD_WORDS};

thread_local! {
    /// The answer, and the word that is written everywhere.
    static SAYS: Cell<(u8, u64)> = const { Cell::new((0, 0)) };
}

#[no_mangle]
extern "C" fn jws_boundary() -> u32 {
    u32::try_from(SAYS.get().1).unwrap_or(u32::MAX)
}

#[no_mangle]
extern "C" fn jws_payload(_record: &[u64; RECORD_WORDS], _room: u64) -> u64 {
    SAYS.get().1
}

#[no_mangle]
extern "C" fn jws_member(_header: *const u8, _header_len: u64, _k: u64, member: &mut [u64; MEMBER_WORDS]) -> u8 {
    let (answer, word) = SAYS.get();
    *member = [word; MEMBER_WORDS];
    answer
}

#[no_mangle]
extern "C" fn jws_verify(
    _token: *const u8,
    _token_len: u64,
    _table: *const u8,
    _table_len: u64,
    _header: *mut u8,
    _header_len: u64,
    _payload: *mut u8,
    _payload_len: u64,
    record: &mut [u64; RECORD_WORDS],
) -> u8 {
    let (answer, word) = SAYS.get();
    *record = [word; RECORD_WORDS];
    answer
}

#[no_mangle]
extern "C" fn jws_sign(
    _header: *const u8,
    _header_len: u64,
    _payload: *const u8,
    _payload_len: u64,
    _table: *const u8,
    _table_len: u64,
    _token: *mut u8,
    _token_len: u64,
    length: &mut u64,
) -> u8 {
    let (answer, word) = SAYS.get();
    *length = word;
    answer
}

/// The answer that a result stands for, with its words made on the way.
fn answer<T: std::fmt::Debug, E: std::error::Error + Into<jws::Refusal>>(result: Result<T, E>) -> u8 {
    assert!(!format!("{result:?}").is_empty());
    match result {
        Ok(_) => 0,
        Err(refused) => {
            assert!(!refused.to_string().is_empty());
            let refusal: jws::Refusal = refused.into();
            assert!(!refusal.to_string().is_empty());
            refusal.number()
        }
    }
}

#[test]
fn every_answer_with_any_words() {
    let words = [0, 1, 7, 8, 255, 256, 1 << 32, u64::MAX >> 1, u64::MAX];
    let (mut header, mut buffer) = ([0; 4], [0; 4]);
    for number in 0..=u8::MAX {
        for word in words {
            SAYS.set((number, word));
            assert_eq!(u64::from(jws::boundary()), word.min(u64::from(u32::MAX)));

            let verified = jws::verify(b"t", b"k", &mut header, &mut buffer);
            if let Ok(record) = &verified {
                let length = usize::try_from(word).map_or(0, |word| if word <= 4 { word } else { 0 });
                assert_eq!(record.payload(&buffer).len(), length);
                assert!(jws::payload(record, &[]).is_empty());
            }
            assert_eq!(answer(verified), number);
            assert_eq!(answer(jws::sign(b"{}", b"p", b"k", &mut buffer)), number);
            assert_eq!(answer(jws::member(b"{}", usize::MAX)), number);

            // 16 is no refusal of a header: it has no member, or no further one.
            let members = jws::members(b"{}");
            let steps = members.as_ref().map_or(0, |members| members.clone().take(3).count());
            assert_eq!(steps, if number == 0 { 3 } else { 0 });
            assert_eq!(answer(members), if number == 16 { 0 } else { number });
        }
    }
}
