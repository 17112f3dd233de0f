//! Specification, "Key table".

use crate::limits::{ENTRY_LEN, ID_MAX, ID_MIN, KEYS_MAX, SECRET_MAX, SECRET_MIN, TABLE_EDITION, TABLE_MAX, TABLE_MIN};

/// The bit of HS256 in a key's algorithms.
const HS256_BIT: u8 = 1;

/// The table's bytes don't keep the format.
#[derive(Clone, Copy, Debug, PartialEq, Eq)]
pub struct BadTable;

/// One key; its areas are parts of the table's bytes.
#[derive(Clone, Copy, Debug, PartialEq, Eq)]
pub struct Key<'t> {
    /// 1 to 64 bytes, not always UTF-8.
    pub id: &'t [u8],
    /// 32 to 128 bytes.
    pub secret: &'t [u8],
    algorithms: u8,
    formats: u8,
}

impl Key<'_> {
    /// Whether the key may be used with HS256.
    pub fn allows_hs256(&self) -> bool {
        self.algorithms & HS256_BIT != 0
    }

    /// Whether the key may be used with format `format`, 1 to 8.
    pub fn allows_format(&self, format: u8) -> bool {
        self.formats >> (format - 1) & 1 != 0
    }
}

/// The keys of a table, in order.
pub fn parse(table: &[u8]) -> Result<Vec<Key<'_>>, BadTable> {
    if !(TABLE_MIN..=TABLE_MAX).contains(&table.len()) {
        return Err(BadTable);
    }
    let count = number(&table[2..4]);
    let whole = number(&table[0..2]) == TABLE_EDITION && count <= KEYS_MAX && number(&table[4..8]) == table.len();
    if !whole {
        return Err(BadTable);
    }
    let areas = TABLE_MIN + ENTRY_LEN * count;
    let entries = table.get(TABLE_MIN..areas).ok_or(BadTable)?;
    let mut keys: Vec<Key> = Vec::with_capacity(count);
    for entry in entries.chunks_exact(ENTRY_LEN) {
        let key = key(table, areas, entry)?;
        if keys.iter().any(|earlier| earlier.id == key.id) {
            return Err(BadTable);
        }
        keys.push(key);
    }
    Ok(keys)
}

/// The key of one entry; areas begin at `areas` or later.
fn key<'t>(table: &'t [u8], areas: usize, entry: &[u8]) -> Result<Key<'t>, BadTable> {
    let area = |at: usize, min: usize, max: usize| {
        let start = number(&entry[at..at + 2]);
        let length = number(&entry[at + 2..at + 4]);
        if start < areas || !(min..=max).contains(&length) {
            return Err(BadTable);
        }
        table.get(start..start + length).ok_or(BadTable)
    };
    let algorithms = entry[8];
    if algorithms & !HS256_BIT != 0 || entry[10..12] != [0, 0] {
        return Err(BadTable);
    }
    Ok(Key {
        id: area(0, ID_MIN, ID_MAX)?,
        secret: area(4, SECRET_MIN, SECRET_MAX)?,
        algorithms,
        formats: entry[9],
    })
}

/// A big-endian number of at most four bytes.
fn number(bytes: &[u8]) -> usize {
    bytes.iter().fold(0, |n, &byte| n << 8 | usize::from(byte))
}

#[cfg(test)]
mod tests {
    use super::*;

    /// A table of one key with areas apart: id `k`, secret of 32 bytes `s`.
    fn one_key() -> Vec<u8> {
        let mut table = vec![0, 1, 0, 1, 0, 0, 0, 53];
        table.extend([0, 20, 0, 1, 0, 21, 0, 32, 1, 0x81, 0, 0]);
        table.push(b'k');
        table.extend([b's'; 32]);
        table
    }

    fn is_bad(table: &[u8]) -> bool {
        parse(table) == Err(BadTable)
    }

    /// A good table with the bytes at `at` replaced.
    fn with(table: &[u8], at: usize, bytes: &[u8]) -> Vec<u8> {
        let mut table = table.to_vec();
        table[at..at + bytes.len()].copy_from_slice(bytes);
        table
    }

    #[test]
    fn empty_tables() {
        assert_eq!(parse(&[0, 1, 0, 0, 0, 0, 0, 8]), Ok(vec![]));
        assert_eq!(parse(&[0, 1, 0, 0, 0, 0, 0, 10, 7, 7]), Ok(vec![]));
        for length in 0..8 {
            assert!(is_bad(&vec![0; length]));
        }
        assert!(is_bad(&[0, 1, 0, 0, 0, 0, 0, 7]));
        assert!(is_bad(&[0, 1, 0, 0, 0, 0, 0, 9]));
        assert!(is_bad(&[0, 1, 0, 0, 0, 0, 0, 8, 0]));
        assert!(is_bad(&[0, 1, 0, 1, 0, 0, 0, 8]));
        assert!(is_bad(&[0, 2, 0, 0, 0, 0, 0, 8]));
        assert!(is_bad(&[1, 1, 0, 0, 0, 0, 0, 8]));
        assert!(is_bad(&[0, 0, 0, 0, 0, 0, 0, 8]));
    }

    #[test]
    fn longest_table() {
        let table = |length: usize| {
            let mut table = vec![0; length];
            table[1] = 1;
            table[4..8].copy_from_slice(&(length as u32).to_be_bytes());
            table
        };
        assert_eq!(parse(&table(8_192)), Ok(vec![]));
        assert!(is_bad(&table(8_193)));
        assert!(is_bad(&table(65_536 + 8)));
    }

    #[test]
    fn one_key_apart() {
        let table = one_key();
        let keys = parse(&table).unwrap();
        assert_eq!(keys.len(), 1);
        assert_eq!(keys[0].id, b"k");
        assert_eq!(keys[0].secret, [b's'; 32]);
        assert!(keys[0].allows_hs256());
        let formats: Vec<u8> = (1..=8).filter(|&f| keys[0].allows_format(f)).collect();
        assert_eq!(formats, [1, 8]);
    }

    #[test]
    fn one_key_with_its_id_inside_its_secret() {
        let mut table = one_key();
        table.pop();
        table[7] = 52;
        table[13] = 0;
        let table = with(&with(&table, 8, &[0, 51, 0, 1]), 12, &[0, 20, 0, 32]);
        assert_eq!(parse(&table).unwrap()[0].id, b"s");
        let mut short = table.clone();
        short.pop();
        short[7] = 51;
        assert!(is_bad(&short));
    }

    #[test]
    fn damaged_entries() {
        let table = one_key();
        for (at, bytes) in [
            (1, &[2][..]),          // edition
            (3, &[0, 0, 0, 0, 54]), // total
            (3, &[2]),              // count
            (2, &[1]),              // count
            (8, &[0, 19]),          // id inside the entries
            (8, &[0, 53]),          // id past the end
            (8, &[255, 255]),       // id past the end
            (10, &[0, 0]),          // id empty
            (10, &[0, 34]),         // id past the end by one
            (10, &[0, 65]),         // id too long
            (12, &[0, 19]),         // secret inside the entries
            (12, &[0, 22]),         // secret past the end by one
            (14, &[0, 31]),         // secret too short
            (14, &[0, 33]),         // secret past the end by one
            (14, &[0, 129]),        // secret too long
            (16, &[2]),             // unknown algorithm
            (16, &[0x81]),          // unknown algorithm
            (18, &[1]),             // zero bytes
            (19, &[1]),
        ] {
            assert!(is_bad(&with(&table, at, bytes)), "{at} {bytes:?}");
        }
        for (at, bytes) in [(16, &[0][..]), (17, &[0]), (17, &[255]), (10, &[0, 33]), (20, &[0xFF])] {
            assert!(!is_bad(&with(&table, at, bytes)), "{at} {bytes:?}");
        }
    }

    /// `count` keys with ids of two bytes and one secret in common.
    fn many_keys(count: usize) -> Vec<u8> {
        let areas = 8 + 12 * count;
        let total = areas + 2 * count + 32;
        let mut table = vec![0, 1, 0, count as u8];
        table.extend((total as u32).to_be_bytes());
        for i in 0..count {
            table.extend(((areas + 2 * i) as u16).to_be_bytes());
            table.extend([0, 2]);
            table.extend(((areas + 2 * count) as u16).to_be_bytes());
            table.extend([0, 32, 1, 1, 0, 0]);
        }
        for i in 0..count {
            table.extend([b'k', i as u8]);
        }
        table.extend([b's'; 32]);
        table
    }

    #[test]
    fn counts() {
        for count in [1, 2, 31, 32] {
            assert_eq!(parse(&many_keys(count)).unwrap().len(), count);
        }
        assert!(is_bad(&many_keys(33)));
    }

    #[test]
    fn equal_ids() {
        let table = many_keys(3);
        let ids = 8 + 36;
        // Equal in different places, and in one place.
        assert!(is_bad(&with(&table, ids + 5, &[1])));
        assert!(is_bad(&with(&table, 8 + 24, &[0, ids as u8])));
        // A prefix is not equal.
        let prefix = with(&table, 8 + 24, &[0, ids as u8, 0, 1]);
        assert_eq!(parse(&prefix).unwrap()[2].id, b"k");
    }

    #[test]
    fn lengths_of_areas() {
        let table = |id_length: u8, secret_length: u8| {
            let mut table = vec![0, 1, 0, 1, 0, 0, 0, 220];
            table.extend([0, 20, 0, id_length, 0, 20, 0, secret_length, 1, 1, 0, 0]);
            table.extend([0xFF; 200]);
            table
        };
        let key = |id_length, secret_length| {
            parse(&table(id_length, secret_length)).map(|keys| (keys[0].id.len(), keys[0].secret.len()))
        };
        assert_eq!(key(1, 32), Ok((1, 32)));
        assert_eq!(key(64, 128), Ok((64, 128)));
        assert_eq!(key(0, 32), Err(BadTable));
        assert_eq!(key(65, 32), Err(BadTable));
        assert_eq!(key(1, 31), Err(BadTable));
        assert_eq!(key(1, 129), Err(BadTable));
    }
}
