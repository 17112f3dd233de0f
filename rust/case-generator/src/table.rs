//! Key tables, valid and damaged.

use reference::limits::TABLE_MAX;

use crate::bytes;
use crate::rng::Rng;

/// A table, valid two times out of three.
pub fn table(rng: &mut Rng) -> Vec<u8> {
    let mut table = valid(rng);
    if rng.one_in(3) {
        damage(rng, &mut table);
    }
    table
}

/// A key to be put into a table.
#[derive(Clone, Debug)]
struct Key {
    id: Vec<u8>,
    secret: Vec<u8>,
    algorithms: u8,
    formats: u8,
}

/// A valid table, of 0, 1, some, 31 or 32 keys.
pub fn valid(rng: &mut Rng) -> Vec<u8> {
    let count = rng.pick(&[0, 1, 1, 1, 1, 1, 1, 2, 2, 3, 4, 7, 31, 32]);
    valid_of(rng, count)
}

/// A valid table of `count` keys, at most 32.
pub fn valid_of(rng: &mut Rng, count: usize) -> Vec<u8> {
    if count == 1 && rng.one_in(6) {
        return id_inside_secret(rng);
    }
    let keys = keys(rng, count);
    let mut table = lay_out(rng, &keys);
    if rng.one_in(8) {
        let spare = rng.pick(&[1, 2, 3, 12, 100]);
        let length = table.len() + spare;
        grow(rng, &mut table, length);
    }
    if rng.one_in(60) && table.len() < TABLE_MAX {
        grow(rng, &mut table, TABLE_MAX);
    }
    table
}

/// Keys with ids apart.
fn keys(rng: &mut Rng, count: usize) -> Vec<Key> {
    let mut keys: Vec<Key> = Vec::with_capacity(count);
    while keys.len() < count {
        let id = id(rng, &keys);
        if keys.iter().all(|key| key.id != id) {
            let secret_length = rng.pick(&[32, 32, 33, 48, 63, 64, 65, 127, 128]);
            keys.push(Key {
                id,
                secret: rng.bytes(secret_length),
                algorithms: u8::from(!rng.one_in(10)),
                formats: rng.byte() | rng.pick(&[0, 1, 1, 0x0F, 0xFF]),
            });
        }
    }
    keys
}

/// An id: letters mostly; at times UTF-8 of all sizes, no UTF-8 at all, or the prefix of another.
fn id(rng: &mut Rng, others: &[Key]) -> Vec<u8> {
    let length = rng.pick(&[1, 1, 2, 3, 8, 20, 63, 64]);
    match rng.below(12) {
        0 => rng.bytes(length),
        1 => "\u{E9}\u{20AC}\u{1D11E}\"\\/\u{FEFF}"
            .chars()
            .skip(rng.below(6))
            .collect::<String>()
            .into_bytes(),
        2 if !others.is_empty() => {
            let other = &others[rng.below(others.len())].id;
            other[..other.len().div_ceil(2)].to_vec()
        }
        _ => (0..length).map(|_| b'a' + rng.below(26) as u8).collect(),
    }
}

/// The areas one after another, in the order of the keys or another, a secret at times shared.
fn lay_out(rng: &mut Rng, keys: &[Key]) -> Vec<u8> {
    let first = 8 + 12 * keys.len();
    let mut areas: Vec<u8> = Vec::new();
    let mut rows: Vec<u8> = Vec::new();
    let mut order: Vec<usize> = (0..keys.len()).collect();
    let shuffled = rng.one_in(3);
    if shuffled {
        rng.shuffle(&mut order);
    }
    let mut places = vec![(0, 0); keys.len()];
    let shared = rng.one_in(6);
    let mut last_secret = None;
    for i in order {
        let id_at = first + areas.len();
        areas.extend(&keys[i].id);
        let secret_at = match last_secret {
            Some(at) if shared => at,
            _ => {
                let at = first + areas.len();
                areas.extend(&keys[i].secret);
                at
            }
        };
        if shared && last_secret.is_none() {
            last_secret = Some(secret_at);
        }
        places[i] = (id_at, secret_at);
    }
    // A shared secret is taken at the length that fits behind it.
    let total = first + areas.len();
    for (key, &(id_at, secret_at)) in keys.iter().zip(&places) {
        let secret_length = key.secret.len().min(total - secret_at);
        rows.extend((id_at as u16).to_be_bytes());
        rows.extend((key.id.len() as u16).to_be_bytes());
        rows.extend((secret_at as u16).to_be_bytes());
        rows.extend((secret_length as u16).to_be_bytes());
        rows.extend([key.algorithms, key.formats, 0, 0]);
    }
    let mut table = vec![0, 1];
    table.extend((keys.len() as u16).to_be_bytes());
    table.extend((total as u32).to_be_bytes());
    table.extend(rows);
    table.extend(areas);
    table
}

/// The table of one key in 52 to 60 bytes, its id inside its secret.
fn id_inside_secret(rng: &mut Rng) -> Vec<u8> {
    let secret_length = rng.within(32..=40);
    let id_length = rng.within(1..=8);
    let id_at = 20 + rng.below(secret_length - id_length + 1);
    let mut table = vec![0, 1, 0, 1, 0, 0, 0, 20 + secret_length as u8];
    table.extend([
        0,
        id_at as u8,
        0,
        id_length as u8,
        0,
        20,
        0,
        secret_length as u8,
        1,
        0xFF,
        0,
        0,
    ]);
    table.extend((0..secret_length).map(|_| b'a' + rng.below(26) as u8));
    table
}

/// Puts bytes in no area at the end, up to `length`, and keeps the total right.
fn grow(rng: &mut Rng, table: &mut Vec<u8>, length: usize) {
    let spare = rng.bytes(length.saturating_sub(table.len()));
    table.extend(spare);
    set_total(table);
}

fn set_total(table: &mut [u8]) {
    let total = table.len() as u32;
    if let Some(field) = table.get_mut(4..8) {
        field.copy_from_slice(&total.to_be_bytes());
    }
}

/// Adds a number between -2 and 2, or a big one, to the big-endian number of two bytes at `at`.
fn nudge(rng: &mut Rng, table: &mut [u8], at: usize) {
    if let Some(&[high, low]) = table.get(at..at + 2) {
        let old = u16::from_be_bytes([high, low]);
        let new = match rng.below(6) {
            0 => old.wrapping_add(1),
            1 => old.wrapping_sub(1),
            2 => old.wrapping_add(2),
            3 => rng.pick(&[0, 1, 7, 8, 19, 20, 31, 32, 33, 64, 65, 128, 129, 8_191, 8_192, 65_535]),
            4 => table.len() as u16,
            _ => rng.number() as u16,
        };
        table[at..at + 2].copy_from_slice(&new.to_be_bytes());
    }
}

/// Damages a valid table; it may come out valid.
pub fn damage(rng: &mut Rng, table: &mut Vec<u8>) {
    let count = usize::from(table[3]);
    let entry = 8 + 12 * rng.below(count.max(1));
    match rng.below(17) {
        0 => nudge(rng, table, 0),
        1 => nudge(rng, table, 2),
        2 => {
            let half = rng.pick(&[4, 6]);
            nudge(rng, table, half);
        }
        3..=6 => {
            let field = 2 * rng.below(4);
            nudge(rng, table, entry + field);
        }
        7 => {
            if let Some(byte) = table.get_mut(entry + rng.within(8..=11)) {
                *byte ^= 1 << rng.below(8);
            }
        }
        8 => equal_ids(rng, table, count),
        9 => {
            let keys = keys(rng, 33);
            *table = lay_out(rng, &keys);
        }
        10 => {
            let length = rng.pick(&[0, 1, 7, 8, 9, 19, 20, 51, 52, 53]);
            table.resize(length, 0);
            if rng.one_in(2) {
                set_total(table);
            }
        }
        11 => {
            let length = rng.pick(&[TABLE_MAX - 1, TABLE_MAX, TABLE_MAX + 1, 9_000]);
            grow(rng, table, length);
        }
        12 => drop(table.pop()),
        13 => table.push(0),
        14 => {
            table.pop();
            set_total(table);
        }
        15 => {
            let mut keys = keys(rng, 2);
            let id_length = rng.pick(&[0, 1, 64, 65, 66]);
            let secret_length = rng.pick(&[0, 31, 32, 128, 129, 130]);
            if rng.one_in(2) {
                keys[0].id = vec![b'i'; id_length];
            } else {
                keys[1].secret = rng.bytes(secret_length);
            }
            *table = lay_out(rng, &keys);
        }
        _ => bytes::mutate_some(rng, table),
    }
}

/// Gives one key the id of another: the same bytes in another place, or the same place.
fn equal_ids(rng: &mut Rng, table: &mut Vec<u8>, count: usize) {
    if count < 2 {
        return;
    }
    let one = rng.below(count);
    let other = (one + rng.within(1..=count - 1)) % count;
    let (one, other) = (8 + 12 * one, 8 + 12 * other);
    let length = [table[one + 2], table[one + 3]];
    let mut place = [table[one], table[one + 1]];
    if rng.one_in(2) {
        let start = usize::from(u16::from_be_bytes(place));
        let id = table[start..start + usize::from(u16::from_be_bytes(length))].to_vec();
        place = (table.len() as u16).to_be_bytes();
        table.extend(id);
        set_total(table);
    }
    table[other..other + 2].copy_from_slice(&place);
    table[other + 2..other + 4].copy_from_slice(&length);
}
