//! The key table of the specification ("Key table"): laying one out, and reading one so that a fault can be told in words.

use std::fmt;
use std::ops::Range;

use jws::Refusal;

use crate::encoding;

/// The only edition.
pub const EDITION: usize = 1;
/// Most keys of a table.
pub const KEYS_MAX: usize = 32;
/// Shortest table: its fixed part.
pub const TABLE_MIN: usize = 8;
/// Longest table.
pub const TABLE_MAX: usize = 8_192;
/// Bytes of an entry.
pub const ENTRY: usize = 12;
/// Shortest and longest id.
pub const ID: [usize; 2] = [1, 64];
/// Shortest and longest secret.
pub const SECRET: [usize; 2] = [32, 128];
/// The bit of HS256 in a key's algorithms.
pub const HS256: u8 = 1;

// The areas one after another never pass the longest table, so that nothing has to be shared.
const _: () = assert!(TABLE_MIN + KEYS_MAX * (ENTRY + ID[1] + SECRET[1]) <= TABLE_MAX);

/// A key.
#[derive(Clone, PartialEq, Eq)]
pub struct Key {
    /// Its name, 1 to 64 bytes.
    pub id: Vec<u8>,
    /// Its secret, 32 to 128 bytes.
    pub secret: Vec<u8>,
    /// Bit 0 is HS256.
    pub algorithms: u8,
    /// Bit f-1 is format f.
    pub formats: u8,
}

/// The secret isn't shown, and neither is the id: in its table it may share bytes with a secret.
impl fmt::Debug for Key {
    fn fmt(&self, f: &mut fmt::Formatter<'_>) -> fmt::Result {
        write!(
            f,
            "an id of {}, a secret of {} bytes, ",
            encoding::counted(self.id.len(), "byte"),
            self.secret.len()
        )?;
        write!(
            f,
            "algorithms {}, formats {}",
            self.algorithms_in_words(),
            self.formats_in_words()
        )
    }
}

impl Key {
    /// The algorithms in the writing of a keys file.
    pub fn algorithms_in_words(&self) -> &'static str {
        if self.algorithms & HS256 == 0 {
            "none"
        } else {
            "HS256"
        }
    }

    /// The formats in the writing of a keys file.
    pub fn formats_in_words(&self) -> String {
        let formats: Vec<String> = (1..=8)
            .filter(|format| self.formats >> (format - 1) & 1 != 0)
            .map(|format: u8| format.to_string())
            .collect();
        if formats.is_empty() {
            "none".into()
        } else {
            formats.join(",")
        }
    }
}

/// A key in a table, and where its areas lie.
#[derive(Clone, Debug, PartialEq, Eq)]
pub struct Placed {
    /// The key.
    pub key: Key,
    /// The id's bytes in the table.
    pub id_at: Range<usize>,
    /// The secret's bytes in the table.
    pub secret_at: Range<usize>,
}

/// Bytes that an id shares with a secret. An id isn't secret, so whoever gets a token that names it knows them.
#[derive(Clone, Debug, PartialEq, Eq)]
pub struct Shared {
    /// The key of the id, from 0.
    pub id_of: usize,
    /// The key of the secret, from 0.
    pub secret_of: usize,
    /// The bytes in the table.
    pub bytes: Range<usize>,
}

/// Each id and secret that share bytes, in the order of the ids and then of the secrets.
pub fn shared(keys: &[Placed]) -> Vec<Shared> {
    let mut found = Vec::new();
    for (id_of, Placed { id_at, .. }) in keys.iter().enumerate() {
        for (secret_of, Placed { secret_at, .. }) in keys.iter().enumerate() {
            found.extend(common(id_at, secret_at).map(|bytes| Shared {
                id_of,
                secret_of,
                bytes,
            }));
        }
    }
    found
}

/// The keys, from 0, whose ids aren't UTF-8. An id that has bytes of a secret isn't looked at: what is told may not depend on them.
pub fn not_utf8(keys: &[Placed]) -> Vec<usize> {
    let told = |placed: &Placed| within_secrets(&placed.id_at, keys).is_none();
    let is_text = |placed: &Placed| std::str::from_utf8(&placed.key.id).is_ok();
    let found = |&index: &usize| told(&keys[index]) && !is_text(&keys[index]);
    (0..keys.len()).filter(found).collect()
}

/// How an id lies to the secrets, in words; `None` if it lies apart from all.
pub fn within_secrets(id_at: &Range<usize>, keys: &[Placed]) -> Option<&'static str> {
    let is_secret = |byte: &usize| keys.iter().any(|other| other.secret_at.contains(byte));
    match id_at.clone().filter(is_secret).count() {
        0 => None,
        within if within == id_at.len() => Some("inside a secret"),
        _ => Some("partly inside a secret"),
    }
}

/// The bytes that two areas have in common.
fn common(one: &Range<usize>, other: &Range<usize>) -> Option<Range<usize>> {
    let both = one.start.max(other.start)..one.end.min(other.end);
    (!both.is_empty()).then_some(both)
}

/// The table of these keys, each key's id and secret one after the other. At most [`KEYS_MAX`] keys, of lengths that are allowed.
pub fn lay_out(keys: &[Key]) -> Vec<u8> {
    let mut at = TABLE_MIN + ENTRY * keys.len();
    let mut entries = Vec::new();
    let mut areas: Vec<u8> = Vec::new();
    for key in keys {
        for area in [&key.id, &key.secret] {
            entries.extend((at as u16).to_be_bytes());
            entries.extend((area.len() as u16).to_be_bytes());
            areas.extend(area);
            at += area.len();
        }
        entries.extend([key.algorithms, key.formats, 0, 0]);
    }
    let mut table = Vec::with_capacity(at);
    table.extend((EDITION as u16).to_be_bytes());
    table.extend((keys.len() as u16).to_be_bytes());
    table.extend((at as u32).to_be_bytes());
    table.extend(entries);
    table.extend(areas);
    table
}

/// A rule of the specification that a table breaks, and where.
#[derive(Clone, Debug, PartialEq, Eq)]
pub struct Fault {
    /// The entry, from 0, if it is about one.
    pub entry: Option<usize>,
    /// The bytes that break it.
    pub bytes: Range<usize>,
    /// What is there.
    pub found: String,
    /// The rule.
    pub rule: &'static str,
}

impl fmt::Display for Fault {
    fn fmt(&self, f: &mut fmt::Formatter<'_>) -> fmt::Result {
        if let Some(entry) = self.entry {
            write!(f, "entry {entry}, ")?;
        }
        write!(f, "{}: {} (rule: {})", places(&self.bytes), self.found, self.rule)
    }
}

/// Places in words: the first and the last byte.
pub fn places(bytes: &Range<usize>) -> String {
    match bytes.len() {
        0 | 1 => format!("byte {}", bytes.start),
        _ => format!("bytes {}-{}", bytes.start, bytes.end - 1),
    }
}

const LENGTH: &str = "a table has from 8 to 8,192 bytes";
const EDITION_RULE: &str = "bytes 0-1 are the edition, 1";
const COUNT: &str = "bytes 2-3 are the number of keys, 0 to 32";
const TOTAL: &str = "bytes 4-7 are the total length, equal to the table's";
const ENTRIES: &str = "an entry of 12 bytes for each key follows byte 7";
const ID_LENGTH: &str = "an id has 1 to 64 bytes";
const SECRET_LENGTH: &str = "a secret has 32 to 128 bytes";
const BEGIN: &str = "an id or a secret begins after the last entry";
const END: &str = "an id or a secret ends within the table";
const ALGORITHMS: &str = "bit 0 of the algorithms is HS256, the other bits are 0";
const ZEROS: &str = "the last two bytes of an entry are 0";
const TWICE: &str = "two ids are never equal byte for byte";

/// The keys of a table in order, or every fault that can be told: first those of its fixed part, and if there are none,
/// those of its entries, and if there are none, ids that are equal.
pub fn read(table: &[u8]) -> Result<Vec<Placed>, Vec<Fault>> {
    let count = fixed_part(table)?;
    let read: Vec<Result<Placed, Vec<Fault>>> = (0..count).map(|entry| key(table, count, entry)).collect();
    let faults: Vec<Fault> = read
        .iter()
        .filter_map(|key| key.as_ref().err())
        .flatten()
        .cloned()
        .collect();
    if !faults.is_empty() {
        return Err(faults);
    }
    let keys: Vec<Placed> = read.into_iter().flatten().collect();
    let twice = equal_ids(&keys);
    if twice.is_empty() {
        Ok(keys)
    } else {
        Err(twice)
    }
}

/// The number of keys.
fn fixed_part(table: &[u8]) -> Result<usize, Vec<Fault>> {
    let length = table.len();
    let fault = |bytes, found, rule| Fault {
        entry: None,
        bytes,
        found,
        rule,
    };
    if !(TABLE_MIN..=TABLE_MAX).contains(&length) {
        return Err(vec![fault(
            0..length,
            format!("the table has {}", encoding::counted(length, "byte")),
            LENGTH,
        )]);
    }
    let (edition, count, total) = (number(&table[0..2]), number(&table[2..4]), number(&table[4..8]));
    let mut faults = Vec::new();
    if edition != EDITION {
        faults.push(fault(0..2, format!("the edition is {edition}"), EDITION_RULE));
    }
    if count > KEYS_MAX {
        faults.push(fault(2..4, format!("the number of keys is {count}"), COUNT));
    }
    if total != length {
        faults.push(fault(
            4..8,
            format!("the total length is {total}, and the table has {length} bytes"),
            TOTAL,
        ));
    }
    let areas = TABLE_MIN + ENTRY * count;
    if count <= KEYS_MAX && areas > length {
        let found = format!(
            "{} would end at byte {}, and the table ends at byte {}",
            entries(count),
            areas - 1,
            length - 1
        );
        faults.push(fault(TABLE_MIN..areas, found, ENTRIES));
    }
    if faults.is_empty() {
        Ok(count)
    } else {
        Err(faults)
    }
}

fn entries(count: usize) -> String {
    format!("{count} {}", if count == 1 { "entry" } else { "entries" })
}

/// The bytes of an entry.
fn row_at(entry: usize) -> Range<usize> {
    let at = TABLE_MIN + ENTRY * entry;
    at..at + ENTRY
}

/// The fault of an entry that lies where an earlier one has its secret. If the number of keys is too high, these bytes are
/// that secret; so no number in them is told. A later entry's secret can't lie here, whatever the number of keys is.
fn secret_here(table: &[u8], entry: usize) -> Option<Fault> {
    (0..entry).find_map(|earlier| {
        let secret_at = area(&table[row_at(earlier)][4..8]);
        let bytes = common(&secret_at, &row_at(entry))?;
        let found = format!(
            "entry {earlier} has its secret here, so nothing in entry {entry} is told; look at the number of keys"
        );
        Some(Fault {
            entry: Some(entry),
            bytes,
            found,
            rule: BEGIN,
        })
    })
}

/// The key of one entry.
fn key(table: &[u8], count: usize, entry: usize) -> Result<Placed, Vec<Fault>> {
    if let Some(fault) = secret_here(table, entry) {
        return Err(vec![fault]);
    }
    let at = row_at(entry).start;
    let row = &table[row_at(entry)];
    let mut faults = Vec::new();
    let id_at = area(&row[0..4]);
    let secret_at = area(&row[4..8]);
    faults.extend(length_fault("id", at + 2, &id_at, ID, ID_LENGTH));
    faults.extend(place_faults("id", at, &id_at, table.len(), count));
    faults.extend(length_fault("secret", at + 6, &secret_at, SECRET, SECRET_LENGTH));
    faults.extend(place_faults("secret", at + 4, &secret_at, table.len(), count));
    if row[8] & !HS256 != 0 {
        faults.push((
            at + 8..at + 9,
            format!("the algorithms are {:08b} in binary", row[8]),
            ALGORITHMS,
        ));
    }
    if row[10..12] != [0, 0] {
        let found = format!("they are {:02X} {:02X} hexadecimal", row[10], row[11]);
        faults.push((at + 10..at + 12, found, ZEROS));
    }
    if !faults.is_empty() {
        let named = |(bytes, found, rule)| Fault {
            entry: Some(entry),
            bytes,
            found,
            rule,
        };
        return Err(faults.into_iter().map(named).collect());
    }
    let key = Key {
        id: table[id_at.clone()].to_vec(),
        secret: table[secret_at.clone()].to_vec(),
        algorithms: row[8],
        formats: row[9],
    };
    Ok(Placed { key, id_at, secret_at })
}

/// Bytes of the table, what is there, the rule.
type Found = (Range<usize>, String, &'static str);

/// The area of an offset and a length.
fn area(words: &[u8]) -> Range<usize> {
    let start = number(&words[0..2]);
    start..start + number(&words[2..4])
}

/// The fault of an area's length, whose field is at `field`.
fn length_fault(
    what: &str,
    field: usize,
    area: &Range<usize>,
    [min, max]: [usize; 2],
    rule: &'static str,
) -> Option<Found> {
    let length = area.len();
    let found = || format!("the {what}'s length is {length}");
    (!(min..=max).contains(&length)).then(|| (field..field + 2, found(), rule))
}

/// The faults of an area's place, whose offset's field is at `field`.
fn place_faults(what: &str, field: usize, area: &Range<usize>, length: usize, count: usize) -> Vec<Found> {
    let mut faults = Vec::new();
    let first = TABLE_MIN + ENTRY * count;
    if area.start < first {
        let found = format!(
            "the {what} begins at byte {}, and the entries end at byte {}",
            area.start,
            first - 1
        );
        faults.push((field..field + 2, found, BEGIN));
    }
    if area.end > length {
        let found = format!(
            "the {what} of {} from byte {} ends after the table's last byte, {}",
            encoding::counted(area.len(), "byte"),
            area.start,
            length - 1
        );
        faults.push((field..field + 4, found, END));
    }
    faults
}

/// Each key whose id an earlier key has.
fn equal_ids(keys: &[Placed]) -> Vec<Fault> {
    let mut faults = Vec::new();
    for (entry, placed) in keys.iter().enumerate() {
        let id = &placed.key.id;
        if let Some(earlier) = keys[..entry].iter().position(|earlier| earlier.key.id == *id) {
            let at = places(&keys[earlier].id_at);
            let found = format!("{} is also the id of entry {earlier} ({at})", told_id(id, keys));
            let bytes = placed.id_at.clone();
            faults.push(Fault {
                entry: Some(entry),
                bytes,
                found,
                rule: TWICE,
            });
        }
    }
    faults
}

/// An id in words; it isn't shown if it or an equal one shares bytes with a secret.
fn told_id(id: &[u8], keys: &[Placed]) -> String {
    let kept = |key: &Placed| key.key.id == id && within_secrets(&key.id_at, keys).is_some();
    if keys.iter().any(kept) {
        let length = encoding::counted(id.len(), "byte");
        format!("the id of {length} (not shown, as it has bytes of a secret)")
    } else {
        format!("the id {}", encoding::id(id))
    }
}

/// A big-endian number of at most four bytes.
fn number(bytes: &[u8]) -> usize {
    bytes.iter().fold(0, |number, &byte| number << 8 | usize::from(byte))
}

/// What is said of a table.
#[derive(Clone, Debug, PartialEq, Eq)]
pub enum Verdict {
    /// The proved library takes it; its keys.
    Good(Vec<Placed>),
    /// The proved library refuses it; why.
    Bad(Vec<Fault>),
    /// The reader of this module and the proved library differ, which is a mistake in this module; in words.
    Differs(String),
}

/// Reads a table and asks the proved library about it.
pub fn judge(table: &[u8]) -> Verdict {
    verdict(read(table), is_taken(table))
}

/// Whether the proved library takes a table: signing an empty header is refused with 2 exactly if the table is bad,
/// otherwise with 7.
pub fn is_taken(table: &[u8]) -> bool {
    jws::sign(b"", b"", table, &mut []) != Err(Refusal::BadTable)
}

fn verdict(read: Result<Vec<Placed>, Vec<Fault>>, taken: bool) -> Verdict {
    match (read, taken) {
        (Ok(keys), true) => Verdict::Good(keys),
        (Err(faults), false) => Verdict::Bad(faults),
        (Ok(_), false) => Verdict::Differs("the proved library refuses this table, and no fault is found in it".into()),
        (Err(faults), true) => {
            let faults: Vec<String> = faults.iter().map(Fault::to_string).collect();
            Verdict::Differs(format!(
                "the proved library takes this table, but: {}",
                faults.join("; ")
            ))
        }
    }
}

#[cfg(test)]
mod tests {
    use super::*;

    #[test]
    fn differing_verdicts_are_told() {
        let fault = Fault {
            entry: Some(1),
            bytes: 22..24,
            found: "x".into(),
            rule: "y",
        };
        assert_eq!(verdict(Ok(vec![]), true), Verdict::Good(vec![]));
        assert_eq!(
            verdict(Err(vec![fault.clone()]), false),
            Verdict::Bad(vec![fault.clone()])
        );
        assert!(matches!(verdict(Ok(vec![]), false), Verdict::Differs(says) if says.contains("refuses this table")));
        assert!(
            matches!(verdict(Err(vec![fault]), true), Verdict::Differs(says) if says.contains("entry 1, bytes 22-23"))
        );
    }

    #[test]
    fn generated_tables_as_the_library_and_the_reference_have_them() {
        let (mut good, mut bad) = (0, 0);
        for table in case_generator::tables(52).take(20_000) {
            let expected = reference::table::parse(&table);
            match judge(&table) {
                Verdict::Good(keys) => {
                    let expected = expected.unwrap();
                    assert_eq!(keys.len(), expected.len());
                    for (placed, key) in keys.iter().zip(&expected) {
                        assert_eq!((&placed.key.id[..], &placed.key.secret[..]), (key.id, key.secret));
                        assert_eq!(placed.key.algorithms == HS256, key.allows_hs256());
                        let formats = (1..=8)
                            .filter(|&f| key.allows_format(f))
                            .fold(0, |bits, f| bits | 1 << (f - 1));
                        assert_eq!(placed.key.formats, formats);
                    }
                    good += 1;
                }
                Verdict::Bad(faults) => {
                    assert!(expected.is_err() && !faults.is_empty());
                    bad += 1;
                }
                Verdict::Differs(says) => panic!("{says}: {table:?}"),
            }
        }
        assert!(good > 5_000 && bad > 2_000, "{good} {bad}");
    }

    #[test]
    fn secrets_stay_out_of_debug_output() {
        let key = Key {
            id: b"a".into(),
            secret: b"0123456789abcdef0123456789abcdef".into(),
            algorithms: 1,
            formats: 3,
        };
        assert_eq!(
            format!("{key:?}"),
            "an id of 1 byte, a secret of 32 bytes, algorithms HS256, formats 1,2"
        );
    }
}
