//! The generator reaches every answer, often enough to compare implementations by.

use reference::answer::{NOT_DERIVED, NO_KEY};
use reference::json::{member, read};
use reference::limits::{DEPTH_MAX, HEADER_MAX, KEYS_MAX, TABLE_MAX, TOKEN_MAX};
use reference::rules::choose;
use reference::token::{sign, token_len, verify};
use reference::{base64url, table};

const SEED: u64 = 20_240_607;

/// How often each answer comes.
fn tally(answers: impl Iterator<Item = u8>) -> [usize; 17] {
    let mut tally = [0; 17];
    answers.for_each(|answer| tally[usize::from(answer)] += 1);
    tally
}

#[test]
fn every_answer_of_verifying() {
    let answer = |case: case_generator::VerifyCase| {
        let mut header = vec![0xAA; case.header_len];
        let mut payload = vec![0xBB; case.payload_len];
        let (answer, record) = verify(&case.token, &case.table, &mut header, &mut payload);
        assert!(header[record.header_length..].iter().all(|&byte| byte == 0));
        assert!(payload[record.payload_length..].iter().all(|&byte| byte == 0));
        answer
    };
    let tally = tally(case_generator::verify_cases(SEED).take(20_000).map(answer));
    println!("verify: {tally:?}");
    for (number, &count) in tally.iter().enumerate().take(16) {
        assert!(count >= 50, "answer {number}: {count} times");
    }
    assert!(tally[0] >= 4_000);
}

#[test]
fn every_answer_of_signing() {
    let answer = |case: case_generator::SignCase| {
        let mut token = vec![0xCC; case.token_len];
        let (answer, length) = sign(&case.header, &case.payload, &case.table, &mut token);
        assert!(token[length..].iter().all(|&byte| byte == 0));
        answer
    };
    let tally = tally(case_generator::sign_cases(SEED).take(20_000).map(answer));
    println!("sign: {tally:?}");
    for (number, &count) in tally.iter().enumerate() {
        let possible = ![3, 4, 15, 16].contains(&number);
        assert_eq!(count >= 50, possible, "answer {number}: {count} times");
    }
    assert!(tally[0] >= 4_000);
}

/// Of the headers that are read and keep the rules up to the key's, one in 8 or so has no `kid`.
#[test]
fn headers_with_and_without_a_name() {
    let mut named = [0; 2];
    for case in case_generator::sign_cases(SEED).take(20_000) {
        let Ok(members) = read(&case.header) else { continue };
        // With no key at hand this is the answer where no rule before it is broken.
        if choose(&members, &[]) == Err(NO_KEY) {
            named[usize::from(members.iter().any(|member| member.name == "kid"))] += 1;
        }
    }
    println!("without kid, with kid: {named:?}");
    let [without, with] = named;
    assert!((5..=12).contains(&((without + with) / without)), "{named:?}");
}

#[test]
fn every_answer_and_kind_of_the_member_reader() {
    let mut kinds = [0; 8];
    let answer = |case: case_generator::MemberCase| match member(&case.header, case.k) {
        Ok(member) => {
            kinds[member.words()[0] as usize] += 1;
            0
        }
        Err(answer) => answer,
    };
    let tally = tally(case_generator::member_cases(SEED).take(20_000).map(answer));
    println!("member: {tally:?}, kinds: {kinds:?}");
    for number in [0, 5, 7, 8, 16] {
        assert!(tally[number] >= 200, "answer {number}: {} times", tally[number]);
    }
    for (kind, &count) in kinds.iter().enumerate().skip(1) {
        assert!(count >= 100, "kind {kind}: {count} times");
    }
}

/// Whether a header has a small letter, and whether it has a capital one, among the digits of its `\u` escapes.
fn cases_of_digits(header: &[u8]) -> [bool; 2] {
    let escapes = header.windows(6).filter(|part| {
        let digits = &part[2..];
        part.starts_with(b"\\u") && digits.iter().all(u8::is_ascii_hexdigit)
    });
    let digits: Vec<u8> = escapes.flat_map(|part| part[2..].to_vec()).collect();
    [
        digits.iter().any(u8::is_ascii_lowercase),
        digits.iter().any(u8::is_ascii_uppercase),
    ]
}

/// Many headers have escapes with small letters, with capital ones and with both, whether they are read or not.
#[test]
fn escapes_in_both_cases() {
    let mut tally = std::collections::BTreeMap::<(u8, [bool; 2]), usize>::new();
    for header in case_generator::headers(SEED).take(20_000) {
        let answer = read(&header).err().unwrap_or(0);
        *tally.entry((answer, cases_of_digits(&header))).or_default() += 1;
    }
    println!("answer, [small, capital]: {tally:?}");
    for (answer, least) in [(0, 500), (7, 200), (8, 50)] {
        for cases in [[true, false], [false, true], [true, true]] {
            let count = tally.get(&(answer, cases)).copied().unwrap_or(0);
            assert!(count >= least, "answer {answer}, {cases:?}: {count} times");
        }
    }
}

#[test]
fn headers_of_all_lengths_around_the_limit() {
    let mut lengths = [0; HEADER_MAX + 7];
    let (mut longest_read, mut most_members, mut bytes) = (0, 0, 0);
    for header in case_generator::headers(SEED).take(20_000) {
        lengths[header.len().min(HEADER_MAX + 6)] += 1;
        bytes += header.len();
        if let Ok(members) = read(&header) {
            longest_read += usize::from(header.len() == HEADER_MAX);
            most_members = most_members.max(members.len());
        }
    }
    let around = &lengths[HEADER_MAX - 6..];
    let mean = bytes / 20_000;
    println!("headers around the limit: {around:?}, {longest_read} of the longest read; {mean} bytes on average");
    println!("{most_members} members at most");
    assert!(around.iter().all(|&count| count > 20), "{around:?}");
    assert!(longest_read > 20);
    assert!(most_members >= 500);
    assert!(mean <= 700, "many cases take their time");
}

/// The places in a header at which something opens or closes, each with the depth that is reached there; what stands in strings doesn't count.
fn levels(header: &[u8]) -> Vec<(usize, usize)> {
    let (mut levels, mut depth, mut in_string, mut escaped) = (Vec::new(), 0_usize, false, false);
    for (at, byte) in header.iter().enumerate() {
        match byte {
            _ if escaped => escaped = false,
            b'\\' => escaped = in_string,
            b'"' => in_string = !in_string,
            b'{' | b'[' if !in_string => {
                depth += 1;
                levels.push((at, depth));
            }
            b'}' | b']' if !in_string => {
                levels.push((at, depth));
                depth = depth.saturating_sub(1);
            }
            _ => {}
        }
    }
    levels
}

/// The header with a number in the place of each array and object that is too deep.
fn made_shallow(header: &[u8]) -> Vec<u8> {
    let too_deep = |(_, depth): &&(usize, usize)| *depth == DEPTH_MAX + 1;
    let levels = levels(header);
    let ends: Vec<usize> = levels.iter().filter(too_deep).map(|&(at, _)| at).collect();
    let (mut shallow, mut at) = (Vec::new(), 0);
    for pair in ends.chunks_exact(2) {
        shallow.extend(&header[at..pair[0]]);
        shallow.push(b'0');
        at = pair[1] + 1;
    }
    shallow.extend(&header[at..]);
    shallow
}

/// Headers of the greatest depth are read, and others are refused for their depth alone.
#[test]
fn headers_of_all_depths_around_the_limit() {
    let (mut read_at, mut refused_at) = ([0; DEPTH_MAX + 3], [0; DEPTH_MAX + 3]);
    for header in case_generator::headers(SEED).take(20_000) {
        let depth = levels(&header).iter().map(|&(_, depth)| depth).max().unwrap_or(0);
        let tally = match read(&header) {
            Ok(_) => &mut read_at,
            Err(NOT_DERIVED) if read(&made_shallow(&header)).is_ok() => &mut refused_at,
            Err(_) => continue,
        };
        tally[depth.min(DEPTH_MAX + 2)] += 1;
    }
    println!("by depth: read {read_at:?}, refused for the depth {refused_at:?}");
    for depth in DEPTH_MAX - 1..=DEPTH_MAX + 1 {
        let often = [read_at[depth] >= 100, refused_at[depth] >= 100];
        assert_eq!(often, [depth <= DEPTH_MAX, depth > DEPTH_MAX], "depth {depth}");
    }
    assert_eq!(read_at[DEPTH_MAX + 1..], [0; 2]);
    assert_eq!(refused_at[..=DEPTH_MAX], [0; DEPTH_MAX + 1]);
}

#[test]
fn tables_good_and_bad() {
    let (mut good, mut bad) = (0, 0);
    let mut counts = [0; 33];
    let mut lengths = std::collections::BTreeMap::<usize, usize>::new();
    for bytes in case_generator::tables(SEED).take(20_000) {
        *lengths.entry(bytes.len()).or_default() += 1;
        match table::parse(&bytes) {
            Ok(keys) => {
                good += 1;
                counts[keys.len()] += 1;
            }
            Err(_) => bad += 1,
        }
    }
    println!("tables: {good} good, {bad} bad; by keys {counts:?}");
    assert!(good >= 10_000 && bad >= 3_000);
    for count in [0, 1, 2, 31, 32] {
        assert!(counts[count] >= 100, "{count} keys");
    }
    for length in [0, 7, 8, 52, 53, TABLE_MAX, TABLE_MAX + 1] {
        assert!(lengths.get(&length).is_some_and(|&count| count >= 20), "{length} bytes");
    }
}

#[test]
fn valid_tables_are_valid() {
    for case in 0..5_000 {
        let bytes = case_generator::table::valid(&mut case_generator::rng::Rng::of_case(SEED, case));
        assert!(table::parse(&bytes).is_ok(), "case {case}");
    }
    for count in 0..=KEYS_MAX {
        let bytes = case_generator::table::valid_of(&mut case_generator::rng::Rng::new(SEED), count);
        assert_eq!(table::parse(&bytes).map(|keys| keys.len()), Ok(count));
    }
}

#[test]
fn texts_good_and_bad() {
    let strict = |text: &Vec<u8>| base64url::decode(text).is_ok();
    let good = case_generator::base64url_texts(SEED)
        .take(20_000)
        .filter(strict)
        .count();
    println!("texts: {good} strict of 20000");
    assert!((8_000..=14_000).contains(&good));
}

#[test]
fn tokens_around_the_limit() {
    let cases: Vec<_> = case_generator::verify_cases(SEED)
        .take(20_000)
        .filter(|case| case.token.len().abs_diff(TOKEN_MAX) <= 2)
        .collect();
    for length in TOKEN_MAX - 2..=TOKEN_MAX + 2 {
        let of_length = cases.iter().filter(|case| case.token.len() == length);
        let answers = tally(of_length.map(|case| {
            let (mut header, mut payload) = (vec![0; case.header_len], vec![0; case.payload_len]);
            verify(&case.token, &case.table, &mut header, &mut payload).0
        }));
        println!("verify {length} bytes: {answers:?}");
        assert!(answers.iter().sum::<usize>() >= 10, "{length} bytes: {answers:?}");
        assert_eq!(answers[0] >= 3, length <= TOKEN_MAX, "{length} bytes: {answers:?}");
    }
}

/// Finished tokens on both sides of the limit that nothing else refuses.
#[test]
fn signed_tokens_around_the_limit() {
    let mut signed = [[0; 2]; 2];
    for case in case_generator::sign_cases(SEED).take(20_000) {
        let length = token_len(case.header.len(), case.payload.len());
        let answer = sign(&case.header, &case.payload, &case.table, &mut vec![0; case.token_len]).0;
        if length.abs_diff(TOKEN_MAX) <= 4 && answer <= 1 {
            signed[usize::from(length > TOKEN_MAX)][usize::from(answer)] += 1;
        }
    }
    println!("signed or refused with 1: {signed:?}");
    let [[short, never], [none, long]] = signed;
    assert!(short >= 20 && long >= 20 && never + none == 0, "{signed:?}");
}

#[test]
fn a_seed_always_gives_the_same() {
    let some = |seed| case_generator::verify_cases(seed).take(50).collect::<Vec<_>>();
    assert_eq!(some(SEED), some(SEED));
    assert_ne!(some(SEED), some(SEED + 1));
    assert_eq!(
        case_generator::headers(SEED).nth(17),
        case_generator::headers(SEED).skip(10).nth(7)
    );
}
