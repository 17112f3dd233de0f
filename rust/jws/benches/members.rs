//! Times the proved member reader beside the reference's, both in one run; then searches a family of headers for
//! those that take the proved reader longest. `cargo bench -p jws`.
//!
//! Under `cargo test` nothing is timed: the answers to these headers are compared.

mod shapes;

use std::hint::black_box;

use shapes::MEMBERS;
use stopwatch::{least, least_of_both, report};

/// The most that member 0 of the plain header may take, in times of the reference; and the slowest header, in times of that.
const MOST_OF_REFERENCE: f64 = 1.5;
const MOST_OF_PLAIN: f64 = 60.0;

const ROUNDS: usize = 1_000;
/// Rounds of every shape, and then of those that were slowest by them.
const SEARCH_ROUNDS: usize = 3;
const AGAIN_ROUNDS: usize = 50;
const AGAIN: usize = 100;
const SHOWN: usize = 10;

/// Member `k`'s words, or the refusal's number.
type Answer = Result<[u64; 5], u8>;

fn proved(header: &[u8], k: usize) -> Answer {
    let member = jws::member(black_box(header), k).map_err(|refusal| refusal.number())?;
    let places = [member.name.start, member.name.end, member.value.start, member.value.end];
    let [a, b, c, d] = places.map(|place| place as u64);
    Ok([member.kind.number(), a, b, c, d])
}

fn reference(header: &[u8], k: usize) -> Answer {
    reference::json::member(black_box(header), k).map(|member| member.words())
}

fn main() {
    if std::env::args().any(|word| word == "--bench") {
        let plain = beside_reference();
        let slowest = longest();
        assert!(
            plain <= MOST_OF_REFERENCE && slowest <= MOST_OF_PLAIN,
            "more than {MOST_OF_REFERENCE} times the reference, or than {MOST_OF_PLAIN} times the plain header"
        );
    } else {
        compare();
    }
}

/// Both readers answer alike, and the family has headers of every sort: read, not derived, and with a name twice.
fn compare() {
    let shapes = shapes::all();
    let mut answers = [0; 17];
    for (label, header) in &shapes {
        for k in [0, 63, 64, usize::MAX] {
            assert_eq!(proved(header, k), reference(header, k), "member {k}, {label}");
        }
        answers[usize::from(proved(header, 0).err().unwrap_or(0))] += 1;
    }
    println!("{} headers answered alike: {answers:?}", shapes.len());
    assert!(answers[0] >= 5_000 && answers[7] >= 200 && answers[8] >= 200);
}

/// Times the usual headers, and gives the ratio for member 0 of the first.
fn beside_reference() -> f64 {
    let mut ratios = Vec::new();
    for (header, names) in [
        (shapes::plain(), "names that differ early"),
        (shapes::alike(), "names alike but for the end"),
        (shapes::escaped(), "names and texts by escapes"),
    ] {
        println!("a header of {} bytes with {MEMBERS} members, {names}:", header.len());
        for members in [0..1, MEMBERS - 1..MEMBERS, 0..MEMBERS] {
            let walk = |read: fn(&[u8], usize) -> Answer| assert!(members.clone().all(|k| read(&header, k).is_ok()));
            let both = least_of_both(ROUNDS / members.len(), || walk(proved), || walk(reference));
            let name = match members.len() {
                1 => format!("  member {}", members.start),
                count => format!("  all {count}, one by one"),
            };
            report(&name, both);
            ratios.push(both.0 / both.1);
        }
    }
    println!(
        "member 0 of the first: {:.2} times the reference, at most {MOST_OF_REFERENCE}",
        ratios[0]
    );
    ratios[0]
}

/// Times all shapes, shows the slowest, and gives how many times member 0 of the plain header the first of them takes.
fn longest() -> f64 {
    let plain = shapes::plain();
    let unit = least(ROUNDS, || proved(&plain, 0));
    // Past the last member: the header is read and walked whole.
    let past = usize::MAX;
    let shapes = shapes::all();
    let mut times: Vec<(f64, usize)> = (0..shapes.len())
        .map(|i| (least(SEARCH_ROUNDS, || proved(&shapes[i].1, past)), i))
        .collect();
    times.sort_by(|a, b| b.0.total_cmp(&a.0));
    let collide = |(_, i): &&(f64, usize)| shapes[*i].0.contains(shapes::COLLIDING);
    let colliding = times.iter().find(collide).copied();
    times.truncate(AGAIN);
    for (time, i) in &mut times {
        *time = least(AGAIN_ROUNDS, || proved(&shapes[*i].1, past));
    }
    times.sort_by(|a, b| b.0.total_cmp(&a.0));
    let (time, slowest) = (times[0].0, times[0].0 / unit);
    println!("the slowest of {} headers: {}", shapes.len(), shapes[times[0].1].0);
    println!(
        "  {time:.0} ns, {slowest:.1} times member 0 of the first header above ({unit:.0} ns), at most {MOST_OF_PLAIN}"
    );
    let (time, i) = colliding.expect("names of one fingerprint");
    println!(
        "  {:.1} times: the slowest of those with {}: {}",
        time / unit,
        shapes::COLLIDING,
        shapes[i].0
    );
    println!("the {SHOWN} slowest:");
    for (time, i) in times.iter().take(SHOWN) {
        let (label, header) = &shapes[*i];
        let theirs = least(AGAIN_ROUNDS, || reference(header, past));
        println!(
            "  {:.1} times: {time:.0} ns (Rust {theirs:.0} ns), {} bytes: {label}",
            time / unit,
            header.len()
        );
    }
    slowest
}
