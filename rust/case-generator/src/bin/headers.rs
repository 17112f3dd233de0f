//! Prints headers and the reference's answers, one a line, for `tools/json_oracle.py --compare`:
//! `cargo run --release --bin headers -- SEED COUNT`.
//!
//! A line is the header in hexadecimal (`-` for no bytes) and the answer; after answer 0 a word for each member of the
//! top object, `kind:name start:name end:value start:value end`, and then the reading in one word.

use std::io::{self, BufWriter, Write};

use reference::json::{read, Member, Value};

fn main() -> io::Result<()> {
    let mut arguments = std::env::args().skip(1).map(|word| word.parse::<u64>());
    let (Some(Ok(seed)), Some(Ok(count))) = (arguments.next(), arguments.next()) else {
        eprintln!("usage: headers SEED COUNT");
        std::process::exit(2);
    };
    let mut out = BufWriter::new(io::stdout().lock());
    for header in case_generator::headers(seed).take(count as usize) {
        writeln!(out, "{} {}", hex_or_dash(&header), answer(&header))?;
    }
    out.flush()
}

fn answer(header: &[u8]) -> String {
    match read(header) {
        Err(number) => number.to_string(),
        Ok(members) => {
            let mut line = String::from("0");
            for member in &members {
                let words = member.words().map(|word| word.to_string());
                line += &format!(" {}", words.join(":"));
            }
            line + " " + &object(&members)
        }
    }
}

fn object(members: &[Member]) -> String {
    let written = |member: &Member| format!("{}={}", hex(member.name.as_bytes()), reading(&member.value));
    format!("{{{}}}", members.iter().map(written).collect::<Vec<_>>().join(","))
}

fn reading(value: &Value) -> String {
    match value {
        Value::String(text) => format!("\"{}\"", hex(text.as_bytes())),
        Value::Number(written) => written.to_string(),
        Value::True => "true".into(),
        Value::False => "false".into(),
        Value::Null => "null".into(),
        Value::Array(values) => format!("[{}]", values.iter().map(reading).collect::<Vec<_>>().join(",")),
        Value::Object(members) => object(members),
    }
}

fn hex(bytes: &[u8]) -> String {
    bytes.iter().map(|byte| format!("{byte:02x}")).collect()
}

fn hex_or_dash(bytes: &[u8]) -> String {
    if bytes.is_empty() {
        "-".into()
    } else {
        hex(bytes)
    }
}
