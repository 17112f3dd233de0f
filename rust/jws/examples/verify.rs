//! Verifies the payload of RFC 7515 A.1 under a header that names its key, prints what the token holds, and signs it again.

use std::error::Error;

use jws::{HEADER_MAX, PAYLOAD_MAX, TOKEN_MAX};

const TABLE: &[u8] = include_bytes!("../../../crates/verify_token/data/table.bin");
const TOKEN: &[u8] = include_bytes!("../../../crates/verify_token/data/token.txt");

fn main() -> Result<(), Box<dyn Error>> {
    let mut header = [0; HEADER_MAX];
    let mut buffer = [0; PAYLOAD_MAX];
    let record = jws::verify(TOKEN, TABLE, &mut header, &mut buffer)?;
    let payload = record.payload(&buffer);
    println!("answer: 0");
    println!("key: {}", record.key_index);
    println!("format: {}", record.format);
    let typ = record.typ.clone().map_or(&[][..], |place| &header[place]);
    println!("typ: {}", std::str::from_utf8(typ)?);
    println!("payload: {}", std::str::from_utf8(payload)?);

    let mut again = [0; TOKEN_MAX];
    let length = jws::sign(&header[..record.header_length], payload, TABLE, &mut again)?;
    if again[..length] != *TOKEN {
        return Err("signed again: other bytes".into());
    }
    println!("signed again: the same {length} bytes");
    Ok(())
}
