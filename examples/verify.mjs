// Verifies the payload of RFC 7515 A.1 under a header that names its key, by jws.wasm, prints what the token holds, and signs it again.
// After `make nodes`:
//
//     node examples/verify.mjs
//
// On a page the module comes by WebAssembly.instantiateStreaming(fetch("jws.wasm")); all else is the same. It imports nothing. Its memory
// holds its stack first and is free from __heap_base on; lengths are BigInts, as they are 64 bits wide.
import { readFileSync } from "node:fs";

const DONE = 0, BOUNDARY = 1, RECORD_WORDS = 9, HEADER_MAX = 4096, PAYLOAD_MAX = 24576, TOKEN_MAX = 32768, TABLE_MAX = 8192;
const HEADER_LENGTH = 0, PAYLOAD_LENGTH = 1, KEY_INDEX = 2, FORMAT = 4;

class Jws {
  constructor(module) {
    this.calls = new WebAssembly.Instance(module, {}).exports;
    if (this.calls.jws_boundary() !== BOUNDARY) throw new Error("jws.wasm is of another version");
    // Words at a multiple of 8, then the places of what is lent.
    this.words = (this.calls.__heap_base.value + 7) & ~7;
    let at = this.words + 8 * RECORD_WORDS;
    this.place = {};
    for (const [name, room] of [["token", TOKEN_MAX + 1], ["table", TABLE_MAX + 1], ["header", HEADER_MAX + 1], ["payload", PAYLOAD_MAX + 1]]) {
      this.place[name] = { at, room };
      at += room;
    }
    const pages = Math.ceil(at / 65536) - this.calls.memory.buffer.byteLength / 65536;
    if (pages > 0) this.calls.memory.grow(pages);
    this.end = at;
  }

  bytes(name, length) {
    return new Uint8Array(this.calls.memory.buffer, this.place[name].at, length);
  }

  // Lends bytes. What is longer than any that is accepted is lent cut, and still too long.
  lend(name, bytes) {
    const length = Math.min(bytes.length, this.place[name].room);
    this.bytes(name, length).set(bytes.subarray(0, length));
    return [this.place[name].at, BigInt(length)];
  }

  word(i) {
    return Number(new DataView(this.calls.memory.buffer).getBigUint64(this.words + 8 * i, true));
  }

  // Everything that a call left in the memory, the stack too: it may hold the MAC and the secret.
  clear() {
    new Uint8Array(this.calls.memory.buffer, 0, this.end).fill(0);
  }

  // A token's header, payload, key and format, or the refusal's number.
  verify(token, table) {
    const { header, payload } = this.place;
    const answer = this.calls.jws_verify(...this.lend("token", token), ...this.lend("table", table),
      header.at, BigInt(HEADER_MAX), payload.at, BigInt(PAYLOAD_MAX), this.words);
    const accepted = answer === DONE && {
      header: this.bytes("header", this.word(HEADER_LENGTH)).slice(),
      payload: this.bytes("payload", this.word(PAYLOAD_LENGTH)).slice(),
      key: this.word(KEY_INDEX),
      format: this.word(FORMAT),
    };
    this.clear();
    return accepted || { refused: answer };
  }

  // A token, or the refusal's number.
  sign(header, payload, table) {
    const { token } = this.place;
    const answer = this.calls.jws_sign(...this.lend("header", header), ...this.lend("payload", payload), ...this.lend("table", table),
      token.at, BigInt(TOKEN_MAX), this.words);
    const signed = answer === DONE && { token: this.bytes("token", this.word(0)).slice() };
    this.clear();
    return signed || { refused: answer };
  }
}

const file = (path) => new Uint8Array(readFileSync(new URL(path, import.meta.url)));
const jws = new Jws(new WebAssembly.Module(file("../target/nodes/jws.wasm")));
const token = file("../crates/verify_token/data/token.txt"), table = file("../crates/verify_token/data/table.bin");

const accepted = jws.verify(token, table);
if (accepted.refused) throw new Error(`refused ${accepted.refused}`);
console.log(`key ${accepted.key}, format ${accepted.format}: ${new TextDecoder().decode(accepted.payload)}`);

const again = jws.sign(accepted.header, accepted.payload, table);
if (again.refused || Buffer.compare(again.token, token) !== 0) throw new Error("signed again: other bytes");
console.log(`signed again: the same ${again.token.length} bytes`);

// The last character, k, becomes o, whose unused bits are 0 too.
token[token.length - 1] ^= 4;
const forged = jws.verify(token, table);
if (forged.refused !== 15) throw new Error("a forged token isn't refused with 15");
console.log("forged: refused 15");
