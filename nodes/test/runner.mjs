// Runs the calls of calls.bin by jws.wasm, as runner.c does by an archive: node runner.mjs JWS.WASM [ROUNDS]
//
// Writes outcomes.bin, and figures.bin with the least time of ROUNDS rounds in nanoseconds and the stack of each call, after a line of zeros
// where runner.c has a loop's.
import { closeSync, openSync, readFileSync, writeSync } from "node:fs";

const GUARD = 16, GUARD_WORDS = 2, GARBAGE = 0xa5, WORDS_MAX = 9;
const ARENA = 32768 + 8192 + 4096 + 24576 + 8192; // as runner.c has it
const [, , file, rounds = "1"] = process.argv;
const { exports: jws } = new WebAssembly.Instance(new WebAssembly.Module(readFileSync(file)), {});

// After the module's stack: the words, then the arena, which begins at a multiple of 16.
const WORDS = (jws.__heap_base.value + 15) & ~15;
const AREAS_AT = (WORDS + 8 * (WORDS_MAX + 2 * GUARD_WORDS) + 15) & ~15;
const missing = AREAS_AT + ARENA - jws.memory.buffer.byteLength;
if (missing > 0) jws.memory.grow(Math.ceil(missing / 65536));
const memory = new Uint8Array(jws.memory.buffer);
const STACK = jws.__stack_pointer.value;

const calls = readFileSync("calls.bin");
const INPUTS = [0, 2, 3, 1, 0, 0];
const WORD_COUNT = [0, 9, 1, 5, 0, 0];

// The call that stands at a place of the file.
function callAt(at) {
  const kind = calls.readUInt32LE(at);
  const lengths = [8, 12, 16, 20].map((field) => calls.readUInt32LE(at + field));
  const read = kind === 4 ? 72 : lengths.slice(0, INPUTS[kind]).reduce((sum, length) => sum + length, 0);
  return { kind, shift: calls.readUInt32LE(at + 4), lengths, k: calls.readBigUInt64LE(at + 24), bytes: calls.subarray(at + 32, at + 32 + read) };
}

// Lays a call out; gives the places of its areas and the arena's end.
function layOut({ kind, shift, lengths, k, bytes }) {
  const end = AREAS_AT + shift + lengths.reduce((sum, length) => sum + GUARD + length, GUARD);
  if (kind > 5 || end > AREAS_AT + ARENA) throw new Error("a call that doesn't fit");
  memory.fill(GARBAGE, WORDS, end);
  let at = AREAS_AT + shift, from = 0;
  const areas = lengths.map((length, i) => {
    at += GUARD;
    const start = at;
    if (i < INPUTS[kind]) memory.set(bytes.subarray(from, (from += length)), start);
    at += length;
    return k === 1n && kind <= 2 && length === 0 ? 0 : start;
  });
  if (kind === 4) memory.set(bytes, WORDS + 8 * GUARD_WORDS);
  return { areas, end };
}

function make({ kind, lengths, k }, areas) {
  const [a, b, c, d] = areas;
  const [m, n, o, p] = lengths.map(BigInt);
  const words = WORDS + 8 * GUARD_WORDS;
  switch (kind) {
    case 1: return jws.jws_verify(a, m, b, n, c, o, d, p, words);
    case 2: return jws.jws_sign(a, m, b, n, c, o, d, p, words);
    case 3: return jws.jws_member(a, m, k, words);
    case 4: return jws.jws_payload(words, k);
    default: return jws.jws_boundary();
  }
}

const outcomes = openSync("outcomes.bin", "w"), figures = openSync("figures.bin", "w");
const word = (value) => {
  const bytes = Buffer.alloc(8);
  bytes.writeBigUInt64LE(BigInt.asUintN(64, BigInt(value)));
  return bytes;
};
writeSync(figures, Buffer.alloc(16));
for (let at = 0; calls.readUInt32LE(at) !== 0; ) {
  const call = callAt(at);
  let least = 1n << 62n, answer, areas, end;
  for (let round = 0; round < Number(rounds); round++) {
    ({ areas, end } = layOut(call));
    memory.fill(GARBAGE, 0, STACK);
    const began = process.hrtime.bigint();
    answer = make(call, areas);
    const took = process.hrtime.bigint() - began;
    if (took < least) least = took;
  }
  let low = 0;
  while (low < STACK && memory[low] === GARBAGE) low++;
  writeSync(figures, Buffer.concat([word(least), word(STACK - low)]));
  writeSync(outcomes, word(answer));
  if (call.kind <= 3) {
    writeSync(outcomes, memory.subarray(WORDS, WORDS + 8 * (WORD_COUNT[call.kind] + 2 * GUARD_WORDS)));
    writeSync(outcomes, memory.subarray(AREAS_AT, end));
  }
  at += 32 + call.bytes.length;
}
closeSync(outcomes);
closeSync(figures);
