// The schedule of a number, as docs/formats.md says: the events that `bulk` runs, written as lines.

const MASK = (1n << 64n) - 1n;
const MULTIPLIER = 6364136223846793005n;

/** The 32-bit words of the generator PCG32, seeded by a number as the crate `rand_pcg` does. */
function* wordsOf(number) {
  const output = (state) => {
    const mixed = Number((((state >> 18n) ^ state) >> 27n) & 0xffffffffn);
    const turn = Number(state >> 59n);
    return ((mixed >>> turn) | (mixed << (-turn & 31))) >>> 0;
  };
  let expand = number;
  const seed = [];
  for (let i = 0; i < 4; i++) {
    expand = (expand * MULTIPLIER + 11634580027462260723n) & MASK;
    seed.push(BigInt(output(expand)));
  }
  const increment = (seed[2] | (seed[3] << 32n)) | 1n;
  const step = (state) => (state * MULTIPLIER + increment) & MASK;
  let state = step(((seed[0] | (seed[1] << 32n)) + increment) & MASK);
  for (;;) {
    yield output(state);
    state = step(state);
  }
}

const hex = (byte) => byte.toString(16).padStart(2, "0");
const byteAt = (word, at) => hex((word >>> (8 * at)) & 255);

function lineOf(word) {
  const rest = word % 64;
  const place = `${(word >>> 8) % 7} ${hex(1 << ((word >>> 16) % 8))}`;
  const bit = (word >>> 8) & 1;
  if (rest < 22) return "ds -1";
  if (rest < 44) return "dm -1";
  if (rest < 48) return "tm";
  if (rest < 52) return "ts";
  if (rest < 54) return rest === 52 ? "ds -2" : "dm -2";
  if (rest < 56) return `${rest === 54 ? "as" : "am"} -1 ${place}`;
  if (rest < 60) return `${rest < 58 ? "pm" : "ps"} ${byteAt(word, 1)}${byteAt(word, 2)}`;
  if (rest < 62) return `${rest === 60 ? "hm" : "hs"} ${bit}`;
  if (rest === 62) return `nm ${word >>> 16}`;
  return bit ? "zs" : "zm";
}

/** The pair file with the first events of a number's schedule. */
export function scheduleOf(number, events) {
  const lines = ["fsoe 1 pair", "lengths 2 2", "master 1 2 100 1", "slave 2 100 1000 2", "rule any 0", "go"];
  const words = wordsOf(BigInt(number));
  const inTurn = BigInt(number) === 0n ? events : 4;
  for (let i = 0; i < events; i++) {
    if (i >= inTurn) lines.push(lineOf(words.next().value));
    else lines.push(i === 0 ? "tm" : i % 2 ? "ds -1" : "dm -1");
  }
  return `${lines.join("\n")}\nend\n`;
}
