// The proved code as a WebAssembly module: a call over text in memory, and one that says what the module was made of.

const PAGE = 65536;
const WRITE = 7;
const BUILD = 136; // GP_BUILD_LENGTH
const ENDED = 16; // bytes of a gp_ended: the place, and how many bytes the report has

/** Why a module can't be run here, in words. */
export class NoEngine extends Error {}

/** Makes the module of these bytes ready. The answer's `run(text)` runs both ends over a pair file, as `replay` does, and `build` is the line that names
the sources and the toolchain. */
export async function engineOf(bytes) {
  let exports;
  try {
    ({
      instance: { exports },
    } = await WebAssembly.instantiate(bytes, {}));
  } catch (why) {
    throw new NoEngine(`This browser doesn't run 64-bit WebAssembly, as Chromium does from version 133 on and Firefox from 134 on: ${why.message}`);
  }
  const { memory, gp_replay, gp_replay_build } = exports;
  const base = memory.buffer.byteLength;
  let room = 16 * PAGE;

  function reserve(size) {
    const missing = base + size - memory.buffer.byteLength;
    if (missing > 0) memory.grow(BigInt(Math.ceil(missing / PAGE)));
  }

  function runOnce(text) {
    const report = base + ENDED + text.length;
    reserve(ENDED + text.length + room);
    new Uint8Array(memory.buffer, base + ENDED, text.length).set(text);
    const status = gp_replay(BigInt(base + ENDED), BigInt(text.length), BigInt(report), BigInt(room), BigInt(base));
    const ended = new DataView(memory.buffer, base, ENDED);
    const [place, size] = [0, 8].map((at) => Number(ended.getBigUint64(at, true)));
    return { status, place, report: new TextDecoder().decode(new Uint8Array(memory.buffer, report, size)) };
  }

  reserve(BUILD);
  if (gp_replay_build(BigInt(base), BigInt(BUILD))) throw new NoEngine("The module has another interface than this page.");

  return {
    build: new TextDecoder().decode(new Uint8Array(memory.buffer, base, BUILD)).trim(),

    /** The status and the place of the program, and the whole report. */
    run(text) {
      const bytes = new TextEncoder().encode(text);
      for (;;) {
        const ran = runOnce(bytes);
        if (ran.status !== WRITE) return ran;
        room *= 2;
      }
    },
  };
}
