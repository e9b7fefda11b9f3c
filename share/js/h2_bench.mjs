// h2_bench in JavaScript: what an HTTP/2 server must do with the octets of a client, and why. In Node 24 or later, or a browser; docs/EMBED.md has the calls.
//
//   import { readFileSync } from "node:fs";
//   import { load } from "./h2_bench.mjs";
//   const bench = await load(readFileSync("release/h2_bench.html", "utf8"));
//   const connection = bench.connection(["GET|/|200|6869"], { streams: 10 });
//   for (const item of connection.feed(octets)) console.log(item.item, item.words, item.error?.cause);
//
// The code is that of the page, which is proved; the page has these functions too, word for word (tools/page.py).

export const FAULTS = {
  1: "the memory did not suffice: this is some first part",
  2: "the text is too long to be given",
  12: "the answer has a status that no response can have",
  13: "the answer has a field that no response may have",
  14: "the answer has a body, which its status forbids",
  15: "the answer is too long, or there are more than 1000",
  16: "a limit or a setting of the server is out of its range",
  18: "a line of the script is bad",
  22: "the text is not UTF-8",
  25: "this is no hex text",
  26: "the line says no answer: METHOD|PATH|STATUS|BODYHEX is wanted",
};
export const KINDS = ["", "it has to be NAME FLAGS STREAM PAYLOAD, with one space between the parts", "there is no frame type of this name", "the flags have to be two hex digits", "the stream has to be a number up to 2147483647", "the payload has none of the forms", "the payload is too long for a frame"];
export async function inflate(text) {
  const packed = Uint8Array.from(atob(text), it => it.charCodeAt(0));
  return new Uint8Array(await new Response(new Blob([packed]).stream().pipeThrough(new DecompressionStream("gzip"))).arrayBuffer());
}
// The calls of the code, with memory for each.
export function engineOf(module) {
  const up = it => (it + 15) & ~15;
  // Each call has an instance of its own, so that the memory that it is given is given once.
  function call(name, scalars, slices, room, heapSize) {
    const { memory, __heap_base, ...calls } = new WebAssembly.Instance(module).exports;
    const base = up(Number(__heap_base.value ?? __heap_base));
    const end = base + 16, words = [BigInt(base), ...scalars];
    let top = base + 32;
    const places = slices.map(it => { const place = top; words.push(BigInt(place), BigInt(it.length)); top = up(top + it.length); return place; });
    const out = top, heap = up(out + room), all = heap + heapSize;
    words.push(BigInt(out), BigInt(room), BigInt(end));
    const pages = Math.ceil(all / 65536) - memory.buffer.byteLength / 65536;
    if (pages > 0) { try { memory.grow(BigInt(pages)); } catch (e) { if (!(e instanceof TypeError)) throw e; memory.grow(pages); } }
    const view = new DataView(memory.buffer);
    view.setBigUint64(base, BigInt(heap), true); // where the memory is that is given, and how much
    view.setBigUint64(base + 8, BigInt(heapSize), true);
    slices.forEach((it, n) => new Uint8Array(memory.buffer, places[n], it.length).set(it));
    const count = Number(calls[name](...words));
    return { octets: new Uint8Array(memory.buffer, out, count), fault: view.getUint8(end), kind: view.getUint8(end + 1), line: Number(view.getBigUint64(end + 8, true)) };
  }
  // With more memory, or more space for the text, where it did not suffice. What is given for an octet of input: the text of an explanation is some twenty times as long where frames are short.
  function ample(name, scalars, slices, roomEach = 8, heapEach = 40) {
    const length = slices.reduce((sum, it) => sum + it.length, 0);
    let room = up((4 << 20) + roomEach * length), heap = up((28 << 20) + heapEach * length), result;
    for (;;) {
      result = call(name, scalars, slices, room, heap);
      if (result.fault === 1) heap *= 4; else if (result.fault === 2) room *= 4; else return result;
      if (room + heap > 2e9) return result;
    }
  }
  const text = result => ({ ...result, text: new TextDecoder().decode(result.octets) });
  const numbers = config => [config.streams, config.credit, config.table, config.window, config.frame];
  const utf8 = it => new TextEncoder().encode(it);
  return {
    call, numbers,
    places: (config, answers, octets, first, last) => text(ample("places", [...numbers(config), BigInt(first), BigInt(last)], [utf8(answers), octets])),
    explanation: (config, answers, octets) => text(ample("explanation", [0, ...numbers(config)], [utf8(answers), octets], 24, 640)),
    json: (config, answers, octets) => text(ample("explanation", [1, ...numbers(config)], [utf8(answers), octets], 160, 640)),
    octetsOf: script => ample("octets_of", [], [utf8(script)]),
    scriptOf: octets => text(ample("script_of", [], [octets])),
  };
}

// ---- what others call

export const LIMITS = { streams: 100, credit: 32768, table: 4096, window: 65535, frame: 16384 };

// What the code refused: `number` is that of docs/FORMATS.md, `line` that of a script or of the answers which is bad, else 0.
export class Fault extends Error {
  constructor({ fault, kind, line }) {
    super(`fault ${fault}: ${fault === 18 ? KINDS[kind] : FAULTS[fault] ?? "the call failed"}${line ? `, line ${line}` : ""}`);
    this.number = fault;
    this.line = line;
  }
}

const given = result => { if (result.fault) throw new Fault(result); return result; };

// A connection is the octets so far: each call plays them from the first on, so feed what is there at once.
class Connection {
  #engine; #answers; #limits; #given = 0;
  octets = new Uint8Array(0);
  end = null; // what is after the last item, as the schema has it
  constructor(engine, answers, limits) {
    this.#engine = engine;
    this.#answers = answers.join("\n");
    this.#limits = { ...LIMITS, ...limits };
  }
  // Takes octets in any cut. Gives the items that are whole now and were not given before, as objects of docs/explain.schema.json; first item 0, the server's opening.
  feed(octets) {
    const all = new Uint8Array(this.octets.length + octets.length);
    all.set(this.octets);
    all.set(octets, this.octets.length);
    this.octets = all;
    const lines = given(this.#engine.json(this.#limits, this.#answers, all)).text.trimEnd().split("\n");
    this.end = JSON.parse(lines.pop()).end;
    const from = this.#given;
    this.#given = lines.length;
    return lines.slice(from).map(line => JSON.parse(line));
  }
  // The state after the octets so far, a line for each part, as docs/FORMATS.md has it.
  state() {
    const place = Math.max(this.#given - 1, 0);
    return given(this.#engine.places(this.#limits, this.#answers, this.octets, place, place)).text.split("\n").slice(2).join("\n");
  }
  explain() { return given(this.#engine.explanation(this.#limits, this.#answers, this.octets)).text; }
}

// The calls over the code: a WebAssembly.Module.
export function benchOf(module) {
  const engine = engineOf(module);
  return {
    engine,
    connection: (answers = [], limits = {}) => new Connection(engine, answers, limits),
    assemble: script => given(engine.octetsOf(script)).octets.slice(),
    disassemble: octets => given(engine.scriptOf(octets)).text,
    explain: (octets, answers = [], limits = {}) => given(engine.explanation({ ...LIMITS, ...limits }, answers.join("\n"), octets)).text,
  };
}

// The same over the code in the text of the page, release/h2_bench.html.
export const load = async page => benchOf(await WebAssembly.compile(await inflate(page.match(/const WASM = "([^"]*)"/)[1])));
