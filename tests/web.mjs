// web.mjs PAGE PROGRAM [--inputs N] [--seconds N] [--chromium FILE] [--picture FILE]: the code in the page against the program, octet for octet; the last line is `N passed, M failed`.
// node --experimental-wasm-memory64 tests/web.mjs ..: Node 20 to 23 have 64-bit memory after that flag, later ones without it.
import { spawn, spawnSync } from "node:child_process";
import { mkdtempSync, readFileSync, readdirSync, rmSync, statSync, writeFileSync } from "node:fs";
import { tmpdir } from "node:os";
import { dirname, join, resolve } from "node:path";
import { fileURLToPath, pathToFileURL } from "node:url";
import { gunzipSync } from "node:zlib";
import { Fault, load } from "../share/js/h2_bench.mjs";

const top = dirname(dirname(fileURLToPath(import.meta.url)));
const [pageFile, programFile, ...words] = process.argv.slice(2);
const option = (name, other) => words.includes(name) ? words[words.indexOf(name) + 1] : other;
const program = resolve(programFile), page = readFileSync(pageFile, "utf8");
const began = Date.now();
let passed = 0, failed = 0;
function check(title, holds, found = "") {
  if (holds) passed++;
  else { failed++; console.log(`not well: ${title}${found ? `: ${String(found).slice(0, 300)}` : ""}`); }
}
function run(args, input) {
  const { stdout, status, error } = spawnSync(program, args, { input, maxBuffer: 1 << 30 });
  if (error && error.code !== "EPIPE") throw error; // a program may end before it reads all of its input
  return { text: stdout.toString("latin1"), status };
}

// The functions of the module that call the code, and that they are those of the page.
const bare = text => text.replace(/^export /gm, "");
const source = readFileSync(join(top, "share/js/h2_bench.mjs"), "utf8").split("// ---- what others call")[0];
check("the page has the functions of share/js", page.includes(bare(source.slice(source.indexOf("export "))).trimEnd()));
const stock = JSON.parse(gunzipSync(Buffer.from(page.match(/const STOCK = "([^"]*)"/)[1], "base64")));
const bench = await load(page), { engine } = bench;
const config = (more = {}) => ({ streams: 100, credit: 32768, table: 4096, window: 65535, frame: 16384, ...more });
const limitWords = it => Object.entries(it).flatMap(([name, value]) => [`--${name}`, String(value)]);
const hexOf = octets => Buffer.from(octets).toString("hex");
// A dump of octets: offsets of so many digits; where they are given, the text between these two.
const rowsOf = (octets, digits, before, behind) => Array.from({ length: Math.ceil(octets.length / 16) }, (_, n) => [16 * n, octets.subarray(16 * n, 16 * n + 16)])
  .map(([at, row]) => `${at.toString(16).padStart(digits, "0")}  ${hexOf(row).match(/../g).join(" ")}${behind === undefined ? "" : before + Array.from(row, it => it < 32 || it > 126 ? "." : String.fromCharCode(it)).join("") + behind}\n`).join("");
const latin = result => Buffer.from(result.octets).toString("latin1");
const ALL = 2n ** 63n;

// ---- what the page shows of octets is what the program prints
function samePlaces(title, octets, limits, answers) {
  const wanted = run(["play", "--each", ...limitWords(limits), ...answers], hexOf(octets)), found = engine.places(limits, answers.join("\n"), octets, 0, ALL);
  const fault = wanted.text.match(/^fault (\d+)$/m);
  check(`${title}: places`, fault ? found.fault === Number(fault[1]) && !found.octets.length : found.fault === 0 && latin(found) === wanted.text, `fault ${found.fault}`);
  return fault ? [] : wanted.text.split(/^(?=item \d+$)/m);
}
// Why each item was an error or was ignored, in the JSON: the first words of what `why` of `debug` says at each position, up to the name.
function sameWhys(title, octets, limits, answers, count) {
  const said = run(["debug", ...limitWords(limits), ...answers], `${hexOf(octets)}\n${"step 1\nwhy\n".repeat(count)}`).text, found = engine.json(limits, answers.join("\n"), octets);
  const why = ({ error, ignored }) => error ? `${error.scope} error ${error.code.name}: ${error.cause}` : ignored ? `ignored: ${ignored.reason}` : "no error";
  const items = found.text.trimEnd().split("\n").map(it => JSON.parse(it)).filter(it => it.item);
  check(`${title}: whys`, found.fault === 0 && items.map(it => `at ${it.item}\n${why(it)}\n`).join("") === said.replace(/, RFC .*\n.*$/gm, ""), `fault ${found.fault}`);
}
// The explanation, which `explain` prints.
function sameWords(title, octets, limits, answers) {
  const wanted = run(["explain", ...limitWords(limits), ...answers], hexOf(octets)).text, found = engine.explanation(limits, answers.join("\n"), octets);
  const fault = wanted.match(/^fault (\d+)$/m);
  check(`${title}: explanation`, fault ? found.fault === Number(fault[1]) && !found.octets.length : found.fault === 0 && latin(found) === wanted, `fault ${found.fault}`);
}
// The same as JSON, whole and with the verdict.
function sameJson(title, octets, limits, answers) {
  const wanted = run(["explain", "--json", "--full", "--strict", ...limitWords(limits), ...answers], hexOf(octets)).text, found = engine.json(limits, answers.join("\n"), octets);
  const fault = wanted.match(/^\{"fault":\{"number":(\d+)\}\}$/m);
  check(`${title}: JSON`, fault ? found.fault === Number(fault[1]) && !found.octets.length : found.fault === 0 && latin(found) === wanted, `fault ${found.fault}`);
}
// The module's calls: the items of octets in some cuts are those of the whole, and the state is that of `play`.
function sameCalls(title, octets, limits, answers) {
  const lines = run(["explain", "--json", "--full", "--strict", ...limitWords(limits), ...answers], hexOf(octets)).text.trimEnd().split("\n").map(it => JSON.parse(it));
  const connection = bench.connection(answers, limits), found = [], step = 1 + Math.ceil(octets.length / 4);
  if (lines[0].fault) {
    let thrown;
    try { connection.feed(octets); } catch (e) { thrown = e; }
    check(`${title}: a fault is thrown`, thrown instanceof Fault && thrown.number === lines[0].fault.number, thrown);
    return;
  }
  for (let at = 0; at === 0 || at < octets.length; at += step) found.push(...connection.feed(octets.subarray(at, at + step)));
  check(`${title}: items in cuts`, JSON.stringify([...found, { end: connection.end }]) === JSON.stringify(lines));
  check(`${title}: state`, connection.state() === run(["play", ...limitWords(limits), ...answers], hexOf(octets)).text.replace(/^.*\n/, ""));
}
function sameScript(title, octets) {
  const wanted = run(["dis"], hexOf(octets)), found = engine.scriptOf(octets);
  check(`${title}: script`, found.fault === 0 && latin(found) === wanted.text);
}
function sameOctets(title, script) {
  const wanted = run(["asm"], script), found = engine.octetsOf(script), bad = wanted.text.match(/^fault 18 (\d+) (\d+)$/m);
  check(`${title}: octets`, bad ? found.fault === 18 && found.line === Number(bad[1]) && found.kind === Number(bad[2]) : found.fault === 0 && `${hexOf(found.octets)}\n` === wanted.text, `fault ${found.fault}`);
  return found.fault ? new Uint8Array() : found.octets.slice();
}
// Some span of the places is those of the whole.
function sameSpan(title, octets, limits, answers, places, first, last) {
  const found = engine.places(limits, answers.join("\n"), octets, first, last);
  check(`${title}: places ${first} to ${last}`, found.fault === 0 && latin(found) === places.slice(first, last + 1).join(""));
}

const corpus = [];
for (const it of stock) {
  const limits = config(), answers = [];
  for (let n = 0; n < it.words.length; n++) { if (it.words[n].startsWith("--")) limits[it.words[n].slice(2)] = Number(it.words[++n]); else answers.push(it.words[n]); }
  const octets = sameOctets(it.name, it.script);
  if (octets.length) corpus.push({ octets, limits, answers, name: it.name });
  const places = samePlaces(it.name, octets, limits, answers);
  if (places.length) sameSpan(it.name, octets, limits, answers, places, places.length >> 1, places.length + 3);
  if (places.length) sameWhys(it.name, octets, limits, answers, places.length - 1);
  sameWords(it.name, octets, limits, answers);
  sameJson(it.name, octets, limits, answers);
  sameCalls(it.name, octets, limits, answers);
}
console.log(`${stock.length} examples, scripts of causes and cases`);

// ---- random octets and scripts, from what there is
let seed = 20260; // the same ones in each run
const random = most => (seed = Math.imul(seed ^ seed >>> 15, 2246822519) + 3266489917 >>> 0, (seed ^ seed >>> 13) >>> 0) % most;
const pick = list => list[random(list.length)];
function mutated() {
  let octets = Buffer.from(pick(corpus).octets);
  for (let n = random(5); n > 0; n--) {
    const place = random(octets.length + 1), other = pick(corpus).octets;
    switch (random(5)) {
      case 0: octets[place % octets.length] = random(256); break;
      case 1: octets = Buffer.concat([octets.subarray(0, place), octets.subarray(place + random(12))]); break;
      case 2: octets = Buffer.concat([octets, other.subarray(Math.min(24, other.length))]); break;
      case 3: octets = Buffer.concat([octets.subarray(0, place), Buffer.from([random(256), random(256)]), octets.subarray(place)]); break;
      default: if (octets.length > 33) octets[24 + random(octets.length - 24)] ^= 1 << random(8);
    }
    if (!octets.length) octets = Buffer.from([80]);
  }
  return new Uint8Array(octets);
}
const someAnswers = [[], ["GET|/|200|6869"], ["GET|/|200|6869", "POST|/upload|200|6f6b|server=x|early"], ["GET|/|2000|"], ["GET|/|200|6869", "GET|/a|204|61"], ["|"], ["GET|/|200||connection=close"]];
const inputs = Number(option("--inputs", 1000)), until = began + Number(option("--seconds", 3600)) * 1000;
let done = 0;
for (; done < inputs && Date.now() < until; done++) {
  const octets = mutated(), title = `random ${done}`;
  const limits = config(random(3) ? {} : { streams: random(4), credit: 1 + random(200), table: random(200), window: random(300), frame: 16384 + random(3) });
  const answers = pick(someAnswers), places = samePlaces(title, octets, limits, answers);
  sameWords(title, octets, limits, answers);
  if (done % 4 === 3 && places.length) sameWhys(title, octets, limits, answers, places.length - 1);
  if (done % 4 === 0) sameScript(title, octets);
  if (done % 4 === 1) sameCalls(title, octets, limits, answers);
  if (done % 4 === 2) sameJson(title, octets, limits, answers);
  if (done % 4 === 1) { const text = run(["dis"], hexOf(octets)).text.split(""); if (text.length) text[random(text.length)] = pick([" ", "x", "\n", "9", "\"", ",", "\u0001"]); sameOctets(title, text.join("")); }
  if (done % 4 === 2 && places.length) sameSpan(title, octets, limits, [], samePlaces(title, octets, limits, []), random(places.length + 2), random(places.length + 2));
}
console.log(`${done} random inputs${done < inputs ? `; ${inputs - done} were left out, for time` : ""}`);

// ---- too little memory: all of it or a first part, and fault 1; never a trap
{
  const it = corpus.find(it => it.name.startsWith("get")), wanted = run(["play", "--each", ...limitWords(it.limits), ...it.answers], hexOf(it.octets)).text, places = wanted.split(/^(?=item \d+$)/m);
  const parts = new Set(places.map((_, n) => places.slice(0, n).join(""))).add(wanted);
  const utf8 = text => new TextEncoder().encode(text), script = utf8(it.octets.length ? run(["dis"], hexOf(it.octets)).text : "");
  const explained = run(["explain", ...limitWords(it.limits), ...it.answers], hexOf(it.octets)).text;
  let whole = 0, told = 0;
  for (let size = 32; size <= 196608; size = size < 4096 ? size + 32 : size + 1024) {
    let places, octets, text, words;
    try {
      places = engine.call("places", [...engine.numbers(it.limits), 0n, ALL], [utf8(it.answers.join("\n")), it.octets], 65536, size);
      words = engine.call("explanation", [0, ...engine.numbers(it.limits)], [utf8(it.answers.join("\n")), it.octets], 65536, size);
      octets = engine.call("octets_of", [], [script], 65536, size);
      text = engine.call("script_of", [], [it.octets], 65536, size);
    } catch (e) { check(`memory of ${size} octets`, false, e); continue; }
    check(`memory of ${size} octets: places`, places.fault === 0 ? latin(places) === wanted : places.fault === 1 && parts.has(latin(places)), `fault ${places.fault}`);
    check(`memory of ${size} octets: octets`, octets.fault === 0 ? hexOf(octets.octets) === hexOf(it.octets) : octets.fault === 1 && !octets.octets.length, `fault ${octets.fault}`);
    check(`memory of ${size} octets: script`, text.fault === 0 ? latin(text) === Buffer.from(script).toString("latin1") : text.fault === 1 && !text.octets.length, `fault ${text.fault}`);
    check(`memory of ${size} octets: explanation`, words.fault === 0 ? latin(words) === explained : words.fault === 1 && !words.octets.length, `fault ${words.fault}`);
    if (places.fault === 0) whole++;
    if (words.fault === 0) told++;
  }
  check("192 KB suffice for a GET", whole > 0);
  check("192 KB suffice to explain a GET", told > 0);
  for (const room of [0, 1, 100, 900]) {
    const places = engine.call("places", [...engine.numbers(it.limits), 0n, ALL], [utf8(it.answers.join("\n")), it.octets], room, 1 << 20);
    check(`room of ${room} octets`, places.fault === 2 && !places.octets.length, `fault ${places.fault}`);
    const words = engine.call("explanation", [0, ...engine.numbers(it.limits)], [utf8(it.answers.join("\n")), it.octets], room, 1 << 20);
    check(`room of ${room} octets for an explanation`, words.fault === 2 && !words.octets.length, `fault ${words.fault}`);
  }
}

// ---- the page in a browser
if (option("--chromium")) await inBrowser(option("--chromium"));
console.log(`${passed} passed, ${failed} failed`);
process.exitCode = failed ? 1 : 0;

// The lines of a state that the page has made.
function linesOf({ all, table, streams }) {
  const words = (of, names) => names.map(name => of[name] ?? "-"), block = all["field block"], kinds = { "half-closed (remote)": "half-remote", "half-closed (local)": "half-local", "closed, ended": "ended", "closed, reset by the client": "peer-reset", "closed, reset by the server": "we-reset" };
  const line = (text, ...values) => text.split("?").map((part, n) => part + (values[n] ?? "")).join("") + "\n", peer = ["HEADER_TABLE_SIZE", "ENABLE_PUSH", "MAX_CONCURRENT_STREAMS", "INITIAL_WINDOW_SIZE", "MAX_FRAME_SIZE", "MAX_HEADER_LIST_SIZE"];
  const lines = [line("window recv ? owed ? send ?", ...words(all, ["receive window", "unreturned octets", "send window"])), line("peer table ? push ? streams ? window ? frame ? list ? signal ?", ...words(all, [...peer.map(it => `client's ${it}`), "size update pending"])), line("acked ?", Number(all["settings acknowledged"])),
    line("own table ? window ? frame ?", ...words(all, ["HEADER_TABLE_SIZE", "INITIAL_WINDOW_SIZE", "MAX_FRAME_SIZE"].map(it => `own ${it} in force`))), block ? line("block stream ? octets ? list ? ends ?", block.stream, block.octets, block.list_size, Number(block.end_stream)) : "block -\n", line("table ? ? ?", ...words(all, ["entries", "octets", "maximum"].map(it => `header table ${it}`)))];
  table.forEach((it, n) => lines.push(line("entry ? ? ?", 62 + n, it.name.hex || "-", it.value.hex || "-")));
  for (const it of streams.values()) if (it.state !== "closed, unused") lines.push(it.state.startsWith("closed") ? line("stream ? ?", it.id, kinds[it.state]) : line("stream ? ? recv ? owed ? send ? got ? of ? left ?", it.id, kinds[it.state] ?? it.state, ...words(it, ["receive window", "unreturned octets", "send window", "content received", "length", "body remaining"])));
  return lines.join("");
}
async function inBrowser(chromium) {
  const folder = mkdtempSync(join(tmpdir(), "web-"));
  const flags = ["--headless=new", "--no-sandbox", "--disable-gpu", "--hide-scrollbars", "--no-first-run", `--user-data-dir=${folder}`, "--remote-debugging-pipe", "--js-flags=--experimental-wasm-memory64", "about:blank"];
  const browser = spawn(chromium, flags, { stdio: ["ignore", "ignore", "ignore", "pipe", "pipe"] });
  const open = new Map();
  let next = 1, held = "";
  browser.stdio[4].setEncoding("utf8").on("data", text => {
    const said = (held + text).split("\0");
    held = said.pop();
    for (const it of said.map(it => JSON.parse(it))) if (it.id && open.has(it.id)) { const [well, badly] = open.get(it.id); open.delete(it.id); it.error ? badly(new Error(it.error.message)) : well(it.result); }
  });
  const limit = setTimeout(() => browser.kill(), 240_000);
  const ended = new Promise((_, badly) => browser.on("exit", () => { for (const it of open.values()) it[1](new Error("the browser ended")); badly(new Error("the browser ended")); }));
  ended.catch(() => {});
  const ask = (method, params = {}, sessionId = undefined) => new Promise((well, badly) => { open.set(next, [well, badly]); browser.stdio[3].write(JSON.stringify({ id: next++, method, params, sessionId }) + "\0"); });
  try {
    const { targetInfos } = await ask("Target.getTargets");
    const { sessionId } = await ask("Target.attachToTarget", { targetId: targetInfos.find(it => it.type === "page").targetId, flatten: true });
    const tell = (method, params) => ask(method, params, sessionId);
    const of = async (expression) => { const it = await tell("Runtime.evaluate", { expression, awaitPromise: true, returnByValue: true }); if (it.exceptionDetails) throw new Error(it.exceptionDetails.exception?.description ?? it.exceptionDetails.text); return it.result.value; };
    const wait = ms => new Promise(well => setTimeout(well, ms));
    const until = async expression => { for (let n = 0; n < 60 && !await of(expression); n++) await wait(100); };
    const visit = async url => {
      await tell("Page.navigate", { url: "about:blank" });
      await tell("Page.navigate", { url });
      for (let n = 0; n < 150; n++) { if (await of("document.body?.dataset.ready === '1' || document.getElementById('fault')?.className === 'on'").catch(() => false)) return; await wait(100); }
    };
    const key = async name => { for (const type of ["keyDown", "keyUp"]) await tell("Input.dispatchKeyEvent", { type, key: name, code: name }); };
    const url = pathToFileURL(resolve(pageFile)).href;
    await tell("Emulation.setDeviceMetricsOverride", { width: 1300, height: 1500, deviceScaleFactor: 1, mobile: false });
    await visit(url);
    check("the page runs", await of("document.body.dataset.ready === '1'"), await of("document.getElementById('fault').textContent"));
    const get = corpus.find(it => it.name.startsWith("get"));
    check("it begins with an example", await of("h2.run && h2.countOf(h2.run)") === 3);
    // Stepping.
    await of("document.body.focus(); h2.select(3); document.querySelector('[aria-current]').focus()");
    await key("ArrowLeft");
    check("the left key steps back", (await of("document.getElementById('where').textContent")).startsWith("2 of"));
    await key("Home");
    check("Home goes to the start", (await of("document.getElementById('where').textContent")).startsWith("0 of"));
    await of("document.querySelector('[data-place=\"1\"]').click()");
    check("a click takes an item", (await of("document.getElementById('item-title').textContent")).includes("preface"));
    // Typing, good and bad.
    await of("document.getElementById('hex').focus(); document.getElementById('hex').select()");
    await tell("Input.insertText", { text: hexOf(get.octets) });
    await until(`document.getElementById('script').value.includes('HEADERS 05 1')`);
    check("hex becomes a script", (await of("document.getElementById('script').value")).includes("HEADERS 05 1"));
    await tell("Input.insertText", { text: "0g" });
    await until(`document.getElementById('fault').className === 'on'`);
    check("a bad character is a fault, and what was typed is kept", (await of("document.getElementById('fault').textContent")).includes("Fault 25") && (await of("document.getElementById('hex').value")).endsWith("0g"));
    check("its place is marked", (await of("document.querySelector('#hex-mark mark')?.textContent")) === "g");
    await of("document.getElementById('script').focus(); document.getElementById('script').select()");
    await tell("Input.insertText", { text: "PREFACE\nSETTINGS 00 0 -\nFOO 00 0 -\n" });
    await until(`document.getElementById('fault').textContent.includes('line 3')`);
    check("a bad line is a fault", (await of("document.getElementById('fault').textContent")).includes("line 3"), await of("document.getElementById('fault').textContent"));
    await of("document.getElementById('script').select()");
    await tell("Input.insertText", { text: readFileSync(join(top, "examples/closed.h2"), "utf8") });
    await until(`document.getElementById('fault').className === '' && h2.run.octets.length === 43`);
    await of("h2.select(3)");
    check("the fault goes when it is mended", await of("document.getElementById('fault').className") === "" && (await of("document.getElementById('hex').value")).replace(/\s/g, "") === run(["asm"], readFileSync(join(top, "examples/closed.h2"), "utf8")).text.trim());
    check("its cause is shown", (await of("document.getElementById('why').textContent")).includes("data-on-idle"));
    check("its duties are tags", (await of("[...document.querySelectorAll('#why .tag')].map(it => it.textContent).join('; ')")) === "data-on-idle; server MUST 5.1; client breach 6.1", await of("document.getElementById('why').textContent"));
    const words = () => of("document.getElementById('words').textContent"), closed = run(["asm"], readFileSync(join(top, "examples/closed.h2"), "utf8")).text;
    check("it is explained", await words() === run(["explain", "--brief"], closed).text, await words());
    await of("document.getElementById('all-lines').click()");
    check("all lines of the explanation", await words() === run(["explain"], closed).text, await words());
    await of("document.getElementById('all-lines').click()");
    for (const it of corpus) check(`${it.name}: in brief`, await of(`(text => text.split(/^(?=[#@])/m).map(h2.briefOf).join(""))(${JSON.stringify(run(["explain", ...limitWords(it.limits), ...it.answers], hexOf(it.octets)).text)})`) === run(["explain", "--brief", ...limitWords(it.limits), ...it.answers], hexOf(it.octets)).text);
    check("the item at hand is marked in the explanation", (await of("document.querySelector('#words .now')?.textContent")).startsWith("#3 @33"));
    check("an error is shown", (await of("document.getElementById('item-tags').textContent")).includes("PROTOCOL_ERROR"));
    // The state that the page makes of the changes: the lines of `play --each`, but for the words of the phase, and the code of a GOAWAY.
    const states = await of(`h2.stock.map(it => { h2.beginWith(it); return [it.name, Array.from({ length: h2.countOf(h2.run) + 1 }, (_, place) => (${linesOf})(h2.stateAt(h2.run, place)))]; })`);
    for (const it of corpus) {
      const wanted = run(["play", "--each", ...limitWords(it.limits), ...it.answers], hexOf(it.octets)).text.split(/^item.*\n/m).slice(1), found = states.find(([name]) => name === it.name);
      check(`${it.name}: states`, found[1].join("") === wanted.map(text => text.replace(/^(sent|phase) .*\n/gm, "").replace(/( goaway| due) .*/g, "")).join(""), found[1].join(""));
    }
    // A narrow window, one of middle width and a wide one, with an error at hand.
    for (const width of [360, 768, 1366]) {
      await tell("Emulation.setDeviceMetricsOverride", { width, height: 900, deviceScaleFactor: 1, mobile: width < 500 });
      check(`${width} pixels suffice`, await of("document.documentElement.scrollWidth") <= width, await of("document.documentElement.scrollWidth"));
    }
    check("a wide window has the result beside the input", await of("document.getElementById('hex').getBoundingClientRect().right < document.getElementById('lanes').getBoundingClientRect().left"));
    await tell("Emulation.setDeviceMetricsOverride", { width: 1300, height: 1500, deviceScaleFactor: 1, mobile: false });
    // Dumps, captures, and a fault in a narrow window.
    const typeHex = async text => { await of(`(it => { it.value = ${JSON.stringify(text)}; it.dispatchEvent(new Event("input")); })(document.getElementById("hex"))`); await wait(300); };
    const fault = () => of("document.getElementById('fault').className === 'on' ? document.getElementById('fault').textContent : ''");
    const dumps = [[4, ""], [8, ""], [4, "   ", ""], [8, "  |", "|"]].map(([digits, before, behind]) => rowsOf(get.octets, digits, before, behind));
    for (const [n, text] of dumps.entries()) {
      await typeHex(text);
      check(`dump ${n} is read without its offsets`, await fault() === "" && await of("Array.from(h2.run.octets).join()") === Array.from(get.octets).join() && (await of("document.getElementById('hex-note').textContent")).includes("of a dump"), text);
    }
    await typeHex("0000000 5250 2049 202a 5448 5054 322f 302e 0a0d\n0000010 0a0d 4d53 0a0d 0a0d\n0000018\n");
    check("a dump of words is refused", (await fault()).includes("take xxd -p"), await fault());
    for (const [text, advice] of [["0x50, 0x52", "all but the digits"], ["\n====\nFollow: tcp,raw\n", "without a tab"]]) {
      await typeHex(text);
      check(`${JSON.stringify(text)} is refused with advice`, (await fault()).includes(advice), await fault());
    }
    await of(`(() => { h2.typed.source = "file"; h2.typed.file = h2.readHex("d4c3b2a1020004000000000000000000").octets; h2.play(); })()`);
    check("a capture is refused with advice", (await fault()).includes("tshark"), await fault());
    await tell("Emulation.setDeviceMetricsOverride", { width: 360, height: 900, deviceScaleFactor: 1, mobile: true });
    await visit(`${url}#${new URLSearchParams([["script", `PREFACE\nFOO ${"x".repeat(300)}\n`]])}`);
    check("360 pixels suffice for a fault", await of("document.documentElement.scrollWidth") <= 360 && (await fault()).includes("line 2"), await of("document.documentElement.scrollWidth"));
    await tell("Emulation.setDeviceMetricsOverride", { width: 1300, height: 1500, deviceScaleFactor: 1, mobile: false });
    // A special case of a rule has its own duties.
    await visit(`${url}#${new URLSearchParams([["script", "PREFACE\nSETTINGS 00 0 -\nHEADERS 04 1 hi2,i6,i4\nHEADERS 04 3 hi2,i6,i4\n"], ["streams", "1"]])}`);
    check("a special case has its duties", (await of("[...document.querySelectorAll('#why .tag')].map(it => it.textContent).join('; ')")) === "too-many-streams; server's choice 5.1.2; above a limit 6.5.3", await of("document.getElementById('why').textContent"));
    const judged = await of("h2.copies['Case for check']()");
    writeFileSync(join(folder, "bare.h2"), judged.replace(/^;[<!] .*\n/gm, ""));
    check("a copied case is what --bless writes", judged.includes(";! too-many-streams\n") && run(["check", "--bless", join(folder, "bare.h2")], "").text === judged, judged);
    await of(`h2.beginWith(h2.stock.find(it => it.name.startsWith("closed"))); h2.select(2)`);
    // The link.
    const hash = await of("location.hash");
    await visit(url + hash);
    check("a link has the whole state", await of("h2.run.place") === 2 && (await of("document.getElementById('script').value")) === readFileSync(join(top, "examples/closed.h2"), "utf8"));
    // What is copied.
    await of(`h2.beginWith(h2.stock.find(it => it.name.startsWith("get")))`);
    const copies = await of("Object.fromEntries(Object.entries(h2.copies).map(([name, make]) => [name, make()]))");
    check("copied hex", copies.Hex.trim() === hexOf(get.octets));
    check("copied script", run(["asm"], copies.Script).text.trim() === hexOf(get.octets));
    check("copied C array", copies["C array"].match(/0x[0-9a-f]{2}/g).map(it => it.slice(2)).join("") === hexOf(get.octets));
    writeFileSync(join(folder, "copied.h2"), copies["Case for check"]);
    const verdict = run(["check", join(folder, "copied.h2")], "");
    check("a copied case holds", /^ok 1 /m.test(verdict.text) && verdict.status === 0, verdict.text);
    check("a copied explanation", copies.Explanation === run(["explain", ...get.answers], hexOf(get.octets)).text);
    const command = spawnSync("bash", ["-c", copies["Command line"].replace("./h2_bench", program)]);
    check("the copied command explains", command.stdout.toString() === run(["explain", ...get.answers], hexOf(get.octets)).text);
    // Some of the comparison once more, by this browser's own machine.
    for (const it of corpus.filter((_, n) => n % 6 === 0)) {
      const found = await of(`(r => ({ text: r.text, fault: r.fault }))(h2.engine.places(${JSON.stringify(it.limits)}, ${JSON.stringify(it.answers.join("\n"))}, h2.readHex("${hexOf(it.octets)}").octets, 0, 1e6))`);
      const wanted = run(["play", "--each", ...limitWords(it.limits), ...it.answers], hexOf(it.octets)).text, fault = wanted.match(/^fault (\d+)$/m);
      check(`${it.name}: in the browser`, fault ? found.fault === Number(fault[1]) : found.fault === 0 && found.text === wanted);
    }
    // One megabyte: the best of three times.
    const large = await of(`(() => { const frames = ["505249202a20485454502f322e300d0a0d0a534d0d0a0d0a", "000000040000000000"]; for (let n = 1; n < 36000; n++) frames.push("0000140105" + (2 * n - 1).toString(16).padStart(8, "0") + "828684410f7777772e6578616d706c652e636f6d"); const octets = h2.readHex(frames.join("")).octets, times = []; for (let n = 0; n < 3; n++) { h2.typed.source = "file"; h2.typed.file = octets; h2.typed.place = null; const begun = performance.now(); h2.play(); times.push(performance.now() - begun); } return { time: Math.min(...times), octets: octets.length, count: h2.countOf(h2.run), asked: document.querySelector("#words button")?.textContent }; })()`);
    console.log(`an input of ${large.octets} octets and ${large.count} items: ${large.time.toFixed(0)} ms until its view is there`);
    check("a large input is shown within five seconds", large.time < 5000, large.time);
    check("a large input is explained when asked for", large.asked === "Explain all 36,001 items", large.asked);
    // One of short frames, whose explanation is the longest.
    const said = await of(`(() => { const frames = ["505249202a20485454502f322e300d0a0d0a534d0d0a0d0a", "000000040000000000"]; for (let n = 1; n < 66667; n++) frames.push("0000030105" + (2 * n - 1).toString(16).padStart(8, "0") + "828684"); h2.typed.source = "file"; h2.typed.file = h2.readHex(frames.join("")).octets; h2.typed.place = null; h2.play(); document.querySelector("#words button").click(); return document.getElementById("words").textContent; })()`);
    check("a megabyte of short frames is explained, or what to do is said", said.includes("#66668 @") || said.includes("./h2_bench explain"), said);
    // Nothing is fetched: the policy of the page forbids it.
    check("nothing can be sent", await of("fetch('http://127.0.0.1:9/').then(() => 'sent', () => 'refused')") === "refused");
    if (option("--picture")) { // that of docs/PAGE.md
      const script = ["PREFACE", "SETTINGS 00 0 s4=20", 'HEADERS 04 1 hi3,i6,n4="/upload",a1="www.example.com"', "DATA 00 1 x61626364", "HEADERS 05 3 hi2,i6,i4,i62", "PING 00 0 x0102030405060708", "RST_STREAM 00 1 c8", "WINDOW_UPDATE 00 3 w0", "DATA 01 5 x61"];
      await tell("Emulation.setDeviceMetricsOverride", { width: 1366, height: 1150, deviceScaleFactor: 1, mobile: false });
      await visit(`${url}#${new URLSearchParams([["script", script.join("\n") + "\n"], ["answer", `GET|/|200|${"61".repeat(40)}`], ["answer", "POST|/upload|200|6f6b"], ["item", "8"]])}`);
      const { data } = await tell("Page.captureScreenshot", { format: "png" });
      writeFileSync(option("--picture"), Buffer.from(data, "base64"));
    }
  } catch (e) { check("the page in a browser", false, e.stack ?? e); } finally {
    clearTimeout(limit);
    browser.kill();
    await new Promise(well => browser.exitCode === null && browser.signalCode === null ? browser.on("exit", well) : well());
    rmSync(folder, { recursive: true, force: true, maxRetries: 5 });
  }
}
