const at = id => document.getElementById(id);

// ---- small things
const make = (tag, what = {}, ...inside) => {
  const it = document.createElement(tag);
  for (const [key, value] of Object.entries(what)) {
    if (key === "class") it.className = value;
    else if (key === "text") it.textContent = value;
    else if (key.startsWith("on")) it[key] = value;
    else if (value !== null && value !== false) it.setAttribute(key, value === true ? "" : value);
  }
  it.append(...inside.filter(part => part !== null && part !== undefined));
  return it;
};
const cell = (text, kind = "") => make("td", { class: kind, text });
const heads = (...texts) => texts.map(it => make("th", { scope: "col", class: it[0] === "#" ? "n" : "", text: it.replace("#", "") }));
const tableOf = (heads, rows, kind = "") => make("table", { class: kind }, heads.length ? make("thead", {}, make("tr", {}, ...heads)) : null, make("tbody", {}, ...rows));
const HEX = Array.from({ length: 256 }, (_, it) => it.toString(16).padStart(2, "0"));
const hexOf = octets => { let text = ""; for (const it of octets) text += HEX[it]; return text; };
const counted = (count, word) => `${count.toLocaleString("en")} ${word}${count === 1 ? "" : "s"}`;
const number = it => it === null || it === undefined ? "none" : it.toLocaleString("en");
// Octets of the JSON as text.
const shown = ({ hex }) => hex.replace(/../g, it => { const c = parseInt(it, 16); return c >= 32 && c < 127 && c !== 92 ? String.fromCharCode(c) : "\\" + it; });
const codeWords = ({ name, number }) => name === "unknown" ? `code ${number}` : name;

// ---- what was typed
const LIMITS = [
  ["streams", "Live streams", 100, 1, 1000, "--streams"], ["credit", "Octets owed before credit", 32768, 1, 65535, "--credit"], ["table", "HEADER_TABLE_SIZE", 4096, 0, 65536, "--table"],
  ["window", "INITIAL_WINDOW_SIZE", 65535, 0, 2147483647, "--window"], ["frame", "MAX_FRAME_SIZE", 16384, 16384, 65536, "--frame"],
];
const fresh = () => ({ source: "script", script: "", hex: "", config: Object.fromEntries(LIMITS.map(it => [it[0], it[2]])), answers: [], place: null });
let typed = fresh(), run = null, engine = null, stock = [];
const LONG = 150000; // characters of a text that the page writes into a box
const WORDY = 100000; // octets of an input that is explained in words unasked

// Octets of hex text, as the program reads it: pairs of digits, white space between any; else the place of the first bad character.
function readHex(text) {
  const bad = text.search(/[^0-9a-f \t\r\n]/i), digits = text.replace(/[ \t\r\n]+/g, "");
  if (bad >= 0) return { bad, why: "is no hex digit" };
  if (digits.length % 2) return { bad: text.search(/[0-9a-f][ \t\r\n]*$/i), why: "is half of an octet: a digit is missing after it" };
  return { octets: Uint8Array.from(digits.match(/../g) ?? [], it => parseInt(it, 16)) };
}
// The octets of a dump (xxd, hexdump -C, od, Wireshark), without the offsets before them and the text behind them; null where a text is none. `unclear` where they could be others.
function readDump(text) {
  const rows = text.split(/\r?\n/).filter(it => it.trim()).map(it => it.match(/^\s*([0-9a-f]{4,15}):?(?:\s+(.*))?$/i));
  if (!rows.length || rows.includes(null) || (rows.length < 2 && readHex(text).octets)) return null;
  const places = base => rows.map(it => parseInt(it[1], base));
  const bases = [16, 8, 10].filter(base => places(base).every((it, n, all) => n ? it > all[n - 1] && it <= all[n - 1] + 32 : it === 0));
  const bare = it => it.replace(/[|<>]/g, "").trim();
  const row = (rest, count) => { // this many octets, if what is behind them is their text, or nothing
    const [, digits, tail] = rest.match(RegExp(`^((?:[0-9a-f]{2}[ -]{0,2}){${count}})(.*)$`, "i")) ?? [];
    if (digits === undefined) return [];
    const octets = [...readHex(digits.replace(/-/g, " ")).octets], shown = String.fromCharCode(...octets.map(it => it < 32 || it > 126 ? 46 : it));
    // hexdump turns words of two octets around; only the text beside them tells.
    return tail.trim() ? (bare(tail) === bare(shown) ? [octets] : []) : /[0-9a-f]{3}/i.test(digits) ? [] : [octets];
  };
  const read = base => rows.map(([, , rest = ""], n) => {
    if (n + 1 === rows.length) return rest.trim() ? Array.from({ length: 32 }, (_, k) => row(rest, k + 1)).flat() : [[]];
    return row(rest, places(base)[n + 1] - places(base)[n]);
  });
  const found = bases.map(read).filter(all => all.every(it => it.length === 1));
  return !bases.length ? null : found.length === 1 ? { octets: Uint8Array.from(found[0].flat(2)) } : { unclear: true };
}

// ---- a run: its items and its end, as `explain --json` has them; item 0 is the server's opening
const WIDE = 100; // items that the time-line has at a time
const answersText = answers => answers.map(answerWord).join("\n");
const answerWord = it => [it.method, it.path, it.status, it.body.trim().replace(/\s+/g, "")].join("|") + it.fields.split("\n").filter(Boolean).map(field => "|" + field.replace(/^\s*([^=:]+?)\s*[:=]\s*/, "$1=")).join("") + (it.early ? "|early" : "");
function explained(octets) {
  const it = { octets, config: { ...typed.config }, answers: answersText(typed.answers) }, { text, fault, line } = engine.json(it.config, it.answers, octets);
  if (fault) return { fault, line, items: [] };
  const items = JSON.parse(`[${text.trimEnd().replaceAll("\n", ",")}]`);
  items.pop(); // the end
  return { ...it, items };
}
const countOf = it => it.items.length - 1;
const lengthOf = item => item.octets.hex.length / 2;
const octetsOf = item => run.octets.subarray(item.offset, item.offset + lengthOf(item));
// The lines of a script for what was sent.
const sentLines = item => item.lines ??= item.sent.length ? engine.scriptOf(readHex(item.sent.map(it => it.octets.hex).join("")).octets).text.trimEnd().split("\n") : [];
// What the server made of an item.
const verdictOf = item => item.error?.scope ?? (item.ignored ? "ignored" : "");

// ---- the state after an item, made of the changes
// What a new connection begins with (RFC 9113, 6.5.2 and 6.9.2; RFC 7541, 4.2), by the names of the changes.
const BEGINNING = {
  "phase": "waits for the preface", "last stream": 0, "field block": null, "settings acknowledged": false, "last stream of client's GOAWAY": null, "code of client's GOAWAY": null,
  "receive window": 65535, "unreturned octets": 0, "send window": 65535, "header table entries": 0, "header table octets": 0, "header table maximum": 4096,
  "client's HEADER_TABLE_SIZE": 4096, "client's ENABLE_PUSH": 1, "client's MAX_CONCURRENT_STREAMS": null, "client's INITIAL_WINDOW_SIZE": 65535, "client's MAX_FRAME_SIZE": 16384, "client's MAX_HEADER_LIST_SIZE": null,
  "size update pending": 0, "own HEADER_TABLE_SIZE in force": 4096, "own INITIAL_WINDOW_SIZE in force": 65535, "own MAX_FRAME_SIZE in force": 16384,
};
// Takes an item: `moved` has its changes as [stream, what, before, after].
function take(s, item) {
  s.moved = [];
  const move = (of, stream, what, after) => { s.moved.push([stream, what, of[what] ?? null, after]); of[what] = after; };
  const phase = item.error?.scope === "connection" ? `ended, ${codeWords(item.error.code)}` : { 1: "waits for SETTINGS", 2: "running" }[item.item];
  if (phase) move(s.all, 0, "phase", phase);
  for (const it of item.changes) {
    if (it.what === "block" || it.what === "block ended") { move(s.all, 0, "field block", it.what === "block" ? it : null); continue; }
    if (!it.stream) { move(s.all, 0, it.what, it.what === "code of client's GOAWAY" ? codeWords(item.payload.code) : it.after); continue; }
    if (!s.streams.has(it.stream)) s.streams.set(it.stream, { id: it.stream, state: "idle" });
    const stream = s.streams.get(it.stream);
    if (it.what === "opened") Object.assign(stream, { "receive window": it.receive_window, "unreturned octets": 0, "send window": it.send_window, "content received": 0, "length": it.content_length });
    else move(stream, it.stream, it.what === "body sent" ? "body remaining" : it.what, it.after ?? null);
  }
  s.gone = [];
  for (const it of item.table ?? []) if (it.what === "entered") s.table.unshift({ ...it, since: item.item }); else s.gone.push(s.table.pop());
  s.gone = s.gone.filter(it => it.since !== item.item);
}
function stateAt(it, place) {
  const s = { place, all: { ...BEGINNING }, streams: new Map(), table: [], gone: [], moved: [] };
  for (let n = 1; n <= place; n++) take(s, it.items[n]);
  s.changed = new Set(s.moved.map(([stream, what]) => `${stream} ${what}`));
  return s;
}

// ---- faults, with their place
function showFault(words, box = null, from = 0, to = 0) {
  at("fault").replaceChildren(...words);
  for (const [id, kind] of [["fault", "on"], ["view", "old"]]) at(id).classList.toggle(kind, words.length > 0);
  for (const id of ["script", "hex"]) { markIn(id, id === box ? from : 0, id === box ? to : 0); at(id).setAttribute("aria-invalid", id === box); }
  document.querySelectorAll(".answer.bad").forEach(it => it.classList.remove("bad"));
}
function markIn(id, from, to) {
  const text = at(id).value, mark = at(`${id}-mark`);
  if (to <= from || text.length > LONG) { mark.replaceChildren(); return; }
  mark.replaceChildren(text.slice(0, from), make("mark", { text: text.slice(from, to) }), text.slice(to) + "\n");
  mark.scrollTop = at(id).scrollTop;
}
const goTo = (id, from, to) => make("button", { text: "go there", onclick() { const box = at(id); box.focus(); box.setSelectionRange(from, to); } });
function hexFault(bad, why) {
  const text = typed.hex, around = text.slice(Math.max(0, bad - 20), bad), after = text.slice(bad + 1, bad + 20);
  const line = text.slice(0, bad).split("\n").length, column = bad - text.lastIndexOf("\n", bad - 1);
  const advice = text.includes("Follow: ") ? "Of what tshark follows take the lines of hex without a tab: they are the client's. " : /0x|\\x|[0-9a-f]{2}[:,_-]/i.test(text.slice(0, 100)) ? "Leave out all but the digits. " : "";
  showFault([make("b", { text: "Fault 25: this is no hex text. " }), `Line ${line}, column ${column}: `, make("code", {}, around, make("i", { text: text[bad] === "\n" ? "\u21b5" : text[bad] }), after), ` ${why}. ${advice}`, goTo("hex", bad, bad + 1)], "hex", bad, bad + 1);
}
function scriptFault(line, kind) {
  const lines = typed.script.split("\n"), from = lines.slice(0, line - 1).reduce((sum, it) => sum + it.length + 1, 0), text = lines[line - 1] ?? "";
  showFault([make("b", { text: `Fault 18: line ${line} of the script is bad. ` }), make("code", { text: text.length > 80 ? text.slice(0, 80) + " .." : text || "(empty)" }), ` ${KINDS[kind] ?? ""}. `, goTo("script", from, from + text.length)], "script", from, Math.max(from + 1, from + text.length));
}
const TOO_LONG = "The memory of a page does not suffice for the explanation of so many items. The program writes it: copy the octets as Hex into a file, and give the file to ./h2_bench explain.";
function otherFault({ fault, line }) {
  const isAnswer = fault >= 12 && fault <= 15 || fault === 26, words = [make("b", { text: `Fault ${fault}: ${fault < 3 ? "the run is too long" : FAULTS[fault] ?? "the call failed"}. ` }), fault < 3 ? TOO_LONG : ""];
  if (isAnswer) words.push(`Answer ${line}: `, make("code", { text: answerWord(typed.answers[line - 1] ?? typed.answers[0]) }), ". ");
  if (fault === 16) words.push(LIMITS.filter(it => !(typed.config[it[0]] >= it[3] && typed.config[it[0]] <= it[4])).map(it => `${it[5]} has to be ${it[3]} to ${it[4]}`).join("; ") + ".");
  showFault(words);
  if (isAnswer || fault === 16) at("server").open = true;
  if (isAnswer) at("answers").children[line - 1]?.classList.add("bad");
}

// ---- typing
let waiting = 0;
const later = time => { clearTimeout(waiting); waiting = setTimeout(() => play(), time); };
function typing(source) {
  typed.source = source;
  typed[source] = at(source).value;
  later(typed[source].length > 20000 ? 300 : 60);
}
// A line for each item, and one for the octets after them.
const hexText = (octets, items) => [...items.slice(1).map(({ frame, octets: { hex } }) => frame && hex.length > 18 ? `${hex.slice(0, 18)} ${hex.slice(18)}` : hex), hexOf(octets.subarray(items.length > 1 ? items.at(-1).offset + lengthOf(items.at(-1)) : 0))].filter(Boolean).join("\n");
// The first octets of captures: pcap in both orders, in microseconds and in nanoseconds; pcapng.
const CAPTURES = ["d4c3b2a1", "a1b2c3d4", "4d3cb2a1", "a1b23c4d", "0a0d0d0a"];
function readTyped() {
  if (typed.source === "hex") {
    const dump = readDump(typed.hex);
    typed.isDump = dump !== null;
    if (dump?.unclear) { showFault([make("b", { text: "Fault 25: this is no hex text. " }), "It looks like a dump with offsets, and its octets are not clear: take xxd -p, or xxd -g1."]); return null; }
    const { octets, bad, why } = dump ?? readHex(typed.hex);
    if (bad !== undefined) { hexFault(bad, why); return null; }
    return octets;
  }
  if (typed.source === "file") {
    if (!CAPTURES.includes(hexOf(typed.file.subarray(0, 4)))) return typed.file;
    showFault([make("b", { text: "This is a capture of packets. " }), "The client's octets as hex are written by ", make("code", { text: "tshark -r FILE -Y 'tcp.stream==0 && tcp.dstport==PORT' -T fields -e tcp.payload" }), "."]);
    return null;
  }
  const { octets, fault, kind, line } = engine.octetsOf(typed.script);
  if (fault === 18) { scriptFault(line, kind); return null; }
  if (fault) { otherFault({ fault }); return null; }
  return octets.slice();
}
function fillOther(octets, items) {
  const fits = octets.length * 2 <= LONG, texts = { script: () => engine.scriptOf(octets).text, hex: () => hexText(octets, items) };
  for (const [id, text] of Object.entries(texts)) if (typed.source !== id) at(id).value = typed[id] = fits ? text() : "";
  at("hex-note").textContent = counted(octets.length, "octet") + (typed.source === "hex" ? (typed.isDump ? " of a dump, read without its offsets" : "") : fits ? "" : ": too long to show; \"Copy as\" has them");
  at("script-note").textContent = fits || typed.source === "script" ? "a line for each frame" : "too long to show; \"Copy as\" has it";
}
function play(place = undefined) {
  const started = performance.now();
  try {
    const octets = readTyped();
    if (octets) {
      showFault([]);
      const now = explained(octets);
      fillOther(octets, now.items);
      if (now.fault) otherFault(now);
      else { run = now; select(Math.min(place ?? typed.place ?? countOf(run), countOf(run)), false); }
    }
  } catch (e) { showFault([make("b", { text: "The page's engine failed. " }), String(e.message ?? e)]); }
  at("timing").textContent = `The last change took ${(performance.now() - started).toFixed(0)} ms.`;
  link();
}

// ---- the time-line
let drawn = null;
const SHORT = { END_STREAM: "ES", END_HEADERS: "EH", PADDED: "PAD", PRIORITY: "PRIO", ACK: "ACK" };
// The names of the flags, which follow the type and the stream in the words of a frame.
const flagsOf = ({ words }) => [...words.split(",")[0].split(" ").slice(1).filter(it => it in SHORT), ...(words.match(/ flags (0x\w+)/)?.slice(1) ?? [])];
// An item of the client, or a frame that is sent.
function chipOf(it, kind) {
  const { frame, payload = {}, words } = it;
  if (!frame) return make("span", { class: `chip ${kind} ${it.error ? "" : "t-PREFACE"}`, title: words }, make("b", { text: it.error ? "bad preface" : "PREFACE" }), make("span", { text: counted(lengthOf(it), "octet") }));
  const { increment, code, settings = [] } = payload, says = [frame.stream ? `stream ${frame.stream}` : "", frame.type === "DATA" ? `${frame.length}o` : "", ...flagsOf(it).map(word => SHORT[word] ?? word), increment === undefined ? "" : `+${increment}`, code ? codeWords(code) : "", settings.map(({ id, value }) => `${id}=${value}`).join()];
  return make("span", { class: `chip ${kind} t-${frame.type}`, title: words }, make("b", { text: frame.type }), make("span", { text: says.filter(Boolean).join(" ") || "\u00a0" }));
}
function stepOf(item) {
  const place = item.item, verdict = verdictOf(item), kind = verdict === "ignored" ? " quiet" : verdict ? " error" : "";
  const step = make("button", { class: "step" + kind, "data-place": place, tabindex: -1, onclick: () => select(place) },
    make("span", { class: "no" }, make("span", { text: `#${place}` }), make("span", { text: place ? `@${item.offset}` : "" })),
    place ? chipOf(item, "from") : make("span", { class: "chip from" }, make("b", { text: "start" }), make("span", { text: "nothing came" })),
    make("span", { class: "sends" }, ...item.sent.slice(0, 4).map(it => chipOf(it, "to")), item.sent.length > 4 ? make("span", { class: "no", text: `and ${item.sent.length - 4} more` }) : null));
  if (verdict) step.append(make("span", { class: "said", text: { connection: "a connection error", stream: "a stream error", ignored: "ignored" }[verdict] }));
  return make("li", {}, step);
}
function draw() {
  const count = countOf(run), page = Math.floor(run.place / WIDE), first = page * WIDE, last = Math.min(first + WIDE - 1, count);
  if (drawn?.run !== run || drawn.page !== page) {
    const steps = [];
    if (first) steps.push(make("li", {}, make("button", { class: "step", onclick: () => select(first - 1) }, make("span", { text: "\u2190 earlier items" }))));
    for (let place = first; place <= last; place++) steps.push(stepOf(run.items[place]));
    if (last < count) steps.push(make("li", {}, make("button", { class: "step", onclick: () => select(last + 1) }, make("span", { text: "later items \u2192" }))));
    at("lanes").replaceChildren(...steps);
    drawn = { run, page };
  }
  for (const it of at("lanes").querySelectorAll("[aria-current]")) { it.removeAttribute("aria-current"); it.tabIndex = -1; }
  const step = at("lanes").querySelector(`[data-place="${run.place}"]`);
  step.setAttribute("aria-current", "step");
  step.tabIndex = 0;
  const lanes = at("lanes"), box = step.parentNode;
  if (box.offsetLeft - lanes.offsetLeft < lanes.scrollLeft || box.offsetLeft + box.offsetWidth - lanes.offsetLeft > lanes.scrollLeft + lanes.clientWidth) lanes.scrollLeft = box.offsetLeft - lanes.offsetLeft - lanes.clientWidth / 2 + box.offsetWidth / 2;
  at("where").textContent = `${run.place} of ${count}`;
  const wrong = [...at("lanes").querySelectorAll(".error")];
  at("error").hidden = !wrong.length;
  at("error").onclick = () => { const after = wrong.find(it => Number(it.dataset.place) > run.place) ?? wrong[0]; select(Number(after.dataset.place)); };
}
function select(place, byHand = true) {
  run.place = place;
  typed.place = place === countOf(run) ? null : place;
  draw();
  show();
  if (byHand) { link(); at("said").textContent = at("item-title").textContent + " " + at("item-tags").textContent; }
}

// ---- the item at hand
// The parts of its octets, as the JSON has them.
function partsOfOctets(item) {
  const { frame, payload = {} } = item, o = octetsOf(item), parts = [];
  const part = (kind, length, about) => { const from = parts.at(-1)?.to ?? 0, to = Math.min(from + length, o.length); if (to > from) parts.push({ kind, from, to, about }); };
  if (!frame) { part("body", o.length, item.error ? `${item.words}: the last octet differs` : `the client's connection preface`); return parts; }
  part("head", 3, `length of the payload: ${frame.length}`);
  part("head", 1, `type ${frame.type_number}: ${frame.type}`);
  part("head", 1, `flags 0x${HEX[frame.flags]}: ${flagsOf(item).join(", ") || "none"}`);
  part("head", 4, `stream ${frame.stream}${o[5] > 127 ? ", with the reserved bit" : ""}`);
  const { padding = 0, content, fragment, settings = [] } = payload, end = o.length - padding;
  if (flagsOf(item).includes("PADDED") && "padding" in payload) part("pad", 1, `Pad Length: ${padding}`);
  if ("weight" in payload) { part("value", 4, `${payload.exclusive ? "exclusive, " : ""}depends on ${payload.dependency}`); part("value", 1, `Weight: ${payload.weight}`); }
  if (fragment && frame.type === "HEADERS") instructionsOf(fragment.hex).forEach(([length, about], n) => part(n % 2 ? "frag2" : "frag", length, about));
  for (const { id, name, value } of settings) { part("frag", 2, `setting ${id}: ${name}`); part("value", 4, `${name}: ${value}`); }
  if ("last_stream" in payload) { part("value", 4, `last stream: ${payload.last_stream}`); part("value", 4, `error code: ${codeWords(payload.code)}`); }
  const kind = content || payload.debug ? "body" : fragment ? "frag" : "value", others = { RST_STREAM: "error code", WINDOW_UPDATE: "increment of the window", PING: "opaque data" };
  part(kind, end - parts.at(-1).to, content ? `content: ${counted(lengthOf({ octets: content }), "octet")}` : fragment ? "fragment of the field block" : payload.debug ? "debug data" : others[frame.type] ?? "payload");
  part("pad", padding, `padding: ${counted(padding, "octet")}`);
  return parts;
}
// The lengths of the instructions that begin a fragment, and what they are: `dis` writes them one by one, where these octets end with one, and `asm` has each in a frame.
const FORMS = { i: "field at index", u: "table size update to", a: "literal, enters the table", n: "literal, does not enter the table", v: "literal, never indexed" };
function instructionsOf(fragment) {
  const framed = forms => engine.octetsOf(forms.map(it => `HEADERS 00 1 ${it}\n`).join("")).octets;
  const fronts = Array.from({ length: Math.min(fragment.length / 2, Math.ceil(2e4 / fragment.length)) }, (_, n) => "x" + fragment.slice(0, fragment.length - 2 * n));
  const forms = engine.scriptOf(framed(fronts)).text.match(/^HEADERS 00 1 h(.*)/m)?.[1].match(/(?:"[^"]*"|'[^']*'|[^,"'])+/g) ?? [], o = framed(forms.map(it => "h" + it));
  let from = 0;
  return forms.map(it => {
    const length = o[from] << 16 | o[from + 1] << 8 | o[from + 2], index = parseInt(it.slice(1));
    from += 9 + length;
    return [length, FORMS[it[0]] + (/[iu]/.test(it[0]) ? ` ${index}` : index ? `, its name at index ${index}` : ", with its name")];
  });
}
function showOctets(item) {
  const box = at("octets"), most = 2048;
  if (!item.item) { box.replaceChildren(make("span", { class: "arrow", text: "Nothing has come yet; the server has sent its SETTINGS." })); at("about").textContent = ""; return; }
  const parts = partsOfOctets(item), o = octetsOf(item), out = [];
  for (const it of parts) {
    if (it.from >= most) { out.push(` .. ${counted(o.length - most, "octet")} more`); break; }
    for (let i = it.from; i < Math.min(it.to, most); i++) { const octet = make("span", { class: `o k-${it.kind}`, text: hexOf([o[i]]), title: it.about }); octet.about = it.about; out.push(octet); }
    out.push(make("span", { class: "g" }));
  }
  box.replaceChildren(...out);
  const list = [...new Map(parts.map(it => [it.about, it])).values()].slice(0, 14);
  at("about").replaceChildren(...list.flatMap((it, n) => [n ? " \u00b7 " : "", make("span", { class: `k-${it.kind}`, style: "padding:0 .3rem;border-radius:3px;color:var(--ink)", text: it.about })]));
}
function showItem(item) {
  const verdict = verdictOf(item), why = at("why"), lines = sentLines(item), tags = [];
  at("item-title").replaceChildren(`#${item.item} `, make("code", { text: item.words }));
  if (item.error) tags.push(make("span", { class: "tag bad", text: `${verdict} error ${codeWords(item.error.code)}` }));
  if (item.ignored) tags.push(make("span", { class: "tag", text: "ignored" }));
  if (item.item) tags.push(" ", make("span", { class: "tag", text: `${counted(lengthOf(item), "octet")} at ${item.offset}` }));
  at("item-tags").replaceChildren(...tags);
  showOctets(item);
  why.hidden = !verdict;
  why.className = verdict === "ignored" ? "why quiet" : "why";
  if (verdict) why.replaceChildren(...whyShown(item));
  at("sent").replaceChildren(...(lines.length ? lines.map(line => make("li", {}, make("code", { text: line }))) : [make("li", { class: "arrow", text: "nothing" })]));
}

// ---- what changed
const entries = count => count === 1 ? "1 entry" : `${number(count)} entries`;
const blockWords = it => it ? `open on stream ${it.stream}: ${counted(it.octets, "octet")}, a list of ${it.list_size}` : "none open";
const acknowledged = it => it ? "acknowledged" : "not acknowledged";
function showChanges(s) {
  const words = (what, it) => what === "field block" ? blockWords(it) : what === "settings acknowledged" ? acknowledged(it) : number(it);
  const row = ([stream, what, from, to]) => make("tr", {}, make("th", { scope: "row", text: !stream ? what.replace(/^(receive|send) window|^unreturned octets/, "connection: $&") : what === "state" ? `stream ${stream}` : `stream ${stream}: ${what}` }), make("td", {}, words(what, from) + " ", make("span", { class: "arrow", text: "\u2192" }), " ", make("b", { text: words(what, to) })));
  at("changes").replaceChildren(s.moved.length ? tableOf([], s.moved.slice(0, 200).map(row)) : make("span", { class: "arrow", text: s.place ? "nothing" : "this is the start" }));
}

// ---- the state
function bar({ have, owed = 0, whole, mark = null, mini = false }) {
  const share = it => `${Math.max(0, Math.min(100, 100 * it / Math.max(1, whole)))}%`;
  const track = make("div", { class: mini ? "track mini" : "track", "aria-hidden": true }, make("i", { style: `left:0;width:${share(have)}` }));
  if (owed) track.append(make("i", { class: "owed", style: `left:${share(have)};width:${share(owed)}` }));
  if (mark !== null && mark >= 0) track.append(make("i", { class: "limit", style: `left:${share(mark)}` }));
  return track;
}
function windowShown(title, have, owed, whole, mark, words, changed) {
  return make("div", { class: "window" }, make("div", { class: "words" }, make("span", { text: title }), make("b", { class: changed ? "changed" : "", text: number(have) })), bar({ have, owed, whole, mark }), make("small", { text: words }));
}
function showState(s) {
  const { all, changed } = s, credit = run.config.credit, have = all["receive window"], owed = all["unreturned octets"], send = all["send window"], goaway = all["code of client's GOAWAY"];
  const isNew = (...whats) => whats.some(what => changed.has(`0 ${what}`));
  at("windows").replaceChildren(
    windowShown("The client may send (receive window)", have, owed, Math.max(have + owed, 65535), have + owed - credit, `${number(owed)} octets to return; WINDOW_UPDATE returns them at ${number(credit)} (the line in the bar)`, isNew("receive window")),
    windowShown("The server may send (send window)", send, 0, Math.max(65535, send), null, send <= 0 ? "spent: DATA waits for WINDOW_UPDATE on stream 0" : "of the connection; each stream has one of its own", isNew("send window")));
  const facts = [["phase", all["phase"], "phase"], ["highest stream with a request", all["last stream"], "last stream"], ["field block", blockWords(all["field block"]), "field block"], ["server's SETTINGS", acknowledged(all["settings acknowledged"]), "settings acknowledged"],
    ["client's GOAWAY", goaway === null ? "none" : `last ${all["last stream of client's GOAWAY"]}, ${goaway}`, "last stream of client's GOAWAY", "code of client's GOAWAY"]];
  at("connection").replaceChildren(tableOf([], facts.map(([name, is, ...whats]) => make("tr", {}, make("th", { scope: "row", text: name }), cell(is, isNew(...whats) ? "changed" : "")))));
  showStreams(s, credit);
  showTable(s, isNew("header table octets"));
  showSettings(all, isNew);
}
// The settings of both sides; those of the server are configured as it says in its opening, else they are the initial ones.
function showSettings(all, isNew) {
  const said = run.items[0].sent[0].payload.settings, value = (it, isNew) => cell(it === undefined ? "" : number(it), isNew ? "n changed" : "n");
  const rows = Object.keys(all).filter(it => it.startsWith("client's ")).map(client => {
    const name = client.slice(9), own = `own ${name} in force`, configured = said.find(it => it.name === name)?.value ?? BEGINNING[own];
    return make("tr", {}, cell(name), value(all[client], isNew(client)), value(all[own] ?? configured, isNew(own)), value(configured, false));
  });
  at("settings").replaceChildren(tableOf(heads("", "#client", "#server, in force", "#configured"), rows, "settings"));
}
function showStreams({ streams, changed, moved, all }, credit) {
  const most = 400, opened = [...streams.values()].filter(it => it.state !== "closed, unused"), fresh = new Set(moved.filter(([, what, from]) => what === "state" && from === "idle").map(([stream]) => stream));
  if (!opened.length) { at("streams").replaceChildren(make("span", { class: "arrow", text: "No stream has been opened." })); return; }
  const rows = opened.slice(-most).map(it => {
    const live = !it.state.startsWith("closed"), isNew = what => !fresh.has(it.id) && changed.has(`${it.id} ${what}`), whole = it["receive window"] + it["unreturned octets"];
    const value = (what, after = "") => cell(live && (it[what] ?? null) !== null ? number(it[what]) + after : "", live && isNew(what) ? "n changed" : "n"), recv = value("receive window"), send = value("send window");
    if (live) { recv.append(bar({ have: it["receive window"], owed: it["unreturned octets"], whole: Math.max(whole, run.config.window, 1), mark: whole - credit, mini: true })); send.append(bar({ have: it["send window"], whole: Math.max(it["send window"], all["client's INITIAL_WINDOW_SIZE"], 1), mini: true })); }
    return make("tr", { class: fresh.has(it.id) ? "new" : "" }, cell(it.id, "n"), cell(it.state, isNew("state") ? "changed" : ""), recv, value("unreturned octets"), send, value("content received", it.length === null ? "" : ` of ${number(it.length)}`), value("body remaining"));
  });
  at("streams").replaceChildren(...(opened.length > most ? [`${opened.length - most} earlier streams are left out`] : []), tableOf(heads("#stream", "state", "#receive window", "#to return", "#send window", "#content received", "#body left"), rows));
}
function showTable({ place, all, table, gone }, isNew) {
  const row = (it, index, kind) => make("tr", { class: kind }, cell(index, "n"), cell(shown(it.name), "mono"), cell(shown(it.value), "mono"), cell(it.octets, "n"));
  const rows = [...table.slice(0, 300).map((it, n) => row(it, 62 + n, it.since === place ? "new" : "")), ...gone.slice(0, 100).map(it => row(it, "evicted", "gone"))], max = all["header table maximum"];
  at("table").replaceChildren(
    windowShown(entries(all["header table entries"]), all["header table octets"], 0, Math.max(max, 1), null, `of at most ${number(max)} octets; the limit in force is ${number(all["own HEADER_TABLE_SIZE in force"])}`, isNew),
    rows.length ? make("div", { class: "scroll", tabindex: 0, role: "group", "aria-label": "Entries" }, tableOf(heads("#index", "name", "value", "#size"), rows)) : "");
}
function show() {
  const s = stateAt(run, run.place);
  showItem(run.items[run.place]);
  showChanges(s);
  showState(s);
  showWords();
}
// The explanation of a run in parts: `#N ..` begins that of item N, `@ ..` what is said at the end. All other lines are indented.
function partsOf(it) {
  if (it.parts) return it.parts;
  const { text, fault } = engine.explanation(it.config, it.answers, it.octets);
  it.words = text;
  if (fault) return it.parts = [{ text: `There is no explanation: fault ${fault}. ${fault < 3 ? TOO_LONG : ""}`, place: countOf(it) }];
  return it.parts = text.split(/^(?=[#@])/m).map(part => ({ text: part, place: part[0] === "#" ? parseInt(part.slice(1)) : countOf(it) }));
}
// A duty and the section that says so, as a link: `server MUST 5.1.1`.
function dutyTag(words, section) {
  const [, rfc, number] = section.split(" ");
  return make("span", { class: "tag" }, make("a", { href: `https://www.rfc-editor.org/rfc/rfc${rfc}#section-${number}`, rel: "noreferrer", target: "_blank", text: `${words} ${rfc === "9113" ? "" : `RFC ${rfc} `}${number}` }));
}
// Why an item is an error or is ignored: its rule and its sentence, and what other servers may do, where it is explained in words.
function whyShown(item) {
  const rule = item.error ?? item.ignored, words = run.parts || run.octets.length <= WORDY ? partsOf(run).find(it => it.place === item.item && it.text[0] === "#")?.text : "";
  const tags = [make("b", { class: "tag", text: rule.cause ?? rule.reason }), dutyTag(rule.server === "own" ? "server's choice" : rule.server, rule.section), dutyTag({ nothing: "client broke nothing", limit: "above a limit" }[rule.client] ?? rule.client, rule.client_section)];
  return [make("div", { class: "row" }, ...tags), ...[rule.sentence, words?.match(/^ +(others may: .*)$/m)?.[1]].filter(Boolean).map(text => make("span", { text }))];
}
// What `explain --brief` leaves of a part: its first line, why it is an error or is ignored, its warnings, and what is sent for it.
function briefOf(text) {
  let isWhy = false;
  return text.split("\n").filter((line, n) => {
    const isSentence = isWhy;
    isWhy = /^ +((connection|stream) error [A-Z0-9_]+|ignored|warning): /.test(line);
    return isWhy || isSentence || !n || text[0] === "@" || !line || /^ +(also: |sent )/.test(line);
  }).join("\n");
}
let allLines = false;
const roleOf = line => /^[#@]/.test(line) ? "h" : /^ +(connection|stream) error [A-Z0-9_]+: /.test(line) ? "e" : /^ +(ignored|warning): /.test(line) ? "w" : "";
function showWords() {
  const box = at("words");
  if (!run.parts && run.octets.length > WORDY) {
    const now = run;
    box.replaceChildren(make("button", { text: `Explain all ${number(countOf(now))} items`, onclick: () => { partsOf(now); showWords(); } }));
    return;
  }
  const parts = partsOf(run), near = parts.findIndex(it => it.place >= run.place), most = run.words.length > LONG ? 100 : parts.length;
  const shownParts = parts.slice(Math.max(0, near - most), near + most);
  box.replaceChildren(...shownParts.map(part => make("span", { class: part.place === run.place ? "part now" : "part", onclick: () => select(part.place) }, ...(allLines ? part.text : briefOf(part.text)).trimEnd().split("\n").map(line => make("span", { class: roleOf(line), text: line + "\n" })))));
  const now = box.querySelector(".now");
  box.scrollTop = now ? now.offsetTop - box.clientHeight / 3 : 0;
}

// ---- copy as
const quoted = word => /^[\w./:=+-]+$/.test(word) ? word : `'${word.replaceAll("'", "'\\''")}'`;
const optionWords = () => LIMITS.filter(it => typed.config[it[0]] !== it[2]).flatMap(it => [it[5], String(typed.config[it[0]])]);
const commandWords = () => [...optionWords(), ...typed.answers.map(answerWord)].map(quoted);
const COPIES = {
  Hex: () => hexOf(run.octets) + "\n",
  Script: () => engine.scriptOf(run.octets).text,
  "C array": () => { const lines = []; for (let i = 0; i < run.octets.length; i += 12) lines.push("    " + [...run.octets.subarray(i, i + 12)].map(it => "0x" + it.toString(16).padStart(2, "0")).join(", ") + ","); return `static const unsigned char octets[${run.octets.length}] = {\n${lines.join("\n")}\n};\n`; },
  Explanation: () => { partsOf(run); if (!run.words) throw new Error("there is none"); return run.words; },
  "Case for check": caseText,
  "Command line": () => `printf '%s' ${hexOf(run.octets) || "''"} | ./h2_bench explain ${commandWords().join(" ")}`.trimEnd() + "\n",
  Link: () => location.href.split("#")[0] + hash(true) + "\n",
};
function caseText() {
  const lines = [";# What the server does with these octets"], words = commandWords(), { items, octets } = run;
  if (words.length) lines.push(";@ " + words.join(" "));
  // What is sent for an item, and its cause, as `check --bless` writes them.
  const expect = item => lines.push(...sentLines(item).map(it => ";< " + it), ...(item.error ? [";! " + item.error.cause] : []));
  const isWhole = item => item && (!item.frame || item.offset + 9 + item.frame.length <= octets.length), isBad = items[1]?.error && !items[1].frame;
  engine.scriptOf(octets).text.trimEnd().split("\n").forEach((line, n) => { lines.push(line); if (!isBad && isWhole(items[n + 1]) && n < 5000) expect(items[n + 1]); });
  if (isBad) expect(items[1]);
  return lines.join("\n") + "\n";
}
async function copy(name) {
  let text;
  try { text = COPIES[name](); } catch (e) { at("said").textContent = "Nothing was copied."; return; }
  try { await navigator.clipboard.writeText(text); } catch {
    const box = make("textarea", { style: "position:fixed;opacity:0" });
    box.value = text;
    document.body.append(box); box.select(); document.execCommand("copy"); box.remove();
  }
  at("said").textContent = `Copied: ${name}.`;
  const button = [...at("copies").children].find(it => it.dataset.name === name);
  button.textContent = "Copied";
  setTimeout(() => button.textContent = name, 1200);
}

// ---- the whole state in the link
function hash(all = false) {
  const words = new URLSearchParams(), isFile = typed.source === "file";
  if (isFile && run?.octets.length > 30000 && !all) return "#long";
  const text = isFile ? hexOf(run?.octets ?? []) : typed[typed.source].replace(typed.source === "hex" ? /\s+/g : /$^/, "");
  if (text.length > 60000 && !all) return "#long";
  words.set(typed.source === "script" ? "script" : "hex", text);
  for (const it of LIMITS) if (typed.config[it[0]] !== it[2]) words.set(it[0], typed.config[it[0]]);
  for (const it of typed.answers) words.append("answer", answerWord(it));
  if (typed.place !== null) words.set("item", typed.place);
  return "#" + words;
}
function link() { try { history.replaceState(null, "", hash()); } catch {} }
function fromHash() {
  const words = new URLSearchParams(location.hash.slice(1));
  if (!words.has("script") && !words.has("hex")) return false;
  typed = fresh();
  typed.source = words.has("script") ? "script" : "hex";
  typed[typed.source] = words.get(typed.source);
  for (const it of LIMITS) if (words.has(it[0])) typed.config[it[0]] = Number(words.get(it[0])) >>> 0;
  typed.answers = words.getAll("answer").map(answerOf);
  typed.place = words.has("item") ? Math.max(0, Number(words.get("item")) | 0) : null;
  return true;
}
function answerOf(word) {
  const [method = "", path = "", status = "", body = "", ...more] = word.split("|");
  return { method, path, status, body, fields: more.filter(it => it !== "early").join("\n"), early: more.includes("early") };
}

// ---- the server's limits and answers
function showServer() {
  const words = optionWords();
  at("server-words").textContent = `${words.length ? words.join(" ") : "default limits"}, ${typed.answers.length ? counted(typed.answers.length, "answer") : "no answers, so 404"}`;
}
function fillServer() {
  at("limits").replaceChildren(...LIMITS.map(([key, words, , least, most]) => make("label", {}, make("span", { text: words }), make("input", { type: "number", min: least, max: most, value: typed.config[key], title: `${least} to ${most}`, oninput(e) { typed.config[key] = e.target.value === "" ? 0 : Number(e.target.value) >>> 0; showServer(); typing2(); } }))));
  at("answers").replaceChildren(...typed.answers.map((answer, n) => {
    const input = (key, words, more = {}) => make("label", {}, make("span", { text: words }), make("input", { value: answer[key], ...more, oninput(e) { answer[key] = e.target.value; typing2(); } }));
    return make("div", { class: "answer", role: "group", "aria-label": `Answer ${n + 1}` }, input("method", "Method"), input("path", "Path"), input("status", "Status", { inputmode: "numeric" }), input("body", "Body, in hex", { class: "mono" }), input("fields", "Fields: name=value"),
      make("label", { class: "early" }, make("input", { type: "checkbox", ...(answer.early ? { checked: true } : {}), onchange(e) { answer.early = e.target.checked; typing2(); } }), "early"),
      make("button", { text: "Remove", onclick() { typed.answers.splice(n, 1); fillServer(); typing2(); } }));
  }));
  showServer();
}
const typing2 = () => later(80);
function fillAll() { for (const id of ["script", "hex"]) at(id).value = typed[id]; fillServer(); }

// ---- beginning
function beginWith(it) {
  typed = fresh();
  typed.script = it.script;
  for (let i = 0; i < it.words.length; i++) {
    const limit = LIMITS.find(row => row[5] === it.words[i]);
    if (limit) typed.config[limit[0]] = Number(it.words[++i]) >>> 0;
    else if (it.words[i].includes("|")) typed.answers.push(answerOf(it.words[i]));
  }
  fillAll();
  play();
}
function fillStock() {
  for (const group of new Set(stock.map(it => it.group))) at("begin").append(make("optgroup", { label: group }, ...stock.map((it, n) => [it, n]).filter(([it]) => it.group === group).map(([it, n]) => make("option", { value: n, text: it.name }))));
  at("begin").onchange = e => { if (e.target.value !== "") beginWith(stock[Number(e.target.value)]); };
}
async function main() {
  try {
    engine = window.ENGINE ?? engineOf(await WebAssembly.compile(await inflate(WASM)));
    stock = window.STOCK ?? JSON.parse(new TextDecoder().decode(await inflate(STOCK)));
  } catch (e) {
    showFault([make("b", { text: "This browser can't run the page's code. " }), `It needs WebAssembly with 64-bit memory: Chrome or Edge 133, Firefox 134, or later. (${e.message})`]);
    return;
  }
  fillStock();
  for (const id of ["script", "hex"]) { at(id).addEventListener("input", () => typing(id)); at(id).addEventListener("scroll", () => at(`${id}-mark`).scrollTop = at(id).scrollTop); }
  at("file").onchange = async e => {
    const file = e.target.files[0];
    if (!file) return;
    const octets = new Uint8Array(await file.arrayBuffer()), text = octets.length < 16777216 ? new TextDecoder().decode(octets) : "";
    typed = { ...fresh(), config: typed.config, answers: typed.answers };
    if (/\.h2$/.test(file.name)) typed.script = text;
    else if ((!readHex(text.slice(0, 4096)).bad && /^[\s0-9a-fA-F]*$/.test(text)) || readDump(text)) { typed.source = "hex"; typed.hex = text; }
    else { typed.source = "file"; typed.file = octets; }
    fillAll();
    play();
  };
  at("add-answer").onclick = () => { typed.answers.push(answerOf("GET|/|200|6869")); fillServer(); play(); };
  at("copies").replaceChildren(...Object.keys(COPIES).map(name => make("button", { "data-name": name, text: name, onclick: () => copy(name) })));
  at("all-lines").onclick = () => { allLines = !allLines; at("all-lines").setAttribute("aria-pressed", allLines); if (run) showWords(); };
  at("octets").onmouseover = at("octets").onfocusin = e => { if (e.target.about) at("octets").title = ""; };
  const go = by => { if (run) select(Math.max(0, Math.min(countOf(run), by))); };
  at("first").onclick = () => go(0); at("last").onclick = () => go(Infinity); at("back").onclick = () => go(run.place - 1); at("next").onclick = () => go(run.place + 1);
  addEventListener("keydown", e => {
    if (e.ctrlKey || e.metaKey || e.altKey || /^(TEXTAREA|INPUT|SELECT)$/.test(e.target.tagName) || !run) return;
    const to = { ArrowLeft: run.place - 1, ArrowRight: run.place + 1, Home: 0, End: Infinity }[e.key];
    if (to === undefined) return;
    e.preventDefault();
    go(to);
    at("lanes").querySelector("[aria-current]")?.focus({ preventScroll: true });
  });
  addEventListener("hashchange", () => { if (fromHash()) { fillAll(); play(); } });
  if (fromHash()) { fillAll(); play(); } else beginWith(stock[0]);
  window.h2 = { get run() { return run; }, get typed() { return typed; }, get engine() { return engine; }, stock, play, select, copies: COPIES, readHex, readDump, briefOf, stateAt, countOf, hash, beginWith };
  document.body.dataset.ready = "1";
}
main();
