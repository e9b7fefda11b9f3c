// client.js KIND PORT UPLOAD: the requests of a file of dialogues by node's http2.
const http2 = require("http2"), fs = require("fs");
const [kind, port, upload] = process.argv.slice(2);
const settings = { enablePush: false, ...(kind === "small-window" ? { initialWindowSize: 1000 } : {}) };
const session = http2.connect("http://127.0.0.1:" + port, { settings });
let status = 0;
session.on("error", (error) => console.log("session:", error.message));
// A request that neither ends nor fails: status 1, after as long as the others wait.
setTimeout(() => { console.log("no event in 20 s"); process.exit(status | 1); }, 20000).unref();
const alive = setInterval(() => {}, 1000);

function send(bit, headers, content) {
  return new Promise((resolve) => {
    let code = 0, length = 0, failed = null;
    const request = session.request(headers, { endStream: content === undefined });
    request.on("response", (fields) => { code = fields[":status"]; });
    request.on("data", (octets) => { length += octets.length; });
    request.on("error", (error) => { failed = error.message; });
    request.on("close", () => {
      const good = code && code < 400 && !failed && !request.aborted && request.rstCode === 0;
      console.log(bit, good ? `${code} ${length}` : `fails: ${failed || request.rstCode}`);
      if (!good) status |= bit;
      resolve();
    });
    if (content !== undefined) request.end(content);
  });
}

(async () => {
  if (kind === "get" || kind === "small-window") await send(1, { ":path": "/" });
  else if (kind === "upload") await send(1, { ":path": "/p", ":method": "POST" }, fs.readFileSync(upload));
  else if (kind === "two-requests") await Promise.all([send(1, { ":path": "/1" }), send(2, { ":path": "/2" })]);
  else if (kind === "next-request") { await send(1, { ":path": "/1" }); try { await send(2, { ":path": "/2" }); } catch (error) { console.log(2, error.message); status |= 2; } }
  else process.exit(9);
  clearInterval(alive);
  session.close();
  setTimeout(() => process.exit(status), 300);
})();
