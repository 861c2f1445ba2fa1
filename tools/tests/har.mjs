// tools/har gives a recording that the program takes, and says what it leaves out.
import assert from "node:assert/strict";
import fs from "node:fs";
import path from "node:path";
import { LIMITS } from "../lib/grammar.mjs";
import { recordingOf } from "../lib/har.mjs";
import { badLines } from "../lib/lint.mjs";
import { inFolder, launch, test, tool } from "../lib/testing.mjs";

const SAMPLE = path.join(import.meta.dirname, "sample.har");
const SCRIPT = { fetch: "https://a.test/app/sw.js", status: 200, headers: [["Content-Type", "text/javascript"]], text: "// v1" };
const RECORDING = [
  { fetch: "https://a.test/", status: 200, headers: [["Content-Type", "text/html"], ["Vary", "Accept"], ["Vary", "Cookie"]], text: "<p>hi" },
  SCRIPT,
  { fetch: "https://a.test/dot.png", status: 200, headers: [["Content-Type", "image/png"]], body: "iVBORw==" },
  SCRIPT,
  { fetch: "https://a.test/gone", error: true },
  { fetch: "https://a.test/old", status: 302, headers: [["Location", "/app/"]] },
  { lane: 0, do: "open", client: 1, url: "https://a.test/#top" },
  { lane: 0, do: "register", client: 1, script: "https://a.test/app/sw.js" },
  { lane: 0, do: "await", of: 1 },
  { lane: 0, do: "update", client: 1, scope: "/app/" },
  { lane: 0, do: "await", of: 3 },
  { lane: 0, do: "open", client: 2, url: "https://a.test/app/" },
];
const LEFT_OUT = [
  "entry 1, https://a.test/#top: headers with a bad name or value, left out: 1",
  "entry 4, https://a.test/save: its method is POST, and hosts fetch by GET alone: left out",
  "entry 6, data:image/png;base64,iVBORw==: its address isn't one of http or https: left out",
  "entry 7, https://a.test/old: it is a redirect, and no redirect is followed",
  "entry 8, https://a.test/app/: a service worker answered it, and not the network: left out",
];
const written = (lines) => lines.map((line) => `${JSON.stringify(line)}\n`).join("");

test("har's recording of an archive", () => {
  const { status, output, errors } = tool("har", [SAMPLE]);
  assert.equal(status, 0);
  assert.equal(output, written(RECORDING));
  assert.equal(errors, LEFT_OUT.map((line) => `${line}\n`).join(""));
});

test.ofProgram("the program replays it", (program) =>
  inFolder((folder) => {
    launch(program, ["init"], { folder });
    const { status, output } = launch(program, ["replay"], { folder, input: tool("har", [SAMPLE]).output });
    assert.equal(status, 0);
    assert.match(output, /\nL0\.4 await -> r0\n/);
    assert.match(output, /\nend done\n$/);
  }));

// ---- single entries

function ofEntry(request, response, more = {}) {
  const said = [];
  const whole = { request: { method: "GET", url: "https://a.test/x", ...request }, response: { status: 200, headers: [], content: {}, ...response }, ...more };
  const where = `entry 0, ${String(whole.request.url).slice(0, 80)}: `;
  const lines = recordingOf({ log: { entries: [whole] } }, (text) => said.push(text.replace(where, "")));
  assert.deepEqual([...badLines(Buffer.from(written(lines)))], []);
  return { lines, said };
}

const header = (name, value) => ({ name, value });
const CASES = [
  ["a body past ASCII, as text", {}, { content: { text: "é" } }, { text: "é" }, []],
  ["bytes that aren't UTF-8", {}, { content: { text: "/w==", encoding: "base64" } }, { body: "/w==" }, []],
  ["no body where there was one", {}, { content: { size: 7 } }, {}, ["the archive lacks its body of 7 bytes, and an empty one is taken"]],
  ["a body too large", {}, { content: { text: "a".repeat(LIMITS.body + 2) } }, { text: "a".repeat(LIMITS.body) }, ["its body of 1048578 bytes is cut to 1048576"]],
  ["too many headers", {}, { headers: Array.from({ length: LIMITS.headers + 1 }, () => header("a", "b")) }, { headers: Array.from({ length: LIMITS.headers }, () => ["a", "b"]) }, ["headers behind the first 64, left out: 1"]],
  ["half of a character in a header", {}, { headers: [header("a", "\ud800")] }, {}, ["headers with a bad name or value, left out: 1"]],
  ["nothing modified, and nothing before", {}, { status: 304 }, { status: 304 }, ["it says that nothing was modified, and the archive doesn't have what was there before"]],
];

test("har's fetch lines, one by one", () => {
  for (const [name, request, response, wanted, wantedSaid] of CASES) {
    const { lines, said } = ofEntry(request, response);
    assert.deepEqual(lines, [{ fetch: "https://a.test/x", status: 200, ...wanted }], name);
    assert.deepEqual(said, wantedSaid, name);
  }
});

const LEFT_OUT_WHOLE = [
  [{ url: `https://a.test/${"x".repeat(LIMITS.text)}` }, "its address has more than 4096 bytes: left out"],
  [{ url: "https://a.test/\ud800" }, "its address isn't one of http or https: left out"],
  [{ url: undefined }, "it has no request or no response: left out"],
  [{ method: "HEAD" }, "its method is HEAD, and hosts fetch by GET alone: left out"],
];

test("what har leaves out whole", () => {
  for (const [request, wanted] of LEFT_OUT_WHOLE) assert.deepEqual(ofEntry(request, {}), { lines: [], said: [wanted] });
});

test("har's pages where the browser doesn't tell what an entry is for", () => {
  const page = { content: { mimeType: "text/html; charset=utf-8" } };
  assert.deepEqual(ofEntry({}, page).lines[1], { lane: 0, do: "open", client: 1, url: "https://a.test/x" });
  assert.equal(ofEntry({}, { ...page, status: 204 }).lines.length, 1);
  assert.equal(ofEntry({}, page, { _resourceType: "fetch" }).lines.length, 1);
});

test("har's words and statuses", () => {
  for (const input of ["", "{}", '{"log":{}}', Buffer.from([0xff])]) {
    assert.deepEqual(tool("har", [], input), { status: 3, output: "", errors: "error: no archive with log.entries\n" });
  }
  assert.deepEqual(tool("har", [], '\ufeff{"log":{"entries":[]}}'), { status: 0, output: "", errors: "" });
  assert.equal(tool("har", ["--other"]).status, 2);
  assert.equal(tool("har", ["/nothing/here"]).status, 4);
  assert.match(tool("har", ["--help"]).output, /^tools\/har \[FILE\]\n/);
});
