// tools/lint refuses what the program refuses, by the same line and cause, and says what it should about each bad line.
import assert from "node:assert/strict";
import fs from "node:fs";
import os from "node:os";
import { RECORDING_BYTES } from "../lib/cli.mjs";
import { LIMITS } from "../lib/grammar.mjs";
import { badLines } from "../lib/lint.mjs";
import { draws, mutated } from "../lib/mutations.mjs";
import { inFolder, launch, recordings, test, tool } from "../lib/testing.mjs";

const MUTATIONS = 150;
const MUTATIONS_LONG = 20000;
const SEED = 35;
const SMALL = 20000;

// The program's refusal of a recording, or none: a folder that isn't formatted is refused after the lines.
async function refusal(program, folder, recording) {
  const { status, output } = await launch.later(program, ["replay"], { folder, input: recording });
  if (status === 3 || status === 10) return `${status} ${output}`;
  assert.equal(`${status} ${output}`, "7 error: not formatted\n");
  return "none";
}

// The same by lint, of the first bad line.
function found(recording) {
  if (recording.length > RECORDING_BYTES) return "10 error: too large: recording\n";
  const { value } = badLines(recording).next();
  return value ? `${value.cause.startsWith("too large") ? 10 : 3} error: line ${value.line}: ${value.cause}\n` : "none";
}

// The same of a recording with the transcript and the status that are stated beside it; the gate compares the program with them.
function stated(name) {
  const beside = (ending) => name.replace(/jsonl$/, ending), file = ["stdout", "transcript"].map(beside).find((path) => fs.existsSync(path));
  const status = fs.existsSync(beside("status")) ? fs.readFileSync(beside("status"), "utf8").trim() : "0";
  return status === "3" || status === "10" ? `${status} ${fs.readFileSync(file, "utf8")}` : "none";
}

test("lint agrees with what is stated of all recordings", () => {
  for (const name of recordings()) assert.equal(found(fs.readFileSync(name)), stated(name), name);
});

// Compares lint with the program on so many mutated recordings, several side by side, each in a folder of its own; answers how often each cause came.
async function compareMutated(program, count) {
  const draw = draws(SEED), sources = recordings().map((name) => fs.readFileSync(name)).filter((bytes) => bytes.length < SMALL), causes = {};
  let made = 0;
  const comparing = async (folder) => {
    while (made < count) {
      made++;
      const recording = mutated(draw, sources[draw(sources.length)]), mine = found(recording);
      assert.equal(mine, await refusal(program, folder, recording), recording.toString());
      const cause = mine.replace(/^.*: line \d+: |\n$/g, "");
      causes[cause] = (causes[cause] ?? 0) + 1;
    }
  };
  await Promise.all(Array.from({ length: os.availableParallelism() }, () => inFolder.later(comparing)));
  return causes;
}

test.ofProgram(`lint agrees with the program on ${MUTATIONS} mutated recordings`, async (program) => {
  assert.ok(Object.keys(await compareMutated(program, MUTATIONS)).length > 3);
});

test.long(`lint agrees with the program on ${MUTATIONS_LONG} mutated recordings`, async (program) => {
  console.log(await compareMutated(program, MUTATIONS_LONG));
});

// ---- limits and corners, each as one recording

const fetchLine = (more) => ({ fetch: "https://a.test/", status: 200, ...more });
const action = (what, more) => ({ lane: 0, do: what, ...more });
const onCache = (what, more) => action(what, { at: "https://a.test/", name: "v", ...more });
const many = (count, of) => Array.from({ length: count }, () => of);
const text = (length) => "a".repeat(length);
const json = (...lines) => lines.map((line) => `${JSON.stringify(line)}\n`).join("");

const CORNERS = [
  ["a body of the most bytes", json(fetchLine({ text: text(LIMITS.body) })), "none"],
  ["a body of a byte more", json(fetchLine({ text: text(LIMITS.body + 1) })), "10 error: line 1: too large: body\n"],
  ["the same in base64", json(fetchLine({ body: Buffer.alloc(LIMITS.body).toString("base64") })), "none"],
  ["a byte more in base64", json(fetchLine({ body: Buffer.alloc(LIMITS.body + 1).toString("base64") })), "10 error: line 1: too large: body\n"],
  ["a long text in characters of two bytes", json(onCache("cacheOpen", { name: "é".repeat(LIMITS.text / 2) })), "none"],
  ["a byte more of them", json(onCache("cacheOpen", { name: `a${"é".repeat(LIMITS.text / 2)}` })), "10 error: line 1: too large: text\n"],
  ["a long header name", json(fetchLine({ headers: [[text(65535), "b"]] })), "none"],
  ["a header name too long", json(fetchLine({ headers: [[text(65536), "b"]] })), "3 error: line 1: header\n"],
  ["all headers", json(fetchLine({ headers: many(LIMITS.headers, ["a", "b"]) })), "none"],
  ["a header too many", json(fetchLine({ headers: many(LIMITS.headers + 1, ["a", "b"]) })), "10 error: line 1: too large: headers\n"],
  ["all operations", json(onCache("batch", { operations: many(LIMITS.operations, { delete: "/x" }) })), "none"],
  ["an operation too many", json(onCache("batch", { operations: many(LIMITS.operations + 1, { delete: "/x" }) })), "10 error: line 1: too large: operations\n"],
  ["all calls", json(fetchLine({ install: { calls: many(LIMITS.calls, { do: "claim" }) } })), "none"],
  ["a call too many", json(fetchLine({ install: { calls: many(LIMITS.calls + 1, { do: "claim" }) } })), "10 error: line 1: too large: calls\n"],
  ["the last lane", json({ ...action("end", { event: 0 }), lane: LIMITS.lane }), "none"],
  ["a lane too many", json({ ...action("end", { event: 0 }), lane: LIMITS.lane + 1 }), "10 error: line 1: too large: lanes\n"],
  ["all actions", json(...many(LIMITS.actions, action("end", { event: 0 }))), "none"],
  ["an action too many", json(...many(LIMITS.actions + 1, action("end", { event: 0 }))), `10 error: line ${LIMITS.actions + 1}: too large: actions\n`],
  ["a value deep within an unknown member", `{"x":${"[".repeat(126)}${"]".repeat(126)}}`, "3 error: line 1: form\n"],
  ["one level more", `{"x":${"[".repeat(127)}${"]".repeat(127)}}`, "3 error: line 1: json\n"],
  ["a number past the range of floats", '{"x":1e999}', "3 error: line 1: json\n"],
  ["a lane of -0", '{"lane":-0,"do":"end","event":0}', "3 error: line 1: form\n"],
  ["a lane of 2^64 - 1", '{"lane":18446744073709551615,"do":"end","event":0}', "10 error: line 1: too large: lanes\n"],
  ["a lane of 2^64", '{"lane":18446744073709551616,"do":"end","event":0}', "3 error: line 1: form\n"],
  ["a doubled member: the last one counts", '{"lane":0,"do":"end","event":"x","event":0}', "none"],
  ["a byte order mark", '\ufeff{"lane":0,"do":"end","event":0}', "3 error: line 1: json\n"],
  ["bytes that aren't UTF-8", Buffer.from([0x22, 0xff, 0x22]), "3 error: line 1: json\n"],
  ["blank lines are counted", " \t\r\n\n{\n", "3 error: line 3: json\n"],
  ["a label of Punycode that can't be decoded", json({ fetch: "https://user@xn--a.%78N--b.test:8/", status: 200 }), "none"],
  ["the same in a host that isn't ASCII", json({ fetch: "https://xn--a.é.test/", status: 200 }), "3 error: line 1: address\n"],
  ["a header before base64 before an address", json({ fetch: "x", status: 200, headers: [["a b", ""]], body: "!" }), "3 error: line 1: header\n"],
  ["an await of a bad line's promise", json(action("register", { client: 1 }), action("await", { of: 0 })), "3 error: line 1: form\n"],
  ["a recording too large", " ".repeat(RECORDING_BYTES + 1), "10 error: too large: recording\n"],
].map(([name, recording, wanted]) => ({ name, recording: Buffer.from(recording), wanted }));

test("lint finds the limits and corners", () => {
  for (const { name, recording, wanted } of CORNERS) assert.equal(found(recording), wanted, name);
});

async function compareCorners(program, corners) {
  await inFolder.later(async (folder) => {
    for (const { name, recording, wanted } of corners) assert.equal(await refusal(program, folder, recording), wanted, name);
  });
}

test.ofProgram("the program has the same limits and corners, but for large recordings", (program) =>
  compareCorners(program, CORNERS.filter(({ recording }) => recording.length < SMALL)));
test.long("the program has the same limits for large recordings", (program) => compareCorners(program, CORNERS.filter(({ recording }) => recording.length >= SMALL)));

// ---- what is said

const said = (line) => [...badLines(Buffer.from(line))].flatMap(({ flaws }) => flaws.map(({ cause, at, path, suggestion }) => [cause, at + 1, path, suggestion]));

const SAID = [
  ['{"lane":0,"do":"opne","client":1,"url":"/"}', ["form", 16, "do", '"open"']],
  ['{"lane":0,"do":"open","client":"1","url":"/"}', ["form", 32, "client", "1"]],
  ['{"lane":0,"do":"open","client":1,"url":"/","partition":null}', ["form", 56, "partition", "leave the member out"]],
  ['{"lane":0,"do":"open","client":1,"url":"/","partiton":"a"}', ["form", 44, "partiton", "`partition`"]],
  ['{"lane":0,"do":"skipWaiting","client":1,"scope":"/","slot":"wating"}', ["form", 60, "slot", '"waiting"']],
  ['{"lane":0,"do":"match","at":"/","request":"/","ignoreVary":"true"}', ["form", 60, "ignoreVary", "true"]],
  ['{"lane":0,"do":"end","event":1.0}', ["form", 30, "event", "1"]],
  ['{"lane":0,"do":"open","client":1,"url":"/","other":0}', ["form", 44, "other", "one of `partition`"]],
  [`{"lane":0,"do":"end","event":1,"${"x".repeat(100)}":0}`, ["form", 32, `${"x".repeat(60)}..`, undefined]],
  ['{"fech":"https://a.test/"}', ["form", 1, "", "`fetch` in place of `fech`"]],
  ['{"fetch":"a.test/x","status":200}', ["address", 10, "fetch", '"https://a.test/x"']],
  ['{"fetch":"https://a.test/","status":200,"body":"YQ"}', ["base64", 48, "body", '"YQ=="']],
  ['{"fetch":"https://a.test/","status":200,"headers":{"A":"b"}}', ["form", 51, "headers", '[["A","b"]]']],
  ['{"fetch":"https://a.test/","status":200,"headers":[["A ","b"]]}', ["header", 53, "headers[0][0]", '"A"']],
  ['{"lane":0,"do":"end","event":1,}', ["json", 32, "", "leave it out"]],
  ["{'lane':0}", ["json", 2, "", undefined]],
  ['{"lane":0,', ["json", 11, "", "write the whole object on one line"]],
];

test("lint says the place and a suggestion", () => {
  for (const [line, wanted] of SAID) assert.deepEqual(said(line), [wanted], line);
});

test("lint goes on behind a bad line, and tells which positions can be awaited", () => {
  const lines = ['{"lane":0,"do":"register","client":1}', '{"lane":0,"do":"end","event":0}', '{"lane":0,"do":"await","of":0}', '{"lane":0,"do":"await","of":1}'];
  const bad = [...badLines(Buffer.from(lines.join("\n")))];
  assert.deepEqual(bad.map(({ line, cause, flaws }) => [line, cause, flaws.length]), [[1, "form", 1], [4, "await", 1]]);
  assert.equal(bad[1].flaws[0].suggestion, "0 (register)");
});

test("lint's words, statuses and outputs", () => {
  const good = json(action("end", { event: 0 })), bad = json(action("end", { event: "0" }));
  assert.deepEqual(tool("lint", [], good), { status: 0, output: "", errors: "" });
  const place = `  ${bad}${" ".repeat(31)}^\n  column 30, event: a text in place of a whole number from 0 to 4294967295\n  try: 0\n`;
  assert.deepEqual(tool("lint", ["-"], bad), { status: 3, output: `error: line 1: form\n${place}`, errors: "" });
  assert.deepEqual(JSON.parse(tool("lint", ["--json"], bad).output), {
    line: 1, column: 30, cause: "form", member: "event", meaning: "a text in place of a whole number from 0 to 4294967295", suggestion: "0",
  });
  assert.equal(tool("lint", [], json({ ...action("end", { event: 0 }), lane: 64 })).status, 10);
  assert.deepEqual(tool("lint", [], " ".repeat(RECORDING_BYTES + 1)), { status: 10, output: "error: too large: recording\n", errors: "" });
  assert.equal(tool("lint", ["--other"]).status, 2);
  assert.equal(tool("lint", ["/nothing/here"]).status, 4);
  assert.match(tool("lint", ["--help"]).output, /^tools\/lint \[--json\] \[FILE\]\n/);
});
