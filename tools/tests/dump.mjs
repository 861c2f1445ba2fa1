// tools/dump reads every disk as the program does: those that recordings leave, older ones, torn ones, cut ones and changed
// ones; and it makes recordings of the same caches.
import assert from "node:assert/strict";
import fs from "node:fs";
import path from "node:path";
import { Refused } from "../lib/cli.mjs";
import { readJournal, readParts } from "../lib/disk.mjs";
import { fresh, pooled, write } from "../lib/disks.mjs";
import { asJson, asRecording } from "../lib/dump.mjs";
import { keptAfter, keptOf, shown } from "../lib/kept.mjs";
import { badLines } from "../lib/lint.mjs";
import { draws } from "../lib/mutations.mjs";
import { inFolder, launch, recordings, test, tool, top } from "../lib/testing.mjs";

const CHANGED_DISKS = 120;
const SEED = 35;

// What dump makes of parts: its status, and what --show prints, or the line of the refusal.
function dumped(parts) {
  try {
    return { status: 0, output: shown(keptAfter(readJournal(parts).changes)) };
  } catch (fault) {
    if (!(fault instanceof Refused)) throw fault;
    return { status: fault.status, output: `error: ${fault.message}\n` };
  }
}

const cachesOf = (parts) => JSON.parse(asJson(readJournal(parts), keptAfter(readJournal(parts).changes))).caches;

// What a run of the program prints, and its status.
async function ran(program, word, folder, input) {
  const { status, output } = await launch.later(program, [word], { folder, input });
  return { status, output };
}

async function agree(program, folder, name) {
  assert.deepEqual(dumped(readParts(folder)), await ran(program, "show", folder), name);
}

// The recording of a disk's caches, if it has any, makes them on a fresh disk.
async function makesTheSame(program, format, folder, name) {
  const caches = cachesOf(readParts(folder));
  if (caches.length === 0) return false;
  const recording = asRecording(keptAfter(readJournal(readParts(folder)).changes));
  await inFolder.later(async (other) => {
    format(other);
    assert.equal((await ran(program, "replay", other, recording)).status, 0, name);
    assert.deepEqual(cachesOf(readParts(other)), caches, name);
  });
  return true;
}

// A recording with a bad line leaves its disk alone.
const isRefused = (name) => badLines(fs.readFileSync(name)).next().value !== undefined;

test.ofProgram("dump shows what each recording leaves, and makes its caches again", async (program) => {
  const format = fresh(program);
  let made = 0;
  await pooled(recordings().filter((name) => !isRefused(name)), (name) => inFolder.later(async (folder) => {
    format(folder);
    await ran(program, "replay", folder, fs.readFileSync(name));
    await agree(program, folder, name);
    if (await makesTheSame(program, format, folder, name)) made++;
  }));
  assert.ok(made > 50, `${made} disks with caches`);
});

test.ofProgram("dump shows a disk on which many recordings ran, and one behind a checkpoint", (program) => inFolder.later(async (folder) => {
  const names = recordings().filter((name) => name.includes("/small/")).filter((_, at) => at % 8 === 0);
  fresh(program)(folder);
  for (const name of names) {
    await ran(program, "replay", folder, fs.readFileSync(name));
    await agree(program, folder, name);
  }
  const place = { lane: 0, at: "https://a.test/", name: "large" };
  const lines = [{ ...place, do: "cacheOpen" }, { ...place, do: "put", request: "/x", response: { status: 200, text: "a".repeat(2 ** 20) } }];
  await ran(program, "replay", folder, lines.map((line) => JSON.stringify(line)).join("\n"));
  assert.equal(readJournal(readParts(folder)).part, "right");
  await agree(program, folder, "behind a checkpoint");
}));

// ---- disks that are made by hand

const KEPT = "\x06\0\0\0\x0ehttps://a.test\0\0\0\x01v";
const ONE = 'registrations 0\ncaches 1\ncache "https://a.test" "v" 0\n';
const NONE = "registrations 0\ncaches 0\n";
const bytes = (text) => Buffer.from(text, "latin1");
const older = (gate, length = 46) => bytes(`SWHOST-JOURNAL-1${gate}\0\0\0\x18${KEPT}\0`).subarray(0, length);
const numbered = (...numbers) => bytes(`SWHOST-JOURNAL-2${numbers.map((number) => `\x01\0\0\0\x18\0\0\0\0\0\0\0${number}${KEPT}`).join("")}\0`);
const spelled = (payload) => bytes(`SWHOST-JOURNAL-1\x01\0\0\0${String.fromCharCode(payload.length)}${payload}\0`);
const bad = (offset) => ({ status: 8, output: `error: bad journal at ${offset}\n` });
const good = (output) => ({ status: 0, output });
const unformatted = { status: 7, output: "error: not formatted\n" };
const empty = Buffer.alloc(0);

const BY_HAND = [
  ["nothing", { left: empty }, unformatted],
  ["a header that is cut", { left: older("\x01", 15) }, unformatted],
  ["a header alone", { left: older("\x01", 16) }, bad(16)],
  ["an open gate alone", { left: older("\x01", 17) }, bad(16)],
  ["an open gate, cut in its payload", { left: older("\x01", 31) }, bad(16)],
  ["an open gate, cut before the next gate", { left: older("\x01", 45) }, bad(16)],
  ["an open gate", { left: older("\x01") }, good(ONE)],
  ["a torn gate", { left: older("\x07") }, good(NONE)],
  ["a closed gate, cut", { left: older("\x07", 17) }, good(NONE)],
  ["the older format under a Root of two", { root: bytes("\x01\x01\0"), left: older("\x01") }, good(ONE)],
  ["Root says the other part", { root: bytes("\x01"), left: older("\x01"), right: older("\x07") }, good(NONE)],
  ["Root says a part that isn't formatted", { root: bytes("\x01\0"), left: older("\x01") }, unformatted],
  ["a torn Root", { root: bytes("\x05\x01"), left: older("\x01") }, good(ONE)],
  ["numbers in order", { left: numbered("\0", "\x01") }, good(ONE)],
  ["a number that was passed over", { left: numbered("\0", "\x02") }, bad(53)],
  ["a number that comes again", { left: numbered("\0", "\x01", "\x01") }, bad(90)],
  ["a length past the end", { left: bytes("SWHOST-JOURNAL-2\x01\xff\xff\xff\xff") }, bad(16)],
  ["no payload", { left: spelled("") }, bad(16)],
  ["an unknown change", { left: spelled("\x0c") }, bad(16)],
  ["a change behind another", { left: spelled(`${KEPT}\x0a`) }, good(ONE)],
  ["a change that is cut", { left: spelled(`${KEPT}\x06`) }, bad(16)],
  ["a text that isn't UTF-8", { left: spelled("\x09\0\0\0\x01\xff") }, bad(16)],
  ["a switch that is neither", { left: spelled("\x0b\0\0\0\x01k\0\0\0\x01s\x02\0\0\0\0") }, bad(16)],
  ["a batch of no operations", { left: spelled("\x08\0\0\0\x01k\0\0\0\x01v\0\0\0\0") }, bad(16)],
  ["options that aren't", { left: spelled("\x08\0\0\0\x01k\0\0\0\x01v\0\0\0\x01\x01\0\0\0\x03GET\0\0\0\x01/\0\0\0\0\x08") }, bad(16)],
  ["more headers than there are bytes", { left: spelled("\x08\0\0\0\x01k\0\0\0\x01v\0\0\0\x01\x01\0\0\0\x03GET\0\0\0\x01/\xff\xff\xff\xff\0") }, bad(16)],
].map(([name, parts, wanted]) => ({ name, parts: { root: empty, left: empty, right: empty, ...parts }, wanted }));

test("dump reads disks that are made by hand", () => {
  for (const { name, parts, wanted } of BY_HAND) assert.deepEqual(dumped(parts), wanted, name);
});

test.ofProgram("the program reads them so", (program) => inFolder.later(async (folder) => {
  for (const { name, parts, wanted } of BY_HAND) {
    write(folder, parts);
    assert.deepEqual(await ran(program, "show", folder), wanted, name);
  }
}));

// ---- disks that were changed

// A put, spelled with one operation, of a request and a response.
const text = (value) => `\0\0\0${String.fromCharCode(value.length)}${value}`;
const headers = (list) => `\0\0\0${String.fromCharCode(list.length)}${list.map(([name, value]) => text(name) + text(value)).join("")}`;
const request = (url, method, list) => text(method) + text(url) + headers(list);
const put = (url, { method = "GET", asked = [], status = "\0\xc8", answered = [] } = {}) =>
  `\x02${request(url, method, asked)}${status}${headers(answered)}${text("")}`;
const remove = (url, options, { method = "GET", asked = [] } = {}) => `\x01${request(url, method, asked)}${options}`;
const batch = (...operations) => `\x08${text("k")}${text("v")}\0\0\0${String.fromCharCode(operations.length)}${operations.join("")}`;

const A = "https://a.test/", varied = { asked: [["accept", "a"]], answered: [["Vary", "Accept"]] };
const BATCHES = [
  ["a put in place of another", [batch(put(A), put(`${A}?q`)), batch(put(`${A}#f`))], 2],
  ["a batch that throws", [batch(put(A)), batch(put(`${A}x`), put(`${A}x`))], 1],
  ["a put that Vary keeps apart", [batch(put(A, varied)), batch(put(A, { ...varied, asked: [["Accept", "b"]] }))], 2],
  ["Vary of all", [batch(put(A, { answered: [["vary", "a, *"]] }))], 0],
  ["another method", [batch(put(A, { method: "POST" }))], 0],
  ["a partial response", [batch(put(A, { status: "\0\xce" }))], 0],
  ["another scheme", [batch(put("ftp://a.test/"))], 0],
  ["a delete by another method", [batch(put(A)), batch(remove(A, "\0", { method: "HEAD" }))], 1],
  ["the same, the method ignored", [batch(put(A)), batch(remove(A, "\x02", { method: "HEAD" }))], 0],
  ["a delete without the query", [batch(put(`${A}?a`), put(`${A}?b`), put(`${A}b`)), batch(remove(A, "\x01"))], 1],
  ["a delete that Vary keeps", [batch(put(A, varied)), batch(remove(A, "\0"))], 1],
  ["the same, Vary ignored", [batch(put(A, varied)), batch(remove(A, "\x04"))], 0],
  ["a delete of what the batch added", [batch(put(A), remove(A, "\0"))], 0],
].map(([name, changes, pairs]) => ({ name, pairs, payloads: [`\x06${text("k")}${text("v")}`, ...changes] }));

const lengthOf = (payload) => `\0\0${String.fromCharCode(payload.length >> 8, payload.length & 255)}`;
const disk = (payloads) => ({ root: empty, left: bytes(`SWHOST-JOURNAL-1${payloads.map((payload) => `\x01${lengthOf(payload)}${payload}`).join("")}\0`), right: empty });

test("dump carries batches out", () => {
  for (const { name, payloads, pairs } of BATCHES) assert.equal(dumped(disk(payloads)).output, `registrations 0\ncaches 1\ncache "k" "v" ${pairs}\n`, name);
});

test.ofProgram("the program carries them out so", (program) => inFolder.later(async (folder) => {
  for (const { name, payloads } of BATCHES) {
    write(folder, disk(payloads));
    await agree(program, folder, name);
  }
}));

test.ofProgram(`dump and the program agree on ${CHANGED_DISKS} changed disks`, (program) => inFolder.later(async (folder) => {
  const draw = draws(SEED), names = recordings().filter((name) => name.includes("/small/")), format = fresh(program), statuses = new Set();
  for (let count = 0; count < CHANGED_DISKS; count++) {
    if (count % 10 === 0) {
      format(folder);
      for (let runs = 0; runs < 3; runs++) await ran(program, "replay", folder, fs.readFileSync(names[draw(names.length)]));
    }
    const parts = readParts(folder), left = Buffer.from(parts.left);
    left[draw(left.length)] = draw(4) === 0 ? draw(256) : draw(3);
    const changed = { ...parts, left: draw(6) === 0 ? left.subarray(0, draw(left.length)) : left };
    await inFolder.later(async (other) => {
      write(other, changed);
      await agree(program, other, changed.left.toString("hex"));
    });
    statuses.add(dumped(changed).status);
  }
  assert.deepEqual([...statuses].sort(), [0, 7, 8]);
}));

// ---- words, statuses and texts

test("what show prints is read again", () => {
  const texts = recordings().map((name) => name.replace(/jsonl$/, "show")).filter((name) => fs.existsSync(name)).map((name) => fs.readFileSync(name, "utf8"));
  assert.ok(texts.length > 300);
  for (const shownText of texts) {
    const { registrations, caches } = keptOf(shownText);
    const body = (worker) => worker && { ...worker, body: { length: worker.length } };
    const rows = registrations.map((row) => ({ ...row, waiting: body(row.waiting), active: body(row.active) }));
    assert.equal(shown({ registrations: rows, caches: caches.map((cache) => ({ ...cache, pairs: { byNumber: new Map([...Array(cache.count).keys()].entries()) } })) }), shownText);
  }
  assert.throws(() => keptOf(" preload on \"x\"\n"), Refused);
  assert.throws(() => keptOf("registration a b c\n"), Refused);
});

test("dump's words, statuses and outputs", () => inFolder((folder) => {
  const dump = (...words) => launch(path.join(top, "tools/dump"), words, { folder });
  assert.deepEqual(dump("--show"), { status: 7, output: "", errors: "error: not formatted\n" });
  write(folder, { left: older("\x01") });
  assert.deepEqual(dump("--show"), { status: 0, output: ONE, errors: "" });
  assert.deepEqual(JSON.parse(dump().output), {
    journal: { part: "left", format: 1, records: 1, end: 45 },
    registrations: [],
    caches: [{ key: "https://a.test", name: "v", pairs: [] }],
  });
  assert.equal(tool("dump", ["--recording", folder]).output, '{"lane":0,"do":"cacheOpen","at":"https://a.test/","name":"v"}\n');
  write(folder, { left: older("\x01", 31) });
  assert.deepEqual(dump(), { status: 8, output: "", errors: "error: bad journal at 16\n" });
  assert.deepEqual(tool("dump", [path.join(folder, "none")]), { status: 6, output: "", errors: "error: disk\n" });
  assert.equal(dump("--show", "--recording").status, 2);
  assert.match(dump("--help").output, /^tools\/dump /);
}));
