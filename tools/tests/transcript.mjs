// tools/transcript gives back each transcript byte for byte, and refuses what is none.
import assert from "node:assert/strict";
import fs from "node:fs";
import path from "node:path";
import { readLine, writeLine } from "../lib/transcript.mjs";
import { inFolder, launch, recordings, test, tool, top } from "../lib/testing.mjs";

function transcripts() {
  return recordings().flatMap((name) => ["stdout", "transcript", "lines"].map((ending) => name.replace(/jsonl$/, ending))).filter((name) => fs.existsSync(name));
}

function comesBack(text, name) {
  for (const line of text.split("\n").slice(0, -1)) {
    const object = readLine(line);
    assert.ok(object, `${name}: ${line}`);
    assert.equal(writeLine(JSON.parse(JSON.stringify(object))), line, name);
  }
}

test("each line of all transcripts comes back", () => {
  const names = transcripts();
  // a recording for several threads has what each lane prints, and no transcript
  assert.equal(names.length, recordings().filter((name) => !fs.existsSync(name.replace(/jsonl$/, "lanes"))).length);
  for (const name of names) comesBack(fs.readFileSync(name, "utf8"), name);
});

test.ofProgram("a transcript that the program has just printed comes back", (program) =>
  inFolder((folder) => {
    assert.equal(launch(program, ["init"], { folder }).output, "formatted\n");
    const { output } = launch(program, ["replay"], { folder, input: fs.readFileSync(path.join(top, "examples/page.jsonl")) });
    const there = tool("transcript", [], output);
    assert.equal(there.status, 0);
    assert.deepEqual(tool("transcript", ["--back"], there.output), { status: 0, output, errors: "" });
  }));

const LINES = [
  ["L0.1 register -> j1 joined j0", { by: "lane", lane: 0, at: 1, event: "register", answer: { job: 1, joined: 0 }, notices: [] }],
  ["w2.activate.3 put -> TypeError vary", { by: "handler", worker: 2, phase: "activate", call: 3, event: "put", answer: { fault: "TypeError", cause: "vary" }, notices: [] }],
  ["L0.0 batch -> InvalidStateError 3", { by: "lane", lane: 0, at: 0, event: "batch", answer: { fault: "InvalidStateError", index: 3 }, notices: [] }],
  ["- run j0 -> fetch 0 | mapped r0", { by: "host", event: "run", of: { job: 0 }, answer: { fetch: 0 }, notices: [{ notice: "mapped", registration: 0 }] }],
  ['L1.0 cacheKeys -> 2 "a | b" "\\"c -> d\\u0001"', { by: "lane", lane: 1, at: 0, event: "cacheKeys", answer: { count: 2, first: ["a | b", '"c -> d\u0001'] }, notices: [] }],
  ["L0.0 keys -> 0", { by: "lane", lane: 0, at: 0, event: "keys", answer: { count: 0, first: [] }, notices: [] }],
  ["L0.0 keys -> 2 4 5", { by: "lane", lane: 0, at: 0, event: "keys", answer: { count: 2, first: [4, 5] }, notices: [] }],
  ["L0.0 registrations -> 1 r4", { by: "lane", lane: 0, at: 0, event: "registrations", answer: { count: 1, first: [{ registration: 4 }] }, notices: [] }],
  ['L0.0 preloadState -> off "a | b"', { by: "lane", lane: 0, at: 0, event: "preloadState", answer: { preload: { enabled: false, value: "a | b" } }, notices: [] }],
  ['L0.0 match -> hit "v -> 1" 0 200 3', { by: "lane", lane: 0, at: 0, event: "match", answer: { hit: { cache: "v -> 1", place: 0, status: 200, length: 3 } }, notices: [] }],
  ["end stalled 3", { end: "stalled", lane: 3 }],
  ["end disk L0.1 put, - run j0", { end: "disk", refused: ["L0.1 put", "- run j0"] }],
  ["end disk", { end: "disk", refused: [] }],
  ["end spent", { end: "spent" }],
  ["error: line 7: too large: body", { error: "too large: body", line: 7 }],
  ["error: bad journal at 16", { error: "bad journal at 16" }],
];

test("the objects of lines", () => {
  for (const [line, wanted] of LINES) {
    assert.deepEqual(readLine(line), wanted, line);
    assert.equal(writeLine(wanted), line);
  }
});

const NO_LINES = ["", "end", "end done ", "L0.1 open", "L0.1 open -> ", "L0.1 open -> w01", "L0.1 open -> yes", "L01.1 open -> ok", "- run j0 -> fetch 0 |mapped r0", "- run j0 -> fetch 0 | mapped j0", 'L0.0 keys -> 1 "a', "L0.0 keys -> 1 \"\\u0041\""];

test("what is no line, and what is no object of one", () => {
  for (const line of NO_LINES) assert.equal(readLine(line), null, line);
  for (const object of [null, 3, "end done", {}, { end: "done", lane: 0 }, { by: "host", event: "run", answer: "ok" }, { by: "host", event: "run", answer: {}, notices: [] }]) {
    assert.equal(writeLine(object), null, JSON.stringify(object));
  }
});

test("transcript's words, statuses and outputs", () => {
  assert.deepEqual(tool("transcript", [], "end done\n"), { status: 0, output: '{"end":"done"}\n', errors: "" });
  assert.deepEqual(tool("transcript", [], "end done\nno\n"), { status: 3, output: "", errors: "error: line 2: no line of a transcript\n" });
  assert.deepEqual(tool("transcript", [], "end done"), { status: 3, output: "", errors: "error: line 1: no line feed at its end\n" });
  assert.deepEqual(tool("transcript", ["--back"], "{}\n"), { status: 3, output: "", errors: "error: line 1: no line of a transcript in JSON\n" });
  assert.deepEqual(tool("transcript", [], Buffer.from([0xff, 10])), { status: 3, output: "", errors: "error: not UTF-8\n" });
  assert.equal(tool("transcript", ["--forth"]).status, 2);
  assert.equal(tool("transcript", ["/nothing/here"]).status, 4);
});
