// tools/timeline draws each state of each worker and each controller of each page at the lines where the transcript tells
// it, for partitions and restarted runs too; in Chromium these bars stand beside their lines and below their heads.
// PICTURE=FILE writes the picture that the documentation shows.
import assert from "node:assert/strict";
import fs from "node:fs";
import path from "node:path";
import { findChromium, pictureOf, placesOf } from "../lib/chromium.mjs";
import { Recording } from "../lib/recording.mjs";
import { State } from "../lib/state.mjs";
import { test, tool, top } from "../lib/testing.mjs";
import { timeline } from "../lib/timeline.mjs";

const WIDTH = 1000;
const HEIGHT = 1000;

const example = (name) => [path.join(top, `examples/${name}.jsonl`), path.join(top, `examples/${name}.transcript`)];
const kept = (name) => {
  const file = (end) => path.join(import.meta.dirname, "why", name, end);
  return ["--kept", file("kept"), file("recording.jsonl"), file("transcript")];
};

// The bars of a page: where they stand, from a line up to another, and what they say.
const PAGES = [
  ["a worker that waits", example("waiting"), [
    ["w0", 5, 6, "parsed"], ["w0", 6, 7, "installing"], ["w0", 7, 8, "installed"], ["w0", 8, 11, "activating"], ["w0", 11, 21, "activated"],
    ["w1", 16, 17, "parsed"], ["w1", 17, 18, "installing"], ["w1", 18, 21, "installed"],
    ["c1", 2, 21, "no controller"],
    ["c2", 10, 21, "w0"],
  ]],
  ["a worker that takes over", example("skip_waiting"), [
    ["w0", 5, 6, "parsed"], ["w0", 6, 7, "installing"], ["w0", 7, 8, "installed"], ["w0", 8, 11, "activating"], ["w0", 11, 22, "activated"],
    ["w0", 22, 26, "redundant"],
    ["w1", 16, 17, "parsed"], ["w1", 17, 19, "installing"], ["w1", 19, 22, "installed"], ["w1", 22, 24, "activating"], ["w1", 24, 26, "activated"],
    ["c1", 2, 26, "no controller"],
    ["c2", 10, 22, "w0"], ["c2", 22, 26, "w1 took over"],
  ]],
  ["a claim", example("claim"), [
    ["w0", 5, 6, "parsed"], ["w0", 6, 7, "installing"], ["w0", 7, 8, "installed"], ["w0", 8, 12, "activating"], ["w0", 12, 16, "activated"],
    ["c1", 2, 11, "no controller"], ["c1", 11, 16, "w0 claimed it"],
    ["c2", 10, 16, "w0"],
  ]],
  ["a restarted run with partitions", kept("restarted"), [
    ["w0", 1, 4, "activating"], ["w0", 4, 10, "activated"],
    ["c1", 2, 10, "w0"],
    ["c2", 3, 10, "no controller"],
  ]],
].map(([name, words, bars]) => ({ name, words, bars: bars.map(([column, from, to, text]) => ({ column, from, to, text })) }));

function pageOf(words) {
  const { status, output, errors } = tool("timeline", words);
  assert.equal(`${status}${errors}`, "0");
  return output;
}

// The bars as the page's text has them.
function barsOf(page) {
  const found = [...page.matchAll(/ data-bar="(\w+) (\d+) (\d+)">([^<]*)</g)];
  return found.map(([, column, from, to, text]) => ({ column, from: Number(from), to: Number(to), text }));
}

test("a timeline has its bars, and nothing from elsewhere", () => {
  for (const { name, words, bars } of PAGES) {
    const page = pageOf(words);
    assert.deepEqual(barsOf(page), bars, name);
    assert.doesNotMatch(page, /<script|<link|<img|<iframe| src=| href=|@import|url\(/, name);
  }
});

const near = (left, right) => Math.abs(left - right) < 1;

function checkPlaces(places, { column, from, to, text }, where) {
  const bar = places.get(`${column} ${from} ${to}`), head = places.get(column), first = places.get(`line${from}`), last = places.get(`line${to - 1}`);
  assert.equal(bar.text, text, where);
  assert.ok(near(bar.left, head.left) && near(bar.right, head.right) && bar.top >= head.bottom, `${where}: below its head`);
  assert.ok(near(bar.top, first.top) && near(bar.bottom, last.bottom), `${where}: beside its lines`);
  assert.ok(bar.bottom - bar.top > 10 && bar.right - bar.left > 50, `${where}: to be seen`);
}

test("the bars of a timeline stand at their places in Chromium", () => {
  const chromium = findChromium();
  if (chromium === null) {
    console.log("no Chromium here: of the timelines the text alone is checked");
    return;
  }
  for (const { name, words, bars } of PAGES) {
    const places = placesOf(chromium, pageOf(words));
    const heads = [...places.keys()].filter((one) => /^([Lwc]\d+|host)$/.test(one)).map((one) => places.get(one));
    for (const [at, head] of heads.slice(1).entries()) assert.ok(head.left >= heads[at].right, `${name}: heads beside one another`);
    for (const bar of bars) checkPlaces(places, bar, `${name}: ${bar.column} ${bar.text}`);
  }
});

test("Chromium makes a picture of a timeline", () => {
  const chromium = findChromium();
  if (chromium === null) return;
  const picture = pictureOf(chromium, pageOf(example("skip_waiting")), WIDTH, HEIGHT);
  assert.equal(picture.toString("latin1", 1, 4), "PNG");
  assert.deepEqual([picture.readUInt32BE(16), picture.readUInt32BE(20)], [WIDTH, HEIGHT]);
  if (process.env.PICTURE) fs.writeFileSync(process.env.PICTURE, picture);
});

test("what a recording holds is text in its timeline", () => {
  const name = "</div><script>alert('&')</script>";
  const recording = new Recording(JSON.stringify({ lane: 0, do: "cacheOpen", at: "https://a.test/", name }));
  const page = timeline(new State(recording, null), ["- restarted -> 0 registrations 0 caches", "L0.0 cacheOpen -> made", "end done"], name);
  assert.doesNotMatch(page, /<script/);
  assert.equal(page.split("&#60;/div&#62;&#60;script&#62;alert(&#39;&#38;&#39;)&#60;/script&#62;").length, 5);
});

test("timeline's words and statuses", () => {
  const [recording, transcript] = example("waiting");
  assert.equal(tool("timeline", [recording], fs.readFileSync(transcript)).output, pageOf([recording, transcript]));
  assert.equal(tool("timeline", [transcript]).status, 2);
  assert.equal(tool("timeline", [recording, example("claim")[1]]).status, 3);
  assert.match(tool("timeline", ["--help"]).output, /^tools\/timeline /);
});
