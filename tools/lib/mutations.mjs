// Mutated recordings for the tests: the same ones for the same seed.
import { LIMITS } from "./grammar.mjs";

// A generator of numbers from 0 to n - 1.
export function draws(seed) {
  let state = seed >>> 0;
  return (n) => {
    state = (Math.imul(state, 1664525) + 1013904223) >>> 0;
    return Math.floor((state / 2 ** 32) * n);
  };
}

const pick = (draw, list) => list[draw(list.length)];
const many = (count, of) => Array.from({ length: count }, () => of);

const VALUES = [
  null, true, false, 0, 1, -1, 1.5, 63, 64, 99, 100, 999, 1000, 4294967295, 4294967296, "", "x", "/x", "GET", "a b", "YQ==", "YQ=", "YR==", "a\tb", "a\nb", "é",
  "x".repeat(LIMITS.text), "x".repeat(LIMITS.text + 1), "https://a.test/", "ftp://a.test/", "https://xn--a.test/", "installing", "ok", "fail", "throw", "module", "all",
  [], {}, [["A", "b"]], [["A b", "c"]], [["A", "b\u0001"]], [["A"]], many(LIMITS.headers, ["A", "b"]), many(LIMITS.headers + 1, ["A", "b"]),
  many(LIMITS.operations, { delete: "/x" }), many(LIMITS.operations + 1, { delete: "/x" }), many(LIMITS.operations, "/x"), many(LIMITS.operations + 1, "/x"),
  many(LIMITS.calls, { do: "claim" }), many(LIMITS.calls + 1, { do: "claim" }), [{ do: "ready" }], [{ do: "put", name: "v", request: "/", response: { status: 200 } }],
  { url: "/x", method: "a" }, { url: "/x", method: "" }, { status: 200 }, { status: 20 }, { calls: [] }, { put: "/x", response: { status: 200, text: "a", body: "" } },
];
const NAMES = [
  "lane", "do", "fetch", "client", "url", "at", "name", "of", "scope", "script", "type", "cache", "slot", "event", "value", "partition", "request", "requests", "response",
  "operations", "status", "headers", "text", "body", "run", "install", "activate", "calls", "end", "error", "method", "put", "delete", "ignoreSearch", "ignoreVary", "other", "__proto__",
];
const WORDS = ["open", "close", "register", "update", "await", "claim", "put", "delete", "batch", "addAll", "match", "keys", "forget", "begin", "end", "preloadValue", "no"];
const TOKENS = ["{", "}", "[", "]", ",", ":", '"', "\\", "\\u0041", "\\ud800", "0", "-", "1e999", ".5", " ", "\t", "\r", "\n", "\u0001", "null", "#", "\ufeff", "\u007f"];

// Every object and array within a value.
function within(value) {
  if (value === null || typeof value !== "object") return [];
  return [value, ...Object.values(value).flatMap(within)];
}

function mutateValue(draw, line) {
  const value = JSON.parse(line), at = pick(draw, within(value)), keys = Object.keys(at);
  const key = keys.length === 0 || draw(8) === 0 ? pick(draw, NAMES) : pick(draw, keys);
  if (Array.isArray(at)) at[Number(key) || 0] = pick(draw, VALUES);
  else if (draw(6) === 0) delete at[key];
  else if (key === "do") at[key] = pick(draw, WORDS);
  else if (key === "of" || key === "lane") at[key] = draw(5);
  else if (draw(6) === 0) Object.defineProperty(at, pick(draw, NAMES), { value: at[key], enumerable: true, configurable: true, writable: true });
  else Object.defineProperty(at, key, { value: pick(draw, VALUES), enumerable: true, configurable: true, writable: true });
  return JSON.stringify(value);
}

function mutateText(draw, line) {
  const from = draw(line.length + 1), to = Math.min(line.length, from + draw(4));
  return line.slice(0, from) + (draw(3) === 0 ? "" : pick(draw, TOKENS)) + line.slice(to);
}

// A recording with one line changed, moved, left out or doubled; or with one byte changed.
export function mutated(draw, bytes) {
  const kind = draw(10);
  if (kind === 0 && bytes.length > 0) {
    const copy = Buffer.from(bytes);
    copy[draw(copy.length)] = draw(256);
    return copy;
  }
  const lines = bytes.toString().split("\n"), at = draw(lines.length);
  if (kind === 1) lines.splice(at, 1);
  else if (kind === 2) lines.splice(draw(lines.length + 1), 0, lines[at]);
  else if (kind <= 4 || !lines[at].startsWith("{") || !isJson(lines[at])) lines[at] = mutateText(draw, lines[at]);
  else lines[at] = mutateValue(draw, lines[at]);
  return Buffer.from(lines.join("\n"));
}

function isJson(line) {
  try {
    return typeof JSON.parse(line) === "object";
  } catch {
    return false;
  }
}
