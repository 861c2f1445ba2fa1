// Not proved; compared with the program's transcripts, each of which it gives back byte for byte.
// The lines of a transcript as objects, and back.
//
//   readLine(text)   the object of a line, or null where it is no line of a transcript
//   writeLine(line)  the text of such an object, or null where it is none
//
// An entry is { by, .., event, of, answer, notices }, with `of` at the host's events alone:
//   by "lane" with lane and at, by "handler" with worker, phase and call, or by "host"
//   of         { job }, { registration }, { worker }, { task }, or { key } where the host forgets one
//   answer     a word, true or false, or { worker }, { registration }, { job }, { job, joined }, { task }, { fetch },
//              { registrations, caches }, { hit: { cache, place, status, length } }, { preload: { enabled, value } },
//              { count, first } with the first members of a list, or { fault, cause, index }
//   notices    { notice, .. } each, with what it is about: registration, worker and state, client, or job and value
// The last line is { end, lane } or { end, refused }, and behind a run within a limit { usage, limit }; a refusal is
// { error, line }.
import { isDeepStrictEqual } from "node:util";

const QUOTED = /"(?:[^"\\]|\\.)*"/g;
const LETTERS = { w: "worker", r: "registration", j: "job", a: "task" };
const WORDS = new Set([
  "ok", "none", "undefined", "made", "found", "InUse", "NoClient", "NoWorker", "NoController", "NoEvent", "Busy", "finished", "rejected", "unchanged", "changed",
  "threw", "installing", "failed",
]);

class NoLine extends Error {}

// The parts between a separator that doesn't stand within a JSON string.
function split(text, separator) {
  const masked = text.replace(QUOTED, (quoted) => "_".repeat(quoted.length));
  let from = 0;
  return masked.split(separator).map(({ length }) => {
    const part = text.slice(from, from + length);
    from += length + separator.length;
    return part;
  });
}

// The first of the forms that the text is of, as [expression, of its parts an object].
function oneOf(text, forms) {
  for (const [expression, make] of forms) {
    const found = expression.exec(text);
    if (found) return make(...found.slice(1));
  }
  throw new NoLine();
}

// The number of a thing is that of its name; others are numbers too, texts are JSON strings.
const thing = (letter, number) => ({ [LETTERS[letter]]: Number(number) });
const fault = (name, cause, index) => ({ fault: name, ...(cause !== undefined && { cause }), ...(index !== undefined && { index: Number(index) }) });

const THING = [/^([wrja])(\d+)$/, thing];
const VALUES = [
  THING,
  [/^(true|false)$/, (text) => text === "true"],
  [/^(TypeError|SecurityError) ([a-z-]+)(?: (\d+))?$/, fault],
  [/^(InvalidStateError)(?: ([a-z-]+))?(?: (\d+))?$/, fault],
  [/^(QuotaExceededError|CacheGone|NoRegistration)$/, (name) => ({ fault: name })],
  [/^([A-Za-z]+)$/, (word) => {
    if (!WORDS.has(word)) throw new NoLine();
    return word;
  }],
];
const MEMBERS = [THING, [/^(\d+)$/, Number], [/^(".*")$/, (quoted) => JSON.parse(quoted)]];
const ANSWERS = [
  [/^j(\d+) joined j(\d+)$/, (job, joined) => ({ job: Number(job), joined: Number(joined) })],
  [/^fetch (\d+)$/, (number) => ({ fetch: Number(number) })],
  [/^(\d+) registrations (\d+) caches$/, (registrations, caches) => ({ registrations: Number(registrations), caches: Number(caches) })],
  [/^hit (".*") (\d+) (\d+) (\d+)$/, (cache, ...numbers) => {
    const [place, status, length] = numbers.map(Number);
    return { hit: { cache: JSON.parse(cache), place, status, length } };
  }],
  [/^(on|off) (".*")$/, (word, value) => ({ preload: { enabled: word === "on", value: JSON.parse(value) } })],
  [/^(\d+)((?: .*)?)$/, (count, rest) => ({ count: Number(count), first: rest === "" ? [] : split(rest.slice(1), " ").map((member) => oneOf(member, MEMBERS)) })],
  ...VALUES,
];
const NOTICES = [
  [/^(mapped|unmapped|updatefound) r(\d+)$/, (notice, number) => ({ notice, registration: Number(number) })],
  [/^w(\d+) ([a-z]+)$/, (worker, state) => ({ notice: "state", worker: Number(worker), state })],
  [/^controllerchange c(\d+)$/, (client) => ({ notice: "controllerchange", client: Number(client) })],
  [/^settled j(\d+) (.*)$/, (job, value) => ({ notice: "settled", job: Number(job), value: oneOf(value, VALUES) })],
];
const MAKERS = [
  [/^-$/, () => ({ by: "host" })],
  [/^L(\d+)\.(\d+)$/, (lane, at) => ({ by: "lane", lane: Number(lane), at: Number(at) })],
  [/^w(\d+)\.(install|activate)\.(\d+)$/, (worker, phase, call) => ({ by: "handler", worker: Number(worker), phase, call: Number(call) })],
];

function entry(maker, event, of, answer) {
  const [first, ...notices] = split(answer, " | ");
  return {
    ...oneOf(maker, MAKERS),
    event,
    ...(of !== undefined && { of: oneOf(of, [THING, [/^(".*")$/, (quoted) => ({ key: JSON.parse(quoted) })]]) }),
    answer: oneOf(first, ANSWERS),
    notices: notices.map((notice) => oneOf(notice, NOTICES)),
  };
}

const LINES = [
  [/^end (done|spent)$/, (end) => ({ end })],
  [/^end (stalled) (\d+)$/, (end, lane) => ({ end, lane: Number(lane) })],
  [/^end (disk|full)(?: (.+))?$/, (end, refused) => ({ end, refused: refused === undefined ? [] : split(refused, ", ") })],
  [/^usage (\d+) of (\d+)$/, (usage, limit) => ({ usage: Number(usage), limit: Number(limit) })],
  [/^error: line (\d+): (.+)$/, (line, error) => ({ error, line: Number(line) })],
  [/^error: (.+)$/, (error) => ({ error })],
  [/^(\S+) ([A-Za-z]+)(?: ([wrja]\d+|"(?:[^"\\]|\\.)*"))? -> (.+)$/, entry],
];

// ---- and back

const things = Object.fromEntries(Object.entries(LETTERS).map(([letter, name]) => [name, letter]));
const numbered = (object) => Object.entries(object).map(([name, number]) => `${things[name]}${number}`)[0];
const joined = (...parts) => parts.filter((part) => part !== undefined).join(" ");

function valueText(value) {
  if (typeof value !== "object") return String(value);
  return "fault" in value ? joined(value.fault, value.cause, value.index) : numbered(value);
}

function memberText(member) {
  if (typeof member === "string") return JSON.stringify(member);
  return typeof member === "number" ? String(member) : numbered(member);
}

function answerText(answer) {
  if (typeof answer !== "object") return String(answer);
  if ("joined" in answer) return `j${answer.job} joined j${answer.joined}`;
  if ("fetch" in answer) return `fetch ${answer.fetch}`;
  if ("caches" in answer) return `${answer.registrations} registrations ${answer.caches} caches`;
  if ("hit" in answer) return joined("hit", JSON.stringify(answer.hit.cache), answer.hit.place, answer.hit.status, answer.hit.length);
  if ("preload" in answer) return `${answer.preload.enabled ? "on" : "off"} ${JSON.stringify(answer.preload.value)}`;
  if ("count" in answer) return joined(answer.count, ...answer.first.map(memberText));
  return valueText(answer);
}

function noticeText(notice) {
  switch (notice.notice) {
    case "state": return `w${notice.worker} ${notice.state}`;
    case "controllerchange": return `controllerchange c${notice.client}`;
    case "settled": return `settled j${notice.job} ${valueText(notice.value)}`;
    default: return `${notice.notice} r${notice.registration}`;
  }
}

function ofText(of) {
  return "key" in of ? JSON.stringify(of.key) : numbered(of);
}

function makerText({ by, lane, at, worker, phase, call }) {
  if (by === "host") return "-";
  return by === "lane" ? `L${lane}.${at}` : `w${worker}.${phase}.${call}`;
}

function lineText(line) {
  if ("end" in line) return joined("end", line.end, line.lane, line.refused?.length > 0 ? line.refused.join(", ") : undefined);
  if ("usage" in line) return `usage ${line.usage} of ${line.limit}`;
  if ("error" in line) return `error: ${"line" in line ? `line ${line.line}: ` : ""}${line.error}`;
  const event = joined(makerText(line), line.event, line.of && ofText(line.of));
  return `${event} -> ${[answerText(line.answer), ...line.notices.map(noticeText)].join(" | ")}`;
}

// ---- whole lines

const refused = (fault) => fault instanceof NoLine || fault instanceof SyntaxError || fault instanceof TypeError;

function tried(make) {
  try {
    return make();
  } catch (fault) {
    if (refused(fault)) return null;
    throw fault;
  }
}

// A line is read where it is what its object is written as, and the other way round.
export function readLine(text) {
  return tried(() => {
    const line = oneOf(text, LINES);
    return lineText(line) === text ? line : null;
  });
}

export function writeLine(line) {
  return tried(() => {
    const text = lineText(line);
    return isDeepStrictEqual(oneOf(text, LINES), line) ? text : null;
  });
}
