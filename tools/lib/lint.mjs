// Not proved; compared with the program through tools/lint.
// The bad lines of a recording, each with its flaws, the one that the program refuses it by first.
import { Checker } from "./check.mjs";
import { utf8 } from "./cli.mjs";
import { AWAITED, CAUSES, LIMITS, line as lineForm } from "./grammar.mjs";
import { NoJson, readJson } from "./json.mjs";

// The lines of a recording, as bytes; the last one is what stands behind the last line feed.
export function* linesOf(bytes) {
  for (let from = 0; from <= bytes.length;) {
    const feed = bytes.indexOf(10, from), to = feed < 0 ? bytes.length : feed;
    yield bytes.subarray(from, to);
    from = to + 1;
  }
}

export const isBlank = (bytes) => bytes.every((byte) => byte === 32 || byte === 9 || byte === 13);

// The words of each lane's actions so far; a bad line counts where it tells its lane, so that later positions stay right.
class Lanes {
  constructor() {
    this.words = Array.from({ length: LIMITS.lane + 1 }, () => []);
    this.actions = 0;
  }

  checkPlace(checker, value) {
    if (this.actions >= LIMITS.actions) checker.say("too large: actions", value.at, "", `more than ${LIMITS.actions} actions`);
    const lane = this.words[value.members.get("lane")?.value.count ?? -1], of = value.members.get("of")?.value;
    if (value.members.get("do")?.value.text !== "await" || !lane || of?.kind !== "number" || of.count === null) return;
    const word = lane[of.count];
    if (AWAITED.includes(word)) return;
    const can = lane.map((at, position) => ({ at, position })).filter(({ at }) => AWAITED.includes(at)).map(({ at, position }) => `${position} (${at})`);
    checker.say("await", of.at, "of", `position ${of.count} of this lane is ${word ? `\`${word}\`, which has no promise` : "none before this line"}`, can.slice(-5).join(", ") || undefined);
  }

  add(value) {
    this.actions++;
    this.words[value.members.get("lane")?.value.count ?? -1]?.push(value.members.get("do")?.value.text);
  }
}

function flawsOf(text, lanes) {
  const checker = new Checker(text);
  if (text === null) {
    checker.say("json", 0, "", "the line isn't UTF-8");
    return checker.flaws;
  }
  try {
    const value = readJson(text);
    checker.check(lineForm, value, "");
    if (value.kind === "object" && !value.members.has("fetch")) {
      lanes.checkPlace(checker, value);
      lanes.add(value);
    }
  } catch (fault) {
    if (!(fault instanceof NoJson)) throw fault;
    checker.say("json", fault.at, "", fault.message, fault.suggestion);
  }
  return checker.flaws;
}

// Each bad line: { line, text, cause, flaws }, with the number of the line from 1.
export function* badLines(bytes) {
  const lanes = new Lanes();
  let line = 0;
  for (const raw of linesOf(bytes)) {
    line++;
    if (isBlank(raw)) continue;
    const text = utf8(raw), flaws = flawsOf(text, lanes);
    if (flaws.length === 0) continue;
    flaws.sort((left, right) => CAUSES.indexOf(left.cause) - CAUSES.indexOf(right.cause) || left.at - right.at);
    yield { line, text: text ?? raw.toString("latin1"), cause: flaws[0].cause, flaws };
  }
}
