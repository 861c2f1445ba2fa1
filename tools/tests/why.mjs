// tools/why knows what it says: each answer of the transcripts of conformance/ and examples/ that hangs on workers, pages,
// jobs and promises is told from the state before it, and so are the reasons why something waits.
import assert from "node:assert/strict";
import fs from "node:fs";
import path from "node:path";
import { followedAlone, holdsAlone } from "../lib/alone.mjs";
import { valueText } from "../lib/events.mjs";
import { keptOf } from "../lib/kept.mjs";
import { holds, isHeld, laneWaits, nextOf } from "../lib/reasons.mjs";
import { Recording } from "../lib/recording.mjs";
import { State } from "../lib/state.mjs";
import { inFolder, launch, recordings, test, tool, top } from "../lib/testing.mjs";
import { readLine } from "../lib/transcript.mjs";
import { why } from "../lib/why.mjs";

// The cases of tests/why: a recording, its transcript, and what why says at its end or after a line; where the run began
// with a disk, what show printed of it, and the recording that made it.
const CASES = path.join(import.meta.dirname, "why");
const cases = fs.readdirSync(CASES);
const fileOf = (name, file) => path.join(CASES, name, file);
const textOf = (name, file) => fs.readFileSync(fileOf(name, file), "utf8");
const keptOfCase = (name) => (fs.existsSync(fileOf(name, "kept")) ? keptOf(textOf(name, "kept")) : null);

const linesOf = (text) => text.split("\n").slice(0, -1);
const run = (name, recording, transcript, kept) => ({ name, recording: new Recording(recording), lines: linesOf(transcript), kept });

// All runs whose transcripts stand beside their recordings: of conformance/, of examples/, and the cases.
function runs() {
  const there = recordings().flatMap((name) => {
    const transcript = ["transcript", "stdout"].map((ending) => name.replace(/jsonl$/, ending)).find((file) => fs.existsSync(file));
    const text = transcript === undefined ? "" : fs.readFileSync(transcript, "utf8");
    return text.startsWith("- restarted ") ? [run(path.relative(top, name), fs.readFileSync(name, "utf8"), text, null)] : [];
  });
  return [...there, ...cases.map((name) => run(name, textOf(name, "recording.jsonl"), textOf(name, "transcript"), keptOfCase(name)))];
}

const numbered = (letter, row) => (row === null ? "none" : `${letter}${row.number}`);
const answered = ({ worker, registration }) => (worker === undefined ? `r${registration}` : `w${worker}`);

// What the state says of an entry before it happens, as [what is compared, by the state, by the transcript].
const BEFORE = {
  open: (state, { answer }, { client }) => ["in use", state.clients.has(client), answer === "InUse"],
  close: (state, { answer }, { client }) => ["open", state.clients.has(client), answer === "ok"],
  begin(state, { answer }, { client, event }) {
    const page = state.clients.get(client);
    if (page === undefined) return ["no client", "NoClient", answer];
    if (page.controller === null) return ["no controller", "NoController", answer];
    return state.events.has(event) ? ["in use", "InUse", answer] : ["controller", numbered("w", page.controller), answered(answer)];
  },
  end: (state, { answer }, { event }) => ["pending", state.events.has(event), answer === "ok"],
  await: (state, { lane, answer }, { of }) => {
    const { value, job, task } = state.promises.get(`${lane}.${of}`);
    return ["value", value ?? job?.settled ?? task.settled, valueText(answer)];
  },
  ready(state, { answer }, { client }) {
    const page = state.clients.get(client);
    return page === undefined ? ["no client", "NoClient", answer] : ["match", numbered("r", state.match(page.key, page.url)), answered(answer)];
  },
  registration(state, { answer }, { client, url }) {
    const page = state.clients.get(client), address = page && URL.canParse(url, page.url) ? new URL(url, page.url) : null;
    if (address === null || address.origin !== new URL(page.url).origin) return ["refused", true, answer === "NoClient" || answer.fault !== undefined];
    return ["match", numbered("r", state.match(page.key, address.href)), answer === "undefined" ? "none" : answered(answer)];
  },
  registrations(state, { answer }, { client }) {
    const page = state.clients.get(client);
    if (page === undefined) return ["no client", "NoClient", answer];
    return ["count", state.registrations.filter(({ mapped, key }) => mapped && key === page.key).length, answer.count];
  },
  run: (state, { of }) => ["first of its queue", state.queue(state.jobs[of.job])[0]?.number, of.job],
  installed(state, { of, answer }) {
    const worker = state.slot(state.jobs[of.job].registration, "installing");
    assert.deepEqual(nextOf(worker), { tasks: [], call: null });
    return ["failed", worker.fault !== null || worker.recorded.install?.end === "fail", answer === "failed"];
  },
  activated: (state, { of }) => ["next", nextOf(state.workers[of.worker]), { tasks: [], call: null }],
  tryactivate(state, { of, answer }) {
    const registration = state.registrations[of.registration], worker = state.slot(registration, "waiting");
    assert.notEqual(registration.owed, null);
    return ["activates", worker === null || isHeld(holds(state, worker)) ? "none" : numbered("w", worker), answer === "none" ? answer : answered(answer)];
  },
};

function check(state, line, where) {
  const entry = readLine(line), action = entry.by === "lane" ? state.recording.lanes[entry.lane][entry.at] : null;
  if (entry.by === "lane") assert.equal(laneWaits(state, entry.lane), null, where);
  const compared = BEFORE[entry.event]?.(state, entry, action);
  if (compared !== undefined) assert.deepEqual(compared[1], compared[2], `${where}: ${compared[0]}`);
  state.follow(line);
  if (entry.event === "open" && entry.answer !== "InUse" && entry.answer.fault === undefined) {
    const page = state.clients.get(action.client), [{ registration }] = page.controllers;
    assert.equal(page.controller, page.secure && registration !== null ? state.slot(registration, "active") : null, where);
  }
  for (const registration of state.registrations) {
    const waiting = state.slot(registration, "waiting");
    if (waiting !== null && registration.owed === null) assert.ok(isHeld(holds(state, waiting)), where);
  }
}

// At the end all lanes are done, or the lowest one that isn't is told, and each of them waits for a reason.
function checkEnd(state, where) {
  const left = [...state.positions.keys()].filter((lane) => state.recording.lanes[lane]?.[state.positions[lane]] !== undefined);
  assert.deepEqual(state.end, left.length === 0 ? { end: "done" } : { end: "stalled", lane: left[0] }, where);
  for (const lane of left) assert.notEqual(laneWaits(state, lane), null, where);
}

test("the state tells each answer before it comes, and why something waits", () => {
  const all = runs();
  assert.ok(all.length > 300);
  for (const { name, recording, lines, kept } of all) {
    const state = new State(recording, kept);
    for (const [at, line] of lines.entries()) check(state, line, `${name}, line ${at + 1}`);
    checkEnd(state, name);
  }
});

// The forms of what is said; each comes up.
const FORMS = [
  /^r\d+ \S+( \(partition \S+\))?(, unregistered since line \d+)?$/,
  /^  it stays while c\d+( and c\d+)* uses? it$/,
  /^  it stays while an event is pending: fetch event \d+ of c\d+, since line \d+/,
  /^  it stays while w\d+( and w\d+)* handles an event$/,
  /^  w\d+ is parsed, since line \d+: its script is run next \(Update\)$/,
  /^  w\d+ is the installing worker, since line \d+$/,
  /^  w\d+ is the waiting worker, installed since line \d+$/,
  /^  w\d+(, kept as the (active|waiting) worker,)? is the active worker, (activating|activated) since line \d+$/,
  /^  w\d+ is redundant, since line \d+: w\d+ took its place \(Activate\)$/,
  /^  w\d+ is redundant, since line \d+: w\d+ took its place as the waiting worker \(Install\)$/,
  /^  w\d+ is redundant, since line \d+: running its script threw$/,
  /^  w\d+ is redundant, since line \d+: its install event failed(: \w+ came to [\w -]+ \(line \d+\))?$/,
  /^  w\d+ is redundant, since line \d+: r\d+ was unregistered and nothing used it any more \(Clear Registration\)$/,
  /^  w\d+ is redundant, since line \d+: its key was forgotten$/,
  /^    its (install|activate) event waits for addAll a\d+ \(\d+ of \d+ calls made\)$/,
  /^    its (install|activate) event calls \w+ next \(\d+ of \d+ calls made\)$/,
  /^    its (install|activate) event ends next$/,
  /^    its skip waiting flag is set, since line \d+$/,
  /^    a Try Activate is owed, since line \d+$/,
  /^    w\d+ is activating$/,
  /^    w\d+ has a pending event: fetch event \d+ of c\d+, since line \d+/,
  /^    c\d+( and c\d+)* uses? r\d+, and the skip waiting flag of w\d+ isn't set$/,
  /^    it becomes active when [a-zA-Z0-9 ]+(\(\))?$/,
  /^    it becomes redundant when nothing uses r\d+ any more, which is unregistered$/,
  /^j\d+ \w+ \S+( \(partition \S+\))?, by [Lw][^:]+: it runs next$/,
  /^j\d+ .*: it waits behind j\d+ in the job queue of its scope$/,
  /^j\d+ .*: its script is being fetched$/,
  /^j\d+ .*: its script was fetched and is run next$/,
  /^j\d+ .*: w\d+ is installing(; it settled with r\d+)?$/,
  /^j\d+ .*: it joined j\d+, to which it is equivalent(; it settled with [\w -]+)?$/,
  /^j\d+ .*: it was refused when it ran \(line \d+\)(; it settled with [\w -]+)?$/,
  /^j\d+ .*: the registration left the map \(line \d+\); it settled with true$/,
  /^j\d+ .*: no registration had its scope \(line \d+\); it settled with false$/,
  /^j\d+ .*: r\d+ has its script, type and mode already, so nothing was fetched \(line \d+\); it settled with r\d+$/,
  /^j\d+ .*: the fetch of its script was refused, so there is no new worker \(line \d+\)(; it settled with [\w -]+)?$/,
  /^j\d+ .*: its script is that of the newest worker, byte for byte, so there is no new worker \(line \d+\)(; it settled with r\d+)?$/,
  /^j\d+ .*: running its script threw \(line \d+\)(; it settled with TypeError threw)?$/,
  /^j\d+ .*: its worker (failed to install|was installed) \(line \d+\)(; it settled with r\d+)?$/,
  /^c\d+ \S+( \(partition \S+\))?: (no controller|its controller is w\d+)$/,
  /^  line \d+: it opened and matched r\d+, whose active worker was w\d+$/,
  /^  line \d+: it opened at an address that isn't trustworthy$/,
  /^  line \d+: it opened when no registration matched its address$/,
  /^  line \d+: it opened and matched r\d+, which had no active worker( \(w\d+ was (installing|installed)\))?$/,
  /^  line \d+: w\d+ claimed it: it matches r\d+ \(Claim\)$/,
  /^  line \d+: w\d+ took over as the active worker of r\d+, which it uses \(Activate\)$/,
  /^  r\d+ matches it now and has the active worker w\d+; it gets that one if it opens anew, or if w\d+ calls claim\(\)$/,
  /^L\d+\.\d+ ready \{.*\} waits: no registration matches c\d+$/,
  /^L\d+\.\d+ ready \{.*\} waits: r\d+, which c\d+ matches, has no active worker$/,
  /^L\d+\.\d+ begin \{.*\} waits: w\d+, the controller of c\d+, is activating$/,
  /^L\d+\.\d+ await \{.*\} waits: that action was answered NoClient, so it has no promise$/,
  /^L\d+\.\d+ await \{.*\} waits: addAll a\d+ has not ended$/,
  /^L\d+\.\d+ await \{.*\} waits: job j\d+ has not settled: .+$/,
];

test("what is said after each line has one of its forms, and each comes up", () => {
  const seen = new Set();
  for (const { name, recording, lines, kept } of runs()) {
    const state = new State(recording, kept);
    for (const line of lines) {
      state.follow(line);
      for (const text of why(state)) {
        const form = FORMS.findIndex((pattern) => pattern.test(text));
        assert.notEqual(form, -1, `${name}: ${text}`);
        seen.add(form);
      }
    }
  }
  assert.deepEqual(FORMS.filter((_, form) => !seen.has(form)), []);
});

// What a transcript alone gives as a reason holds by the recording.
const HOLDS = {
  owed: (state, { registration }) => registration.owed !== null,
  activating: (state, worker) => holds(state, worker).activating !== null,
  event: (state, worker) => holds(state, worker).events.length > 0,
  user: (state, worker) => holds(state, worker).users.length > 0,
  either: (state, worker) => isHeld(holds(state, worker)),
  any: (state, worker) => isHeld(holds(state, worker)),
};

function checkAlone(alone, state, where, seen) {
  const known = (worker, at) => (alone.workers[at].state === "kept" ? "kept" : worker.state);
  assert.deepEqual(alone.workers.map((worker) => worker.state), state.workers.map(known), where);
  for (const worker of state.workers.filter((one) => one.state === "installed")) {
    const reasons = holdsAlone(alone, alone.workers[worker.number]);
    assert.ok(reasons.length > 0 && reasons.every((reason) => HOLDS[reason](state, worker)), `${where}: ${reasons}`);
    reasons.forEach((reason) => seen.add(reason));
  }
}

test("a transcript alone tells the same states, and reasons that hold", () => {
  const seen = new Set();
  for (const { name, recording, lines, kept } of runs()) {
    const state = new State(recording, kept), alone = followedAlone([]);
    for (const [at, line] of lines.entries()) {
      state.follow(line);
      alone.follow(line);
      checkAlone(alone, state, `${name}, line ${at + 1}`, seen);
    }
  }
  assert.deepEqual([...seen].sort(), Object.keys(HOLDS).sort());
});

// ---- the tool

const lineOf = (text) => /^line (\d+): /.exec(text)[1];

test("why says of the cases what stands beside them", () => {
  for (const name of cases) {
    const kept = keptOfCase(name) === null ? [] : ["--kept", fileOf(name, "kept")];
    for (const file of fs.readdirSync(path.join(CASES, name)).filter((one) => one.endsWith(".why"))) {
      const wanted = textOf(name, file), words = [...kept, "--line", lineOf(wanted), fileOf(name, "recording.jsonl"), fileOf(name, "transcript")];
      assert.deepEqual(tool("why", words), { status: 0, output: wanted, errors: "" }, `${name}/${file}`);
    }
  }
});

test.ofProgram("the cases are what the program makes, on the disks that it left", (program) => {
  for (const name of cases) {
    inFolder((folder) => {
      launch(program, ["init"], { folder });
      const before = fileOf(name, "before.jsonl"), recording = fileOf(name, "recording.jsonl");
      if (fs.existsSync(before)) launch(program, ["replay"], { folder, input: fs.readFileSync(before) });
      if (fs.existsSync(before)) assert.equal(launch(program, ["show"], { folder }).output, textOf(name, "kept"));
      assert.equal(tool("why", ["--program", program, "--disk", folder, recording]).output, textOf(name, "end.why"));
      assert.equal(launch(program, ["replay"], { folder, input: fs.readFileSync(recording) }).output, textOf(name, "transcript"));
    });
  }
});

const example = (name) => path.join(top, "examples", name);
const explained = fs.readdirSync(path.join(top, "examples")).filter((file) => file.endsWith(".why")).map((file) => file.slice(0, -4));

test("why says of the examples what stands beside them", () => {
  assert.ok(explained.length >= 4);
  for (const name of explained) {
    const wanted = fs.readFileSync(example(`${name}.why`), "utf8");
    const words = ["--line", lineOf(wanted), example(`${name}.jsonl`), example(`${name}.transcript`)];
    assert.equal(tool("why", words).output, wanted, name);
  }
});

test.ofProgram("what why advises makes the waiting worker active", (program) => {
  const recording = fs.readFileSync(example("waiting.jsonl"), "utf8");
  const next = [{ do: "close", client: 2 }, { do: "skipWaiting", client: 2, scope: "/", slot: "waiting" }];
  const until = [{ do: "register", client: 2, script: "/sw.js" }, { do: "await", of: 7 }];
  for (const action of next) {
    const lines = [...until, action].map((line) => JSON.stringify({ lane: 0, ...line })).join("\n");
    const { output } = tool("why", ["--program", program], recording + lines);
    assert.match(output, /^  w0 is redundant, since line \d+: w1 took its place \(Activate\)\n  w1 is the active worker, activated since line \d+$/m);
  }
});

test("why's words, statuses and outputs", () => {
  const recording = example("waiting.jsonl"), transcript = fs.readFileSync(example("waiting.transcript"), "utf8");
  const wanted = fs.readFileSync(example("waiting.why"), "utf8");
  assert.deepEqual(tool("why", [recording], transcript), { status: 0, output: wanted, errors: "" });
  const alone = tool("why", [], transcript).output;
  assert.match(alone, /^line 20: end done\nr0\n  w0 is the active worker, activated since line 11\n  w1 is the waiting worker, installed since line 18\n    a page uses r0, and the skip/);
  assert.deepEqual(tool("why", [recording, example("page.transcript")]), { status: 3, output: "", errors: "error: transcript: line 7: it can't stand there\n" });
  assert.deepEqual(tool("why", [example("bad_line.jsonl"), example("bad_line.transcript")]), { status: 3, output: "", errors: "error: line 2: json\n" });
  assert.deepEqual(tool("why", [example("empty.jsonl")], "error: bad journal at 16\n"), { status: 8, output: "", errors: "error: bad journal at 16\n" });
  assert.equal(tool("why", [recording, "/nothing/here"]).status, 4);
  assert.equal(tool("why", [fileOf("kept", "recording.jsonl"), fileOf("kept", "transcript")]).status, 2);
  assert.equal(tool("why", ["--line", "0", recording], transcript).status, 2);
  assert.equal(tool("why", ["--line", "21", recording], transcript).status, 2);
  assert.equal(tool("why", [], "").status, 2);
  assert.equal(tool("why", [recording], "").status, 3);
  assert.match(tool("why", ["--help"]).output, /^tools\/why /);
});
