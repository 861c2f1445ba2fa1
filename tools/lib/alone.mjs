// Not proved; compared with what the recordings tell besides (tests/why.mjs).
// What a transcript tells without its recording: the states of workers, and what follows of why they wait. It doesn't name
// the page that an action is of, nor the event that ends; so of pages it tells how they opened.
//
//   followedAlone(lines)  { registrations, workers, opened }, the first two by their numbers
//   holdsAlone(run, worker)  why a waiting worker waits: a list of "owed", "activating", "event" (the active worker has a
//                            pending one), "user" (a page uses its registration, and the flag isn't set), "either" of the
//                            two, or "any" of the three
//   alone(lines)          the lines of text
import { Refused, STATUS } from "./cli.mjs";
import { readLine } from "./transcript.mjs";

class Run {
  constructor() {
    this.registrations = [];
    this.workers = [];
    this.opened = [];
    this.line = 0;
    this.open = 0;
    this.begun = 0;
    this.ended = 0;
    this.claimed = false;
  }

  registration(number) {
    return (this.registrations[number] ??= { number, mapped: true, owed: null, given: false });
  }

  worker(number) {
    return (this.workers[number] ??= { number, registration: null, state: "kept", line: this.line, skip: null, begun: 0 });
  }

  follow(line) {
    this.line++;
    const entry = readLine(line);
    if (entry === null || entry.error !== undefined) throw new Refused(STATUS.line, `transcript: line ${this.line}: it is no line of one`);
    if (entry.end !== undefined || entry.usage !== undefined) return;
    if (entry.by === "handler") this.call(entry);
    if (entry.by === "lane") this.act(entry);
    if (entry.event === "restarted") this.restore(entry.answer.registrations);
    if (entry.event === "tryactivate") this.registration(entry.of.registration).owed = null;
    for (const notice of entry.notices) this.tell(notice);
    this.join(entry);
  }

  call({ worker, event, answer }) {
    if (event === "skipWaiting") this.worker(worker).skip = this.line;
    if (event === "claim" && answer === "ok") this.give(this.worker(worker));
  }

  act({ lane, at, event, answer }) {
    const worker = answer.worker === undefined ? null : this.worker(answer.worker);
    if (event === "claim" && answer === "ok") this.claimed = true;
    if (event === "open" && (answer === "none" || worker !== null)) {
      this.open++;
      this.opened.push({ lane, at, worker });
      if (worker !== null) this.give(worker);
    }
    if (event === "close" && answer === "ok") this.open--;
    if (event === "begin" && worker !== null) {
      this.begun++;
      worker.begun++;
    }
    if (event === "end" && answer === "ok") this.ended++;
  }

  // A page got a worker of this registration.
  give({ registration }) {
    if (registration !== null) registration.given = true;
  }

  restore(count) {
    for (let number = 0; number < count; number++) this.worker(number).registration = this.registration(number);
  }

  tell({ notice, registration, worker, state }) {
    if (notice === "mapped") this.registration(registration);
    if (notice === "unmapped") this.registration(registration).mapped = false;
    if (notice === "state") Object.assign(this.worker(worker), { state, line: this.line });
  }

  // Which registration a worker is of, and that one is owed a Try Activate.
  join({ event, answer, notices }) {
    const found = notices.find(({ state }) => state === "installing" || state === "installed");
    if (found === undefined) return;
    const worker = this.worker(found.worker), update = notices.find(({ notice }) => notice === "updatefound");
    if (event === "evaluated" && update !== undefined) worker.registration = this.registration(update.registration);
    if (event === "installed" && answer === "ok" && worker.registration !== null) worker.registration.owed = this.line;
  }

  active(registration) {
    const states = ["activating", "activated", "kept"];
    return this.workers.find((worker) => worker?.registration === registration && states.includes(worker.state)) ?? null;
  }
}

export function followedAlone(lines) {
  const run = new Run();
  for (const line of lines) run.follow(line);
  return run;
}

export function holdsAlone(run, worker) {
  const { registration } = worker, active = run.active(registration);
  if (registration.owed !== null) return ["owed"];
  if (active === null) return [];
  if (active.state === "activating") return ["activating"];
  if (active.state === "kept") return ["any"];
  const noEvent = active.begun === 0 || run.begun === run.ended;
  const noUser = worker.skip !== null || run.open === 0 || !(registration.given || run.claimed);
  if (noEvent) return ["user"];
  return noUser || active.begun > run.ended ? ["event"] : ["either"];
}

const REASONS = {
  owed: (worker) => `a Try Activate is owed, since line ${worker.registration.owed}`,
  activating: (worker, active) => `w${active.number} is activating`,
  event: (worker, active) => `w${active.number} has a pending event`,
  user: (worker) => `a page uses r${worker.registration.number}, and the skip waiting flag of w${worker.number} isn't set`,
  either: (worker, active) => `${REASONS.event(worker, active)}, or ${REASONS.user(worker)}; the recording tells which`,
  any: (worker, active) => `${REASONS.activating(worker, active)}, or ${REASONS.either(worker, active)}`,
};

const SLOTS = { installing: "the installing worker, ", installed: "the waiting worker, ", activating: "the active worker, ", activated: "the active worker, ", kept: "the active worker, " };

function* workerLines(run, worker) {
  yield `  w${worker.number} is ${SLOTS[worker.state] ?? ""}${worker.state} since line ${worker.line}`;
  if (worker.state !== "installed") return;
  for (const reason of holdsAlone(run, worker)) yield `    ${REASONS[reason](worker, run.active(worker.registration))}`;
}

export function* alone(lines) {
  const run = followedAlone(lines);
  for (const registration of run.registrations.filter((row) => row !== undefined)) {
    yield `r${registration.number}${registration.mapped ? "" : ", unregistered"}`;
    for (const worker of run.workers) if (worker?.registration === registration) yield* workerLines(run, worker);
  }
  for (const worker of run.workers) if (worker?.registration === null) yield `w${worker.number} is ${worker.state} since line ${worker.line}`;
  for (const { lane, at, worker } of run.opened) {
    yield `L${lane}.${at} opened a page with ${worker === null ? "no controller" : `the controller w${worker.number}`}; what came of it the recording tells`;
  }
}
