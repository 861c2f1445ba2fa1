// Not proved; compared with the program's transcripts (tests/why.mjs).
// Follows a transcript: what a run has made after each of its lines.
//
//   new State(recording, kept)  before the first line; kept is what the disk keeps (lib/kept.mjs), or null for nothing
//   follow(line)                goes on by one line; refused where the line can't stand there
//
// After each line it has `line` (their count), `end` and `usage` (the last lines as lib/transcript.mjs reads them, once they
// came), and these rows, which live on:
//   registrations  number, key, scope, mapped, unmapped (a line), workers, owed (the line since which it is owed a Try
//                  Activate)
//   workers        number, registration, script, recorded (its fetch line), state, skip (a line), handler, fault, states
//   jobs           number, what, key, scope, script, maker, joined, phase, settled, ended (line, answer), registration
//   tasks          addAlls: number, maker, settled
//   pages          number, url, key, secure, opened, closed, controller, controllers
//   clients        the open pages by their numbers, in order of opening
//   events         the pending fetch events by their numbers: number, worker, page, line
//   positions      of each lane, how many of its actions have happened
//   promises       by `LANE.POSITION`: { job }, { task } or { value }
// What isn't there is null.
import { Refused, STATUS } from "./cli.mjs";
import { EVENTS, valueText } from "./events.mjs";
import { isTrustworthy, keyOf, parsedScope } from "./recording.mjs";
import { rowOf, there, Unfollowed } from "./rows.mjs";
import { readLine } from "./transcript.mjs";

const SLOTS = { installing: ["installing"], waiting: ["installed"], active: ["activating", "activated"] };

export class State {
  constructor(recording, kept) {
    this.recording = recording;
    this.kept = kept ?? { registrations: [], caches: [] };
    this.line = 0;
    this.end = null;
    this.usage = null;
    this.registrations = [];
    this.workers = [];
    this.jobs = [];
    this.tasks = [];
    this.pages = [];
    this.clients = new Map();
    this.events = new Map();
    this.positions = Array.from(recording.lanes, () => 0);
    this.promises = new Map();
  }

  follow(line) {
    this.line++;
    const entry = readLine(line);
    try {
      const isUsage = entry?.usage !== undefined;
      if (entry === null || entry.error !== undefined || isUsage !== (this.end !== null) || this.usage !== null) throw new Unfollowed();
      if (isUsage) this.usage = entry;
      else if (entry.end !== undefined) this.end = entry;
      else this.happen(entry);
    } catch (fault) {
      if (!(fault instanceof Unfollowed)) throw fault;
      throw new Refused(STATUS.line, `transcript: line ${this.line}: it can't stand there`);
    }
  }

  happen(entry) {
    if ((this.line === 1) !== (entry.event === "restarted")) throw new Unfollowed();
    const action = entry.by === "host" ? null : this.recorded(entry);
    if (entry.by === "handler") this.blame(this.workers[entry.worker], entry, entry.answer);
    // Who gets the clients that are told of in this line, and why.
    this.giver = null;
    if (entry.by === "host" && !EVENTS.has(entry.event)) throw new Unfollowed();
    EVENTS.get(entry.event)?.(this, entry, action);
    for (const [at, notice] of entry.notices.entries()) this.tell(entry, notice, entry.notices.slice(at + 1));
  }

  // The recorded action or call that an entry is of.
  recorded(entry) {
    const action = entry.by === "lane"
      ? this.recording.lanes[entry.lane]?.[entry.at]
      : rowOf(this.workers, entry.worker).handler?.calls[entry.call];
    if (action?.do !== entry.event) throw new Unfollowed();
    if (entry.by === "lane" && this.positions[entry.lane]++ !== entry.at) throw new Unfollowed();
    if (entry.by === "handler" && rowOf(this.workers, entry.worker).handler.made++ !== entry.call) throw new Unfollowed();
    return action;
  }

  // A worker's first call that was answered by a fault, or whose addAll was.
  blame(worker, { event }, answer) {
    if (answer.fault !== undefined) worker.fault ??= { line: this.line, event, value: valueText(answer) };
  }

  // ---- what the rows say

  slot(registration, name) {
    return registration.workers.find((worker) => SLOTS[name].includes(worker.state)) ?? null;
  }

  newest(registration) {
    return ["installing", "waiting", "active"].reduce((found, name) => found ?? this.slot(registration, name), null);
  }

  mapped(key, scope) {
    return this.registrations.find((one) => one.mapped && one.key === key && one.scope === scope) ?? null;
  }

  // Match Service Worker Registration.
  match(key, address) {
    const matching = this.registrations.filter((one) => one.mapped && one.key === key && address.startsWith(one.scope));
    return matching.reduce((best, one) => (best !== null && best.scope.length >= one.scope.length ? best : one), null);
  }

  // The registration that an action names by its client and a scope.
  named({ client, scope }) {
    const page = rowOf(this.clients, client);
    return there(this.mapped(page.key, parsedScope(scope, page.url)));
  }

  users(registration) {
    return [...this.clients.values()].filter((page) => page.controller?.registration === registration);
  }

  pending(worker) {
    return [...this.events.values()].filter((event) => event.worker === worker);
  }

  // The jobs of the queue that a job stands in, the first one first.
  queue({ key, scope }) {
    return this.jobs.filter((job) => job.key === key && job.scope === scope && job.joined === null && job.phase !== "done");
  }

  // ---- notices

  tell(entry, notice, later) {
    const { worker, registration, job, client, state, value } = notice;
    if (notice.notice === "mapped") this.map(rowOf(this.jobs, entry.of.job), registration);
    else if (notice.notice === "unmapped") Object.assign(rowOf(this.registrations, registration), { mapped: false, unmapped: this.line });
    else if (notice.notice === "settled") rowOf(this.jobs, job).settled = valueText(value);
    else if (notice.notice === "controllerchange") this.control(rowOf(this.clients, client));
    else if (state === "parsed") this.make(rowOf(this.jobs, entry.of.job), worker);
    else if (state !== undefined) this.advance(rowOf(this.workers, worker), state, this.cause(entry, notice, later));
  }

  map(job, number) {
    const registration = { number, key: job.key, scope: job.scope, mapped: true, unmapped: null, owed: null, workers: [] };
    this.registrations[number] = job.registration = registration;
  }

  make({ registration, script, fetch }, number) {
    this.add({ number, registration, script, recorded: this.recording.lineOf(script, fetch) }, "parsed", null);
  }

  add(worker, state, cause) {
    this.workers[worker.number] = { ...worker, state: null, skip: null, handler: null, fault: null, states: [] };
    there(worker.registration).workers.push(this.workers[worker.number]);
    this.advance(this.workers[worker.number], state, cause);
  }

  advance(worker, state, cause) {
    const phase = { installing: "install", activating: "activate" }[state];
    if (state === "activating") this.giver ??= { how: "activated", worker };
    if (phase !== undefined) {
      worker.handler = { phase, calls: worker.recorded?.[phase]?.calls ?? [], made: 0, unsettled: new Set() };
    }
    worker.state = state;
    worker.states.push({ line: this.line, state, cause });
  }

  // Why the worker of a notice becomes redundant: for one that takes its place, by the answer of its job, or cleared.
  cause(entry, { worker, state }, later) {
    if (state !== "redundant") return null;
    const { registration } = rowOf(this.workers, worker);
    const next = later.find((notice) => ["activating", "installed"].includes(notice.state) && this.workers[notice.worker]?.registration === registration);
    if (next !== undefined) return { how: next.state, by: this.workers[next.worker] };
    return { how: ["failed", "threw"].includes(entry.answer) ? entry.answer : "cleared", event: entry.event };
  }

  control(page) {
    if (this.giver === null) throw new Unfollowed();
    page.controller = this.giver.worker;
    page.controllers.push({ line: this.line, ...this.giver });
  }

  // ---- what events make

  restart(count) {
    if (count !== this.kept.registrations.length) throw new Unfollowed();
    for (const [number, { key, scope, waiting, active, activated }] of this.kept.registrations.entries()) {
      this.map({ key, scope }, number);
      const worker = { number, registration: this.registrations[number], script: (waiting ?? active).script };
      this.add(worker, waiting === null && activated ? "activated" : "activating", { how: waiting === null ? "restarted" : "promoted" });
    }
  }

  open(number, url, partition, worker) {
    const key = keyOf(url, partition), secure = isTrustworthy(url), registration = this.match(key, url);
    const newest = registration && this.newest(registration);
    const opening = { line: this.line, how: "opened", worker, registration, newest, state: newest && newest.state };
    const page = { number, url, key, secure, opened: this.line, closed: null, controller: worker, controllers: [opening] };
    this.clients.set(number, page);
    this.pages.push(page);
  }

  close(number) {
    rowOf(this.clients, number).closed = this.line;
    this.clients.delete(number);
  }

  schedule(entry, joined, asked) {
    const number = entry.answer.job;
    this.jobs[number] = { number, ...asked, maker: entry, what: entry.event, joined, phase: "waiting", settled: null, ended: null, registration: null, fetch: null };
    return this.jobs[number];
  }
}
