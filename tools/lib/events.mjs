// Not proved; compared with the program's transcripts (tests/why.mjs).
// What each event of a transcript does to the state (lib/state.mjs), besides what its notices tell: EVENTS has under its
// word a function of the state, the entry and the recorded action.
import { parsed, parsedScope } from "./recording.mjs";
import { rowOf, there } from "./rows.mjs";

// The text of a promise's value.
export function valueText(value) {
  if (value.fault !== undefined) return [value.fault, value.cause, value.index].filter((part) => part !== undefined).join(" ");
  return value.registration === undefined ? String(value) : `r${value.registration}`;
}

// ---- jobs and their promises

// A soft update has no promise, and neither has a handler's call.
function promise(state, entry, awaited) {
  if (entry.by === "lane" && entry.event !== "softUpdate") state.promises.set(`${entry.lane}.${entry.at}`, awaited);
}

// An action that schedules a job, which `asked` tells the key, scope and script of.
function schedules(asked) {
  return (state, entry, action) => {
    const { job, joined, fault } = entry.answer;
    if (job !== undefined) {
      const leader = joined === undefined ? null : rowOf(state.jobs, joined);
      promise(state, entry, { job: state.schedule(entry, leader, asked(state, entry, action)) });
    } else if (fault !== undefined) {
      promise(state, entry, { value: valueText(entry.answer) });
    }
  };
}

function registering(state, entry, { client, script, scope }) {
  const page = rowOf(state.clients, client), address = parsedScope(script, page.url);
  return { key: page.key, script: address, scope: scope === undefined ? parsedScope("./", address) : parsedScope(scope, page.url) };
}

function updating(state, entry, action) {
  const registration = entry.by === "lane" ? state.named(action) : rowOf(state.workers, entry.worker).registration;
  return { key: registration.key, scope: registration.scope, script: there(state.newest(registration)).script };
}

function unregistering(state, entry, { client, scope }) {
  const page = rowOf(state.clients, client);
  return { key: page.key, scope: parsedScope(scope, page.url), script: null };
}

// ---- what the host does with a job: the phase that an answer leads to; any other answer ends the job

function leads(onward, more = () => {}) {
  return (state, entry) => {
    const job = rowOf(state.jobs, entry.of.job), { answer } = entry;
    job.phase = onward[answer.fetch === undefined ? answer : "fetch"] ?? "done";
    if (job.phase === "done") job.ended = { answer, line: state.line };
    more(state, job, answer);
  };
}

function run(state, job, { fetch }) {
  if (fetch !== undefined) Object.assign(job, { registration: state.mapped(job.key, job.scope), fetch });
}

function installed(state, job, answer) {
  there(state.slot(there(job.registration), "installing")).handler = null;
  if (answer === "ok") job.registration.owed = state.line;
}

// ---- workers and pages

// The worker that an action names by a slot, or the one whose handler makes the call.
function meant(state, entry, action) {
  return entry.by === "handler" ? rowOf(state.workers, entry.worker) : there(state.slot(state.named(action), action.slot));
}

function skipWaiting(state, entry, action) {
  if (entry.answer === "ok") meant(state, entry, action).skip ??= state.line;
}

function claim(state, entry, action) {
  if (entry.answer === "ok") state.giver = { how: "claimed", worker: meant(state, entry, action) };
}

function open(state, { answer }, { client, url, partition }) {
  const worker = answer.worker === undefined ? null : rowOf(state.workers, answer.worker);
  if (worker !== null || answer === "none") state.open(client, parsed(url), partition, worker);
}

function close(state, { answer }, { client }) {
  if (answer === "ok") state.close(client);
}

function begin(state, { answer }, { client, event }) {
  if (answer.worker === undefined) return;
  const worker = rowOf(state.workers, answer.worker), page = rowOf(state.clients, client);
  state.events.set(event, { number: event, worker, page, line: state.line });
}

function end(state, { answer }, { event }) {
  if (answer === "ok") state.events.delete(event);
}

function addAll(state, entry) {
  const { task: number, fault } = entry.answer;
  if (number !== undefined) {
    const task = { number, maker: entry, settled: null };
    state.tasks[number] = task;
    promise(state, entry, { task });
    if (entry.by === "handler") rowOf(state.workers, entry.worker).handler.unsettled.add(task);
  } else if (fault !== undefined) {
    promise(state, entry, { value: valueText(entry.answer) });
  }
}

function added(state, { of, answer }) {
  const task = rowOf(state.tasks, of.task), { maker } = task;
  task.settled = valueText(answer);
  if (maker.by === "handler") {
    const worker = rowOf(state.workers, maker.worker);
    worker.handler.unsettled.delete(task);
    state.blame(worker, maker, answer);
  }
}

// Each event of the host is here. An action or a call that isn't changes nothing that is followed.
export const EVENTS = new Map(Object.entries({
  restarted: (state, { answer }) => state.restart(answer.registrations),
  register: schedules(registering),
  update: schedules(updating),
  softUpdate: schedules(updating),
  unregister: schedules(unregistering),
  skipWaiting,
  claim,
  open,
  close,
  begin,
  end,
  addAll,
  added,
  run: leads({ fetch: "fetching" }, run),
  fetched: leads({ changed: "evaluating" }),
  evaluated: leads({ installing: "installing" }),
  installed: leads({}, installed),
  tryactivate: (state, { of }) => { rowOf(state.registrations, of.registration).owed = null; },
  activated: (state, { of }) => { rowOf(state.workers, of.worker).handler = null; },
  // (its notices tell what it does)
  forget() {},
}));
