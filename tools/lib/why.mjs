// Not proved; its reasons are compared with the program's transcripts (tests/why.mjs).
// The state after a line of a transcript, told in the standard's words: each registration with its workers, each job, each
// open page and each lane that waits, and why.
//
//   why(state)  the lines of it, in order
import { holds, isHeld, keeps, laneWaits, nextOf } from "./reasons.mjs";

const names = (letter, rows) => rows.map(({ number }) => letter + number).join(" and ");
const at = (line) => `line ${line}`;
const madeBy = (maker) => (maker.by === "lane" ? `L${maker.lane}.${maker.at}` : `w${maker.worker}.${maker.phase}.${maker.call}`);
const eventNames = (events) => events.map(({ number, page, line }) => `fetch event ${number} of c${page.number}, since ${at(line)}`).join(" and ");
const partitionOf = ({ key }) => (key.includes("^") ? ` (partition ${key.slice(key.indexOf("^") + 1)})` : "");

// ---- workers

function handlerText(worker) {
  const { phase, calls, made } = worker.handler, { tasks, call } = nextOf(worker), count = ` (${made} of ${calls.length} calls made)`;
  if (tasks.length > 0) return `its ${phase} event waits for addAll ${names("a", tasks)}${count}`;
  return call === null ? `its ${phase} event ends next` : `its ${phase} event calls ${call.do} next${count}`;
}

const use = (rows) => (rows.length === 1 ? "uses" : "use");

// When a waiting worker goes on. An unregistered registration is cleared before its waiting worker could become active,
// unless a page uses it and the flag is set.
function onward(state, { number, registration, skip }, { activating, events, users }) {
  if (!registration.mapped && (skip === null || state.users(registration).length === 0)) {
    return `it becomes redundant when nothing uses r${registration.number} any more, which is unregistered`;
  }
  const first = [
    ...(activating === null ? [] : [`w${activating.number} becomes activated`]),
    ...events.map((event) => `event ${event.number} ends`),
  ];
  const close = `${names("c", users)} ${users.length === 1 ? "closes" : "close"} or w${number} calls skipWaiting()`;
  if (users.length > 0) first.push(first.length === 0 ? close : `either ${close}`);
  return `it becomes active when ${first.join(" and ")}`;
}

function* waitingWorker(state, worker) {
  const { number, registration, skip } = worker, held = holds(state, worker), active = state.slot(registration, "active");
  if (skip !== null) yield `its skip waiting flag is set, since ${at(skip)}`;
  if (registration.owed !== null) yield `a Try Activate is owed, since ${at(registration.owed)}`;
  if (held.activating !== null) yield `w${active.number} is activating`;
  if (held.events.length > 0) yield `w${active.number} has a pending event: ${eventNames(held.events)}`;
  if (held.users.length > 0) yield `${names("c", held.users)} ${use(held.users)} r${registration.number}, and the skip waiting flag of w${number} isn't set`;
  if (isHeld(held)) yield onward(state, worker, held);
}

const REDUNDANT = {
  activating: ({ by }) => `w${by.number} took its place (Activate)`,
  installed: ({ by }) => `w${by.number} took its place as the waiting worker (Install)`,
  threw: () => "running its script threw",
  failed: (cause, { fault }) => `its install event failed${fault === null ? "" : `: ${fault.event} came to ${fault.value} (${at(fault.line)})`}`,
  cleared: ({ event }, { registration }) => (event === "forget"
    ? "its key was forgotten"
    : `r${registration.number} was unregistered and nothing used it any more (Clear Registration)`),
};

const KEPT = { restarted: ", kept as the active worker,", promoted: ", kept as the waiting worker," };

function* workerLines(state, worker) {
  const { line, cause } = worker.states.at(-1), head = `w${worker.number}${KEPT[worker.states[0].cause?.how] ?? ""}`;
  if (worker.state === "parsed") {
    yield `${head} is parsed, since ${at(line)}: its script is run next (Update)`;
  } else if (worker.state === "installing") {
    yield `${head} is the installing worker, since ${at(line)}`;
    yield `  ${handlerText(worker)}`;
  } else if (worker.state === "installed") {
    yield `${head} is the waiting worker, installed since ${at(line)}`;
    for (const text of waitingWorker(state, worker)) yield `  ${text}`;
  } else if (worker.state === "redundant") {
    yield `${head} is redundant, since ${at(line)}: ${REDUNDANT[cause.how](cause, worker)}`;
  } else {
    yield `${head} is the active worker, ${worker.state} since ${at(line)}`;
    if (worker.handler !== null) yield `  ${handlerText(worker)}`;
  }
}

function* registrationLines(state, registration) {
  const { number, scope, mapped, unmapped, workers } = registration;
  yield `r${number} ${scope}${partitionOf(registration)}${mapped ? "" : `, unregistered since ${at(unmapped)}`}`;
  if (!mapped && workers.some(({ state: name }) => !["redundant", "parsed"].includes(name))) {
    const { users, events, handlers } = keeps(state, registration);
    if (users.length > 0) yield `  it stays while ${names("c", users)} ${use(users)} it`;
    if (events.length > 0) yield `  it stays while an event is pending: ${eventNames(events)}`;
    if (handlers.length > 0) yield `  it stays while ${names("w", handlers)} handles an event`;
  }
  for (const worker of workers) {
    for (const text of workerLines(state, worker)) yield `  ${text}`;
  }
}

// ---- jobs

const UNFINISHED = {
  waiting: (state, job) => {
    const [first] = state.queue(job);
    return first === job ? "it runs next" : `it waits behind j${first.number} in the job queue of its scope`;
  },
  fetching: () => "its script is being fetched",
  evaluating: () => "its script was fetched and is run next",
  installing: (state, job) => `w${state.slot(job.registration, "installing").number} is installing`,
};

// What a job that ran came to without a fetch.
function withoutFetch({ what, settled }) {
  if (/Error/.test(settled ?? "Error")) return "it was refused when it ran";
  if (what === "unregister") return settled === "true" ? "the registration left the map" : "no registration had its scope";
  return `${settled} has its script, type and mode already, so nothing was fetched`;
}

const ENDED = {
  finished: withoutFetch,
  rejected: () => "the fetch of its script was refused, so there is no new worker",
  unchanged: () => "its script is that of the newest worker, byte for byte, so there is no new worker",
  threw: () => "running its script threw",
  failed: () => "its worker failed to install",
  ok: () => "its worker was installed",
};

function jobText(state, job) {
  const settled = job.settled === null ? "" : `; it settled with ${job.settled}`;
  if (job.joined !== null) return `it joined j${job.joined.number}, to which it is equivalent${settled}`;
  if (job.ended === null) return `${UNFINISHED[job.phase](state, job)}${settled}`;
  return `${ENDED[job.ended.answer](job)} (${at(job.ended.line)})${settled}`;
}

// ---- pages

function opening({ worker, registration, newest, state }, { secure }) {
  if (worker !== null) return `it opened and matched r${registration.number}, whose active worker was w${worker.number}`;
  if (!secure) return "it opened at an address that isn't trustworthy";
  if (registration === null) return "it opened when no registration matched its address";
  return `it opened and matched r${registration.number}, which had no active worker${newest === null ? "" : ` (w${newest.number} was ${state})`}`;
}

const GIVEN = {
  opened: opening,
  claimed: ({ worker }) => `w${worker.number} claimed it: it matches r${worker.registration.number} (Claim)`,
  activated: ({ worker }) => `w${worker.number} took over as the active worker of r${worker.registration.number}, which it uses (Activate)`,
};

// What the page would get now, where that differs from what it has.
function* otherwise(state, page) {
  const registration = page.secure ? state.match(page.key, page.url) : null, active = registration && state.slot(registration, "active");
  if (active === null || page.controller?.registration === registration) return;
  yield `r${registration.number} matches it now and has the active worker w${active.number}; it gets that one if it opens anew, or if w${active.number} calls claim()`;
}

function* pageLines(state, page) {
  const { number, url, controller, controllers } = page;
  yield `c${number} ${url}${partitionOf(page)}: ${controller === null ? "no controller" : `its controller is w${controller.number}`}`;
  for (const given of controllers) yield `  ${at(given.line)}: ${GIVEN[given.how](given, page)}`;
  for (const text of otherwise(state, page)) yield `  ${text}`;
}

// ---- lanes

function laneText(state, { awaited, ready, begin, page }) {
  if (ready !== undefined) {
    return ready === null ? `no registration matches c${page.number}` : `r${ready.number}, which c${page.number} matches, has no active worker`;
  }
  if (begin !== undefined) return `w${begin.number}, the controller of c${page.number}, is activating`;
  if (awaited === null) return "that action was answered NoClient, so it has no promise";
  return awaited.job === undefined ? `addAll a${awaited.task.number} has not ended` : `job j${awaited.job.number} has not settled: ${jobText(state, awaited.job)}`;
}

function* laneLines(state, lane) {
  const waits = laneWaits(state, lane);
  if (waits === null) return;
  const { do: word, lane: own, ...members } = waits.action;
  yield `L${lane}.${waits.at} ${word} ${JSON.stringify(members)} waits: ${laneText(state, waits)}`;
}

// ---- all

export function* why(state) {
  for (const registration of state.registrations) yield* registrationLines(state, registration);
  for (const job of state.jobs) yield `j${job.number} ${job.what} ${job.scope}${partitionOf(job)}, by ${madeBy(job.maker)}: ${jobText(state, job)}`;
  for (const page of state.clients.values()) yield* pageLines(state, page);
  for (const lane of state.positions.keys()) yield* laneLines(state, lane);
}
