// Plays one recording in a browsing context of its own, line by line in the order of its transcript. What the transcript puts
// later is held until then: the answers to fetches by the server, and the handlers by the questions that they ask it.
import { seen } from "./recording.mjs";
import { workerText } from "./scripts.mjs";
import { bytesOf } from "./server.mjs";
import { Tabs } from "./tabs.mjs";
import { NOTHING, pause, wait, within } from "./time.mjs";

const ON_CACHES = ["cacheOpen", "cacheHas", "cacheDelete", "cacheKeys", "match", "matchAll", "keys", "put", "delete", "addAll", "batch"];
const OWN_ANSWERS = ["InUse", "NoClient", "NoEvent", "Busy"];
const NO_BATCH = { reason: "batch: no interface has it" };
const NO_SUCH_ADDRESS = { reason: "an address that a page can't have" };

function absolute(text, base) {
  try {
    const address = new URL(text, base);
    address.hash = "";
    return address.href;
  } catch {
    return null;
  }
}

const eventPhase = (event) => `/event.of/${event}`;
const firstNotice = (notices, form) => notices.map((notice) => form.exec(notice)).find((found) => found !== null)?.[1];

export class Player {
  results = [];
  #pages = new Map(); // tabs by the number of the client
  #helpers = new Map(); // tabs by their origin, for calls on caches where no page is open
  #workers = new Map(); // what a worker has asked, by the identity that it gave itself
  #names = new Map(); // those identities, by the transcript's names
  #registrations = new Map(); // the registration of a worker, both by the transcript's names
  #taken = new Set(); // the browser's versions of workers that have a name
  #scripts = []; // fetches of scripts that are held
  #jobs = new Map();
  #fetched = new Map();
  #tasks = new Map(); // who promised an addAll, by its name, or an action's outcome, by its lane and position
  #early = new Map(); // outcomes of lines that had to happen before their time
  #gate = null;
  #awake = () => {};

  constructor(chromium, server, { network, lanes }, transcript) {
    Object.assign(this, { chromium, server, network, lanes, transcript });
    this.withFetch = lanes.flat().some((action) => action.do === "begin");
    this.withClaim = transcript.some(({ event }) => event === "claim");
  }

  // Each answer of the transcript, as the browser gives it or with the reason why it isn't compared.
  async play() {
    this.server.player = this;
    this.tabs = await Tabs.start(this.chromium, () => this.#awake());
    try {
      for (const entry of this.transcript) await this.#line(entry);
    } finally {
      await this.tabs.end();
      this.#letGo();
    }
    return this.results;
  }

  #letGo() {
    this.server.player = null;
    for (const { resolve } of this.#scripts) resolve({ line: null });
    for (const { questions } of this.#workers.values()) for (const { resolve } of questions.values()) resolve({ do: "end", fail: true });
    this.#gate?.open();
  }

  async #line(entry) {
    const outcome = entry.lane !== undefined ? await this.#action(entry) : this.#early.get(entry) ?? await this.#host(entry);
    if (entry.lane !== undefined || entry.phase !== undefined || outcome.browser !== undefined) this.#note(entry, outcome);
    const activating = firstNotice(entry.notices, /^(w\d+) activating$/);
    if (activating !== undefined) await this.#until(() => this.#question(activating, "activate"), wait.soon);
  }

  #note({ number, text, event, answer }, { browser, reason }) {
    const unseen = browser === "started" ? "the number of a job or an addAll" : reason;
    this.results.push({ number, text, event, ours: seen(answer), browser, reason: unseen });
  }

  // Waits until `look` gives something.
  async #until(look, time = wait.late) {
    const end = Date.now() + time;
    for (;;) {
      const found = look();
      if (found !== undefined || Date.now() >= end) return found;
      await within(Math.min(50, end - Date.now()), new Promise((resolve) => { this.#awake = resolve; }));
    }
  }

  // ---- what the server asks

  #isWanted(address) {
    return [...this.#jobs.values()].some((job) => job.script === address && job.state === "made");
  }

  // A script that no job of the transcript asks for is a soft update of the browser's own: it gets a network error.
  script(address) {
    if (!this.#isWanted(address)) return Promise.resolve({ line: null });
    return new Promise((resolve) => {
      this.#scripts.push({ address, resolve });
      this.#awake();
    });
  }

  async data(address) {
    const lines = this.network.get(address);
    if (lines === undefined) return null;
    const count = this.#fetched.get(address) ?? 0;
    this.#fetched.set(address, count + 1);
    if (this.#gate !== null) await this.#gate.opened;
    return lines[Math.min(count, lines.length - 1)];
  }

  ask({ id, phase, answer, scope }) {
    const worker = this.#workers.get(id) ?? { id, scope, questions: new Map() };
    this.#workers.set(id, worker);
    return new Promise((resolve) => {
      worker.questions.set(phase, { answer, resolve });
      this.#awake();
    });
  }

  // ---- what the transcript calls a worker or registration

  #nameOf(id) {
    if (id === null) return "none";
    return [...this.#names].find(([, known]) => known === id)?.[0] ?? "w?";
  }

  #registrationName({ scope, worker }) {
    return this.#registrations.get(this.#nameOf(worker)) ?? `r?${scope}`;
  }

  #text(value) {
    if (value === NOTHING) return "pending";
    if (value?.registration !== undefined) return this.#registrationName(value.registration);
    if (value?.registrations !== undefined) {
      const names = value.registrations.map((each) => this.#registrationName(each));
      return [names.length, ...names.slice(0, 16)].join(" ");
    }
    if (value?.worker !== undefined) return this.#nameOf(value.worker);
    return String(value);
  }

  // ---- handlers

  #question(name, phase) {
    return this.#workers.get(this.#names.get(name))?.questions.get(phase);
  }

  // Gives a worker's handler its next order, and the answer that its next question has.
  async #order(name, phase, order) {
    const question = await this.#until(() => this.#question(name, phase));
    if (question === undefined) return NOTHING;
    this.#workers.get(this.#names.get(name)).questions.delete(phase);
    question.resolve(order);
    if (order.do === "end") return null;
    return (await this.#until(() => this.#question(name, phase)))?.answer ?? NOTHING;
  }

  #jobOfWorker(name) {
    return [...this.#jobs.values()].find(({ worker }) => worker === name);
  }

  #statusOf(name) {
    return this.tabs.versions.get(this.#workers.get(this.#names.get(name))?.version)?.status;
  }

  async #call({ worker, phase, call, event, answer }) {
    if (!this.#names.has(worker)) return { reason: "the browser has no such worker" };
    const job = this.#jobOfWorker(worker);
    const task = /^a\d+$/.exec(answer)?.[0], made = /^j\d+/.exec(answer)?.[0];
    if (made !== undefined) this.#jobs.set(made, { state: "made", script: job.script, scope: job.scope });
    if (task !== undefined) this.#hold(task, { worker, phase });
    const order = { do: "call", call: job.line?.[phase]?.calls?.[call], wait: task === undefined && made === undefined };
    const given = await this.#order(worker, phase, order);
    if (event === "batch") return NO_BATCH;
    return { browser: given === NOTHING ? "nothing" : given };
  }

  async #installEnds(name) {
    if (!this.#names.has(name)) return {};
    await this.#order(name, "install", { do: "end", fail: this.#jobOfWorker(name).line?.install?.end === "fail" });
    await this.#until(() => ["installed", "activating", "activated", "redundant"].includes(this.#statusOf(name)) || undefined);
    return {};
  }

  async #activateEnds(name) {
    if (!this.#names.has(name)) return {};
    await this.#order(name, "activate", { do: "end" });
    await this.#until(() => ["activated", "redundant"].includes(this.#statusOf(name)) || undefined);
    return {};
  }

  // A browser waits for an activating worker where the recording's page doesn't: then the handlers go on.
  async #patient(promise) {
    for (let turn = 0; turn < 3; turn++) {
      const given = await within(wait.soon, promise);
      if (given !== NOTHING) return given;
      await this.#activateNow();
    }
    return within(wait.late, promise);
  }

  async #activateNow() {
    for (const name of [...this.#names.keys()].filter((each) => this.#question(each, "activate"))) {
      for (const entry of this.transcript) {
        if (this.#isOfActivation(entry, name) && !this.#early.has(entry)) this.#early.set(entry, await this.#host(entry));
      }
      if (!this.transcript.some(({ event }) => event === `activated ${name}`)) await this.#activateUnseen(name);
    }
  }

  #isOfActivation({ worker, phase, event }, name) {
    if (worker === name) return phase === "activate";
    const [word, task] = event.split(" ");
    if (word === "added") return this.#tasks.get(task)?.worker === name && this.#tasks.get(task).phase === "activate";
    return event === `activated ${name}`;
  }

  // A worker that the browser activates and the transcript doesn't: its recorded handler, whole.
  async #activateUnseen(name) {
    for (const call of this.#jobOfWorker(name)?.line?.activate?.calls ?? []) {
      await this.#order(name, "activate", { do: "call", call, wait: call.do !== "update" });
    }
    await this.#activateEnds(name);
  }

  // ---- the host's lines

  async #host(entry) {
    if (entry.phase !== undefined) return this.#call(entry);
    const [word, name] = entry.event.split(" ");
    const job = this.#jobs.get(name) ?? {};
    switch (word) {
      case "run": return this.#run(job, entry);
      case "fetched": return this.#fetchEnds(job, name, entry);
      case "evaluated": return this.#evaluated(job, entry);
      case "installed": return this.#installEnds(job.worker);
      case "activated": return this.#activateEnds(name);
      case "added": return this.#added(name);
      default: return {};
    }
  }

  async #run(job, { answer, notices }) {
    job.registration = firstNotice(notices, /^mapped (r\d+)$/);
    const ordinal = /^fetch (\d+)$/.exec(answer)?.[1];
    if (ordinal !== undefined) {
      const held = await this.#until(() => this.#scripts.find(({ address }) => address === job.script));
      this.#scripts = this.#scripts.filter((each) => each !== held);
      const lines = this.network.get(job.script);
      Object.assign(job, { request: held, line: lines === undefined ? null : lines[Math.min(Number(ordinal), lines.length - 1)] });
    }
    job.state = "run";
    this.#refuseUnwanted();
    if (ordinal === undefined) await this.#settledSoon(job);
    return {};
  }

  #refuseUnwanted() {
    for (const { resolve } of this.#scripts.filter(({ address }) => !this.#isWanted(address))) resolve({ line: null });
    this.#scripts = this.#scripts.filter(({ address }) => this.#isWanted(address));
  }

  async #fetchEnds(job, name, { answer, notices }) {
    const throws = this.transcript.some((entry) => entry.event === `evaluated ${name}` && entry.answer === "threw");
    const bytes = job.line ? workerText({ bytes: bytesOf(job.line), throws, withFetch: this.withFetch }) : null;
    job.request?.resolve({ line: job.line, bytes });
    job.worker = firstNotice(notices, /^(w\d+) parsed$/);
    if (job.worker !== undefined) this.#registrations.set(job.worker, job.registration ?? this.#mappedAt(job.scope));
    if (answer !== "changed") await this.#settledSoon(job);
    return {};
  }

  // The registration of a scope: that of the newest job that mapped one there.
  #mappedAt(scope) {
    return [...this.#jobs.values()].filter((job) => job.scope === scope && job.registration !== undefined).at(-1)?.registration;
  }

  async #evaluated(job, { answer }) {
    if (answer === "installing") await this.#arrives(job);
    await this.#settledSoon(job);
    return {};
  }

  // The job's worker asks its first question: from now on it has its name.
  async #arrives(job) {
    const worker = await this.#until(() => [...this.#workers.values()].find(({ id, scope, questions }) =>
      scope === job.scope && questions.has("install") && this.#nameOf(id) === "w?"));
    if (worker === undefined) return;
    this.#names.set(job.worker, worker.id);
    worker.version = await this.#until(() => [...this.tabs.versions.values()].find(({ versionId, scriptURL, status }) =>
      status === "installing" && scriptURL === job.script && !this.#taken.has(versionId))?.versionId, wait.soon);
    this.#taken.add(worker.version);
  }

  // A job's promise settles before the transcript goes on, if it is going to.
  async #settledSoon({ page, position }) {
    if (this.tabs.isOpen(page)) await within(wait.soon, this.tabs.evaluate(page, "settled", position));
  }

  // While an addAll is open, what it fetches is held.
  #hold(task, promised) {
    this.#tasks.set(task, promised);
    if (this.#gate !== null) return;
    this.#gate = {};
    this.#gate.opened = new Promise((resolve) => { this.#gate.open = resolve; });
  }

  async #added(name) {
    this.#gate?.open();
    this.#gate = null;
    const { worker, phase, page, position } = this.#tasks.get(name) ?? {};
    if (worker !== undefined) return { browser: this.#text(await this.#order(worker, phase, { do: "wait", wait: true })) };
    if (page !== undefined) await within(wait.late, this.tabs.evaluate(page, "settled", position));
    return {};
  }

  // ---- the actions of pages

  async #action(entry) {
    const action = this.lanes[entry.lane][entry.position];
    if (action.partition !== undefined) return { reason: "partition: no page has one" };
    if (OWN_ANSWERS.includes(entry.answer)) return { reason: `${entry.answer}: a refusal of our own` };
    if (ON_CACHES.includes(action.do)) return this.#onCaches(action, entry);
    if (action.do === "forget") return this.#forget(action);
    if (action.do === "open") return this.#open(action, entry);
    if (action.do === "end") return this.#end(action);
    if (action.do === "await") return this.#await(action, entry);
    const page = this.#pages.get(action.client);
    if (page === undefined) return { reason: "the page isn't open in the browser" };
    if (action.do === "close") return this.#close(action, page);
    if (action.do === "softUpdate") return this.#softUpdate(action, entry, page);
    if (action.do === "begin") return this.#begin(action, entry, page);
    return this.#onPage(action, entry, page);
  }

  async #forget({ at }) {
    await this.tabs.forget(new URL(at).origin);
    return { reason: "forget: an action of our own" };
  }

  async #load(url, options) {
    const { tab, loaded } = await this.tabs.open(url, options);
    await this.#patient(loaded);
    return tab;
  }

  async #open({ client, url }, { answer }) {
    if (seen(answer).endsWith("Error")) return NO_SUCH_ADDRESS;
    const page = await this.#load(absolute(url));
    this.#pages.set(client, page);
    return { browser: this.#text(await this.tabs.evaluate(page, "controller")) };
  }

  // The browser tells a page's end a little later to its registrations.
  async #close({ client }, page) {
    this.#pages.delete(client);
    await this.tabs.close(page);
    await pause(100);
    return { reason: "close: it answers nothing" };
  }

  // The page that a call on caches is made in: an open one, or one that is there for this alone and has no controller.
  async #pageAt(origin) {
    const open = [...this.#pages.values()].find((page) => new URL(page.url).origin === origin);
    if (open !== undefined) return open;
    if (!this.#helpers.has(origin)) this.#helpers.set(origin, await this.#load(`${origin}/helper.of.caches`, { bypass: true }));
    return this.#helpers.get(origin);
  }

  // A helper that a claim could reach is closed at once.
  async #dropHelpers() {
    for (const [origin, page] of this.#helpers) {
      this.#helpers.delete(origin);
      await this.tabs.close(page);
    }
  }

  async #onCaches(action, { lane, position: at, answer }) {
    const address = absolute(action.at), isBatch = action.do === "batch";
    if (isBatch && answer !== "ok") return NO_BATCH;
    if (address === null || !/^https?:/.test(address)) return NO_SUCH_ADDRESS;
    const page = await this.#pageAt(new URL(address).origin), position = `${lane}.${at}`;
    const task = /^a\d+$/.exec(answer)?.[0];
    if (task !== undefined) this.#hold(task, { page, position });
    this.#tasks.set(position, { page, position });
    await this.tabs.evaluate(page, "start", position, action, address);
    if (task !== undefined) return { browser: "started" };
    const given = this.#text(await this.#patient(this.tabs.evaluate(page, "settled", position)));
    if (this.withClaim) await this.#dropHelpers();
    return isBatch ? NO_BATCH : { browser: given };
  }

  async #softUpdate({ scope }, { answer }, page) {
    const scopeURL = absolute(scope, page.url);
    if (/^j\d+/.test(answer)) {
      this.#make(answer, { script: this.#scriptAt(scopeURL), scope: scopeURL });
      await this.tabs.softUpdate(scopeURL);
    }
    return { reason: "softUpdate: no page asks for one" };
  }

  // The script of a scope's newest worker.
  #scriptAt(scope) {
    return [...this.#jobs.values()].filter((job) => job.scope === scope && job.worker !== undefined).at(-1)?.script;
  }

  #make(answer, job) {
    const [name, joined] = answer.split(" ");
    this.#jobs.set(name, { ...job, state: joined === undefined ? "made" : "joined" });
  }

  async #begin({ event }, { answer }, page) {
    const position = `event ${event}`, phase = eventPhase(event);
    await this.tabs.evaluate(page, "start", position, { do: "begin", event });
    if (answer === "NoController") return { browser: this.#text(await within(wait.soon, this.tabs.evaluate(page, "settled", position))) };
    const asking = () => [...this.#workers.values()].find(({ questions }) => questions.has(phase));
    if (await this.#until(asking, wait.soon) === undefined) await this.#activateNow();
    const worker = await this.#until(asking);
    return { browser: worker === undefined ? "nothing" : this.#nameOf(worker.id) };
  }

  async #end({ event }) {
    for (const { questions } of this.#workers.values()) questions.get(eventPhase(event))?.resolve({ do: "end" });
    await pause(100);
    return { reason: "end: it answers nothing" };
  }

  async #await({ of }, { lane }) {
    const { page, position } = this.#tasks.get(`${lane}.${of}`) ?? {};
    if (page === undefined) return { reason: "what it awaits isn't in the browser" };
    if (!this.tabs.isOpen(page)) return { reason: "its page is closed" };
    const given = this.#text(await this.#patient(this.tabs.evaluate(page, "settled", position)));
    return given === "no registration to ask" ? { reason: "the page has no registration to ask" } : { browser: given };
  }

  async #onPage(action, { lane, position: at, answer }, page) {
    const position = `${lane}.${at}`, isJob = /^j\d+/.test(answer);
    if (isJob) this.#make(answer, this.#jobOf(action, page, position));
    this.#tasks.set(position, { page, position });
    await this.tabs.evaluate(page, "start", position, action);
    if (!isJob) return { browser: this.#text(await this.#patient(this.tabs.evaluate(page, "settled", position))) };
    const refused = this.#text(await within(20, this.tabs.evaluate(page, "settled", position)));
    return { browser: refused === "NoRegistration" ? refused : "started" };
  }

  #jobOf(action, page, position) {
    if (action.do === "register") {
      const script = absolute(action.script, page.url);
      return { page, position, script, scope: absolute(action.scope ?? "./", action.scope === undefined ? script : page.url) };
    }
    const scope = absolute(action.scope, page.url);
    return action.do === "update" ? { page, position, scope, script: this.#scriptAt(scope) } : { page, position, scope };
  }
}
