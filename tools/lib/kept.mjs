// Not proved; compared with what the program shows (tests/dump.mjs).
// What a disk keeps: its registrations and caches, in kept order.
//
//   keptAfter(changes)  what a list of durable changes makes of nothing
//   shown(kept)         its text, as `swhost show` prints it
//   keptOf(shown)       what such a text tells: a worker's script has no text there, and a cache only a count of pairs
//   pairsOf(cache)      the pairs of a cache, in order
import { Refused, STATUS } from "./cli.mjs";

const QUOTA = 33554432;

const withoutFragment = (address) => address.split("#", 1)[0];
const withoutQuery = (address) => withoutFragment(address).split("?", 1)[0];
const lowerCase = (name) => name.replace(/[A-Z]+/g, (letters) => letters.toLowerCase());

// The combined value of a field, or undefined where no line has its name.
function combined(headers, name) {
  const values = headers.filter(([other]) => lowerCase(other) === name).map(([, value]) => value);
  return values.length === 0 ? undefined : values.join(", ");
}

function varyMembers(headers) {
  const members = (combined(headers, "vary") ?? "").split(",");
  return members.map((member) => lowerCase(member.replace(/^[ \t]+|[ \t]+$/g, ""))).filter((member) => member !== "");
}

// Request Matches Cached Item, of requests whose addresses are equal but for fragment and query.
function matches(query, { ignoreSearch, ignoreMethod, ignoreVary }, { request, response }) {
  if (!ignoreMethod && request.method !== "GET") return false;
  if (!ignoreSearch && withoutFragment(query.url) !== withoutFragment(request.url)) return false;
  const same = (name) => name !== "*" && combined(query.headers, name) === combined(request.headers, name);
  return ignoreVary || varyMembers(response.headers).every(same);
}

// The pairs of a cache by the order in which they were put, found by their addresses without query.
class Pairs {
  constructor() {
    this.byNumber = new Map();
    this.byAddress = new Map();
    this.next = 0;
  }

  at(url) {
    return this.byAddress.get(withoutQuery(url)) ?? [];
  }

  matching(query, options) {
    if (!options.ignoreMethod && query.method !== "GET") return [];
    return this.at(query.url).filter((number) => matches(query, options, this.byNumber.get(number)));
  }

  remove(query, options) {
    const gone = this.matching(query, options);
    if (gone.length === 0) return;
    this.byAddress.set(withoutQuery(query.url), this.at(query.url).filter((number) => !gone.includes(number)));
    for (const number of gone) this.byNumber.delete(number);
  }

  add(pair) {
    const address = withoutQuery(pair.request.url);
    if (!this.byAddress.has(address)) this.byAddress.set(address, []);
    this.byAddress.get(address).push(this.next);
    this.byNumber.set(this.next++, pair);
  }
}

const NO_OPTIONS = { ignoreSearch: false, ignoreMethod: false, ignoreVary: false };

function isRefusedPut({ request, response }) {
  return !/^https?:/.test(request.url) || request.method !== "GET" || response.status === 206 ||
    varyMembers(response.headers).includes("*");
}

// Batch Cache Operations throws by its operations alone: a put that is refused, or a request that matches what the
// batch has added.
function throws(operations) {
  const added = new Pairs();
  for (const operation of operations) {
    if (operation.response !== undefined && isRefusedPut(operation)) return true;
    if (added.matching(operation.request, operation.options ?? NO_OPTIONS).length > 0) return true;
    if (operation.response !== undefined) added.add(operation);
  }
  return operations.reduce((sum, operation) => sum + operation.bytes, 0) > QUOTA;
}

function carryOut(pairs, operations) {
  if (throws(operations)) return;
  for (const { request, response, options } of operations) {
    pairs.remove(request, options ?? NO_OPTIONS);
    if (response !== undefined) pairs.add({ request, response });
  }
}

function promote(registration) {
  if (registration.waiting === null) return;
  Object.assign(registration, { waiting: null, active: registration.waiting, activated: false });
}

// Registrations and caches under their keys, each in the order in which it was added.
class Content {
  constructor() {
    this.registrations = new Map();
    this.caches = new Map();
  }

  waiting({ key, scope, mode, worker }) {
    const name = JSON.stringify([key, scope]), preload = { enabled: false, value: "true" };
    const before = this.registrations.get(name) ?? { key, scope, active: null, activated: false, preload };
    this.registrations.set(name, { ...before, mode, waiting: worker });
  }

  onRegistration({ key, scope }, act) {
    const registration = this.registrations.get(JSON.stringify([key, scope]));
    if (registration !== undefined) act(registration);
  }

  active(change) {
    this.onRegistration(change, promote);
  }

  activated(change) {
    this.onRegistration(change, (registration) => { registration.activated = registration.active !== null; });
  }

  mode(change) {
    this.onRegistration(change, (registration) => { registration.mode = change.mode; });
  }

  preload(change) {
    const { enabled, value } = change;
    this.onRegistration(change, (registration) => { registration.preload = { enabled, value }; });
  }

  gone({ key, scope }) {
    this.registrations.delete(JSON.stringify([key, scope]));
  }

  cacheNew({ key, name }) {
    const place = JSON.stringify([key, name]);
    if (!this.caches.has(place)) this.caches.set(place, { key, name, pairs: new Pairs() });
  }

  cacheDrop({ key, name }) {
    this.caches.delete(JSON.stringify([key, name]));
  }

  cacheOps({ key, name, operations }) {
    const cache = this.caches.get(JSON.stringify([key, name]));
    if (cache !== undefined) carryOut(cache.pairs, operations);
  }

  forgot({ key }) {
    for (const rows of [this.registrations, this.caches]) {
      for (const [place, row] of rows) if (row.key === key) rows.delete(place);
    }
  }

  restarted() {
    for (const registration of this.registrations.values()) promote(registration);
  }
}

export const pairsOf = (cache) => [...cache.pairs.byNumber.values()];

export function keptAfter(changes) {
  const content = new Content();
  for (const change of changes) content[change.what](change);
  return { registrations: [...content.registrations.values()], caches: [...content.caches.values()] };
}

const quoted = JSON.stringify;

function* shownRegistration({ key, scope, mode, waiting, active, activated, preload }) {
  const worker = (state, { script, kind, body }) => ` ${state} ${quoted(script)} ${kind} ${body.length}`;
  yield `registration ${quoted(key)} ${quoted(scope)} ${mode}`;
  if (waiting !== null) yield worker("waiting installed", waiting);
  if (active !== null) yield worker(activated ? "active activated" : "active activating", active);
  if (preload.enabled || preload.value !== "true") yield ` preload ${preload.enabled ? "on" : "off"} ${quoted(preload.value)}`;
}

export function shown({ registrations, caches }) {
  const lines = [
    `registrations ${registrations.length}`,
    ...registrations.flatMap((registration) => [...shownRegistration(registration)]),
    `caches ${caches.length}`,
    ...caches.map((cache) => `cache ${quoted(cache.key)} ${quoted(cache.name)} ${pairsOf(cache).length}`),
  ];
  return lines.map((line) => line + "\n").join("");
}

const TEXT = '("(?:[^"\\\\]|\\\\.)*")';

// The lines of `show`: a pattern, and what its words add to the rows that were read before.
const SHOWN = [
  ["registrations \\d+", () => {}],
  [`registration ${TEXT} ${TEXT} (imports|all|none)`, ([key, scope, mode], { registrations }) => {
    const preload = { enabled: false, value: "true" };
    registrations.push({ key: JSON.parse(key), scope: JSON.parse(scope), mode, waiting: null, active: null, activated: false, preload });
  }],
  [` (waiting installed|active activating|active activated) ${TEXT} (classic|module) (\\d+)`, ([state, script, kind, length], { last }) => {
    const worker = { script: JSON.parse(script), kind, length: Number(length) };
    if (state === "waiting installed") last.waiting = worker;
    else Object.assign(last, { active: worker, activated: state === "active activated" });
  }],
  [` preload (on|off) ${TEXT}`, ([state, value], { last }) => {
    last.preload = { enabled: state === "on", value: JSON.parse(value) };
  }],
  ["caches \\d+", () => {}],
  [`cache ${TEXT} ${TEXT} (\\d+)`, ([key, name, count], { caches }) => {
    caches.push({ key: JSON.parse(key), name: JSON.parse(name), count: Number(count) });
  }],
].map(([pattern, add]) => [new RegExp(`^${pattern}$`), add]);

export function keptOf(text) {
  const registrations = [], caches = [];
  for (const [at, line] of text.split("\n").slice(0, -1).entries()) {
    const form = SHOWN.find(([pattern]) => pattern.test(line)), last = registrations.at(-1);
    if (form === undefined || (line.startsWith(" ") && last === undefined)) {
      throw new Refused(STATUS.line, `line ${at + 1}: no line of show`);
    }
    form[1](form[0].exec(line).slice(1), { registrations, caches, last });
  }
  return { registrations, caches };
}
