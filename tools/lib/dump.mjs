// Not proved; compared with the program (tests/dump.mjs).
// What a disk keeps in other forms:
//
//   asJson(journal, kept)  the whole of it, as one JSON text
//   asRecording(kept)      a recording that makes the same caches
import { Refused, STATUS } from "./cli.mjs";
import { LIMITS } from "./grammar.mjs";
import { pairsOf } from "./kept.mjs";

// Bytes as text where they are one, else as base64; no member where there is none.
function body(bytes) {
  if (bytes.length === 0) return {};
  try {
    return { text: new TextDecoder("utf-8", { fatal: true, ignoreBOM: true }).decode(bytes) };
  } catch {
    return { body: Buffer.from(bytes).toString("base64") };
  }
}

const headersMember = (headers) => (headers.length === 0 ? {} : { headers });

function exchange({ request, response }) {
  const { url, method, headers } = request;
  return {
    request: { url, ...(method === "GET" ? {} : { method }), ...headersMember(headers) },
    response: { status: response.status, ...headersMember(response.headers), ...body(response.body) },
  };
}

const worker = (state, kept) => kept && { state, script: kept.script, kind: kept.kind, ...body(kept.body) };

function registration({ key, scope, mode, waiting, active, activated, preload }) {
  const workers = { waiting: worker("installed", waiting), active: worker(activated ? "activated" : "activating", active) };
  return { key, scope, mode, ...workers, preload };
}

export function asJson({ part, format, records, end }, { registrations, caches }) {
  const whole = {
    journal: { part, format, records, end },
    registrations: registrations.map(registration),
    caches: caches.map((cache) => ({ key: cache.key, name: cache.name, pairs: pairsOf(cache).map(exchange) })),
  };
  return JSON.stringify(whole, null, 2) + "\n";
}

function* actions({ caches }) {
  for (const cache of caches) {
    const [origin, partition] = cache.key.split(/\^(.*)/s);
    const place = { at: `${origin}/`, ...(partition === undefined ? {} : { partition }), name: cache.name };
    yield { lane: 0, do: "cacheOpen", ...place };
    for (const pair of pairsOf(cache)) yield { lane: 0, do: "put", ...place, ...exchange(pair) };
  }
}

export function asRecording(kept) {
  const lines = [];
  let size = 0;
  for (const action of actions(kept)) {
    lines.push(JSON.stringify(action) + "\n");
    size += Buffer.byteLength(lines.at(-1));
    const refused = (limit) => new Refused(STATUS.large, `line ${lines.length}: too large: ${limit}`);
    if (lines.length > LIMITS.actions) throw refused("actions");
    if (Buffer.byteLength(action.request?.url ?? "") > LIMITS.text) throw refused("text");
    if (size > LIMITS.recording) throw new Refused(STATUS.large, "too large: recording");
  }
  return lines.join("");
}
