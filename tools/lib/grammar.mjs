// Not proved; compared with the program through tools/lint and tools/schema.
// The forms of a recording's lines as one table, which lint checks by and the JSON Schema is made of.
//
// A form is one of these; `cause` is what the program refuses a value by that is of the right kind and yet not of the form:
//   text     bytes, the most of them (`too large: text` or `too large: body`), and pattern, which it matches; `what` says which
//   base64   a body, with the most bytes that it may come to; its text matches pattern
//   address  an http or https address
//   number   a whole number from least to most
//   truth    true or false; with `only`, that one alone
//   word     one of some texts
//   list     an array of at most so many values of one form
//   pair     an array of as many values as it has forms
//   object   its members; a name with a question mark may be left out; of the names in `either` at most one is there
//   choice   by(value) is the form that a value is of, or null where it is of none of forms; `wanted` says what it should be,
//            and `words`, where it goes by the member `do`, which words there are

export const LIMITS = {
  actions: 65536,
  lane: 63,
  text: 4096,
  headers: 64,
  operations: 256,
  calls: 64,
  body: 1048576,
};

// The causes in the order in which the program tests them, each over the whole line.
export const CAUSES = [
  "json", "form", "too large: actions", "too large: lanes", "too large: text", "too large: headers", "too large: operations",
  "too large: calls", "method", "status", "header", "base64", "address", "await", "too large: body",
];

// ---- values

const tooLarge = (limit) => ({ most: LIMITS[limit], cause: `too large: ${limit}` });
const text = { kind: "text" };
const short = { kind: "text", bytes: tooLarge("text") };
const number = { kind: "number", least: 0, most: 4294967295, cause: "form" };
const truth = { kind: "truth" };
const word = (...words) => ({ kind: "word", words });
const list = (limit, of) => ({ kind: "list", of, ...tooLarge(limit) });
const object = (name, members, either = []) => ({ kind: "object", name, members, either });
const choice = (wanted, forms, by) => ({ kind: "choice", wanted, forms, by });
const member = (value, name) => (value.kind === "object" ? value.members.get(name)?.value : undefined);
const wordOf = (value) => member(value, "do")?.text;

export const FIELD_NAME = /^[!#$%&'*+.^_`|~0-9A-Za-z-]{1,65535}$/;
export const FIELD_VALUE = /^[^\u0000-\u0008\u000a-\u001f\u007f]*$/;
const valued = { pattern: FIELD_VALUE, cause: "header", what: "a header's value, without control characters but tabs" };
const status = { kind: "number", least: 100, most: 999, cause: "status" };
const lane = { kind: "number", least: 0, most: LIMITS.lane, cause: "too large: lanes" };
const method = { kind: "text", pattern: /^[!#$%&'*+.^_`|~0-9A-Za-z-]+$/, cause: "method", what: "a method, as `GET`" };
const partition = { kind: "text", pattern: /^[a-z0-9.-]{1,64}$/, cause: "form", what: "1 to 64 of a to z, 0 to 9, . and -" };
const fieldName = { kind: "text", pattern: FIELD_NAME, cause: "header", what: "a header's name, as `Content-Type`" };
const headers = list("headers", { kind: "pair", of: [fieldName, { ...text, ...valued }], example: '["Name","value"]' });
const bodyText = { kind: "text", bytes: tooLarge("body") };
const BASE64 = /^(?:[A-Za-z0-9+\/]{4})*(?:[A-Za-z0-9+\/][AQgw]==|[A-Za-z0-9+\/]{2}[AEIMQUYcgkosw048]=)?$/;
const bodyBase64 = { kind: "base64", pattern: BASE64, bytes: tooLarge("body") };

// ---- parts of lines

const requestObject = object("a request", { url: short, "method?": method, "headers?": headers });
const request = choice("an address, or an object with `url`", [short, requestObject], (value) => (value.kind === "text" ? short : requestObject));
const answer = { status, "headers?": headers, "text?": bodyText, "body?": bodyBase64 };
const response = object("a response", answer, ["text", "body"]);
const options = { "ignoreSearch?": truth, "ignoreMethod?": truth, "ignoreVary?": truth };
const putOperation = object("a put", { put: request, response });
const deleteOperation = object("a delete", { delete: request, ...options });
const operation = choice("an object with `put` or `delete`", [putOperation, deleteOperation], (value) => {
  if (member(value, "put")) return putOperation;
  return member(value, "delete") ? deleteOperation : null;
});

const named = { name: short };
const put = { name: short, request, response };
const deletion = { name: short, request, ...options };
const query = { name: short, "request?": request, ...options };
const batch = { name: short, operations: list("operations", operation) };
const addAll = { name: short, requests: list("operations", request) };

// The form of an object whose member `do` says what else it has.
function byWord(wanted, common, words) {
  const forms = new Map(Object.entries(words).map(([what, members]) => [what, object(`\`${what}\``, { ...common, do: word(what), ...members })]));
  return { ...choice(wanted, [...forms.values()], (value) => forms.get(wordOf(value)) ?? null), words: [...forms.keys()] };
}

const call = byWord("a call, which has `do`", {}, {
  skipWaiting: {},
  claim: {},
  update: {},
  cacheOpen: named,
  cacheDelete: named,
  put,
  delete: deletion,
  batch,
  addAll,
});
const calls = list("calls", call);

// ---- lines

const address = { kind: "address", bytes: tooLarge("text") };
const fetchLine = object("a fetch line", {
  fetch: address,
  ...answer,
  "run?": word("ok", "throw"),
  "install?": object("`install`", { "calls?": calls, "end?": word("ok", "fail") }),
  "activate?": object("`activate`", { "calls?": calls }),
}, ["text", "body"]);
const errorLine = object("a fetch line with `error`", { fetch: address, error: { kind: "truth", only: true } });

const onClient = { client: number };
const onScope = { client: number, scope: short };
const onSlot = { ...onScope, slot: word("installing", "waiting", "active") };
const onPage = { at: short, "partition?": partition };
const laneLine = byWord("an object with `fetch`, or with `lane` and `do`", { lane }, {
  open: { client: number, url: short, "partition?": partition },
  close: onClient,
  ready: onClient,
  registrations: onClient,
  register: { client: number, script: short, "scope?": short, "type?": word("classic", "module"), "cache?": word("imports", "all", "none") },
  update: onScope,
  softUpdate: onScope,
  unregister: onScope,
  preloadEnable: onScope,
  preloadDisable: onScope,
  preloadState: onScope,
  preloadValue: { ...onScope, value: { ...short, ...valued } },
  skipWaiting: onSlot,
  claim: onSlot,
  await: { of: number },
  registration: { client: number, url: short },
  begin: { client: number, event: number },
  end: { event: number },
  cacheKeys: onPage,
  forget: onPage,
  cacheOpen: { ...onPage, name: short },
  cacheHas: { ...onPage, name: short },
  cacheDelete: { ...onPage, name: short },
  match: { ...onPage, request, "name?": short, ...options },
  matchAll: { ...onPage, ...query },
  keys: { ...onPage, ...query },
  put: { ...onPage, ...put },
  delete: { ...onPage, ...deletion },
  batch: { ...onPage, ...batch },
  addAll: { ...onPage, ...addAll },
});

// Parts that several others have, under the names that they have in the JSON Schema.
export const PARTS = { fetchLine, errorLine, laneLine, headers, requestObject, request, response, operation, call };

export const line = choice(laneLine.wanted, [fetchLine, errorLine, laneLine], (value) => {
  if (member(value, "fetch")) return member(value, "error") ? errorLine : fetchLine;
  return laneLine;
});

// The words whose promise an `await` of their lane may name.
export const AWAITED = ["register", "update", "unregister", "addAll"];

export const isOptional = (key) => key.endsWith("?");
export const nameOf = (key) => (isOptional(key) ? key.slice(0, -1) : key);
