// Not proved; its recordings are compared with the program, which takes them.
// The recording of an archive of a browser's network (HAR 1.2): its answers as fetch lines, its pages and workers as lane lines.
import { httpAddress } from "./address.mjs";
import { utf8 } from "./cli.mjs";
import { FIELD_NAME, FIELD_VALUE, LIMITS } from "./grammar.mjs";

// What no script sees of a response, and names that HTTP/2 has for its first line.
const HIDDEN = /^(set-cookie2?$|:)/i;
const REDIRECTS = [301, 302, 303, 307, 308];
const WITHOUT_PAGE = [204, 205, 304];
const BY_WORKER = "a service worker answered it, and not the network";

const isList = Array.isArray;
const headerOf = (headers, name) => (isList(headers) ? headers.find((header) => String(header?.name).toLowerCase() === name)?.value : undefined);
const withoutFragment = (address) => address.replace(/#.*$/s, "");

// Why an entry's answer isn't what the network answers to a GET, or undefined.
function whyLeftOut({ request, response }) {
  if (typeof request?.url !== "string" || !response) return "it has no request or no response";
  if (!request.url.isWellFormed() || !httpAddress(request.url)) return "its address isn't one of http or https";
  if (Buffer.byteLength(request.url) > LIMITS.text) return `its address has more than ${LIMITS.text} bytes`;
  if (request.method !== "GET") return `its method is ${request.method}, and hosts fetch by GET alone`;
  if (response._fetchedViaServiceWorker) return BY_WORKER;
  return undefined;
}

function headersOf(response, say) {
  const all = isList(response.headers) ? response.headers : [];
  // A field that came several times may stand as one value in several lines.
  const lines = all.flatMap(({ name, value }) => String(value).split("\n").map((part) => [String(name), part]));
  const seen = lines.filter(([name]) => !HIDDEN.test(name)), good = seen.filter(([name, value]) => FIELD_NAME.test(name) && FIELD_VALUE.test(value) && value.isWellFormed());
  if (good.length < seen.length) say(`headers with a bad name or value, left out: ${seen.length - good.length}`);
  if (good.length > LIMITS.headers) say(`headers behind the first ${LIMITS.headers}, left out: ${good.length - LIMITS.headers}`);
  return good.slice(0, LIMITS.headers);
}

function bodyOf({ text, encoding, size }, say) {
  if (text === undefined && size > 0) say(`the archive lacks its body of ${size} bytes, and an empty one is taken`);
  const whole = Buffer.from(text ?? "", encoding === "base64" ? "base64" : "utf8"), bytes = whole.subarray(0, LIMITS.body);
  if (bytes.length < whole.length) say(`its body of ${whole.length} bytes is cut to ${bytes.length}`);
  if (bytes.length === 0) return {};
  const read = utf8(bytes);
  return read === null ? { body: bytes.toString("base64") } : { text: read };
}

class Archive {
  constructor(say) {
    this.say = say;
    this.fetches = [];
    this.lines = [];
    this.pages = [];
    this.scripts = new Set();
    this.answers = new Map();
  }

  act(what, members) {
    this.lines.push({ lane: 0, do: what, ...members });
    return this.lines.length - 1;
  }

  // The fetch line of an answer; one that says that nothing was modified is the answer before it.
  answer(fetch, response, say) {
    const { status } = response;
    if (!Number.isInteger(status) || status < 100 || status > 999) return { fetch, error: true };
    if (status === 304 && this.answers.has(fetch)) return this.answers.get(fetch);
    if (status === 304) say("it says that nothing was modified, and the archive doesn't have what was there before");
    if (REDIRECTS.includes(status)) say("it is a redirect, and no redirect is followed");
    const headers = headersOf(response, say);
    return { fetch, status, ...(headers.length > 0 && { headers }), ...bodyOf(response.content ?? {}, say) };
  }

  fetched(request, response, say) {
    const fetch = withoutFragment(request.url), line = this.answer(fetch, response, say);
    if (!line.error) this.answers.set(fetch, line);
    this.fetches.push(line);
  }

  // Whether a page comes of an entry: browsers that tell what an entry is for do so, of others the first answer in HTML counts.
  isPage({ request, response, pageref, _resourceType }) {
    const { status } = response;
    if (!(status >= 200 && status <= 999) || REDIRECTS.includes(status) || WITHOUT_PAGE.includes(status)) return false;
    if (_resourceType !== undefined) return _resourceType === "document";
    return /html/i.test(response.content?.mimeType ?? "") && !this.pages.some((page) => page.pageref === pageref && pageref !== undefined);
  }

  opened({ request, pageref }) {
    const client = this.pages.length + 1;
    this.pages.push({ client, pageref, address: withoutFragment(request.url) });
    this.act("open", { client, url: request.url });
  }

  // The page that a worker's script is fetched for: the one that the request names, or else the last one of its origin.
  registrant({ url, headers }) {
    const referrer = headerOf(headers, "referer"), { origin } = httpAddress(url);
    return this.pages.findLast(({ address }) => address === referrer) ?? this.pages.findLast(({ address }) => httpAddress(address).origin === origin);
  }

  scriptFetched({ request }, say) {
    const page = this.registrant(request), script = withoutFragment(request.url);
    if (!page) return say("it is a worker's script, and no page of its origin is in the archive");
    const { client } = page, scope = httpAddress(script).pathname.replace(/[^/]*$/, "");
    this.act("await", { of: this.scripts.has(script) ? this.act("update", { client, scope }) : this.act("register", { client, script }) });
    this.scripts.add(script);
  }

  entry(entry, say) {
    const { request, response } = entry, why = whyLeftOut(entry);
    if (why !== undefined) say(`${why}: left out`);
    else this.fetched(request, response, say);
    if (why !== undefined && why !== BY_WORKER) return;
    if (this.isPage(entry)) this.opened(entry);
    if (headerOf(request.headers, "service-worker") === "script") this.scriptFetched(entry, say);
  }
}

// The recording's lines as objects, or null where there is no archive; say(text) is called for what is left out or changed.
export function recordingOf(har, say) {
  if (!isList(har?.log?.entries)) return null;
  const archive = new Archive(say), started = (entry) => Date.parse(entry?.startedDateTime) || 0;
  const entries = har.log.entries.map((entry, at) => ({ entry, at })).sort((left, right) => started(left.entry) - started(right.entry));
  for (const { entry, at } of entries) archive.entry(entry ?? {}, (text) => say(`entry ${at}, ${String(entry?.request?.url).slice(0, 80)}: ${text}`));
  return [...archive.fetches, ...archive.lines];
}
