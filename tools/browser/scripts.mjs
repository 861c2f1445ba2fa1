// What the server gives to the browser: the text of each page and of each worker. These functions run there, not here.

// Calls on caches, the same in pages and workers. Each answers as a transcript does, but a fault by its name alone.
function caching() {
  const absolute = (text, base) => {
    try {
      return new URL(text, base).href;
    } catch {
      return text;
    }
  };
  const requestOf = (request, base) =>
    typeof request === "string" ? new Request(absolute(request, base))
      : new Request(absolute(request.url, base), { method: request.method ?? "GET", headers: request.headers ?? [] });
  const bytesOf = ({ text, body }) => {
    if (body !== undefined) return Uint8Array.from(atob(body), (letter) => letter.charCodeAt(0));
    return new TextEncoder().encode(text ?? "");
  };
  // Each stored response has a mark of its own, by which its place is found again.
  const responseOf = (response) => {
    const bytes = bytesOf(response), headers = [...response.headers ?? [], ["x-mark", crypto.randomUUID()]];
    return new Response(bytes.length === 0 ? null : bytes, { status: response.status, headers });
  };
  const optionsOf = ({ ignoreSearch = false, ignoreMethod = false, ignoreVary = false }) => ({ ignoreSearch, ignoreMethod, ignoreVary });
  const markOf = (response) => response.headers.get("x-mark");
  const nameOf = (request) => JSON.stringify([request.url, [...request.headers]]);
  const listed = (members) => [members.length, ...members.slice(0, 16)].join(" ");

  async function hit(response) {
    for (const name of await caches.keys()) {
      const marks = (await (await caches.open(name)).matchAll()).map(markOf), place = marks.indexOf(markOf(response));
      if (place >= 0) return `hit ${JSON.stringify(name)} ${place} ${response.status} ${(await response.arrayBuffer()).byteLength}`;
    }
    return "hit of no item";
  }

  const onStorage = {
    cacheOpen: async ({ name }) => {
      const found = await caches.has(name);
      await caches.open(name);
      return found ? "found" : "made";
    },
    cacheHas: async ({ name }) => String(await caches.has(name)),
    cacheDelete: async ({ name }) => String(await caches.delete(name)),
    cacheKeys: async () => listed((await caches.keys()).map((name) => JSON.stringify(name))),
    match: async (call, base) => {
      const where = call.name === undefined ? {} : { cacheName: call.name };
      const response = await caches.match(requestOf(call.request, base), { ...optionsOf(call), ...where });
      return response === undefined ? "none" : hit(response);
    },
  };
  const onCache = {
    put: async (cache, { request, response }, base) => {
      await cache.put(requestOf(request, base), responseOf(response));
      return "ok";
    },
    delete: async (cache, call, base) => String(await cache.delete(requestOf(call.request, base), optionsOf(call))),
    matchAll: async (cache, call, base) => {
      const marks = (await cache.matchAll()).map(markOf);
      const found = call.request === undefined ? await cache.matchAll() : await cache.matchAll(requestOf(call.request, base), optionsOf(call));
      return listed(found.map((response) => marks.indexOf(markOf(response))));
    },
    keys: async (cache, call, base) => {
      const names = (await cache.keys()).map(nameOf);
      const found = call.request === undefined ? await cache.keys() : await cache.keys(requestOf(call.request, base), optionsOf(call));
      return listed(found.map((request) => names.indexOf(nameOf(request))));
    },
    addAll: async (cache, { requests }, base) => {
      await cache.addAll(requests.map((request) => requestOf(request, base)));
      return "ok";
    },
    // There is no such call: its operations one after another.
    batch: async (cache, { operations }, base) => {
      for (const operation of operations) {
        if (operation.put !== undefined) await onCache.put(cache, { request: operation.put, response: operation.response }, base);
        else await onCache.delete(cache, { ...operation, request: operation.delete }, base);
      }
      return "ok";
    },
  };
  return async (call, base) => {
    if (self.caches === undefined) return "no interface";
    try {
      if (Object.hasOwn(onStorage, call.do)) return await onStorage[call.do](call, base);
      if (!await caches.has(call.name)) return "CacheGone";
      return await onCache[call.do](await caches.open(call.name), call, base);
    } catch (fault) {
      return fault.name;
    }
  };
}

// A worker: a handler asks the server what comes next, does it, and gives the answer with its next question.
function working(cacheCall, withFetch) {
  const id = crypto.randomUUID();

  async function ask(phase, answer) {
    const question = { id, phase, answer, scope: registration.scope };
    return (await fetch(`https://${id}.hub.test/`, { method: "POST", body: JSON.stringify(question) })).json();
  }
  const calls = {
    skipWaiting: () => self.skipWaiting().then(() => "ok"),
    claim: () => clients.claim().then(() => "ok"),
    update: () => registration.update().then(() => "ok"),
  };
  const start = (call) =>
    Object.hasOwn(calls, call.do) ? calls[call.do]().catch((fault) => fault.name) : cacheCall(call, self.location.href);
  const isFault = (answer) => answer === "CacheGone" || answer.endsWith("Error");

  async function obey(phase) {
    let answer = null, task = null, faults = 0;
    for (;;) {
      const order = await ask(phase, answer);
      if (order.do === "end") {
        if (order.fail || (phase === "install" && faults > 0)) throw new Error("the handler fails");
        return;
      }
      if (order.do === "call") task = start(order.call);
      answer = order.wait ? await task : "started";
      if (isFault(answer)) faults++;
    }
  }
  addEventListener("install", (event) => event.waitUntil(obey("install")));
  addEventListener("activate", (event) => event.waitUntil(obey("activate")));
  addEventListener("message", (event) => {
    const [port] = event.ports;
    if (event.data === "id") port.postMessage(id);
    else event.waitUntil(start({ do: event.data }).then((answer) => port.postMessage(answer)));
  });
  if (!withFetch) return;
  addEventListener("fetch", (event) => {
    const { pathname } = new URL(event.request.url);
    if (pathname.startsWith("/event.of/")) event.respondWith(ask(pathname).then(() => new Response("")));
  });
}

// A page: `drive` does one action, and `settled` waits for what an earlier one has promised.
function paging(cacheCall) {
  const started = new Map(), seen = new Map();
  const container = navigator.serviceWorker;

  function tell(worker, message) {
    return new Promise((resolve) => {
      const channel = new MessageChannel();
      channel.port1.onmessage = ({ data }) => resolve(data);
      worker.postMessage(message, [channel.port2]);
    });
  }
  const idOf = (worker) => Promise.race([tell(worker, "id"), new Promise((resolve) => setTimeout(resolve, 5000, "silent"))]);
  async function described(registration) {
    seen.set(registration.scope, registration);
    const newest = registration.installing ?? registration.waiting ?? registration.active;
    return { scope: registration.scope, worker: newest === null ? null : await idOf(newest) };
  }
  async function value(given) {
    if (given instanceof ServiceWorkerRegistration) return { registration: await described(given) };
    return given === undefined ? "undefined" : String(given);
  }
  function scopeOf(text) {
    const address = new URL(text, document.baseURI);
    address.hash = "";
    return address.href;
  }
  const registrationAt = async (text) => (await container.getRegistrations()).find(({ scope }) => scope === scopeOf(text));
  async function controller() {
    return { worker: container?.controller ? await idOf(container.controller) : null };
  }

  const workerCall = async ({ do: word, scope, slot }) => {
    const registration = await registrationAt(scope);
    if (registration === undefined) return "NoRegistration";
    return registration[slot] === null ? "NoWorker" : tell(registration[slot], word);
  };
  const preloadCall = (act) => async (action) => {
    const registration = await registrationAt(action.scope);
    return registration === undefined ? "NoRegistration" : act(registration.navigationPreload, action);
  };
  const actions = {
    register: ({ script, scope, type = "classic", cache = "imports" }) =>
      container.register(script, { type, updateViaCache: cache, ...scope === undefined ? {} : { scope } }),
    update: async ({ scope }) => {
      const registration = await registrationAt(scope);
      return registration === undefined ? "NoRegistration" : registration.update();
    },
    unregister: async ({ scope }) => {
      const registration = await registrationAt(scope) ?? seen.get(scopeOf(scope));
      return registration === undefined ? "no registration to ask" : registration.unregister();
    },
    ready: () => container.ready,
    registration: ({ url }) => container.getRegistration(url),
    registrations: async () => ({ registrations: await Promise.all((await container.getRegistrations()).map(described)) }),
    skipWaiting: workerCall,
    claim: workerCall,
    begin: async ({ event }) => {
      if (container.controller === null) return "NoController";
      return fetch(`/event.of/${event}`).then(() => "ended");
    },
    preloadEnable: preloadCall((preload) => preload.enable().then(() => "ok")),
    preloadDisable: preloadCall((preload) => preload.disable().then(() => "ok")),
    preloadValue: preloadCall((preload, { value }) => preload.setHeaderValue(value).then(() => "ok")),
    preloadState: preloadCall(async (preload) => {
      const { enabled, headerValue } = await preload.getState();
      return `${enabled ? "on" : "off"} ${JSON.stringify(headerValue)}`;
    }),
  };
  async function done(action, base) {
    if (!Object.hasOwn(actions, action.do)) return cacheCall(action, base);
    if (container === undefined) return "no interface";
    try {
      const given = await actions[action.do](action);
      return given?.registrations === undefined ? await value(given) : given;
    } catch (fault) {
      return fault.name;
    }
  }
  const start = (position, action, base) => {
    started.set(position, done(action, base));
    return "started";
  };
  self.page = { controller, start, settled: (position) => started.get(position) };
}

export const pageText = `<!doctype html><meta charset="utf-8"><title>a page</title><script>(${paging})((${caching})());</script>\n`;

export function workerText({ bytes, throws, withFetch }) {
  const end = throws ? 'throw new Error("the script throws");' : `(${working})((${caching})(), ${withFetch});`;
  return `/* ${bytes.toString("base64")} */\n${end}\n`;
}
