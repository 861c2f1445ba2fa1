// A browsing context with its tabs, and what the browser tells of its workers.
import { NOTHING, wait, within } from "./time.mjs";

export class Tabs {
  versions = new Map();
  #open = new Set();

  // `changed` is called whenever a worker changes.
  static async start(chromium, changed) {
    const tabs = new Tabs();
    tabs.chromium = chromium;
    tabs.context = (await chromium.send("Target.createBrowserContext")).browserContextId;
    tabs.observer = await tabs.#create();
    tabs.listener = ({ versions }) => {
      for (const version of versions) tabs.versions.set(version.versionId, version);
      changed();
    };
    chromium.on("ServiceWorker.workerVersionUpdated", tabs.listener);
    await chromium.send("ServiceWorker.enable", {}, tabs.observer.sessionId);
    return tabs;
  }

  async end() {
    this.chromium.off("ServiceWorker.workerVersionUpdated", this.listener);
    await this.chromium.send("Target.disposeBrowserContext", { browserContextId: this.context });
  }

  // The first event of this name that `test` takes.
  #event(name, test) {
    return new Promise((resolve) => {
      const listener = (params, session) => {
        if (!test(params, session)) return;
        this.chromium.off(name, listener);
        resolve();
      };
      this.chromium.on(name, listener);
    });
  }

  async #create() {
    const { targetId } = await this.chromium.send("Target.createTarget", { url: "about:blank", browserContextId: this.context });
    const { sessionId } = await this.chromium.send("Target.attachToTarget", { targetId, flatten: true });
    return { targetId, sessionId };
  }

  // A tab at an address, and a promise of its page; with `bypass`, its page has no controller.
  async open(url, { bypass = false } = {}) {
    const { targetId, sessionId } = await this.#create();
    await this.chromium.send("Page.enable", {}, sessionId);
    if (bypass) {
      await this.chromium.send("Network.enable", {}, sessionId);
      await this.chromium.send("Network.setBypassServiceWorker", { bypass: true }, sessionId);
    }
    const loaded = this.#event("Page.loadEventFired", (params, session) => session === sessionId);
    this.chromium.send("Page.navigate", { url }, sessionId).catch(() => {});
    const tab = { targetId, sessionId, url };
    this.#open.add(tab);
    return { tab, loaded };
  }

  isOpen(tab) {
    return this.#open.has(tab);
  }

  async close(tab) {
    this.#open.delete(tab);
    const gone = this.#event("Target.detachedFromTarget", ({ targetId }) => targetId === tab.targetId);
    await this.chromium.send("Target.closeTarget", { targetId: tab.targetId });
    await within(wait.late, gone);
  }

  // What a function of the page answers.
  async evaluate({ sessionId }, call, ...words) {
    const expression = `page.${call}(${words.map((word) => JSON.stringify(word) ?? "undefined").join(", ")})`;
    const answered = this.chromium.send("Runtime.evaluate", { expression, awaitPromise: true, returnByValue: true }, sessionId);
    const given = await within(2 * wait.late, answered.catch(() => NOTHING));
    if (given === NOTHING) return NOTHING;
    const { result, exceptionDetails } = given;
    return exceptionDetails === undefined ? result.value : `(${exceptionDetails.exception?.description ?? exceptionDetails.text})`;
  }

  async softUpdate(scopeURL) {
    await this.chromium.send("ServiceWorker.updateRegistration", { scopeURL }, this.observer.sessionId);
  }

  async forget(origin) {
    await this.chromium.send("Storage.clearDataForOrigin", { origin, storageTypes: "all" }, this.observer.sessionId);
  }
}
