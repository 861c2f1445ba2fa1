// Headless Chromium over its debugging protocol, through a pair of pipes: each message is JSON and ends with a zero byte.
import { spawn } from "node:child_process";
import { EventEmitter } from "node:events";

const SWITCHES = [
  "--headless=new", "--no-sandbox", "--remote-debugging-pipe", "--no-first-run", "--no-default-browser-check",
  "--disable-gpu", "--disable-breakpad", "--disable-extensions", "--disable-component-update", "--disable-sync", "--disable-background-networking",
  "--disable-background-timer-throttling", "--disable-backgrounding-occluded-windows", "--disable-renderer-backgrounding",
  "--disable-features=LocalNetworkAccessChecks,HttpsUpgrades,BlockInsecurePrivateNetworkRequests",
  "--ignore-certificate-errors", "--use-mock-keychain", "--password-store=basic", "--mute-audio",
];

const SILENCE = 60000;

// The browser refuses a command, doesn't answer it, or has ended.
export class Silent extends Error {}

export class Chromium extends EventEmitter {
  #child;
  #next = 1;
  #waiting = new Map();
  #rest = Buffer.alloc(0);

  // Every host name leads to `port` of this machine.
  constructor({ program, folder, port }) {
    super();
    this.setMaxListeners(0);
    const switches = [...SWITCHES, `--user-data-dir=${folder}`, `--host-resolver-rules=MAP * 127.0.0.1:${port}`];
    this.#child = spawn(program, [...switches, "about:blank"], { stdio: ["ignore", "ignore", "ignore", "pipe", "pipe"] });
    this.#child.stdio[4].on("data", (bytes) => this.#read(bytes));
    this.#child.stdio[3].on("error", () => {});
    this.ended = new Promise((resolve) => {
      for (const end of ["exit", "error"]) this.#child.on(end, resolve);
    });
    this.ended.then(() => this.#fail("it has ended"));
  }

  #fail(text) {
    for (const { reject } of this.#waiting.values()) reject(new Silent(text));
    this.#waiting.clear();
  }

  #read(bytes) {
    this.#rest = Buffer.concat([this.#rest, bytes]);
    for (let end; (end = this.#rest.indexOf(0)) >= 0;) {
      const message = JSON.parse(this.#rest.subarray(0, end).toString());
      this.#rest = this.#rest.subarray(end + 1);
      this.#take(message);
    }
  }

  #take({ id, result, error, method, params, sessionId }) {
    if (id === undefined) return this.emit(method, params, sessionId);
    const waiting = this.#waiting.get(id);
    this.#waiting.delete(id);
    if (error) waiting?.reject(new Silent(`${waiting.method}: ${error.message}`));
    else waiting?.resolve(result);
  }

  send(method, params = {}, sessionId) {
    const id = this.#next++;
    const answered = new Promise((resolve, reject) => {
      this.#waiting.set(id, { resolve, reject, method });
      this.#child.stdio[3].write(JSON.stringify({ id, method, params, sessionId }) + "\0");
    });
    const late = setTimeout(() => this.#take({ id, error: { message: "no answer" } }), SILENCE);
    return answered.finally(() => clearTimeout(late));
  }

  async end() {
    await Promise.race([this.send("Browser.close").catch(() => {}), this.ended]);
    const late = setTimeout(() => this.#child.kill("SIGKILL"), 5000);
    await this.ended;
    clearTimeout(late);
  }
}
