// Not proved; compared with the program's transcripts (tests/why.mjs).
// A recording as the tools follow it. Whether its lines are well formed is the work of lint.
//
//   new Recording(text)     its lanes, each a list of actions, and its fetch lines
//   lineOf(address, n)      the line that the n-th fetch of an address gets, or undefined
//   parsed(text, base)      the serialized address of a text that has one
//   parsedScope(text, base) the same without its fragment, as scripts and scopes have it
//   keyOf(address, partition), isTrustworthy(address)
import { Refused, STATUS } from "./cli.mjs";

// The program may take a host that Node's parser refuses: one with labels that begin with `xn--` and stand for nothing.
export function parsed(text, base) {
  if (!URL.canParse(text, base)) throw new Refused(STATUS.line, `Node doesn't parse ${JSON.stringify(text)}`);
  return new URL(text, base).href;
}

const withoutFragment = (address) => address.split("#", 1)[0];

export const parsedScope = (text, base) => withoutFragment(parsed(text, base));

export function keyOf(address, partition) {
  return new URL(address).origin + (partition === undefined ? "" : `^${partition}`);
}

export function isTrustworthy(address) {
  const { protocol, hostname } = new URL(address);
  return protocol === "https:" || /^127(\.\d+){3}$|^\[::1\]$|^(.*\.)?localhost$/.test(hostname);
}

export class Recording {
  constructor(text) {
    this.lanes = [];
    this.fetches = new Map();
    for (const [at, line] of text.split("\n").entries()) {
      if (line.trim() !== "") this.add(this.read(line, at + 1));
    }
  }

  read(line, number) {
    try {
      const value = JSON.parse(line);
      if (value !== null && typeof value === "object") return value;
    } catch {
      // refused below
    }
    throw new Refused(STATUS.line, `line ${number}: json`);
  }

  add(line) {
    if (line.fetch === undefined) {
      (this.lanes[line.lane] ??= []).push(line);
    } else {
      const address = parsedScope(line.fetch);
      if (!this.fetches.has(address)) this.fetches.set(address, []);
      this.fetches.get(address).push(line);
    }
  }

  lineOf(address, number) {
    const lines = this.fetches.get(withoutFragment(address)) ?? [];
    return lines[Math.min(number, lines.length - 1)];
  }
}
