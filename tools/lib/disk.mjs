// Not proved; compared with what the program shows of the same disks (tests/dump.mjs).
// Reads the three files of a disk, in both formats of the journal:
//
//   PARTS              the names of the files
//   readParts(folder)  the bytes of the three files, as root, left and right; a file that is missing is empty
//   readJournal(parts) { part, format, records, end, changes } of the current part: its changes in order, and the
//                      offset of its closed gate
//
// Refused as the program refuses: a disk that can't be read (6), isn't formatted (7), or is bad at an offset (8).
import fs from "node:fs";
import path from "node:path";
import { Refused } from "./cli.mjs";

export const DISK_STATUS = { disk: 6, unformatted: 7, journal: 8, full: 11 };
export const PARTS = { root: "swhost.root", left: "swhost.left", right: "swhost.right" };
const HEADER_BYTES = 16;
const FORMATS = { "SWHOST-JOURNAL-1": 1, "SWHOST-JOURNAL-2": 2 };
const MODES = ["imports", "all", "none"];
const KINDS = ["classic", "module"];
const SWITCH = [false, true];

function readPart(folder, name) {
  try {
    return fs.readFileSync(path.join(folder, name));
  } catch (fault) {
    if (fault.code === "ENOENT" && fs.existsSync(folder)) return Buffer.alloc(0);
    throw new Refused(DISK_STATUS.disk, "disk");
  }
}

export function readParts(folder) {
  return Object.fromEntries(Object.entries(PARTS).map(([name, file]) => [name, readPart(folder, file)]));
}

// What the bytes of a journal don't spell. It is told at the offset of the record's gate.
class Misspelled extends Error {}

const utf8 = new TextDecoder("utf-8", { fatal: true, ignoreBOM: true });

// Reads spelled values from the left.
class Speller {
  constructor(bytes, at = 0) {
    this.bytes = bytes;
    this.at = at;
  }

  take(count) {
    if (count > this.bytes.length - this.at) throw new Misspelled();
    this.at += count;
    return this.bytes.subarray(this.at - count, this.at);
  }

  byte() {
    return this.take(1)[0];
  }

  count() {
    return this.take(4).readUInt32BE();
  }

  bytesOfLength() {
    return this.take(this.count());
  }

  text() {
    try {
      return utf8.decode(this.bytesOfLength());
    } catch (fault) {
      throw fault instanceof Misspelled ? fault : new Misspelled();
    }
  }

  oneOf(values) {
    const place = this.byte();
    if (place >= values.length) throw new Misspelled();
    return values[place];
  }

  list(read) {
    const items = [];
    for (let left = this.count(); left > 0; left--) items.push(read());
    return items;
  }

  headers() {
    return this.list(() => [this.text(), this.text()]);
  }

  request() {
    return { method: this.text(), url: this.text(), headers: this.headers() };
  }

  response() {
    return { status: this.take(2).readUInt16BE(), headers: this.headers(), body: this.bytesOfLength() };
  }

  options() {
    const bits = this.byte();
    if (bits > 7) throw new Misspelled();
    return { ignoreSearch: (bits & 1) !== 0, ignoreMethod: (bits & 2) !== 0, ignoreVary: (bits & 4) !== 0 };
  }

  operation() {
    const tag = this.byte(), from = this.at;
    if (tag === 1) return { request: this.request(), options: this.options(), bytes: 1 + this.at - from };
    if (tag === 2) return { request: this.request(), response: this.response(), bytes: 1 + this.at - from };
    throw new Misspelled();
  }

  operations() {
    const operations = this.list(() => this.operation());
    if (operations.length === 0) throw new Misspelled();
    return operations;
  }

  scope() {
    return { key: this.text(), scope: this.text() };
  }

  cache() {
    return { key: this.text(), name: this.text() };
  }

  worker() {
    return { script: this.text(), kind: this.oneOf(KINDS), body: this.bytesOfLength() };
  }

  change() {
    const read = CHANGES[this.byte()];
    if (read === undefined) throw new Misspelled();
    return read(this);
  }
}

// By the tag of a change: its name and its fields, in their order.
const CHANGES = [
  undefined,
  (from) => ({ what: "waiting", ...from.scope(), mode: from.oneOf(MODES), worker: from.worker() }),
  (from) => ({ what: "active", ...from.scope() }),
  (from) => ({ what: "activated", ...from.scope() }),
  (from) => ({ what: "mode", ...from.scope(), mode: from.oneOf(MODES) }),
  (from) => ({ what: "gone", ...from.scope() }),
  (from) => ({ what: "cacheNew", ...from.cache() }),
  (from) => ({ what: "cacheDrop", ...from.cache() }),
  (from) => ({ what: "cacheOps", ...from.cache(), operations: from.operations() }),
  (from) => ({ what: "forgot", key: from.text() }),
  () => ({ what: "restarted" }),
  (from) => ({ what: "preload", ...from.scope(), enabled: from.oneOf(SWITCH), value: from.text() }),
];

// The changes of the record whose open gate stands at an offset, and the offset of the next gate.
function readRecord(part, format, gate, number) {
  const frame = new Speller(part, gate + 1), length = frame.count();
  if (format === 2 && frame.take(8).readBigUInt64BE() !== BigInt(number)) throw new Misspelled();
  const payload = new Speller(frame.take(length)), next = frame.at, changes = [];
  frame.byte();
  do changes.push(payload.change()); while (payload.at < length);
  return { changes, next };
}

function currentPart({ root, left, right }) {
  let ones = 0;
  while (root[ones] === 1) ones++;
  return ones % 2 === 0 ? { name: "left", bytes: left } : { name: "right", bytes: right };
}

export function readJournal(parts) {
  const { name, bytes } = currentPart(parts);
  const format = FORMATS[bytes.toString("latin1", 0, HEADER_BYTES)];
  if (format === undefined) throw new Refused(DISK_STATUS.unformatted, "not formatted");
  const changes = [];
  let gate = HEADER_BYTES, records = 0;
  try {
    if (gate === bytes.length) throw new Misspelled();
    for (; bytes[gate] === 1; records++) {
      const record = readRecord(bytes, format, gate, records);
      for (const change of record.changes) changes.push(change);
      gate = record.next;
    }
  } catch (fault) {
    if (!(fault instanceof Misspelled)) throw fault;
    throw new Refused(DISK_STATUS.journal, `bad journal at ${gate}`);
  }
  return { part: name, format, records, end: gate, changes };
}
