// Not proved; each tool that stands on it is compared with the program.
// What the tools share: their words, a file or standard input, and the program's statuses.
//
//   main({ usage, options, files, run })
//     usage     what --help prints; its first line is also shown where the words are wrong
//     options   the options beside --help: { back: false, out: true } are --back and --out WORD; none if left out
//     files     the greatest number of FILE words; 1 if left out
//     run       run({ options, files }) answers the status, or nothing for 0; it may be async
//               options has each option that was given, with true or its word; files has the FILE words
//
//   read(file)          the bytes of a file, or of standard input for "-" and for no file
//   readRecording(file) the same, refused where it has more bytes than a recording may have
//   utf8(bytes)         their text, or null where they aren't UTF-8
//   print(text)         writes to standard output: text, or bytes
//   say(text)           writes a line to standard error
//   throw new Refused(STATUS.line, "line 3: form")   ends the tool with `error: line 3: form` on standard error
import fs from "node:fs";

export const STATUS = { done: 0, words: 2, line: 3, read: 4, write: 5, large: 10 };
export const RECORDING_BYTES = 16777216;

export class Refused extends Error {
  constructor(status, text) {
    super(text);
    this.status = status;
  }
}

export function read(file) {
  try {
    return fs.readFileSync(file === undefined || file === "-" ? 0 : file);
  } catch {
    throw new Refused(STATUS.read, "read");
  }
}

export function readRecording(file) {
  const bytes = read(file);
  if (bytes.length > RECORDING_BYTES) throw new Refused(STATUS.large, "too large: recording");
  return bytes;
}

export function utf8(bytes) {
  try {
    return new TextDecoder("utf-8", { fatal: true, ignoreBOM: true }).decode(bytes);
  } catch {
    return null;
  }
}

// Written at once, so that nothing is lost where the tool ends right after it.
function writeAll(descriptor, bytes) {
  for (let from = 0; from < bytes.length;) {
    try {
      from += fs.writeSync(descriptor, bytes, from);
    } catch (fault) {
      if (fault.code !== "EAGAIN") throw new Refused(STATUS.write, "write");
    }
  }
}

export const print = (text) => writeAll(1, Buffer.from(text));
export const say = (text) => writeAll(2, Buffer.from(text + "\n"));

function wrongWords(usage) {
  return new Refused(STATUS.words, `words: ${usage.split("\n")[0]}`);
}

function wordsOf(words, usage, options, most) {
  const given = {}, files = [];
  let only = false;
  for (let at = 0; at < words.length; at++) {
    const word = words[at];
    if (only || word === "-" || !word.startsWith("-")) {
      files.push(word);
    } else if (word === "--") {
      only = true;
    } else {
      const option = word.replace(/^--/, "");
      if (!word.startsWith("--") || !Object.hasOwn(options, option)) throw wrongWords(usage);
      if (options[option] && at + 1 === words.length) throw wrongWords(usage);
      given[option] = options[option] ? words[++at] : true;
    }
  }
  if (files.length > most) throw wrongWords(usage);
  return { options: given, files };
}

export async function main({ usage, options = {}, files = 1, run }) {
  const words = process.argv.slice(2);
  try {
    if (words.length === 1 && words[0] === "--help") return print(usage.trimEnd() + "\n");
    process.exitCode = (await run(wordsOf(words, usage, options, files))) ?? STATUS.done;
  } catch (fault) {
    if (!(fault instanceof Refused)) throw fault;
    process.exitCode = fault.status;
    if (fault.status !== STATUS.write) say(`error: ${fault.message}`);
  }
}
