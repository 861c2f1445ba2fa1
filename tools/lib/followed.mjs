// Not proved; compared with the program (tests/why.mjs).
// What why and timeline read: a recording and its transcript, or a recording that a program runs now.
//
//   OPTIONS                      the options that say what runs, and what the disk kept before
//   readRun({ options, files })  { lines, state }: the lines of the transcript, and the state before the first one, or
//                                null for a transcript alone
import { spawnSync } from "node:child_process";
import fs from "node:fs";
import os from "node:os";
import path from "node:path";
import { read, readRecording, Refused, RECORDING_BYTES, STATUS, utf8 } from "./cli.mjs";
import { DISK_STATUS, PARTS, readJournal, readParts } from "./disk.mjs";
import { keptAfter, keptOf } from "./kept.mjs";
import { badLines } from "./lint.mjs";
import { Recording } from "./recording.mjs";
import { State } from "./state.mjs";

export const OPTIONS = { program: true, kept: true, disk: true };

const OUTPUT_BYTES = 2 ** 30;
const wrongWords = (text) => new Refused(STATUS.words, `words: ${text}`);

// ---- a run by a program

function launch(program, word, folder, input) {
  const file = program.includes(path.sep) ? path.resolve(program) : program;
  const ran = spawnSync(file, [word], { cwd: folder, input, maxBuffer: OUTPUT_BYTES });
  if (ran.error) throw new Refused(STATUS.read, `program: ${ran.error.message}`);
  return utf8(ran.stdout) ?? "";
}

// The transcript of a run on a fresh disk, or on a copy of a disk.
function transcriptBy(program, disk, recording) {
  const folder = fs.mkdtempSync(path.join(os.tmpdir(), "swhost-tools-"));
  try {
    if (disk === undefined) launch(program, "init", folder, "");
    else for (const [name, bytes] of Object.entries(readParts(disk))) fs.writeFileSync(path.join(folder, PARTS[name]), bytes);
    return launch(program, "replay", folder, recording);
  } finally {
    fs.rmSync(folder, { recursive: true });
  }
}

// ---- what is read

const isTranscript = (text) => /^(- restarted -> |error: |end )/.test(text);

function textOf(bytes) {
  const text = utf8(bytes);
  if (text === null) throw new Refused(STATUS.line, "transcript: it isn't UTF-8");
  return text;
}

// The bytes of the recording, or none, and the text of the transcript.
function inputs({ program, disk }, files) {
  if (program !== undefined) {
    if (files.length > 1) throw wrongWords("a recording alone is given to --program");
    const recording = readRecording(files[0]);
    return { recording, transcript: transcriptBy(program, disk, recording) };
  }
  const first = read(files[0]);
  if (files.length < 2 && isTranscript(utf8(first) ?? "")) return { recording: null, transcript: textOf(first) };
  if (files.length === 0) throw wrongWords("a recording is given with its transcript, or with --program");
  if (first.length > RECORDING_BYTES) throw new Refused(STATUS.large, "too large: recording");
  return { recording: first, transcript: textOf(read(files[1])) };
}

const REFUSALS = [
  [/too large: /, STATUS.large],
  [/^line /, STATUS.line],
  [/^words: /, STATUS.words],
  [/^read$/, STATUS.read],
  [/^disk$/, DISK_STATUS.disk],
  [/^not formatted$/, DISK_STATUS.unformatted],
  [/^bad journal /, DISK_STATUS.journal],
  [/^full$/, DISK_STATUS.full],
];

// The lines of a transcript; refused as its run was, where nothing ran.
function linesOf(transcript) {
  const [, refusal] = /^error: (.*)/.exec(transcript) ?? [];
  if (refusal !== undefined) {
    const [, status] = REFUSALS.find(([pattern]) => pattern.test(refusal)) ?? [null, STATUS.line];
    throw new Refused(status, refusal);
  }
  const lines = transcript.split("\n");
  if (lines.at(-1) === "") lines.pop();
  if (lines.length === 0) throw new Refused(STATUS.line, "transcript: it has no line");
  return lines;
}

function keptBefore({ kept, disk }) {
  if (kept !== undefined && disk !== undefined) throw wrongWords("--kept or --disk");
  if (kept !== undefined) return keptOf(textOf(read(kept)));
  return disk === undefined ? null : keptAfter(readJournal(readParts(disk)).changes);
}

export function readRun({ options, files }) {
  const kept = keptBefore(options), { recording, transcript } = inputs(options, files), lines = linesOf(transcript);
  if (recording === null) return { lines, state: null };
  const { value: bad } = badLines(recording).next();
  if (bad) throw new Refused(bad.cause.startsWith("too large") ? STATUS.large : STATUS.line, `line ${bad.line}: ${bad.cause}`);
  const [, count] = /^- restarted -> (\d+) registrations/.exec(lines[0]) ?? [];
  if (count !== undefined && Number(count) !== (kept?.registrations.length ?? 0)) {
    throw wrongWords(`this run began with kept registrations (${count}), which --kept or --disk is to tell`);
  }
  return { lines, state: new State(new Recording(utf8(recording)), kept) };
}
