// The tests of the tools: a file of tools/tests imports `test` and names its tests by it; tools/test runs them.
//
//   test(name, run)             run() fails by throwing; it may be async
//   test.ofProgram(name, run)   run(program) is left out where no program is given
//   test.long(name, run)        the same, where the word `long` isn't given either
//   tool(name, words, input)    runs a tool, and gives { status, output, errors }
//   launch(program, words, { folder, input })   the same of any program, in a folder
//   launch.later(..)            a promise of it, so that several run side by side
//   inFolder(run)               run(folder), with a fresh folder that is removed afterwards; inFolder.later where run is async
//   recordings()                the paths of all recordings of conformance/ and examples/ (those of examples/imports/, examples/roster/ and examples/watch/ are none)
//   top                         the path of the repository
import { spawn, spawnSync } from "node:child_process";
import { once } from "node:events";
import fs from "node:fs";
import os from "node:os";
import path from "node:path";

export const top = path.resolve(import.meta.dirname, "../..");

const known = [];
export const test = (name, run) => known.push({ name, run, needs: 0 });
test.ofProgram = (name, run) => known.push({ name, run, needs: 1 });
test.long = (name, run) => known.push({ name, run, needs: 2 });

export function launch(program, words, { folder = top, input = "" } = {}) {
  const ran = spawnSync(program, words, { cwd: folder, input, maxBuffer: 2 ** 28 });
  if (ran.error) throw ran.error;
  return { status: ran.status, output: ran.stdout.toString(), errors: ran.stderr.toString() };
}

// A program may end before it has read its input, which is no fault.
launch.later = async (program, words, { folder = top, input = "" } = {}) => {
  const child = spawn(program, words, { cwd: folder }), output = [], errors = [];
  child.stdout.on("data", (chunk) => output.push(chunk));
  child.stderr.on("data", (chunk) => errors.push(chunk));
  child.stdin.on("error", () => {});
  child.stdin.end(input);
  const [status] = await once(child, "close");
  return { status, output: Buffer.concat(output).toString(), errors: Buffer.concat(errors).toString() };
};

export const tool = (name, words = [], input = "") => launch(path.join(top, "tools", name), words, { input });

const freshFolder = () => fs.mkdtempSync(path.join(os.tmpdir(), "swhost-tools-"));

export function inFolder(run) {
  const folder = freshFolder();
  try {
    return run(folder);
  } finally {
    fs.rmSync(folder, { recursive: true });
  }
}

inFolder.later = async (run) => {
  const folder = freshFolder();
  try {
    return await run(folder);
  } finally {
    fs.rmSync(folder, { recursive: true });
  }
};

export function recordings() {
  const within = (folder) => fs.readdirSync(path.join(top, folder), { recursive: true }).map((name) => path.join(top, folder, name));
  return ["examples", "conformance"].flatMap(within).filter((name) => name.endsWith(".jsonl") && !/[/]examples[/](imports|roster|watch)[/]/.test(name)).sort();
}

// Runs the tests that were named, and prints each failure and the counts; answers whether all of them passed.
export async function runAll(program, long) {
  const given = program === undefined ? 0 : long ? 2 : 1;
  let passed = 0, failed = 0;
  for (const { name, run, needs } of known) {
    if (needs > given) continue;
    try {
      await run(program);
      passed++;
    } catch (fault) {
      failed++;
      console.log(`${name}: ${fault.stack}`);
    }
  }
  if (given === 0) console.log(`without a program, ${known.filter(({ needs }) => needs === 1).length} tests are left out`);
  console.log(`${passed} passed, ${failed} failed`);
  return failed === 0;
}
