#!/usr/bin/env node
// The host in memory, by the addon that bin/library makes. As a program it is `swhost init | replay | show` on the disk of the
// current folder.
//
//   const { status, text, root, left, right } = replay(recording, before.root, before.left, before.right)
//
// A recording, a text and each part are Buffers; a status is that of the program's command. `init` is given the parts alone, and
// so is `show`, which hands out { status, text }.
import fs from "node:fs";
import { createRequire } from "node:module";
import path from "node:path";

const addon = process.env.SWHOST_ADDON ?? path.join(import.meta.dirname, "..", "out", "swhost.node");
export const { init, replay, show } = createRequire(import.meta.url)(path.resolve(addon));

const NAMES = ["root", "left", "right"];
const NO_MEMORY = 1;

function main([word, ...rest]) {
  if (!["init", "replay", "show"].includes(word) || rest.length > 0) {
    console.error("usage: swhost.mjs init | replay | show");
    return 125;
  }
  const file = (name) => `swhost.${name}`;
  const parts = NAMES.map((name) => (fs.existsSync(file(name)) ? fs.readFileSync(file(name)) : Buffer.alloc(0)));
  const calls = { init: () => init(...parts), show: () => show(...parts), replay: () => replay(fs.readFileSync(0), ...parts) };
  const made = calls[word]();
  if (word !== "show" && made.status !== NO_MEMORY) for (const name of NAMES) fs.writeFileSync(file(name), made[name]);
  fs.writeSync(1, made.text);
  return made.status;
}

if (process.argv[1] && fs.realpathSync(process.argv[1]) === import.meta.filename) process.exitCode = main(process.argv.slice(2));
