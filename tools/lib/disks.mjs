// Disks for tests that run the program many times.
//
//   fresh(program)        a function that puts a formatted disk into a folder
//   write(folder, parts)  puts the parts of a disk, or some of them, into a folder
//   pooled(items, act)    act(item) for each item, at most four at a time; fails by the first one that fails
import fs from "node:fs";
import path from "node:path";
import { PARTS, readParts } from "./disk.mjs";
import { inFolder, launch } from "./testing.mjs";

const AT_ONCE = 4;

export function write(folder, parts) {
  for (const [name, bytes] of Object.entries(parts)) fs.writeFileSync(path.join(folder, PARTS[name]), bytes);
}

export function fresh(program) {
  const parts = inFolder((folder) => {
    launch(program, ["init"], { folder });
    return readParts(folder);
  });
  return (folder) => write(folder, parts);
}

export async function pooled(items, act) {
  const left = [...items];
  const one = async () => {
    while (left.length > 0) await act(left.shift());
  };
  await Promise.all(Array.from({ length: AT_ONCE }, one));
}
