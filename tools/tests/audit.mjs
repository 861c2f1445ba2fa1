// tools/audit gives swhost's verdict, and where that is no, the line that was changed.
import assert from "node:assert/strict";
import fs from "node:fs";
import path from "node:path";
import { inFolder, launch, test, tool, top } from "../lib/testing.mjs";

const page = path.join(top, "examples/page.jsonl");
const whole = fs.readFileSync(path.join(top, "examples/page.transcript"), "utf8");
const lines = whole.split("\n").slice(0, -1);

const audit = (program, transcript, words = []) => tool("audit", ["--program", program, ...words, page], transcript);
const hint = (...parts) => ["audit no", ...parts].map((part) => `${part}\n`).join("");
const joined = (parts) => parts.map((part) => `${part}\n`).join("");

test.ofProgram("a transcript of the recording is one", (program) => assert.deepEqual(audit(program, whole), { status: 0, output: `audit yes ${lines.length - 1} entries\n`, errors: "" }));

test.ofProgram("an answer that was changed is told, with the one that it would have to be", (program) => {
  const found = lines.findIndex((line) => line.includes(" match -> ")), changed = lines[found].replace(/-> .*/, "-> none");
  const { status, output } = audit(program, joined(lines.with(found, changed)));
  assert.equal(status, 15);
  assert.equal(output, hint(`line ${found + 1} is the first that goes apart`, `  ${changed}`, "it would have to be", `  ${lines[found]}`, "what may happen there: L0"));
});

test.ofProgram("an event that may not happen yet is told, with what may", (program) => {
  const found = lines.findIndex((line) => line.startsWith("- evaluated ")), early = lines.toSpliced(found - 1, 0, lines[found]);
  const { output } = audit(program, joined(early));
  assert.equal(
    output,
    hint(`line ${found} is the first that goes apart`, `  ${lines[found]}`, "no event of this name may happen there, and the run isn't at this end", "what may happen there: fetched j0"),
  );
});

test.ofProgram("an end that comes too early, and one that doesn't come", (program) => {
  const early = audit(program, joined([...lines.slice(0, -2), "end done"])).output;
  assert.equal(early, hint(`line ${lines.length - 1} is the first that goes apart`, "  end done", "no event of this name may happen there, and the run isn't at this end", "what may happen there: L0"));
  const none = audit(program, joined(lines.slice(0, -1))).output;
  assert.equal(none, hint(`line ${lines.length} is the first that goes apart`, "  ", "it would have to be", "  end done", "what may happen there: nothing"));
});

test.ofProgram("what the disk keeps is what the run begins with", (program) =>
  inFolder((folder) => {
    launch(program, ["init"], { folder });
    launch(program, ["replay"], { folder, input: fs.readFileSync(page) });
    assert.equal(audit(program, whole, ["--disk", folder]).output.split("\n")[1], "line 1 is the first that goes apart");
    const again = launch(program, ["replay"], { folder: folder, input: fs.readFileSync(page) });
    assert.equal(again.status, 0);
    assert.equal(audit(program, again.output).status, 15);
  }));

test("words", () => {
  assert.equal(tool("audit", []).status, 2);
  assert.equal(tool("audit", ["--program", "x"]).status, 2);
});
