// The JSON Schema is the one of docs/, takes each line that the program takes, and refuses those that it can.
import assert from "node:assert/strict";
import fs from "node:fs";
import path from "node:path";
import { badLines, isBlank, linesOf } from "../lib/lint.mjs";
import { draws, mutated } from "../lib/mutations.mjs";
import { schema } from "../lib/schema.mjs";
import { recordings, test, tool, top } from "../lib/testing.mjs";

const SEED = 36;
const MUTATIONS = 4000;
const SMALL = 20000;

// ---- a validator of the keywords that the schema uses

const TYPES = {
  object: (value) => value !== null && typeof value === "object" && !Array.isArray(value),
  array: Array.isArray,
  string: (value) => typeof value === "string",
  integer: Number.isInteger,
  boolean: (value) => typeof value === "boolean",
};
const among = (types, value, holds) => !types.some((type) => TYPES[type](value)) || holds();
const patterns = new Map();
const matches = (pattern, text) => {
  if (!patterns.has(pattern)) patterns.set(pattern, new RegExp(pattern, "u"));
  return patterns.get(pattern).test(text);
};
const passes = () => true;

// Each says whether a value keeps to the keyword, of its argument, the schema around it, and the whole one.
const KEYWORDS = {
  $schema: passes,
  $comment: passes,
  $defs: passes,
  title: passes,
  contentEncoding: passes,
  $ref: (reference, value, _, whole) => isValid(whole.$defs[reference.replace("#/$defs/", "")], value, whole),
  anyOf: (schemas, value, _, whole) => schemas.some((one) => isValid(one, value, whole)),
  not: (one, value, _, whole) => !isValid(one, value, whole),
  type: (type, value) => TYPES[type](value),
  const: (wanted, value) => value === wanted,
  enum: (words, value) => words.includes(value),
  minimum: (least, value) => among(["integer"], value, () => value >= least),
  maximum: (most, value) => among(["integer"], value, () => value <= most),
  maxLength: (most, value) => among(["string"], value, () => [...value].length <= most),
  pattern: (pattern, value) => among(["string"], value, () => matches(pattern, value)),
  minItems: (least, value) => among(["array"], value, () => value.length >= least),
  maxItems: (most, value) => among(["array"], value, () => value.length <= most),
  items: (one, value, { prefixItems = [] }, whole) => among(["array"], value, () => value.slice(prefixItems.length).every((item) => isValid(one, item, whole))),
  prefixItems: (schemas, value, _, whole) => among(["array"], value, () => schemas.every((one, at) => at >= value.length || isValid(one, value[at], whole))),
  required: (names, value) => among(["object"], value, () => names.every((name) => Object.hasOwn(value, name))),
  properties: (schemas, value, _, whole) => among(["object"], value, () => Object.entries(schemas).every(([name, one]) => !Object.hasOwn(value, name) || isValid(one, value[name], whole))),
  additionalProperties(others, value, { properties }) {
    assert.equal(others, false);
    return among(["object"], value, () => Object.keys(value).every((name) => Object.hasOwn(properties, name)));
  },
};

function isValid(one, value, whole) {
  return Object.entries(one).every(([keyword, argument]) => KEYWORDS[keyword](argument, value, one, whole));
}

// ---- the tests

const SCHEMA = schema();
const BEYOND = new Set(["await", "address", "too large: actions"]);
const UNSURE = new Set(["json", "too large: text", "too large: body"]);
const causeOf = (line) => badLines(Buffer.from(line)).next().value?.cause;

function parsed(line) {
  try {
    return JSON.parse(line);
  } catch {
    return undefined;
  }
}

test("docs/recording.schema.json is what tools/schema prints", () => {
  const { status, output } = tool("schema");
  assert.equal(status, 0);
  assert.equal(output, fs.readFileSync(path.join(top, "docs/recording.schema.json"), "utf8"));
});

test("the schema takes each line of all recordings that the program takes", () => {
  const taken = new Set();
  for (const name of recordings()) {
    const bytes = fs.readFileSync(name), bad = badLines(bytes).next().value?.line ?? Infinity;
    let number = 0;
    for (const line of linesOf(bytes)) {
      number++;
      const text = line.toString();
      if (number >= bad || isBlank(line) || taken.has(text)) continue;
      assert.ok(isValid(SCHEMA, JSON.parse(text), SCHEMA), `${name}, line ${number}`);
      taken.add(text);
    }
  }
  assert.ok(taken.size > 500);
});

test("on mutated lines the schema and lint agree, as far as a schema goes", () => {
  const draw = draws(SEED), sources = recordings().map((name) => fs.readFileSync(name)).filter((bytes) => bytes.length < SMALL);
  const seen = new Set(), counts = { taken: 0, refused: 0 };
  for (let n = 0; n < MUTATIONS; n++) {
    for (const line of mutated(draw, sources[draw(sources.length)]).toString().split("\n")) {
      const value = seen.has(line) ? undefined : parsed(line), written = JSON.stringify(value);
      seen.add(line);
      if (value === undefined) continue;
      const cause = causeOf(written), taken = cause === undefined || BEYOND.has(cause);
      if (UNSURE.has(cause)) continue;
      assert.equal(isValid(SCHEMA, value, SCHEMA), taken, `${cause}: ${written}`);
      counts[taken ? "taken" : "refused"]++;
    }
  }
  assert.ok(Math.min(counts.taken, counts.refused) > MUTATIONS / 8, JSON.stringify(counts));
});
