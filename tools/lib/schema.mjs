// Not proved; compared with the program: the schema takes each line that the program takes.
// The JSON Schema of a recording's line, made of the table of its forms.
import { LIMITS, PARTS, isOptional, line, nameOf } from "./grammar.mjs";

const COMMENT = [
  "Made by tools/schema of the table that tools/lint checks by. Each line that swhost takes is valid; swhost refuses more:",
  "texts and bodies by their length in bytes, which here is counted in characters; fetch addresses that don't parse or are neither http nor https;",
  `numbers with a point or an exponent; an await of a position without a promise; and more than ${LIMITS.actions} actions.`,
].join(" ");

const NAMES = new Map(Object.entries(PARTS).map(([name, form]) => [form, name]));

const made = {
  text: ({ bytes, pattern }) => ({ type: "string", ...(bytes && { maxLength: bytes.most }), ...(pattern && { pattern: pattern.source }) }),
  base64: ({ bytes, pattern }) => ({ type: "string", contentEncoding: "base64", maxLength: Math.ceil(bytes.most / 3) * 4, pattern: pattern.source }),
  address: ({ bytes }) => ({ type: "string", maxLength: bytes.most }),
  number: ({ least, most }) => ({ type: "integer", minimum: least, maximum: most }),
  truth: ({ only }) => (only ? { const: true } : { type: "boolean" }),
  word: ({ words }) => (words.length === 1 ? { const: words[0] } : { enum: words }),
  list: ({ of, most }) => ({ type: "array", maxItems: most, items: referred(of) }),
  pair: ({ of }) => ({ type: "array", prefixItems: of.map(referred), minItems: of.length, maxItems: of.length }),
  choice: ({ forms }) => ({ anyOf: forms.map(referred) }),
  object({ members, either }) {
    const properties = Object.fromEntries(Object.entries(members).map(([key, form]) => [nameOf(key), referred(form)]));
    const required = Object.keys(members).filter((key) => !isOptional(key));
    return {
      type: "object",
      properties,
      ...(required.length > 0 && { required }),
      additionalProperties: false,
      ...(either.length > 0 && { not: { required: either } }),
    };
  },
};

const schemaOf = (form) => made[form.kind](form);
const referred = (form) => (NAMES.has(form) ? { $ref: `#/$defs/${NAMES.get(form)}` } : schemaOf(form));

export function schema() {
  return {
    $schema: "https://json-schema.org/draft/2020-12/schema",
    title: "A line of a recording",
    $comment: COMMENT,
    ...schemaOf(line),
    $defs: Object.fromEntries(Object.entries(PARTS).map(([name, form]) => [name, schemaOf(form)])),
  };
}
