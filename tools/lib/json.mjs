// Not proved; compared with the program through tools/lint.
// A JSON text as the program reads it, with the place of each value and of each member's name in the text.
//
//   readJson(text)   a value, or throws NoJson with the place, what is wrong there, and what would mend it, if that is known
//
// A value is { kind, at, end, .. }: "object" with members, a Map of names to { at, value } (of a doubled member the last one),
// "array" with items, "text" with text, "number" with written and count (a BigInt below 2^64, else null), "truth" with truth,
// "null".

const DEPTH = 127;
const COUNTS = 2n ** 64n;
const ESCAPED = { '"': '"', "\\": "\\", "/": "/", b: "\b", f: "\f", n: "\n", r: "\r", t: "\t" };
const LITERALS = { true: { kind: "truth", truth: true }, false: { kind: "truth", truth: false }, null: { kind: "null" } };

export class NoJson extends Error {
  constructor(at, meaning, suggestion) {
    super(meaning);
    this.at = at;
    this.suggestion = suggestion;
  }
}

class Reader {
  constructor(text) {
    this.text = text;
    this.at = 0;
  }

  fail(meaning, suggestion, at = this.at) {
    throw new NoJson(at, meaning, suggestion);
  }

  // What sticks to its place: the match of a sticky expression, or null.
  take(expression) {
    expression.lastIndex = this.at;
    const found = expression.exec(this.text);
    if (found) this.at = expression.lastIndex;
    return found && found[0];
  }

  next() {
    this.take(/[ \t\r\n]*/y);
    return this.text[this.at];
  }

  unit() {
    const digits = this.take(/[0-9a-fA-F]{4}/y);
    if (digits === null) this.fail("\\u stands before four hexadecimal digits");
    return parseInt(digits, 16);
  }

  // What \u stands before: a character, or the first half of one, which the second half follows.
  escapedCharacter(start) {
    const half = () => this.fail("half of a character that takes two \\u", "write the character itself", start);
    const first = this.unit();
    if (first < 0xd800 || first > 0xdfff) return String.fromCharCode(first);
    if (first > 0xdbff || this.take(/\\u/y) === null) half();
    const second = this.unit();
    if (second < 0xdc00 || second > 0xdfff) half();
    return String.fromCharCode(first, second);
  }

  escape() {
    const start = this.at++;
    const letter = this.text[this.at];
    if (Object.hasOwn(ESCAPED, letter)) {
      this.at++;
      return ESCAPED[letter];
    }
    if (letter !== "u") this.fail("no JSON text has this escape", "write \\\\ for a backslash", start);
    this.at++;
    return this.escapedCharacter(start);
  }

  string() {
    const start = this.at++, parts = [];
    for (;;) {
      parts.push(this.take(/[^"\\\u0000-\u001f]*/y));
      const character = this.text[this.at];
      if (character === undefined) this.fail("a text without a closing quote", undefined, start);
      if (character === '"') break;
      if (character !== "\\") this.fail("a control character in a text", JSON.stringify(character).slice(1, -1));
      parts.push(this.escape());
    }
    this.at++;
    return parts.join("");
  }

  // Behind a member or an item: whether another one follows.
  goesOn(close, what) {
    const character = this.next();
    if (character !== "," && character !== close) {
      if (character === undefined) this.fail(`the line ends within ${what}`, "write the whole object on one line");
      this.fail(`no comma and no ${close} behind a value`);
    }
    this.at++;
    if (character === close) return false;
    if (this.next() === close) this.fail(`a comma before ${close}`, "leave it out");
    return true;
  }

  object(at, depth) {
    const members = new Map();
    this.at++;
    if (this.next() === "}") this.at++;
    else {
      do {
        const character = this.next(), start = this.at;
        if (character === undefined) this.fail("the line ends within an object", "write the whole object on one line");
        if (character !== '"') this.fail("a member's name without double quotes");
        const name = this.string();
        if (this.next() !== ":") this.fail("no colon behind a member's name");
        this.at++;
        members.set(name, { at: start, value: this.value(depth) });
      } while (this.goesOn("}", "an object"));
    }
    return { kind: "object", at, members };
  }

  array(at, depth) {
    const items = [];
    this.at++;
    if (this.next() === "]") this.at++;
    else {
      do items.push(this.value(depth));
      while (this.goesOn("]", "an array"));
    }
    return { kind: "array", at, items };
  }

  number(at) {
    const written = this.take(/-?(0|[1-9][0-9]*)(\.[0-9]+)?([eE][+-]?[0-9]+)?/y);
    if (written === null) this.noValue();
    if (this.take(/[0-9]/y) !== null) this.fail("a number that begins with 0", undefined, at);
    if (!Number.isFinite(Number(written))) this.fail("a number too large for a float", undefined, at);
    const count = /^[0-9]+$/.test(written) ? BigInt(written) : null;
    return { kind: "number", at, written, count: count !== null && count < COUNTS ? count : null };
  }

  noValue() {
    const character = this.text[this.at];
    if (character === undefined) this.fail("the line ends where a value is wanted", "write the whole object on one line");
    if (character === "'") this.fail("a text in single quotes", "write it in double quotes");
    if (character === "#" || character === "/") this.fail("a comment, which JSON doesn't have", "leave it out");
    if (character === "\ufeff") this.fail("a byte order mark", "leave it out");
    this.fail("no JSON value");
  }

  value(outer) {
    const value = this.valueAt(outer);
    value.end = this.at;
    return value;
  }

  valueAt(outer) {
    const character = this.next(), at = this.at, depth = outer + 1;
    if (character === "{" || character === "[") {
      if (depth > DEPTH) this.fail(`objects and arrays nested more than ${DEPTH} deep`);
      return character === "{" ? this.object(at, depth) : this.array(at, depth);
    }
    if (character === '"') return { kind: "text", at, text: this.string() };
    const literal = this.take(/true|false|null/y);
    return literal === null ? this.number(at) : { ...LITERALS[literal], at };
  }
}

export function readJson(text) {
  const reader = new Reader(text);
  const value = reader.value(0);
  if (reader.next() !== undefined) reader.fail("something behind the line's value", "write one object on a line");
  return value;
}
