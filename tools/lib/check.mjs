// Not proved; compared with the program through tools/lint.
// Whether a value is of a form of the table, and each flaw that it has: { cause, at, path, meaning, suggestion }.
import { httpAddress } from "./address.mjs";
import { isOptional, nameOf } from "./grammar.mjs";

const LONG = 60;
const KINDS = { object: "an object", array: "an array", text: "a text", number: "a number", truth: "a truth value", null: "null" };
const ticked = (words) => words.map((word) => `\`${word}\``).join(", ");
const brief = (text) => (text.length > LONG ? `${text.slice(0, LONG)}..` : text);
const shortened = (text) => JSON.stringify(brief(text));

// How many letters to add, drop, change or swap with their neighbour to make one word of the other.
function distance(left, right) {
  const rows = [[...Array(right.length + 1).keys()]];
  for (let i = 1; i <= left.length; i++) {
    const row = [i];
    for (let j = 1; j <= right.length; j++) {
      const changed = rows[i - 1][j - 1] + (left[i - 1] === right[j - 1] ? 0 : 1);
      const swapped = i > 1 && j > 1 && left[i - 1] === right[j - 2] && left[i - 2] === right[j - 1] ? rows[i - 2][j - 2] + 1 : Infinity;
      row.push(Math.min(rows[i - 1][j] + 1, row[j - 1] + 1, changed, swapped));
    }
    rows.push(row);
  }
  return rows[left.length][right.length];
}

// The word that was meant, or none where none is near.
export function nearest(written, words) {
  if (written.length > LONG) return undefined;
  const most = Math.max(1, Math.floor(written.length / 3));
  const near = words.map((word) => ({ word, far: distance(written.toLowerCase(), word.toLowerCase()) })).filter(({ far }) => far <= most);
  return near.sort((left, right) => left.far - right.far)[0]?.word;
}

export class Checker {
  // source is the line that the values stand in
  constructor(source) {
    this.source = source;
    this.flaws = [];
  }

  // A suggestion that is too long to read is none.
  say(cause, at, path, meaning, suggestion) {
    this.flaws.push({ cause, at, path, meaning, suggestion: suggestion?.length > 200 ? undefined : suggestion });
  }

  written(value) {
    return this.source.slice(value.at, value.end);
  }

  // Whether the value is of a kind; otherwise that is said.
  is(kind, value, path, wanted, suggestion) {
    if (value.kind === kind) return true;
    this.say("form", value.at, path, `${KINDS[value.kind]} in place of ${wanted}`, value.kind === "null" ? undefined : suggestion);
    return false;
  }

  check(form, value, path) {
    this[form.kind](form, value, path);
  }

  tooLong(bytes, form, value, path) {
    if (bytes > form.bytes.most) this.say(form.bytes.cause, value.at, path, `${bytes} bytes, and at most ${form.bytes.most} are taken`);
  }

  text(form, value, path) {
    const quoted = value.kind === "number" || value.kind === "truth" ? `"${this.written(value)}"` : undefined;
    if (!this.is("text", value, path, KINDS.text, quoted)) return;
    if (form.bytes) this.tooLong(Buffer.byteLength(value.text), form, value, path);
    if (form.pattern && !form.pattern.test(value.text)) {
      const trimmed = value.text.trim();
      this.say(form.cause, value.at, path, `${shortened(value.text)} isn't ${form.what}`, form.pattern.test(trimmed) ? JSON.stringify(trimmed) : undefined);
    }
  }

  base64(form, value, path) {
    if (!this.is("text", value, path, "a text in base64")) return;
    const bytes = Buffer.from(value.text, "base64"), whole = bytes.toString("base64");
    if (whole === value.text) return this.tooLong(bytes.length, form, value, path);
    const mended = /^[A-Za-z0-9+/_-]+=*$/.test(value.text) && bytes.length > 0;
    this.say("base64", value.at, path, `${shortened(value.text)} isn't base64 with its padding`, mended ? shortened(whole) : "put a body that is text into `text`");
  }

  address(form, value, path) {
    if (!this.is("text", value, path, "an address")) return;
    this.tooLong(Buffer.byteLength(value.text), form, value, path);
    if (httpAddress(value.text)) return;
    const whole = `https://${value.text}`, hasHost = /^[a-z0-9-]+(\.[a-z0-9-]+)*(:[0-9]+)?([/?#]|$)/i.test(value.text);
    this.say("address", value.at, path, `${shortened(value.text)} isn't an http or https address`, hasHost && httpAddress(whole) ? JSON.stringify(whole) : "a whole one, as `https://a.test/sw.js`");
  }

  number(form, value, path) {
    const range = `a whole number from ${form.least} to ${form.most}`;
    const digits = value.kind === "text" && /^(0|[1-9][0-9]*)$/.test(value.text) ? value.text : undefined;
    if (!this.is("number", value, path, range, digits)) return;
    if (value.count === null) {
      const near = Number(value.written);
      this.say("form", value.at, path, `${value.written} isn't ${range}`, Number.isSafeInteger(near) && near >= form.least && near <= form.most ? String(Math.abs(near)) : undefined);
    } else if (value.count < form.least || value.count > form.most) {
      this.say(form.cause, value.at, path, `${value.count} isn't ${range}`, form.cause === "status" && value.count === 0n ? "a network error is `\"error\":true`" : undefined);
    }
  }

  truth(form, value, path) {
    const written = value.kind === "text" && /^(true|false)$/.test(value.text) ? value.text : undefined;
    if (!this.is("truth", value, path, form.only ? "`true`" : "`true` or `false`", written)) return;
    if (form.only && !value.truth) this.say("form", value.at, path, "`false` in place of `true`", "leave the member out");
  }

  word(form, value, path) {
    if (!this.is("text", value, path, `one of ${ticked(form.words)}`)) return;
    if (form.words.includes(value.text)) return;
    const meant = nearest(value.text, form.words);
    this.say("form", value.at, path, `${shortened(value.text)} is none of ${ticked(form.words)}`, meant && JSON.stringify(meant));
  }

  list(form, value, path) {
    const pairs = form.of.kind === "pair" && value.kind === "object";
    const items = pairs ? [...value.members].map(([name, { value: of }]) => `[${JSON.stringify(name)},${this.written(of)}]`).join(",") : this.written(value);
    if (!this.is("array", value, path, KINDS.array, `[${items}]`)) return;
    if (value.items.length > form.most) this.say(form.cause, value.at, path, `${value.items.length} of them, and at most ${form.most} are taken`);
    value.items.forEach((item, index) => this.check(form.of, item, `${path}[${index}]`));
  }

  pair(form, value, path) {
    if (!this.is("array", value, path, `a pair, as ${form.example}`)) return;
    if (value.items.length !== form.of.length) return this.say("form", value.at, path, `${value.items.length} values in place of a pair, as ${form.example}`);
    form.of.forEach((of, index) => this.check(of, value.items[index], `${path}[${index}]`));
  }

  object(form, value, path) {
    if (!this.is("object", value, path, form.name)) return;
    const names = Object.keys(form.members).map(nameOf), within = path === "" ? "" : `${path}.`;
    const absent = names.filter((name) => !value.members.has(name));
    for (const [name, { at }] of value.members) {
      if (names.includes(name)) continue;
      const meant = nearest(name, absent);
      this.say("form", at, within + brief(name), `${form.name} has no member \`${brief(name)}\``, meant ? `\`${meant}\`` : absent.length > 0 ? `one of ${ticked(absent)}` : undefined);
    }
    for (const [key, part] of Object.entries(form.members)) {
      const found = value.members.get(nameOf(key))?.value;
      if (found?.kind === "null" && isOptional(key)) this.say("form", found.at, within + nameOf(key), "null", "leave the member out");
      else if (found) this.check(part, found, within + nameOf(key));
      else if (!isOptional(key)) this.say("form", value.at, path, `${form.name} lacks \`${key}\``);
    }
    const both = form.either.map((name) => value.members.get(name)).filter((found) => found);
    if (both.length > 1) this.say("form", both[1].at, path, `${ticked(form.either)} don't stand together`, "leave one of them out");
  }

  choice(form, value, path) {
    const picked = form.by(value);
    if (picked) return this.check(picked, value, path);
    if (!this.is("object", value, path, form.wanted)) return;
    const found = value.members.get("do");
    if (form.words && found) return this.word(form, found.value, path === "" ? "do" : `${path}.do`);
    const wanted = form.words ? ["do", "fetch"] : ["put", "delete"];
    const meant = [...value.members.keys()].find((name) => nearest(name, wanted));
    this.say("form", value.at, path, `this isn't ${form.wanted}`, meant && `\`${nearest(meant, wanted)}\` in place of \`${meant}\``);
  }
}
