// Not proved; compared with the program's transcripts (tests/timeline.mjs).
// A run as one HTML page, without scripts and without anything from elsewhere: a row for each line of the transcript, the
// lanes, and the host with its handlers, as columns; beside them a bar for each state of each worker, and for each
// controller of each page.
//
//   timeline(state, lines, title)  the page; the state is the one before the first line
import { readLine, writeLine } from "./transcript.mjs";
import { why } from "./why.mjs";

const SHORT = 60;
const LONG = 400;

const escaped = (text) => String(text).replace(/[&<>"']/g, (character) => `&#${character.charCodeAt(0)};`);
const shortened = (text, most) => (text.length > most ? `${text.slice(0, most)}..` : text);
const isRefusal = (answer) => answer.fault !== undefined || /^(No[A-Z]|InUse|Busy|rejected|failed|threw)/.test(answer);

const STYLE = `
body { font: 13px/1.4 system-ui, sans-serif; margin: 1em; color: #222; }
h1 { font-size: 1.2em; } h2 { font-size: 1em; }
.grid { display: grid; gap: 1px 4px; align-items: stretch; }
.head { font-weight: 600; position: sticky; top: 0; background: #fff; border-bottom: 1px solid #888; padding: 0 .3em; }
.head small, .entry small { display: block; font-weight: 400; color: #666; }
.line { color: #888; text-align: right; }
.entry { border-left: 3px solid #69c; padding: 0 .4em; background: #f4f8fc; overflow-wrap: anywhere; }
.entry b { font-weight: 500; } .entry b, .entry i { font-family: ui-monospace, monospace; font-size: 12px; }
.entry i { display: block; font-style: normal; padding-left: 1em; color: #444; }
.host { border-color: #999; background: #f6f6f6; } .handler { border-color: #c90; background: #fff9ea; }
.fault { border-color: #c33; } .end { border-color: #222; font-weight: 600; }
.bar { border-radius: 3px; padding: 0 .3em; overflow: hidden; }
.parsed { background: #eee; } .installing { background: #ffe29a; } .installed { background: #ffc46b; }
.activating { background: #b8e0b0; } .activated { background: #7cc576; } .redundant { background: #ddd; color: #666; }
.none { background: #f0f0f0; color: #666; } .opened { background: #cfe2ff; } .claimed { background: #d9c8f5; }
.took { background: #b3dbe6; }
pre { background: #f8f8f8; padding: .6em; white-space: pre-wrap; }
`;

// ---- columns: the line's number, the lanes, the host, then the workers and the pages

function columnsOf(state) {
  const lanes = [...state.positions.keys()].filter((lane) => state.recording.lanes[lane] !== undefined);
  const clients = [...new Set(state.pages.map((page) => page.number))];
  const heads = [
    { name: "line", text: "" },
    ...lanes.map((lane) => ({ name: `L${lane}`, text: `lane ${lane}` })),
    { name: "host", text: "host and handlers" },
    ...state.workers.map(({ number, registration }) => ({ name: `w${number}`, text: `w${number}`, small: `r${registration.number}` })),
    ...clients.map((number) => ({ name: `c${number}`, text: `c${number}` })),
  ];
  const widths = ["2.5em", ...lanes.map(() => "minmax(13em, 1fr)"), "minmax(20em, 1.5fr)", ...Array(heads.length - lanes.length - 2).fill("7.5em")];
  return { heads, places: new Map(heads.map(({ name }, at) => [name, at + 1])), widths };
}

// ---- cells

// A cell from one row up to another; rows are lines, the heads standing in row 1.
function cell(column, from, to, kind, inside, more = "") {
  return `<div class="${kind}" style="grid-column:${column};grid-row:${from}/${to}"${more}>${inside}</div>`;
}

const titled = (text) => ` title="${escaped(shortened(text, LONG))}"`;

function membersOf(action) {
  const { do: word, lane, ...members } = action ?? {};
  return Object.entries(members).map(([name, value]) => `${name} ${typeof value === "string" ? value : JSON.stringify(value)}`).join(", ");
}

function entryCell(state, columns, line, at) {
  const entry = readLine(line);
  if (entry.end !== undefined) return cell("2/-1", at + 1, at + 2, "entry end", escaped(line));
  const action = entry.by === "lane" ? state.recording.lanes[entry.lane][entry.at] : null, asked = membersOf(action);
  const first = writeLine({ ...entry, notices: [] });
  const notices = entry.notices.map((notice) => writeLine({ ...entry, notices: [notice] }).slice(first.length + 3));
  const event = entry.by === "handler" ? first : first.slice(first.indexOf(" ") + 1);
  const inside = `<b>${escaped(event)}</b>${asked === "" ? "" : `<small>${escaped(shortened(asked, SHORT))}</small>`}` +
    notices.map((notice) => `<i>${escaped(notice)}</i>`).join("");
  const column = columns.places.get(entry.by === "lane" ? `L${entry.lane}` : "host");
  return cell(column, at + 1, at + 2, `entry ${entry.by}${isRefusal(entry.answer) ? " fault" : ""}`, inside, titled(action === null ? line : JSON.stringify(action)));
}

// The bars of a list of rows that begin at their lines, the last one up to a line.
function bars(columns, name, rows, end, look) {
  return rows.map((row, at) => {
    const to = rows[at + 1]?.line ?? end, { kind, text, title } = look(row);
    if (to === row.line) return "";
    return cell(columns.places.get(name), row.line + 1, to + 1, `bar ${kind}`, escaped(text), `${titled(title)} data-bar="${name} ${row.line} ${to}"`);
  });
}

const stateLook = (worker) => ({ state }) => ({ kind: state, text: state, title: `w${worker.number} ${state}, script ${worker.script}` });

const HOW = { opened: ["opened", ""], claimed: ["claimed", " claimed it"], activated: ["took", " took over"] };

function controllerLook({ number, url, key }) {
  return ({ how, worker }) => {
    const [kind, words] = HOW[how], text = worker === null ? "no controller" : `w${worker.number}${words}`;
    return { kind: worker === null ? "none" : kind, text, title: `c${number} ${url}, key ${key}: ${text}` };
  };
}

// ---- the page

function* scopes(state) {
  for (const { number, scope, key } of state.registrations) yield `r${number} ${scope}, key ${key}`;
  for (const { number, url, key } of state.pages) yield `c${number} ${url}, key ${key}`;
}

const block = (heading, lines) => (lines.length === 0 ? "" : `<h2>${heading}</h2><pre>${escaped(lines.join("\n"))}</pre>\n`);

export function timeline(state, lines, title) {
  for (const line of lines) state.follow(line);
  const columns = columnsOf(state), end = lines.length + 1;
  const cells = [
    ...columns.heads.map(({ name, text, small }, at) => cell(at + 1, 1, 2, "head", escaped(text) + (small ? `<small>${small}</small>` : ""), ` id="${name}"`)),
    ...lines.map((line, at) => cell(1, at + 2, at + 3, "line", at + 1, ` id="line${at + 1}"`)),
    ...lines.map((line, at) => entryCell(state, columns, line, at + 1)),
    ...state.workers.flatMap((worker) => bars(columns, `w${worker.number}`, worker.states, end, stateLook(worker))),
    ...state.pages.flatMap((page) => bars(columns, `c${page.number}`, page.controllers, page.closed ?? end, controllerLook(page))),
  ];
  return `<!doctype html>
<html lang="en"><head><meta charset="utf-8"><title>${escaped(title)}</title><style>${STYLE}
.grid { grid-template-columns: ${columns.widths.join(" ")}; }</style></head><body>
<h1>${escaped(title)}</h1>
<div class="grid">
${cells.filter((text) => text !== "").join("\n")}
</div>
${block("Registrations and pages", [...scopes(state)])}${block("At the end", [...why(state)])}</body></html>
`;
}
