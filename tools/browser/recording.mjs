// A recording with its transcript, line by line.
const WHO = /^(?:L(\d+)\.(\d+)|w(\d+)\.(install|activate)\.(\d+)|-) /;
const FAULT = /^(TypeError|SecurityError|InvalidStateError|QuotaExceededError)\b.*$/;

export class Unread extends Error {}

// Parts between `mark`s that stand outside of JSON strings.
function split(text, mark) {
  const parts = [];
  let from = 0, quoted = false;
  for (let at = 0; at < text.length; at++) {
    if (text[at] === '"') quoted = !quoted;
    else if (quoted && text[at] === "\\") at++;
    else if (!quoted && text.startsWith(mark, at)) {
      parts.push(text.slice(from, at));
      from = at + mark.length;
    }
  }
  return [...parts, text.slice(from)];
}

function entry(text, number) {
  const who = WHO.exec(text);
  if (who === null) throw new Unread(`line ${number} of the transcript`);
  const [event, outcome] = split(text.slice(who[0].length), " -> ");
  const [answer, ...notices] = split(outcome ?? "", " | ");
  const [, lane, position, worker, phase, call] = who;
  const of = lane !== undefined ? { lane: Number(lane), position: Number(position) }
    : worker !== undefined ? { worker: `w${worker}`, phase, call: Number(call) } : {};
  return { number, text, event, answer, notices, ...of };
}

export function parseTranscript(text) {
  const lines = text.split("\n").filter((line) => line !== "");
  if (!lines.at(-1)?.startsWith("end ")) throw new Unread(lines[0] ?? "no transcript");
  return lines.slice(0, -1).map((line, at) => entry(line, at + 1));
}

export function parseRecording(text) {
  const network = new Map(), lanes = [];
  for (const row of text.split("\n").filter((line) => line.trim() !== "")) {
    const line = JSON.parse(row);
    if (line.fetch !== undefined) {
      const address = new URL(line.fetch);
      address.hash = "";
      network.set(address.href, [...network.get(address.href) ?? [], line]);
    } else {
      (lanes[line.lane] ??= []).push(line);
    }
  }
  return { network, lanes };
}

// What of our answer a page can see: a fault's name, and of a job or an addAll that it is there.
export function seen(answer) {
  if (/^[aj]\d+/.test(answer)) return "started";
  return answer.replace(FAULT, "$1");
}
