// Where browsers are known to answer otherwise, by the names that docs/STANDARD.md and docs/BROWSER.md have for it.
// `is` looks at one answer that differs, with the recording's text and its transcript.
const ON_CACHES = ["match", "matchAll", "keys", "delete"];
const ON_WORKERS = ["open", "ready", "skipWaiting", "claim", "begin", "registration", "registrations"];
const OF_JOBS = ["await", ...ON_WORKERS];
const OF_FETCHES = ["await", "added", ...ON_CACHES];

// Credentials in an address, a method, a status, a character past U+00FF.
const NOT_OF_PAGES = [/\/\/[^/"]*@/, /"(TRACE|TRACK|CONNECT)"/i, /"status":([16-9]\d\d|204|205|304)\b/, /[\u0100-\uffff]/];

const hasNotice = (entry, notice) => entry.notices.some((each) => notice.test(each));

// A worker is installed, and the transcript puts its activation behind this line.
function isOwed({ number, transcript }) {
  const before = transcript.filter((entry) => entry.number < number);
  return before.some(({ notices }) => notices.some((notice) => {
    const installed = /^(w\d+) installed$/.exec(notice);
    return installed && !before.some((entry) => hasNotice(entry, new RegExp(`^${installed[1]} activating$`)));
  }));
}

// An earlier `register` or `update` came while a worker of a settled job was installing.
function isJoined({ number, transcript }) {
  return transcript.some((line) => {
    if (!["register", "update"].includes(line.event) || line.number >= number) return false;
    return transcript.some((job) => {
      const installing = /^evaluated (j\d+)$/.exec(job.event);
      if (!installing || job.answer !== "installing" || job.number > line.number) return false;
      return !transcript.some((end) => end.event === `installed ${installing[1]}` && end.number < line.number);
    });
  });
}

function isRevived({ number, transcript }) {
  const gone = transcript.find((entry) => entry.event.startsWith("run ") && hasNotice(entry, /^unmapped /));
  return gone !== undefined && transcript.some((entry) => entry.event === "register" && entry.number > gone.number && entry.number < number);
}

// A page had asked for `ready` before.
function isLasting({ event, number, transcript }) {
  return event === "ready" && transcript.some((entry) => entry.event === "ready" && entry.number < number);
}

// A handler goes on behind the `unregister` of its registration.
function isCleared({ text, browser, transcript, number }) {
  const gone = transcript.some((entry) => entry.number < number && hasNotice(entry, /^unmapped /));
  return gone && /^(w|- added)/.test(text) && ["nothing", "pending"].includes(browser);
}

const differences = [
  { name: "pages that aren't trustworthy have no interface", is: ({ browser }) => browser === "no interface" },
  { name: "`ready`, asked again", is: isLasting },
  { name: "`getRegistration` of an address that doesn't parse", is: ({ event, browser, text }) =>
    event === "registration" && text.includes("TypeError unparsed") && browser === "SecurityError" },
  { name: "a redirect", is: ({ event, recording }) =>
    OF_FETCHES.includes(event.split(" ")[0]) && /"status":30[12378]\b/.test(recording) },
  { name: "Content-Type with several values", is: ({ event, ours, recording }) => event === "await" && ours === "SecurityError"
    && (/"Content-Type"[^\]]*,[^\]]*,/i.test(recording) || /"Content-Type".*"Content-Type"/i.test(recording)) },
  { name: "a script's status is tested before its type and folder", is: ({ event, ours, browser, recording }) =>
    event === "await" && ours === "SecurityError" && browser === "TypeError" && /"status":[345]\d\d/.test(recording) },
  { name: "requests and responses that a page can't make", is: ({ browser, recording }) =>
    browser === "TypeError" && NOT_OF_PAGES.some((form) => form.test(recording)) },
  { name: "several Vary lines of a response that a page made", is: ({ event, recording }) =>
    ON_CACHES.includes(event) && /\["Vary",[^\]]*\](, ?\[[^\]]*\])*, ?\["Vary"/i.test(recording) },
  { name: "items of one address that Vary tells apart", is: ({ event, recording }) => ON_CACHES.includes(event) && /"vary"/i.test(recording) },
  { name: "an unregistered registration is cleared under its handlers", is: isCleared },
  { name: "`register` after unregistering, under a controlled page", is: (given) => OF_JOBS.includes(given.event) && isRevived(given) },
  { name: "Try Activate comes at once behind an install", is: (given) => ON_WORKERS.includes(given.event) && isOwed(given) },
  { name: "`register` or `update` again while the worker of a settled job installs", is: (given) => OF_JOBS.includes(given.event) && isJoined(given) },
];

export const known = (answer, played) => differences.find(({ is }) => is({ ...answer, ...played }))?.name;
