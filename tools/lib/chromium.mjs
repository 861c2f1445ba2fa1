// Chromium without a window, for tests of pages; it is given files of this machine alone.
//
//   findChromium()                 the path of a Chromium, or null where there is none
//   placesOf(chromium, page)       by their ids and by data-bar the elements of a page: { left, top, right, bottom, text }
//   pictureOf(chromium, page, width, height)   a picture of it, as the bytes of a PNG
import { spawnSync } from "node:child_process";
import fs from "node:fs";
import path from "node:path";
import { inFolder } from "./testing.mjs";

const NAMES = ["chromium", "chromium-browser", "google-chrome"];
const WORDS = ["--headless=new", "--no-sandbox", "--disable-gpu", "--hide-scrollbars", "--force-device-scale-factor=1"];
const MILLISECONDS = 240000;

// What is put behind the page: it writes the places into the title, in characters that HTML doesn't escape.
const TELLS = `<script>
document.title = "places " + encodeURIComponent(JSON.stringify([...document.querySelectorAll("[id], [data-bar]")].map((element) => {
  const { left, top, right, bottom } = element.getBoundingClientRect();
  return { name: element.dataset.bar ?? element.id, left, top, right, bottom, text: element.innerText };
})));
</script>`;

export function findChromium() {
  const folders = (process.env.PATH ?? "").split(path.delimiter);
  const places = folders.flatMap((folder) => NAMES.map((name) => path.join(folder, name)));
  return places.find((place) => fs.existsSync(place)) ?? null;
}

function shown(chromium, page, words, then) {
  return inFolder((folder) => {
    fs.writeFileSync(path.join(folder, "page.html"), page);
    const profile = `--user-data-dir=${path.join(folder, "profile")}`, address = `file://${path.join(folder, "page.html")}`;
    const ran = spawnSync(chromium, [...WORDS, profile, ...words(folder), address], { timeout: MILLISECONDS, maxBuffer: 2 ** 28 });
    if (ran.error) throw ran.error;
    return then(ran.stdout.toString(), folder);
  });
}

export function placesOf(chromium, page) {
  return shown(chromium, page + TELLS, () => ["--window-size=1600,1000", "--dump-dom"], (output) => {
    const [, told] = /<title>places ([^<]*)<\/title>/.exec(output);
    return new Map(JSON.parse(decodeURIComponent(told)).map(({ name, ...place }) => [name, place]));
  });
}

export function pictureOf(chromium, page, width, height) {
  return shown(chromium, page, (folder) => [`--window-size=${width},${height}`, `--screenshot=${path.join(folder, "page.png")}`],
    (output, folder) => fs.readFileSync(path.join(folder, "page.png")));
}
