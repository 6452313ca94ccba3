"use strict";
// Asks for the entries again and again, and shows them in the order in which they come.
// Keys and values are put into the page as text, never as markup.

const ASK_AFTER = 700; // milliseconds behind an answer
const PATIENCE = 4000; // for an answer
const TURN_AFTER = 8000; // for a screen of entries
const READ_AFTER = 10000; // between what is read out
const RELOAD_AFTER = 5000; // behind the beginning, at the earliest

// Lengths on a wall, in hundredths of the width of a screen of 16 to 9.
const LARGEST = 5; // letters
const SMALLEST = 1.9; // letters that are read from afar
const WRAPPING = 2.2; // letters that are not made smaller so that texts fit on one line
const NARROWEST = 24; // column
const GAP = 3; // between columns
// Lengths in letters.
const LOWEST = 1.85; // row
const HIGHEST = 2.9; // row
const LINE = 1.2; // height of a line
const BESIDE = 0.7; // between key and value
const SMALLER = 0.73; // letters of what is too long, at the least
const TWO_LINES = 1.7; // of text that is not broken
// How much larger letters have to be that are worth one more column.
const WORTH = 1.12;

const root = document.documentElement;
const board = document.getElementById("board");
const ruler = document.getElementById("ruler");
const wall = matchMedia("screen and (min-width: 761px) and (min-height: 481px)");
const calm = matchMedia("(prefers-reduced-motion: reduce)");
const rows = new Map(); // by the key's text
let answer = null; // that is shown
let heard = null; // when the server last answered
let away = false; // whether the server does not answer
let screens = 1; // of entries
let current = 0; // which of them is shown
let turning; // the timer of the next one

// Has a part of the page show a text; nothing is laid out anew where it does.
function put(id, text) {
  const part = document.getElementById(id);
  if (part.textContent !== text) part.textContent = text;
}

function clock(date) {
  return [date.getHours(), date.getMinutes()].map((part) => String(part).padStart(2, "0")).join(":");
}

function day(date) {
  return date.toLocaleDateString("en-GB", { weekday: "long", day: "numeric", month: "long", year: "numeric" });
}

function count(number, one, many) {
  return number === 1 ? `1 ${one}` : `${number} ${many}`;
}

// How long ago that was.
function ago(date) {
  const minutes = Math.floor((Date.now() - date) / 60000);
  if (minutes < 1) return "less than a minute ago";
  if (minutes < 60) return count(minutes, "minute ago", "minutes ago");
  const hours = Math.floor(minutes / 60);
  return hours < 48 ? count(hours, "hour ago", "hours ago") : count(Math.floor(hours / 24), "day ago", "days ago");
}

// A key or a value as text; bytes that are no text as digits.
function words(field) {
  return typeof field === "string" ? field || "(empty)" : "0x" + field.digits;
}

// Has a cell show a key or a value; says whether it showed another one.
function fill(cell, field, name) {
  const is = JSON.stringify(field);
  if (cell.is === is) return false;
  cell.is = is;
  cell.className = name;
  cell.classList.toggle("digits", typeof field !== "string");
  cell.classList.toggle("nothing", field === "");
  cell.textContent = words(field);
  return true;
}

function makeRow() {
  const row = document.createElement("li");
  row.append(document.createElement("bdi"), " ", document.createElement("bdi"));
  return row;
}

// What all keys begin with, up to a slash behind which each of them goes on.
function sharedStart(keys) {
  if (keys.some((key) => typeof key !== "string")) return "";
  let start = keys.length ? keys[0] : "";
  for (const key of keys) {
    while (start && (key === start || !key.startsWith(start))) start = start.slice(0, start.lastIndexOf("/", start.length - 2) + 1);
  }
  return start === "/" ? "" : start;
}

// Has the board show these entries.
function show(entries) {
  const news = [];
  const held = new Map(entries.map((entry) => [JSON.stringify(entry.key), entry]));
  for (const [name, row] of rows) {
    if (held.has(name)) continue;
    news.push(`${row.firstChild.textContent} left`);
    rows.delete(name);
    row.remove();
  }
  const start = sharedStart(entries.map((entry) => entry.key));
  put("shared", start && document.getElementById("shared").dataset.before + start.slice(0, -1));
  let next = board.firstChild;
  for (const [name, { key, value }] of held) {
    const row = rows.get(name) || makeRow();
    rows.set(name, row);
    const renamed = fill(row.firstChild, start ? key.slice(start.length) : key, "key");
    const changed = fill(row.lastChild, value, "value");
    if (renamed || changed) row.widths = null;
    if (next === row) next = row.nextSibling;
    else board.insertBefore(row, next);
    if (!changed || answer === null) continue;
    news.push(`${row.firstChild.textContent}: ${words(value)}`);
    if (!calm.matches) row.animate({ backgroundColor: ["var(--raised)", "transparent"] }, { duration: 3000, easing: "ease-in" });
  }
  if (answer !== null) readOut(news);
  fit();
}

// News for those who have the page read to them, not more often than can be listened to.
const unread = [];
let reading;

function readOut(news) {
  unread.push(...news);
  if (!reading) readOn();
}

function readOn() {
  reading = unread.length ? setTimeout(readOn, READ_AFTER) : undefined;
  if (unread.length > 3) put("news", `${unread.length} changes; ${count(rows.size, "entry", "entries")}`);
  else if (unread.length) put("news", unread.join("; "));
  unread.length = 0;
}

// Takes the widths, in letters, of the keys and values whose width is not known.
function measure() {
  const unknown = [...rows.values()].filter((row) => !row.widths);
  ruler.replaceChildren(...unknown.flatMap((row) => [row.firstChild.cloneNode(true), row.lastChild.cloneNode(true)]));
  const widths = [...ruler.children].map((cell) => cell.getBoundingClientRect().width / 100);
  unknown.forEach((row, at) => { row.widths = widths.slice(2 * at, 2 * at + 2); });
  ruler.replaceChildren();
}

// The width that all but a few keep to. Those that are much wider than half of all do not count, however many they are.
function usual(widths, much) {
  const sorted = [...widths].sort((one, other) => one - other);
  const ordinary = sorted.filter((width) => width <= 1 + 2 * sorted[Math.floor((sorted.length - 1) / 2)]);
  const most = much * ordinary[Math.floor(0.9 * (ordinary.length - 1))];
  return Math.max(...ordinary.filter((width) => width <= most));
}

// The fewest screens for so many rows, and the columns with which keys and values of these widths have the largest letters there, on one line or, if these
// were too small, on two.
function choose(number, key, value, board, unit) {
  const most = Math.max(1, Math.floor(board.width / (NARROWEST * unit)));
  for (let screens = 1; ; screens++) {
    let best = null;
    for (let columns = 1; columns <= most; columns++) {
      const high = Math.ceil(Math.ceil(number / screens) / columns);
      const fitting = board.height / high / LOWEST;
      if (fitting < SMALLEST * unit && screens < number) continue;
      const column = (board.width - GAP * unit * (columns - 1)) / columns;
      const [one, two] = [column / (key + value), (TWO_LINES * column) / (TWO_LINES * key + SMALLER * value)];
      const size = Math.min(LARGEST * unit, fitting, one < WRAPPING * unit ? Math.max(two, WRAPPING * unit) : one);
      const read = size > one ? SMALLER * size : size;
      if (!best || read > WORTH * best.read) best = { screens, columns, column, size, read, row: Math.min(board.height / high, HIGHEST * size) };
    }
    if (best) return best;
  }
}

// So many in parts that are as even as can be.
function spread(number, parts) {
  return Array.from({ length: parts }, (_, at) => Math.ceil((number - at) / parts));
}

// Gives each row its place, down the columns and screen by screen.
function place({ screens, columns }) {
  const all = [...board.children].values();
  spread(rows.size, screens).forEach((share, screen) => {
    spread(share, columns).forEach((high, column) => {
      for (let at = 1; at <= high; at++) {
        const row = all.next().value;
        row.style.gridArea = `${at} / ${screen * columns + column + 1}`;
        row.classList.toggle("first", at === 1);
      }
    });
  });
}

// Lays the board out.
function fit() {
  const unit = Math.sqrt(innerWidth * innerHeight) / 75;
  root.style.setProperty("--unit", `${unit}px`);
  tell();
  screens = 1;
  if (wall.matches && rows.size) fitWall(unit);
  turnTo(Math.min(current, screens - 1), true);
}

// Has the cells that are too long for one line stand on two, and gives the letters with which all fit there but those that are too long for any. Cells have a
// width and room for it.
function wrap(cells, size, small) {
  const long = cells.filter(({ cell, width, room }) => cell.classList.toggle("long", width * size > room + 1));
  const fitting = long.map(({ width, room }) => (TWO_LINES * room) / width).sort((one, other) => one - other);
  return Math.min(small, fitting.find((letters) => letters >= SMALLER * size) || SMALLER * size);
}

function fitWall(unit) {
  measure();
  const all = [...rows.values()];
  // Values stand below each other; only a key that is much longer than others has its value further on.
  const aligned = usual(all.map((row) => row.widths[0]), 2);
  const key = aligned + BESIDE;
  const value = usual(all.map((row) => Math.max(aligned, row.widths[0]) + row.widths[1]), 1.2) - aligned;
  const chosen = choose(all.length, key, value, { width: board.clientWidth, height: board.clientHeight }, unit);
  const { column, size, row: high } = chosen;
  const third = column * 0.33;
  const lengths = { size, row: high, column, gap: GAP * unit, keys: Math.min(third, aligned * size) };
  const small = size * Math.min(1, (high / size - 0.1) / (2 * LINE)); // two lines of these fit into a row
  const roomBeside = (key) => column - BESIDE * size - Math.min(third, Math.max(lengths.keys, key * size));
  lengths["small-keys"] = wrap(all.map((row) => ({ cell: row.firstChild, width: row.widths[0], room: third })), size, small);
  lengths["small-values"] = wrap(all.map((row) => ({ cell: row.lastChild, width: row.widths[1], room: roomBeside(row.widths[0]) })), size, small);
  for (const [name, length] of Object.entries(lengths)) board.style.setProperty(`--${name}`, `${length}px`);
  place(chosen);
  screens = chosen.screens;
}

// Shows one of the screens.
function turnTo(number, still) {
  current = (number + screens) % screens;
  const gap = parseFloat(board.style.getPropertyValue("--gap")) || 0;
  board.classList.toggle("still", Boolean(still));
  board.style.setProperty("--shift", `${-current * (board.clientWidth + gap)}px`);
  put("place", screens > 1 ? `${current + 1} of ${screens}` : "");
}

// Turns on by so many screens, and again when that one was read.
function turn(by) {
  clearTimeout(turning);
  turning = setTimeout(turn, TURN_AFTER, 1);
  if (screens > 1) turnTo(current + by);
}

// Says what time it is, whether the server answers, and what stands in place of entries.
function tell() {
  const now = new Date();
  const lost = away && heard !== null;
  put("date", `${day(now)}, ${clock(now)}`);
  put("state", away ? "Not live; the server is asked again each second" : heard ? `Live, ${count(rows.size, "entry", "entries")}` : "");
  put("since", lost ? `As of ${clock(heard)}, ${ago(heard)}` : "");
  document.getElementById("lost").hidden = !lost;
  let [large, small] = ["", ""];
  if (heard === null) [large, small] = away ? ["The server does not answer.", "The board comes by itself when it does."] : ["", "Asking the server."];
  else if (!rows.size) [large, small] = [clock(now), away ? "The board was empty when the server last answered." : "All is quiet: there is nothing on the board right now."];
  put("clock", large === clock(now) ? "" : clock(now));
  put("large", large);
  put("small", small);
  document.getElementById("word").hidden = !small;
  document.getElementById("word").classList.toggle("lost", heard === null);
}

async function ask() {
  const waiting = new AbortController();
  const timer = setTimeout(() => waiting.abort(), PATIENCE);
  try {
    const came = await fetch("/data", { cache: "no-store", signal: waiting.signal });
    if (!came.ok) throw new Error(came.statusText);
    take(await came.text());
  } catch (error) {
    hear(false);
  }
  clearTimeout(timer);
  setTimeout(ask, ASK_AFTER);
}

function take(text) {
  const data = JSON.parse(text);
  // A screen runs for months, and the server may have another page meanwhile.
  if (data.page !== root.dataset.page && performance.now() > RELOAD_AFTER) location.reload();
  heard = new Date();
  if (text !== answer) show(data.entries);
  answer = text;
  hear(true);
}

// Notes whether the server answers.
function hear(answers) {
  if (answers !== away) return tell();
  away = !answers;
  document.body.classList.toggle("away", away);
  readOut([away ? "The server does not answer." : "The server answers."]);
  fit();
}

addEventListener("keydown", (event) => {
  if (event.key === "ArrowRight") turn(1);
  if (event.key === "ArrowLeft") turn(-1);
});
addEventListener("resize", fit);
setInterval(tell, 1000);
fit();
turn(0);
ask();
