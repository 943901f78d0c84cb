// The console as a terminal shows it. The server has the terminal; here are its rows, and the lines
// that have left it.
import { $, make } from "./look.js";

const ROWS = 24, COLUMNS = 80, HISTORY = 2000, WIDE = 820;
let rows = [], cursor = [0, 0], isFit = false, followed = 0;

export function clearScreen() {
  cursor = [0, 0];
  rows = Array.from({ length: ROWS }, () => Object.assign(make("div"), { text: "", looks: "" }));
  $("screen").replaceChildren(...rows);
}

// A row in pieces that look alike; the cursor is one for itself.
function paint(row, x = -1) {
  const { text, looks } = row, parts = [], end = Math.max(text.length, looks.length, x + 1);
  for (let from = 0, to; from < end; from = to) {
    const look = looks[from] || " ";
    for (to = from + 1; to < end && (looks[to] || " ") === look && from !== x && to !== x; to++);
    const piece = text.slice(from, to).padEnd(to - from), bits = look.charCodeAt(0) - 32;
    if (!bits && from !== x) {
      parts.push(piece);
      continue;
    }
    const names = [bits & 1 && "bold", bits & 2 && "under", bits & 4 && "inverse",
      from === x && "cursor"];
    parts.push(make("span", names.filter(Boolean).join(" "), piece));
  }
  row.replaceChildren(...parts);
}

function oldRow([text, looks]) {
  const it = Object.assign(make("div", "old"), { text, looks });
  paint(it);
  return it;
}

export function showScreen([above, changed, y, x, isHidden]) {
  const view = $("view"), pre = $("screen"), isFollowing = Math.abs(view.scrollTop - followed) < 40;
  const old = above.map(oldRow);
  rows[0].before(...old);
  for (let left = pre.children.length - ROWS - HISTORY; left > 0; left--) pre.firstChild.remove();
  rows[0].className = pre.children.length > ROWS ? "first" : "";
  for (const [at, text, looks] of changed) Object.assign(rows[at], { text, looks });
  for (const at of new Set([...changed.map((it) => it[0]), cursor[0], y])) {
    paint(rows[at], at === y && !isHidden ? x : -1);
  }
  cursor = [y, x];
  if (isFollowing) followCursor();
}

// Keeps the cursor seen: the screen's first line stays at the top as long as there is room.
export function followCursor() {
  const view = $("view"), top = view.getBoundingClientRect().top - view.scrollTop;
  const first = rows[0].getBoundingClientRect().top - top - 10;
  const end = rows[cursor[0]].getBoundingClientRect().bottom - top + 10;
  view.scrollTop = Math.max(first, end - view.clientHeight);
  followed = view.scrollTop;
  if (view.scrollWidth <= view.clientWidth) return;
  const x = cursor[1] * ($("screen").scrollWidth / COLUMNS), room = view.clientWidth - 30;
  if (x > view.scrollLeft + room) view.scrollLeft = x - room * 0.7;
  else if (x < view.scrollLeft) view.scrollLeft = Math.max(0, x - room * 0.3);
}

// The size of characters: 80 columns fit on a wide page, and on a small one if that is wanted.
export function fitScreen() {
  const isWide = innerWidth > WIDE, each = 0.6021;
  const wide = isWide ? Math.min(innerWidth * 0.62, innerWidth - 400) : innerWidth - 16;
  let size = (wide - (isFit ? 20 : 44)) / COLUMNS / each;
  size = Math.max(isWide ? 10 : isFit ? 4 : 11.5, Math.min(size, 28));
  if (isWide) size = Math.max(10, Math.min(size, (innerHeight - 175) / ROWS / 1.25));
  const full = size * each * COLUMNS;
  $("screen").style.setProperty("--size", `${size.toFixed(2)}px`);
  $("screen").style.minWidth = `${full.toFixed(1)}px`;
  const left = isWide ? `${Math.ceil(full) + 44}px` : "100%";
  document.documentElement.style.setProperty("--left", left);
  followCursor();
}

export function beginScreen() {
  clearScreen();
  fitScreen();
  addEventListener("resize", fitScreen);
  $("fit").onclick = () => {
    isFit = !isFit;
    $("fit").setAttribute("aria-pressed", isFit);
    $("view").scrollLeft = 0;
    fitScreen();
  };
}
