// The sentences that say what has happened: the last one below the console, and all in a list.
// Nothing on the page is read out by itself but what `hear` is given, and a page that is old.
import { $, clock, make } from "./look.js";

const KEPT = 100, READ = 24;
export const FRESH = 15000;
// What the banner says too is in the list alone.
const LISTED = ["still", "again", "late"];
let noteEnds = 0, led = 0, ahead = 0, isFollowing = true, shape = "";
// When nodes were lost last, and the summary of an event with the time at which it goes.
let lost = 0, over = null;

// By how much the server's clock is ahead of this one's.
export const setAhead = (serverTime) => (ahead = serverTime - Date.now());
export const serverNow = () => Date.now() + ahead;

// Tells those who hear the page.
export function hear(text) {
  const box = $("read");
  box.append(make("p", "", text));
  while (box.children.length > READ) box.firstChild.remove();
}

// Says what only this browser has to say.
export function say(text, kind = "") {
  show(text, kind, serverNow());
  hear(text);
}

// In the list a line has its own time; `timed` is the text as it stands elsewhere.
export function show(text, kind, when, timed = text) {
  list(text, kind, when);
  if (LISTED.includes(kind)) return;
  if (serverNow() - when > FRESH || kind === "asked" && when <= led) return;
  if (kind === "over" && when < lost) return;
  if (kind === "over") over = [timed, Date.now() + FRESH];
  note(timed, kind);
}

// What is said below the console, for some seconds, or until a person closes it. The summary of an
// event is there again behind what was said meanwhile, if its time is not over.
function note(text, kind, lasts = kind === "note" ? 5000 : FRESH) {
  const box = $("note"), close = make("button", "", "×");
  close.type = "button";
  close.setAttribute("aria-label", "Close");
  // A click leaves the focus where it is.
  close.onpointerdown = (it) => it.preventDefault();
  close.onclick = () => {
    const had = document.activeElement === close;
    if (kind === "over") over = null;
    drop();
    if (had) ($("keyboard").disabled ? $("view") : $("keyboard")).focus({ preventScroll: true });
  };
  box.replaceChildren(make("span", "", text), close);
  box.className = kind;
  box.hidden = false;
  clearTimeout(noteEnds);
  noteEnds = setTimeout(drop, lasts);
}

// Takes away what is said there, but not a summary that was there before.
function drop() {
  clearTimeout(noteEnds);
  $("note").hidden = true;
  const left = over === null ? 0 : over[1] - Date.now();
  if (left > 0) note(over[0], "over", left);
  else over = null;
}

// What was said before the connection was lost is not of now.
export function dropAll() {
  over = null;
  drop();
}

// A node is lost: what was said of an earlier event is over.
export function dropOver(when) {
  lost = Math.max(lost, when);
  if (over === null) return;
  over = null;
  if ($("note").className === "over") drop();
}

// That no node can take the session goes once one is up again; and where one types, once the
// session is at another node.
export function dropMoves(up, name) {
  const { className, textContent } = $("note");
  const ended = /\bnode (\d) (has ended|does not run|is stopped)/i.exec(textContent);
  const at = /(?:type|is now) at (node \d)/.exec(textContent);
  if (className === "away" && ended && up.includes(+ended[1])) drop();
  if (className === "moved" && at && at[1] !== name) drop();
}

// That a node is asked goes from there once one leads.
export function dropAsked(when) {
  led = when;
  if ($("note").className === "asked") drop();
}

// A line in the order of time.
export function list(text, kind, when) {
  const box = $("said"), line = make("p", kind), time = make("time", "", clock(when));
  line.dataset.when = when;
  line.append(time, text);
  let before = box.lastChild;
  while (before && before.dataset.when > when) before = before.previousSibling;
  box.insertBefore(line, before ? before.nextSibling : box.firstChild);
  while (box.children.length > KEPT) box.firstChild.remove();
  follow();
  return line;
}

// The list shows its newest line, unless a person has scrolled back to older ones.
function follow() {
  const box = $("said");
  shape = `${box.clientWidth} ${box.clientHeight} ${box.scrollHeight}`;
  if (isFollowing) box.scrollTop = box.scrollHeight;
}

function scrolled() {
  const box = $("said");
  // What a new size has moved no person has scrolled.
  if (shape !== `${box.clientWidth} ${box.clientHeight} ${box.scrollHeight}`) return follow();
  isFollowing = box.scrollHeight - box.scrollTop - box.clientHeight < 30;
}

function toNewest() {
  isFollowing = true;
  follow();
}

export function clearSaid() {
  $("said").replaceChildren();
  toNewest();
}

export function beginSaid() {
  $("said").addEventListener("scroll", scrolled);
  // A narrower window, an opened help, and cards that come or go change its size.
  new ResizeObserver(toNewest).observe($("said"));
}
