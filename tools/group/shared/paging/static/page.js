// The page of a group that runs: it shows its token, takes the stream of events, and hands each
// event on.
import { $, beginTheme, clock } from "./look.js";
import { beginAway, noteHeard, noteTime, setAbout, stop } from "./away.js";
import { FRESH, beginSaid, clearSaid, dropAsked, dropOver, hear, list, serverNow, setAhead, show }
  from "./said.js";
import { beginScreen, clearScreen, showScreen } from "./screen.js";
import { enter } from "./enter.js";
import { beginKeys, focusKeys, knownAs, myName, serverEnds, unsent } from "./keys.js";
import { beginNodes, clearLanes, forRole, leave, note, showAgain, showGroup, showOld, waiting }
  from "./nodes.js";

const SILENT = 15000, LONGEST = 5000;
let stream = null, broken = 0, later = 0, tried = Date.now(), name = "";
// The numbers of the last line, mark and sentence of which this browser was told: after a break the
// server tells all of them again.
let last = { read: 0, mark: 0, said: 0 }, isBack = false;

// Whether those who hear the page do not know this yet.
function isNews(kind, number, when = serverNow()) {
  if (number <= last[kind]) return false;
  last[kind] = number;
  return isBack || serverNow() - when < FRESH;
}

const LOST = ["ended", "gone", "held"];
const TOLD = {
  start: (it) => it, crash: (it) => it, held: (it) => it, log: (it) => it,
  ended: (it) => it, gone: (it) => it,
  leads: (it) => `leads, under ballot ${it}`,
  campaign: (it) => `asks to lead, under ballot ${it}`,
};

function greet(hello) {
  setAhead(hello.now);
  clearScreen();
  clearSaid();
  clearLanes(hello.role);
  isBack = name !== "" && hello.client === name;
  if (!isBack) last = { read: 0, mark: 0, said: 0 };
  knownAs(hello);
  setAbout(hello.role, hello.again);
  $("name").textContent = document.title = hello.name;
  $("role").textContent = hello.role === "type" ? "you type" : "you watch";
  $("role").className = `role ${hello.role}`;
  document.body.classList.remove("type", "watch");
  document.body.classList.add(hello.role);
  $("keyboard").disabled = hello.role !== "type";
  $("dot").className = "dot on";
  if (!name) focusKeys();
  [name, broken] = [hello.client, 0];
}

function noteMarks([time, marks]) {
  setAhead(time);
  for (const [number, when, at, kind, text] of marks) {
    const name = note(at, when, kind, text), isNew = isNews("mark", number, when);
    if (kind === "leads") dropAsked(when);
    if (LOST.includes(kind)) dropOver(when);
    if (!TOLD[kind] || !text) continue;
    list(`${name} ${TOLD[kind](text)}`, kind, when);
    if (isNew) hear(`${name} ${TOLD[kind](text)}`);
  }
}

// What the banner says too is heard there.
function noteSaid([number, when, kind, said, since]) {
  const text = forRole(said), timed = (since ? `${clock(since)}: ` : "") + text;
  show(text, kind, when, timed);
  if (isNews("said", number, when) && !["still", "late"].includes(kind)) hear(timed);
}

function noteRead(lines) {
  for (const [number, text] of lines) if (isNews("read", number)) hear(text);
}

function ends() {
  serverEnds();
  stop();
}

function connect() {
  // There is one stream at a time: what comes by two would be shown twice.
  stream?.close();
  clearTimeout(later);
  tried = Date.now();
  const heard = name ? last.read : "";
  stream = new EventSource(`/events?client=${encodeURIComponent(myName())}&heard=${heard}`);
  const on = (kind, does) => stream.addEventListener(kind, (it) => {
    tried = Date.now();
    does(JSON.parse(it.data));
    noteHeard();
  });
  on("hello", greet);
  on("screen", showScreen);
  on("marks", noteMarks);
  on("group", showGroup);
  on("say", noteSaid);
  on("read", noteRead);
  on("beat", noteTime);
  stream.addEventListener("over", ends);
  stream.onerror = lost;
}

function lost() {
  stream?.close();
  clearTimeout(later);
  later = setTimeout(again, broken++ < 4 ? 250 : 1000);
}

// Connects again, but not to a server that does not know this browser.
async function again() {
  if (document.hidden) return;
  tried = Date.now();
  try {
    const answer = await fetch("/known", { signal: AbortSignal.timeout(LONGEST) });
    if (answer.status === 403) return refused(await answer.text());
  } catch { /* It is still away. */ }
  connect();
}

function refused(why) {
  stream?.close();
  stream = null;
  stop(why);
}

async function begin() {
  beginTheme();
  beginScreen();
  beginSaid();
  beginKeys();
  beginNodes();
  beginAway(() => unsent() + waiting(), showAgain, showOld);
  const had = location.hash !== "";
  for (;;) {
    try {
      const why = await enter();
      if (why) return refused(why);
      break;
    } catch {
      await new Promise((done) => setTimeout(done, 1000));
    }
  }
  if (had) connect();
  else await again();
}

addEventListener("keydown", (it) => {
  if (it.key !== "F6") return;
  it.preventDefault();
  if (["keyboard", "view"].includes(document.activeElement.id)) leave();
  else focusKeys();
});
// A browser has six connections to a server at most, and each stream takes one.
document.addEventListener("visibilitychange", () => {
  stream?.close();
  if (!document.hidden) again();
});
setInterval(() => {
  if (stream && !document.hidden && Date.now() - tried > SILENT) lost();
}, 1000);

begin();
