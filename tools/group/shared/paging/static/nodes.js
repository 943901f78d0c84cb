// The nodes: a card and a lane for each, and what a person can do about the group.
import { $, draw, make, many } from "./look.js";
import { isAway, shownNow } from "./away.js";
import { dropMoves, hear, say } from "./said.js";
import { ask } from "./enter.js";
import { focusKeys, setEnded } from "./keys.js";
import { Lane } from "./lanes.js";
import { followCursor } from "./screen.js";

const FEW = 5;
const STATES = { up: "runs", leads: "leads", down: "does not run", stopped: "is stopped",
  unknown: "is unknown" };
// The same of a moment that is over.
const THEN = { up: "ran", follows: "followed", leads: "led", down: "did not run",
  stopped: "was stopped", unknown: "was unknown" };
const ENDED = "the program has ended";
// The cards by the numbers of the lanes, and the group as it was told last.
let cards = new Map(), group = null, role = "watch", heardDue = null;

async function act(path, at) {
  if (isAway()) return say("Not connected: nothing was done.", "bad");
  try {
    const why = (await ask(path, { at }))[1];
    if (why) say(why, "bad");
  } catch {
    say("The page's server has not answered: look whether it was done, and try again.", "bad");
  }
}

function newCard(at) {
  const it = { box: make("article", "node"), head: make("div", "head"), name: make("h2"),
    state: make("span", "state"), here: make("span", "here"), few: make("span", "few"),
    facts: make("div", "facts"), lead: make("button", "", "Ask to lead"),
    go: make("button", "", "Type here"), svg: draw("svg", { role: "img" }) };
  it.lane = new Lane(it.svg);
  it.lead.onclick = () => act("/lead", at);
  it.go.onclick = () => act("/go", at);
  for (const button of [it.go, it.lead]) button.type = "button";
  const buttons = make("span", "buttons");
  buttons.append(it.go, it.lead);
  it.head.append(it.name, it.state, it.here, it.few, buttons);
  it.box.append(it.head, it.facts, it.svg);
  return it;
}

function cardOf(at) {
  if (!cards.has(at)) cards.set(at, newCard(at));
  return cards.get(at);
}

// Notes a mark, and returns the name of its node.
export function note(at, when, kind, text) {
  cardOf(at).lane.note(when, kind, text);
  return cardOf(at).name.textContent || `node ${at + 1}`;
}

export function clearLanes(mine) {
  role = mine;
  for (const it of cards.values()) it.lane.clear();
}

function fact(name, value) {
  const it = make("span"), b = make("b", "", value);
  it.append(`${name} `, b);
  return it;
}

// What a node does that runs and does not lead.
const wordOf = () => (group.is_led ? "follows" : group.until ? "runs, no leader" : STATES.up);

function showCard(node) {
  const it = cardOf(node.at), name = `node ${node.node}`;
  const runs = ["up", "leads"].includes(node.state);
  const lag = runs && node.lag ? `, behind by ${many(node.lag, "byte")}` : "";
  const word = node.state === "up" ? wordOf() : STATES[node.state];
  it.box.className = `node ${node.state}`;
  it.box.setAttribute("aria-label", `${name} ${word}`);
  it.name.textContent = name;
  it.state.textContent = word + lag;
  it.state.title = node.pid ? `process ${node.pid}` : "";
  const isHere = node.at === group.seat, had = document.activeElement === it.go;
  it.here.hidden = !isHere;
  it.here.textContent = role === "type" ? "you type here" : "session";
  it.few.textContent = node.fault || `${node.promised || "-"} · ${many(node.votes ?? 0, "vote")}`;
  it.lead.hidden = role !== "type";
  it.go.hidden = role !== "type" || isHere;
  if (had && isHere) focusKeys();
  it.lead.disabled = !node.can_lead;
  it.go.disabled = !node.can_type;
  const why = node.why_not ? `, which is not possible now: ${node.why_not}` : "";
  it.lead.title = node.why_not ? `Not possible now: ${node.why_not}` : "";
  it.lead.setAttribute("aria-label", `Ask ${name} to lead${why}`);
  it.go.setAttribute("aria-label", `Type at ${name}`);
  it.facts.replaceChildren(...facts(node));
  it.svg.setAttribute("aria-label", `The last minute of ${name}`);
  it.lane.shown = node.shown || "";
  return it.box;
}

function facts(node) {
  const parts = [fact("promised", node.promised || "unknown")];
  if (node.votes !== null) parts.push(fact("votes", node.votes.toLocaleString("en")));
  if (node.starts !== null) parts.push(fact("starts", node.starts));
  parts.push(fact("shows", node.bytes === null ? "unknown" : many(node.bytes, "byte")));
  if (node.pid) parts.push(fact("process", node.pid));
  if (node.fault) parts.push(fact("", node.fault));
  return parts;
}

export function showGroup(told) {
  group = told;
  const box = $("nodes"), boxes = group.nodes.map(showCard);
  if (boxes.length !== box.children.length || boxes.some((it, at) => it !== box.children[at])) {
    box.replaceChildren(...boxes);
    box.classList.toggle("many", boxes.length > FEW);
  }
  const heading = forRole(group.heading);
  $("heading").textContent === heading || ($("heading").textContent = heading);
  $("heading").className = group.is_led ? "" : group.is_soon ? "soon" : "bad";
  $("session").textContent = group.session === null ? "" : `session ${group.session}`;
  showUsed();
  showFlow();
  $("at").textContent = group.seat === null ? "at no node of this machine" : `at ${group.name}`;
  $("waits").textContent = waits();
  showDue();
  const up = group.nodes.filter((it) => ["up", "leads"].includes(it.state));
  dropMoves(up.map((it) => it.node), group.seat === null ? "" : group.name);
  drawLanes();
}

// What is said to who types, for who only watches.
export function forRole(text) {
  if (role === "type") return text;
  return text.replace("Go on typing: what you type is kept.", "What is typed is kept.")
    .replace("What you type is kept.", "What is typed is kept.")
    .replace(/you now type at (node \d), and see its console/,
      "the session is now at $1, and its console is shown");
}

export const showAgain = () => group && showGroup(group);
export const waiting = () => group?.waiting ?? 0;

// Nothing is heard any more: the cards are of the time at which something was.
export function showOld(time) {
  for (const node of group?.nodes ?? []) {
    const it = cardOf(node.at), isFollowing = node.state === "up" && group.is_led;
    const word = `${THEN[isFollowing ? "follows" : node.state]}, as of ${time}`;
    it.box.className = "node old";
    it.box.setAttribute("aria-label", `node ${node.node} ${word}`);
    it.state.textContent = word;
    it.here.textContent = "session";
  }
}

// How many keys wait, or what would become of one.
function waits() {
  const { waiting, why, until, flow } = group;
  if (waiting) {
    return `${many(waiting, "key")} ${waiting === 1 ? "waits" : "wait"}${why ? `: ${why}` : ""}`;
  }
  if (until) return `what ${role === "type" ? "you type" : "is typed"} waits ${until}`;
  return flow === "ended" ? ENDED : "";
}

// The sign at the console, and what is said to who types, by what becomes of typed keys.
function showFlow() {
  const { flow, seat } = group, mine = role === "type" ? "you type" : "you watch";
  $("dot").className = `dot on ${seat === null ? "none" : ""} ${flow}`;
  const own = { ended: ENDED, waits: group.waiting ? "keys wait" : mine };
  $("role").textContent = role === "type" && own[flow] || mine;
  $("role").className = `role ${role} ${flow}`;
  $("left").classList.toggle("ended", flow === "ended");
  setEnded(flow === "ended");
}

function showUsed() {
  const of = group.places.toLocaleString("en"), used = group.used;
  $("used").hidden = used === null;
  $("used").firstChild.textContent = `${(used ?? 0).toLocaleString("en")} of ${of} places`;
  $("used").querySelector("b").style.width = `${(100 * (used || 0)) / group.places}%`;
  $("used").classList.toggle("full", used > 0.9 * group.places);
}

function showDue() {
  const due = group.due, box = $("due"), [text, button] = box.children, had = box.hidden;
  hearDue();
  if (!due) {
    const isMine = box.contains(document.activeElement);
    box.hidden = true;
    if (isMine) focusKeys();
    return;
  }
  box.hidden = false;
  box.className = due.at === null ? "bad" : "";
  if (text.textContent !== due.text) text.textContent = due.text;
  button.hidden = due.at === null || role !== "type";
  button.disabled = isAway();
  button.textContent = due.at === null ? "" : `or ask node ${due.node} now`;
  button.onclick = () => act("/lead", due.at);
  if (had) followCursor();
}

// Of the banner each sentence is heard once, until there is none; of those about keys that wait the
// first one. At first the heading is heard too.
function hearDue() {
  if (heardDue === null) hear(forRole(group.heading));
  heardDue ??= new Set();
  if (!group.due) return heardDue.clear();
  const plain = (it) => (/^What is typed|keys? waits?\.$/.test(it) ? "keys" : it);
  const news = group.due.text.split(/(?<=\.) /).filter((it) => !heardDue.has(plain(it)));
  news.forEach((it) => heardDue.add(plain(it)));
  if (news.length) hear(news.join(" "));
}

// F6: to the first thing that can be done about the nodes.
export function leave() {
  const due = $("due").lastElementChild;
  const first = document.querySelector("#nodes button:enabled:not([hidden])");
  const isDue = !$("due").hidden && !due.hidden;
  (isDue ? due : first ?? $("said")).focus();
}

let isDue = false;
function drawLanes() {
  if (isDue) return;
  isDue = true;
  requestAnimationFrame(() => {
    isDue = false;
    for (const it of cards.values()) it.lane.draw(shownNow());
  });
}

export function beginNodes() {
  setInterval(() => group && !document.hidden && drawLanes(), 1000);
  addEventListener("resize", () => group && drawLanes());
}
