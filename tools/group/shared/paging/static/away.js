// Whether what is shown is of now. A page that has heard nothing of its server for some seconds
// says so, and since when, and takes no keys: nobody could say when they come.
import { $, clock, make, many } from "./look.js";
import { dropAll, hear, list, say, serverNow, setAhead } from "./said.js";

// The server says something each second. After how long nothing is heard, or how late what is heard
// comes, what is shown is old, in milliseconds.
const OLD = 4000, ASLEEP = 1500;
const LOST = "This page lost its connection.";
const BUTTONS = "#nodes button, #due button, #touch button";
let heard = Date.now(), ticked = heard, shown = null, isOld = false, isEnded = false, reason = "";
let command = "", mine = "type", refused = 0, best = null, late = 0, told = "", line = null;
// How many keys are not known to have come; and what the cards show now, and what they did then.
let unsure = () => 0, restore = () => {}, grey = () => {};

export const isAway = () => isOld;
// The moment that is shown.
export const shownNow = () => (isOld && shown !== null ? shown : serverNow());

// Notes an event of the server.
export function noteHeard() {
  heard = Date.now();
  shown = serverNow();
  if (!isOld) return;
  [isOld, isEnded, reason, best, late] = [false, false, "", null, 0];
  show();
  restore();
  for (const it of document.querySelectorAll("#touch button")) it.disabled = false;
  // A list that has begun anew lacks it.
  if (line && !line.isConnected) list(LOST, "bad", +line.dataset.when);
  line = null;
  if (refused) {
    say(`Connected again. ${many(refused, "key")} that you typed meanwhile ` +
      `${refused === 1 ? "was" : "were"} refused: type ${refused === 1 ? "it" : "them"} again.`,
    "bad");
  } else say("Connected again: what is shown is of now.", "note");
  refused = 0;
}

// Notes the server's clocks, of which the second one is never set. By that it is seen by how much
// an event comes later than others did.
export function noteTime([time, steady]) {
  setAhead(time);
  const ahead = steady - performance.now();
  best = Math.max(best ?? ahead, ahead);
  late = best - ahead;
  show();
}

export function setAbout(role, again) {
  [mine, command] = [role, again || ""];
}

// The server has ended, as it says itself; or it refuses this page, and says why.
export function stop(why = "") {
  [isEnded, reason] = [!why, why];
  lose();
  show();
}

// Keys that come while the page is old are not kept.
export function refuse(text) {
  if (!refused) hear("Not connected: what you type is refused.");
  refused += [...text].length;
  show();
  const box = $("away");
  box.classList.remove("flash");
  requestAnimationFrame(() => box.classList.add("flash"));
}

// Nothing is heard any more: no button does anything, and what was said was said before.
function lose() {
  if (isOld) return;
  isOld = true;
  dropAll();
  line = list(LOST, "bad", shown ?? serverNow());
  if (shown !== null) grey(clock(shown));
}

function look() {
  const now = Date.now(), slept = now - ticked;
  ticked = now;
  // If this page itself did not run for a while, it hears first what has come meanwhile.
  if (slept > ASLEEP) heard = Math.max(heard, now - OLD + ASLEEP);
  if (document.hidden) return;
  if (now - heard > OLD) lose();
  show();
}

// What to do if the server has ended.
function again() {
  if (!command) {
    return ["ask whoever gave you its address to start the page again, not the program."];
  }
  return ["whoever started this page starts it again, not the program, by ",
    make("code", "", command), "; then open the address that it prints."];
}

// That the connection is lost, and what is so in spite of that.
function lost() {
  if (shown === null) return "This page is not connected.";
  const said = [`This page lost its connection at ${clock(shown)}.`,
    "No node was lost by that, and the session may go on. What was answered is safe."];
  if (mine === "type") said.push("Keys that are typed now are not taken.");
  return said.join(" ");
}

function sentence() {
  if (isEnded) return [`${lost()} The page's server has ended: `, ...again()];
  if (reason) return [`${lost()} ${reason}`];
  if (isOld) {
    return [`${lost()} The page connects again by itself once its server answers. If it has not ` +
      "done so within a minute, ", ...again()];
  }
  return ["The link to the page's server is slow: what is shown here is some seconds old."];
}

// What is known of keys that were typed before.
function before() {
  const count = unsure(), [was, is, it] = count === 1 ? ["was", "it is", "it"]
    : ["were", "they are", "them"];
  if (mine !== "type" || shown === null) return [];
  if (!count) return ["Keys typed in the last moment before that may not have arrived."];
  return [`${many(count, "key")} typed before that ${was} not confirmed, and may not have ` +
    `arrived: look whether ${is} shown before you type ${it} again.`];
}

function show() {
  const isShown = isOld || late > OLD, box = $("away"), text = box.firstElementChild;
  box.hidden = !isShown;
  document.body.classList.toggle("away", isOld);
  if (!isShown) return void (told = "");
  const parts = sentence(), plain = parts.map((it) => it.textContent ?? it).join("");
  if (plain !== told) text.replaceChildren(...parts);
  told = plain;
  const lines = isOld ? before() : [];
  if (isOld && refused) lines.push(`${many(refused, "key")} typed since then: refused.`);
  $("refused").textContent = lines.join(" ");
  if (!isOld) return;
  $("due").hidden = true;
  for (const it of document.querySelectorAll(BUTTONS)) it.disabled = true;
  $("heading").textContent = "";
  $("role").textContent = "not connected";
  $("role").className = "role off";
  $("dot").className = "dot off";
}

// A page that comes back to the front has some seconds to hear of its server.
export function beginAway(count, showAgain, showOld) {
  [unsure, restore, grey] = [count, showAgain, showOld];
  setInterval(look, 500);
  document.addEventListener("visibilitychange", () => (heard = Date.now()));
}
