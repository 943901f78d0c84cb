// Keys: one request at a time, with all that was typed meanwhile, so that their order stays. A
// request that may have been lost is repeated with its number, and types nothing twice.
import { isAway, refuse } from "./away.js";
import { ask } from "./enter.js";
import { $ } from "./look.js";
import { say } from "./said.js";
import { followCursor } from "./screen.js";

const MOST = 1000, PASTED = 16000, TWICE = 3000, PATIENT = 4;
let queue = "", client = "", number = 0, isSending = false, role = "watch", isLf = false, broke = 0;
let isEnded = false, isToldEnd = false, flying = 0, given = 0;

const KEYS = {
  escape: "\x1b", tab: "\t", back: "\x7f", up: "\x1b[A", down: "\x1b[B", right: "\x1b[C",
  left: "\x1b[D", home: "\x1b[H", end: "\x1b[F", delete: "\x1b[3~",
};
const NAMES = {
  Escape: "escape", Tab: "tab", Backspace: "back", ArrowUp: "up", ArrowDown: "down",
  ArrowRight: "right", ArrowLeft: "left", Home: "home", End: "end", Delete: "delete",
};
const enter = () => (isLf ? "\n" : "\r");
const wait = (time) => new Promise((done) => setTimeout(done, time));

// What the server calls this browser. With a new name what was on its way is given up, as nobody
// can tell whether it has come.
export function knownAs(hello) {
  [role, isLf] = [hello.role, hello.lf];
  if (client === hello.client) return;
  if (client && isSending) giveUp("The page's server was started anew.");
  [client, number, given] = [hello.client, 0, 0];
}
export const myName = () => client;
// How many keys are typed and not known to have come.
export const unsent = () => given || queue.length + flying;

// The server says that it ends.
export function serverEnds() {
  if (isSending) giveUp("The page's server has ended.");
  client = "";
}

function giveUp(why) {
  given = queue.length + flying;
  queue = "";
  say(`${why} Look whether what you typed last is shown before you type it again.`, "bad");
}

export function type(text) {
  if (role !== "type") {
    return say("You watch: keys are for those who have the other address.", "bad");
  }
  if (isAway()) return refuse(text);
  if (isEnded) return tellEnd();
  queue += text;
  followCursor();
  if (!isSending) sendAll();
}

// Once the program has ended nothing is sent, and that is said once.
export function setEnded(it) {
  if (it && !isEnded) isToldEnd = false;
  isEnded = it;
}

function tellEnd() {
  if (!isToldEnd) say("The program has ended: it reads no keys any more.", "bad");
  isToldEnd = true;
}

function nextKeys() {
  let end = Math.min(MOST, queue.length);
  // Not within a pair of halves.
  if (end < queue.length && queue.charCodeAt(end - 1) >> 10 === 54) end--;
  const keys = queue.slice(0, end);
  queue = queue.slice(end);
  return keys;
}

async function sendAll() {
  isSending = true;
  while (queue) {
    const keys = nextKeys();
    flying = keys.length;
    await send({ client, number: ++number, keys });
  }
  [isSending, flying] = [false, 0];
}

async function send(request) {
  for (let turn = 0; ; turn++) {
    if (request.client !== client) return;
    try {
      const [status, why] = await ask("/keys", request);
      if (why) say(why, "bad"), (queue = "");
      if (status === 403) role = "watch";
      return;
    } catch {
      if (turn === PATIENT) say("What you typed has not come yet: this page tries again.", "bad");
      await wait(turn < 4 ? 250 : 1000);
    }
  }
}

// Ctrl-C may end a program's input for good, so it is asked for twice.
function breakIn() {
  if (Date.now() - broke < TWICE) return (broke = 0), type("\x03");
  broke = Date.now();
  say("Ctrl-C may end the program's input, for all who type. Press it again to send it.", "bad");
}

function control(it) {
  const key = it.key.toLowerCase();
  if (key === "v" || it.shiftKey || (key === "c" && !getSelection().isCollapsed)) return;
  it.preventDefault();
  if (key === "c") breakIn();
  else if (/[a-z[\]\\^_@ ]/.test(key)) type(String.fromCharCode(key.charCodeAt(0) & 31));
}

function pressed(it) {
  if (it.isComposing || it.key === "Unidentified" || it.key === "F6") return;
  if (it.key === "Tab" && it.shiftKey) return;
  if (it.key === "PageUp" || it.key === "PageDown") {
    const far = $("view").clientHeight - 40;
    $("view").scrollBy(0, it.key === "PageUp" ? -far : far);
    it.preventDefault();
  } else if (it.ctrlKey && !it.altKey && !it.metaKey && it.key.length === 1) control(it);
  else if (it.altKey && !it.ctrlKey || it.metaKey) return;
  else if (it.key === "Enter") type(enter()), it.preventDefault();
  else if (NAMES[it.key]) type(KEYS[NAMES[it.key]]), it.preventDefault();
  else if ([...it.key].length === 1) type(it.key), it.preventDefault();
}

// Keyboards on glass say what they put in, and no keys.
function putIn(it) {
  if (it.inputType === "insertCompositionText") return;
  it.preventDefault();
  if (it.inputType === "insertText" && it.data) type(it.data);
  else if (it.inputType === "insertLineBreak" || it.inputType === "insertParagraph") type(enter());
  else if (it.inputType.startsWith("delete")) type("\x7f");
}

function pasted(it) {
  it.preventDefault();
  const text = it.clipboardData.getData("text").replace(/\r\n?|\n/g, enter());
  if (text.length > PASTED) return say("At most 16,000 characters are pasted at one time.", "bad");
  if (text) type(text);
}

export const focusKeys = () =>
  (role === "type" ? $("keyboard") : $("view")).focus({ preventScroll: true });

export function beginKeys() {
  const keyboard = $("keyboard");
  keyboard.addEventListener("keydown", pressed);
  keyboard.addEventListener("beforeinput", putIn);
  keyboard.addEventListener("compositionend", (it) => {
    if (it.data) type(it.data);
    keyboard.value = "";
  });
  keyboard.addEventListener("paste", pasted);
  keyboard.addEventListener("focus", () => $("left").classList.add("focus"));
  keyboard.addEventListener("blur", () => $("left").classList.remove("focus"));
  $("view").addEventListener("click", () => getSelection().isCollapsed && focusKeys());
  $("touch").addEventListener("pointerdown", (it) => it.preventDefault());
  $("touch").addEventListener("click", (it) => {
    const key = it.target.dataset.key;
    if (key === "break") breakIn();
    else if (key) type(key === "enter" ? enter() : KEYS[key]);
  });
}
