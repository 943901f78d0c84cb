// The page of a run that is over: a slider leads to each moment.
import { $, beginTheme, draw, make, many } from "./look.js";
import { enter } from "./enter.js";
import { Scene } from "./moment.js";

const KINDS = ["prepare", "promise", "accept", "accepted", "refused", "submit", "ask", "tell"];
const ROW = 12, FLAG = 6;
let run = null, part = null, isAll = false, wanted = 0, isAsking = false;

async function get(path) {
  const answer = await fetch(path);
  if (!answer.ok) throw new Error(await answer.text());
  return answer.json();
}

// One request at a time: while the slider is drawn the last moment alone is asked for.
async function go(at) {
  wanted = Math.max(0, Math.min(at, run.moments - 1));
  $("moment").value = wanted;
  if (isAsking) return;
  isAsking = true;
  try {
    do part = await get(`/part?at=${wanted}`); while (part.at !== wanted);
    show();
  } catch (fault) {
    $("told").textContent = fault.message || "The page's server does not answer.";
  }
  isAsking = false;
}

const when = (time) => new Date(time).toISOString().replace("T", " ").slice(0, 23);

function show() {
  $("where").textContent = `moment ${(part.at + 1).toLocaleString("en")} of ` +
    `${run.moments.toLocaleString("en")}, line ${part.line.toLocaleString("en")}` +
    (part.time === null ? "" : `, ${when(part.time)} UTC`);
  $("moment").setAttribute("aria-valuetext", part.text);
  $("told").textContent = part.text;
  $("before").disabled = part.at === 0;
  $("next").disabled = part.at === run.moments - 1;
  showScene();
  showWhole();
  $("consoles").replaceChildren(...part.consoles.map(consoleOf));
  showEvents();
}

function showScene() {
  const scene = new Scene(run.nodes, part, $("scene").clientWidth - 2);
  $("scene").replaceChildren(scene.drawn(isAll, (at) => at !== null && go(at)));
}

function consoleOf([node, size, lines]) {
  const it = make("article", "console");
  it.setAttribute("aria-label", `Console of node ${node}`);
  it.append(make("h2", "", `node ${node}`), make("small", "", `shows ${many(size, "byte")}`),
    make("pre", "", lines.join("\n")));
  return it;
}

function showEvents() {
  const had = $("events").contains(document.activeElement);
  const rows = part.events.map(([, , line, text], index) => {
    const it = make("button", index + part.first === part.at ? "here" : "");
    it.type = "button";
    it.append(make("b", "", line.toLocaleString("en")), ` ${text}`);
    it.onclick = () => go(part.first + index);
    if (it.className) it.setAttribute("aria-current", "true");
    return it;
  });
  const box = $("events"), here = rows[part.at - part.first];
  box.replaceChildren(...rows);
  box.scrollTop = here.offsetTop - box.clientHeight / 2;
  if (had) here.focus({ preventScroll: true });
}

// The whole run above the slider: who was up and who led.
function showWhole() {
  const wide = $("whole").clientWidth, high = ROW * run.nodes.length + 6;
  const x = (at) => 8 + (at / Math.max(1, run.moments - 1)) * (wide - 16);
  const y = (node) => 8 + ROW * run.nodes.indexOf(node);
  const svg = draw("svg", { width: wide, height: high, role: "img" });
  svg.setAttribute("aria-label", "The whole run");
  for (const [node, begin, end, leads] of run.spans) {
    svg.append(draw("line", { x1: x(begin), x2: Math.max(x(begin) + 1, x(end)), y1: y(node),
      y2: y(node), class: leads ? "leads thin" : "up" }));
  }
  for (const [kind, node, at] of run.flags) {
    if (kind !== "crash") continue;
    const d = `M${x(at) - 3} ${y(node) - 3}l${FLAG} ${FLAG}m0 ${-FLAG}l${-FLAG} ${FLAG}`;
    svg.append(draw("path", { d, class: "crash thin" }));
  }
  const now = x(part.at);
  svg.append(draw("line", { x1: now, x2: now, y1: 0, y2: high, class: "now" }));
  $("whole").replaceChildren(svg);
}

function showKinds() {
  $("kinds").replaceChildren(...KINDS.map((kind) => {
    const svg = draw("svg", { viewBox: "0 0 22 12", "aria-hidden": "true" }), it = make("span");
    svg.append(draw("line", { x1: 1, x2: 20, y1: 6, y2: 6, class: `m ${kind} s2` }));
    it.append(svg, kind[0].toUpperCase() + kind.slice(1));
    return it;
  }));
}

async function begin() {
  beginTheme();
  showKinds();
  try {
    const why = await enter();
    if (why) throw new Error(why);
    run = await get("/run");
  } catch (fault) {
    return void ($("heading").textContent = fault.message);
  }
  $("name").textContent = document.title = run.title;
  $("files").textContent = run.name;
  $("heading").textContent = `${run.nodes.length} nodes, ${many(run.moments, "moment")}` +
    (run.ended ? `; it ends early: ${run.ended}` : "");
  $("moment").max = run.moments - 1;
  $("moment").oninput = () => go(Number($("moment").value));
  $("before").onclick = () => go(wanted - 1);
  $("next").onclick = () => go(wanted + 1);
  $("all").onclick = () => {
    isAll = !isAll;
    $("all").setAttribute("aria-pressed", isAll);
    showScene();
  };
  addEventListener("resize", () => part && show());
  addEventListener("keydown", keyed);
  await go(0);
  $("moment").focus();
}

// The arrows lead on wherever the focus is; F6 goes from part to part.
function keyed(it) {
  const here = document.activeElement, far = { ArrowLeft: -1, ArrowRight: 1 }[it.key];
  if (it.key === "F6") {
    it.preventDefault();
    const order = [$("moment"), $("scene"), $("events")];
    order[(order.findIndex((one) => one.contains(here)) + 1) % order.length].focus();
  } else if (here === $("scene") && far) {
    it.preventDefault();
    go(wanted + far);
  }
}

begin();
