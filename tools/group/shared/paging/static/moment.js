// What there was at a moment of a run, drawn as the pictures of `draw`: lanes, signs, messages.
import { draw } from "./look.js";

const NAME = 58, LANE = 92, TOP = 34;
const SAVES = { save: "save", "failed save": "failed" };

export class Scene {
  constructor(nodes, part, wide) {
    [this.nodes, this.part] = [nodes, part];
    this.step = (wide - NAME - 10) / (part.end - part.begin);
    this.wide = wide;
    this.high = TOP + LANE * nodes.length;
  }

  x(column) {
    return NAME + (column - this.part.begin) * this.step;
  }

  y(node) {
    return TOP + 8 + LANE * this.nodes.indexOf(node);
  }

  drawn(isAll, choose) {
    const svg = draw("svg", { viewBox: `0 0 ${this.wide} ${this.high}`, width: this.wide,
      height: this.high, role: "img", "aria-label": "Lanes and messages around the moment" });
    const clip = draw("clipPath", { id: "inside" });
    clip.append(draw("rect", { x: NAME, y: 0, width: this.wide - NAME, height: this.high }));
    const within = draw("g", { "clip-path": "url(#inside)" });
    within.append(this.now(), ...this.lanes(), ...this.arrows(isAll), ...this.signs());
    svg.append(clip, ...this.names(), within);
    svg.addEventListener("click", (it) => choose(this.nearest(it.offsetX, it.offsetY)));
    return svg;
  }

  names() {
    return this.nodes.map((node) => draw("text", { x: 2, y: this.y(node) + 4, class: "name" },
      `node ${node}`));
  }

  now() {
    const x = this.x(this.part.column);
    return draw("line", { x1: x, x2: x, y1: 0, y2: this.high, class: "now" });
  }

  lanes() {
    const { begin, end } = this.part, parts = [];
    for (const node of this.nodes) {
      const [y1, y2] = [this.y(node), this.y(node)];
      parts.push(draw("line", { x1: NAME, x2: this.wide, y1, y2, class: "down" }));
    }
    for (const [node, from, to, ballot] of this.part.spans) {
      const x1 = this.x(Math.max(from, begin)), x2 = this.x(Math.min(to, end));
      const [y1, y2] = [this.y(node), this.y(node)];
      parts.push(draw("line", { x1, x2, y1, y2, class: ballot ? "leads" : "up" }));
    }
    return parts;
  }

  // The messages of the moment, and all others if that is wanted.
  arrows(isAll) {
    const mine = new Set(this.part.mine.map((it) => it.join()));
    const shown = this.part.arrows.filter((it) => isAll || mine.has([it.number, it.to].join()));
    return shown.flatMap((it) => this.arrow(it, mine.has([it.number, it.to].join())));
  }

  arrow(it, isMine) {
    const part = it.fate === "lost" ? 0.55 : 1;
    const [x1, y1] = [this.x(it.begin), this.y(it.from)];
    const x2 = x1 + part * (this.x(it.end) - x1), y2 = y1 + part * (this.y(it.to) - y1);
    const name = `m ${it.kind} ${isMine ? "s2" : it.is_news ? "s1" : "s0"}`;
    const line = draw("line", { x1, y1, x2, y2, class: name });
    line.append(draw("title", {}, `${it.text}, to node ${it.to}, ${it.fate}`));
    const parts = [line];
    if (it.fate === "lost") {
      parts.push(draw("path", { d: cross(x2, y2, 4), class: `${name} lost` }));
    } else if (it.fate === "heard") {
      parts.push(draw("circle", { cx: x2, cy: y2, r: 3, class: `h ${it.kind}` }));
    }
    if (isMine) {
      const [x, y] = [x1 + (x2 - x1) * 0.35 + 6, y1 + (y2 - y1) * 0.35 - 3];
      parts.push(draw("text", { x, y, class: `label ${it.kind}` }, it.text));
    }
    return parts;
  }

  signs() {
    const above = new Map(), below = new Map();
    return this.part.marks.flatMap(([kind, node, column, text]) => {
      const x = this.x(column), y = this.y(node);
      const triangle = `M${x} ${y - 6}l8 6l-8 6z`;
      if (kind === "start") return [draw("path", { d: triangle, class: "start" })];
      if (kind === "crash") return [draw("path", { d: cross(x, y, 6), class: "crash" })];
      if (SAVES[kind]) return [draw("circle", { cx: x, cy: y, r: 3.5, class: SAVES[kind] })];
      const isAbove = kind !== "learned";
      return this.word(isAbove ? above : below, node, x, y + (isAbove ? -12 : 24), kind, text);
    });
  }

  // Words that would stand on others are left out.
  word(ends, node, x, y, kind, text) {
    const end = ends.get(node) ?? -99, wide = text.length * 5.8 + 6;
    if (x < end) return [];
    ends.set(node, x + wide);
    return [draw("text", { x, y, class: `flag ${kind}` }, text)];
  }

  // The event that is nearest to a point.
  nearest(x, y) {
    let best = null, least = 40;
    this.part.events.forEach(([column, node], index) => {
      const far = Math.hypot(this.x(column) - x, (this.y(node) - y) / 2);
      if (far < least) [best, least] = [this.part.first + index, far];
    });
    return best;
  }
}

const cross = (x, y, size) =>
  `M${x - size} ${y - size}l${2 * size} ${2 * size}m0 ${-2 * size}l${-2 * size} ${2 * size}`;
