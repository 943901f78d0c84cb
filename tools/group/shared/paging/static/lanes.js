// A lane: the last seconds of a node, time from left to right up to now, as in the pictures of
// `draw`.
import { draw } from "./look.js";

export const SECONDS = 60;
const STRIP = 14, WORD = 5.6, KEPT = 400;
// Crosses and starts that are as near as this to the first cross are one cross, with a count.
const NEAR = 13;
// How far words stand from the middle of a cross at least, and from their moment at most.
const CROSS = 12, FAR = 40;
const FLAGS = {
  campaign: (it) => `asks to lead ${it}`, asked: () => "asked", leads: (it) => `leads ${it}`,
};

export class Lane {
  constructor(svg) {
    this.svg = svg;
    this.clear();
  }

  clear() {
    [this.marks, this.spans, this.shown] = [[], [], ""];
  }

  note(when, kind, text) {
    const kept = kind === "span" ? this.spans : this.marks;
    kept.push([when, kind, text]);
    if (kept.length > KEPT) kept.shift();
  }

  draw(now) {
    const wide = this.svg.clientWidth, high = this.svg.clientHeight;
    if (!wide) return;
    this.right = wide - 4;
    this.x = (when) => this.right - ((now - when) / 1000) * (this.right / SECONDS);
    this.base = high - STRIP - 1;
    this.y = Math.round((this.base - 4) / 2) + (high > 60 ? 5 : 3);
    const parts = [...this.grid(now), draw("rect",
      { x: 0, y: this.base, width: wide, height: STRIP, class: "strip" })];
    parts.push(...this.line(), ...this.signs(), this.console());
    this.svg.replaceChildren(...parts);
  }

  grid(now) {
    const parts = [];
    for (let when = Math.floor(now / 10000) * 10000; this.x(when) > 0; when -= 10000) {
      const x = this.x(when);
      parts.push(draw("line", { x1: x, x2: x, y1: 0, y2: this.base, class: "grid" }));
    }
    return parts;
  }

  line() {
    const parts = [], { y } = this;
    this.spans.forEach(([when, , word], index) => {
      const next = this.spans[index + 1];
      const x1 = Math.max(0, this.x(when)), x2 = next ? this.x(next[0]) : this.right;
      if (x2 > 0) parts.push(draw("line", { x1, x2, y1: y, y2: y, class: word }));
    });
    return parts;
  }

  signs() {
    const parts = [];
    this.words = [];
    this.crosses = this.marks.filter((it) => it[1] === "crash").map((it) => this.x(it[0]));
    this.cross = { x: -999, count: 0 };
    for (const [when, kind, text] of this.marks) {
      const x = this.x(when);
      if (x < -200) continue;
      const sign = this.isCrowded(kind, x) ? null : this.sign(kind, x);
      if (sign) parts.push(sign);
      const word = FLAGS[kind]?.(text), begin = word && this.place(x, word.length * WORD);
      if (word && begin !== null) {
        parts.push(draw("text", { x: begin, y: this.y - 8, class: `flag ${kind}` }, word));
      }
    }
    return parts;
  }

  // Where words of this width begin near their moment, so that they stand over no cross and no
  // other words. If there is no such place they are left out.
  place(x, wide) {
    const behind = this.words.map(([, end]) => end + 6);
    const before = this.crosses.map((it) => it - CROSS - wide);
    const starts = [x, ...behind.filter((it) => it > x), this.right - wide, ...before];
    const begin = starts.find((it) => Math.abs(it - x) <= FAR && this.isFree(it, it + wide));
    if (begin === undefined) return null;
    this.words.push([begin, begin + wide]);
    return begin;
  }

  isFree(begin, end) {
    return begin >= 0 && end <= this.right + 4
      && !this.crosses.some((it) => it > begin - CROSS && it < end + CROSS)
      && !this.words.some(([from, to]) => from < end + 6 && to > begin - 6);
  }

  // Whether a sign is shown by a cross before it: the count of that one grows.
  isCrowded(kind, x) {
    const { cross } = this;
    if (kind === "crash" && x - cross.x < NEAR) {
      cross.word.textContent = `×${++cross.count}`;
      return true;
    }
    return kind === "start" && cross.count > 1 && x - cross.x < NEAR;
  }

  sign(kind, x) {
    const { y } = this;
    if (kind === "place") {
      const end = Math.min(y + 12, this.base - 1);
      return draw("line", { x1: x, x2: x, y1: y + 5, y2: end, class: "tick" });
    }
    if (kind === "start") return draw("path", { d: `M${x} ${y - 6}l8 6l-8 6z`, class: "start" });
    if (kind !== "crash") return null;
    // On a low lane the console stands where the count would be.
    const low = y + 17 < this.base ? y + 17 : y - 8;
    const sign = draw("g", {}), word = draw("text", { x, y: low, class: "times",
      "text-anchor": x > this.right - 12 ? "end" : "middle" }, "");
    sign.append(draw("path", { d: `M${x - 6} ${y - 6}l12 12m0-12l-12 12`, class: "crash" }), word);
    this.cross = { x, word, count: 1 };
    return sign;
  }

  console() {
    const room = Math.floor((this.right - 4) / 6.03), end = this.shown || "";
    const word = end.length <= room ? end : `…${end.slice(end.length - room + 1)}`;
    const y = this.base + STRIP - 4;
    return draw("text", { x: this.right, y, class: "console", "text-anchor": "end" }, word);
  }
}
