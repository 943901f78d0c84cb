// Light and dark, and small helpers that all parts of the page use.
export const $ = (id) => document.getElementById(id);

export function make(name, className = "", text = "") {
  const it = document.createElement(name);
  it.className = className;
  it.textContent = text;
  return it;
}

const SVG = "http://www.w3.org/2000/svg";
export function draw(name, attributes, text) {
  const it = document.createElementNS(SVG, name);
  for (const key in attributes) it.setAttribute(key, attributes[key]);
  if (text !== undefined) it.textContent = text;
  return it;
}

export const many = (count, what) =>
  `${count.toLocaleString("en")} ${what}${count === 1 ? "" : "s"}`;

export const clock = (when) => new Date(when).toTimeString().slice(0, 8);

const wanted = matchMedia("(prefers-color-scheme: dark)");

// A browser may forbid a page to keep anything.
function kept() {
  try { return localStorage.getItem("theme"); } catch { return null; }
}

function show(chosen) {
  document.documentElement.dataset.theme = chosen || (wanted.matches ? "dark" : "light");
}

export function beginTheme() {
  show(kept());
  wanted.addEventListener("change", () => show(kept()));
  $("theme").onclick = () => {
    const next = document.documentElement.dataset.theme === "dark" ? "light" : "dark";
    try { localStorage.setItem("theme", next); } catch { /* Then it is for this visit alone. */ }
    show(next);
  };
}
