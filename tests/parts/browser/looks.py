"""Looks at a page as those who cannot see it, or not well, have it: names, roles, and contrast."""

from ..checks import expect

# Roles that a person can do something with: each wants a name.
ACTIVE = ("button", "textbox", "link", "slider", "checkbox", "combobox")
NAMED = (*ACTIVE, "region", "log", "toolbar", "article", "image")
# What the text of a page has to differ by from its ground: WCAG 2.1, AA.
LEAST = 4.5

CONTRASTS = r"""
(() => {
  const parse = (it) => {
    const [r, g, b, a = 1] = it.match(/[\d.]+/g).map(Number);
    return [r, g, b, a];
  };
  const part = (it) => (it /= 255) <= 0.03928 ? it / 12.92 : ((it + 0.055) / 1.055) ** 2.4;
  const light = ([r, g, b]) => 0.2126 * part(r) + 0.7152 * part(g) + 0.0722 * part(b);
  const over = ([r, g, b, a], [R, G, B]) => [r * a + R * (1 - a), g * a + G * (1 - a),
    b * a + B * (1 - a), 1];
  const ground = (it) => {
    const layers = [];
    for (; it; it = it.parentElement) layers.push(parse(getComputedStyle(it).backgroundColor));
    return layers.reverse().reduce((below, one) => over(one, below), [255, 255, 255, 1]);
  };
  const found = [];
  for (const it of document.querySelectorAll("body *")) {
    const text = [...it.childNodes].filter((one) => one.nodeType === 3).map((one) => one.data)
      .join("").trim();
    const style = getComputedStyle(it), box = it.getBoundingClientRect();
    if (!text || it.disabled || it.closest("[hidden]") || !box.width || style.opacity === "0"
        || style.clipPath !== "none" || it.closest(".unseen") || it.closest("button:disabled"))
      continue;
    const colour = parse(it instanceof SVGElement ? style.fill : style.color);
    const [a, b] = [light(over(colour, ground(it))), light(ground(it))];
    const ratio = (Math.max(a, b) + 0.05) / (Math.min(a, b) + 0.05);
    found.push([Math.round(ratio * 100) / 100, text.slice(0, 40), it.className.baseVal ?? it.className]);
  }
  return found.sort((a, b) => a[0] - b[0]);
})()
"""

# Texts that end at the edge of their box, and those of a picture that reach out of it.
CUT = r"""
(() => {
  const found = [];
  for (const it of document.querySelectorAll("body *")) {
    const box = it.getBoundingClientRect();
    if (!box.width || it.closest(".unseen") || !it.textContent.trim()) continue;
    if (it instanceof SVGTextElement) {
      const picture = it.ownerSVGElement.getBoundingClientRect();
      if (box.left < picture.left - 1 || box.right > picture.right + 1) found.push(it.textContent);
    } else if (it instanceof HTMLElement && it.scrollWidth > it.clientWidth + 1
        && ["hidden", "clip"].includes(getComputedStyle(it).overflowX)) {
      found.push(it.textContent.trim().slice(0, 40));
    }
  }
  return found;
})()
"""
LEGEND = """
(() => {
  const it = document.querySelector(".legend"), box = it.getBoundingClientRect();
  return box.height >= 10 && it.scrollWidth <= it.clientWidth;
})()
"""


ROLES = ("banner", "main", "heading", "log", "status", "region")


def check_names(tab, what, wanted=ROLES):
    tree = tab.call("Accessibility.getFullAXTree")["nodes"]
    shown = [it for it in tree if not it.get("ignored")]
    roles = [(it["role"]["value"], it.get("name", {}).get("value", "")) for it in shown]
    nameless = [it for it in roles if it[0] in NAMED and not it[1].strip()]
    active = sum(it[0] in ACTIVE for it in roles)
    expect(f"{what}: all of {active} things that can be done have names", not nameless and active,
           nameless)
    there = {it[0] for it in roles}
    for role in wanted:
        expect(f"{what}: there is the role {role}", role in there, sorted(there))
    found = [it[1] for it in roles if it[0] in ACTIVE]
    twice = {it for it in found if found.count(it) > 1}
    expect(f"{what}: no two of them have one name", not twice, twice)


def check_contrast(tab, what):
    found = tab.run(CONTRASTS)
    poor = [it for it in found if it[0] < LEAST]
    expect(f"{what}: {len(found)} texts differ from their ground by {found[0][0]} at least",
           not poor and len(found) > 20, *poor)


def check_width(tab, what, width):
    wide = tab.run("document.documentElement.scrollWidth")
    expect(f"{what}: nothing is wider than the page", wide <= width, wide)
    small = tab.run("""[...document.querySelectorAll("button")].filter((it) => {
      const box = it.getBoundingClientRect();
      return box.width && (box.width < 24 || box.height < 24);
    }).map((it) => it.textContent)""")
    expect(f"{what}: each button has 24 pixels at least", not small, small)


def check_legend(tab, what):
    expect(f"{what}: the legend is there, and fits", tab.run(LEGEND))
    cut = tab.run(CUT)
    expect(f"{what}: no text is cut off", not cut, cut)


LIVE = """
  [...document.querySelectorAll("[role=status],[role=log],[role=alert],[aria-live]")].filter((it) =>
    it.getAttribute("aria-live") !== "off").map((it) => it.id || it.parentElement.id)
"""


def check_live(tab, what):
    """One part of the page is read out by itself, and the alert: what stands in two of them would
    be heard twice."""
    found = tab.run(LIVE)
    expect(f"{what}: two parts are read out by themselves", found == ["away", "read"], found)


HERE = """[...document.querySelectorAll(".node")].filter((it) =>
  !it.querySelector(".here").hidden).map((it) =>
  `${it.querySelector("h2").textContent}: ${it.querySelector(".here").textContent}`)"""


def check_here(tab, wanted):
    """One card says that the session is there, and has no button to go there."""
    found = tab.run(HERE)
    expect(f"the card of the session: {wanted}", found == [f"node 1: {wanted}"], found)
    names = tab.run("[...document.querySelectorAll('#nodes button')].filter((it) => "
                    "it.offsetParent).map((it) => it.ariaLabel)")
    expect("it has no button to go there", "Type at node 1" not in names, names)
