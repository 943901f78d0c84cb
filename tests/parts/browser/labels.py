"""The labels of a lane on a page, for tests/browser."""

import json

from ..checks import expect
from .room import Room

LABELS = """import("/lanes.js").then(({ Lane }) => {
  const svg = document.createElementNS("http://www.w3.org/2000/svg", "svg");
  svg.style.cssText = "width:480px;height:64px;position:fixed;left:0;top:0";
  document.body.append(svg);
  const lane = new Lane(svg), now = 1e12;
  lane.note(now - 59000, "span", "up");
  for (const [before, kind, text] of %s) lane.note(now - before, kind, text);
  lane.draw(now);
  const boxes = (what) => [...svg.querySelectorAll(what)].map((it) => {
    const box = it.getBoundingClientRect();
    return [it.textContent, Math.round(box.left), Math.round(box.right)];
  });
  const found = [boxes(".flag"), boxes(".crash")];
  svg.remove();
  return found;
})"""


def check_labels(folder, words):
    """No label of a lane stands over a cross or another label: it is moved or left out."""
    with Room(folder) as room:
        tab = room.open()
        campaign = [[9000, "campaign", "3.3"], [8900, "leads", "3.3"]]
        for what, marks, wanted in (
            ("alone", campaign, ["asks to lead 3.3"]),
            ("behind a cross", [[9500, "crash", ""], *campaign], ["leads 3.3"]),
            ("before a cross", [*campaign, [900, "crash", ""]], ["asks to lead 3.3"]),
            ("over a cross", [*campaign, [4000, "crash", ""]], ["leads 3.3"]),
            ("near another", [[20000, "campaign", "2.2"], [17000, "campaign", "3.2"]],
             ["asks to lead 2.2"]),
            ("far from all", [[50000, "crash", ""], [40000, "campaign", "2.2"],
                              [20000, "campaign", "3.2"]],
             ["asks to lead 2.2", "asks to lead 3.2"]),
        ):
            labels, crosses = tab.run(LABELS % json.dumps(marks))
            names = [it[0] for it in labels]
            expect(f"the labels of a lane, {what}", names == wanted, labels, crosses)
            boxes = sorted(it[1:] for it in labels + crosses)
            expect(f"they stand apart, {what}", all(
                one[1] <= two[0] for one, two in zip(boxes, boxes[1:])), labels, crosses)
