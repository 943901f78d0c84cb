"""Draws a scene (`scene.py`) as an SVG picture: rows as those of music, each with a lane for each
node, time from left to right."""

import math

from ..replica.datagram import text_of_message
from . import svg
from .layout import Layout
from .legend import STYLE, legend, legend_height
from .scene import HEARD, LATER, LOST, moment_of, shown_characters

# How far from its sender the words of a message begin, by how much they are moved along the line,
# how wide a character is, and how near the words of two messages may come to each other.
LABEL_FROM, LABEL_STEP, LETTER, NEAR = 13, 8, 5.0, 10


def value_label(value):
    return "no-op" if value is None else shown_characters(value.characters)


def ballot_label(ballot):
    return f"{ballot[0]}.{ballot[1]}"


def label_of(message):
    """A message in few words, as it is written along its line."""
    it = message.fields
    words = [message.kind.capitalize()]
    if "ballot" in it:
        words.append(ballot_label(it["ballot"]))
    if message.kind == "prepare" and it["place"] or message.kind == "ask":
        words.append(f"from {it['place']}")
    elif message.kind in ("accept", "accepted", "tell"):
        words.append(f"at {it['place']}" + (":" if message.kind != "accepted" else ""))
    if "promised" in it:
        words.append(f"by {ballot_label(it['promised'])}")
    if "value" in it and message.kind != "accepted":
        words.append(value_label(it["value"]))
    if message.kind == "promise" and it["votes"]:
        words += ["votes"] + [f"{at}: {value_label(value)}" for at, _, value in it["votes"][:2]]
        words += ["\u2026"] if len(it["votes"]) > 2 else []
    label = " ".join(words)
    return label if len(label) <= 30 else label[:29] + "\u2026"


class Picture:
    """The elements of a picture, row by row."""

    def __init__(self, scene, layout, places, notes):
        self.scene, self.at, self.places, self.notes = scene, layout, places, notes
        self.labelled = self.lines_with_words()
        self.taken = []  # points of the words that are placed

    def drawn(self, name):
        count = len({it.number for it in self.scene.arrows if self.is_drawn(it)})
        session = f"session {self.scene.group.session}"
        times = [time for _, _, time in self.scene.moments if time is not None]
        about = [session, *([moment_of(min(times))] if times else []),
                 f"{len(self.at.nodes)} nodes", f"{count} messages"]
        body = [svg.text(self.at.left_edge, 24, f"{name}: {', '.join(about)}", "title")]
        for row in self.at.rows:
            body += self.row(row)
        body += legend(self.at.left_edge, self.at.end, self.at.is_detailed, self.notes)
        height = self.at.end + legend_height(self.notes)
        return svg.picture(self.at.page_width, int(height), STYLE, body)

    def lines_with_words(self):
        """Which line of each message has its words: one of those that are news, and of these one to
        the nearest lane. Its number, and whom it leads to."""
        best = {}
        for it in self.scene.arrows:
            if it.begin is None or it.to == it.message.sender or not self.is_drawn(it):
                continue
            lanes = [self.at.nodes.index(node) for node in (it.to, it.message.sender)]
            rank = (-self.strength(it), it.fate == LOST, abs(lanes[0] - lanes[1]), it.to)
            best[it.number] = min(best.get(it.number, rank), rank)
        return {(number, rank[-1]) for number, rank in best.items()}

    def is_drawn(self, arrow):
        """Whether a message is between lanes of the picture, and about its places, if any."""
        place = arrow.message.fields.get("place")
        is_about = arrow.message.kind in ("accept", "accepted", "tell")
        is_there = self.places is None or not is_about or place in self.places
        is_between = arrow.to in self.at.nodes and arrow.message.sender in self.at.nodes
        return is_there and is_between

    def when(self, row):
        """Which lines a row has, and when it began, where that is known."""
        there = [it for it in self.scene.moments if row.begin <= it[0] < row.end]
        if not there:
            return []
        lines = [line for _, line, _ in there]
        text = f"lines {min(lines)} to {max(lines)}"
        times = [time for _, _, time in there if time is not None]
        if times:
            text += f", from {moment_of(min(times))}"
        return [svg.text(self.at.left, row.top - 2, text, "when")]

    def row(self, row):
        """A row: its lanes, then messages over them, then marks over these."""
        clip = f"row{row.number}"
        wide = self.at.x(row, row.end) - self.at.left
        box = svg.rect(self.at.left, row.top - 4, wide, row.height + 8, "none")
        body = [svg.element("clipPath", box, id=clip), *self.when(row)]
        for node in self.at.nodes:
            body += self.lane(row, node)
        arrows = [it for it in self.scene.arrows if self.is_in(row, it)]
        # What says nothing new is drawn first, so that it hides nothing.
        arrows.sort(key=lambda it: self.strength(it))
        lines = [part for it in arrows for part in self.arrow(row, it)]
        body.append(svg.element("g", "\n".join(lines) or " ", clip_path=f"url(#{clip})"))
        for node in self.at.nodes:
            body += self.marks(row, node)
        return body + self.rests(row)

    def rests(self, row):
        """A gap in all lanes for each rest, with its length."""
        parts = []
        for begin, end, words in self.scene.rests:
            if row.begin <= begin < row.end:
                x, right = self.at.x(row, begin), self.at.x(row, min(end, row.end))
                for node in self.at.nodes:
                    parts.append(svg.rect(x, self.at.y(row, node) - 5, right - x, 10, "rest"))
                parts.append(svg.text(x, row.top + 10, words, "resting"))
        return parts

    # Lanes.

    def lane(self, row, node):
        y, parts = self.at.y(row, node), []
        right = self.at.x(row, row.end)
        parts.append(svg.text(self.at.left_edge, y + 4, f"node {node}", "name"))
        parts.append(svg.rect(self.at.left, y + self.at.console_from, right - self.at.left,
                              self.at.strip, "strip"))
        parts.append(svg.line((self.at.left, y), (right, y), "down"))
        for span in self.scene.spans:
            begin, end = max(span.begin, row.begin), min(span.end, row.end)
            if span.node == node and begin < end:
                kind = "up" if span.ballot is None else "leads"
                points = (self.at.x(row, begin), y), (self.at.x(row, end), y)
                parts.append(svg.line(*points, kind))
        return parts

    # Messages.

    def is_in(self, row, arrow):
        if not self.is_drawn(arrow):
            return False
        begin = row.begin if arrow.begin is None else arrow.begin
        end = arrow.end if arrow.fate == HEARD else begin + self.at.flight
        begin = end - self.at.flight if arrow.begin is None else begin
        return begin < row.end and end >= row.begin

    def strength(self, arrow):
        """How strongly a message is drawn: 0 for one that says nothing new."""
        kind = arrow.message.kind
        if not arrow.is_news or kind == "ask" and arrow.fate != HEARD:
            return 0
        if self.at.is_detailed:
            return 2
        return 2 if kind in ("prepare", "promise", "refused") else 1

    def ends(self, row, arrow):
        """Where a message's line begins and ends."""
        fro, to = self.at.y(row, arrow.message.sender), self.at.y(row, arrow.to)
        begin, end = arrow.begin, arrow.end
        if begin is None:
            begin = end - self.at.flight
        if arrow.fate == LATER:
            end = self.scene.width
        elif arrow.fate == LOST:
            end = begin + self.at.flight
        start, finish = (self.at.x(row, begin), fro), (self.at.x(row, end), to)
        if arrow.fate != LOST:
            return start, finish
        part = 0.55
        return start, tuple(one + part * (other - one) for one, other in zip(start, finish))

    def arrow(self, row, arrow):
        start, finish = self.ends(row, arrow)
        names = f"m {arrow.message.kind} s{self.strength(arrow)}"
        about = ""
        if self.at.is_detailed:
            first = text_of_message(arrow.message).split("\n")[0]
            heard = f"heard by {arrow.to}" if arrow.fate == HEARD else f"{arrow.fate} to {arrow.to}"
            about = svg.title(f"message {arrow.number}: {first}; {heard}")
        if arrow.to == arrow.message.sender:
            return self.own(start, finish, arrow, names, about)
        parts = [svg.line(start, finish, names, about)]
        if arrow.fate == LOST:
            parts.append(svg.cross(*finish, self.at.cross, names + " lost"))
        elif arrow.fate == HEARD:
            parts += self.head(start, finish, arrow)
        return parts + self.label(row, arrow, start, finish)

    def own(self, start, finish, arrow, names, about):
        """A node's message to itself: an arc over its lane."""
        if not self.at.is_detailed or arrow.fate == LOST:
            return []
        bend = start[1] - 14
        middle = (start[0] + finish[0]) / 2
        points = f"M{svg.short(start[0])} {start[1]}Q{svg.short(middle)} {bend} "
        return [svg.path(points + f"{svg.short(finish[0])} {finish[1]}", names, about)]

    def head(self, start, finish, arrow):
        """The head of an arrow."""
        if not self.at.is_detailed:
            return []
        turn = math.degrees(math.atan2(finish[1] - start[1], finish[0] - start[0]))
        place = f"translate({svg.short(finish[0])} {svg.short(finish[1])}) rotate({turn:.0f})"
        names = f"h {arrow.message.kind} s{self.strength(arrow)}"
        return [svg.path("M-1 0L-8 -3L-8 3Z", names, transform=place)]

    def label(self, row, arrow, start, finish):
        """The words along the line of a message, once for each message."""
        is_here = arrow.begin is not None and row.begin <= arrow.begin < row.end
        if not (self.at.is_detailed and is_here and (arrow.number, arrow.to) in self.labelled):
            return []
        self.labelled.remove((arrow.number, arrow.to))
        turn = math.degrees(math.atan2(finish[1] - start[1], finish[0] - start[0]))
        place = f"translate({svg.short(start[0])} {svg.short(start[1])}) rotate({turn:.0f})"
        names = f"label {arrow.message.kind} s{self.strength(arrow)}"
        words = label_of(arrow.message)
        begin = self.free_place(start, finish, LETTER * len(words))
        return [svg.text(begin, -3, words, names, transform=place)]

    def free_place(self, start, finish, long):
        """Where on its line the words of a message hide no others: as near to its sender as that
        is so, or else as far from them as they can be."""
        length = math.dist(start, finish)
        along = [(to - fro) / length for fro, to in zip(start, finish)]

        def points(begin):
            steps = range(int(begin), int(begin + long) + 1, 6)
            return [(start[0] + along[0] * at, start[1] + along[1] * at) for at in steps]

        def distance(begin):
            return min((math.dist(one, other) for one in points(begin) for other in self.taken),
                       default=math.inf)

        last = max(LABEL_FROM, int(length - long - LABEL_FROM))
        places = range(LABEL_FROM, last + 1, LABEL_STEP)
        begin = next((it for it in places if distance(it) >= NEAR), None)
        if begin is None:
            begin = max(places, key=distance)
        self.taken += points(begin)
        return begin

    # Marks.

    def marks(self, row, node):
        found = [it for it in self.scene.marks if it.node == node]
        found = [it for it in found if row.begin <= it.column < row.end]
        parts = []
        for kind in ("save", "failed save", "start", "crash"):
            parts += [part for it in found if it.kind == kind for part in self.sign(row, it)]
        parts += self.flags(row, node, [it for it in found if it.kind in self.at.flagged])
        learned = [it for it in found if it.kind == "learned" and self.is_place(it)]
        parts += self.boxes(row, node, learned)
        return parts + self.console(row, node, [it for it in found if it.kind == "console"])

    def is_place(self, mark):
        return self.places is None or int(mark.text.split(" ")[0]) in self.places

    def sign(self, row, mark):
        x, y = self.at.x(row, mark.column), self.at.y(row, mark.node)
        size = self.at.sign
        if mark.kind == "save":
            return [svg.element("circle", cx=x, cy=y, r=self.at.dot, class_="save")]
        if mark.kind == "failed save":
            shape = svg.element("circle", cx=x, cy=y, r=size, class_="failed")
            return [shape, svg.text(x, y - size - 3, mark.text, "flag failing")]
        if mark.kind == "crash":
            return [svg.cross(x, y, size, "crash")]
        points = f"M{svg.short(x)} {svg.short(y - size)}l{size + 2} {size}l{-size - 2} {size}z"
        return [svg.path(points, "start")]

    def flags(self, row, node, marks):
        """Words above a lane; those that would hide each other stand one above the other."""
        parts, ends = [], [0.0, 0.0, 0.0]
        for it in sorted(marks, key=lambda it: it.column):
            x, wide = self.at.x(row, it.column), 6.2 * len(it.text) + 6
            level = min(range(3), key=lambda at: (ends[at] > x, at if ends[at] <= x else ends[at]))
            if ends[level] > x and not self.at.is_detailed:
                continue
            ends[level] = x + wide
            y = self.at.y(row, node) - self.at.flag_above - 14 * level
            if it.kind == "key":
                parts.append(svg.rect(x - 6, y - 10, max(13, wide - 1), 13, "key", rx=3))
                parts.append(svg.text(x - 3, y, it.text, "keyed"))
            else:
                parts.append(svg.text(x - 4, y, it.text, f"flag {it.kind}"))
        return parts

    def boxes(self, row, node, marks):
        """Places and their values below a lane, as they are learned."""
        if not self.at.is_detailed:
            return self.ticks(row, node, marks)
        parts, ends = [], [0.0, 0.0]
        for it in marks:
            text = it.text if len(it.text) <= 14 else it.text[:13] + "\u2026"
            x, wide = self.at.x(row, it.column) - 5, 6.2 * len(text) + 6
            level = min((0, 1), key=lambda at: (ends[at] > x, ends[at] if ends[at] > x else at))
            x = max(x, ends[level])
            ends[level] = x + wide + 2
            y = self.at.y(row, node) + 8 + 15 * level
            parts.append(svg.rect(x, y, wide, 13, "learned", rx=2))
            parts.append(svg.text(x + 3, y + 10, text, "value"))
        return parts

    def ticks(self, row, node, marks):
        """The same as a tick for each place, and now and then its number."""
        parts, end, y = [], 0.0, self.at.y(row, node) + 7
        for it in marks:
            x = self.at.x(row, it.column)
            parts.append(svg.line((x, y), (x, y + 5), "tick"))
            place = it.text.split(" ")[0]
            if x >= end:
                parts.append(svg.text(x, y + 14, place, "place"))
                end = x + 6.0 * len(place) + 14
        return parts

    def console(self, row, node, marks):
        """What the console shows, at the column at which it was shown."""
        parts, end, wait = [], 0.0, ""
        y = self.at.y(row, node) + self.at.console_from + self.at.strip - 4
        right = self.at.x(row, row.end)
        for index, it in enumerate(marks):
            x, wait = self.at.x(row, it.column), wait + it.text
            is_last = index + 1 == len(marks)
            if x < end and not is_last:
                continue
            x = max(x, end)
            room = max(3, int((min(right, x + self.at.console_room) - x) / 6.1))
            text = wait if len(wait) <= room else "\u2026" + wait[len(wait) - room + 1 :]
            parts.append(svg.text(x, y, text, "console"))
            end, wait = x + 6.1 * len(text) + 3, ""
        return parts


def draw(scene, nodes, places, name, notes, page_width=1500):
    """The picture of a scene with the lanes of these nodes and what is about these places, or about
    all where `places` is None."""
    layout = Layout(scene, nodes, page_width)
    return Picture(scene, layout, places, notes).drawn(name)
