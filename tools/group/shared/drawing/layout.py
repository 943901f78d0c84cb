"""Where what a scene has is drawn: rows of lanes, in one of two measures. A picture of few columns
is detailed: each message has its words. One of many is an overview."""

import collections
import math

# A row: its number, its columns, and where it begins and how high it is.
Row = collections.namedtuple("Row", "number begin end top height")

# The most columns of a detailed picture, and how many rows an overview has.
MOST_DETAILED, ROWS = 700, 6
TOP, MARGIN, NAME = 44, 14, 58
# The least width of a page, which the legend takes; by which part of a row it may be crowded.
LEAST_PAGE, CROWDED = 760, 0.2


class Layout:
    """The measures of a picture, in pixels."""

    def __init__(self, scene, nodes, page_width):
        self.nodes, self.page_width = nodes, page_width
        self.is_detailed = scene.width <= MOST_DETAILED
        self.left_edge, self.left = MARGIN, MARGIN + NAME
        self.width = page_width - self.left - MARGIN
        self.measure(scene)
        self.rows = self.rows_of(scene)
        last = self.rows[-1]
        self.end = last.top + last.height

    def measure(self, scene):
        """Sizes, which are smaller in an overview."""
        if self.is_detailed:
            self.step, self.flight = 32.0, 3.5
            self.lane, self.strip, self.console_from = 142, 15, 40
            self.sign, self.dot, self.cross, self.flag_above = 6, 3.5, 4, 20
            self.console_room, self.above = 10**6, 50
            self.flagged = ("campaign", "leads", "key", "refused", "start")
            self.spread(scene.width)
            return
        self.columns = math.ceil(scene.width / ROWS)
        self.step = self.width / self.columns
        self.flight = max(3, 12 / self.step)
        self.lane, self.strip, self.console_from = 84, 13, 23
        self.sign, self.dot, self.cross, self.flag_above = 4, 1.2, 2, 9
        self.console_room, self.above = 150, 36
        self.flagged = ("campaign", "leads", "refused")

    def spread(self, columns):
        """Makes the rows of a detailed picture equally long, and no wider than they need to be."""
        rows = math.ceil(max(1, columns * self.step / self.width - CROWDED))
        self.columns = math.ceil(columns / rows)
        self.step = min(self.step, self.width / self.columns)
        self.page_width = int(max(LEAST_PAGE, self.left + self.columns * self.step + MARGIN))
        self.width = self.page_width - self.left - MARGIN

    def rows_of(self, scene):
        each = self.columns
        height = self.above + self.lane * (len(self.nodes) - 1) + self.console_from + self.strip
        rows, top = [], TOP
        for number, begin in enumerate(range(1, scene.width, each)):
            end = min(begin + each, scene.width)
            rows.append(Row(number, begin, end, top, height))
            top += height + 22
        return rows

    def x(self, row, column):
        return self.left + (column - row.begin) * self.step

    def y(self, row, node):
        return row.top + self.above + self.lane * self.nodes.index(node)
