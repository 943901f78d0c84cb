"""Elements of an SVG picture as text."""

import re

# What XML cannot have: all controls but the tab and the ends of lines.
UNSAID = re.compile("[\x00-\x08\x0b\x0c\x0e-\x1f\ufffe\uffff]")


def escaped(text):
    text = UNSAID.sub("\u25aa", str(text))
    for sign, name in (("&", "&amp;"), ("<", "&lt;"), (">", "&gt;"), ('"', "&quot;")):
        text = text.replace(sign, name)
    return text


def short(value):
    """A number with at most one digit behind the point."""
    return f"{value:.1f}".rstrip("0").rstrip(".") if isinstance(value, float) else str(value)


def element(name, content="", **attributes):
    """An element. An underscore in a name stands for a hyphen; `class_` is `class`."""
    words = [name]
    for key, value in attributes.items():
        key = key.rstrip("_").replace("_", "-")
        words.append(f'{key}="{escaped(short(value))}"')
    head = " ".join(words)
    return f"<{head}>{content}</{name}>" if content else f"<{head}/>"


def text(x, y, content, class_, **more):
    return element("text", escaped(content), x=x, y=y, class_=class_, **more)


def title(content):
    """What is shown where the pointer rests on the element around it."""
    return element("title", escaped(content))


def line(begin, end, class_, content="", **more):
    return element("line", content, x1=begin[0], y1=begin[1], x2=end[0], y2=end[1], class_=class_,
                   **more)


def rect(x, y, width, height, class_, **more):
    return element("rect", x=x, y=y, width=width, height=height, class_=class_, **more)


def path(points, class_, content="", **more):
    return element("path", content, d=points, class_=class_, **more)


def cross(x, y, size, class_):
    wide = 2 * size
    points = f"M{short(x - size)} {short(y - size)}l{wide} {wide}m0 {-wide}l{-wide} {wide}"
    return path(points, class_)


def picture(width, height, style, body):
    head = f'<svg xmlns="http://www.w3.org/2000/svg" viewBox="0 0 {width} {height}"'
    size = f' width="{width}" height="{height}">'
    back = rect(0, 0, width, height, "back")
    return "\n".join([head + size, f"<style>{style}</style>", back, *body, "</svg>", ""])
