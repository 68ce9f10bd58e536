"""SVG pictures, and a negotiation as a ladder: both ends, what each says from top to bottom, and what came of each option."""
import html
import re

STYLE = """
text { font-family: sans-serif; font-size: 13px; fill: #1f2328 }
.page { fill: #ffffff }
.small { font-size: 10px; fill: #59636e }
.code { font-family: monospace; font-size: 12px }
.box { fill: #f6f8fa; stroke: #818b98 }
.law { fill: #fbefff; stroke: #8250df }
.side { fill: none; stroke: #818b98; stroke-dasharray: 3 2 }
.line { fill: none; stroke: #818b98 }
.tip { fill: #818b98 }
.edits { fill: none; stroke: #bf8700; stroke-width: 7 }
@media (prefers-color-scheme: dark) {
text { fill: #e6edf3 }
.page { fill: #0d1117 }
.small { fill: #9198a1 }
.box { fill: #151b23; stroke: #6e7681 }
.law { fill: #271052; stroke: #ab7df8 }
.side, .line { stroke: #6e7681 }
.tip { fill: #6e7681 }
.edits { stroke: #d29922 }
}
"""

class Picture:
    """An SVG picture, drawn from back to front."""

    def __init__(self, title, says=""):
        self.title, self.says, self.parts, self.width, self.height, self.style = title, says, [], 0, 0, STYLE

    def text(self, x, y, text, kind="", anchor="middle"):
        self.parts.append(f'<text x="{x:g}" y="{y:g}" class="{kind}" text-anchor="{anchor}">{html.escape(text)}</text>')

    def box(self, x, y, width, height, kind):
        self.parts.append(f'<rect x="{x:g}" y="{y:g}" width="{width:g}" height="{height:g}" rx="4" class="{kind}"/>')

    def path(self, path, kind="line"):
        self.parts.append(f'<path d="{path}" class="{kind}"/>')

    def __str__(self):
        head = (f'<svg xmlns="http://www.w3.org/2000/svg" viewBox="0 0 {self.width:g} {self.height:g}" '
                f'width="{self.width:g}" height="{self.height:g}" role="img">')
        page = f'<rect width="{self.width:g}" height="{self.height:g}" class="page"/>'
        names = f"<title>{html.escape(self.title)}</title><desc>{html.escape(self.says or self.title)}</desc>"
        return "\n".join([head, names, f"<style>{self.style}</style>", page, *self.parts, "</svg>", ""])


class Option:
    """What was said of an option at one end: by that end itself, and by the other."""

    def __init__(self):
        self.own, self.other = None, None

    def hear(self, is_own, says):
        # A refusal is a first word against; a word against what was on turns it off.
        old = self.own if is_own else self.other
        new = "on" if says else "off" if old in ("on", "off") else "refused"
        self.own, self.other = (new, self.other) if is_own else (self.own, new)

    def state(self, end, peer):
        if "refused" in (self.own, self.other):
            return f"refused by the {end if self.own == 'refused' else peer}"
        if self.own == self.other == "on":
            return "on"
        return "off" if "off" in (self.own, self.other) else f"not answered by the {peer if self.own else end}"


def option_states(events):
    """A line for each option that was negotiated, and for each end at which it was."""
    options = {}
    for kind, texts, *_ in events:
        if kind not in ("to-client", "to-server"):
            continue
        speaker, hearer = ("server", "client") if kind == "to-client" else ("client", "server")
        for text in texts:
            if found := re.fullmatch(r"(?:IAC )?(WILL|WONT|DO|DONT) (\S+)", text):
                is_own = found[1] in ("WILL", "WONT")
                end = speaker if is_own else hearer
                option = options.setdefault((found[2], end), Option())
                option.hear(is_own, found[1] in ("WILL", "DO"))
    for (name, end), option in options.items():
        yield f"{name} at the {end}: {option.state(end, 'server' if end == 'client' else 'client')}"


LEFT, RIGHT, LINE = 170, 500, 16


class Ladder:
    """The rungs of a picture, from the top on, between two ends, and from which rung to which an end edits."""

    def __init__(self, picture, left=LEFT, right=RIGHT):
        self.picture, self.left, self.right = picture, left, right
        self.y, self.begin, self.bands, self.marks = 56, {}, [], []

    def text(self, *words):
        self.marks.append(lambda: self.picture.text(*words))

    def beside(self, kind, texts):
        """What a user or a job does."""
        x, anchor = (self.left - 12, "end") if kind == "user" else (self.right + 12, "start")
        for at, text in enumerate(texts):
            self.text(x, self.y + at * LINE + 4, text, "", anchor)
        self.y += LINE * len(texts) + 6

    def arrow(self, kind, texts, time="", gap=24):
        """What arrives, and a gap below it."""
        self.y += 4
        for at, text in enumerate(texts):
            self.text((self.left + self.right) / 2, self.y + at * LINE, text, "code")
        self.y += LINE * len(texts) - 8
        ends = self.left, self.right
        y, (source, target) = self.y, ends[::-1] if kind == "to-client" else ends
        way = 1 if target > source else -1
        if time:
            self.text(self.left - 12, y + 4, time, "small", "end")
        self.marks.append(lambda: self.picture.path(f"M{source} {y:g}H{target}"))
        self.marks.append(lambda: self.picture.path(f"M{target} {y:g}l{-9 * way} -4v8z", "tip"))
        for text in texts:
            self.take_mode(source, target, text.removeprefix("IAC "))
        self.y += gap

    def take_mode(self, source, target, text):
        """An end edits, or takes bytes as edited, from the MODE on that reaches it. It ends with a MODE without EDIT and with LINEMODE; the
        client that ends LINEMODE by itself edits no more at once."""
        if text.startswith("SB LINEMODE MODE"):
            if "EDIT" in text.split():
                self.begin.setdefault(target, self.y)
                self.y += 14
            else:
                self.end_band(target)
        elif text in ("WONT LINEMODE", "DONT LINEMODE"):
            self.end_band(target)
            if source == self.left:
                self.end_band(source)

    def end_band(self, end):
        if end in self.begin:
            self.bands.append((end, self.begin.pop(end), self.y))

    def draw_ends(self, top=24):
        """Draws both ends, with their names at the top, and the marks of the rungs over them."""
        bands = self.bands + [(x, start, self.y) for x, start in self.begin.items()]
        for x, text in ((self.left, "client, and its user"), (self.right, "server, and its job")):
            self.picture.text(x, top, text)
            self.picture.path(f"M{x} {top + 10:g}V{self.y:g}")
        for x, start, stop in bands:
            self.picture.path(f"M{x} {start:g}V{stop:g}", "edits")
            words, anchor, at = (("the client edits",), "end", x - 12) if x == self.left else (("bytes are taken", "as edited"), "start", x + 12)
            for place, word in enumerate(words):
                self.picture.text(at, start + 20 + place * 13, word, "small", anchor)
        for mark in self.marks:
            mark()


def ladder_picture(title, events, has_states=True):
    """Draws events: who does what, as `user` or `job`, or what arrives at which end, as `to-client` or `to-server`, and when; with states,
    what came of each option too."""
    arrows = {"to-client": "to the client", "to-server": "to the server"}
    picture = Picture(title, "; ".join(f"{arrows.get(kind, kind)}: {', '.join(texts)}" for kind, texts, *_ in events))
    ladder = Ladder(picture)
    for kind, texts, *time in events:
        if kind in ("user", "job"):
            ladder.beside(kind, texts)
        else:
            ladder.arrow(kind, texts, *time)
    ladder.draw_ends()
    y = ladder.y + 26
    for line in option_states(events) if has_states else ():
        picture.text((LEFT + RIGHT) / 2, y, line, "small")
        y += 14
    picture.width, picture.height = LEFT + RIGHT, y
    return picture
