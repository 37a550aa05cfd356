"""What a terminal shows, as HTML: the text of `tmux capture-pane -e`, whose styles are those of ECMA-48, section 8.3.117."""
import html
import re

COLORS = "#1e1e1e #c33 #393 #a80 #36c #939 #399 #ccc #777 #f66 #6c6 #fc3 #69f #f6f #6cc #fff".split()


def color(number):
    """One of the 256 colors of a terminal."""
    if number < 16:
        return COLORS[number]
    if number > 231:
        return "rgb({0},{0},{0})".format(8 + 10 * (number - 232))
    steps = (0, 95, 135, 175, 215, 255)
    return "rgb({},{},{})".format(*(steps[(number - 16) // by % 6] for by in (36, 6, 1)))


class Style:
    """The style of what comes next."""

    def __init__(self):
        self.front, self.back, self.is_bold, self.is_turned = COLORS[7], COLORS[0], False, False

    def follow(self, codes):
        while codes:
            code = codes.pop(0)
            if code == 0:
                self.__init__()
            elif code == 1:
                self.is_bold = True
            elif code in (7, 27):
                self.is_turned = code == 7
            elif code in (38, 48) and codes[:1] == [5]:
                setattr(self, "front" if code == 38 else "back", color(codes[1]))
                del codes[:2]
            elif code in (39, 49):
                setattr(self, "front" if code == 39 else "back", COLORS[7 if code == 39 else 0])
            elif code // 10 in (3, 4, 9, 10) and code % 10 < 8:
                setattr(self, "back" if code // 10 in (4, 10) else "front", COLORS[code % 10 + 8 * (code >= 90)])

    def span(self, text):
        front, back = (self.back, self.front) if self.is_turned else (self.front, self.back)
        weight = ";font-weight:bold" if self.is_bold else ""
        return f'<span style="color:{front};background:{back}{weight}">{html.escape(text)}</span>'


def terminal_html(screen):
    style, parts = Style(), []
    for n, it in enumerate(re.split("\x1b\\[([0-9;]*)m", screen)):
        if n % 2 == 0:
            parts.append(style.span(it) if it else "")
        else:
            style.follow([int(code or 0) for code in it.split(";")])
    return f'<pre style="background:{COLORS[0]};color:{COLORS[7]}">{"".join(parts)}</pre>'
