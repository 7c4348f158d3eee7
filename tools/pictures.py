"""Pictures in SVG: text of known width, and what tools/check_pictures reads back from them."""
import unicodedata
from html import escape

FONT = "'DejaVu Sans Mono', Menlo, Consolas, 'Liberation Mono', monospace"
SIZE = 11
# the widest of the fonts above, as a part of the font's size
ADVANCE = 0.61
PAPER, INK, FAINT = '#ffffff', '#2b3038', '#c9ced6'


def text_width(text):
    """The width of a text; wide characters, as Chinese ones, take two places."""
    return SIZE * ADVANCE * sum(2 if unicodedata.east_asian_width(c) in 'WF' else 1 for c in text)


def shortened(text, most):
    """A text with its middle left out where it is too long."""
    if len(text) <= most:
        return text
    end = (most - 1) // 2
    return text[:most - 1 - end] + '…' + text[-end:]


class Picture:
    """A picture that is drawn part by part, on a background of its own, so that it can be read on a dark page too."""

    def __init__(self, title):
        self.title, self.parts, self.colors = title, [], []

    def text(self, x, y, text, color=INK, anchor='start', bold=False, whole=None, backed=False):
        """A text whose baseline is at y; with its whole text as a tooltip where it was shortened, and on paper where lines pass."""
        width = text_width(text)
        left = x - width * {'start': 0, 'middle': 0.5, 'end': 1}[anchor]
        if backed:
            self.parts.append('<rect x="%.1f" y="%.1f" width="%.1f" height="12.5" fill="%s"/>' % (left - 2, y - 10.5, width + 4, PAPER))
        title = '<title>%s</title>' % escape(whole) if whole and whole != text else ''
        self.parts.append('<text x="%.1f" y="%.1f" fill="%s" text-anchor="%s"%s>%s%s</text>' % (
            x, y, color, anchor, ' font-weight="bold"' if bold else '', title, escape(text)))

    def line(self, x1, y1, x2, y2, color=INK, dashes='', arrow=False):
        if arrow and color not in self.colors:
            self.colors.append(color)
        self.parts.append('<line x1="%.1f" y1="%.1f" x2="%.1f" y2="%.1f" stroke="%s"%s%s/>' % (
            x1, y1, x2, y2, color, ' stroke-dasharray="%s"' % dashes if dashes else '', ' marker-end="url(#to%s)"' % color[1:] if arrow else ''))

    def curve(self, points, color):
        """A curve through points that stand one below the other."""
        path = 'M%.1f %.1f' % points[0]
        for (x1, y1), (x2, y2) in zip(points, points[1:]):
            path += ' C%.1f %.1f %.1f %.1f %.1f %.1f' % (x1, (y1 + y2) / 2, x2, (y1 + y2) / 2, x2, y2)
        self.parts.append('<path d="%s" fill="none" stroke="%s"/>' % (path, color))

    def box(self, x, y, width, height, color, fill=PAPER):
        self.parts.append('<rect class="box" x="%.1f" y="%.1f" width="%.1f" height="%.1f" rx="3" fill="%s" stroke="%s"/>' % (x, y, width, height, fill, color))

    def circle(self, x, y, color):
        self.parts.append('<circle cx="%.1f" cy="%.1f" r="3" fill="%s" stroke="%s"/>' % (x, y, PAPER, color))

    def svg(self, width, height):
        heads = ''.join('<marker id="to%s" viewBox="0 0 8 8" refX="8" refY="4" markerWidth="7" markerHeight="7" orient="auto">'
                        '<path d="M0 0 L8 4 L0 8 z" fill="%s"/></marker>' % (color[1:], color) for color in self.colors)
        return '\n'.join([
            '<svg xmlns="http://www.w3.org/2000/svg" width="%d" height="%d" viewBox="0 0 %d %d" font-family="%s" font-size="%d">' % (width, height, width, height, FONT, SIZE),
            '<title>%s</title>' % escape(self.title),
            '<defs>%s</defs>' % heads,
            '<rect width="%d" height="%d" rx="6" fill="%s"/>' % (width, height, PAPER), *self.parts, '</svg>', ''])
