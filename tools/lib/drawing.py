"""SVG by hand: texts, paths, axes with units, and legends, for white paper."""
from html import escape

INK, FAINT = '#222222', '#cccccc'


def mix(colour, share):
    """The colour on white paper, with so much of it."""
    parts = [int(colour[place:place + 2], 16) for place in (1, 3, 5)]
    return '#' + ''.join(f'{round(255 - share * (255 - part)):02x}' for part in parts)


def short(number):
    return f'{number:.1f}'.rstrip('0').rstrip('.')


def ticks(most, wanted=6):
    """Round numbers from 0 up to the greatest, at most one more than wanted."""
    steps = (digit * 10**power for power in range(20) for digit in (1, 2, 5))
    step = next(step for step in steps if most / step <= wanted)
    return [step * place for place in range(int(most // step) + 1)]


def unit_of(most):
    """The unit in which the greatest number of bytes is told, and its bytes."""
    return ('MiB', 1 << 20) if most >= 4 << 20 else ('KiB', 1 << 10) if most >= 4 << 10 else ('bytes', 1)


class Canvas:
    """The parts of one picture, and how far down they reach."""

    def __init__(self, width):
        self.width, self.height = width, 0
        self.parts = []

    def add(self, part, bottom=0):
        self.parts.append(part)
        self.height = max(self.height, bottom)

    def text(self, x, y, words, size=12, anchor='start', colour=INK, turned=False):
        turn = f' transform="rotate(-90 {short(x)} {short(y)})"' if turned else ''
        weight = ' font-weight="bold"' if size > 13 else ''
        self.add(f'<text x="{short(x)}" y="{short(y)}" font-size="{size}" text-anchor="{anchor}" fill="{colour}"{weight}{turn}>'
                 f'{escape(words)}</text>', y + size)

    def path(self, commands, fill='none', stroke='none', width=1.0, dash=''):
        line = '' if stroke == 'none' else f' stroke="{stroke}" stroke-width="{width}"'
        dashes = f' stroke-dasharray="{dash}"' if dash else ''
        if commands:
            self.add(f'<path d="{commands}" fill="{fill}"{line}{dashes}/>')

    def box(self, x, y, width, height, fill, stroke='none'):
        self.path(f'M{short(x)} {short(y)}h{short(width)}v{short(height)}h{short(-width)}z', fill, stroke, 0.6)

    def save(self, path, title):
        head = (f'<svg xmlns="http://www.w3.org/2000/svg" viewBox="0 0 {self.width} {round(self.height + 12)}" '
                f'width="{self.width}" height="{round(self.height + 12)}" font-family="sans-serif">')
        page = f'<title>{escape(title)}</title><rect width="100%" height="100%" fill="#ffffff"/>'
        with open(path, 'w', encoding='utf-8') as out:
            out.write('\n'.join([head, page, *self.parts, '</svg>']) + '\n')

    def legend(self, x, y, entries, gap=18):
        """Swatches with words, from left to right, in lines that fit."""
        left = x
        for colour, words in entries:
            width = 16 + 6.4 * len(words)
            if x + width > self.width - 10:
                x, y = left, y + 18
            self.box(x, y - 10, 12, 12, colour, INK)
            self.text(x + 16, y, words, 11)
            x += width + gap
        return y


class Axes:
    """A chart's frame: calls on the x axis and bytes on the y axis."""

    def __init__(self, canvas, left, top, width, height, most_x, most_y):
        self.canvas, self.left, self.top, self.width, self.height = canvas, left, top, width, height
        self.most_x, self.most_y = max(most_x, 1), max(most_y, 1)

    def x(self, value):
        return self.left + self.width * value / self.most_x

    def y(self, value):
        return self.top + self.height * (1 - value / self.most_y)

    def draw(self, x_words):
        canvas, bottom = self.canvas, self.top + self.height
        unit, each = unit_of(self.most_y)
        for value in ticks(self.most_y / each):
            at = self.y(value * each)
            canvas.path(f'M{self.left} {short(at)}h{self.width}', stroke=FAINT, width=0.6)
            canvas.text(self.left - 6, at + 4, f'{value:,}', 11, 'end')
        for value in ticks(self.most_x, 8):
            at = self.x(value)
            canvas.path(f'M{short(at)} {bottom}v4', stroke=INK, width=0.8)
            canvas.text(at, bottom + 17, f'{value:,}', 11, 'middle')
        canvas.path(f'M{self.left} {self.top}v{self.height}h{self.width}', stroke=INK, width=0.8)
        canvas.text(self.left - 52, self.top + self.height / 2, unit, 12, 'middle', turned=True)
        canvas.text(self.left + self.width / 2, bottom + 34, x_words, 12, 'middle')

    def line(self, points, colour, width=1.4):
        """A line through (value, value) pairs."""
        steps = [f'{short(self.x(x))} {short(self.y(y))}' for x, y in points]
        self.canvas.path('M' + 'L'.join(steps) if steps else '', stroke=colour, width=width)
