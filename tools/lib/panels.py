"""The picture of a heap: its size over time, its space at one call, and the slots of each class."""
from policy import LONE, PAGE, UNIT, UNITS
from drawing import FAINT, INK, Axes, Canvas, mix, short, ticks, unit_of
from space import AREA, AVAILABLE, BANDS, CARRYING, FREED, LIVE, LONE_BAND, band_of, band_words

WIDTH, LEFT = 1000, 92
COLUMNS = 720
ASKED, SLOTS, MAPPED, REFUSED = '#009e73', '#0072b2', '#777777', '#cc0000'
COLOURS = dict(zip(range(BANDS), ('#56b4e9', '#0072b2', '#009e73', '#e69f00', '#d55e00', '#cc79a7')))
COLOURS[AREA], COLOURS[LONE_BAND] = '#000000', '#332288'
SHARES = {LIVE: 1.0, AVAILABLE: 0.5, FREED: 0.22}


class Series:
    """Bytes asked by live blocks, bytes of their slots, and mapped bytes behind each call, and which calls were refused."""

    def __init__(self):
        self.asked, self.slots, self.mapped, self.refused = [0], [0], [0], []
        self.sizes = {}

    def add(self, event, pages):
        asked, slots = self.asked[-1], self.slots[-1]
        for block in (event.went, event.came):
            if block in self.sizes:
                size, stride = self.sizes.pop(block)
                asked, slots = asked - size, slots - stride
        if event.came is not None:
            self.sizes[event.came] = event.came.size, event.came.slot.group.stride()
            asked, slots = asked + event.came.size, slots + event.came.slot.group.stride()
        self.asked.append(asked)
        self.slots.append(slots)
        self.mapped.append(pages * PAGE)
        if event.is_refused:
            self.refused.append(event.number)

    def calls(self):
        return len(self.asked) - 1

    def peak(self):
        return max(range(len(self.asked)), key=self.asked.__getitem__)


def tops(values):
    """At most so many points of a line: the greatest value of each stretch of calls, with the first and the last."""
    each = -(-len(values) // COLUMNS)
    stretches = [range(begin, min(begin + each, len(values))) for begin in range(0, len(values), each)]
    places = [0, *(max(stretch, key=values.__getitem__) for stretch in stretches), len(values) - 1]
    return [(place, values[place]) for place in places]


def draw_time(canvas, series, call, top):
    axes = Axes(canvas, LEFT, top + 48, WIDTH - LEFT - 24, 230, series.calls(), max(series.mapped) * 1.05)
    canvas.text(LEFT, top, 'The heap over time', 14)
    axes.draw('heap calls')
    entries = [(MAPPED, 'mapped pages'), (SLOTS, 'slots of live blocks'), (ASKED, 'bytes asked by live blocks')]
    entries.append((REFUSED, f'refused calls: {len(series.refused):,}'))
    canvas.legend(LEFT, top + 24, entries)
    for values, colour in ((series.mapped, MAPPED), (series.slots, SLOTS), (series.asked, ASKED)):
        axes.line(tops(values), colour)
    bottom = axes.top + axes.height
    marks = sorted({round(axes.x(number)) for number in series.refused})
    canvas.path(''.join(f'M{x} {bottom}l-4 -9h8z' for x in marks), fill=REFUSED)
    at = short(axes.x(call))
    canvas.path(f'M{at} {axes.top}V{bottom}', stroke=INK, width=1, dash='4 3')
    anchor = 'end' if axes.x(call) > LEFT + axes.width - 70 else 'start'
    canvas.text(axes.x(call) + (4 if anchor == 'start' else -4), axes.top + 4, f'call {call:,}', 11, anchor)
    return bottom + 40


class Map:
    """Pages from left to right and from top to bottom, each a cell that is filled from below: live, available, freed."""

    def __init__(self, canvas, space, top):
        self.canvas, self.space, self.top = canvas, space, top
        self.columns, self.size = (64, 13) if space.end <= 1536 else (128, 6.5)
        self.paths = {}

    def levels(self, page):
        """The colours of a page's cell with their heights in tenths of a pixel, from below."""
        kinds = self.space.pages.get(page)
        if not kinds:
            return ()
        bands = sorted({band for band, _ in kinds}, key=str)
        parts = [((band, state), kinds.get((band, state), 0)) for state in SHARES for band in bands]
        return tuple((kind, round((self.size - 1) * 10 * bytes_ / PAGE)) for kind, bytes_ in parts if bytes_)

    def draw(self):
        rows = -(-self.space.end // self.columns)
        for row in range(rows):
            y = self.top + row * self.size
            if row % max(1, round(26 / self.size)) == 0:
                self.canvas.text(LEFT - 6, y + self.size - 2, f'0x{row * self.columns * PAGE:x}', 10, 'end')
            self.draw_row(row * self.columns, y)
        for (band, state), path in self.paths.items():
            self.canvas.path(path, fill=mix(COLOURS[band], SHARES[state]))
        return self.top + rows * self.size

    def draw_row(self, first, y):
        """Like cells of one run are one box."""
        begin, end = 0, min(self.columns, self.space.end - first)
        for column in range(1, end + 1):
            if column == end or first + column in self.space.runs or self.levels(first + column) != self.levels(first + begin):
                self.draw_cells(begin, column - begin, y, self.levels(first + begin), first + begin in self.space.pages)
                begin = column

    def draw_cells(self, begin, count, y, levels, is_mapped):
        x, width = LEFT + begin * self.size, count * self.size - 1
        if is_mapped:
            self.add('frame', x, y, width, self.size - 1)
        below = y + self.size - 1
        for kind, tenths in levels:
            below -= tenths / 10
            self.add(kind, x, below, width, tenths / 10)

    def add(self, kind, x, y, width, height):
        box = f'M{short(x)} {short(y)}h{short(width)}v{short(height)}h{short(-width)}z'
        if kind == 'frame':
            self.canvas.path(box, stroke=FAINT, width=0.6)
        else:
            self.paths[kind] = self.paths.get(kind, '') + box


def draw_space(canvas, space, call, top):
    canvas.text(LEFT, top, f'The space behind call {call:,}: {space.mapped:,} pages mapped', 14)
    bands = sorted({band for kinds in space.pages.values() for band, _ in kinds}, key=str)
    below = canvas.legend(LEFT, top + 24, [(COLOURS[band], band_words(band)) for band in bands])
    tints = [(mix('#555555', share), words) for words, share in zip(
        ('full shade, live: a block has the slot', 'half, available: may be popped without the lock',
         'pale, freed: came back, or not yet in use'),
        SHARES.values())]
    below = canvas.legend(LEFT, below + 20, tints)
    pages = Map(canvas, space, below + 32)
    canvas.text(LEFT, below + 22, f'A cell is a page of 4,096 bytes, filled from below; a row is {pages.columns} pages, '
                f'and its first address stands at the left. White cells are in no run.', 11)
    return pages.draw() + 30


def class_words(klass, space):
    groups = space.groups[klass]
    size = 'lone blocks' if klass == LONE else f'{UNIT * UNITS[klass]:,}'
    return f'{size} ({groups:,})'


def draw_classes(canvas, space, top):
    """A bar for each class: its slots by state."""
    canvas.text(LEFT, top, 'Slots by class', 14)
    canvas.text(LEFT, top + 18, 'At the left the bytes of a slot, with the groups of this class behind them; a bar is the number '
                'of slots by state, and a slot that carries a group is white.', 11)
    left, width, y = LEFT + 50, WIDTH - LEFT - 330, top + 30
    most = max((sum(states.values()) for states in space.slots.values()), default=1)
    for klass in sorted(space.slots):
        states, x = space.slots[klass], left
        for state in (LIVE, AVAILABLE, FREED, CARRYING):
            part = width * states[state] / most
            colour = '#ffffff' if state == CARRYING else mix(COLOURS[band_of(klass)], SHARES[state])
            if part:
                canvas.box(x, y, part, 10, colour, INK if state == CARRYING else 'none')
            x += part
        canvas.text(left - 6, y + 9, class_words(klass, space), 10, 'end')
        words = ', '.join(f'{states[state]:,} {state}' for state in (LIVE, AVAILABLE, FREED, CARRYING) if states[state])
        canvas.text(x + 6, y + 9, words, 10)
        y += 14
    for value in ticks(most):
        at = short(left + width * value / most)
        canvas.path(f'M{at} {y}v4', stroke=INK, width=0.8)
        canvas.text(left + width * value / most, y + 16, f'{value:,}', 10, 'middle')
    canvas.path(f'M{left} {y}h{width}', stroke=INK, width=0.8)
    canvas.text(left + width / 2, y + 32, 'slots', 12, 'middle')


def draw(file, name, series, space, call):
    canvas = Canvas(WIDTH)
    unit, each = unit_of(max(series.mapped))
    canvas.text(LEFT, 30, f'{name} in mng: {series.calls():,} heap calls, at most {max(series.mapped) / each:,.1f} {unit} '
                f'mapped of {space.size:,} pages', 16)
    below = draw_time(canvas, series, call, 62)
    below = draw_space(canvas, space, call, below + 30)
    draw_classes(canvas, space, below)
    canvas.save(file, f'The heap of {name}')
