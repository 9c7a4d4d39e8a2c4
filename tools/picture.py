"""A story as a picture. A row has at most a note of either end and an arrow, and all texts stand on the lines of rows.
An arrow goes across just below its text, and where it ends later it leans in the gutter beside the line that it leads
to. No text stands there: so no arrow crosses one."""
from xml.sax.saxutils import escape

from story import OTHER, Item, header_name, spool_actives, spool_lengths

SIZE, PITCH, GAP = 10, 16, 12       # of letters, from row to row, and before the first row of a moment
WIDE = 0.602 * SIZE                 # a letter
GUTTER, LANE = 36, 34               # beside each line where arrows lean; of the spool
MOST = 44                           # letters in a text
INK, PALE, SPOOL, RED, LATE = "#27303a", "#8a949f", "#8a6414", "#b8322a", "#a8590f"
SIDE = {"E": "#235a8c", "H": "#22786a"}
COLOURS = {
    **dict.fromkeys(("power", "failed", "slip", "discarded", "denied", "dropped", "refused", "toolong", "full"), RED),
    **dict.fromkeys(("t3", "t4", "duplicate", "unexpected", "foreign", "crowded", "stranger"), LATE),
    **dict.fromkeys(("spool", "storing", "stored", "leaving", "gone", "try", "setup", "keeping", "kept",
                     "listing", "listed"), SPOOL),
}
BOLD = ("power", "failed", "t3", "t4", "start", "slip", "closed")


def short(text):
    """The text in printable ASCII, cut where it is too long."""
    text = "".join(letter if " " <= letter <= "~" else "?" for letter in text)
    return text if len(text) <= MOST else text[:MOST - 1] + "\u2026"


def note_text(item):
    """The words of a line, but for a message's text; a header by what it says."""
    line = item.line
    if line.kind in ("sent", "rx") and len(line.words) > 2:
        return short(line.text.rpartition(" ")[0])
    if line.kind == "slip":
        return short(f"slip {line.words[0]} {header_name(bytes.fromhex(line.words[-1])[1:11])}")
    header = line.header()
    return short(f"{line.kind} {header_name(header)}" if header else item.text)


def mark(number):
    """A number as it stands in the file."""
    return f"{number:.1f}".rstrip("0").rstrip(".")


class Row:
    """A line of the picture: its moment, a note of each side, and an arrow, which is pieces, or a deed."""
    def __init__(self, moment):
        self.moment, self.y = moment, 0
        self.notes, self.arrow = {}, None


class Picture:
    """The rows of a story, measured and drawn."""
    def __init__(self, items):
        self.items, self.rows, self.first, self.last = items, [], [], []    # the first and last row of each item
        self.eldest = {}        # the first piece of those that end at one place on one way
        for piece in (piece for item in items for piece in item.pieces):
            self.eldest.setdefault((piece.side, piece.end), piece)
        self.stops = {piece.end for item in items for piece in item.pieces if not self.is_straight(piece)}
        for at, item in enumerate(items):
            self.first.append(None)
            self.set(at, item)
            self.last.append(self.rows[-1])
        self.measure()

    # The rows.

    def new_row(self, item):
        self.rows.append(Row(item.moment))
        return self.rows[-1]

    def set(self, at, item):
        """A step has its notes and then an arrow. The last note and the arrow share a row, and so do an arrow and the
        first note of the step that takes a block, where nothing comes between."""
        row, before = self.rows[-1] if self.rows else None, self.items[at - 1] if at else item
        if row and row.moment != item.moment:
            row = None
        if item.kind == "tx":
            for group in grouped(item.pieces):
                is_shared = row and not self.first[at] and not row.arrow and before.side == item.side in row.notes \
                    and at not in self.stops
                row = row if is_shared else self.new_row(item)
                row.arrow, self.first[at] = group, self.first[at] or row
                for piece in group:
                    piece.row = row
        elif item.side and item.kind != "deed":
            is_shared = row and isinstance(row.arrow, list) and item.side not in row.notes and before.kind == "tx" \
                and before.side != item.side and row.arrow[0].is_frame() and self.is_straight(row.arrow[0]) \
                and row.arrow[0].fate == "taken"
            self.first[at] = row if is_shared else self.new_row(item)
            self.first[at].notes[item.side] = item
        else:
            self.first[at] = self.new_row(item)
            self.first[at].arrow = item if item.kind == "deed" else None

    def is_straight(self, piece):
        """Whether it is taken at its own moment, and nothing comes between."""
        return piece.end == piece.at + 1 and piece.moment == self.items[piece.at].moment and not piece.marks \
            and not piece.is_noise and self.eldest[piece.side, piece.end].at == piece.at

    def measure(self):
        """Where all rows and columns are."""
        y, before = 42, None
        for row in self.rows:
            y += PITCH + (GAP if row.moment != before else 0)
            row.y, before = y, row.moment
        self.bottom = y + 14
        notes = {side: [note_text(row.notes[side]) for row in self.rows if side in row.notes] for side in "EH"}
        middle = [text_of(row.arrow) for row in self.rows if row.arrow] + [" " * 16]
        self.lengths = spool_lengths(self.items)
        self.most = max([length for _, length in self.lengths], default=0)
        has_spool = self.most or any(item.kind == "spool" for item in self.items)
        digits = len(str(self.most))
        self.moment_x = 12 + WIDE * max([len(str(row.moment)) for row in self.rows] + [2])
        self.note_x = {"E": self.moment_x + 16 + wide(notes["E"] + [""])}
        self.lane_x = self.note_x["E"] + 10 + WIDE * digits
        tool = self.lane_x + 4 + LANE + 5 if has_spool else self.note_x["E"] + 12
        self.x = {"E": tool, "H": tool + 2 * GUTTER + wide(middle) + 12}
        self.note_x["H"] = self.x["H"] + 12
        self.width = self.note_x["H"] + max(wide(notes["H"] + [""]), 30) + 12

    # The parts.

    def svg(self):
        """The file."""
        width, height = mark(self.width), mark(self.bottom + 8)
        out = [f'<svg xmlns="http://www.w3.org/2000/svg" width="{width}pt" height="{height}pt" '
               f'viewBox="0 0 {width} {height}" font-family="DejaVu Sans Mono, Menlo, Consolas, monospace" '
               f'font-size="{SIZE}" fill="{INK}">', '<title>A trace of a tool and its host</title>', '<defs>']
        for name, colour in {**SIDE, "C": PALE, "N": RED}.items():
            out.append(f'<marker id="{name}" viewBox="0 0 8 6" refX="8" refY="3" markerWidth="8" markerHeight="6" '
                       f'markerUnits="userSpaceOnUse" orient="auto"><path d="M0 0L8 3L0 6z" fill="{colour}"/></marker>')
        out += ['</defs>', f'<rect width="{width}" height="{height}" fill="#fff"/>']
        out += [*self.moments(), *self.bands(), *self.spool(), *self.ends(), *self.arrows(), *self.texts(), '</svg>']
        return "\n".join(out) + "\n"

    def moments(self):
        """A thin line above the first row of each moment."""
        before, ways = None, []
        for row in self.rows:
            if row.moment != before:
                ways.append(f"M12 {mark(row.y - PITCH)}H{mark(self.width - 12)}")
            before = row.moment
        return [f'<path d="{"".join(ways)}" stroke="#e3e7eb"/>']

    def is_slip(self, piece):
        """Whether it has come as a slip."""
        return piece.fate == "broken" and piece.end < len(self.items) and self.items[piece.end].kind == "slip"

    def place_y(self, piece):
        """How far down a piece ends."""
        at, here = piece.end, self.items[piece.end] if piece.end < len(self.items) else None
        if piece.fate == "lost":
            return (self.first[at] if here and here.kind in ("deed", "power") else piece.row).y + 5
        if here and here.moment == piece.moment:
            if here.kind == "clock" or here.side != piece.side and here.kind != "tx":
                return self.first[at].y - 3.5
            if self.items[at - 1].moment != piece.moment:
                return self.first[at].y - 8
        return self.last[at - 1].y + 9

    def way_of(self, piece, start):
        """The points of an arrow: across at its row, and then, beside the line that it leads to, down to its end."""
        sign = 1 if piece.side == "E" else -1
        begin, end = self.x[piece.side], self.x[OTHER[piece.side]]
        y, lean = start.y + 5, end - sign * GUTTER
        if piece.is_noise:
            begin = lean - sign * 24
        points = [(begin, y), (lean, y), *((end - sign * GUTTER / 2, self.first[at].y + 5) for at in piece.marks)]
        if piece.fate in ("taken", "broken"):
            down = y if self.is_straight(piece) and piece.fate == "taken" else max(self.place_y(piece), points[-1][1])
            near = 7 if piece.fate == "broken" and not self.is_slip(piece) else 1
            points.append((end - sign * near, down))
            if down == y:
                del points[1:-1]
        elif piece.fate == "lost" and self.place_y(piece) > points[-1][1]:
            points.append((end - sign * GUTTER / 2, self.place_y(piece)))
        return points

    def arrows(self):
        """The arrows, with crosses where they are lost or broken, and dots where they are changed."""
        out, crosses, marks = [], [], []
        for row in self.rows:
            deed = isinstance(row.arrow, Item)
            pieces = (row.arrow.pieces if deed else row.arrow) or []
            for piece in pieces[-1:]:
                points = self.way_of(piece, row)
                name = "N" if piece.is_noise else piece.side if piece.is_frame() else "C"
                head = f' marker-end="url(#{name})"' if piece.fate == "taken" else ""
                dots = "" if piece.fate else ' stroke-dasharray="1.5 3"'
                colour = {**SIDE, "C": PALE, "N": RED}[name]
                out.append(f'<path d="{path(points)}" stroke="{colour}" '
                           f'stroke-width="{1.5 if piece.is_frame() else 1}"{dots}{head}/>')
                if piece.fate in ("lost", "broken") and not self.is_slip(piece):
                    x, y = points[-1]
                    crosses.append(f"M{mark(x - 3.5)} {mark(y - 3.5)}l7 7m0 -7l-7 7")
                marks += [f'<circle cx="{mark(x)}" cy="{mark(y)}" r="2.6"/>' for x, y in points[2:2 + len(piece.marks)]]
        out = ['<g id="arrows" fill="none">', *out, '</g>', f'<g fill="{RED}">', *marks, '</g>']
        if crosses:
            out.append(f'<path d="{"".join(crosses)}" stroke="{RED}" stroke-width="1.8" fill="none"/>')
        return out

    def bands(self):
        """A pale band for each message that is received, from its line `sent` to that one; many are no darker."""
        sent, taken, ways = {}, {}, {"E": [], "H": []}
        for at, item in enumerate(self.items):
            for piece in item.pieces:
                if piece.is_frame() and piece.fate == "taken":
                    taken[piece.end] = piece
            if item.kind == "sent":
                sent[item.side, *item.line.words] = at
            elif item.kind == "rx":
                begin, side = at, OTHER[item.side]
                while begin not in taken and begin and self.items[begin - 1].side == item.side \
                        and self.items[begin - 1].kind != "tx":
                    begin -= 1
                piece, source = taken.get(begin), sent.get((side, *item.line.words))
                if piece and source is not None and piece.side == side:
                    across = self.way_of(piece, piece.row)
                    x = self.x[side] + (4 if side == "E" else -4)
                    top = (x, self.first[source].y - 3.5)
                    ways[side].append(path([top, (x, across[0][1]), *across[1:]]))
        out = []
        for side in ways:
            out.append(f'<g class="bands" stroke="{SIDE[side]}" stroke-width="5" stroke-linejoin="round" fill="none" '
                       'opacity="0.2">')
            out += [*(f'<path d="{way}"/>' for way in ways[side]), '</g>']
        return out

    def spool(self):
        """A bar beside the tool's line, as wide as the spool is long, on a pale ground where the spool is active."""
        right, bars, ground = self.x["E"] - 5, [], spool_actives(self.items)
        unit = min(8, LANE / max(self.most, 1))
        for (at, length), (until, _) in zip(self.lengths, self.lengths[1:] + [(None, 0)]):
            if length:
                bars.append((length * unit, at, until))
        out = []
        for name, colour, rects in (("ground", "#f7efdd", [(LANE, *one) for one in ground]), ("bar", "#d3a445", bars)):
            for wide, at, until in rects:
                top = self.first[at].y - 3.5
                low = self.bottom - 6 if until is None else self.first[until].y - 3.5
                out.append(f'<rect class="{name}" x="{mark(right - wide)}" y="{mark(top)}" width="{mark(wide)}" '
                           f'height="{mark(low - top)}" fill="{colour}"/>')
        return out

    def ends(self):
        """Both lines: none without power, broken without communication, and a dot for each note."""
        out, dots = [], []
        for side in "EH":
            x, colour = self.x[side], SIDE[side]
            since, talks, lives, ways = 46, False, True, {True: [], False: []}
            for at, item in enumerate(self.items):
                if item.side != side or not item.line or item.kind == "tx":
                    continue
                y = self.first[at].y - 3.5
                if item.kind in ("power", "start", "comms"):
                    if lives:
                        ways[talks].append(f"M{mark(x)} {mark(since)}V{mark(y)}")
                    since, lives = y, item.kind != "power"
                    talks = item.kind == "comms" and item.line.words == ["COMMUNICATING"]
                dots.append(self.dot(item, x, y))
            if lives:
                ways[talks].append(f"M{mark(x)} {mark(since)}V{mark(self.bottom - 6)}")
            for is_solid, dash in ((True, ""), (False, ' stroke-dasharray="3 3"')):
                if ways[is_solid]:
                    out.append(f'<path d="{"".join(ways[is_solid])}" stroke="{colour}" stroke-width="1.3"{dash}/>')
        return out + dots

    def dot(self, item, x, y):
        """The sign of a note on its line."""
        colour = COLOURS.get(item.kind, SIDE[item.side])
        if item.kind in ("power", "failed", "slip"):
            shape = "M{0} {1}l8 8m0 -8l-8 8" if item.kind != "power" else "M{2} {3}l-5 7h6l-3 7l9 -9h-5l3 -5z"
            x, y = mark(x - 4), mark(y - 4)
            style = f'fill="{RED}"' if item.kind == "power" else f'fill="none" stroke="{RED}" stroke-width="2"'
            return f'<path d="{shape.format(x, y, mark(float(x) + 4), mark(float(y) - 3))}" {style}/>'
        if item.kind in ("t3", "t4"):
            return f'<path d="M{mark(x)} {mark(y - 5)}l5 5l-5 5l-5 -5z" fill="{colour}"/>'
        if item.kind == "start":
            return f'<circle cx="{mark(x)}" cy="{mark(y)}" r="3.6" fill="#fff" stroke="{colour}" stroke-width="1.6"/>'
        return f'<circle cx="{mark(x)}" cy="{mark(y)}" r="2.2" fill="{colour}"/>'

    def texts(self):
        """All words, column by column."""
        tool, host, top = self.x["E"], self.x["H"], 34
        out = []
        for side, name in (("E", "tool"), ("H", "host")):
            x = self.x[side]
            out += [f'<rect x="{mark(x - 22)}" y="{top - 14}" width="44" height="20" rx="3" fill="{SIDE[side]}"/>',
                    f'<text x="{mark(x)}" y="{top}" text-anchor="middle" fill="#fff" font-weight="bold">{name}</text>']
        columns = {"end": [(self.moment_x, top, PALE, False, "ms")], "start": [], "middle": []}
        if tool - self.note_x["E"] > 12:
            columns["end"].append((tool - 28, top, SPOOL, False, "spool"))
        before = None
        for row in self.rows:
            if row.moment != before:
                columns["end"].append((self.moment_x, row.y, PALE, False, str(row.moment)))
            before = row.moment
            for side, anchor in (("E", "end"), ("H", "start")):
                if side in row.notes:
                    item = row.notes[side]
                    colour = COLOURS.get(item.kind, INK)
                    columns[anchor].append((self.note_x[side], row.y, colour, item.kind in BOLD, note_text(item)))
            if row.arrow:
                is_deed = isinstance(row.arrow, Item)
                is_frame = not is_deed and row.arrow[0].is_frame()
                colour = RED if is_deed else SIDE[row.arrow[0].side] if is_frame else PALE
                columns["middle"].append(((tool + host) / 2, row.y, colour, is_frame, text_of(row.arrow)))
        for at, length in self.lengths:
            columns["end"].append((self.lane_x, self.first[at].y, SPOOL, True, str(length)))
        if self.items and self.items[-1].kind == "end":
            columns["middle"].append(((tool + host) / 2, self.rows[-1].y, PALE, False, "end"))
        for anchor, texts in columns.items():
            out.append(f'<g text-anchor="{anchor}">')
            for x, y, colour, is_bold, text in texts:
                style = ("" if colour == INK else f' fill="{colour}"') + (' font-weight="bold"' if is_bold else "")
                out.append(f'<text x="{mark(x)}" y="{mark(y)}"{style}>{escape(text)}</text>')
            out.append('</g>')
        return out


def grouped(pieces):
    """What a step has written, as arrows: control characters with one fate are one."""
    groups = []
    for piece in pieces:
        last = groups[-1][-1] if groups else None
        if last and not (last.is_frame() or piece.is_frame() or last.marks or piece.marks) \
                and (last.end, last.moment, last.fate) == (piece.end, piece.moment, piece.fate):
            groups[-1].append(piece)
        else:
            groups.append([piece])
    return groups


def text_of(arrow):
    """The words on an arrow: what goes there, and whether it did before; or what the schedule does to it."""
    if isinstance(arrow, Item):
        return short(arrow.text)
    return short(" ".join(piece.name() + (" again" if piece.is_again else "") for piece in arrow))


def wide(texts):
    """How wide the widest of these is."""
    return WIDE * max(len(text) for text in texts)


def path(points):
    """A way along these points."""
    return "".join(f"{'L' if at else 'M'}{mark(x)} {mark(y)}" for at, (x, y) in enumerate(points))
