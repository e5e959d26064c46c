#!/usr/bin/env python3
"""crates.py: writes crates.txt and docs/crates.svg from the tables of docs/ARCHITECTURE.md.

The table of families gives the floors, the lowest first, and what each family is for. The table under a
heading `### NAME` gives the crates of that family: crate, what it holds, what to open first, and what it
leans on (the direct ones only); a static library has the word staticlib after its name. A crate must name
every crate whose types its values reach, so a line of crates.txt names all that stands below. Where the
tables and the folder crates/ disagree, nothing is written.
"""
import itertools
import math
import os
import re
import sys

PAGE = 'docs/ARCHITECTURE.md'
FAMILIES = '| Floor | Family | What it is for |'
CRATES = '| Crate | Holds | Open first | Leans on |'


# ---- the tables

def rows_after(text, header):
    """The rows of the first table with this header, each a list of cells."""
    lines = text[text.index(header):].split('\n')[2:]
    rows = itertools.takewhile(lambda line: line.startswith('|'), lines)
    return [[cell.strip() for cell in row.strip().strip('|').split('|')] for row in rows]


class Crate:
    def __init__(self, family, name, first, leans):
        self.family, self.first = family, first.split(', ')
        self.name, *self.kind = name.split()
        self.leans = [] if leans == '-' else leans.split(', ')


class Tables:
    def __init__(self, text):
        families = rows_after(text, FAMILIES)
        self.floor = {family: floor for floor, family, _ in families}
        self.purpose = {family: purpose for _, family, purpose in families}
        self.rows = []
        for part in re.split(r'^### ', text, flags=re.M)[1:]:
            if CRATES in part:
                family = part.split('\n')[0].strip()
                self.rows += [Crate(family, name, first, leans) for name, _, first, leans in rows_after(part, CRATES)]
        self.family = {crate.name: crate.family for crate in self.rows}
        self.kind = {crate.name: crate.kind for crate in self.rows}

    def faults(self):
        """Where the tables and the folder disagree."""
        there = {name for name in os.listdir('crates') if os.path.isdir('crates/' + name)}
        listed = [crate.name for crate in self.rows]
        yield from (f'crates/{name} has no row' for name in sorted(there.difference(listed)))
        yield from (f'{name} has a row, and there is no crates/{name}' for name in sorted(set(listed) - there))
        yield from (f'{name} stands in {listed.count(name)} rows' for name in sorted(there) if listed.count(name) > 1)
        yield from (f'the family {family} has no table' for family in self.floor if family not in self.family.values())
        for crate in self.rows:
            if crate.family not in self.floor:
                yield f'{crate.name} stands under {crate.family}, which the table of families does not have'
            if crate.name != crate.family and not crate.name.startswith(crate.family + '_'):
                yield f'{crate.name} stands under {crate.family}, and is not named after it'
            for lower in crate.leans:
                if lower not in listed:
                    yield f'{crate.name} leans on {lower}, which is no crate'
            for file in crate.first:
                if not os.path.isfile(f'crates/{crate.name}/{file}'):
                    yield f'{crate.name} opens with {file}, and there is no crates/{crate.name}/{file}'

    def settle(self):
        """Finds all that stands below each crate, and an order of the crates: family by family, each after those of
        its family that it leans on. Gives what is at fault."""
        self.below = {}
        while len(self.below) < len(self.rows):
            waiting = [crate for crate in self.rows if crate.name not in self.below]
            ready = [crate for crate in waiting if self.below.keys() >= set(crate.leans)]
            if not ready:
                return ['in a circle, or above one: ' + ', '.join(crate.name for crate in waiting)]
            for crate in ready:
                self.below[crate.name] = set(crate.leans).union(*(self.below[lower] for lower in crate.leans))
        self.order = []
        for family in self.floor:
            waiting = [crate.name for crate in self.rows if crate.family == family]
            while waiting:
                self.order.append(next(name for name in waiting if not self.below[name].intersection(waiting)))
                waiting.remove(self.order[-1])
        return [f'{crate.name} leans on {lower}, which stands below {other} already'
                for crate in self.rows for lower in crate.leans for other in crate.leans if lower in self.below[other]]

    def members(self, family):
        return [name for name in self.order if self.family[name] == family]

    def listing(self):
        """crates.txt."""
        yield f'# Written by tools/crates.py from the tables of {PAGE}. NAME: all that stands below it.'
        for family in self.floor:
            yield f'\n# -- {family}: {self.purpose[family]}'
            for name in self.members(family):
                below = [lower for lower in self.order if lower in self.below[name]]
                yield ' '.join([f"{' '.join([name, *self.kind[name]])}:", *below])


# ---- the drawing: families as boxes on floors

SMALL, LARGE = 10, 13    # sizes of type
LETTER = 0.602 * SMALL   # the width of a letter of the small type
LINE = 13                # from line to line of a box
LABEL = 84               # the place of the floors' names
ASIDE, DOWN = 28, 42     # from box to box, from row to row
EDGE = 12                # from a floor's frame to its boxes
HEAD = 8                 # the length of an arrow's head
INK, LIGHT = '#444444', '#555555'
TINTS = ['#f3f3f3', '#e9f1fa', '#eaf5ea', '#fcf1df', '#f2ebf8', '#fbebeb']


class Box:
    """A family; or, without a name, the place at which an arrow passes a row."""

    def __init__(self, row, name='', title='', parts=()):
        self.row, self.name, self.title = row, name, title
        columns = math.ceil(len(parts) / 4)
        lines = math.ceil(len(parts) / columns) if parts else 0
        self.columns = [parts[i * lines:(i + 1) * lines] for i in range(columns)]
        self.height = 26 + LINE * lines + (3 if parts else 0) if name else 0
        text = sum(max(map(len, column)) * LETTER + 12 for column in self.columns)
        self.width = 2 * round(max(text, 0.66 * LARGE * len(title) + 12) / 2 + 6) if name else 6
        self.out, self.into = [], []   # arrows that leave below, arrows that come from above


class Arrow:
    """Down from a family, past rows, to another or to a floor's frame. One that leans back points up."""

    def __init__(self, path, floor=None, back=False):
        self.path, self.floor, self.back = path, floor, back
        path[0].out.append(self)
        if not floor:
            path[-1].into.append(self)


class Drawing:
    def __init__(self, tables):
        self.tables, self.floors = tables, list(dict.fromkeys(tables.floor.values()))
        self.lean()
        self.stand()
        self.draw_arrows()
        self.arrange()
        self.place_across()
        self.place_down()

    def lean(self):
        """What each family leans on. Where two lean on each other, the one whose bare crate stands lower leans back:
        that is kept apart, with the crates that do."""
        t = self.tables
        under = {name: {t.family[lower] for lower in t.below[name]} for name in t.order}
        whole = {family: set().union(*(under[name] for name in t.members(family))) for family in t.floor}
        self.back = {(lower, upper): [name for name in t.members(lower) if upper in under[name]]
                     for lower in whole for upper in whole
                     if upper in whole[lower] and lower in whole[upper] and lower in t.below.get(upper, ())}
        apart = set().union(*self.back.values())
        self.leans = {family: set().union(*(under[name] for name in t.members(family) if name not in apart)) - {family}
                      for family in t.floor}

    def on(self, floor):
        return [family for family in self.tables.floor if self.tables.floor[family] == floor]

    def stand(self):
        """Rows, the highest first: a family stands above those of its floor that it leans on."""
        self.rows, self.boxes, self.rows_of = [], {}, {floor: [] for floor in self.floors}
        for floor in reversed(self.floors):
            here, levels = self.on(floor), []
            while here:
                levels.append([family for family in here if not self.leans[family].intersection(here)])
                here = [family for family in here if family not in levels[-1]]
            for level in reversed(levels):
                for name in level:
                    title = name if name in self.tables.family else name + '_*'
                    parts = [crate for crate in self.tables.members(name) if crate != name]
                    self.boxes[name] = Box(len(self.rows), name, title, parts)
                self.rows_of[floor].append(len(self.rows))
                self.rows.append([self.boxes[name] for name in level])

    def path(self, box, end):
        """From a box down to a row, by a place in each row between."""
        places = [Box(row) for row in range(box.row + 1, end)]
        for place in places:
            self.rows[place.row].append(place)
        return [box] + places

    def draw_arrows(self):
        """An arrow to each family that one leans on, but for those that follow from others. In the place of more than
        two to a floor, if the family leans on all that stands there, one to the floor's frame."""
        self.arrows = []
        for name, leans in self.leans.items():
            box = self.boxes[name]
            direct = [lower for lower in self.leans if lower in leans and not any(lower in self.leans[other] for other in leans)]
            for floor in self.floors:
                there = set(self.on(floor))
                if len(there.intersection(direct)) > 2 and leans >= there:
                    direct = [lower for lower in direct if lower not in there]
                    self.arrows.append(Arrow(self.path(box, self.rows_of[floor][0]), floor=floor))
            for lower in direct:
                self.arrows.append(Arrow(self.path(box, self.boxes[lower].row) + [self.boxes[lower]]))
        for lower, upper in self.back:
            self.arrows.append(Arrow(self.path(self.boxes[upper], self.boxes[lower].row) + [self.boxes[lower]], back=True))

    def steps(self):
        return [step for arrow in self.arrows for step in zip(arrow.path, arrow.path[1:])]

    def arrange(self):
        """The order in each row that lets the fewest arrows cross: row after row, from some first orders."""
        steps = self.steps()

        def crossings(*rows):
            place = {box: i for row in self.rows for i, box in enumerate(row)}
            near = [(a.row, place[a], place[b]) for a, b in steps if not rows or a.row in rows or b.row in rows]
            return sum(p == q and (a - c) * (b - d) < 0 for (p, a, b), (q, c, d) in itertools.combinations(near, 2))

        def with_row(number, row):
            self.rows[number] = list(row)
            return crossings(number)

        first, found = self.rows, []
        for turned in itertools.islice(itertools.product((1, -1), repeat=len(first)), 64):
            self.rows = [row[::turn] for row, turn in zip(first, turned)]
            for number in [*range(len(first)), *reversed(range(len(first)))]:
                orders = itertools.permutations(self.rows[number])
                self.rows[number] = list(min(orders, key=lambda row: with_row(number, row)))
            found.append((crossings(), self.rows))
            if found[-1][0] == 0:
                break
        self.rows = min(found, key=lambda one: one[0])[1]

    def place_across(self):
        """Each box as near as may be to those that it is joined to, in its row's order."""
        near = {box: [] for row in self.rows for box in row}
        for a, b in self.steps():
            near[a].append(b)
            near[b].append(a)
        for arrow in self.arrows:
            near[arrow.path[-1]] += [self.boxes[name] for name in self.on(arrow.floor)]
        for row in self.rows:
            self.spread(row, [0] * len(row))
        for turn in range(80):
            for row in self.rows if turn % 2 else reversed(self.rows):
                self.spread(row, [sum(other.x for other in near[box] or [box]) / len(near[box] or [box]) for box in row])
        left = min(box.x - box.width / 2 for box in near)
        for box in near:
            box.x = round(box.x - left) + LABEL + EDGE
        self.width = max(box.x + box.width // 2 for box in near) + EDGE + 8

    @staticmethod
    def spread(row, wanted):
        """The places nearest to those wanted that keep the order and the distances of a row."""
        offsets = list(itertools.accumulate([0] + [(a.width + b.width) / 2 + ASIDE for a, b in zip(row, row[1:])]))
        runs = []   # boxes that stand side by side: the place of the run, and how many they are
        for want, offset in zip(wanted, offsets):
            runs.append((want - offset, 1))
            while len(runs) > 1 and runs[-2][0] > runs[-1][0]:
                (a, m), (b, n) = runs[-2:]
                runs[-2:] = [((a * m + b * n) / (m + n), m + n)]
        for box, place, offset in zip(row, [place for place, count in runs for _ in range(count)], offsets):
            box.x = place + offset

    def place_down(self):
        self.frames, self.bands, y = {}, {}, 8
        for floor in reversed(self.floors):
            self.frames[floor] = [y]
            y += EDGE
            for number in self.rows_of[floor]:
                height = max(box.height for box in self.rows[number])
                self.bands[number] = (y - HEAD, y + height + HEAD)
                for box in self.rows[number]:
                    box.y = y + (height - box.height) // 2
                y += height + DOWN
            y += EDGE - DOWN
            self.frames[floor].append(y)
            y += 18
        self.height = y

    # ---- its text

    def end_at(self, box, arrow, side):
        """Where an arrow meets a box: those of one side stand in the order of where they go."""
        if not box.name:
            return box.x
        goes = {each: each.path[1 if side is box.out else -2].x if len(each.path) > 1 else box.x for each in side}
        order = sorted(side, key=goes.get)
        apart = min(22, (box.width - 20) / max(1, len(order) - 1))
        return round(box.x + (order.index(arrow) - (len(order) - 1) / 2) * apart)

    def arrow_lines(self, arrow):
        """Straight beside the boxes of a row, bent between the rows."""
        first, last = arrow.path[0], arrow.path[-1]
        x = self.end_at(first, arrow, first.out)
        points = [(x, first.y + first.height), (x, self.bands[first.row][1])]
        for box in arrow.path[1:]:
            x = self.end_at(box, arrow, box.into)
            points += [(x, self.bands[box.row][0]), (x, self.bands[box.row][1])]
        points[-1] = (x, self.frames[arrow.floor][0] if arrow.floor else last.y)
        tip, turn = (points[0], 1) if arrow.back else (points[-1], -1)
        points[0 if arrow.back else -1] = (tip[0], tip[1] + HEAD * turn)
        line = f'M{points[0][0]} {points[0][1]}'
        for (a, b), (c, d) in zip(points, points[1:]):
            line += f'V{d}' if a == c else f'C{a} {(b + d) / 2:g} {c} {(b + d) / 2:g} {c} {d}'
        dashed = ' stroke-dasharray="4 3"' if arrow.back else ''
        yield f'<path d="{line}" fill="none" stroke="{LIGHT}"{dashed}/>'
        yield f'<path d="M{tip[0]} {tip[1]}l-4 {HEAD * turn}h8z" fill="{LIGHT}"/>'

    def box_lines(self, box):
        left = box.x - box.width // 2
        yield (f'<rect x="{left}" y="{box.y}" width="{box.width}" height="{box.height}" rx="4" '
               f'fill="#ffffff" stroke="{INK}"/>')
        yield (f'<text x="{box.x}" y="{box.y + 17}" text-anchor="middle" font-size="{LARGE}" '
               f'font-weight="bold">{box.title}</text>')
        at = left + 12
        for column in box.columns:
            for line, name in enumerate(column):
                y = box.y + 34 + LINE * line
                yield f'<text x="{at}" y="{y}" font-family="monospace" font-size="{SMALL}">{name}</text>'
            at += round(max(map(len, column)) * LETTER + 12)

    def notes(self):
        without = ' and '.join(box.title for box in self.boxes.values() if box.title != box.name)
        yield 'Bold: a family, and its crate of that name' + (f'; {without} have none.' if without else '.')
        yield 'An arrow goes to what a family leans on; arrows that follow from others are left out.'
        yield 'An arrow that ends at a frame stands for one to each family in it.'
        for (lower, upper), crates in self.back.items():
            yield f'Dashed: of the family {lower} only {" and ".join(crates)} leans on {upper}.'

    def lines(self):
        """docs/crates.svg."""
        notes = list(self.notes())
        width, height = self.width, self.height + 16 * len(notes)
        yield (f'<svg xmlns="http://www.w3.org/2000/svg" viewBox="0 0 {width} {height}" width="{width}" '
               f'height="{height}" font-family="sans-serif" font-size="12">')
        yield f'<rect width="{width}" height="{height}" fill="#ffffff"/>'
        for floor, tint in zip(self.floors, itertools.cycle(TINTS)):
            top, bottom = self.frames[floor]
            yield f'<rect x="8" y="{top}" width="{width - 16}" height="{bottom - top}" rx="6" fill="{tint}"/>'
            yield f'<text x="20" y="{(top + bottom) // 2 + 4}" fill="{INK}" font-size="{LARGE}">{floor}</text>'
        for arrow in self.arrows:
            yield from self.arrow_lines(arrow)
        for box in self.boxes.values():
            yield from self.box_lines(box)
        for number, note in enumerate(notes):
            yield f'<text x="12" y="{self.height + 8 + 16 * number}" fill="{INK}" font-size="11">{note}</text>'
        yield '</svg>'


def main():
    os.chdir(os.path.join(os.path.dirname(os.path.abspath(__file__)), '..'))
    tables = Tables(open(PAGE).read())
    faults = list(tables.faults()) or tables.settle()
    if faults:
        sys.exit('\n'.join(f'{PAGE}: {fault}' for fault in faults))
    drawing = Drawing(tables)
    for file, lines in ('crates.txt', tables.listing()), ('docs/crates.svg', drawing.lines()):
        open(file, 'w').write('\n'.join(lines) + '\n')


main()
