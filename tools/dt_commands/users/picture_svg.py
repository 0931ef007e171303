"""The picture of a run as SVG: threads as rows, instructions as time.

What a thread does is drawn slice by slice, or, for a run with more turns than TURNS, column by column, each of some phases. A page can be
zoomed: marks that have no place without it are hidden there, and left out of an SVG that stands alone.
"""
from dt_commands import picture_columns, picture_legend
from dt_commands.picture_marks import COLOURS, FONT, PAGES, READY, Places, count, element, shade, step, title, width_of, words, zoom_for

TURNS = 2000
# How wide a picture is if it isn't told, and how much of it is beside the plot.
WIDTH, LEFT, RIGHT = 1200, 112, 180
# What is seen of the plot beyond its ends.
MARGIN = 10
# The rows of so many threads at most: from one to the next, and how high a slice is.
ROWS = ((6, 48, 24), (12, 34, 19), (24, 24, 14), (60, 14, 9), (256, 9, 6))
HEAD, AXIS, STRIP, BELOW = 112, 26, 17, 30
# How many marks the scale has at most, and of how many flows on the arrows are faint.
TICKS, FAINT = 12, 60

STYLE = f"""text{{font:11px {FONT};fill:#1f2937}}.t{{font-size:20px;font-weight:600}}.n{{font-size:21px;font-weight:600}}
.s{{fill:#5b6472}}.r{{text-anchor:end}}.m{{text-anchor:middle}}.k{{font-size:9.5px;fill:#374151}}.w{{fill:#fff}}.b{{font-weight:600}}
.h{{paint-order:stroke;stroke:#fff;stroke-width:3px}}line,path,rect{{vector-effect:non-scaling-stroke}}"""


def hatches():
    """Returns the patterns of waits: their lines go other ways, for readers without colours."""
    found = ""
    for name, ground, angle, size, width in (("token", "#fff6e0", 45, 5, 2.2), ("phase", "#fff", -45, 6, 1.2), ("wait", "#f4f5f7", 45, 7, 1.4)):
        inside = element("rect", width=size, height=size, fill=ground) + element("rect", width=width, height=size, fill=COLOURS[name])
        how = {"patternUnits": "userSpaceOnUse", "patternTransform": f"rotate({angle})", "data_turned": f"rotate({angle})"}
        found += element("pattern", inside, id=name, width=size, height=size, **how)
    return element("defs", found)


class Picture:
    """A picture of a run; `zooms` says whether what has no place yet is drawn hidden."""

    def __init__(self, run, name, report=None, races=(), zooms=False, has_head=True, width=WIDTH):
        self.run, self.name, self.pages, self.races, self.zooms = run, name, report, races, zooms
        self.width, self.across = width, width - LEFT - RIGHT
        self.has_head, self.is_detailed = has_head, len(run.turns) <= TURNS
        self.row = {it.number: at for at, it in enumerate(run.threads)}
        self.pitch, self.bar = next((pitch, bar) for most, pitch, bar in ROWS if len(run.threads) <= most)
        self.top = (HEAD if has_head else 4) + AXIS
        self.rows_end = self.top + self.pitch * len(run.threads)
        self.axis = self.rows_end + 2 * STRIP + 12
        self.scale = self.across / max(1, run.end - run.start)

    def x(self, time):
        """Returns where a time is in the plot."""
        return (time - self.run.start) * self.scale

    def y(self, thread):
        """Returns the upper edge of a thread's slices."""
        return self.top + self.pitch * self.row[thread] + (self.pitch - self.bar) / 2 + min(4, self.pitch / 10)

    def upright(self, x, inside, zoom):
        """Returns a mark at a place of the plot that keeps its width when a page is zoomed, from that zoom on."""
        if zoom is None or zoom > 1 and not self.zooms:
            return ""
        if not self.zooms:
            return element("g", inside, transform=f"translate({x:.2f})")
        return element("g", element("g", inside, class_="u"), transform=f"translate({x:.2f})", **hidden(zoom))

    def drawn(self):
        """Returns the picture's text."""
        legend, height = picture_legend.drawn(self, self.axis + BELOW)
        parts = [self.head() if self.has_head else "", self.labels(), self.plot(), self.ticks(), legend]
        inside = element("style", STYLE) + hatches() + element("rect", width=self.width, height=height, fill="#fff", rx=6) + "\n" + "\n".join(parts)
        names = {"xmlns": "http://www.w3.org/2000/svg", "role": "img", "aria_label": f"timeline of {self.name}"}
        return element("svg", inside, viewBox=f"0 0 {self.width} {height}", width=self.width, height=height, **names) + "\n"

    def head(self):
        """Returns the name, and the numbers of the run."""
        run = self.run
        how = "a column is some phases" if not self.is_detailed else "a processor for each thread"
        drawn = words(self.name, 20, 34, "t") + words(run.said(), 36 + width_of(self.name, 22), 34, "s")
        drawn += words(f"time in instructions, {how}", self.width - 20, 34, "s r")
        for at, (number, caption) in enumerate(run.numbers()):
            x = 20 + (self.width - 40) / 4 * at
            drawn += element("rect", x=x, y=52, width=2, height=44, fill="#0b5fa5")
            drawn += words(number, x + 12, 73, "n") + words(caption, x + 12, 91, "s")
        return drawn

    def labels(self):
        """Returns the names of threads and strips, and each thread's numbers."""
        right = LEFT + self.across
        drawn = words("phase", LEFT - 12, self.top - 9, "s r")
        drawn += words("executes", right + 84, self.top - 9, "s r") + words("token wait", right + 166, self.top - 9, "s r")
        each = max(1, -(-13 // self.pitch))
        for at, it in enumerate(self.run.threads):
            if at % each == 0:
                y = self.y(it.number) + self.bar / 2 + 4
                drawn += words(f"thread {it.number}", LEFT - 12, y, "r b") + words(f"{it.instructions:,}", right + 84, y, "r")
                drawn += words(f"{it.token:,}", right + 166, y, "r" if it.token else "r s")
        for at, text in enumerate(("threads ready", "pages changed")):
            drawn += words(text, LEFT - 12, self.rows_end + 5 + STRIP * at + 11, "s r")
        return drawn

    def plot(self):
        """Returns what is drawn at times, in a frame of its own."""
        inside = self.lanes()
        if self.is_detailed:
            inside += self.phases() + self.slices() + self.strips() + self.marks() + self.flows()
        else:
            inside += picture_columns.drawn(self)
        inside += self.race_marks()
        height = self.axis
        width = self.across + 2 * MARGIN
        frame = {"viewBox": f"{-MARGIN} 0 {width} {height}", "preserveAspectRatio": "none", "class_": "plot"}
        return element("svg", "\n" + inside, x=LEFT - MARGIN, y=0, width=width, height=height, **frame)

    def lanes(self):
        """Returns the ground of each row, from the thread's first moment to its last."""
        starts, ends = {}, {}
        for thread, start, end in self.run.slices.values("thread", "start", "end"):
            # (the slices of a thread come in the order of time)
            starts.setdefault(thread, start)
            ends[thread] = end
        return "".join(
            element("rect", x=self.x(start), y=self.y(it), width=(ends[it] - start) * self.scale, height=self.bar, fill="#f4f5f7")
            for it, start in starts.items()
        ) + "\n"

    def phases(self):
        """Returns the lines at which phases begin, and their numbers."""
        lines, numbers, drawn = Places(), Places(), ""
        wide = width_of(self.run.phases[-1].number, 11) + 8
        # (if next to no phase has room for its number, some that are far from each other have theirs)
        fit = [it for it in self.run.phases if (it.end - it.start) * self.scale >= wide]
        for it in self.run.phases:
            x, width = self.x(it.start), (it.end - it.start) * self.scale
            line = element("line", y1=self.top - 20, y2=self.axis, stroke="#d3d8df", stroke_width=1)
            drawn += self.upright(x, line, lines.zoom(0, x, 8))
            least = 1 if len(fit) <= 3 and x + wide < self.across else zoom_for(wide, width)
            if least is not None:
                place = numbers.zoom(0, x, wide if len(fit) > 3 else wide + 24, least)
                drawn += self.upright(x, words(it.number, 4, self.top - 9, "s"), place)
        return drawn + element("line", x1=self.across, x2=self.across, y1=self.top - 20, y2=self.axis, stroke="#d3d8df") + "\n"

    def slices(self):
        """Returns what the threads do, slice by slice."""
        return "\n".join(self.slice(it) for it in self.run.slices if it.end > it.start) + "\n"

    def slice(self, it):
        x, y, width = self.x(it.start), self.y(it.thread), (it.end - it.start) * self.scale
        is_run = it.kind in ("segment", "keeper")
        fill = COLOURS[it.kind] if is_run else f"url(#{it.kind})"
        edge = {"stroke": "#fff", "stroke_width": 0.8} if is_run and width > 3 else {}
        drawn = element("rect", title(*self.told(it)), x=x, y=y, width=width, height=self.bar, fill=fill, **self.turn_of(it.turn), **edge)
        if is_run and it.turn in self.run.critical:
            drawn += element("rect", x=x, y=y + self.bar - 1, width=width, height=3, fill=COLOURS["critical"])
        text = self.run.turn(it.turn).name if is_run else it.name
        needed = width_of(text, 11) + 10
        if self.bar >= 13:
            kind = "w" if it.kind == "keeper" else None if is_run else "h"
            drawn += self.upright(x, words(text, 5, y + self.bar / 2 + 4, kind, pointer_events="none"), zoom_for(needed, width))
        return drawn

    def turn_of(self, number):
        """Returns the attribute by which a page knows a turn."""
        return {"data_turn": number} if self.zooms else {}

    def told(self, it):
        """Returns what is said of a slice, in lines."""
        turn, length = self.run.turn(it.turn), count(it.end - it.start, "instruction")
        if it.kind in ("segment", "keeper"):
            keeps = ", keeping the token" if it.kind == "keeper" else ""
            changed = f"changed {count(turn.changed, 'byte')} in {count(turn.pages, 'page')}" if turn.changed else "changed nothing"
            on_path = ["on the critical path"] if it.turn in self.run.critical else []
            head = [f"turn {it.turn}: thread {it.thread}, phase {turn.phase}", f"{length} from {it.start:,} on{keeps}"]
            return [*head, turn.text, changed, *on_path, *(self.run.told.of_turn(it.turn) if self.run.told else [])]
        why = {"token": "waits for the token", "phase": "waits for the phase's other turns"}.get(it.kind, f"waits: {it.name}")
        where = f"before turn {it.turn}" if it.kind == "token" else f"after turn {it.turn}"
        place = self.run.told.of_wait(it.turn) if self.run.told and it.kind == "wait" else ""
        return [f"thread {it.thread} {why}, {where}", f"{length} from {it.start:,} on", *([place] if place else [])]

    def marks(self):
        """Returns a mark at each turn, and its number."""
        lines, numbers, drawn = Places(), Places(), ""
        for it in self.run.turns:
            x, y = self.x(it.time), self.y(it.thread)
            told = title(f"turn {it.number}: thread {it.thread} at {it.time:,}", it.text)
            line = element("line", told, y1=y - 3, y2=y + self.bar + 2, stroke="#111827", stroke_width=1.4, **self.turn_of(it.number))
            drawn += self.upright(x, line, lines.zoom(it.thread, x, 12 if len(self.run.turns) > 100 else 3))
            if self.pitch >= 34:
                number = words(it.number, -3, y - 5, "k r", pointer_events="none")
                drawn += self.upright(x, number, numbers.zoom(it.thread, x, width_of(it.number, 9.5) + 5))
        return drawn + "\n"

    def flows(self):
        """Returns an arrow for each flow, from the turn to what it led to."""
        places, drawn = Places(), ""
        for it in sorted(self.run.flows, key=lambda it: it.end):
            if it.thread not in self.row or it.to_thread not in self.row:
                continue
            zoom = places.zoom((it.thread, it.to_thread), self.x(it.end), 8)
            if zoom is not None and (zoom == 1 or self.zooms):
                drawn += element("g", self.arrow(it), **hidden(zoom))
        return drawn + "\n"

    def arrow(self, it):
        is_down = self.row[it.to_thread] > self.row[it.thread]
        start, end = self.x(it.start), self.x(it.end)
        above, below = self.y(it.thread) + (self.bar + 1 if is_down else -1), self.y(it.to_thread) + (-2 if is_down else self.bar + 2)
        middle, tip = (above + below) / 2, -6 if is_down else 6
        path = f"M{start:.2f} {above:.2f}C{start:.2f} {middle:.2f} {end:.2f} {middle:.2f} {end:.2f} {below + tip:.2f}"
        told = title(f"{it.name}: thread {it.thread} leads to turn {it.turn} of thread {it.to_thread}")
        head = element("path", d=f"M0 {below:.2f}l-3.6 {tip - 1}h7.2z", fill=COLOURS["flow"])
        # (many arrows are faint, so that they don't cover what is below them)
        weight, opacity = (1.4, 0.85) if len(self.run.flows) <= FAINT else (1, 0.4)
        drawn = element("path", told, d=path, fill="none", stroke=COLOURS["flow"], stroke_width=weight, stroke_opacity=opacity)
        return drawn + self.upright(end, head, 1)

    def strips(self):
        """Returns for each phase how many threads were ready and how many pages changed, as shades."""
        return self.strip_of([(it.start, it.end, f"phase {it.number}", it.threads, it.pages) for it in self.run.phases])

    def strip_of(self, columns):
        """Returns the strips of columns: of each its start and its end, its name, and both numbers."""
        drawn, most = "", [max([it[3 + at] for it in columns] + [1]) for at in (0, 1)]
        for start, end, name, *numbers in columns:
            for at, (number, colours, what) in enumerate(zip(numbers, (READY, PAGES), ("threads were ready", "pages were changed"))):
                x, width, y = self.x(start), (end - start) * self.scale, self.rows_end + 5 + STRIP * at
                colour = shade(colours, number, most[at])
                drawn += element("rect", title(f"{name}: {number:,} {what}"), x=x, y=y, width=width, height=STRIP - 3, fill=colour)
                ink = "m w" if colour in colours[3:] else "m"
                text = words(f"{number:,}", 0, y + 11, ink, pointer_events="none")
                drawn += self.upright(x + width / 2, text, zoom_for(width_of(f"{number:,}", 11) + 6, width)) if number else ""
        return drawn + "\n"

    def race_marks(self):
        """Returns two diamonds for each race, at its turns, with a dotted line between them."""
        places, drawn = Places(), ""
        for race in sorted(self.races, key=lambda it: it.turns):
            both = [self.run.turn(it) for it in race.turns]
            if not all(it and it.thread in self.row for it in both):
                continue
            ends = []
            for it in both:
                ends.append((self.x(it.begin) + it.ran * self.scale * 0.72, self.y(it.thread) + self.bar / 2))
            zoom = places.zoom(0, ends[0][0], 3)
            if zoom is None or zoom > 1 and not self.zooms:
                continue
            (x, y), (to_x, to_y) = ends
            line = {"stroke": COLOURS["race"], "stroke_width": 1.8, "stroke_dasharray": "2 3", "fill": "none"}
            inside = element("path", d=f"M{x:.2f} {y:.2f}L{to_x:.2f} {to_y:.2f}", **line)
            told = title(f"race of turns {race.turns[0]} and {race.turns[1]}{f', {race.count} lines' if race.count > 1 else ''}", race.line)
            size = max(3, min(6.5, self.bar / 2 - 2))
            for x, y in ends:
                shape = f"M0 {y - size:.2f}l{size} {size}l{-size} {size}l{-size} {-size}z"
                inside += self.upright(x, element("path", told, d=shape, fill=COLOURS["race"], stroke="#fff", stroke_width=1.2), 1)
            drawn += element("g", inside, **hidden(zoom))
        return drawn

    def ticks(self):
        """Returns the scale of instructions."""
        run, drawn = self.run, element("line", x1=LEFT, x2=LEFT + self.across, y1=self.axis, y2=self.axis, stroke="#6b7280")
        every = step(run.end - run.start, TICKS)
        for time in range(-(-run.start // every) * every, run.end + 1, every):
            x = LEFT + self.x(time)
            drawn += element("line", x1=x, x2=x, y1=self.axis, y2=self.axis + 4, stroke="#6b7280")
            drawn += words(f"{time:,}", x, self.axis + 16, "m s")
        return element("g", drawn, class_="ticks", data_y=self.axis) + words("instructions", LEFT + self.across + 12, self.axis + 4, "s")


def hidden(zoom):
    """Returns the attributes of a mark that is shown from this zoom on."""
    return {"data_zoom": zoom, "visibility": "hidden"} if zoom > 1 else {}
