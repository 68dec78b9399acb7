"""Explains a fault as a page of HTML: what `explain` prints, and the entries around the place as a tree.

The page has all that it needs: it runs nothing and fetches nothing. Every text of the file is escaped.
"""
import collections
import html
import re
import time

from dwv_tools import causes, dwarf, explaining, finding, measured, names, reading
from dwv_tools.running import IS_SOUND, plain

# How many entries are shown before and after an entry on the way to the place, and right below the place.
AROUND = 20
STYLE = """
:root { color-scheme: light dark; --line: #8886; --mark: #ffd24d; --said: #8882 }
body { font: 15px/1.5 sans-serif; max-width: 76em; margin: 2em auto; padding: 0 1em }
h1 { font-size: 1.25em; overflow-wrap: anywhere } h2 { font-size: 1.05em; margin: 1.6em 0 .4em }
dl { display: grid; grid-template-columns: max-content auto; gap: .25em 1.2em }
dt { font-weight: bold } dd { margin: 0; overflow-wrap: anywhere }
pre, .tree { font-family: monospace; font-size: 13px } pre { background: var(--said); padding: .6em; overflow: auto }
.tree ol { list-style: none; margin: 0; padding-left: 1.4em; border-left: 1px solid var(--line) }
.tree li { margin: .1em 0 } .tree summary { cursor: pointer } table { border-spacing: 0; margin: 0 0 .3em 1.4em }
td { padding: 0 1em 0 0; vertical-align: top; white-space: nowrap }
td:last-child { white-space: normal; overflow-wrap: anywhere } .at { opacity: .65 }
mark, tr.here td { background: var(--mark); color: #000 } mark { padding: 0 .3em } .more { opacity: .65 }
"""
PAGE = """<!DOCTYPE html>
<html lang="en">
<head>
<meta charset="utf-8"/>
<meta http-equiv="Content-Security-Policy" content="default-src 'none'; style-src 'unsafe-inline'"/>
<meta name="viewport" content="width=device-width"/>
<title>{title}</title>
<style>{style}</style>
</head>
<body>
<h1>{title}</h1>
{body}
</body>
</html>
"""
HERE = "<mark>here</mark>"

# The entries right below one: some before and after an offset, how many more come first, whether one is there, whether
# more follow, and why no more can be read.
Around = collections.namedtuple("Around", "before left after is_there has_more trouble")
NONE = Around((), 0, (), True, False, None)


def quoted(text):
    """A text of the file or of a script, in one line."""
    return html.escape(plain(text))


def around(parent, at, limit):
    """The entries right below one, around an offset, as far as they are read up to a time."""
    before, left, after, is_there = collections.deque(maxlen=AROUND), 0, [], False
    try:
        for child in parent.unit.children(parent):
            is_there |= child.at == at
            if child.at < at:
                left += len(before) == AROUND
                before.append(child)
            elif child.at > at and len(after) == AROUND:
                return Around(before, left, after, is_there, True, None)
            elif child.at > at:
                after.append(child)
            if time.process_time() > limit:
                raise reading.Unreadable(f"the entries were not read within {dwarf.SECONDS} s")
    except reading.Unreadable as error:
        return Around(before, left, after, True, False, str(error))
    return Around(before, left, after, is_there, False, None)


class Tree:
    """The entries above the place of a fault, some beside each of them, and some below the place."""

    def __init__(self, place):
        self.place, limit = place, time.process_time() + dwarf.SECONDS
        way = [*(it.at for it in place.above), place.at]
        self.below = [around(it, at, limit) for it, at in zip(place.above, way[1:])]
        is_whole = place.entry and place.entry.end is not None
        # None if the item at the place can't be read, and so nothing that follows it.
        self.children = around(place.entry, 0, limit) if is_whole else None
        shown = [*place.above, *(it for level in self.below for it in (*level.before, *level.after))]
        shown += self.children.after if self.children else []
        self.shown = {it.at for it in shown} | {place.at}

    def value(self, entry, attribute, is_here):
        """The value of an attribute, with a link if it refers to an entry that is shown."""
        said = quoted(explaining.value_text(entry, attribute, not (is_here and self.place.rule == "R1")))
        found = re.match(r"0x([0-9a-f]{8})(?![0-9a-f])", said)
        if found and int(found[1], 16) in self.shown:
            said = f'<a href="#e{found[1]}">{found[0]}</a>{said[found.end():]}'
        return said

    def attributes(self, entry, is_place):
        yield "<table>"
        for it in entry.attributes[:finding.MOST]:
            is_here = is_place and it.code == self.place.attribute
            name, form = names.name("AT", it.code), names.name("FORM", it.form)
            cells = [name, form, self.value(entry, it, is_here) + (f" {HERE}" if is_here else "")]
            row = "".join(f"<td>{cell}</td>" for cell in cells)
            yield f'<tr class="here">{row}</tr>' if is_here else f"<tr>{row}</tr>"
        if is_place and self.place.attribute and not dwarf.find(entry, self.place.attribute):
            name, why = names.name("AT", self.place.attribute), quoted(self.place.trouble or "")
            yield f'<tr class="here"><td>{name}</td><td></td><td>{why} {HERE}</td></tr>'
        if len(entry.attributes) > finding.MOST:
            yield f'<tr><td class="more">and {len(entry.attributes) - finding.MOST} attributes more</td></tr>'
        yield "</table>"

    def entry(self, entry, is_open=False, is_place=False):
        """An entry, whose attributes are hidden or open."""
        mark = f" {HERE}" if is_place and not self.place.attribute else ""
        name = f'<span class="at">0x{entry.at:08x}</span> {quoted(explaining.described(entry))}{mark}'
        yield f'<li id="e{entry.at:08x}">'
        yield f'<details open=""><summary>{name}</summary>' if is_open else f"<details><summary>{name}</summary>"
        yield from self.attributes(entry, is_place)
        yield "</details>"

    def others(self, found):
        for entry in found:
            yield from self.entry(entry)
            yield "</li>"

    def level(self, k):
        """The entries of a level: the one on the way to the place with those below it, or the place, and others."""
        found = self.below[k - 1] if k else NONE
        yield "<ol>"
        if not found.is_there:
            found = NONE
            yield '<li class="more">deeper, below entries that are not shown</li>'
        if found.left:
            yield f'<li class="more">{found.left} more</li>'
        yield from self.others(found.before)
        if k < len(self.place.above):
            yield from self.entry(self.place.above[k], k + 1 == len(self.place.above))
            yield from self.level(k + 1)
        else:
            yield from self.fault()
        yield "</li>"
        yield from self.others(found.after)
        if found.has_more or found.trouble and self.children:
            yield f'<li class="more">{quoted(found.trouble or "and more")}</li>'
        yield "</ol>"

    def fault(self):
        """The item at the place, and entries below it."""
        place = self.place
        if place.entry is None:
            said = quoted(place.trouble or "a null")
            yield f'<li id="e{place.at:08x}"><span class="at">0x{place.at:08x}</span> {said} {HERE}'
            return
        yield from self.entry(place.entry, True, True)
        if self.children and self.children.after:
            yield "<ol>"
            yield from self.others(self.children.after)
            if self.children.has_more:
                yield '<li class="more">and more</li>'
            yield "</ol>"

    def lines(self):
        yield '<div class="tree">'
        yield from self.level(0)
        yield "</div>"


def listed(rows):
    """Titles with texts; a row without a text is left out."""
    cells = "".join(f"<dt>{title}</dt><dd>{quoted(text)}</dd>" for title, text in rows if text)
    return f"<dl>{cells}</dl>"


def part(title, lines):
    """A part of the page with lines of text, if there are any."""
    text = "\n".join(map(html.escape, lines))
    return f"<h2>{title}</h2>\n<pre>{text}</pre>" if text else ""


def body(place):
    """The parts of the page on a fault, in the order of what `explain` prints."""
    text, required = explaining.rules()[place.rule]
    cause = causes.cause(place)
    yield listed([("Rule", text), ("Required", required), ("Found", measured.found(place)),
                  ("Cause", f"{explaining.KINDS[cause.kind]} {cause.text}"), ("What to do", cause.remedy)])
    about, *unit = explaining.unit_lines(place) or [""]
    yield f"<h2>{about}</h2>\n{listed(it.split(None, 1) for it in unit)}" if about else ""
    if place.section == ".debug_info" and place.unit and place.rule not in finding.HEADER_RULES:
        yield "<h2>The entries around it</h2>"
        yield from Tree(place).lines()
    if place.section == "file":
        yield part("The section header", explaining.header_lines(place))
    if place.rule[0] in explaining.BYTE_RULES:
        yield part("The bytes", explaining.byte_lines(place))
    yield part("The cycle", explaining.cycle_lines(place))


def page(verdict, path, name):
    """The page on a file of this name, which has the verdict; what was prepared from it is at the path."""
    line = f"{verdict.lines[0]}{verdict.note}"
    if verdict.what == IS_SOUND:
        parts = [f"<p>{quoted(said)}</p>" for said in explaining.sound(verdict)[1:] if said]
    else:
        parts = body(finding.Place(verdict, path))
    return PAGE.format(title=quoted(f"{name}: {line}"), style=STYLE, body="\n".join(filter(None, parts)))
