"""The page of what runs reached: one HTML file without a network."""

import html
import os
from pathlib import Path
from string import Template
from typing import Dict, Iterator, Optional
from urllib.parse import quote

from .cover_bins import CORNERS
from .cover_report import Count, First, Row, Shown, percent, why_none

FORM = Path(__file__).with_name("cover.html")
FEW = 3  # a bin that was reached less often is marked


class Page:
    """The page, and where its links lead to."""

    def __init__(self, shown: Shown, path: Path):
        self.shown, self.folder = shown, path.resolve().parent
        self.links: Dict[str, Optional[str]] = {}

    def link(self, run: str) -> Optional[str]:
        """Where a run is shown: the page beside it that zuldegei-explain drew, or else its lines, if they are there."""
        if run not in self.links:
            shown = next(filter(os.path.isfile, (f"{os.path.splitext(run)[0]}.html", run)), None)
            self.links[run] = os.path.relpath(os.path.realpath(shown), self.folder) if shown else None
        return self.links[run]

    def place(self, first: Optional[First]) -> str:
        """Where a bin was reached first, as a link where that leads somewhere."""
        if first is None:
            return "never"
        text, link = html.escape(f"{first.run}:{first.line}"), self.link(first.run)
        return f'<a href="{html.escape(quote(link))}">{text}</a>' if link else text

    def square(self, name: str, count: Count) -> str:
        """A bin as a square: its name, how often it was reached and where first on pointing, and a link to that run."""
        kind = "never" if not count.count else "few" if count.count < FEW else "often"
        first = f", first in {count.first.run}:{count.first.line}" if count.first else ""
        title = html.escape(f"{name}: {count.count}{first}")
        link = self.link(count.first.run) if count.first else None
        href = f' href="{html.escape(quote(link))}"' if link else ""
        return f'<a class="{kind}"{href} title="{title}" aria-label="{title}"></a>'

    def row(self, row: Row) -> str:
        """A group or a rule with its bins."""
        head = f'<tr><th scope="row" title="{html.escape(row.says)}">{html.escape(row.name)}</th>'
        if not row.bins:
            why = "no corner is left" if row.name in CORNERS else why_none(row.name)
            return f"{head}<td>-</td><td></td><td>{html.escape(why)}</td></tr>"
        squares = "".join(self.square(it, self.shown.counts[it]) for it in row.bins)
        counts = f"<td>{row.hit} of {len(row.bins)}</td><td>{percent(row.hit, len(row.bins))} %</td>"
        return f'{head}{counts}<td class="bins">{squares}</td></tr>'

    def names(self) -> Iterator[str]:
        """Each bin with its count and where it was reached first."""
        for name, count in self.shown.counts.items():
            yield f"<tr><td>{html.escape(name)}</td><td>{count.count}</td><td>{self.place(count.first)}</td></tr>"

    def left_out(self) -> Iterator[str]:
        """The bins that are left out, with their reasons."""
        for it in self.shown.withouts:
            hit = sum(self.shown.cover.bins[name].count > 0 for name in it.bins)
            cells = (it.pattern, str(len(it.bins)), str(hit), it.reason)
            yield f"<tr>{''.join(f'<td>{html.escape(cell)}</td>' for cell in cells)}</tr>"

    def text(self) -> str:
        missed = "".join(f"<li>{html.escape(it)}</li>\n" for it in self.shown.missed) or "<li>none</li>"
        return Template(FORM.read_text()).substitute(
            TOTAL=html.escape(self.shown.total()),
            GROUPS=joined(self.row(it) for it in self.shown.groups),
            RULES=joined(self.row(it) for it in self.shown.rules),
            MISSED=missed,
            LEFT_OUT=joined(self.left_out()) or '<tr><td colspan="4">nothing</td></tr>',
            NOTES=joined(f"<p>{html.escape(it)}</p>" for it in self.shown.notes()),
            NAMES=joined(self.names()),
        )


def joined(parts: Iterator[str]) -> str:
    return "\n".join(parts)


def in_ascii(text: str) -> str:
    """A text whose other characters stand as numbers, so that it can be written in any encoding."""
    return text.encode("ascii", "xmlcharrefreplace").decode()
