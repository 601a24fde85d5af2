"""What the tools that draw have in common: the style of the pictures, readable in light and dark, their parts, and the check that a
picture is what its tool draws."""

import argparse
import sys
from xml.sax.saxutils import escape

from crate_list import ROOT

LINE = 17  # from one line of text to the next
STYLE = """
  .page { fill: #ffffff } .box { fill: #eef3fb; stroke: #1f4e8c } .frame { fill: none; stroke: #6b7785; stroke-dasharray: 6 4 }
  .arrow { fill: none; stroke: #333d47; stroke-width: 1.5 } .tip { fill: #333d47 }
  text { fill: #16202a; font: 13px Helvetica, Arial, 'DejaVu Sans', sans-serif } .name { font-size: 15px; font-weight: bold }
  .note { fill: #4a5560 }
  @media (prefers-color-scheme: dark) {
    .page { fill: #14191f } .box { fill: #22303f; stroke: #8db8f0 } .frame { stroke: #97a3b0 }
    .arrow { stroke: #c9d2db } .tip { fill: #c9d2db } text { fill: #eef2f6 } .note { fill: #b7c1cb }
  }
"""


def lines_of(x, y, anchor, lines, kind):
    """Lines of text, the first with its foot at y."""
    return [
        f'<text class="{kind}" x="{x}" y="{y + number * LINE}" text-anchor="{anchor}">{escape(line)}</text>'
        for number, line in enumerate(lines)
    ]


def frame(left, top, width, height):
    """A broken line around what belongs together."""
    return f'<rect class="frame" x="{left}" y="{top}" width="{width}" height="{height}" rx="12"/>'


def picture(tool, title, size, parts, style=""):
    """The text of a picture with these parts."""
    width, height = size
    head = [
        f'<svg xmlns="http://www.w3.org/2000/svg" viewBox="0 0 {width} {height}" width="{width}" height="{height}" role="img">',
        f"<!-- drawn by tools/{tool} -->",
        f"<title>{escape(title)}</title>",
        f"<style>{STYLE}{style}</style>",
        '<defs><marker id="tip" viewBox="0 0 10 10" refX="9" refY="5" markerWidth="8" markerHeight="8" orient="auto">',
        '<path class="tip" d="M0,0 L10,5 L0,10 z"/></marker></defs>',
        f'<rect class="page" width="{width}" height="{height}"/>',
    ]
    return "\n".join([*head, *parts, "</svg>"]) + "\n"


def draw(tool, about, pictures):
    """Writes these pictures, texts by their names in docs/; with --check it writes nothing, and says which are out of date."""
    words = argparse.ArgumentParser(description=about)
    words.add_argument("--check", action="store_true", help="write nothing, and say which pictures are out of date")
    is_check, old = words.parse_args().check, []
    for name, text in pictures.items():
        path = ROOT / "docs" / name
        if not is_check:
            path.write_text(text)
        elif not path.exists() or path.read_text() != text:
            old.append(path)
            print(f"docs/{name} is out of date: run tools/{tool}", file=sys.stderr)
    return 1 if old else 0
