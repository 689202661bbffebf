"""The self-contained page of a schedule: legend, picture whose heads stay while it scrolls, and the events as a table."""
import html
import string

import svgwrite

from draw import picture, words
from draw.sheet import DARK, FONT, LIGHT
from draw.trace import KINDS

STYLE = """
body { margin: 16px; background: $paper; color: $ink; font: 14px $font }
h1 { font-size: 18px }
.scroll { overflow: auto; max-height: 88vh; border: 1px solid $faint; border-radius: 8px }
.scroll svg, .legend svg { display: block }
.heads { position: sticky; top: 0; background: $paper; width: max-content }
.legend { overflow-x: auto; margin-bottom: 8px }
table { border-collapse: collapse }
td, th { padding: 2px 10px; text-align: left; border-bottom: 1px solid $faint }
footer { margin-top: 16px; color: $quiet; font-size: 12px }
"""
PAGE = """<!DOCTYPE html>
<html lang="en">
<head>
<meta charset="utf-8">
<meta name="viewport" content="width=device-width, initial-scale=1">
<meta name="color-scheme" content="light dark">
<title>$title</title>
<style>$light
@media (prefers-color-scheme: dark) {$dark}
</style>
</head>
<body>
<h1>$title</h1>
<div class="legend">
$legend</div>
<div class="scroll" tabindex="0" role="region" aria-label="$title">
<div class="heads">
$heads</div>
$body</div>
<details>
<summary>The events as a table</summary>
<table>
<tr><th>Event</th><th>Call</th><th>Kind</th><th>What happened</th><th>Content after a decision</th></tr>
$rows</table>
</details>
<footer>Drawn by tools/draw-schedule of Bevkroti with the Python library svgwrite $version (Manfred Moitzi, MIT license).</footer>
</body>
</html>
"""


def row(course, place):
    event = course.events[place]
    call = "" if event.call is None else event.call
    content = "" if event.content is None else event.content or "empty"
    cells = [event.number, call, KINDS[event.kind], words.said(course, place), content]
    return "<tr>" + "".join(f"<td>{html.escape(str(cell))}</td>" for cell in cells) + "</tr>\n"


def text(course, first, last, title):
    legend, heads, body = picture.parts(course, first, last, title)
    styles = {name: string.Template(STYLE).substitute(palette, font=FONT) for name, palette in (("light", LIGHT), ("dark", DARK))}
    rows = "".join(row(course, place) for place in range(first, last))
    sheets = {"legend": legend.xml(), "heads": heads.xml(), "body": body.xml(), "rows": rows}
    return string.Template(PAGE).substitute(styles, title=html.escape(title), version=svgwrite.__version__, **sheets)
