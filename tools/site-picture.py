#!/usr/bin/env python3
"""Draws docs/site.svg, README's picture of what runs at each of two sites: `tools/site-picture.py > docs/site.svg`.

tests/pages.py compares the file with what this prints.
"""

WIDTH, HEIGHT = 760, 320
BOX = (150, 46)

# Each site, and the place of its left edge.
SITES = [("site 1", 20), ("site 2", 410)]
STYLE = 'font-family="sans-serif" font-size="13" text-anchor="middle"'


def box(left, top, lines, kind="own"):
    """A box of 150 by 46 with one or two lines of text; what is not fedbundle's has a dashed edge."""
    dash = ' stroke-dasharray="5 3"' if kind == "other" else ""
    fill = "#ffffff" if kind == "other" else "#eef3fa"
    yield f'<rect x="{left}" y="{top}" width="{BOX[0]}" height="{BOX[1]}" rx="5" fill="{fill}" stroke="#333333"{dash}/>'
    for number, line in enumerate(lines):
        down = top + (28 if len(lines) == 1 else 20 + 16 * number)
        yield f'<text x="{left + BOX[0] // 2}" y="{down}" {STYLE}>{line}</text>'


def arrow(start, end, text, at):
    """An arrow, and its text at a place."""
    (x1, y1), (x2, y2) = start, end
    yield f'<line x1="{x1}" y1="{y1}" x2="{x2}" y2="{y2}" stroke="#333333" marker-end="url(#head)"/>'
    yield f'<text x="{at[0]}" y="{at[1]}" {STYLE} font-style="italic">{text}</text>'


def site(name, left):
    """The parts of one site, from the endpoints at the top to the SPIRE server at the bottom."""
    middle = left + 85
    yield f'<rect x="{left}" y="92" width="330" height="168" rx="8" fill="none" stroke="#999999"/>'
    yield f'<text x="{left + 40}" y="112" {STYLE} font-weight="bold">{name}</text>'
    yield from box(left + 10, 120, ["fedbundle-fetch"])
    yield from box(left + 10, 200, ["fedbundle replica", "receipts on its disk"])
    yield from box(left + 170, 120, ["fedbundle-spire"])
    yield from box(left + 170, 200, ["SPIRE server"], "other")
    yield from arrow((middle, 58), (middle, 116), "https_spiffe", (middle + 44, 84))
    yield from arrow((middle, 168), (middle, 196), "observe", (middle - 34, 187))
    yield from arrow((left + 135, 200), (left + 185, 168), "bundle", (left + 132, 187))
    yield from arrow((left + 245, 168), (left + 245, 196), "bundle set", (left + 284, 187))


def gossip():
    """The line below both sites, from one replica to the other."""
    first, second = (left + 85 for _, left in SITES)
    line = f"M{first} 248 V284 H{second} V248"
    yield f'<path d="{line}" fill="none" stroke="#333333" marker-start="url(#tail)" marker-end="url(#head)"/>'
    yield f'<text x="{(first + second) // 2}" y="304" {STYLE} font-style="italic">receipts, over mutual TLS</text>'


def picture():
    yield f'<svg xmlns="http://www.w3.org/2000/svg" viewBox="0 0 {WIDTH} {HEIGHT}" role="img">'
    yield "<title>What runs at each site</title>"
    yield '<defs><marker id="head" viewBox="0 0 8 8" refX="7" refY="4" markerWidth="7" markerHeight="7" orient="auto">'
    yield '<path d="M0 0 L8 4 L0 8 z" fill="#333333"/></marker>'
    yield '<marker id="tail" viewBox="0 0 8 8" refX="1" refY="4" markerWidth="7" markerHeight="7" orient="auto">'
    yield '<path d="M8 0 L0 4 L8 8 z" fill="#333333"/></marker></defs>'
    yield f'<rect width="{WIDTH}" height="{HEIGHT}" fill="#ffffff"/>'
    yield from box(30, 10, ["bundle endpoints of", "foreign trust domains"], "other")
    yield from box(420, 10, ["bundle endpoints of", "foreign trust domains"], "other")
    for name, left in SITES:
        yield from site(name, left)
    yield from gossip()
    yield "</svg>"


if __name__ == "__main__":
    print("\n".join(picture()))
