#!/usr/bin/env python3
"""Draws a graph that `fedbundle graph` printed, without Graphviz:
`fedbundle graph --config CONFIG --state STATE | tools/picture.py > docs/trust-flow.svg`.

Each box is a bundle, each arrow a receipt: the bundle at its tail vouches, by the key on it, for the bundle at its head.
The picture of docs/TOUR.md is drawn of docs/trust-flow.dot, which is the graph of a state with the receipts of examples/:
`tools/picture.py <docs/trust-flow.dot >docs/trust-flow.svg`. tests/views.py compares that graph with what the program prints.
"""
import re
import sys

WIDTH, HEIGHT, ACROSS, DOWN, LEFT, TOP = 190, 54, 250, 104, 30, 76
NODE = re.compile(r'"([0-9a-f]{64})" \[(.*)\];')
EDGE = re.compile(r'"([0-9a-f]{64})" -> "([0-9a-f]{64})" \[label="([0-9a-f]{8})"(.*)\];')
LABEL = re.compile(r'label="([^"\\]+)(?:\\nsequence (\w+))?\\n[0-9a-f]{8}"')


class Graph:
    """The boxes and the arrows: what a later line says of a box adds to the earlier ones."""

    def __init__(self, text):
        self.labels, self.configured, self.current, self.edges = {}, set(), set(), []
        for line in text.splitlines():
            if edge := EDGE.fullmatch(line):
                self.edges.append(edge.groups())
            elif node := NODE.fullmatch(line):
                self.add_node(*node.groups())

    def add_node(self, name, said):
        if label := LABEL.match(said):
            self.labels[name] = label[1], label[2]
        if "peripheries=2" in said:
            self.configured.add(name)
        if "style=bold" in said:
            self.current.add(name)

    def bundles(self):
        """Those that were brought or are configured, by domain and sequence number."""
        known = {name: (domain, int(number)) for name, (domain, number) in self.labels.items() if number}
        return dict(sorted(known.items(), key=lambda item: (item[1], item[0])))

    def kind(self, name):
        if name in self.configured:
            return "configured"
        if name in self.current:
            return "current"
        return "accepted" if any(head == name and not style for _, head, _, style in self.edges) else "pending"


def places(bundles):
    """A column for each domain, a row for each sequence number, and side by side those of one number."""
    rows = {}
    for name in sorted(bundles, key=lambda name: (bundles[name][0], bundles[name][1], name)):
        rows.setdefault(bundles[name], []).append(name)
    column, left, out = {}, LEFT, {}
    for domain in sorted({domain for domain, _ in rows}):
        column[domain] = left
        left += ACROSS * max(len(names) for (owner, _), names in rows.items() if owner == domain)
    for (domain, sequence), names in rows.items():
        row = sum(owner == domain and number < sequence for owner, number in rows)
        for at, name in enumerate(names):
            out[name] = column[domain] + at * ACROSS, TOP + row * DOWN
    return out, column, left


def box(name, place, sequence, kind):
    x, y = place
    style = {"configured": "stroke-width:3", "current": "fill:#dcebdc", "pending": "stroke-dasharray:5 4"}
    words = f"sequence {sequence}" + ("" if kind == "accepted" else f", {kind}")
    return [
        f'<rect x="{x}" y="{y}" width="{WIDTH}" height="{HEIGHT}" rx="6" style="{style.get(kind, "")}"/>',
        f'<text x="{x + 12}" y="{y + 23}" class="id">{name[:8]}..</text>',
        f'<text x="{x + 12}" y="{y + 42}">{words}</text>',
    ]


def arrow(tail, head, key):
    x1, y1 = tail[0] + WIDTH / 2, tail[1] + HEIGHT
    x2, y2 = head[0] + (WIDTH / 2 if head[0] == tail[0] else 30), head[1] - 4
    x, y = ((x1 + x2) / 2, (y1 + y2) / 2 + 4) if x1 == x2 else (x2, y2 - 10)
    return [
        f'<line x1="{x1}" y1="{y1}" x2="{x2}" y2="{y2}" marker-end="url(#head)"/>',
        f'<text x="{x + 10}" y="{y}" class="key">{key[:8]}..</text>',
    ]


def main():
    graph = Graph(sys.stdin.read())
    bundles = graph.bundles()
    place, column, width = places(bundles)
    out = []
    for domain, left in column.items():
        out.append(f'<text x="{left}" y="{TOP - 28}" class="domain">{domain}</text>')
    for name, (_, sequence) in bundles.items():
        out += box(name, place[name], sequence, graph.kind(name))
    for tail, head, key, _ in graph.edges:
        if tail in place:
            out += arrow(place[tail], place[head], key)
        else:
            x, y = place[head]
            out.append(f'<text x="{x}" y="{y + HEIGHT + 20}">no receipt brought {tail[:8]}..</text>')
    height = max(y for _, y in place.values()) + HEIGHT + 40
    print(f'<svg xmlns="http://www.w3.org/2000/svg" viewBox="0 0 {width} {height}" width="{width}" height="{height}">')
    print("<title>Which bundle vouches for which, in examples/receipts.jsonl</title>")
    print("<style>text{font:14px sans-serif;fill:#222}.id,.key{font-family:monospace}.key{fill:#456}"
          ".domain{font-size:18px;font-weight:bold}rect{fill:#fff;stroke:#345}line{stroke:#345}</style>")
    print('<defs><marker id="head" viewBox="0 0 8 8" refX="7" refY="4" markerWidth="8" markerHeight="8" orient="auto">'
          '<path d="M0 0L8 4L0 8z" fill="#345"/></marker></defs>')
    print(f'<rect width="{width}" height="{height}" style="stroke:none"/>')
    print("\n".join(out))
    print("</svg>")


main()
