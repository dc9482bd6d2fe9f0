"""What crates.txt says: the repository's crates and what each stands on."""

import os

TOP = os.path.dirname(os.path.dirname(os.path.dirname(os.path.realpath(__file__))))


def stands_on():
    """Each crate with those of the repository's own that it stands on."""
    lines = {}
    with open(os.path.join(TOP, "crates.txt"), encoding="utf-8") as text:
        for line in text:
            name, colon, libraries = line.split("#")[0].partition(":")
            if colon:
                lines[name.split()[0]] = libraries.split()
    return {name: [low for low in libraries if low in lines] for name, libraries in lines.items()}


def below(name, graph):
    """The crate and all that it stands on, lowest first."""
    order = []

    def visit(crate):
        if crate not in order:
            for low in graph[crate]:
                visit(low)
            order.append(crate)

    visit(name)
    return order
