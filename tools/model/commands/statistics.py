"""The statistics of a tree's nodes, and their text."""

from .nodes import PLACES, SIZES

FORMS = range(4)
# A filled part of a form's places, in 768ths.
WEIGHTS = (192, 48, 16, 3)


def hundredths(part, whole):
    """The nearest to the fraction, and of two that are equally near the even one."""
    if whole == 0:
        return "0.00"
    below, rest = divmod(100 * part, whole)
    near = below + (2 * rest > whole or 2 * rest == whole and below % 2 == 1)
    return f"{near // 100}.{near % 100:02}"


def text(tree, pairs):
    """The lines of the levels, the four sums, and what is charged."""
    levels = {}
    for level, node in tree.root.levels():
        nodes, entries = levels.setdefault(level, ([0] * 4, [0] * 4))
        nodes[node.form] += 1
        entries[node.form] += len(node.entries)
    lines = [line(level, *levels[level]) for level in sorted(levels)]
    nodes = [sum(it[0][form] for it in levels.values()) for form in FORMS]
    entries = [sum(it[1][form] for it in levels.values()) for form in FORMS]
    filled, all_filled = sum(map(int.__mul__, WEIGHTS, entries)), 768 * sum(nodes)
    low = " (too low)" if 2 * filled < all_filled else ""
    size = sum(map(int.__mul__, SIZES, nodes))
    lines += [
        f"Overall node count: {sum(nodes)}, entry count: {sum(entries)}",
        f"Load factor: {hundredths(filled, all_filled)}{low}",
        f"Active memory usage: {size // 1048576} Mb",
        f"KV count: {pairs}",
        f"Charged: {tree.charged} bytes",
    ]
    return "".join(f"{it}\n" for it in lines)


def line(level, nodes, entries):
    parts = [
        f" N{PLACES[form]}: {nodes[form]:8}, {hundredths(entries[form], PLACES[form] * nodes[form]):>8} ||" for form in FORMS
    ]
    return f"Level: {level} --- ||" + "".join(parts)
