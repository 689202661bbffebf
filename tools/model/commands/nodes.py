"""The nodes of a tree with one owner, by its rules alone, and what is charged for them.

A key is eight bytes, most significant first. A node's prefix is the bytes from the root down to it. The root has none, has
256 places, and is never replaced. A node whose prefix has seven bytes is a leaf, and its entries are values. Those of any
other node are nodes. A key goes down by its bytes, past the bytes that a node's prefix has.
"""

# The forms of a node: how many entries it has room for, what is charged for it, and with how few entries it is due to shrink.
PLACES = (4, 16, 48, 256)
SIZES = (64, 168, 672, 2104)
FEW = (0, 3, 12, 36)
ROOT = 3
LEAF = 7


class Refused(Exception):
    """The limit has no room for what a call needs. Nothing has changed."""


class Node:
    __slots__ = ("prefix", "form", "entries")

    def __init__(self, prefix, entries, form=0):
        self.prefix = prefix
        self.form = form
        self.entries = entries

    def is_full(self):
        return len(self.entries) == PLACES[self.form]

    def is_leaf(self):
        return len(self.prefix) == LEAF

    def levels(self, level=0):
        """Each node from this one on, with how many are above it."""
        yield level, self
        if not self.is_leaf():
            for node in self.entries.values():
                yield from node.levels(level + 1)


def leaf(key, value):
    return Node(key[:LEAF], {key[LEAF]: value})


class Tree:
    """The nodes, what is charged for them, and the most that was charged at any moment."""

    def __init__(self, limit=None):
        self.limit = limit
        self.charged = self.most = 0
        self.root = Node(b"", {}, ROOT)
        self.charge(SIZES[ROOT])

    def charge(self, size):
        if self.limit is not None and self.charged + size > self.limit:
            raise Refused
        self.charged += size
        self.most = max(self.most, self.charged)

    def path(self, key):
        """The nodes that a key comes past: each has a prefix that the key begins with."""
        node, nodes = self.root, []
        while node is not None and key.startswith(node.prefix):
            nodes.append(node)
            node = None if node.is_leaf() else node.entries.get(key[len(node.prefix)])
        return nodes

    def insert(self, key, value):
        """Puts a value at a key that has none."""
        last = self.path(key)[-1]
        byte = key[len(last.prefix)]
        below = last.entries.get(byte)
        if last.is_leaf():
            self.add(last, byte, value, 0)
        elif below is None:
            self.add(last, byte, leaf(key, value), SIZES[0])
        else:
            self.split(last, byte, below, key, value)

    def add(self, node, byte, entry, size):
        """One entry more. A full node goes into the next larger form, which is charged before the old one is uncharged."""
        if node.is_full():
            self.charge(size + SIZES[node.form + 1])
            self.charged -= SIZES[node.form]
            node.form += 1
        else:
            self.charge(size)
        node.entries[byte] = entry

    def split(self, above, byte, below, key, value):
        """A node with the bytes that key and prefix share comes between two nodes, and gets a leaf beside the lower one."""
        self.charge(2 * SIZES[0])
        shared = next(at for at, (one, other) in enumerate(zip(key, below.prefix)) if one != other)
        above.entries[byte] = Node(key[:shared], {below.prefix[shared]: below, key[shared]: leaf(key, value)})

    def remove(self, key):
        """Takes out a key that has a value. Emptied nodes go, and the first above them shrinks where that is due and granted."""
        nodes = self.path(key)
        while True:
            node = nodes.pop()
            del node.entries[key[len(node.prefix)]]
            if node is self.root:
                return
            if node.entries:
                self.shrink(node)
                return
            self.charged -= SIZES[node.form]

    def shrink(self, node):
        """By one form alone. The smaller node is charged first, and where that is refused, the node stays as it is."""
        if len(node.entries) > FEW[node.form]:
            return
        try:
            self.charge(SIZES[node.form - 1])
        except Refused:
            return
        self.charged -= SIZES[node.form]
        node.form -= 1
