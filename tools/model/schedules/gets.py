"""Gets on trees of several dozen keys, of each key and of those that begin as it does; and some that are made in turn."""
from .machine import LAST_NUMBER, Op
from .schedule import Schedule, insert

LISTS = {
    "dense keys, keys that share each number of bytes, and sparse ones": (
        [*range(12), 0x1122334455667788, 0x11FF334455667788, 0x1122003344556677, 0x112233FF55667788, 0x1122334400667788]
        + [0x11223344AA667788, 0x1122334455006677, 0x11223344556600FF, 0x1122334455667700, 0x11223344556677FF]
        + [0x9E3779B97F4A7C15, 0x3C6EF372FE94F82A, 0xDAA66D2C7DDF743F, 0x78DDE6E5FD29F054, 0x1715609F7C746C69]
        + [0xB54CDA58FBBEE87E, 0x538454127B096493, 0xF1BBCDCBFA53E0A8, 0xFF, 0x100, 0xFFFF, 0x10000, 0xFFFFFFFF, 0x100000000]
        + [2**63, LAST_NUMBER, LAST_NUMBER - 0xFF]
    ),
    "keys that differ in the first four bytes, or share seven": (
        [0x9E3779B901010101, 0x3C6EF37202020202, 0xDAA66D2B03030303, 0x78DDE6E404040404, 0x1715609D05050505]
        + [0xB54CDA5606060606, 0x5384540F07070707, 0xF1BBCDC808080808, 0x8FF3478109090909, 0x2E2AC13A0A0A0A0A]
        + [0xCC623AF30B0B0B0B, 0x6A99B4AC0C0C0C0C, 0x08D12E650D0D0D0D, 0xA708A81E0E0E0E0E, 0x454021D70F0F0F0F]
        + [0xE3779B9010101010, 0x81AF154911111111, 0x1FE68F0212121212, 0xBE1E08BB13131313, 0x5C55827414141414]
        + [0xFA8CFC2D15151515, 0x98C475E616161616, 0x36FBEF9F17171717, 0xD533695818181818, 0xFFEEDD0001020300]
        + [0xFFEEDD0001020301, 0xFFEEDD0001020302, 0xFFEEDD000102037F, 0xFFEEDD00010203FF, 0xFFEEDD0101020300]
        + [0xFFEEDD01010203FF, 0xFFEE000000000000, 0xFF00000000000001]
    ),
    "keys that differ in the first byte, or share seven": (
        [first << 56 | 0x01020304050600 | last for first in (0, 1, 2, 7, 0x7F, 0x80, 0xFE, 0xFF) for last in (0, 1, 0x80, 0xFF)]
        + [0xFF010203040506FE]
    ),
}

# The keys of gets that are made one event of each in turn.
IN_TURN = [0, 1, 0xFF, 0x10000, 12, 0x1122334455667788, 0, LAST_NUMBER, 1 << 62]


def of_keys(keys):
    """A schedule that puts the keys one after another, each with its place in the list."""
    made = Schedule()
    for value, key in enumerate(keys):
        made.whole(0, insert(key, value))
    return made


def each(keys):
    made = of_keys(keys)
    for key in keys:
        for change in (0, *(1 << 8 * it for it in range(8))):
            made.whole(0, Op("get", key ^ change))
    return made


def in_turn(keys):
    made = of_keys(keys)
    for id, key in enumerate(IN_TURN):
        made.start(id, Op("get", key))
    while made.machine.calls:
        for id in list(made.machine.calls):
            made.step(id)
    return made


def schedules():
    """Each schedule by its name."""
    for name, keys in LISTS.items():
        yield name, each(keys)
        yield f"{name}, in turn", in_turn(keys)
