"""Metadata that nobody wrote: images at random, read by the product and by a slow reader of its own, which have to say the same.

    images.py WB_BENCH [COUNT [SEED]]

Each image begins as a good one, of either version and one of several sizes, with two generations of roots and nodes at random places, in version 2
often with a tree of dirty bits. Then bytes, words, fields and tops are changed, sectors swapped, copied, cleared or filled, and files cut or made longer.
The slow reader below goes by docs/FORMATS.md, 'Metadata sectors', word for word, and uses nothing of the product. `wb_bench FILE images` reads many
in one process, and says of each what it stands for or how it is refused. It prints what differs, how many there were of each answer and of each
fault, and at the end 'N passed, N failed': a check for each thousand, one that each fault came first in some image, where there are 5,000 or more, and one for all rows of
scripts/cases/damage.txt and damaged_bits.txt, damaged images with what is said of each.
"""
import collections
import multiprocessing
import os
import random
import struct
import subprocess
import sys
import tempfile

# Block, cache blocks, origin blocks; the second list has three levels of the mapping, or two of dirty bits, and is rare.
SIZES = [(64, 4, 10), (64, 32, 40), (64, 40, 40), (64, 65, 70), (64, 150, 200)]
LARGE_SIZES = [(64, 1025, 2048), (64, 2049, 2100), (64, 2100, 4096)]
BATCH, SECTOR = 1000, 512
LEAST_BATCHES = 5
LAST_WORD = 4294967295
MAPPING, DIRTY = b"WBCNODE1", b"WBCDIRT1"
FAULTS = ("text", "other tree", "level", "index", "newer", "outside", "twice", "beyond", "past last", "past origin", "origin twice", "bit", "slot")


# --- The slow reader.
class Damaged(Exception):
    """The first fault of an image: the place that it names, and what it is."""


Root = collections.namedtuple("Root", "generation version clean block cache_blocks origin_blocks sectors top top_dirty")


def depth_and_nodes(words):
    """Of a tree whose leaves have so many words."""
    depth = 1
    while 32**depth < words:
        depth += 1
    return depth, sum(-(-words // 32**k) for k in range(1, depth + 1))


def words_of_dirty_bits(cache_blocks):
    return -(-cache_blocks // 64)


def least_sectors(version, cache_blocks):
    return 2 + 2 * depth_and_nodes(cache_blocks)[1] + (depth_and_nodes(words_of_dirty_bits(cache_blocks))[1] if version == 2 else 0)


def root_of(sector, slot):
    """The root in a slot, if it is valid there."""
    magic, generation, version, flags, *numbers = struct.unpack("<8sQ8I", sector[:48])
    if magic != b"WBCROOT1" or version not in (1, 2) or flags > 1 or any(sector[48:]) or generation % 2 != slot:
        return None
    root = Root(generation, version, flags == 1, *numbers)
    if not (64 <= root.block <= 2097152 and root.block % 64 == 0 and 1 <= root.origin_blocks <= 1048576 and 1 <= root.cache_blocks <= 1048575):
        return None
    if not least_sectors(version, root.cache_blocks) <= root.sectors <= 4294967295:
        return None
    if not all(top == 0 or 2 <= top < root.sectors for top in (root.top, root.top_dirty)) or root.top_dirty and not (version == 2 and root.clean):
        return None
    return root


def is_leaf_word(version, word):
    return word == 0 or (word & 1 == 1 and word >> 4 & 31 <= 16 and word & ~((3 if version == 1 else 1) | 31 << 4 | 0xFFFFF << 16) == 0)


def words_of(sector, letters, level, index, place, root):
    """The words of the node at a place, which has to be of this tree, level and index, and not newer than the root."""
    its_letters, generation, its_level, its_index, zeros = struct.unpack("<8sQIIQ", sector[:32])
    words = struct.unpack("<32Q", sector[32:288])
    most = {MAPPING: 4, DIRTY: 3 if root.version == 2 else 0}.get(its_letters, 0)
    if zeros or any(sector[288:]) or not 1 <= its_level <= most:
        raise Damaged(place, "text")
    if its_level > 1 and not all(word == 0 or 2 <= word <= LAST_WORD for word in words):
        raise Damaged(place, "text")
    if its_level == 1 and its_letters == MAPPING and not all(is_leaf_word(root.version, word) for word in words):
        raise Damaged(place, "text")
    for wrong, fault in ((its_letters != letters, "other tree"), (its_level != level, "level"), (its_index != index, "index"), (generation > root.generation, "newer")):
        if wrong:
            raise Damaged(place, fault)
    return words


class SlowReader:
    """What was read so far of an image: the places that were reached, and of each cache block the word of its entry, with bit 1 where it is dirty."""

    def __init__(self, sectors, root):
        self.sectors, self.root = sectors, root
        self.reached, self.origins, self.mapping = set(), set(), {}

    def read(self):
        root = self.root
        if root.top:
            self.read_node(MAPPING, root.top, depth_and_nodes(root.cache_blocks)[0], 0)
        if root.top_dirty:
            if root.top_dirty in self.reached:
                raise Damaged(root.generation % 2, "slot")
            self.read_node(DIRTY, root.top_dirty, depth_and_nodes(words_of_dirty_bits(root.cache_blocks))[0], 0)

    def read_node(self, letters, place, level, index):
        """Reads a node and what is below it."""
        words = words_of(self.sectors[place], letters, level, index, place, self.root)
        self.reached.add(place)
        for j, word in enumerate(words):
            number = 32 * index + j
            if word == 0:
                continue
            if level > 1:
                if not 2 <= word < len(self.sectors):
                    raise Damaged(place, "outside")
                if word in self.reached:
                    raise Damaged(place, "twice")
                if number * 32 ** (level - 1) * (64 if letters == DIRTY else 1) >= self.root.cache_blocks:
                    raise Damaged(place, "beyond")
                self.read_node(letters, word, level - 1, number)
            elif letters == MAPPING:
                self.read_entry(place, number, word)
            else:
                self.read_bits(place, 64 * number, word)

    def read_entry(self, place, number, word):
        origin = word >> 16
        if number >= self.root.cache_blocks:
            raise Damaged(place, "past last")
        if origin >= self.root.origin_blocks:
            raise Damaged(place, "past origin")
        if origin in self.origins:
            raise Damaged(place, "origin twice")
        self.origins.add(origin)
        self.mapping[number] = word

    def read_bits(self, place, first, word):
        for t in range(64):
            if word >> t & 1:
                if first + t not in self.mapping:
                    raise Damaged(place, "bit")
                self.mapping[first + t] |= 2


def slow_answer(sectors):
    """What is said of a device with these sectors, and its first fault, if it is damaged."""
    roots = [root for slot, sector in enumerate(sectors[:2]) if (root := root_of(sector, slot))]
    if not roots:
        return "refused 10 NotFormatted", None
    root = max(roots)
    if root.sectors != len(sectors):
        return "refused 12 Mismatch", None
    reader = SlowReader(sectors, root)
    try:
        reader.read()
    except Damaged as damaged:
        place, fault = damaged.args
        return f"refused 11 Damaged {place}", fault
    total = 0
    for block in range(root.cache_blocks):
        total = (total * 31 + reader.mapping.get(block, 0)) % 2**64
    return f"{root.generation} {str(root.clean).lower()} {len(reader.reached)} {total}", None


# --- Images at random.
def root_sector(*root):
    generation, version, clean, *numbers = root
    return struct.pack("<8sQ8I", b"WBCROOT1", generation, version, clean, *numbers).ljust(SECTOR, b"\0")


def node_sector(letters, generation, level, index, words):
    return struct.pack("<8sQIIQ32Q", letters, generation, level, index, 0, *words).ljust(SECTOR, b"\0")


def plant(dice, sectors, letters, generation, words, row, free):
    """Puts a tree whose leaves have so many words, of which these are not 0, on free places: gives the top's place."""
    for level in range(1, depth_and_nodes(words)[0] + 1):
        above = {}
        for index in sorted({number // 32 for number in row}):
            above[index] = free.pop(dice.randrange(len(free)))
            older = generation - dice.randrange(min(generation, 3) + 1)
            sectors[above[index]] = node_sector(letters, older, level, index, [row.get(32 * index + j, 0) for j in range(32)])
        row = above
    return row.get(0, 0)


def entries(dice, version, cache_blocks, origin_blocks):
    """Words of entries at random, by cache block."""
    kept = dice.choice((0.1, 0.5, 0.95))
    origins = dice.sample(range(origin_blocks), min(cache_blocks, origin_blocks))
    may_be_dirty = version == 1
    return {
        c: 1 | (may_be_dirty and dice.getrandbits(1)) << 1 | dice.randrange(17) << 4 | origin << 16
        for c, origin in enumerate(origins)
        if dice.random() < kept
    }


def dirty_bits(dice, row):
    """Words of dirty bits of blocks that have entries."""
    frequent = dice.choice((0, 0.1, 0.9, 1))
    words = {}
    for block in row:
        if dice.random() < frequent:
            words[block // 64] = words.get(block // 64, 0) | 1 << block % 64
    return words


def good_image(dice):
    version = dice.choice((1, 2))
    block, cache_blocks, origin_blocks = dice.choice(SIZES if dice.randrange(20) else LARGE_SIZES)
    many = least_sectors(version, cache_blocks)
    sectors = [bytes(SECTOR)] * many
    free = list(range(2, many))
    newest = dice.choice((1, 2, 3, 8, 255, 256, 2**32, 2**64 - 1))
    for generation in (newest - 1, newest):
        row = entries(dice, version, cache_blocks, origin_blocks)
        top, top_dirty, clean = plant(dice, sectors, MAPPING, generation, cache_blocks, row, free), 0, dice.getrandbits(1)
        if version == 2 and generation == newest and dice.randrange(4):
            clean, bits = 1, dirty_bits(dice, row)
            top_dirty = plant(dice, sectors, DIRTY, generation, words_of_dirty_bits(cache_blocks), bits, free)
        sectors[generation % 2] = root_sector(generation, version, clean, block, cache_blocks, origin_blocks, many, top, top_dirty)
    return sectors


def put(sector, at, data):
    return sector[:at] + data + sector[at + len(data):]


def exchange(dice, sectors):
    """A word of a node takes another place, most often one that a node of the image has."""
    above = [at for at, sector in enumerate(sectors) if sector[:8] in (MAPPING, DIRTY) and sector[16] > 1]
    if above:
        at = dice.choice(above)
        words = [j for j in range(32) if sectors[at][32 + 8 * j]] or [0]
        place = sectors[dice.choice(above)][32 + 8 * dice.choice(words)] if dice.getrandbits(2) else dice.randrange(len(sectors) + 1)
        sectors[at] = put(sectors[at], 32 + 8 * dice.choice((dice.choice(words), dice.randrange(32))), struct.pack("<Q", place))


def change_top(dice, sectors):
    """A root names another node as a top, or one tree's as that of both."""
    at = dice.randrange(min(2, len(sectors)))
    tops = [sectors[at][40:44], sectors[at][44:48], struct.pack("<I", dice.randrange(len(sectors)))]
    sectors[at] = put(sectors[at], dice.choice((40, 44, 44)), dice.choice(tops))


def change_node(dice, sectors):
    """A node has another level, index or generation, the other tree's letters, another dirty bit, or an entry of another block."""
    nodes = [at for at, sector in enumerate(sectors) if sector[:8] in (MAPPING, DIRTY)]
    if not nodes:
        return
    at = dice.choice(nodes)
    letters, generation, level, index, _ = struct.unpack("<8sQIIQ", sectors[at][:32])
    offset = 32 + 8 * dice.randrange(32)
    word = struct.unpack_from("<Q", sectors[at], offset)[0]
    entry = 1 | dice.randrange(17) << 4 | dice.randrange(dice.choice((8, 64, 4096))) << 16
    sectors[at] = put(sectors[at], *dice.choice((
        (16, struct.pack("<I", dice.choice((1, 2, 3, level + 1)))),
        (20, struct.pack("<I", (index + dice.choice((1, 31, 2**32 - 1))) % 2**32)),
        (8, struct.pack("<Q", (generation + 1 + dice.randrange(4)) % 2**64)),
        (0, DIRTY if letters == MAPPING else MAPPING),
        (offset, struct.pack("<Q", word ^ 1 << dice.randrange(64) if letters == DIRTY or level > 1 else entry)),
    )))


def change(dice, sectors):
    """One change of an image, in place."""
    if not sectors:
        sectors.append(bytes(SECTOR))
        return
    at, other = dice.randrange(len(sectors)), dice.randrange(len(sectors))
    kind = dice.randrange(18)
    if kind > 15:
        change_node(dice, sectors)
    elif kind > 13:
        change_top(dice, sectors)
    elif kind > 11:
        exchange(dice, sectors)
    elif kind < 3:
        offset = dice.randrange(dice.choice((48, 288, SECTOR)))
        sectors[at] = put(sectors[at], offset, bytes([dice.choice((0, 1, 2, 3, 4, 0x80, 0xFF, dice.getrandbits(8)))]))
    elif kind < 6:
        # A word of a node: a place, an entry, or one of them with a bit that is another.
        offset = 32 + 8 * dice.randrange(dice.choice((4, 32)))
        word = dice.choice((0, 1, dice.randrange(len(sectors) + 2), 1 | dice.randrange(64) << 16, struct.unpack_from("<Q", sectors[at], offset)[0]))
        if dice.getrandbits(1):
            word ^= 1 << dice.randrange(64)
        sectors[at] = put(sectors[at], offset, struct.pack("<Q", word))
    elif kind < 8:
        # A field of a root or a node.
        offset = dice.choice((8, 12, 16, 20, 24, 28, 32, 36, 40, 44))
        sectors[at] = put(sectors[at], offset, struct.pack("<I", dice.choice((0, 1, 2, 3, 4, 5, 8, 64, dice.getrandbits(32)))))
    elif kind == 8:
        sectors[at], sectors[other] = sectors[other], sectors[at]
    elif kind == 9:
        sectors[at] = sectors[other]
    elif kind == 10:
        sectors[at] = dice.choice((bytes(SECTOR), dice.randbytes(SECTOR), dice.choice((MAPPING, DIRTY)) + dice.randbytes(SECTOR - 8), b"\xff" * SECTOR))
    elif dice.getrandbits(1):
        del sectors[dice.randrange(len(sectors)):]
    else:
        sectors += [bytes(SECTOR)] * dice.randrange(3)


# --- Images as rows.
def mapping_of_two():
    """Version 1: cache blocks 0 and 33 of 40 hold origin blocks 0 and 7; leaves at 2 and 3, the top at 4."""
    return [
        bytes(SECTOR),
        root_sector(1, 1, 1, 64, 40, 40, 8, 4, 0),
        node_of(MAPPING, 1, 0, {0: 1}),
        node_of(MAPPING, 1, 1, {1: 1 | 7 << 16}),
        node_of(MAPPING, 2, 0, {0: 2, 1: 3}),
    ] + [bytes(SECTOR)] * 3


def dirty_blocks_of_two_leaves():
    """Version 2: cache blocks 0 and 2,048 of 2,049 hold origin blocks 0 and 7, and are dirty; the mapping's leaves at 2 and 3, above them 4 and 5, its top
    at 6; the leaves of dirty bits at 7 and 8, their top at 9."""
    return [
        bytes(SECTOR),
        root_sector(3, 2, 1, 64, 2049, 4096, 143, 6, 9),
        node_of(MAPPING, 1, 0, {0: 1}),
        node_of(MAPPING, 1, 64, {0: 1 | 7 << 16}),
        node_of(MAPPING, 2, 0, {0: 2}),
        node_of(MAPPING, 2, 2, {0: 3}),
        node_of(MAPPING, 3, 0, {0: 4, 2: 5}),
        node_of(DIRTY, 1, 0, {0: 1}),
        node_of(DIRTY, 1, 1, {0: 1}),
        node_of(DIRTY, 2, 0, {0: 7, 1: 8}),
    ] + [bytes(SECTOR)] * 133


def node_of(letters, level, index, words):
    """A node of generation 1 with these words, by their places in it."""
    return node_sector(letters, 1, level, index, [words.get(j, 0) for j in range(32)])


def changed(sectors, place, changes):
    """These sectors with other bytes: of the one at a place, or of one that a change names before a colon."""
    for one in changes.split():
        where, byte = one.split("=")
        other, _, at = where.rpartition(":")
        number = int(other or place)
        sectors[number] = put(sectors[number], int(at), bytes.fromhex(byte))
    return sectors


def rows_of_damage():
    """The rows of damaged images: the sectors of each, what is said of them, and the row."""
    for name, good in (("damage.txt", mapping_of_two), ("damaged_bits.txt", dirty_blocks_of_two_leaves)):
        with open(os.path.join(os.path.dirname(os.path.abspath(__file__)), "cases", name), encoding="utf-8") as file:
            for row in file.read().splitlines():
                if row and not row.startswith("#"):
                    place, changes, told = row.split("|")
                    yield changed(good(), place, changes), told, row


def write_image(file, sectors):
    file.write(struct.pack("<H", len(sectors)).ljust(SECTOR, b"\0") + b"".join(sectors))


def first_wrong_row(program):
    """What is wrong with the first row that is not read as it says, by the program or by the slow reader."""
    rows = list(rows_of_damage())
    with tempfile.NamedTemporaryFile() as file:
        for sectors, _, _ in rows:
            write_image(file, sectors)
        file.flush()
        told = subprocess.run([program, file.name, "images"], capture_output=True, text=True, timeout=300).stdout.splitlines()
    for (sectors, wanted, row), found in zip(rows, told + [""] * len(rows)):
        answer = slow_answer(sectors)[0]
        if found != answer or wanted != (answer if answer.startswith("refused") else answer.split(" ")[2]):
            return f"the row '{row}': '{found}', by the format '{answer}'"
    return None


def batch(work):
    """A thousand images: how many there were of each answer and of each fault, and the first that differs."""
    program, seed = work
    dice = random.Random(seed)
    counts, faults, wanted = collections.Counter(), collections.Counter(), []
    with tempfile.NamedTemporaryFile() as file:
        for _ in range(BATCH):
            sectors = good_image(dice)
            for _ in range(dice.choice((0, 1, 1, 1, 2, 3, 5))):
                change(dice, sectors)
            write_image(file, sectors)
            answer, fault = slow_answer(sectors)
            wanted.append(answer)
            counts[" ".join(answer.split()[:3]) if answer.startswith("refused") else "read"] += 1
            faults[fault] += 1
        file.flush()
        told = subprocess.run([program, file.name, "images"], capture_output=True, text=True, timeout=300)
    found = told.stdout.splitlines()
    for number, (one, other) in enumerate(zip(found, wanted)):
        if one != other:
            return counts, faults, f"seed {seed}, image {number}: it says '{one}', and by the format it is '{other}'"
    return counts, faults, None if len(found) == BATCH and told.returncode == 0 else f"seed {seed}: {len(found)} answers, status {told.returncode}"


def main():
    program = os.path.abspath(sys.argv[1])
    count = int(sys.argv[2]) if len(sys.argv) > 2 else 20000
    seed = int(sys.argv[3]) if len(sys.argv) > 3 else 1
    counts, faults, wrong, batches = collections.Counter(), collections.Counter(), 0, -(-count // BATCH)
    with multiprocessing.Pool() as pool:
        for answers, kinds, why in pool.imap_unordered(batch, ((program, seed * 1000000 + number) for number in range(batches))):
            counts += answers
            faults += kinds
            if why:
                wrong += 1
                print(f"failed: {why}")
    why = first_wrong_row(program)
    if why:
        wrong += 1
        print(f"failed: {why}")
    # Of fewer images the rarest fault, five of a thousand, may come in none.
    missing = [fault for fault in FAULTS if not faults[fault]] if batches >= LEAST_BATCHES else []
    if missing:
        wrong += 1
        print(f"failed: no image had as its first fault: {', '.join(missing)}")
    print(f"images: {sum(counts.values())} images: " + ", ".join(f"{number} {kind}" for kind, number in counts.most_common()))
    print("images: first faults: " + ", ".join(f"{faults[fault]} {fault}" for fault in FAULTS))
    print(f"{batches + 2 - wrong} passed, {wrong} failed")
    sys.exit(bool(wrong))


if __name__ == "__main__":
    main()
