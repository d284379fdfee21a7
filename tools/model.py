"""The verdict of document 01 on a sheet, with the limits of request 1, the report of request 2, the strict verdict of request 3, the refusals of its queries, the base
check of request 7, the owner of an address of request 9, and the range of request 13, written from the papers alone and as plainly as it goes.

It serves one purpose: `sheets.py --check` holds the lines that are written by hand beside the samples against it.
Rows are numbered from 1 across the lists, as in the paper.
"""

import struct

X64, AARCH64 = 0, 1
CCA = 6
PAGE = 4096


class Refused(Exception):
    """A refusal: number, row (0 for the whole) and detail."""


def refuse(test, number, row=0, detail=0):
    if test:
        raise Refused(number, row, detail)


# kind: list, least length of the body, whether that length is exact
KINDS = {1: (0, 16, True), 16: (1, 12, True), 17: (1, 22, True), 18: (1, 48, True), 19: (1, 31, True)}
KINDS |= {32: (2, 18, False), 33: (2, 12, False)}
KINDS |= {kind: (2, 8, True) for kind in range(34, 44)}
KINDS |= {44: (2, 17, True), 45: (2, 14, False), 46: (2, 6, False), 47: (2, 5, False), 48: (2, 5, False)}
KINDS |= {49: (2, 6, False), 50: (2, 16, True), 51: (2, 16, True), 52: (2, 4, False), 53: (2, 4, False)}

# The refusals there are. 39 to 49 are left to later requests.
REFUSALS = (*range(1, 39), 50)

LIMITS = (16, 64, 8192)
BYTE_LIMIT = 67108864


def read(s):
    """The arch and the three lists of (row, kind, body). Refusals 1 to 7."""
    refuse(len(s) < 16, 1)
    revision, arch, zeroes, page_size, *counts, zero = struct.unpack("<BBHIHHHH", s[:16])
    refuse(revision not in (1, 2) or arch not in (X64, AARCH64) or zeroes != 0 or zero != 0, 2)
    refuse(revision == 1 and (arch != X64 or page_size != 0), 2)
    refuse(any(count > limit for count, limit in zip(counts, LIMITS)) or len(s) > BYTE_LIMIT, 3)
    at = 16 + 8 * sum(counts)
    refuse(len(s) < at, 1)
    lists = ([], [], [])
    row = 0
    for number, count in enumerate(counts):
        for _ in range(count):
            row += 1
            kind, length = struct.unpack("<II", s[8 + 8 * row:16 + 8 * row])
            refuse(kind not in KINDS or KINDS[kind][0] != number, 4, row)
            _, least, exact = KINDS[kind]
            refuse(length < least or exact and length != least, 5, row)
            refuse(len(s) < at + length, 1, row)
            body = s[at:at + length]
            refuse(not codes_ok(kind, body), 5, row)
            lists[number].append((row, kind, body))
            at += length
    refuse(at < len(s), 6)
    refuse(revision == 2 and page_size != PAGE, 7, 0, page_size)
    return arch, lists


def codes_ok(kind, body):
    """The VTL of 18, 19, 47, 48 up to 2, the flags of 18 up to 7, protectable (44) up to 1."""
    if kind == 18:
        return body[47] <= 2 and body[44] <= 7
    if kind == 19:
        return body[30] <= 2
    if kind == 44:
        return body[16] <= 1
    return kind not in (47, 48) or body[4] <= 2


class Kept:
    """What the rows that are kept leave for later ones: platforms, each a mask and a type; regions of kinds 18 and 19, each a kind, mask, gpa, size, VP and VTL, and those
    of kind 18 with where they may go, alignment, size, minimum and maximum; areas allocated and inserted; VBS contexts, each a mask and a VTL.

    The functions below judge a row behind these. A row that is refused leaves nothing: what it would leave is put down behind all of its tests."""

    def __init__(self, arch):
        self.arch = arch
        self.platforms, self.regions, self.bounds, self.contexts = [], [], [], []
        self.allocated, self.inserted = set(), set()


def platform_row(kept, row, _, body):
    """Refusals 8 to 14."""
    mask, highest_vtl, type_, version, boundary = struct.unpack("<IBBHQ", body)
    refuse(mask.bit_count() != 1, 8, row)
    refuse(highest_vtl not in (0, 2), 9, row)
    refuse(type_ > 6, 12, row)
    refuse(version != 1, 10, row)
    refuse(type_ in (0, 1) and boundary != 0, 11, row)
    refuse(type_ == CCA and kept.arch != AARCH64, 13, row, type_)
    refuse(type_ in (0, 2, 3, 4, 5) and kept.arch != X64, 13, row, type_)
    refuse(any(type_ == type2 for _, type2 in kept.platforms), 14, row)
    kept.platforms.append((mask, type_))


def initialization_row(kept, row, kind, body):
    """Refusals 16 to 29."""
    if kind == 17:
        cca_policy(kept, row, body)
    elif kind == 18:
        mask, alignment, gpa, size, minimum, maximum, _, vp, vtl = struct.unpack("<IQQQQQBHB", body)
        refuse(size % PAGE != 0, 17, row)
        refuse(alignment % PAGE != 0, 18, row)
        refuse(alignment == 0, 19, row)
        for address in (gpa, minimum, maximum):
            refuse(address % alignment != 0, 20, row, address)
        sound(kept, row, mask, gpa, size)
        kept.regions.append((kind, mask, gpa, size, vp, vtl))
        kept.bounds.append((mask, (alignment, size, minimum, maximum)))
    elif kind == 19:
        mask, gpa, size, used, vp, vtl = struct.unpack("<IQQQHB", body)
        refuse(gpa % PAGE != 0, 21, row, gpa)
        refuse(size % PAGE != 0, 22, row, size)
        refuse(used % PAGE != 0, 22, row, used)
        refuse(used > size, 23, row)
        refuse(any(kind2 == 19 and mask & mask2 for kind2, mask2, *_ in kept.regions), 26, row)
        sound(kept, row, mask, gpa, size)
        kept.regions.append((kind, mask, gpa, size, vp, vtl))


def cca_policy(kept, row, body):
    mask, zeroes, ones, _ = struct.unpack("<IQQH", body)
    refuse(zeroes & ones != 0, 16, row)
    refuse(kept.arch != AARCH64, 24, row, 17)
    # Of the platforms of one mask the last counts.
    of_mask = dict(kept.platforms)
    for bit in range(32):
        refuse(mask & 1 << bit and of_mask.get(1 << bit) != CCA, 25, row, 1 << bit)


def sound(kept, row, mask, gpa, size):
    """27, 28, 29: a region of either kind among those before it."""
    refuse(size == 0, 27, row)
    refuse(gpa + size > 2**64 - 1, 28, row)
    for _, mask2, gpa2, size2, _, _ in kept.regions:
        refuse(mask & mask2 and gpa < gpa2 + size2 and gpa2 < gpa + size, 29, row)


def directive_row(kept, row, kind, body):
    """Refusals 21, 22, 24 and 30 to 33."""
    if kind in (32, 44, 45, 50, 51):
        gpa, mask = struct.unpack_from("<QI", body)
        refuse(gpa % PAGE != 0, 21, row, gpa)
    if kind == 32:
        refuse(struct.unpack_from("<H", body, 16)[0] > 3, 30, row)
        refuse(len(body) - 18 > 4096, 31, row)
    elif kind == 33:
        size, area = struct.unpack_from("<QI", body)
        refuse(size % PAGE != 0, 22, row, size)
        refuse(len(body) - 12 > size, 31, row)
        refuse(area in kept.allocated, 32, row)
        kept.allocated.add(area)
    elif 34 <= kind <= 43:
        area, _ = struct.unpack("<II", body)
        refuse(area not in kept.allocated or area in kept.inserted, 32, row)
    elif kind == 44:
        size = struct.unpack_from("<I", body, 12)[0]
        refuse(size % PAGE != 0, 22, row, size)
    elif kind in (46, 47):
        refuse(kept.arch != X64, 24, row, kind)
    elif kind in (48, 49):
        refuse(kept.arch != AARCH64, 24, row, kind)
    elif kind == 50:
        area = struct.unpack_from("<I", body, 12)[0]
        refuse(area not in kept.allocated or area in kept.inserted, 32, row)
        for kind2, mask2, gpa2, size2, _, _ in kept.regions:
            refuse(kind2 == 19 and mask & mask2 and gpa2 <= gpa < gpa2 + size2, 33, row)
        kept.inserted.add(area)
    if kind in (47, 48):
        kept.contexts.append(struct.unpack_from("<IB", body))


def lacks_context(kept):
    """34: whether a region of either kind has another VP index than 0, or shares a bit with no VBS context of its VTL."""
    return any(vp != 0 or not any(mask & mask2 and vtl == vtl2 for mask2, vtl2 in kept.contexts) for _, mask, _, _, vp, vtl in kept.regions)


def admitted(s):
    """The three lists of an accepted sheet, and what its rows leave; else Refused is raised."""
    arch, lists = read(s)
    kept = Kept(arch)
    for row in lists[0]:
        platform_row(kept, *row)
    refuse(not lists[0], 15)
    for row in lists[1]:
        initialization_row(kept, *row)
    for row in lists[2]:
        directive_row(kept, *row)
    refuse(lacks_context(kept), 34)
    return lists, kept


def counted(lists):
    return "accepted %d %d %d" % tuple(map(len, lists))


def verdict(s):
    """The counts of rows of an accepted sheet."""
    lists, _ = admitted(s)
    return counted(lists)


def strict_verdict(s):
    """38, where the verdict accepts: a region of either kind has a mask bit that no VBS context of its VTL has. The row is the first such region's, the detail its
    lowest such bit."""
    lists, kept = admitted(s)
    for row, kind, body in lists[1]:
        if kind in (18, 19):
            # In both kinds the mask comes first and the VTL last.
            mask, vtl = int.from_bytes(body[:4], "little"), body[-1]
            for bit in range(32):
                served = any(mask2 & 1 << bit and vtl == vtl2 for mask2, vtl2 in kept.contexts)
                refuse(mask & 1 << bit and not served, 38, row, 1 << bit)
    return counted(lists)


def report_words(s):
    """The word of each row: the number of the refusal that the row meets where every earlier faulty row is skipped and leaves no trace, else 0. And what the rows whose word
    is 0 leave. Refusals 1 to 7."""
    arch, lists = read(s)
    kept = Kept(arch)
    found = []
    for judge, rows in zip((platform_row, initialization_row, directive_row), lists):
        for row in rows:
            try:
                judge(kept, *row)
                found.append(0)
            except Refused as refusal:
                found.append(refusal.args[0])
    return found, kept


def report(s, lent=None):
    """37: a word for each row, in the bytes lent (None: as many as it takes). Then how many rows of how many are faulty, and each fault with its row; 15, if no platform row
    is kept, and 34, of the regions and the contexts that are kept, have row 0."""
    found, kept = report_words(s)
    refuse(lent is not None and lent // 8 < len(found), 37)
    faults = [(number, row) for row, number in enumerate(found, 1) if number != 0]
    said = [f"reported {len(faults)} of {len(found)}", *(f"{number} row {row}" for number, row in faults)]
    said += ["15 row 0"] * (not kept.platforms) + ["34 row 0"] * lacks_context(kept)
    return ", ".join(said)


def matching(s, mask):
    """35: where the regions may go that match the query mask, those whose mask holds every bit of it."""
    _, kept = admitted(s)
    refuse(mask == 0, 35)
    return [where for mask2, where in kept.bounds if mask2 & mask == mask]


def relocations(s, mask, lent):
    """37: eight words for each region, in the bytes lent."""
    regions = matching(s, mask)
    refuse(lent // 8 < 8 * len(regions), 37)
    return "answered"


def chosen(s, mask, region):
    """36: where the region of this number may go."""
    regions = matching(s, mask)
    refuse(region >= len(regions), 36)
    return regions[region]


def contains(s, mask, region, **_):
    chosen(s, mask, region)
    return "answered"


def base_check(s, mask, region, base):
    """1 valid, unless one of these applies, the first in this order: 2 unaligned, 3 below the minimum, 4 above the maximum."""
    alignment, size, minimum, maximum = chosen(s, mask, region)
    if base % alignment != 0:
        return "answered 2"
    if base < minimum:
        return "answered 3"
    if base + size > maximum:
        return "answered 4"
    return "answered 1"


def base_range(s, mask, region, lowest, highest):
    """50; then, of the multiples of the alignment from lowest to highest, ends included: 1 always, if there is one and all are valid; 2 never, if none is
    valid; else 3 sometimes."""
    alignment, size, minimum, maximum = chosen(s, mask, region)
    refuse(lowest > highest, 50)
    multiples = range(-(-lowest // alignment) * alignment, highest + 1, alignment)
    if len(multiples) > 100:
        # The valid ones are those from the minimum to maximum - size, so that whether one is valid changes from one multiple to the next at these two places
        # alone. The first and the last multiple, and those about the two places, are enough: each change in the range lies between two of them.
        about = [multiples[0], multiples[-1]]
        for place in (minimum, maximum - size):
            about += [(place // alignment + step) * alignment for step in (-1, 0, 1)]
        multiples = [base for base in about if base in multiples]
    valid = [minimum <= base and base + size <= maximum for base in multiples]
    if valid and all(valid):
        return "answered 1"
    if not any(valid):
        return "answered 2"
    return "answered 3"


def owning(s, mask):
    """35: start, size and row of each region of either kind that matches the query mask."""
    lists, _ = admitted(s)
    refuse(mask == 0, 35)
    regions = []
    for row, kind, body in lists[1]:
        if kind in (18, 19):
            # Kind 18 has its alignment between mask and gpa.
            mask2, start, size = struct.unpack_from("<I8xQQ" if kind == 18 else "<IQQ", body)
            regions += [(start, size, row)] * (mask2 & mask == mask)
    return regions


def region_of(s, mask, gpa):
    """The row of the region that contains the address, by a full reading; 0 where none does. No two can (29)."""
    rows = [row for start, size, row in owning(s, mask) if start <= gpa < start + size]
    assert len(rows) <= 1
    return "answered %d" % sum(rows)


def region_index(s, mask, lent=None):
    """37: three words for each region, in the bytes lent (None: as many as it takes). Then how many regions there are, and each with start, size and row, the lowest start
    first."""
    regions = sorted(owning(s, mask))
    refuse(lent is not None and lent // 8 < 3 * len(regions), 37)
    return ", ".join([f"indexed {len(regions)}", *("%d size %d row %d" % region for region in regions)])


def region_in(words, gpa):
    """The row that the words of an index say of the address, whatever bytes they are: three words for each region, and bytes left over don't count."""
    for start, size, row in struct.iter_unpack("<QQQ", words[:len(words) // 24 * 24]):
        if start > gpa:
            break
        if gpa < start + size:
            return f"answered {row}"
    return "answered 0"


CALLS = {"verdict": verdict, "strict_verdict": strict_verdict, "report": report, "relocations": relocations, "relocation_base_valid": base_check,
         "relocation_base_range": base_range, "contains": contains, "region_of": region_of, "region_index": region_index, "region_in": region_in}


def line(s, call="verdict"):
    """The line that `admit` writes of a sheet, where the call is the verdict; a sheet of more than 65,536 bytes is answered as by the call.
    Another call has the names of its numbers, each before its number, if it takes some: `relocations mask 1 lent 64`. Where it is refused, the line says so
    likewise; of a base or a range that is checked, it says which answer is given, by its number; of a report all faults, each with its row; of an address its owner's row, or
    0; of an index its regions. `region_in` takes the words of an index for a sheet."""
    name, *words = call.split()
    try:
        return CALLS[name](s, **dict(zip(words[::2], map(int, words[1::2]))))
    except Refused as refusal:
        return "refused %d row %d detail %d" % refusal.args
