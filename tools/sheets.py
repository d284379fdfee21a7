#!/usr/bin/env python3
"""Sample sheets (document 01), each with the line that `admit` has to write of it.

How a sample is made: a row is made by the function of its kind, whose arguments are the fields that differ from the defaults;
the defaults of platform(), region() and x64_vbs() are the three rows of image B. B.platforms(..), B.initializations(..) and
B.directives(..) are B with other rows in that list, B.plus(..) is B with rows after those of their lists, and B.head(..) is B with
other numbers in its head; B.without(..) is B without the rows of these numbers. A is B on AArch64. What can't be said in this way changes the bytes: bytes(B)[:-1],
bytes(B) + b"x".

The line beside a sample is written by hand from the paper. `--check` holds it against tools/model.py.

    tools/sheets.py --check              every line against the model, the model's reports against its verdicts, its indexes against its full reading, and the files of
                                         crates/admit_sheets and of samples against what is written
    tools/sheets.py --list               each sample's name, line and description
    tools/sheets.py --write DIR NAME..   write these samples (no NAME: all of up to 65,536 bytes) into DIR, and print 'name: line' for each
    tools/sheets.py --gate               write args, data/ and stdout of the program crates/admit_sheets
    tools/sheets.py --samples            write the folder samples: one sheet for each refusal, some accepted ones and some of other calls than the verdict, with a README
"""

import itertools
import sys
from dataclasses import dataclass, replace
from pathlib import Path

import model

# ---- the encoder


@dataclass(frozen=True)
class Row:
    kind: int
    body: bytes


def kind(number, layout, **defaults):
    """The function that makes rows of this kind. `tail` is what follows the fields."""
    sizes = {name: int(bits[1:]) // 8 for name, bits in (field.split() for field in layout.split(", "))}

    def row(tail=b"", **fields):
        values = dict.fromkeys(sizes, 0) | defaults | fields
        assert len(values) == len(sizes), fields
        return Row(number, b"".join(values[name].to_bytes(size, "little") for name, size in sizes.items()) + tail)

    return row


platform = kind(1, "mask u32, highest_vtl u8, type u8, version u16, boundary u64", mask=1, version=1)
guest_policy = kind(16, "policy u64, mask u32", mask=1)
cca_policy = kind(17, "mask u32, zeroes u64, ones u64, opaque u16", mask=1)
region = kind(
    18,
    "mask u32, alignment u64, gpa u64, size u64, minimum u64, maximum u64, flags u8, vp u16, vtl u8",
    mask=1, alignment=0x1000, gpa=0x100000, size=0x2000, maximum=0x200000,
)
page_table = kind(19, "mask u32, gpa u64, size u64, used u64, vp u16, vtl u8", mask=1, gpa=0x300000, size=0x2000, used=0x1000)
page_data = kind(32, "gpa u64, mask u32, flags u32, type u16", mask=1)
parameter_area = kind(33, "bytes u64, area u32", bytes=0x1000)
PARAMETERS = [kind(number, "area u32, offset u32") for number in range(34, 44)]
vp_count = PARAMETERS[0]
required_memory = kind(44, "gpa u64, mask u32, bytes u32, protectable u8", mask=1, bytes=0x1000)
snp_vp_context = kind(45, "gpa u64, mask u32, vp u16", mask=1)
x64_native = kind(46, "mask u32, vp u16", mask=1)
x64_vbs = kind(47, "mask u32, vtl u8", mask=1)
aarch64_vbs = kind(48, "mask u32, vtl u8", mask=1)
aarch64_cca = kind(49, "mask u32, vp u16", mask=1)
parameter_insert = kind(50, "gpa u64, mask u32, area u32", mask=1)
error_range = kind(51, "gpa u64, mask u32, bytes u32", mask=1)
snp_id_block = kind(52, "mask u32", mask=1)
vbs_measurement = kind(53, "mask u32", mask=1)


def short(row):
    """The row without the last byte of its body."""
    return Row(row.kind, row.body[:-1])


def long(row):
    """The row with one byte more in its body."""
    return Row(row.kind, row.body + b"\0")


@dataclass(frozen=True)
class Sheet:
    lists: tuple
    revision: int = 1
    arch: int = 0
    reserved: int = 0
    page_size: int = 0
    reserved2: int = 0
    counts: tuple = None  # where they are not those of the lists

    def with_list(self, number, rows):
        return replace(self, lists=self.lists[:number] + (rows,) + self.lists[number + 1:])

    def platforms(self, *rows):
        return self.with_list(0, rows)

    def initializations(self, *rows):
        return self.with_list(1, rows)

    def directives(self, *rows):
        return self.with_list(2, rows)

    def plus(self, *rows):
        for row in rows:
            number = 0 if row.kind < 16 else 1 if row.kind < 32 else 2
            self = self.with_list(number, self.lists[number] + (row,))
        return self

    def without(self, *numbers):
        """The rows of these numbers, from 1 across the lists, are dropped."""
        row = itertools.count(1)
        return replace(self, lists=tuple(tuple(each for each in rows if next(row) not in numbers) for rows in self.lists))

    def head(self, **fields):
        return replace(self, **fields)

    def __bytes__(self):
        numbers = [(self.revision, 1), (self.arch, 1), (self.reserved, 2), (self.page_size, 4)]
        numbers += [(count, 2) for count in self.counts or map(len, self.lists)] + [(self.reserved2, 2)]
        rows = sum(self.lists, ())
        for row in rows:
            numbers += [(row.kind, 4), (len(row.body), 4)]
        return b"".join(value.to_bytes(size, "little") for value, size in numbers) + b"".join(row.body for row in rows)


B = Sheet(((platform(),), (region(),), (x64_vbs(),)))
V2 = B.head(revision=2, page_size=4096)
A = V2.head(arch=1).platforms(platform(type=1)).directives(aarch64_vbs())
CCA = A.platforms(platform(type=6))
TABLE = B.plus(page_table())  # B with a page table: row 3; the context is row 4
AREA = B.plus(parameter_area())  # B with a parameter area of index 0: row 4
TOP = 0xFFFFFFFFFFFFF000  # the highest page


# ---- the samples


@dataclass(frozen=True)
class Sample:
    name: str
    line: str
    what: str
    made: object  # a sheet, its bytes, or, for large ones, a function that gives either

    def bytes(self):
        return bytes(self.made() if callable(self.made) else self.made)


SAMPLES = []


def accepted(name, counts, what, made):
    SAMPLES.append(Sample(name, f"accepted {counts}", what, made))


def refused(name, row, detail, what, made):
    """The name begins with the refusal's number."""
    SAMPLES.append(Sample(name, f"refused {int(name[:2])} row {row} detail {detail}", what, made))


accepted("b", "1 1 1", "image B", B)
accepted("v2", "1 1 1", "B of revision 2, X64", V2)
accepted("aarch64", "1 1 1", "B on AArch64: type 1, context of kind 48", A)
accepted("platform-alone", "1 0 0", "a platform and nothing else", B.initializations().directives())

# 1: the sheet, the table or a body ends early
refused("01-empty", 0, 0, "empty", b"")
refused("01-15-bytes", 0, 0, "one byte short of a head", bytes(B)[:15])
refused("01-15-zeroes", 0, 0, "1 (under 16 bytes) before 2: revision 0", bytes(15))
refused("01-no-table", 0, 0, "B ends after its head", bytes(B)[:16])
refused("01-table", 0, 0, "B ends one byte before its table does", bytes(B)[:39])
refused("01-no-bodies", 1, 0, "B ends after its table", bytes(B)[:40])
refused("01-body-1", 1, 0, "B ends one byte before the body of row 1 does", bytes(B)[:55])
refused("01-body-2", 2, 0, "B ends one byte before the body of row 2 does", bytes(B)[:103])
refused("01-body-3", 3, 0, "B without its last byte", bytes(B)[:-1])
refused("01-tail", 3, 0, "the opaque bytes of the last row end early", bytes(B.directives(x64_vbs(tail=bytes(8))))[:-1])
refused("01-length", 3, 0, "a context of 4,294,967,295 bytes, of which 5 are there", bytes(B)[:36] + b"\xff\xff\xff\xff" + bytes(B)[40:])
refused("01-before-codes", 2, 0, "1 before 5 (codes): flags 8, and the body ends early", bytes(B.initializations(region(flags=8)))[:103])
refused("01-before-row-4", 3, 0, "row 3 ends early, and row 4 is of kind 0", bytes(B.directives(x64_vbs(tail=b"x"), Row(0, b"")))[:-1])

# 2: the head breaks its layout
refused("02-revision-0", 0, 0, "revision 0", B.head(revision=0))
refused("02-revision-3", 0, 0, "revision 3", V2.head(revision=3))
refused("02-arch", 0, 0, "arch 2", V2.head(arch=2))
refused("02-byte-2", 0, 0, "byte 2 not zero", B.head(reserved=1))
refused("02-byte-3", 0, 0, "byte 3 not zero", V2.head(reserved=0x100))
refused("02-byte-14", 0, 0, "byte 14 not zero", B.head(reserved2=1))
refused("02-byte-15", 0, 0, "byte 15 not zero", V2.head(reserved2=0x100))
refused("02-v1-aarch64", 0, 0, "revision 1 with arch 1", A.head(revision=1, page_size=0))
refused("02-v1-page-size", 0, 0, "revision 1 with page size 4096", B.head(page_size=4096))
refused("02-zeroes", 0, 0, "16 zero bytes", bytes(16))
refused("02-before-03", 0, 0, "revision 0, and 65 initialization rows", B.head(revision=0).initializations(*[guest_policy()] * 65))
refused("02-v1-before-03", 0, 0, "revision 1 with page size 4096, and 17 platform rows", B.head(page_size=4096).platforms(*[platform()] * 17))
refused("02-before-01", 0, 0, "revision 0, and no table", bytes(B.head(revision=0))[:16])

# 3: over a limit
refused("03-17-platforms", 0, 0, "17 platform rows", B.platforms(*[platform()] * 17))
refused("14-16-platforms", 2, 0, "16 platform rows are within the limit; their types repeat", B.platforms(*[platform()] * 16))
refused("03-65-initializations", 0, 0, "65 initialization rows", B.initializations(*[guest_policy()] * 65))
accepted("64-initializations", "1 64 1", "64 initialization rows", B.initializations(*[guest_policy()] * 64))
refused("03-head-8193", 0, 0, "8,193 directive rows by the head, of which one is there", B.head(counts=(1, 1, 8193)))
refused("01-head-8192", 0, 0, "8,192 directive rows by the head are within the limit; the table ends early", B.head(counts=(1, 1, 8192)))
accepted("1024-directives", "1 1 1024", "1,024 directive rows, the former limit", B.directives(*[x64_vbs()] * 1024))
accepted("1025-directives", "1 1 1025", "1,025 directive rows", B.directives(*[x64_vbs()] * 1025))
accepted("5453-directives", "1 1 5453", "as many directive rows as 65,536 bytes can have: bodies of four bytes, but for the context", B.plus(*[vbs_measurement()] * 5452))
refused("21-5452-directives", 5454, 1, "one row less, the last a page at gpa 1", B.plus(*[vbs_measurement()] * 5450, page_data(gpa=1)))
refused("04-1025-directives", 1027, 0, "1,025 directive rows, the last of kind 0: over the former limit, it can't be read", B.directives(*[x64_vbs()] * 1024, Row(0, b"")))
refused("03-before-01", 0, 0, "65 initialization rows by the head, and no table", bytes(B.head(counts=(1, 65, 1)))[:16])
refused("03-counts", 0, 0, "65,535 rows in each list by the head", bytes(B.head(counts=(65535, 65535, 65535))))

# 4: a kind not of its list
refused("04-kind-0", 1, 0, "row 1 of kind 0", B.platforms(Row(0, platform().body)))
refused("04-kind-2", 1, 0, "row 1 of kind 2", B.platforms(Row(2, platform().body)))
refused("04-kind-257", 1, 0, "row 1 of kind 257: all four bytes count", B.platforms(Row(257, platform().body)))
refused("04-kind-15", 2, 0, "row 2 of kind 15", B.initializations(Row(15, b"")))
refused("04-kind-20", 2, 0, "row 2 of kind 20", B.initializations(Row(20, b"")))
refused("04-kind-31", 3, 0, "row 3 of kind 31", B.directives(Row(31, b"")))
refused("04-kind-54", 3, 0, "row 3 of kind 54", B.directives(Row(54, b"")))
refused("04-kind-4294967295", 3, 0, "row 3 of the highest kind", B.directives(Row(0xFFFFFFFF, b"")))
refused("04-initialization-first", 1, 0, "an initialization row among the platforms", B.platforms(guest_policy()))
refused("04-platform-late", 2, 0, "a platform row among the initializations", B.initializations(platform()))
refused("04-directive-early", 2, 0, "a directive row among the initializations", B.initializations(x64_vbs()))
refused("04-initialization-late", 3, 0, "an initialization row among the directives", B.directives(guest_policy()))
refused("04-counts", 2, 0, "B whose head says two platforms and one directive", B.head(counts=(2, 0, 1)))
refused("04-before-05", 2, 0, "a directive row among the initializations, its body too short", B.initializations(short(x64_vbs())))
refused("04-before-01", 3, 0, "kind 54, and the sheet ends early", bytes(B.directives(Row(54, bytes(9))))[:-1])
refused("04-row-1", 1, 0, "row 1 of kind 0, row 2 with VTL 3", B.platforms(Row(0, b"")).initializations(region(vtl=3)))

# 5: body length, then codes
EXACT = [platform, guest_policy, cca_policy, region, page_table, *PARAMETERS, required_memory, parameter_insert, error_range]
OPEN = [page_data, parameter_area, snp_vp_context, x64_native, x64_vbs, aarch64_vbs, aarch64_cca, snp_id_block, vbs_measurement]
for make in EXACT + OPEN:
    row = make()
    # the row stands alone in its list, behind one row in each earlier list
    at, into = (1, B.platforms) if row.kind < 16 else (2, B.initializations) if row.kind < 32 else (3, B.directives)
    refused(f"05-kind-{row.kind}-short", at, 0, f"a body of kind {row.kind} that is one byte too short", into(short(row)))
    if make in EXACT:
        refused(f"05-kind-{row.kind}-long", at, 0, f"a body of kind {row.kind} that is one byte too long", into(long(row)))
refused("05-empty-body", 3, 0, "a context with no body", B.directives(Row(47, b"")))
refused("05-vtl-18", 2, 0, "region, VTL 3", B.initializations(region(vtl=3)))
refused("05-vtl-19", 3, 0, "page table, VTL 3", B.plus(page_table(vtl=3)))
refused("05-vtl-47", 3, 0, "context of kind 47, VTL 3", B.directives(x64_vbs(vtl=3)))
refused("05-vtl-48", 3, 0, "context of kind 48, VTL 3", A.directives(aarch64_vbs(vtl=3)))
refused("05-vtl-255", 3, 0, "context, VTL 255", B.directives(x64_vbs(vtl=255)))
refused("05-flags", 2, 0, "region, flags 8", B.initializations(region(flags=8)))
refused("05-protectable", 4, 0, "protectable 2", B.plus(required_memory(protectable=2)))
accepted("vtl-2", "1 2 1", "region, page table and context, VTL 2", B.initializations(region(vtl=2), page_table(vtl=2)).directives(x64_vbs(vtl=2)))
accepted("vtl-2-aarch64", "1 1 1", "region and context of kind 48, VTL 2", A.initializations(region(vtl=2)).directives(aarch64_vbs(vtl=2)))
accepted("flags-7", "1 1 1", "region, flags 7", B.initializations(region(flags=7)))
accepted("protectable-1", "1 1 2", "protectable 1", B.plus(required_memory(protectable=1)))
accepted("page-flags", "1 1 2", "the flags of a page are free", B.plus(page_data(flags=0xFFFFFFFF)))
refused("05-before-01", 2, 0, "5 (length) before 1: the body of row 2 is too long, and cut", bytes(B.initializations(long(region())))[:60])
refused("05-least-before-01", 3, 0, "the body of row 3 is below the least, and cut", bytes(B.directives(short(x64_vbs())))[:-1])
refused("05-before-06", 3, 0, "VTL 3, and one byte more", bytes(B.directives(x64_vbs(vtl=3))) + b"\0")
refused("05-row-1", 1, 0, "the body of row 1 is too short, row 2 is of kind 0", B.platforms(short(platform())).initializations(Row(0, b"")))
refused("05-row-2", 2, 0, "5 (codes) of row 2 before 4 of row 3", B.initializations(region(vtl=3)).directives(Row(0, b"")))
refused("05-before-08", 3, 0, "VTL 3 in row 3, platform mask 3", B.platforms(platform(mask=3)).directives(x64_vbs(vtl=3)))

# 6: bytes left over; 7: page size
refused("06-byte", 0, 0, "one byte more", bytes(B) + b"\0")
refused("06-before-07", 0, 0, "one byte more, and page size 8192", bytes(V2.head(page_size=8192)) + b"\0")
refused("06-before-15", 0, 0, "no rows, and one byte more", bytes(Sheet(((), (), ()))) + b"\0")
refused("07-8192", 0, 8192, "revision 2, page size 8192", V2.head(page_size=8192))
refused("07-0", 0, 0, "revision 2, page size 0", V2.head(page_size=0))
refused("07-4095", 0, 4095, "page size 4095", V2.head(page_size=4095))
refused("07-4097", 0, 4097, "page size 4097", V2.head(page_size=4097))
refused("07-4294967295", 0, 4294967295, "the highest page size", A.head(page_size=0xFFFFFFFF))
refused("07-before-08", 0, 8192, "page size 8192, platform mask 3", V2.head(page_size=8192).platforms(platform(mask=3)))
refused("07-before-15", 0, 8192, "page size 8192, no platform", V2.head(page_size=8192).platforms())

# 8 to 15: platform rows
refused("08-mask-3", 1, 0, "mask 3", B.platforms(platform(mask=3)))
refused("08-mask-0", 1, 0, "mask 0", B.platforms(platform(mask=0)))
refused("08-mask-80000001", 1, 0, "the highest and the lowest bit", B.platforms(platform(mask=0x80000001)))
accepted("mask-80000000", "1 1 1", "the highest mask bit", B.platforms(platform(mask=0x80000000)))
refused("08-before-09", 1, 0, "mask 3, highest VTL 1", B.platforms(platform(mask=3, highest_vtl=1)))
refused("08-before-14", 2, 0, "row 2: mask 3, and row 1's type", B.plus(platform(mask=3)))
accepted("highest-vtl-2", "1 1 1", "highest VTL 2", B.platforms(platform(highest_vtl=2)))
refused("09-highest-vtl-1", 1, 0, "highest VTL 1", B.platforms(platform(highest_vtl=1)))
refused("09-highest-vtl-3", 1, 0, "highest VTL 3: 9, not 5", B.platforms(platform(highest_vtl=3)))
refused("09-highest-vtl-255", 1, 0, "highest VTL 255", B.platforms(platform(highest_vtl=255)))
refused("09-before-12", 1, 0, "highest VTL 1, type 7", B.platforms(platform(highest_vtl=1, type=7)))
refused("12-type-7", 1, 0, "type 7", B.platforms(platform(type=7)))
refused("12-type-255", 1, 0, "type 255", B.platforms(platform(type=255)))
refused("12-before-10", 1, 0, "type 7, version 2", B.platforms(platform(type=7, version=2)))
for type_ in range(6):
    refused(f"10-type-{type_}", 1, 0, f"type {type_}, version 2", B.platforms(platform(type=type_, version=2)))
refused("10-type-6", 1, 0, "type 6 on AArch64, version 2", A.platforms(platform(type=6, version=2)))
refused("10-version-0", 1, 0, "version 0", B.platforms(platform(version=0)))
refused("10-version-257", 1, 0, "version 257: both bytes count", B.platforms(platform(version=257)))
refused("10-before-11", 1, 0, "version 2, boundary 4096", B.platforms(platform(version=2, boundary=4096)))
refused("10-before-13", 1, 0, "type 6 on X64, version 2", B.platforms(platform(type=6, version=2)))
refused("11-type-0", 1, 0, "boundary 4096", B.platforms(platform(boundary=4096)))
refused("11-type-1", 1, 0, "type 1, boundary 1", B.platforms(platform(type=1, boundary=1)))
refused("11-high", 1, 0, "boundary 2^63", B.platforms(platform(boundary=2**63)))
refused("11-before-13", 1, 0, "type 0 on AArch64, boundary 4096", A.platforms(platform(boundary=4096)))
refused("11-before-14", 2, 0, "row 2: boundary 4096, and row 1's type", B.plus(platform(boundary=4096)))
accepted("boundary", "4 1 1", "types 2 to 5 may have a boundary", B.platforms(*[platform(type=type_, boundary=4096) for type_ in (2, 3, 4, 5)]))
accepted("boundary-cca", "1 1 1", "type 6 may have a boundary", A.platforms(platform(type=6, boundary=4096)))
refused("13-type-6", 1, 6, "type 6 on X64", B.platforms(platform(type=6)))
for type_ in (0, 2, 3, 4, 5):
    refused(f"13-type-{type_}", 1, type_, f"type {type_} on AArch64", A.platforms(platform(type=type_)))
SIX = [platform(type=type_, mask=1 << type_) for type_ in range(6)]
TWO = [platform(type=1), platform(type=6, mask=2)]
accepted("x64-types", "6 1 1", "every type of X64, each with a mask of its own", B.platforms(*SIX))
accepted("aarch64-types", "2 1 1", "both types of AArch64", A.platforms(*TWO))
refused("14-twice", 2, 0, "row 1 twice", B.plus(platform()))
refused("14-other-mask", 2, 0, "row 1's type with another mask", B.plus(platform(mask=2)))
refused("14-third", 3, 0, "row 3 repeats row 1's type", B.plus(platform(type=1), platform(highest_vtl=2)))
refused("14-row-2", 2, 0, "row 2 repeats a type, row 3 has mask 3", B.plus(platform(), platform(mask=3)))
refused("10-row-2", 2, 0, "version 2 in row 2, type 7 in row 3", B.plus(platform(type=1, version=2), platform(type=7)))
refused("08-before-19", 1, 0, "platform mask 3, region alignment 0", B.platforms(platform(mask=3)).initializations(region(alignment=0)))
refused("15-no-rows", 0, 0, "counts 0, no rows", Sheet(((), (), ())))
refused("15-no-platform", 0, 0, "B without its platform", B.platforms())
refused("15-before-19", 0, 0, "no platform, region alignment 0", B.platforms().initializations(region(alignment=0)))

# 16, 24, 25: CcaPolicy
refused("16-b", 2, 0, "zeroes 1 and ones 1; 16 before 24 (X64)", B.initializations(cca_policy(zeroes=1, ones=1)))
refused("16-cca", 3, 0, "zeroes 7 and ones 4", CCA.plus(cca_policy(zeroes=7, ones=4)))
refused("16-high", 3, 0, "the highest bit in both", CCA.plus(cca_policy(zeroes=2**63, ones=2**63)))
refused("16-before-25", 3, 0, "zeroes 1 and ones 1, and no CCA", A.plus(cca_policy(zeroes=1, ones=1)))
accepted("policy", "1 2 1", "zeroes 1 and ones 2", CCA.plus(cca_policy(zeroes=1, ones=2, opaque=0xFFFF)))
refused("24-kind-17", 2, 17, "CcaPolicy on X64; 24 before 25", B.initializations(cca_policy()))
refused("25-type-1", 3, 1, "AArch64, type 1", A.plus(cca_policy()))
refused("25-no-platform", 3, 2, "mask 3, CCA at bit 0 alone", CCA.plus(cca_policy(mask=3)))
refused("25-lowest", 4, 1, "mask 7, CCA at bit 1 alone: the lowest failing bit", A.platforms(*TWO).plus(cca_policy(mask=7)))
refused("25-high", 3, 2147483648, "the highest bit without CCA", CCA.plus(cca_policy(mask=0x80000001)))
accepted("policy-last", "2 2 1", "two platforms of one mask, the last is CCA", A.plus(platform(type=6), cca_policy()))
refused("25-last", 4, 1, "two platforms of one mask, the first is CCA", CCA.plus(platform(type=1), cca_policy()))
accepted("cca-first", "2 1 1", "two platforms of one mask, the first is CCA, and no policy asks for it", CCA.plus(platform(type=1)))
refused("32-cca-first", 6, 0, "the same, and area 0 allocated twice", CCA.plus(platform(type=1), parameter_area(), parameter_area()))
accepted("policy-mask-0", "1 2 1", "a CcaPolicy of mask 0 has no bit without CCA", A.plus(cca_policy(mask=0)))
refused("25-before-19", 2, 1, "row 2: no CCA, row 3: alignment 0", A.initializations(cca_policy(), region(alignment=0)))

# 17 to 20: relocatable region
refused("17-size", 2, 0, "size 0x2001", B.initializations(region(size=0x2001)))
refused("17-before-18", 2, 0, "size 0x2001, alignment 0x800", B.initializations(region(size=0x2001, alignment=0x800)))
refused("17-before-19", 2, 0, "size 1, alignment 0", B.initializations(region(size=1, alignment=0)))
refused("18-800", 2, 0, "alignment 0x800", B.initializations(region(alignment=0x800)))
refused("18-1001", 2, 0, "alignment 0x1001", B.initializations(region(alignment=0x1001)))
refused("18-before-20", 2, 0, "alignment 0x800, gpa 0x100400", B.initializations(region(alignment=0x800, gpa=0x100400)))
refused("18-before-27", 2, 0, "alignment 0x800, size 0", B.initializations(region(alignment=0x800, size=0)))
refused("19-alignment", 2, 0, "alignment 0", B.initializations(region(alignment=0)))
refused("19-before-20", 2, 0, "alignment 0, gpa 1", B.initializations(region(alignment=0, gpa=1)))
refused("19-before-27", 2, 0, "alignment 0, size 0", B.initializations(region(alignment=0, size=0)))
refused("20-gpa", 2, 0x100800, "gpa 0x100800", B.initializations(region(gpa=0x100800)))
refused("20-minimum", 2, 0x800, "minimum 0x800", B.initializations(region(minimum=0x800)))
refused("20-maximum", 2, 2**64 - 1, "maximum 2^64 - 1", B.initializations(region(maximum=2**64 - 1)))
refused("20-gpa-first", 2, 1, "gpa 1, minimum 2, maximum 3", B.initializations(region(gpa=1, minimum=2, maximum=3)))
refused("20-minimum-first", 2, 2, "minimum 2, maximum 3", B.initializations(region(minimum=2, maximum=3)))
refused("20-alignment", 2, 0x101000, "alignment 0x2000, gpa 0x101000", B.initializations(region(alignment=0x2000, gpa=0x101000)))
refused("20-3000", 2, 0x100000, "alignment 0x3000, gpa 0x100000", B.initializations(region(alignment=0x3000, maximum=0x300000)))
accepted("alignment-3000", "1 1 1", "alignment 0x3000, no power of two", B.initializations(region(alignment=0x3000, gpa=0x300000, maximum=0x600000)))
accepted("alignment-3000-bits", "1 1 1", "alignment 0x3000; gpa, minimum and maximum are multiples that have bits of 0x2FFF",
         B.initializations(region(alignment=0x3000, gpa=0x303000, minimum=0x6000, maximum=0x606000)))
accepted("alignment-5000", "1 1 1", "alignment 0x5000, no power of two", B.initializations(region(alignment=0x5000, gpa=0x500000, maximum=0xA00000)))
refused("20-3000-gpa", 2, 0x1000, "alignment 0x3000, gpa 0x1000, which has no bit of 0x2FFF",
        B.initializations(region(alignment=0x3000, gpa=0x1000, maximum=0x300000)))
refused("20-3000-minimum", 2, 0x10000, "alignment 0x3000, minimum 0x10000, which has no bit of 0x2FFF",
        B.initializations(region(alignment=0x3000, gpa=0x300000, minimum=0x10000, maximum=0x600000)))
refused("20-3000-maximum", 2, 0x400000, "alignment 0x3000, maximum 0x400000, which has no bit of 0x2FFF",
        B.initializations(region(alignment=0x3000, gpa=0x300000, maximum=0x400000)))
accepted("alignment-large", "1 1 1", "alignment 2^63, gpa 0", B.initializations(region(alignment=2**63, gpa=0, maximum=2**63)))
refused("20-large", 2, 2**62, "alignment 2^63, gpa 2^62", B.initializations(region(alignment=2**63, gpa=2**62, maximum=2**63)))
refused("20-large-maximum", 2, 2**62, "alignment 2^63, maximum 2^62", B.initializations(region(alignment=2**63, gpa=0, maximum=2**62)))
accepted("one-base", "1 1 1", "minimum 0x100000, maximum 0x102000: one base alone is valid", B.initializations(region(minimum=0x100000, maximum=0x102000)))
accepted("minimum-above", "1 1 1", "minimum above maximum", B.initializations(region(minimum=0x201000)))
accepted("maximum-top", "1 1 1", "maximum 2^64 - 0x1000, the highest", B.initializations(region(maximum=TOP)))
refused("20-before-27", 2, 0x100800, "gpa 0x100800, size 0", B.initializations(region(gpa=0x100800, size=0)))
refused("20-before-28", 2, 2**64 - 0x800, "gpa 2^64 - 0x800", B.initializations(region(gpa=2**64 - 0x800)))
refused("17-row-2", 2, 0, "size 0x2001 in row 2, zeroes and ones in row 3", B.initializations(region(size=0x2001), cca_policy(zeroes=1, ones=1)))

# 21 to 23, 26: page table
accepted("page-table", "1 2 1", "B with a page table", TABLE)
refused("21-page-table", 3, 1, "page-table gpa 1", B.plus(page_table(gpa=1)))
refused("21-before-22", 3, 1, "gpa 1, size 2", B.plus(page_table(gpa=1, size=2)))
refused("22-size", 3, 1, "page-table size 1", B.plus(page_table(size=1)))
refused("22-used", 3, 1, "used 1", B.plus(page_table(used=1)))
refused("22-size-first", 3, 2, "size 2, used 1", B.plus(page_table(size=2, used=1)))
refused("22-before-23", 3, 0x2001, "size 0x2000, used 0x2001", B.plus(page_table(used=0x2001)))
refused("23-used", 3, 0, "used 0x2000, size 0x1000", B.plus(page_table(used=0x2000, size=0x1000)))
refused("23-before-26", 4, 0, "a second page table of mask 1, used above size", TABLE.plus(page_table(gpa=0x400000, used=0x3000)))
refused("23-before-27", 3, 0, "size 0, used 0x1000", B.plus(page_table(size=0)))
accepted("used-0", "1 2 1", "used size 0", B.plus(page_table(used=0)))
accepted("used-size", "1 2 1", "used size = size", B.plus(page_table(used=0x2000)))
refused("26-two", 4, 0, "two page tables of mask 1", TABLE.plus(page_table(gpa=0x400000)))
refused("26-shared-bit", 4, 0, "page tables of masks 3 and 6", B.plus(page_table(mask=3), page_table(mask=6, gpa=0x400000)))
refused("26-third", 5, 0, "page tables of masks 1, 2, 1", TABLE.plus(page_table(mask=2), page_table(gpa=0x400000)))
accepted("two-page-tables", "1 3 1", "page tables of masks 1 and 2 at one place", TABLE.directives(x64_vbs(mask=3)).plus(page_table(mask=2)))
refused("26-before-27", 4, 0, "a second page table of mask 1, size 0", TABLE.plus(page_table(gpa=0x400000, size=0, used=0)))
refused("26-before-28", 4, 0, "a second page table of mask 1 at the highest page", TABLE.plus(page_table(gpa=TOP)))
refused("26-before-29", 4, 0, "the same page table twice", TABLE.plus(page_table()))

# 27 to 29: regions of either kind
refused("27-size-0", 2, 0, "size 0", B.initializations(region(size=0)))
refused("27-page-table", 3, 0, "page-table size 0", B.plus(page_table(size=0, used=0)))
refused("27-mask-0", 3, 0, "a region of mask 0 and size 0", B.plus(region(mask=0, size=0)))
refused("27-before-29", 3, 0, "a region of size 0 within another", B.plus(region(gpa=0x101000, size=0)))
refused("28-region", 2, 0, "gpa 0xFFFFFFFFFFFFE000, size 0x2000: the sum is 2^64", B.initializations(region(gpa=TOP - 0x1000)))
accepted("top", "1 1 1", "gpa 0xFFFFFFFFFFFFD000: the sum is one page below 2^64", B.initializations(region(gpa=TOP - 0x2000)))
refused("28-page-table", 3, 0, "the same for a page table", B.plus(page_table(gpa=TOP - 0x1000)))
accepted("top-page-table", "1 2 1", "a page table whose sum is one page below 2^64", B.plus(page_table(gpa=TOP - 0x2000)))
refused("28-both-large", 2, 0, "gpa and size both the highest", B.initializations(region(gpa=TOP, size=TOP)))
refused("28-large-size", 2, 0, "gpa 0x1000, size 2^64 - 0x1000", B.initializations(region(gpa=0x1000, size=TOP)))
accepted("large-size", "1 1 1", "gpa 0, size 2^64 - 0x1000", B.initializations(region(gpa=0, size=TOP)))
refused("28-mask-0", 3, 0, "a region of mask 0 at the highest page", B.plus(region(mask=0, gpa=TOP)))
refused("28-before-29", 3, 0, "a second region that reaches 2^64 and overlaps", B.initializations(region(gpa=TOP - 0x2000), region(gpa=TOP - 0x1000)))
refused("29-region", 3, 0, "second region at 0x101000", B.plus(region(gpa=0x101000)))
accepted("second-region", "1 2 1", "second region at 0x102000", B.plus(region(gpa=0x102000)))
refused("29-below", 3, 0, "second region at 0xFF000", B.plus(region(gpa=0xFF000)))
accepted("second-below", "1 2 1", "second region at 0xFE000", B.plus(region(gpa=0xFE000)))
refused("29-same", 3, 0, "row 2 twice", B.plus(region()))
refused("29-around", 3, 0, "second region from 0xFF000 to 0x103000", B.plus(region(gpa=0xFF000, size=0x4000)))
refused("29-within", 3, 0, "second region of one page within the first", B.initializations(region(size=0x4000), region(gpa=0x101000, size=0x1000)))
refused("29-third", 4, 0, "row 4 overlaps row 2, not row 3", B.plus(region(gpa=0x104000), region(gpa=0x101000)))
refused("29-shared-bit", 3, 0, "masks 3 and 6 share a bit", B.initializations(region(mask=3), region(mask=6)).directives(x64_vbs(mask=7)))
accepted("apart-by-mask", "1 2 1", "regions of masks 1 and 2 at one place", B.plus(region(mask=2)).directives(x64_vbs(mask=3)))
refused("29-page-table-after", 3, 0, "a page table in the region", B.plus(page_table(gpa=0x101000)))
refused("29-page-table-before", 3, 0, "a region in the page table", B.initializations(page_table(), region(gpa=0x301000)))
LONG = region(size=0x40000)  # from 0x100000 to 0x140000
WITHIN = [region(mask=2, gpa=gpa) for gpa in (0x110000, 0x118000, 0x120000)]  # of another mask, each within LONG
APART = B.directives(x64_vbs(mask=3))
DOWN = [region(gpa=0x200000 - 0x3000 * number) for number in range(64)]
refused("29-long-below-others", 6, 0, "a long region, three of another mask within it, and one that starts at its last page",
        APART.initializations(LONG, *WITHIN, region(gpa=0x13F000)))
accepted("long-below-others", "1 5 1", "the same, the last starts where the long region ends", APART.initializations(LONG, *WITHIN, region(gpa=0x140000)))
refused("29-long-last", 5, 0, "two regions of another mask, one of mask 1 at 0x13E000, and a long region that reaches into it", APART.initializations(*WITHIN[:2], region(gpa=0x13E000), LONG))
accepted("long-last", "1 4 1", "the same, and the region begins where the long one ends", APART.initializations(*WITHIN[:2], region(gpa=0x140000), LONG))
accepted("64-regions-down", "1 64 1", "64 regions with a page between each two, the highest first", B.initializations(*DOWN))
refused("29-64-regions-down", 65, 0, "64 regions, the highest first; the last fills the page between two of them, and one more", B.initializations(*DOWN[:-1], region(gpa=0x1A2000)))
accepted("regions-over-one-another", "1 4 1", "regions of mask 1 at 0x180000 and from 0x100000 to 0x140000, one of mask 2 within the second, a page table of mask 3 at 0x160000",
         APART.initializations(region(gpa=0x180000), LONG, WITHIN[0], page_table(mask=3, gpa=0x160000, size=0x4000)))
refused("29-row-3", 3, 0, "row 3 overlaps, row 4 has size 0x2001", B.plus(region(gpa=0x101000), region(gpa=0x104000, size=0x2001)))
refused("29-before-21", 3, 0, "row 3 overlaps, a page at gpa 1", B.plus(region(gpa=0x101000), page_data(gpa=1)))
refused("34-mask-0-overlaps", 0, 0, "a region of mask 0 overlaps none, and has no context", B.plus(region(mask=0)))

# 21, 22, 30, 31: directive rows by themselves
accepted("every-x64-kind", "1 3 20", "a row of every kind that X64 takes, each body of least length", B.plus(
    guest_policy(), page_table(), page_data(), parameter_area(), *[make() for make in PARAMETERS],
    required_memory(), snp_vp_context(), x64_native(), parameter_insert(), error_range(), snp_id_block(), vbs_measurement(),
))
accepted("every-aarch64-kind", "1 4 20", "a row of every kind that AArch64 takes", CCA.plus(
    cca_policy(), guest_policy(), page_table(), page_data(), parameter_area(), *[make() for make in PARAMETERS],
    required_memory(), snp_vp_context(), aarch64_cca(), parameter_insert(), error_range(), snp_id_block(), vbs_measurement(),
))
accepted("opaque", "1 1 6", "opaque bytes of any length", B.plus(
    snp_vp_context(tail=bytes(range(256))), x64_native(tail=b"x"), x64_vbs(tail=b"xyz"),
    snp_id_block(tail=bytes(5)), vbs_measurement(tail=b"\xff" * 300),
))
accepted("opaque-aarch64", "1 1 3", "the same in kinds 48 and 49", A.plus(aarch64_vbs(tail=b"xyz"), aarch64_cca(tail=b"x")))
for make in (page_data, required_memory, snp_vp_context, parameter_insert, error_range):
    refused(f"21-kind-{make().kind}", 4, 0x1800, f"kind {make().kind}, gpa 0x1800", B.plus(make(gpa=0x1800)))
refused("21-high", 4, 2**64 - 1, "gpa 2^64 - 1", B.plus(page_data(gpa=2**64 - 1)))
accepted("page-top", "1 1 2", "a page at the highest page", B.plus(page_data(gpa=TOP)))
refused("30-type-4", 4, 0, "page type 4", B.plus(page_data(type=4)))
refused("30-type-256", 4, 0, "page type 256: both bytes count", B.plus(page_data(type=256)))
accepted("page-types", "1 1 5", "page types 0 to 3", B.plus(*[page_data(type=type_) for type_ in range(4)]))
refused("21-before-30", 4, 1, "gpa 1, page type 4", B.plus(page_data(gpa=1, type=4)))
refused("30-before-31", 4, 0, "page type 4, 4,097 bytes", B.plus(page_data(type=4, tail=bytes(4097))))
refused("31-page", 4, 0, "4,097 bytes", B.plus(page_data(tail=bytes(4097))))
accepted("page-4096", "1 1 2", "4,096 bytes", B.plus(page_data(tail=bytes(4096))))
refused("22-area", 4, 1, "area of 1 byte", B.plus(parameter_area(bytes=1)))
refused("22-area-high", 4, 2**64 - 1, "area of 2^64 - 1 bytes", B.plus(parameter_area(bytes=2**64 - 1)))
refused("22-memory", 4, 0xFFFFFFFF, "RequiredMemory of 4,294,967,295 bytes", B.plus(required_memory(bytes=0xFFFFFFFF)))
refused("21-before-22-memory", 4, 1, "RequiredMemory at gpa 1, of 2 bytes", B.plus(required_memory(gpa=1, bytes=2)))
refused("22-before-31", 4, 1, "area of 1 byte, 2 bytes of data", B.plus(parameter_area(bytes=1, tail=bytes(2))))
refused("31-area", 4, 0, "4,097 bytes in an area of 4,096", B.plus(parameter_area(tail=bytes(4097))))
accepted("area-4096", "1 1 2", "4,096 bytes in an area of 4,096", B.plus(parameter_area(tail=bytes(4096))))
accepted("area-4097", "1 1 2", "4,097 bytes in an area of 8,192: 4,096 is a page's limit", B.plus(parameter_area(bytes=0x2000, tail=bytes(4097))))
refused("31-area-0", 4, 0, "1 byte in an area of 0", B.plus(parameter_area(bytes=0, tail=b"x")))
accepted("area-0", "1 1 2", "an area of 0 bytes", B.plus(parameter_area(bytes=0)))
accepted("area-large", "1 1 2", "an area of 2^64 - 0x1000 bytes", B.plus(parameter_area(bytes=TOP, tail=b"x")))
refused("31-before-32", 5, 0, "area 0 again, its data over the area", AREA.plus(parameter_area(bytes=0, tail=b"x")))
accepted("error-range", "1 1 2", "the bytes of an ErrorRange are free", B.plus(error_range(bytes=1)))

# 24: kind against arch
refused("24-kind-48", 3, 48, "kind 48 on X64", B.directives(aarch64_vbs()))
refused("24-kind-49", 4, 49, "kind 49 on X64", B.plus(aarch64_cca()))
refused("24-kind-46", 4, 46, "kind 46 on AArch64", A.plus(x64_native()))
refused("24-kind-47", 4, 47, "kind 47 on AArch64", A.plus(x64_vbs()))
refused("24-row-3", 3, 48, "row 3 of kind 48, row 4 at gpa 1", B.directives(aarch64_vbs(), page_data(gpa=1)))
refused("21-row-4", 4, 1, "row 4 at gpa 1, row 5 of kind 48", B.plus(page_data(gpa=1), aarch64_vbs()))

# 32: area indexes
for make in PARAMETERS:
    refused(f"32-kind-{make().kind}", 4, 0, f"kind {make().kind}, no area", B.plus(make()))
refused("32-insert", 4, 0, "insert, no area", B.plus(parameter_insert()))
refused("32-other-index", 5, 0, "area 0, and area 1 named", AREA.plus(vp_count(area=1)))
refused("32-too-early", 4, 0, "an area named a row before it is allocated", B.plus(vp_count(), parameter_area()))
refused("32-twice", 5, 0, "area 0 allocated twice", AREA.plus(parameter_area()))
refused("32-named-late", 6, 0, "named after the insert", AREA.plus(parameter_insert(), vp_count()))
refused("32-inserted-twice", 6, 0, "inserted twice", AREA.plus(parameter_insert(), parameter_insert(gpa=0x1000)))
refused("32-again", 6, 0, "allocated again after the insert", AREA.plus(parameter_insert(), parameter_area()))
accepted("areas", "1 1 8", "two areas, named and inserted in turn", B.plus(
    parameter_area(area=7), parameter_area(area=0xFFFFFFFF), vp_count(area=7), vp_count(area=0xFFFFFFFF, offset=0xFFFFFFFF),
    parameter_insert(area=7), vp_count(area=0xFFFFFFFF), parameter_insert(area=0xFFFFFFFF),
))
refused("32-one-inserted", 7, 0, "area 1 inserted and named again, area 0 not", AREA.plus(
    parameter_area(area=1), parameter_insert(area=1), vp_count(area=1)
))
refused("21-before-32", 4, 1, "insert at gpa 1, no area", B.plus(parameter_insert(gpa=1)))
refused("32-row-4", 4, 0, "row 4 names no area, row 5 has page type 4", B.plus(vp_count(), page_data(type=4)))

# 33: insert in a page table
IN_TABLE = TABLE.plus(parameter_area())  # the area is row 5
refused("33-gpa", 6, 0, "insert at the page table's gpa", IN_TABLE.plus(parameter_insert(gpa=0x300000)))
refused("33-last", 6, 0, "insert at its last page, past its used size", IN_TABLE.plus(parameter_insert(gpa=0x301000)))
accepted("insert-behind", "1 2 3", "insert just behind the page table", IN_TABLE.plus(parameter_insert(gpa=0x302000)))
accepted("insert-before", "1 2 3", "insert just before the page table", IN_TABLE.plus(parameter_insert(gpa=0x2FF000)))
accepted("insert-other-mask", "1 2 3", "insert of mask 2 in a page table of mask 1", IN_TABLE.plus(parameter_insert(gpa=0x300000, mask=2)))
accepted("insert-mask-0", "1 2 3", "insert of mask 0 in a page table", IN_TABLE.plus(parameter_insert(gpa=0x300000, mask=0)))
accepted("insert-in-region", "1 1 3", "insert in a relocatable region", AREA.plus(parameter_insert(gpa=0x100000)))
refused("33-second-table", 7, 0, "insert of mask 2 in the second page table", IN_TABLE.plus(
    page_table(mask=2, gpa=0x400000), parameter_insert(gpa=0x401000, mask=2)
))
refused("21-before-33", 6, 0x300001, "insert at 0x300001, in the page table", IN_TABLE.plus(parameter_insert(gpa=0x300001)))
refused("32-before-33", 5, 0, "insert in the page table, no area", TABLE.plus(parameter_insert(gpa=0x300000)))
refused("33-row-6", 6, 0, "row 6 in the page table, row 7 inserts again", IN_TABLE.plus(parameter_insert(gpa=0x300000), parameter_insert()))

# 34: a region without its context
refused("34-mask", 0, 0, "context mask 2", B.directives(x64_vbs(mask=2)))
refused("34-none", 0, 0, "no context", B.directives())
refused("34-vp", 0, 0, "region, VP 1", B.initializations(region(vp=1)))
refused("34-vp-256", 0, 0, "region, VP 256: both bytes count", B.initializations(region(vp=256)))
refused("34-vtl", 0, 0, "region of VTL 0, context of VTL 1", B.directives(x64_vbs(vtl=1)))
refused("34-page-table", 0, 0, "page table of VTL 1, context of VTL 0", B.plus(page_table(vtl=1)))
refused("34-page-table-vp", 0, 0, "page table, VP 1", B.plus(page_table(vp=1)))
refused("34-mask-0", 0, 0, "a region of mask 0 shares a bit with no context", B.plus(region(mask=0, gpa=0x400000)))
refused("34-page-table-mask-0", 0, 0, "a page table of mask 0", B.plus(page_table(mask=0)))
refused("34-native", 0, 0, "a context of kind 46 is no VBS context", B.directives(x64_native()))
refused("34-cca", 0, 0, "a context of kind 49 is no VBS context", A.directives(aarch64_cca()))
refused("34-two-contexts", 0, 0, "region mask 4, contexts of masks 1 and 2", B.initializations(region(mask=4)).plus(x64_vbs(mask=2)))
refused("34-crossed", 0, 0, "mask 1 at VTL 1 and mask 2 at VTL 0 for a region of mask 1, VTL 0", B.directives(x64_vbs(vtl=1), x64_vbs(mask=2)))
refused("34-second", 0, 0, "the second of two regions has no context", B.plus(region(gpa=0x102000, vtl=1)))
accepted("mask-3", "1 1 1", "region mask 3, context mask 1: one shared bit is enough", B.initializations(region(mask=3)))
accepted("vtls", "1 3 3", "a region of each VTL, a context for each", B.plus(
    region(gpa=0x102000, vtl=1), region(gpa=0x104000, vtl=2)
).directives(x64_vbs(vtl=2), x64_vbs(vtl=0), x64_vbs(vtl=1)))
accepted("mask-3-two-contexts", "1 1 2", "region mask 3, contexts of masks 1 and 2", B.initializations(region(mask=3)).plus(x64_vbs(mask=2)))
accepted("mask-3-other-vtl", "1 1 2", "region mask 3, context mask 1, and context mask 2 of VTL 1", B.initializations(region(mask=3)).plus(x64_vbs(mask=2, vtl=1)))
accepted("mask-3-other-contexts", "1 1 3", "region mask 3, context mask 1, and contexts of mask 2 that are no VBS contexts, kinds 45 and 46",
         B.initializations(region(mask=3)).plus(snp_vp_context(mask=2), x64_native(mask=2)))
accepted("mask-80000001", "1 1 1", "region of the highest and the lowest mask bit, context mask 1", B.initializations(region(mask=0x80000001)))
accepted("page-table-mask-3", "1 2 1", "page table of mask 3, context mask 1", B.plus(page_table(mask=3)))
accepted("page-table-mask-5-first", "1 2 1", "page table of mask 5, then region mask 3, context mask 1", B.initializations(page_table(mask=5), region(mask=3)))
accepted("page-table-mask-5-last", "1 2 1", "region mask 3, then page table of mask 5, context mask 1", B.initializations(region(mask=3), page_table(mask=5)))
accepted("masks-1-13-3", "1 3 1", "regions of masks 1, 13 and 3, context mask 1", B.plus(region(mask=13, gpa=0x102000), region(mask=3, gpa=0x104000)))
refused("34-mask-3", 0, 0, "region mask 3, context mask 1, then a region without its context", B.initializations(region(mask=3), region(gpa=0x102000, vtl=1)))
accepted("context-late", "1 1 3", "the context behind other rows", B.directives(parameter_area(), page_data(), x64_vbs()))
refused("32-before-34", 4, 0, "34 last: context mask 2, and row 4 names no area", B.directives(x64_vbs(mask=2), vp_count()))

# faults in several rows: what a report tells of the later ones, which the verdict does not come to
refused("08-every-row", 1, 0, "platform mask 3, region alignment 0, a context of kind 48 on X64",
        B.platforms(platform(mask=3)).initializations(region(alignment=0)).directives(aarch64_vbs()))
refused("10-type-again", 1, 0, "type 0 of version 2, then type 0, then type 0 again", B.platforms(platform(version=2), platform(), platform(mask=2)))
refused("10-last-of-a-mask", 2, 0, "CCA of mask 1, type 1 of that mask and version 2, CCA again of mask 2, and a CcaPolicy of each mask",
        CCA.plus(platform(type=1, version=2), platform(type=6, mask=2), cca_policy(), cca_policy(mask=2)))
refused("15-faulty-rows", 0, 0, "no platform; a region, a CcaPolicy of mask 3, a region of alignment 0",
        A.platforms().initializations(region(), cca_policy(mask=3), region(alignment=0)))
refused("26-masks-1-3-2", 4, 0, "page tables of masks 1, 3 and 2, the last two at one place",
        TABLE.plus(page_table(mask=3, gpa=0x400000), page_table(mask=2, gpa=0x400000)).directives(x64_vbs(mask=3)))
refused("27-five-page-tables", 3, 0, "page tables of mask 1: of size 0, at the highest page, in the region, and twice at places of their own",
        B.plus(page_table(size=0, used=0), page_table(gpa=TOP), page_table(gpa=0x101000), page_table(), page_table(gpa=0x400000)))
refused("29-masks-2-7-1-4", 3, 0, "regions of masks 2, 7, 1 and 4 at one place",
        B.initializations(*[region(mask=mask) for mask in (2, 7, 1, 4)]).directives(x64_vbs(mask=7)))
refused("29-without-context", 3, 0, "row 3 overlaps, and has no context", B.plus(region(gpa=0x101000, vtl=1)))
refused("21-vp-1", 4, 1, "region, VP 1, and a page at gpa 1", B.initializations(region(vp=1)).plus(page_data(gpa=1)))
refused("22-area-allocated-again", 4, 0x800, "area 0 of 0x800 bytes, named; area 1 of no bytes with one of data, inserted; area 0 allocated again, named and inserted", B.plus(
    parameter_area(bytes=0x800), vp_count(), parameter_area(bytes=0, area=1, tail=b"x"), parameter_insert(area=1), parameter_area(), vp_count(), parameter_insert(),
))
refused("24-only-context", 3, 48, "the region's only context is of kind 48; a page of type 4", B.directives(aarch64_vbs(), page_data(type=4)))
refused("32-again-and-named", 6, 0, "area 0 inserted, allocated again, named, and inserted again",
        AREA.plus(parameter_insert(), parameter_area(), vp_count(), parameter_insert(gpa=0x1000)))
refused("33-inserted-again", 6, 0, "area 0 inserted in the page table, named, inserted elsewhere, and inserted once more",
        IN_TABLE.plus(parameter_insert(gpa=0x300000), vp_count(), parameter_insert(), parameter_insert(gpa=0x1000)))
refused("08-many-faults", 2, 0, "faults in all three lists, and rows between them that are in order", B.platforms(
    platform(), platform(type=1, mask=6), platform(type=2, mask=2, version=2), platform(type=2, mask=2), platform(mask=4),
).initializations(
    region(), region(gpa=0x101000), region(gpa=0x102000), region(gpa=0x106000, alignment=0), region(gpa=0x108000, vtl=1), page_table(gpa=1), page_table(),
).directives(
    x64_vbs(), page_data(type=4), parameter_area(bytes=0x800), vp_count(), parameter_area(), parameter_insert(gpa=0x301000), parameter_insert(gpa=0x500000),
    aarch64_vbs(vtl=1),
))

# an accepted image of which rows are dropped: the rest is accepted, but for rows that must remain
BEFORE = B.plus(
    region(gpa=0x102000), page_table(), guest_policy(),  # rows 3 to 5, behind the region of B; the context of B is row 6
    page_data(gpa=0x1000, tail=b"page"), parameter_area(area=7, tail=b"area 7"), parameter_area(area=8, tail=b"area 8"),  # rows 7 to 9
    vp_count(area=7), PARAMETERS[8](area=7, offset=0x800), parameter_insert(area=7, gpa=0x400000), snp_id_block(tail=b"ID block"),  # rows 10 to 13
)
accepted("trimmed-before", "1 4 8", "two regions, a page table, a policy, a context, a page, areas 7 and 8, of which 7 is named twice and inserted, and an ID block", BEFORE)
accepted("trimmed-after", "1 2 5", "the same without a region, the page table, the page, area 8, which no row names, and one of the two rows that name area 7", BEFORE.without(2, 4, 7, 9, 11))
accepted("trimmed-area-unnamed", "1 4 4", "the same as the first without area 7 and all rows that name it", BEFORE.without(8, 10, 11, 12))
accepted("trimmed-most", "1 0 1", "a platform and the context are left of the first", BEFORE.without(2, 3, 4, 5, *range(7, 14)))
refused("34-trimmed-no-context", 0, 0, "the first without its context", BEFORE.without(6))
refused("32-trimmed-no-area", 9, 0, "the first without area 7, which three rows name", BEFORE.without(8))

# the largest lists
SIXTY_FOUR = [region(gpa=0x2000 * number, maximum=TOP) for number in range(64)]
FULL = B.platforms(*SIX).initializations(*SIXTY_FOUR)
NAMING = [row for area in range(256) for row in (
    parameter_area(area=area), PARAMETERS[area % 10](area=area), PARAMETERS[9 - area % 10](area=area), parameter_insert(area=area)
)]
accepted("former-largest-lists", "6 64 1024", "as many rows as could be accepted within the former limits", FULL.directives(*[page_data()] * 1023, x64_vbs()))
refused("34-former-largest-lists", 0, 0, "the same, the last region without its context", FULL.initializations(
    *SIXTY_FOUR[:-1], region(gpa=0x7E000, vtl=1)
).directives(*[x64_vbs()] * 1024))
refused("29-64-regions", 65, 0, "64 regions, the last overlaps the first", B.initializations(*SIXTY_FOUR[:-1], region(gpa=0x1000, size=0x1000)))
accepted("1024-areas", "1 0 1024", "1,024 rows naming 256 areas, each allocated, named twice and inserted", B.initializations().directives(*NAMING))
refused("32-1024-areas", 1025, 0, "the same, the last row names the first area again", B.initializations().directives(*NAMING[:-1], vp_count(area=0)))

# many areas: indexes below 1,024, spread over 32 bits from 1,024 on, and all of one root in the library's table of areas
ALONE = B.initializations().directives()  # a platform and nothing else
SPREAD = [524287 * number for number in range(1, 8193)]
CROWDED = [340573321 * number % 2**32 for number in range(1, 8193)]


def allocated(areas):
    return [parameter_area(area=area) for area in areas]


def inserted(areas):
    """Each area allocated, named and inserted."""
    return [row for area in areas for row in (parameter_area(area=area), vp_count(area=area), parameter_insert(area=area))]


accepted("1024-spread-areas", "1 0 3072", "1,024 areas with indexes from 1,024 on, each allocated, named and inserted", ALONE.plus(*inserted(SPREAD[:1024])))
accepted("1025-spread-areas", "1 0 3075", "1,025 such areas", ALONE.plus(*inserted(SPREAD[:1025])))
refused("32-1025-spread-areas", 3076, 0, "the same, the last row inserts the first area again", ALONE.plus(
    *inserted(SPREAD[:1025])[:-1], parameter_insert(area=SPREAD[0])
))
refused("32-1025-again", 1027, 0, "1,025 such areas, then the first allocated again, then a page of type 4", ALONE.plus(
    *allocated(SPREAD[:1025]), parameter_area(area=SPREAD[0]), page_data(type=4)
))
refused("21-1025-spread-areas", 1027, 1, "1,025 such areas, then a page at gpa 1", ALONE.plus(*allocated(SPREAD[:1025]), page_data(gpa=1)))
refused("33-1025-spread-areas", 1030, 0, "1,025 such areas, then the last inserted in the page table", TABLE.plus(
    *allocated(SPREAD[:1025]), parameter_insert(area=SPREAD[1024], gpa=0x301000)
))
refused("34-1025-spread-areas", 0, 0, "1,025 such areas, and a region without its context", B.directives(*allocated(SPREAD[:1025])))
refused("06-1025-spread-areas", 0, 0, "1,025 such areas, and one byte more", bytes(ALONE.plus(*allocated(SPREAD[:1025]))) + b"\0")
accepted("1025-areas-and-context", "1 2 1026", "1,025 such areas behind the context of a region and a page table", TABLE.plus(*allocated(SPREAD[:1025])))
refused("22-1025-spread-areas", 2, 0x800, "1,025 such areas, every 256th of 0x800 bytes, then each named", ALONE.plus(
    *[parameter_area(area=area, bytes=0x1000 if number % 256 else 0x800) for number, area in enumerate(SPREAD[:1025])], *[vp_count(area=area) for area in SPREAD[:1025]]
))
accepted("2048-areas", "1 0 2048", "1,024 areas with indexes below 1,024, then 1,024 from there on", ALONE.plus(*allocated(range(2048))))
accepted("2049-areas", "1 0 2049", "one area more", ALONE.plus(*allocated(range(2049))))
accepted("3274-areas", "1 0 3274", "as many areas as 65,536 bytes can have, all of one root", ALONE.plus(*allocated(CROWDED[:3274])))
refused("32-3274-areas", 3275, 0, "the same, the last is the first again", ALONE.plus(*allocated(CROWDED[:3273] + CROWDED[:1])))

# Of more than 65,536 bytes the line is that of the call; `admit` refuses them all by 3.
FORMER_LIMIT, LIMIT = 16777216, 67108864


def of_length(length, sheet=B):
    """The sheet with as many opaque bytes in its last row, a context, as the length asks."""
    *rows, last = sheet.lists[2]
    return sheet.directives(*rows, Row(last.kind, last.body + bytes(length - len(bytes(sheet)))))


accepted("65536-bytes", "1 1 1", "B of 65,536 bytes", lambda: of_length(65536))
accepted("65537-bytes", "1 1 1", "B of 65,537 bytes", lambda: of_length(65537))
accepted("6000-pages", "1 1 6001", "a context and 6,000 pages", lambda: B.plus(*[page_data(gpa=0x1000 * page) for page in range(6000)]))
accepted("8192-directives", "1 1 8192", "8,192 directive rows; with its entry of the table a row takes at least 12 bytes, so that 65,536 bytes can't have as many",
         lambda: B.directives(*[x64_vbs()] * 8192))
refused("03-8193-directives", 0, 0, "8,193 directive rows", lambda: B.directives(*[x64_vbs()] * 8193))
accepted("8192-areas", "1 0 8192", "8,192 areas spread over 32 bits", lambda: ALONE.plus(*allocated(SPREAD)))
refused("32-8192-areas", 8193, 0, "the same, the last is the first again", lambda: ALONE.plus(*allocated(SPREAD[:-1] + SPREAD[:1])))
accepted("8192-crowded-areas", "1 0 8192", "8,192 areas of one root", lambda: ALONE.plus(*allocated(CROWDED)))
accepted("2730-areas", "1 0 8190", "2,730 areas, each allocated, named and inserted", lambda: ALONE.plus(*inserted(SPREAD[:2730])))
accepted("largest-lists", "6 64 8192", "as many rows as can be accepted: X64 has six types", lambda: FULL.directives(*[page_data()] * 8191, x64_vbs()))
refused("34-largest-lists", 0, 0, "the same number of rows, the last region without its context", lambda: FULL.initializations(
    *SIXTY_FOUR[:-1], region(gpa=0x7E000, vtl=1)
).directives(*[x64_vbs()] * 8192))
refused("30-largest-lists", 8262, 0, "the largest lists, the last row a page of type 4", lambda: FULL.directives(
    *[page_data()] * 8190, x64_vbs(), page_data(type=4)
))
accepted("16777216-bytes", "1 1 1", "B of 16,777,216 bytes, the former limit", lambda: of_length(FORMER_LIMIT))
accepted("16777217-bytes", "1 1 1", "B of 16,777,217 bytes", lambda: of_length(FORMER_LIMIT + 1))
refused("06-16777217-bytes", 0, 0, "B and zeroes behind it, 16,777,217 bytes: over the former limit, it can't be read",
        lambda: bytes(B).ljust(FORMER_LIMIT + 1, b"\0"))
accepted("largest-sheet", "6 64 8192", "the largest lists in 67,108,864 bytes, every page full", lambda: of_length(
    LIMIT, FULL.directives(*[page_data(tail=bytes(4096))] * 8191, x64_vbs())
))
refused("03-bytes", 0, 0, "B of 67,108,865 bytes", lambda: of_length(LIMIT + 1))
refused("02-before-03-bytes", 0, 0, "67,108,865 zero bytes", lambda: bytes(LIMIT + 1))


# ---- the program of the gate

ADMIT_BYTES = 65536
REPOSITORY = Path(__file__).resolve().parent.parent
CRATE = REPOSITORY / "crates" / "admit_sheets"


def small():
    return [sample for sample in SAMPLES if len(sample.bytes()) <= ADMIT_BYTES]


def named(names):
    by_name = {sample.name: sample for sample in SAMPLES}
    return [by_name[name] for name in names]


def gate_files():
    """The files of the crate's folder by name. The last argument names no file."""
    samples = small()
    names = [sample.name for sample in samples] + ["missing"]
    lines = [sample.line for sample in samples] + ["can't be opened"]
    files = {"data/" + sample.name: sample.bytes() for sample in samples}
    files["args"] = "".join(name + "\n" for name in names).encode()
    files["stdout"] = "".join(f"{name}: {text}\n" for name, text in zip(names, lines)).encode()
    return files


# ---- the folder samples


@dataclass(frozen=True)
class Shown:
    """A file of the folder: the sample that it holds, what it shows, and a call with its line where it is not the verdict's."""

    file: str
    name: str
    what: str
    call: str = "verdict"
    line: str = None

    def sample(self):
        return named([self.name])[0]

    def answer(self):
        return self.line or self.sample().line


SHOWN = [
    Shown("accepted-image-b", "b", "image B: a NATIVE platform, a relocatable region and its VBS context"),
    Shown("accepted-revision-2", "v2", "image B of revision 2: X64, page size 4096"),
    Shown("accepted-aarch64", "aarch64", "AArch64: a VSM_ISOLATION platform, a region and its context"),
    Shown("accepted-every-x64-kind", "every-x64-kind", "a row of every kind that X64 takes"),
    Shown("accepted-every-aarch64-kind", "every-aarch64-kind", "a row of every kind that AArch64 takes, on a CCA platform"),
    Shown("accepted-six-platforms", "x64-types", "every platform type of X64, each with a mask of its own"),
    Shown("accepted-page-table", "page-table", "a relocatable region and a page-table region"),
    Shown("accepted-three-vtls", "vtls", "three regions of one mask, each with a context of its VTL"),
    Shown("accepted-two-masks", "apart-by-mask", "regions of masks 1 and 2 at one place"),
    Shown("accepted-areas", "areas", "two parameter areas, named and inserted in turn"),
    Shown("accepted-former-largest-lists", "former-largest-lists", "as many rows as could be accepted within the former limits, 1,024 directive rows"),
    Shown("accepted-largest-lists", "largest-lists", "as many rows as can be accepted"),
    Shown("accepted-6000-pages", "6000-pages", "a firmware of 6,000 pages, without their data"),
    Shown("accepted-8192-directives", "8192-directives", "8,192 directive rows, of at most 8,192"),
    Shown("01-empty", "01-empty", "no bytes at all"),
    Shown("02-revision-0", "02-revision-0", "a head of revision 0"),
    Shown("03-65-initializations", "03-65-initializations", "65 initialization rows, of at most 64"),
    Shown("03-8193-directives", "03-8193-directives", "8,193 directive rows, of at most 8,192"),
    Shown("04-kind-0", "04-kind-0", "a platform row of kind 0"),
    Shown("05-vtl-3", "05-vtl-18", "a region of VTL 3, of at most 2"),
    Shown("report-5-first", "05-before-08", "a platform with two mask bits, and in row 3 a VTL of 3: nothing is reported of a sheet that can't be read; 5 comes before 37",
          "report lent 0", "refused 5 row 3 detail 0"),
    Shown("06-one-byte-more", "06-byte", "a byte behind the last body"),
    Shown("07-page-size-8192", "07-8192", "page size 8192; the detail is the page size"),
    Shown("report-7-first", "07-before-08", "page size 8192, and a platform with two mask bits: nor is it of one of another page size",
          "report lent 24", "refused 7 row 0 detail 8192"),
    Shown("08-platform-mask-3", "08-mask-3", "a platform with two mask bits"),
    Shown("09-highest-vtl-1", "09-highest-vtl-1", "a platform of highest VTL 1: 0 and 2 are known"),
    Shown("10-version-2", "10-type-0", "version 2 of a NATIVE platform: 1 is known"),
    Shown("11-boundary", "11-type-0", "a NATIVE platform with a shared GPA boundary"),
    Shown("12-platform-type-7", "12-type-7", "a platform type that is not in the table"),
    Shown("13-cca-on-x64", "13-type-6", "a CCA platform on X64; the detail is the type"),
    Shown("14-platform-twice", "14-twice", "two platforms of one type"),
    Shown("15-no-platform", "15-no-rows", "a sheet without rows"),
    Shown("16-zeroes-and-ones", "16-cca", "a CcaPolicy that asks one bit to be both 0 and 1"),
    Shown("17-size-2001", "17-size", "a region whose size is no multiple of 4096"),
    Shown("18-alignment-800", "18-800", "a region whose alignment is no multiple of 4096"),
    Shown("19-alignment-zero", "19-alignment", "a region of alignment 0, on which the Rust panics"),
    Shown("20-gpa-off-alignment", "20-gpa", "a region's gpa off its alignment; the detail is the gpa"),
    Shown("region-of-20-first", "20-gpa", "the verdict's refusal comes first, with its row and its detail; 35, for mask 0, after it",
          "region_of mask 0 gpa 1050624", "refused 20 row 2 detail 1050624"),
    Shown("21-gpa-1", "21-page-table", "a page-table region at gpa 1; the detail is the gpa"),
    Shown("22-size-1", "22-size", "a page-table region of size 1; the detail is the size"),
    Shown("23-used-above-size", "23-used", "a page-table region whose used size is above its size"),
    Shown("24-aarch64-context-on-x64", "24-kind-48", "an AArch64VbsVpContext on X64; the detail is the kind"),
    Shown("25-policy-without-cca", "25-type-1", "a CcaPolicy of a mask without a CCA platform; the detail is the mask bit"),
    Shown("26-two-page-tables", "26-two", "two page-table regions of one mask"),
    Shown("27-size-zero", "27-size-0", "a region of size 0"),
    Shown("28-end-at-2-64", "28-region", "a region whose gpa and size add up to 2^64"),
    Shown("29-overlap", "29-region", "two regions of one mask that share a page"),
    Shown("30-page-type-4", "30-type-4", "a page of a type that is not in the table"),
    Shown("31-data-4097", "31-page", "a page of 4,097 bytes"),
    Shown("32-no-area", "32-kind-34", "a VpCount that names an area which is not allocated"),
    Shown("trimmed-32-no-area", "32-trimmed-no-area", "`trimmed-before` without row 8, a parameter area that remaining rows name: the first of them is refused"),
    Shown("33-insert-in-page-table", "33-gpa", "a parameter area inserted at the page-table region's gpa"),
    Shown("34-no-context", "34-mask", "a region of mask 1, a context of mask 2"),
    Shown("trimmed-34-no-context", "34-trimmed-no-context", "`trimmed-before` without row 6, the context"),
    Shown("strict-34-first", "34-mask-3", "a region of mask 3 and a context of mask 1, then a region of VTL 1 without a context: 34 comes before 38",
          "strict_verdict", "refused 34 row 0 detail 0"),
    Shown("35-mask-zero", "b", "a query of mask 0", "relocations mask 0 lent 64", "refused 35 row 0 detail 0"),
    Shown("region-of-35", "b", "an owner is asked for by mask 0", "region_of mask 0 gpa 1048576", "refused 35 row 0 detail 0"),
    Shown("region-index-35", "regions-over-one-another", "an index of mask 0, and no bytes lent: 35 comes before 37", "region_index mask 0 lent 0", "refused 35 row 0 detail 0"),
    Shown("36-region-1", "b", "region 1 where there is one region: numbers count from 0",
          "relocation_base_valid mask 1 region 1 base 1048576", "refused 36 row 0 detail 0"),
    Shown("37-seven-words", "b", "seven words lent, where a region takes eight", "relocations mask 1 lent 56", "refused 37 row 0 detail 0"),
    Shown("report-37", "b", "two words and seven bytes lent, where each of three rows takes a word", "report lent 23", "refused 37 row 0 detail 0"),
    Shown("region-index-37", "regions-over-one-another", "eight words and seven bytes lent, where each of three regions takes three words", "region_index mask 1 lent 71",
          "refused 37 row 0 detail 0"),
    Shown("38-bit-without-context", "mask-3", "image B with region mask 3, a context of mask 1; the detail is the mask bit",
          "strict_verdict", "refused 38 row 2 detail 2"),
    Shown("38-first-of-two-regions", "masks-1-13-3", "regions of masks 1, 13 and 3, a context of mask 1: 4 and 8 of the second have none, and 2 of the third",
          "strict_verdict", "refused 38 row 3 detail 4"),
    Shown("38-page-table", "page-table-mask-3", "a region of mask 1, a page-table region of mask 3, a context of mask 1", "strict_verdict", "refused 38 row 3 detail 2"),
    Shown("38-context-of-another-vtl", "mask-3-other-vtl", "a region of mask 3 and VTL 0, a context of mask 1 and VTL 0, one of mask 2 and VTL 1",
          "strict_verdict", "refused 38 row 2 detail 2"),
    Shown("50-lowest-above-highest", "b", "lowest 0x101000, highest 0x100000",
          "relocation_base_range mask 1 region 0 lowest 1052672 highest 1048576", "refused 50 row 0 detail 0"),
    Shown("base-1-valid", "one-base", "base 0x100000, the minimum, from where the region ends at its maximum, 0x102000",
          "relocation_base_valid mask 1 region 0 base 1048576", "answered 1"),
    Shown("base-2-unaligned", "one-base", "base 0xFF800, alignment 0x1000; the base is below the minimum, 0x100000, too",
          "relocation_base_valid mask 1 region 0 base 1046528", "answered 2"),
    Shown("base-3-below-minimum", "minimum-above", "base 0x200000, minimum 0x201000; the end is above the maximum, 0x200000, too",
          "relocation_base_valid mask 1 region 0 base 2097152", "answered 3"),
    Shown("base-4-above-maximum", "b", "base 0x1FF000: the region ends at 0x201000, a page above its maximum",
          "relocation_base_valid mask 1 region 0 base 2093056", "answered 4"),
    Shown("base-4-end-at-2-64", "maximum-top", "base 0xFFFFFFFFFFFFE000: base and size add up to 2^64, above every maximum",
          "relocation_base_valid mask 1 region 0 base 18446744073709543424", "answered 4"),
    Shown("range-1-always", "b", "0 to 0x1FEFFF, alignment 0x1000: the last multiple is 0x1FE000, from where the region ends at its maximum, 0x200000",
          "relocation_base_range mask 1 region 0 lowest 0 highest 2093055", "answered 1"),
    Shown("range-2-never", "minimum-above", "0 to 2^64 - 1; the minimum, 0x201000, is above the maximum, 0x200000",
          "relocation_base_range mask 1 region 0 lowest 0 highest 18446744073709551615", "answered 2"),
    Shown("range-2-no-multiple", "alignment-3000", "0x301000 to 0x302FFF: no multiple of 0x3000; 0x300000 and 0x303000, about the range, are valid",
          "relocation_base_range mask 1 region 0 lowest 3149824 highest 3158015", "answered 2"),
    Shown("range-3-sometimes", "b", "0 to 0x1FF000: at the highest alone the region ends above its maximum, 0x200000",
          "relocation_base_range mask 1 region 0 lowest 0 highest 2093056", "answered 3"),
    Shown("range-3-to-2-64", "maximum-top", "0xFFFFFFFFFFFFD000 to 2^64 - 1: base and size add up to 2^64 - 0x1000, the maximum, then to 2^64 and to 2^64 + 0x1000",
          "relocation_base_range mask 1 region 0 lowest 18446744073709539328 highest 18446744073709551615", "answered 3"),
    Shown("region-of-start", "b", "0x100000, where the region starts", "region_of mask 1 gpa 1048576", "answered 2"),
    Shown("region-of-last-byte", "b", "0x101FFF, the region's last byte", "region_of mask 1 gpa 1056767", "answered 2"),
    Shown("region-of-one-past", "b", "0x102000, one past the region's last byte", "region_of mask 1 gpa 1056768", "answered 0"),
    Shown("region-of-below-another", "regions-over-one-another",
          "0x120000: the last that starts at or below it is the region of mask 2 in row 4, and the owner is the long region that starts before that one", "region_of mask 1 gpa 1179648",
          "answered 3"),
    Shown("region-of-other-mask", "regions-over-one-another", "0x110000, in regions of mask 1 and of mask 2, asked for by mask 2", "region_of mask 2 gpa 1114112", "answered 4"),
    Shown("region-of-two-bits", "regions-over-one-another", "0x110000 again: neither region has both bits of mask 3", "region_of mask 3 gpa 1114112", "answered 0"),
    Shown("region-of-page-table", "regions-over-one-another", "0x163FFF, the last byte of a page-table region of mask 3, size 0x4000 and used size 0x1000", "region_of mask 3 gpa 1458175",
          "answered 5"),
    Shown("region-of-no-region", "regions-over-one-another", "mask 4 has no region", "region_of mask 4 gpa 1048576", "answered 0"),
    Shown("region-of-64-down", "64-regions-down", "0x143000, where the last and lowest of 64 regions starts", "region_of mask 1 gpa 1323008", "answered 65"),
    Shown("region-index", "regions-over-one-another", "the regions of mask 1 in the order of their starts: rows 3, 5 and 2; the page-table region with its size", "region_index mask 1 lent 72",
          "indexed 3, 1048576 size 262144 row 3, 1441792 size 16384 row 5, 1572864 size 8192 row 2"),
    Shown("region-index-no-region", "regions-over-one-another", "mask 4 has no region, and its index needs no word", "region_index mask 4 lent 0", "indexed 0"),
    Shown("report-accepted", "b", "image B: nothing is wrong", "report lent 24", "reported 0 of 3"),
    Shown("report-no-rows", "15-no-rows", "a sheet without rows needs no word", "report lent 0", "reported 0 of 0, 15 row 0"),
    Shown("report-many-faults", "08-many-faults", "faults in all three lists, and rows between them that are in order", "report lent 160",
          "reported 11 of 20, 8 row 2, 10 row 3, 14 row 5, 29 row 7, 19 row 9, 21 row 11, 30 row 14, 22 row 15, 32 row 16, 33 row 18, 24 row 20, 34 row 0"),
    Shown("report-every-row", "08-every-row", "all rows are faulty, so that no platform is left", "report lent 24",
          "reported 3 of 3, 8 row 1, 19 row 2, 24 row 3, 15 row 0"),
    Shown("report-no-platform", "15-faulty-rows", "no platform row: the others are reported all the same, and no bit of a CcaPolicy has a CCA platform", "report lent 32",
          "reported 2 of 4, 25 row 2, 19 row 3, 15 row 0"),
    Shown("report-type-of-a-faulty-platform", "10-type-again", "row 1 is faulty, so that row 2 may have its type; row 3 may not have that of row 2", "report lent 40",
          "reported 2 of 5, 10 row 1, 14 row 3"),
    Shown("report-last-platform-of-a-mask", "10-last-of-a-mask",
          "the CcaPolicy of mask 1 is in order, since the platform of another type behind the CCA platform is faulty; that of mask 2 is not, since its CCA platform is", "report lent 56",
          "reported 3 of 7, 10 row 2, 14 row 3, 25 row 6"),
    Shown("report-third-page-table", "26-masks-1-3-2", "the third page-table region shares a bit and its place with the second alone, which is faulty", "report lent 48",
          "reported 1 of 6, 26 row 4"),
    Shown("report-bits-of-faulty-page-tables", "27-five-page-tables", "three page-table regions refused by 27 to 29 leave their bit free for the fourth, and that leaves none for the fifth",
          "report lent 64", "reported 4 of 8, 27 row 3, 28 row 4, 29 row 5, 26 row 7"),
    Shown("report-bits-of-a-faulty-region", "29-masks-2-7-1-4", "a region of mask 7 overlaps one of mask 2, and leaves no range under its other bits for those of masks 1 and 4",
          "report lent 48", "reported 1 of 6, 29 row 3"),
    Shown("report-area-of-a-faulty-row", "22-area-allocated-again", "the areas of two faulty rows are not allocated: a use and an insert of them are faulty, and one may be allocated",
          "report lent 80", "reported 4 of 10, 22 row 4, 32 row 5, 31 row 6, 32 row 7"),
    Shown("report-1025-areas", "22-1025-spread-areas", "1,025 areas, five of them of faulty rows, and a use of each", "report lent 16408",
          "reported 10 of 2051, 22 row 2, 22 row 258, 22 row 514, 22 row 770, 22 row 1026, 32 row 1027, 32 row 1283, 32 row 1539, 32 row 1795, 32 row 2051"),
    Shown("report-allocated-after-insert", "32-again-and-named", "a row that allocates an inserted area again is faulty, and leaves it inserted", "report lent 64",
          "reported 3 of 8, 32 row 6, 32 row 7, 32 row 8"),
    Shown("report-insert-again", "33-inserted-again", "an insert in a page-table region leaves its area as it was: it may be named and inserted, and then not once more", "report lent 72",
          "reported 2 of 9, 33 row 6, 32 row 9"),
    Shown("report-34", "24-only-context", "the region's only context is faulty", "report lent 32", "reported 2 of 4, 24 row 3, 30 row 4, 34 row 0"),
    Shown("report-34-vp-1", "21-vp-1", "a region of VP index 1 is no faulty row", "report lent 32", "reported 1 of 4, 21 row 4, 34 row 0"),
    Shown("report-faulty-region-without-context", "29-without-context", "a region that is faulty needs no context", "report lent 32", "reported 1 of 4, 29 row 3"),
    Shown("strict-two-contexts", "mask-3-two-contexts", "a region of mask 3, contexts of masks 1 and 2", "strict_verdict", "accepted 1 1 2"),
    Shown("trimmed-before", "trimmed-before", "an image to be trimmed: two regions, a page-table region, a policy, a context, a page, two parameter areas, of which one is named, and an ID block"),
    Shown("trimmed-after", "trimmed-after", "`trimmed-before` without rows 2, 4, 7, 9 and 11: a region, the page-table region, the page, the area that no row names, and a row that names the other"),
]

FOLDER = REPOSITORY / "samples"
README = """# Sample sheets

One sheet for each refusal, some that are accepted, some for whose region a base or a range of bases is proposed, some for the strict verdict, some with several faults for the report, some in which the owner of an address is
looked up, and one from which headers are dropped. `admit` answers the verdict:

    tools/build admit && target/bin/admit < samples/19-alignment-zero.sheet

It takes up to 65,536 bytes and refuses by 3 what is longer: `accepted-largest-lists`, `accepted-6000-pages`, `accepted-8192-directives` and `03-8193-directives`, whose answers beside them are those of the library's
call and of the examples in Rust and in C. The verdict accepts 35 to 38 and 50; it is the call beside them that is refused (`lent` is in bytes). It accepts the sheets `base-..` and `range-..` too, and those of
`region-..` but for `region-of-20-first`. The call beside them checks a base or a range, or looks up an address, and `answered` stands in front of the number of its answer. Of a base: 1 valid, 2 unaligned, 3 below the minimum, 4 above the
maximum, the first that applies. Of a range: 1 always, 2 never, 3 sometimes. Of an address (`region_of`): the row of the region that owns it, 0 where there is none. `region_index` makes an index of a mask's regions: `indexed 3` says how many they
are, and behind it stand start, size and row of each. `strict_verdict` asks for a context for each bit of a region's mask besides; the examples make it with `--strict`. `report` tells of all faulty rows: `reported 2 of 5` says how many rows are
faulty, and of how many, and behind it stands the refusal of each with its row; 15 and 34, which a report tells of the sheet as a whole, have row 0. The example `report` of the Rust crate puts it into words. Of what it
reports the first is the verdict's refusal, but in `report-no-platform`, where that is 15. `trimmed-after` is `trimmed-before` without some of its rows, as the example `trim` of the Rust crate writes it: from an accepted image any
initialization and directive rows may be dropped but VBS contexts and parameter areas that a remaining row names. In `trimmed-34-no-context` and `trimmed-32-no-area` one of these is dropped. `docs/SHEET.md` says how a sheet is written, when a base is valid, what is said
of a range, who owns an address and what is reported, `docs/REFUSALS.md` what each refusal means and how to mend it. `tools/sheets.py --samples` writes this folder, and `tools/sheets.py --check` holds it to the samples and the lines of its list.

| file | call | answer | what it shows |
|---|---|---|---|
"""


def sample_files():
    """The files of the folder by name."""
    files = {shown.file + ".sheet": shown.sample().bytes() for shown in SHOWN}
    rows = [f"| `{shown.file}.sheet` | `{shown.call}` | `{shown.answer()}` | {shown.what} |\n" for shown in SHOWN]
    files["README.md"] = (README + "".join(rows)).encode()
    return files


# ---- the commands


def wrong_lines():
    """A message for each line that is not the model's."""
    for sample in SAMPLES:
        said = model.line(sample.bytes())
        if said != sample.line:
            yield f"{sample.name}: {sample.line}; the model says {said}"
    for shown in SHOWN:
        said = model.line(shown.sample().bytes(), shown.call)
        if said != shown.answer():
            yield f"{shown.file}: {shown.call}: {shown.answer()}; the model says {said}"


# A platform that takes part in no other row's test: no bit is CCA's by it.
OTHER = platform(type=1)


def by_verdicts(s):
    """The report on a readable sheet by verdicts alone: a row's word is what is said of it in the sheet of the earlier rows whose word is 0, and this row. Where no platform is
    among these, another stands in for it, so that 15 does not come first."""
    arch, lists = model.read(s)
    kept, faults = V2.head(arch=arch, lists=((), (), ())), []
    for number, rows in enumerate(lists):
        if number == 1:
            no_platform = ["15 row 0"] * (not kept.lists[0])
            kept = kept.platforms(*kept.lists[0] or (OTHER,))
        for row, kind, body in rows:
            tried = kept.plus(Row(kind, body))
            said, *numbers = model.line(bytes(tried)).split()
            if said == "refused" and int(numbers[2]) == sum(map(len, tried.lists)):
                faults.append(f"{numbers[0]} row {row}")
            else:
                kept = tried
    no_context = ["34 row 0"] * (model.line(bytes(kept)) == "refused 34 row 0 detail 0")
    return ", ".join([f"reported {len(faults)} of {sum(map(len, lists))}", *faults, *no_platform, *no_context])


def wrong_reports():
    """A message for each report of the model that is not what its verdicts give: of the same sheet, and, where it has few rows, of those made of its rows."""
    for sample in SAMPLES:
        s = sample.bytes()
        reported = model.line(s, "report")
        first = reported
        if reported.startswith("reported"):
            _, lists = model.read(s)
            # The first of all that is reported is the verdict's refusal, unless there is no platform row.
            faults = reported.split(", ")[1:] if lists[0] else ["15 row 0"]
            first = f"refused {faults[0]} detail " if faults else "accepted "
            if sum(map(len, lists)) <= 100 and reported != by_verdicts(s):
                yield f"{sample.name}: the model reports {reported}; by its verdicts {by_verdicts(s)}"
        if not sample.line.startswith(first):
            yield f"{sample.name}: {sample.line}; the model reports {reported}"


def wrong_owners():
    """A message for each address whose owner is another by the words of the model's index than by its full reading: at the start, the last byte and the end of each region, and
    below it, on accepted sheets of few rows."""
    for sample in SAMPLES:
        said, *counts = sample.line.split()
        if said != "accepted" or sum(map(int, counts)) > 100:
            continue
        s = sample.bytes()
        _, kept = model.admitted(s)
        places = {place for _, _, gpa, size, *_ in kept.regions for place in (gpa - 1, gpa, gpa + size - 1, gpa + size)} | {0, 2**64 - 1}
        for mask in sorted({1, 3} | {mask for _, mask, *_ in kept.regions}):
            indexed = sorted(model.owning(s, mask))
            words = b"".join(number.to_bytes(8, "little") for region in indexed for number in region)
            for gpa in sorted(places - {-1}):
                owner = model.line(s, f"region_of mask {mask} gpa {gpa}")
                if model.line(words, f"region_in gpa {gpa}") != owner:
                    yield f"{sample.name}: mask {mask}, address {gpa}: {owner} by a full reading, another by the index"


def wrong_names():
    """A message for each name that is given twice, and for each refusal that the folder does not show."""
    for names in [sample.name for sample in SAMPLES], [shown.file for shown in SHOWN]:
        for name in sorted({name for name in names if names.count(name) > 1}):
            yield f"{name}: two samples of this name"
    refusals = {int(shown.answer().split()[1]) for shown in SHOWN if shown.answer().startswith("refused")}
    for number in sorted(set(model.REFUSALS) - refusals):
        yield f"{FOLDER}: refusal {number} is not shown"


def wrong_files(folder, files, parts, mode):
    """A message for each file in these parts of the folder that is not what the mode writes."""
    there = {str(path.relative_to(folder)) for part in parts for path in folder.glob(part)}
    for name in sorted(there | set(files)):
        if name not in files or name not in there or (folder / name).read_bytes() != files[name]:
            yield f"{folder / name}: not what {mode} writes"


def check():
    wrong = [*wrong_lines(), *wrong_reports(), *wrong_owners(), *wrong_names()]
    wrong += wrong_files(CRATE, gate_files(), ("data/*", "args", "stdout"), "--gate")
    wrong += wrong_files(FOLDER, sample_files(), ("*",), "--samples")
    for message in wrong:
        print(message)
    print(f"{len(SAMPLES)} samples, {len(wrong)} wrong")
    return len(wrong) != 0


def write(folder, names):
    folder.mkdir(parents=True, exist_ok=True)
    for sample in named(names) if names else small():
        (folder / sample.name).write_bytes(sample.bytes())
        print(f"{sample.name}: {sample.line}")


def write_files(folder, files):
    for name, content in files.items():
        (folder / name).parent.mkdir(parents=True, exist_ok=True)
        (folder / name).write_bytes(content)


def main(words):
    match words:
        case ["--check"]:
            return check()
        case ["--list"]:
            for sample in SAMPLES:
                print(f"{sample.name}: {sample.line} ({sample.what})")
        case ["--write", folder, *names]:
            write(Path(folder), names)
        case ["--gate"]:
            write_files(CRATE, gate_files())
        case ["--samples"]:
            write_files(FOLDER, sample_files())
        case _:
            print(__doc__)
            return 2


if __name__ == "__main__":
    sys.exit(main(sys.argv[1:]))
