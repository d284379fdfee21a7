/* The calls of libigvm.a (`tools/build library`), for x86-64 Linux. Sheets are described in docs/SHEET.md, refusals in docs/REFUSALS.md of the repository.
 *
 * A call takes the bytes of a sheet and returns number `which` of its answer, and 0 where the answer has no such number. The first three numbers of every answer
 * are the refusal: 0 its number (0: nothing is refused), 1 the row that it names (from 1; 0 for the sheet as a whole), 2 its detail. In a refusal every other
 * number is 0, and `words` are as they were.
 *
 * Its sibling `.._numbers` takes lent bytes in place of `which`, puts all numbers of the answer in front of them, in a refusal too, and returns number 0. Each
 * number is a word: eight bytes, the least significant first. Where fewer words are lent than the answer has numbers, none is put. A whole answer then costs one
 * reading of the sheet.
 *
 * What a caller owes: each pointer is that of as many bytes as the length beside it says (an empty slice may be null), which no one else changes during the call,
 * nor between calls by `which` whose numbers are to be of one answer; lent bytes overlap neither the sheet nor each other. Nothing is asked of the contents, and
 * no number is out of range. Bytes that are lent behind an answer keep their contents. In every call but igvm_report and its sibling no byte of a sheet is read once a
 * lent byte is written.
 *
 * A call keeps nothing: it allocates nothing, has no state, and ends; calls may run on several threads at once. It takes less than IGVM_STACK_BYTES of stack. */
#ifndef IGVM_H
#define IGVM_H

#include <stddef.h>
#include <stdint.h>

#ifdef __cplusplus
extern "C" {
#endif

/* The library's version; docs/CHANGELOG.md of the repository says what changed. */
enum { IGVM_VERSION_MAJOR = 0, IGVM_VERSION_MINOR = 8, IGVM_VERSION_PATCH = 1 };

/* Limits: a sheet with more rows in a list, or with more bytes, is refused by IGVM_ERROR_LIMIT_EXCEEDED.
 *
 * IGVM_STACK_BYTES is for every sheet. Most take less than 24,576 bytes of stack; about 100,000 are taken by a sheet that names more than 1,024 parameter areas with
 * indexes from 1,024 on, by one with more than 1,024 directive rows that is refused for an area's own row (33), and by one with more than 64 directive rows and a platform
 * of another type behind a CCA platform of the same mask. A report takes about 82,000 bytes where a row is faulty, or where it tells 15 or 34. */
enum {
    IGVM_MAX_PLATFORM_ROWS = 16,
    IGVM_MAX_INITIALIZATION_ROWS = 64,
    IGVM_MAX_DIRECTIVE_ROWS = 8192,
    IGVM_MAX_ROWS = IGVM_MAX_PLATFORM_ROWS + IGVM_MAX_INITIALIZATION_ROWS + IGVM_MAX_DIRECTIVE_ROWS,
    IGVM_MAX_SHEET_BYTES = 67108864,
    IGVM_STACK_BYTES = 114688
};

/* Numbers that every answer has. */
enum { IGVM_NUMBER = 0, IGVM_ROW = 1, IGVM_DETAIL = 2 };

/* Refusals, by number: 1 to 38, and 50. A later library may give more. */
enum {
    IGVM_ACCEPTED = 0,
    IGVM_ERROR_SHEET_ENDS_EARLY = 1,
    IGVM_ERROR_INVALID_HEAD = 2,
    IGVM_ERROR_LIMIT_EXCEEDED = 3,
    IGVM_ERROR_INVALID_KIND = 4,
    IGVM_ERROR_INVALID_BODY = 5,
    IGVM_ERROR_BYTES_LEFT_OVER = 6,
    IGVM_ERROR_UNSUPPORTED_PAGE_SIZE = 7,
    IGVM_ERROR_INVALID_COMPATIBILITY_MASK = 8,
    IGVM_ERROR_INVALID_VTL = 9,
    IGVM_ERROR_INVALID_PLATFORM_VERSION = 10,
    IGVM_ERROR_INVALID_SHARED_GPA_BOUNDARY = 11,
    IGVM_ERROR_INVALID_PLATFORM_TYPE = 12,
    IGVM_ERROR_PLATFORM_ARCH_UNSUPPORTED = 13,
    IGVM_ERROR_MULTIPLE_PLATFORM_HEADERS_WITH_SAME_ISOLATION = 14,
    IGVM_ERROR_NO_PLATFORM_HEADERS = 15,
    IGVM_ERROR_INVALID_ONES_ZEROES_MASKS = 16,
    IGVM_ERROR_RELOCATION_SIZE = 17,
    IGVM_ERROR_RELOCATION_ALIGNMENT = 18,
    IGVM_ERROR_RELOCATION_ALIGNMENT_ZERO = 19,
    IGVM_ERROR_RELOCATION_ADDRESS = 20,
    IGVM_ERROR_UNALIGNED_ADDRESS = 21,
    IGVM_ERROR_UNALIGNED_SIZE = 22,
    IGVM_ERROR_INVALID_PAGE_TABLE_REGION_SIZE = 23,
    IGVM_ERROR_INVALID_HEADER_ARCH = 24,
    IGVM_ERROR_INVALID_CCA_POLICY_COMPATIBILITY_MASK = 25,
    IGVM_ERROR_MULTIPLE_PAGE_TABLE_RELOCATION_HEADERS = 26,
    IGVM_ERROR_REGION_SIZE_ZERO = 27,
    IGVM_ERROR_REGION_END_TOO_HIGH = 28,
    IGVM_ERROR_RELOCATION_REGIONS_OVERLAP = 29,
    IGVM_ERROR_INVALID_PAGE_DATA_TYPE = 30,
    IGVM_ERROR_INVALID_DATA_SIZE = 31,
    IGVM_ERROR_INVALID_PARAMETER_AREA_INDEX = 32,
    IGVM_ERROR_PARAMETER_INSERT_INSIDE_PAGE_TABLE_REGION = 33,
    IGVM_ERROR_NO_MATCHING_VP_CONTEXT = 34,
    IGVM_ERROR_QUERY_MASK_ZERO = 35,
    IGVM_ERROR_NO_SUCH_REGION = 36,
    IGVM_ERROR_TOO_FEW_WORDS_LENT = 37,
    IGVM_ERROR_BIT_WITHOUT_VP_CONTEXT = 38,
    IGVM_ERROR_LOWEST_ABOVE_HIGHEST = 50
};

/* Whether the sheet is accepted. 3 platform rows, 4 initialization rows, 5 directive rows. */
enum { IGVM_PLATFORM_ROWS = 3, IGVM_INITIALIZATION_ROWS = 4, IGVM_DIRECTIVE_ROWS = 5, IGVM_VERDICT_NUMBERS = 6 };
uint64_t igvm_verdict(const uint8_t *sheet, size_t sheet_len, uint32_t which);
uint64_t igvm_verdict_numbers(const uint8_t *sheet, size_t sheet_len, uint8_t *numbers, size_t numbers_len);

/* Whether the sheet is accepted, and every platform of a region has its context: for each bit of the mask of each region, page-table regions included, there is a VBS
 * context of the region's VTL with that bit. The verdict above asks for one shared bit. Each bit counts, whether or not a platform row has it, and the bits of one region
 * may have different contexts.
 *
 * Whatever igvm_verdict refuses is refused alike, with its row and detail. Then comes IGVM_ERROR_BIT_WITHOUT_VP_CONTEXT, which this call alone gives: the row is that of
 * the first region that has a bit without a context, the detail its lowest such bit, as a mask. Accepted, the numbers are those of igvm_verdict. An answer has
 * IGVM_VERDICT_NUMBERS. Before 0.6.0 there was no such call. */
uint64_t igvm_strict_verdict(const uint8_t *sheet, size_t sheet_len, uint32_t which);
uint64_t igvm_strict_verdict_numbers(const uint8_t *sheet, size_t sheet_len, uint8_t *numbers, size_t numbers_len);

/* All faulty rows in one pass: for each row of the sheet a word in the lent bytes, the number of the refusal that the row meets where every earlier faulty row is
 * skipped and leaves no trace, else 0. Word k, from 0, is that of row k + 1, over the three lists in row order. A row is judged after the earlier rows whose word is 0, as
 * though there were no others before it. A word is 0, one of 8 to 14, or one of 16 to 33.
 *
 * What is about the sheet as a whole is told over the rows whose word is 0: 3 whether there is no platform row among them (1 or 0; IGVM_ERROR_NO_PLATFORM_HEADERS), 4
 * whether a region among them has another VP index than 0, or shares a mask bit with no VBS context of its VTL among them (1 or 0; IGVM_ERROR_NO_MATCHING_VP_CONTEXT).
 * 5 how many rows the sheet has, 6 how many of them are faulty: words other than 0.
 *
 * Faulty rows don't refuse the call: numbers 0 to 2 are 0 then. Whatever igvm_verdict refuses by 1 to 7 is refused alike, with its row and detail. Then comes
 * IGVM_ERROR_TOO_FEW_WORDS_LENT, where fewer whole words are lent than the sheet has rows. Its rows are the sum of the three counts in its head, two bytes each at 8, 10 and
 * 12: who lends 8 bytes for each, or 8 * IGVM_MAX_ROWS, never meets it, and a sheet without rows needs no word. A refused call writes no word.
 *
 * The first word other than 0 is igvm_verdict's number, and its row the verdict's, unless the sheet has no platform row, whose verdict is 15. Where all words are 0, the
 * verdict is 15 if number 3 is 1, else 34 if number 4 is 1, else accepted. An answer has IGVM_REPORT_NUMBERS. Before 0.7.0 there was no such call. */
enum { IGVM_NO_PLATFORM = 3, IGVM_NO_CONTEXT = 4, IGVM_ROWS = 5, IGVM_FAULTY_ROWS = 6, IGVM_REPORT_NUMBERS = 7 };
uint64_t igvm_report(const uint8_t *sheet, size_t sheet_len, uint8_t *words, size_t words_len, uint32_t which);
uint64_t igvm_report_numbers(const uint8_t *sheet, size_t sheet_len, uint8_t *words, size_t words_len, uint8_t *numbers, size_t numbers_len);

/* The regions of a mask in header order, each as eight words in the lent bytes: base, size, alignment, minimum, maximum, flags, VP index, VTL. 3 how many
 * regions, 4 whether there is a page-table region (1 or 0), 5 its gpa, 6 its size, 7 its used size, 8 its VP index, 9 its VTL. */
enum {
    IGVM_COUNT = 3,
    IGVM_PAGE_TABLE = 4,
    IGVM_GPA = 5,
    IGVM_SIZE = 6,
    IGVM_USED_SIZE = 7,
    IGVM_VP_INDEX = 8,
    IGVM_VTL = 9,
    IGVM_RELOCATIONS_NUMBERS = 10,
    IGVM_REGION_BYTES = 64
};
uint64_t igvm_relocations(const uint8_t *sheet, size_t sheet_len, uint32_t mask, uint8_t *words, size_t words_len, uint32_t which);
uint64_t igvm_relocations_numbers(const uint8_t *sheet, size_t sheet_len, uint32_t mask, uint8_t *words, size_t words_len, uint8_t *numbers, size_t numbers_len);

/* Whether the mask's region of this number, from 0, may be moved to the base, or why not. Number 3 is the first of these that applies, in this order:
 *
 *   1 IGVM_BASE_VALID          none of the three below: the region may be moved there
 *   2 IGVM_BASE_UNALIGNED      the base is no multiple of the region's alignment (of alignment 0 only 0 is one)
 *   3 IGVM_BASE_BELOW_MINIMUM  the base is below the region's minimum
 *   4 IGVM_BASE_ABOVE_MAXIMUM  base + size is above the region's maximum. The sum is exact: one that reaches 2^64 is above every maximum
 *
 * A number other than 0 is no yes: compare it with IGVM_BASE_VALID. 0 stands in a refusal alone. Before 0.4.0 number 3 was 1 for valid, else 0. */
enum { IGVM_BASE_CHECK = 3, IGVM_CHECK_NUMBERS = 4 };
enum { IGVM_BASE_VALID = 1, IGVM_BASE_UNALIGNED = 2, IGVM_BASE_BELOW_MINIMUM = 3, IGVM_BASE_ABOVE_MAXIMUM = 4 };
uint64_t igvm_relocation_base_valid(const uint8_t *sheet, size_t sheet_len, uint32_t mask, uint64_t region, uint64_t base, uint32_t which);
uint64_t igvm_relocation_base_valid_numbers(const uint8_t *sheet, size_t sheet_len, uint32_t mask, uint64_t region, uint64_t base, uint8_t *numbers, size_t numbers_len);

/* Whether the mask's region of this number may be moved to the bases of a range, where its base is not yet known. The range goes from lowest to highest, ends included.
 * Of its bases the multiples of the region's alignment count, and no others; the ends need not be multiples. Number 3 is one of these:
 *
 *   1 IGVM_RANGE_ALWAYS     there is a multiple in the range, and all are valid: of each the base check says IGVM_BASE_VALID
 *   2 IGVM_RANGE_NEVER      none is valid; so it is too where there is no multiple in the range
 *   3 IGVM_RANGE_SOMETIMES  some are valid, and some are not
 *
 * Of a range of one base that is IGVM_RANGE_ALWAYS exactly where the base check says IGVM_BASE_VALID, else IGVM_RANGE_NEVER. A lowest above the highest is refused by
 * IGVM_ERROR_LOWEST_ABOVE_HIGHEST, after IGVM_ERROR_NO_SUCH_REGION. A number other than 0 is no yes: compare it with IGVM_RANGE_ALWAYS. 0 stands in a refusal alone.
 * An answer has IGVM_CHECK_NUMBERS. Before 0.5.0 there was no such call. */
enum { IGVM_BASE_RANGE = 3 };
enum { IGVM_RANGE_ALWAYS = 1, IGVM_RANGE_NEVER = 2, IGVM_RANGE_SOMETIMES = 3 };
uint64_t igvm_relocation_base_range(const uint8_t *sheet, size_t sheet_len, uint32_t mask, uint64_t region, uint64_t lowest, uint64_t highest, uint32_t which);
uint64_t igvm_relocation_base_range_numbers(const uint8_t *sheet, size_t sheet_len, uint32_t mask, uint64_t region, uint64_t lowest, uint64_t highest, uint8_t *numbers, size_t numbers_len);

/* Whether the address lies in the mask's region of this number. 3 contained (1 or 0). */
enum { IGVM_CONTAINED = 3 };
uint64_t igvm_contains(const uint8_t *sheet, size_t sheet_len, uint32_t mask, uint64_t region, uint64_t gpa, uint32_t which);
uint64_t igvm_contains_numbers(const uint8_t *sheet, size_t sheet_len, uint32_t mask, uint64_t region, uint64_t gpa, uint8_t *numbers, size_t numbers_len);

/* The checks of a base and of an address on a region's IGVM_REGION_BYTES, as igvm_relocations put them, without the sheet: each returns number 3. They answer as the
 * calls on the sheet do; of other bytes they say what those eight words give. In fewer bytes there is no region: 0.
 *
 * Of a base that is 1 to 4: again a number other than 0 is no yes, and is to be compared with IGVM_BASE_VALID (before 0.4.0: 1 or 0). Of an address it is 1 or 0. */
uint64_t igvm_region_base_valid(const uint8_t *region, size_t region_len, uint64_t base);
uint64_t igvm_region_contains(const uint8_t *region, size_t region_len, uint64_t gpa);

/* Which region of the mask owns the address, any address: of the regions whose mask holds every bit of the mask, page-table regions included, the one from whose start up
 * to, not including, start + size it lies. A page-table region counts with its size, whatever its used size. 3 the region's row in the sheet, from 1 over the three lists,
 * or 0 where no region of the mask holds the address. There is never more than one (IGVM_ERROR_RELOCATION_REGIONS_OVERLAP).
 *
 * Refused: by igvm_verdict's refusal, with its row and detail, then by IGVM_ERROR_QUERY_MASK_ZERO. Number 1 is the refusal's row, and number 3 is 0 in a refusal. An answer
 * has IGVM_CHECK_NUMBERS. The sheet is judged anew by each call: who looks up many addresses makes an index, below. Before 0.8.0 there was no such call. */
enum { IGVM_REGION_ROW = 3 };
uint64_t igvm_region_of(const uint8_t *sheet, size_t sheet_len, uint32_t mask, uint64_t gpa, uint32_t which);
uint64_t igvm_region_of_numbers(const uint8_t *sheet, size_t sheet_len, uint32_t mask, uint64_t gpa, uint8_t *numbers, size_t numbers_len);

/* An index of the mask's regions, by which igvm_region_in finds the owner of an address without the sheet. Of each region whose mask holds every bit of the mask, page-table
 * regions included, it has IGVM_REGION_INDEX_WORDS in the lent bytes: start, size (not the used size), row in the sheet. They stand in the order of their starts, the lowest
 * first; no two regions of a mask start at one address. 3 how many regions (IGVM_COUNT).
 *
 * Refused: as igvm_region_of is, and then by IGVM_ERROR_TOO_FEW_WORDS_LENT, where fewer than IGVM_REGION_INDEX_WORDS whole words are lent for each region. A mask without
 * regions needs no word, and IGVM_MAX_REGION_INDEX_WORDS (1,536 bytes) are enough for any sheet. A refused call writes no word. An answer has IGVM_CHECK_NUMBERS. Before
 * 0.8.0 there was no such call. */
enum { IGVM_REGION_INDEX_WORDS = 3, IGVM_MAX_REGION_INDEX_WORDS = IGVM_REGION_INDEX_WORDS * IGVM_MAX_INITIALIZATION_ROWS };
uint64_t igvm_region_index(const uint8_t *sheet, size_t sheet_len, uint32_t mask, uint8_t *words, size_t words_len, uint32_t which);
uint64_t igvm_region_index_numbers(const uint8_t *sheet, size_t sheet_len, uint32_t mask, uint8_t *words, size_t words_len, uint8_t *numbers, size_t numbers_len);

/* The row of the region that owns the address, or 0 for none, by the words of an index: the 8 * IGVM_REGION_INDEX_WORDS * count bytes that igvm_region_index filled, and not
 * the bytes behind them. It answers as igvm_region_of does on the index's sheet and mask, for every address. An index stands for its sheet alone: where the sheet changes, make
 * it anew.
 *
 * It goes through the regions in their order. At the first that starts above the address the answer is 0, at the first that holds the address it is the row. Sums are exact. Of
 * other bytes it says what their words give, and bytes short of IGVM_REGION_INDEX_WORDS words don't count: in fewer than 24 bytes there is no region. Before 0.8.0 there was no
 * such call. */
uint64_t igvm_region_in(const uint8_t *words, size_t words_len, uint64_t gpa);

#ifdef __cplusplus
}
#endif

#endif
