/* Holds libigvm.a to what include/igvm.h says beside the proved contracts: calls and their siblings agree, on several threads at once, within IGVM_STACK_BYTES of
 * stack, the strict verdict is the verdict but for a bit of a region's mask that no context has, of all that a report tells the first is the verdict's refusal, a base check
 * answers one of the four, a range of bases one of the three and as the base check at its ends, the owner of an address is by the sheet and by an index what a full reading of the
 * sheet finds, and lent bytes that overlap the sheet get what others get, but in a report. The arguments are files of sheets. It writes the stack that each call
 * takes on four images made here; the last line is `N sheets, S bytes of stack`, the most that any call took. */
#define _GNU_SOURCE
#include <pthread.h>
#include <stdio.h>
#include <stdlib.h>
#include <string.h>
#include <sys/mman.h>

#include "igvm.h"

#define THREADS 4
#define STACK ((size_t)1 << 20)
#define WORDS ((size_t)IGVM_REGION_BYTES * IGVM_MAX_INITIALIZATION_ROWS)
#define ROW_WORDS ((size_t)8 * IGVM_MAX_ROWS)
#define INDEX_REGION ((size_t)8 * IGVM_REGION_INDEX_WORDS)
#define INDEX_WORDS ((size_t)8 * IGVM_MAX_REGION_INDEX_WORDS)
#define PAINT 0xA5

/* On an image that names few areas, and has no faulty row, every call takes less stack than this. */
#define FEW_AREAS_STACK 24576

static char **files;
static int count;

static void hold(int test, const char *file, const char *what) {
    if (test) return;
    fprintf(stderr, "%s: %s\n", file, what);
    exit(1);
}

/* The number of so many bytes at this place. */
static uint64_t field(const uint8_t *bytes, size_t at, size_t width) {
    uint64_t v = 0;
    for (size_t i = width; i-- > 0;) v = v << 8 | bytes[at + i];
    return v;
}

static uint64_t word(const uint8_t *bytes, size_t k) { return field(bytes, 8 * k, 8); }

/* The sheet with room behind it; as many bytes as are lent for words. */
static uint8_t *read_sheet(const char *file, size_t *n) {
    uint8_t *bytes = malloc(IGVM_MAX_SHEET_BYTES + 1 + WORDS);
    FILE *in = fopen(file, "rb");
    hold(bytes && in, file, "can't be read");
    *n = fread(bytes, 1, IGVM_MAX_SHEET_BYTES + 1, in);
    hold(!ferror(in), file, "can't be read");
    fclose(in);
    return bytes;
}

/* A whole answer holds each number, and leaves the byte behind. */
static void hold_numbers(const char *file, const uint8_t *numbers, size_t n, uint64_t returned, const uint64_t *each) {
    hold(returned == each[0], file, "the sibling returns another number");
    for (size_t k = 0; k < n; k++) hold(word(numbers, k) == each[k], file, "the sibling puts another number");
    hold(numbers[8 * n] == PAINT, file, "the sibling puts more than the numbers");
}

/* The numbers of a verdict by one of the two calls, which its sibling puts too, if all are lent, and where they overlap the sheet. */
static void verdict(const char *file, const uint8_t *sheet, size_t n, uint8_t *overlapping, uint64_t (*call)(const uint8_t *, size_t, uint32_t),
                    uint64_t (*sibling)(const uint8_t *, size_t, uint8_t *, size_t), uint64_t *each) {
    uint8_t numbers[8 * IGVM_VERDICT_NUMBERS + 1];
    memset(numbers, PAINT, sizeof numbers);
    for (uint32_t k = 0; k < IGVM_VERDICT_NUMBERS; k++) each[k] = call(sheet, n, k);
    hold(sibling(sheet, n, numbers, 8 * IGVM_VERDICT_NUMBERS - 1) == each[IGVM_NUMBER], file, "the sibling returns another number where too few words are lent");
    for (size_t i = 0; i < sizeof numbers; i++) hold(numbers[i] == PAINT, file, "the sibling puts numbers where too few words are lent");
    hold_numbers(file, numbers, IGVM_VERDICT_NUMBERS, sibling(sheet, n, numbers, sizeof numbers), each);
    memcpy(overlapping, sheet, n);
    hold(sibling(overlapping, n, overlapping, WORDS) == each[IGVM_NUMBER] && memcmp(overlapping, numbers, 8 * IGVM_VERDICT_NUMBERS) == 0, file,
         "another verdict where the numbers overlap the sheet");
}

/* Row and lowest bit of the first region of an accepted sheet that has a bit without a context, a mask bit that no VBS context of its VTL has; else 0 and 0. */
static void first_without_context(const uint8_t *sheet, uint64_t *row, uint64_t *bit) {
    uint64_t rows = field(sheet, 8, 2) + field(sheet, 10, 2) + field(sheet, 12, 2), contexts[3] = {0};
    size_t at = 16 + 8 * rows;
    for (uint64_t k = 1; k <= rows; at += field(sheet, 12 + 8 * k, 4), k++) {
        uint64_t kind = field(sheet, 8 + 8 * k, 4);
        if (kind == 47 || kind == 48) contexts[sheet[at + 4]] |= field(sheet, at, 4);
    }
    at = 16 + 8 * rows;
    *row = *bit = 0;
    for (uint64_t k = 1; k <= rows && *row == 0; at += field(sheet, 12 + 8 * k, 4), k++) {
        uint64_t kind = field(sheet, 8 + 8 * k, 4);
        if (kind != 18 && kind != 19) continue;
        uint64_t without = field(sheet, at, 4) & ~contexts[sheet[at + (kind == 18 ? 47 : 30)]];
        if (without != 0) *row = k, *bit = without & (~without + 1);
    }
}

/* The strict verdict is the verdict, and then 38. */
static void verdicts(const char *file, const uint8_t *sheet, size_t n, uint8_t *overlapping) {
    uint64_t each[IGVM_VERDICT_NUMBERS], strict[IGVM_VERDICT_NUMBERS], row, bit;
    verdict(file, sheet, n, overlapping, igvm_verdict, igvm_verdict_numbers, each);
    verdict(file, sheet, n, overlapping, igvm_strict_verdict, igvm_strict_verdict_numbers, strict);
    if (each[IGVM_NUMBER] == IGVM_ACCEPTED) {
        first_without_context(sheet, &row, &bit);
        uint64_t refusal[IGVM_VERDICT_NUMBERS] = {IGVM_ERROR_BIT_WITHOUT_VP_CONTEXT, row, bit};
        if (row != 0) memcpy(each, refusal, sizeof each);
    }
    hold(memcmp(strict, each, sizeof each) == 0, file, "the strict verdict is neither the verdict nor 38 of the first bit without a context");
}

static void hold_painted(const char *file, const uint8_t *bytes, size_t from, size_t to, const char *what) {
    for (size_t i = from; i < to; i++) hold(bytes[i] == PAINT, file, what);
}

/* The verdict of a sheet whose report has these numbers and words: number and row. */
static void first_reported(const uint8_t *sheet, const uint64_t *each, const uint8_t *words, uint64_t *number, uint64_t *row) {
    *number = each[IGVM_NO_PLATFORM]  ? (uint64_t)IGVM_ERROR_NO_PLATFORM_HEADERS
              : each[IGVM_NO_CONTEXT] ? (uint64_t)IGVM_ERROR_NO_MATCHING_VP_CONTEXT
                                      : (uint64_t)IGVM_ACCEPTED;
    *row = 0;
    /* Without a platform row the verdict is 15. */
    if (field(sheet, 8, 2) == 0) return;
    for (uint64_t k = 0; k < each[IGVM_ROWS] && *row == 0; k++)
        if (word(words, k) != 0) *number = word(words, k), *row = k + 1;
}

/* A report that is refused by one of 1 to 7 is as the verdict is, and one that is not goes together with it. With a byte less than its words it is refused by 37. Bytes
 * behind the last row's word, and all of them in a refusal, are as they were. The two lent slices have ROW_WORDS and one byte more. */
static void report(const char *file, const uint8_t *sheet, size_t n, uint8_t *words, uint8_t *again) {
    uint8_t numbers[8 * IGVM_REPORT_NUMBERS + 1];
    uint64_t each[IGVM_REPORT_NUMBERS], verdict[3], faulty = 0, number, row;
    memset(numbers, PAINT, sizeof numbers);
    memset(words, PAINT, ROW_WORDS + 1);
    memset(again, PAINT, ROW_WORDS + 1);
    for (uint32_t k = 0; k < 3; k++) verdict[k] = igvm_verdict(sheet, n, k);
    for (uint32_t k = 0; k < IGVM_REPORT_NUMBERS; k++) each[k] = igvm_report(sheet, n, words, ROW_WORDS + 1, k);
    hold(igvm_report(sheet, n, words, ROW_WORDS + 1, IGVM_REPORT_NUMBERS) == 0, file, "a report has a number too many");
    hold(igvm_report_numbers(sheet, n, again, ROW_WORDS + 1, numbers, 8 * IGVM_REPORT_NUMBERS - 1) == each[IGVM_NUMBER], file, "the sibling returns another number");
    hold_painted(file, numbers, 0, sizeof numbers, "the sibling puts numbers where too few words are lent");
    hold(memcmp(words, again, ROW_WORDS + 1) == 0, file, "the sibling puts other words where it puts no numbers");
    memset(again, PAINT, ROW_WORDS + 1);
    hold_numbers(file, numbers, IGVM_REPORT_NUMBERS, igvm_report_numbers(sheet, n, again, ROW_WORDS + 1, numbers, sizeof numbers), each);
    hold(memcmp(words, again, ROW_WORDS + 1) == 0, file, "the sibling puts other words");
    hold_painted(file, words, 8 * each[IGVM_ROWS], ROW_WORDS + 1, "a report changes bytes behind the last row's word");
    if (verdict[IGVM_NUMBER] >= IGVM_ERROR_SHEET_ENDS_EARLY && verdict[IGVM_NUMBER] <= IGVM_ERROR_UNSUPPORTED_PAGE_SIZE) {
        uint64_t refusal[IGVM_REPORT_NUMBERS] = {verdict[0], verdict[1], verdict[2]};
        hold(memcmp(each, refusal, sizeof each) == 0, file, "a report is refused otherwise than the verdict");
        return;
    }
    hold(each[IGVM_NUMBER] == 0 && each[IGVM_ROW] == 0 && each[IGVM_DETAIL] == 0, file, "a report is refused, and its sheet can be read");
    hold(each[IGVM_ROWS] == field(sheet, 8, 2) + field(sheet, 10, 2) + field(sheet, 12, 2), file, "a report has another number of rows than the head");
    for (uint64_t k = 0; k < each[IGVM_ROWS]; k++) {
        uint64_t w = word(words, k);
        faulty += w != 0;
        hold(w == 0 || (w >= IGVM_ERROR_INVALID_COMPATIBILITY_MASK && w <= IGVM_ERROR_PARAMETER_INSERT_INSIDE_PAGE_TABLE_REGION && w != IGVM_ERROR_NO_PLATFORM_HEADERS), file,
             "a word is no refusal of a row");
    }
    hold(each[IGVM_FAULTY_ROWS] == faulty, file, "a report has another number of faulty rows than words other than 0");
    hold(each[IGVM_NO_PLATFORM] <= 1 && each[IGVM_NO_CONTEXT] <= 1, file, "whether 15 or 34 is told is neither 0 nor 1");
    hold(each[IGVM_NO_PLATFORM] || field(sheet, 8, 2) != 0, file, "15 is not told of a sheet without platform rows");
    first_reported(sheet, each, words, &number, &row);
    hold(verdict[IGVM_NUMBER] == number && verdict[IGVM_ROW] == row, file, "the first that is reported is not the verdict's refusal");
    size_t enough = 8 * each[IGVM_ROWS];
    memset(again, PAINT, ROW_WORDS + 1);
    hold(igvm_report(sheet, n, enough ? again : NULL, enough, IGVM_FAULTY_ROWS) == faulty && memcmp(words, again, ROW_WORDS + 1) == 0, file, "another report in just enough words");
    if (enough == 0) return;
    memset(again, PAINT, ROW_WORDS + 1);
    uint64_t refusal[IGVM_REPORT_NUMBERS] = {IGVM_ERROR_TOO_FEW_WORDS_LENT};
    for (uint32_t k = 0; k < IGVM_REPORT_NUMBERS; k++) each[k] = igvm_report(sheet, n, again, enough - 1, k);
    hold_numbers(file, numbers, IGVM_REPORT_NUMBERS, igvm_report_numbers(sheet, n, again, enough - 1, numbers, sizeof numbers), each);
    hold(memcmp(each, refusal, sizeof each) == 0, file, "too few words are not refused by 37 alone");
    hold_painted(file, again, 0, ROW_WORDS + 1, "a report puts words where too few are lent");
}

/* The bases from lowest to highest, for a region that the mask has. Returns the answer, 0 where the lowest is above the highest. */
static uint64_t range(const char *file, const uint8_t *sheet, size_t n, uint32_t mask, uint64_t region, uint64_t lowest, uint64_t highest) {
    uint8_t numbers[8 * IGVM_CHECK_NUMBERS + 1];
    uint64_t each[IGVM_CHECK_NUMBERS];
    memset(numbers, PAINT, sizeof numbers);
    for (uint32_t k = 0; k < IGVM_CHECK_NUMBERS; k++) each[k] = igvm_relocation_base_range(sheet, n, mask, region, lowest, highest, k);
    hold_numbers(file, numbers, IGVM_CHECK_NUMBERS, igvm_relocation_base_range_numbers(sheet, n, mask, region, lowest, highest, numbers, sizeof numbers), each);
    uint64_t answer = each[IGVM_BASE_RANGE];
    if (lowest > highest)
        hold(each[IGVM_NUMBER] == IGVM_ERROR_LOWEST_ABOVE_HIGHEST && answer == 0, file, "a lowest above the highest is not refused by 50");
    else
        hold(each[IGVM_NUMBER] == IGVM_ACCEPTED && answer >= IGVM_RANGE_ALWAYS && answer <= IGVM_RANGE_SOMETIMES, file, "a range gives none of its answers");
    return answer;
}

/* Both checks at this place, in a region that the mask has, and the range of this one base. Returns the base check's answer. */
static uint64_t checks(const char *file, const uint8_t *sheet, size_t n, uint32_t mask, uint64_t region, const uint8_t *words, uint64_t at) {
    uint8_t numbers[8 * IGVM_CHECK_NUMBERS + 1];
    uint64_t each[IGVM_CHECK_NUMBERS];
    memset(numbers, PAINT, sizeof numbers);
    for (uint32_t k = 0; k < IGVM_CHECK_NUMBERS; k++) each[k] = igvm_relocation_base_valid(sheet, n, mask, region, at, k);
    hold_numbers(file, numbers, IGVM_CHECK_NUMBERS, igvm_relocation_base_valid_numbers(sheet, n, mask, region, at, numbers, sizeof numbers), each);
    uint64_t base_check = each[IGVM_BASE_CHECK];
    hold(each[IGVM_NUMBER] == IGVM_ACCEPTED && base_check >= IGVM_BASE_VALID && base_check <= IGVM_BASE_ABOVE_MAXIMUM, file, "a base check gives none of its answers");
    hold(igvm_region_base_valid(words, IGVM_REGION_BYTES, at) == base_check, file, "the region's words say another base");
    uint64_t one = base_check == IGVM_BASE_VALID ? IGVM_RANGE_ALWAYS : IGVM_RANGE_NEVER;
    hold(range(file, sheet, n, mask, region, at, at) == one, file, "a range of one base answers otherwise than the base check");
    for (uint32_t k = 0; k < IGVM_CHECK_NUMBERS; k++) each[k] = igvm_contains(sheet, n, mask, region, at, k);
    hold_numbers(file, numbers, IGVM_CHECK_NUMBERS, igvm_contains_numbers(sheet, n, mask, region, at, numbers, sizeof numbers), each);
    hold(igvm_region_contains(words, IGVM_REGION_BYTES, at) == each[IGVM_CONTAINED], file, "the region's words say another address");
    return base_check;
}

/* The ranges between neighbouring places of a region, at which the base check has these answers, and of all bases. Returns the answer of the last. */
static uint64_t ranges(const char *file, const uint8_t *sheet, size_t n, uint32_t mask, uint64_t region, const uint64_t *places, const uint64_t *answers, size_t count) {
    for (size_t i = 1; i < count; i++) {
        uint64_t answer = range(file, sheet, n, mask, region, places[i - 1], places[i]);
        for (size_t end = i - 1; end <= i; end++) {
            hold(answer != IGVM_RANGE_NEVER || answers[end] != IGVM_BASE_VALID, file, "a range is never valid, and its end is");
            /* What is unaligned does not count. */
            hold(answer != IGVM_RANGE_ALWAYS || answers[end] == IGVM_BASE_VALID || answers[end] == IGVM_BASE_UNALIGNED, file, "a range is always valid, and its end is not");
        }
    }
    return range(file, sheet, n, mask, region, 0, UINT64_MAX);
}

static void relocations(const char *file, const uint8_t *sheet, size_t n, uint32_t mask, uint8_t *overlapping) {
    uint8_t numbers[8 * IGVM_RELOCATIONS_NUMBERS + 1], words[WORDS], again[WORDS];
    uint64_t each[IGVM_RELOCATIONS_NUMBERS];
    memset(numbers, PAINT, sizeof numbers);
    memset(words, PAINT, sizeof words);
    memset(again, PAINT, sizeof again);
    for (uint32_t k = 0; k < IGVM_RELOCATIONS_NUMBERS; k++) each[k] = igvm_relocations(sheet, n, mask, words, sizeof words, k);
    hold_numbers(file, numbers, IGVM_RELOCATIONS_NUMBERS, igvm_relocations_numbers(sheet, n, mask, again, sizeof again, numbers, sizeof numbers), each);
    hold(memcmp(words, again, sizeof words) == 0, file, "the sibling puts other words");
    memcpy(overlapping, sheet, n);
    hold(igvm_relocations(overlapping, n, mask, overlapping, WORDS, IGVM_COUNT) == each[IGVM_COUNT], file, "another count where the words overlap the sheet");
    hold(memcmp(words, overlapping, IGVM_REGION_BYTES * each[IGVM_COUNT]) == 0, file, "other words where they overlap the sheet");
    uint64_t refused = each[IGVM_NUMBER] != IGVM_ACCEPTED ? each[IGVM_NUMBER] : IGVM_ERROR_NO_SUCH_REGION;
    hold(igvm_relocation_base_range(sheet, n, mask, each[IGVM_COUNT], 1, 0, IGVM_NUMBER) == refused, file, "50 is not the last refusal of a range");
    for (uint64_t k = 0; k < each[IGVM_COUNT]; k++) {
        const uint8_t *region = words + IGVM_REGION_BYTES * k;
        uint64_t places[] = {0, word(region, 0), word(region, 0) + word(region, 1), word(region, 3), word(region, 4) - word(region, 1), UINT64_MAX};
        uint64_t answers[sizeof places / sizeof *places], differ = 0;
        for (size_t i = 0; i < sizeof places / sizeof *places; i++) {
            answers[i] = checks(file, sheet, n, mask, k, region, places[i]);
            differ |= answers[0] ^ answers[i];
        }
        /* A region's own base is aligned, and UINT64_MAX is not. */
        hold(differ != 0, file, "the base check gives one answer everywhere");
        /* The minimum is the first multiple that can be valid, and at the highest multiple of all the region ends above its maximum, which is one too. */
        uint64_t all = answers[3] == IGVM_BASE_VALID ? IGVM_RANGE_SOMETIMES : IGVM_RANGE_NEVER;
        hold(ranges(file, sheet, n, mask, k, places, answers, sizeof places / sizeof *places) == all, file, "the range of all bases answers otherwise than the minimum");
        memcpy(overlapping, sheet, n);
        hold(igvm_relocation_base_range_numbers(overlapping, n, mask, k, 0, UINT64_MAX, overlapping, WORDS) == IGVM_ACCEPTED && word(overlapping, IGVM_BASE_RANGE) == all, file,
             "another range where the numbers overlap the sheet");
    }
}

/* A region: start, size, and row in the sheet. */
struct region {
    uint64_t start, size, row;
};

/* The regions of both kinds in an accepted sheet whose mask holds every bit of the mask, in row order. Returns how many. */
static size_t read_regions(const uint8_t *sheet, uint32_t mask, struct region *regions) {
    uint64_t rows = field(sheet, 8, 2) + field(sheet, 10, 2) + field(sheet, 12, 2);
    size_t at = 16 + 8 * rows, found = 0;
    for (uint64_t k = 1; k <= rows; at += field(sheet, 12 + 8 * k, 4), k++) {
        uint64_t kind = field(sheet, 8 + 8 * k, 4);
        if ((kind != 18 && kind != 19) || (field(sheet, at, 4) & mask) != mask) continue;
        /* Kind 18 has its alignment between mask and gpa. */
        size_t gpa = at + (kind == 18 ? 12 : 4);
        regions[found++] = (struct region){field(sheet, gpa, 8), field(sheet, gpa + 8, 8), k};
    }
    return found;
}

/* The row of the region that holds the address, or 0. Every region is looked at. */
static uint64_t owner_in(const struct region *regions, size_t count, uint64_t gpa) {
    uint64_t row = 0;
    for (size_t k = 0; k < count; k++)
        if (regions[k].start <= gpa && gpa - regions[k].start < regions[k].size) row = regions[k].row;
    return row;
}

/* The owner of an address by the sheet: these numbers, by the sibling too, if all are lent, and where they overlap the sheet. */
static void owner(const char *file, const uint8_t *sheet, size_t n, uint32_t mask, uint64_t gpa, uint8_t *overlapping, const uint64_t *expected) {
    uint8_t numbers[8 * IGVM_CHECK_NUMBERS + 1];
    memset(numbers, PAINT, sizeof numbers);
    for (uint32_t k = 0; k < IGVM_CHECK_NUMBERS; k++) hold(igvm_region_of(sheet, n, mask, gpa, k) == expected[k], file, "another owner of an address than by a full reading");
    hold(igvm_region_of(sheet, n, mask, gpa, IGVM_CHECK_NUMBERS) == 0, file, "an owner has a number too many");
    hold(igvm_region_of_numbers(sheet, n, mask, gpa, numbers, 8 * IGVM_CHECK_NUMBERS - 1) == expected[IGVM_NUMBER], file, "the sibling returns another number");
    hold_painted(file, numbers, 0, sizeof numbers, "the sibling puts numbers where too few words are lent");
    hold_numbers(file, numbers, IGVM_CHECK_NUMBERS, igvm_region_of_numbers(sheet, n, mask, gpa, numbers, sizeof numbers), expected);
    memcpy(overlapping, sheet, n);
    hold(igvm_region_of_numbers(overlapping, n, mask, gpa, overlapping, WORDS) == expected[IGVM_NUMBER] && memcmp(overlapping, numbers, 8 * IGVM_CHECK_NUMBERS) == 0, file,
         "another owner where the numbers overlap the sheet");
}

/* An index in so many lent bytes: these numbers, by the sibling too. Bytes behind the words, and all of them in a refusal, are as they were. */
static void lent_index(const char *file, const uint8_t *sheet, size_t n, uint32_t mask, uint8_t *words, size_t lent, const uint64_t *expected) {
    uint8_t numbers[8 * IGVM_CHECK_NUMBERS + 1], again[INDEX_WORDS + 1];
    memset(numbers, PAINT, sizeof numbers);
    memset(words, PAINT, INDEX_WORDS + 1);
    memset(again, PAINT, sizeof again);
    for (uint32_t k = 0; k < IGVM_CHECK_NUMBERS; k++) hold(igvm_region_index(sheet, n, mask, words, lent, k) == expected[k], file, "an index has another number");
    hold(igvm_region_index(sheet, n, mask, words, lent, IGVM_CHECK_NUMBERS) == 0, file, "an index has a number too many");
    hold(igvm_region_index_numbers(sheet, n, mask, again, lent, numbers, 8 * IGVM_CHECK_NUMBERS - 1) == expected[IGVM_NUMBER], file, "the sibling returns another number");
    hold_painted(file, numbers, 0, sizeof numbers, "the sibling puts numbers where too few words are lent");
    hold(memcmp(words, again, sizeof again) == 0, file, "the sibling puts other words where it puts no numbers");
    memset(again, PAINT, sizeof again);
    hold_numbers(file, numbers, IGVM_CHECK_NUMBERS, igvm_region_index_numbers(sheet, n, mask, again, lent, numbers, sizeof numbers), expected);
    hold(memcmp(words, again, sizeof again) == 0, file, "the sibling puts other words");
    hold_painted(file, words, INDEX_REGION * expected[IGVM_COUNT], INDEX_WORDS + 1, "an index changes bytes behind its words");
}

/* The index has the regions that the sheet has, each start above the one before. */
static void hold_index(const char *file, const uint8_t *words, const struct region *regions, size_t count) {
    for (size_t k = 0; k < count; k++) {
        struct region region = {word(words, 3 * k), word(words, 3 * k + 1), word(words, 3 * k + 2)};
        size_t same = 0;
        for (size_t i = 0; i < count; i++) same += memcmp(&region, regions + i, sizeof region) == 0;
        hold(same == 1, file, "an index has a region that the sheet has not");
        hold(k == 0 || word(words, 3 * k - 3) < region.start, file, "an index is not in the order of the starts");
    }
}

/* Owners of addresses: at the start, the last byte and the end of each region, below it, and at the ends of all addresses, by the sheet and by the index. */
static void owners(const char *file, const uint8_t *sheet, size_t n, uint32_t mask, uint8_t *overlapping) {
    uint8_t words[INDEX_WORDS + 1], unused[INDEX_WORDS + 1];
    struct region regions[IGVM_MAX_INITIALIZATION_ROWS];
    uint64_t expected[IGVM_CHECK_NUMBERS] = {igvm_verdict(sheet, n, 0), igvm_verdict(sheet, n, 1), igvm_verdict(sheet, n, 2)};
    if (expected[IGVM_NUMBER] == IGVM_ACCEPTED && mask == 0) expected[IGVM_NUMBER] = IGVM_ERROR_QUERY_MASK_ZERO;
    if (expected[IGVM_NUMBER] != IGVM_ACCEPTED) {
        owner(file, sheet, n, mask, 0, overlapping, expected);
        lent_index(file, sheet, n, mask, words, INDEX_WORDS, expected);
        lent_index(file, sheet, n, mask, words, 0, expected);
        return;
    }
    size_t count = read_regions(sheet, mask, regions), filled = INDEX_REGION * count;
    expected[IGVM_COUNT] = count;
    lent_index(file, sheet, n, mask, words, INDEX_WORDS + 1, expected);
    hold_index(file, words, regions, count);
    lent_index(file, sheet, n, mask, unused, filled, expected);
    hold(memcmp(words, unused, sizeof words) == 0, file, "another index in just enough words");
    memcpy(overlapping, sheet, n);
    hold(igvm_region_index(overlapping, n, mask, overlapping, WORDS, IGVM_COUNT) == count && memcmp(words, overlapping, filled) == 0, file, "another index where it overlaps the sheet");
    uint64_t too_few[IGVM_CHECK_NUMBERS] = {IGVM_ERROR_TOO_FEW_WORDS_LENT};
    if (count > 0) lent_index(file, sheet, n, mask, unused, filled - 1, too_few);
    for (size_t k = 0; k <= count; k++) {
        uint64_t start = k < count ? regions[k].start : 1, size = k < count ? regions[k].size : 0;
        uint64_t places[] = {start - 1, start, start + size - 1, start + size, UINT64_MAX};
        for (size_t i = 0; i < sizeof places / sizeof *places; i++) {
            expected[IGVM_REGION_ROW] = owner_in(regions, count, places[i]);
            owner(file, sheet, n, mask, places[i], overlapping, expected);
            hold(igvm_region_in(words, filled, places[i]) == expected[IGVM_REGION_ROW], file, "another owner by the index than by a full reading");
        }
    }
}

static void *all_sheets(void *nothing) {
    for (int i = 0; i < count; i++) {
        size_t n;
        uint8_t *sheet = read_sheet(files[i], &n), *overlapping = malloc(IGVM_MAX_SHEET_BYTES + 1 + WORDS), *words = malloc(2 * (ROW_WORDS + 1));
        hold(overlapping && words, files[i], "no memory");
        verdicts(files[i], sheet, n, overlapping);
        report(files[i], sheet, n, words, words + ROW_WORDS + 1);
        for (uint32_t mask = 0; mask < 4; mask++) {
            relocations(files[i], sheet, n, mask, overlapping);
            owners(files[i], sheet, n, mask, overlapping);
        }
        free(sheet);
        free(overlapping);
        free(words);
    }
    return nothing;
}

/* Each call on a sheet, with as little of the stack as can be in use besides, and the three on words. */
static uint8_t numbers_lent[8 * IGVM_RELOCATIONS_NUMBERS], words_lent[ROW_WORDS];

static void call_0(const uint8_t *s, size_t n) { igvm_verdict(s, n, 0); }
static void call_1(const uint8_t *s, size_t n) { igvm_verdict_numbers(s, n, numbers_lent, sizeof numbers_lent); }
static void call_2(const uint8_t *s, size_t n) { igvm_strict_verdict(s, n, 0); }
static void call_3(const uint8_t *s, size_t n) { igvm_strict_verdict_numbers(s, n, numbers_lent, sizeof numbers_lent); }
static void call_4(const uint8_t *s, size_t n) { igvm_report(s, n, words_lent, sizeof words_lent, 0); }
static void call_5(const uint8_t *s, size_t n) { igvm_report_numbers(s, n, words_lent, sizeof words_lent, numbers_lent, sizeof numbers_lent); }
static void call_6(const uint8_t *s, size_t n) { igvm_relocations(s, n, 1, words_lent, sizeof words_lent, 0); }
static void call_7(const uint8_t *s, size_t n) { igvm_relocations_numbers(s, n, 1, words_lent, sizeof words_lent, numbers_lent, sizeof numbers_lent); }
static void call_8(const uint8_t *s, size_t n) { igvm_relocation_base_valid(s, n, 1, 0, 0, 0); }
static void call_9(const uint8_t *s, size_t n) { igvm_relocation_base_valid_numbers(s, n, 1, 0, 0, numbers_lent, sizeof numbers_lent); }
static void call_10(const uint8_t *s, size_t n) { igvm_relocation_base_range(s, n, 1, 0, 0, UINT64_MAX, 0); }
static void call_11(const uint8_t *s, size_t n) { igvm_relocation_base_range_numbers(s, n, 1, 0, 0, UINT64_MAX, numbers_lent, sizeof numbers_lent); }
static void call_12(const uint8_t *s, size_t n) { igvm_contains(s, n, 1, 0, 0, 0); }
static void call_13(const uint8_t *s, size_t n) { igvm_contains_numbers(s, n, 1, 0, 0, numbers_lent, sizeof numbers_lent); }
static void call_14(const uint8_t *s, size_t n) { igvm_region_base_valid(s, n, 0); }
static void call_15(const uint8_t *s, size_t n) { igvm_region_contains(s, n, 0); }
static void call_16(const uint8_t *s, size_t n) { igvm_region_of(s, n, 1, 0, 0); }
static void call_17(const uint8_t *s, size_t n) { igvm_region_of_numbers(s, n, 1, 0, numbers_lent, sizeof numbers_lent); }
static void call_18(const uint8_t *s, size_t n) { igvm_region_index(s, n, 1, words_lent, sizeof words_lent, 0); }
static void call_19(const uint8_t *s, size_t n) { igvm_region_index_numbers(s, n, 1, words_lent, sizeof words_lent, numbers_lent, sizeof numbers_lent); }
static void call_20(const uint8_t *s, size_t n) { igvm_region_in(s, n, UINT64_MAX); }

static const struct {
    const char *name;
    void (*made)(const uint8_t *, size_t);
} calls[] = {
    {"igvm_verdict", call_0},
    {"igvm_verdict_numbers", call_1},
    {"igvm_strict_verdict", call_2},
    {"igvm_strict_verdict_numbers", call_3},
    {"igvm_report", call_4},
    {"igvm_report_numbers", call_5},
    {"igvm_relocations", call_6},
    {"igvm_relocations_numbers", call_7},
    {"igvm_relocation_base_valid", call_8},
    {"igvm_relocation_base_valid_numbers", call_9},
    {"igvm_relocation_base_range", call_10},
    {"igvm_relocation_base_range_numbers", call_11},
    {"igvm_contains", call_12},
    {"igvm_contains_numbers", call_13},
    {"igvm_region_base_valid", call_14},
    {"igvm_region_contains", call_15},
    {"igvm_region_of", call_16},
    {"igvm_region_of_numbers", call_17},
    {"igvm_region_index", call_18},
    {"igvm_region_index_numbers", call_19},
    {"igvm_region_in", call_20},
};
#define CALLS (sizeof calls / sizeof *calls)

struct measured {
    const uint8_t *sheet;
    size_t n, call;
    uint8_t *stack;
    size_t taken;
};

static void *measure(void *given) {
    struct measured *m = given;
    const uint8_t *here = __builtin_frame_address(0), *low = m->stack;
    calls[m->call].made(m->sheet, m->n);
    while (*low == PAINT) low++;
    m->taken = (size_t)(here - low);
    return NULL;
}

/* How many bytes of a painted stack a call has written. */
static size_t stack_of(const char *what, const uint8_t *sheet, size_t n, size_t call) {
    static uint8_t *stack;
    if (!stack) stack = mmap(NULL, STACK, PROT_READ | PROT_WRITE, MAP_PRIVATE | MAP_ANONYMOUS, -1, 0);
    hold(stack != MAP_FAILED, "stack", "no memory");
    memset(stack, PAINT, STACK);
    struct measured m = {sheet, n, call, stack, 0};
    pthread_attr_t attr;
    pthread_t thread;
    pthread_attr_init(&attr);
    pthread_attr_setstack(&attr, stack, STACK);
    hold(pthread_create(&thread, &attr, measure, &m) == 0, "stack", "no thread");
    pthread_join(thread, NULL);
    pthread_attr_destroy(&attr);
    if (m.taken >= IGVM_STACK_BYTES) fprintf(stderr, "%s: %zu bytes\n", calls[call].name, m.taken);
    hold(m.taken < IGVM_STACK_BYTES, what, "a call takes IGVM_STACK_BYTES of stack or more");
    return m.taken;
}

/* The most that a call takes on one of the sheets. */
static size_t stack_of_files(void) {
    size_t most = 0;
    for (int i = 0; i < count; i++) {
        size_t n;
        uint8_t *sheet = read_sheet(files[i], &n);
        for (size_t call = 0; call < CALLS; call++) {
            size_t taken = stack_of(files[i], sheet, n, call);
            if (taken > most) most = taken;
        }
        free(sheet);
    }
    return most;
}

/* ---- images made here */

static uint8_t image[16 + 8 * (2 + IGVM_MAX_DIRECTIVE_ROWS) + 16 + 48 + 12 * IGVM_MAX_DIRECTIVE_ROWS];
static size_t image_bytes;

static void put(uint64_t v, size_t width) {
    for (size_t i = 0; i < width; i++) image[image_bytes++] = (uint8_t)(v >> (8 * i));
}

/* A sheet of revision 1 as far as its platform's body: head, and table of a platform row, regions, and directive rows of one kind and length. */
static void put_image(size_t regions, size_t directives, uint64_t kind, uint64_t length) {
    image_bytes = 0;
    put(1, 8), put(1, 2), put(regions, 2), put(directives, 2), put(0, 2);
    put(1, 4), put(16, 4);
    for (size_t i = 0; i < regions; i++) put(18, 4), put(48, 4);
    for (size_t i = 0; i < directives; i++) put(kind, 4), put(length, 4);
    put(1, 4), put(0, 2), put(1, 2), put(0, 8);
}

static void put_b(void) {
    put_image(1, 1, 47, 5);
    put(1, 4), put(0x1000, 8), put(0x100000, 8), put(0x2000, 8), put(0, 8), put(0x200000, 8), put(0, 4);
    put(1, 4), put(0, 1);
}

/* Areas whose indexes are spread over 32 bits, none of them below 1,024. The last is the first again, where it is to be refused. */
static void put_areas(size_t areas, int refused) {
    put_image(0, areas, 33, 12);
    for (size_t k = 1; k <= areas; k++) put(0x1000, 8), put((refused && k == areas ? 1 : k) * 524287, 4);
}

/* What each call takes on the image, which gets this verdict: less than `bound`. Returns the most. */
static size_t stack_of_image(const char *what, uint64_t number, uint64_t row, size_t bound) {
    hold(igvm_verdict(image, image_bytes, IGVM_NUMBER) == number && igvm_verdict(image, image_bytes, IGVM_ROW) == row, what, "another verdict");
    size_t most = 0;
    printf("%s:", what);
    for (size_t call = 0; call < CALLS; call++) {
        size_t taken = stack_of(what, image, image_bytes, call);
        printf("%s %s %zu", call ? "," : "", calls[call].name, taken);
        hold(taken < bound, what, "a call takes more stack than it should on an image of few areas");
        if (taken > most) most = taken;
    }
    printf("\n");
    return most;
}

static size_t stack_of_images(void) {
    put_b();
    stack_of_image("image B", IGVM_ACCEPTED, 0, FEW_AREAS_STACK);
    image[16 + 8 * 3] = 3; /* the mask of the platform, behind head and table */
    stack_of_image("image B with a faulty row", IGVM_ERROR_INVALID_COMPATIBILITY_MASK, 1, IGVM_STACK_BYTES);
    put_areas(1024, 0);
    stack_of_image("1,024 areas", IGVM_ACCEPTED, 0, FEW_AREAS_STACK);
    put_areas(IGVM_MAX_DIRECTIVE_ROWS, 0);
    size_t accepted = stack_of_image("8,192 areas", IGVM_ACCEPTED, 0, IGVM_STACK_BYTES);
    put_areas(IGVM_MAX_DIRECTIVE_ROWS, 1);
    size_t refused = stack_of_image("8,192 areas, the last refused", IGVM_ERROR_INVALID_PARAMETER_AREA_INDEX, 1 + IGVM_MAX_DIRECTIVE_ROWS, IGVM_STACK_BYTES);
    return accepted > refused ? accepted : refused;
}

int main(int argc, char **argv) {
    files = argv + 1;
    count = argc - 1;
    hold(count > 0, "usage", "hosts SHEET..");
    pthread_t threads[THREADS];
    for (size_t i = 0; i < THREADS; i++) hold(pthread_create(threads + i, NULL, all_sheets, NULL) == 0, "thread", "none");
    for (size_t i = 0; i < THREADS; i++) pthread_join(threads[i], NULL);
    size_t images = stack_of_images(), sheets = stack_of_files();
    printf("%d sheets, %zu bytes of stack\n", count, images > sheets ? images : sheets);
    return 0;
}
