/* A host that reads a sheet from standard input, asks for the verdict, with `--strict` the strict one, and for a mask (the argument, in hexadecimal digits; 1 without
 * it) its regions, whether each may stay where it is, or why not, and its page-table region. One call for each answer. Of addresses (further arguments, in hexadecimal
 * digits) it says which region owns each, by an index that it makes once. Status 0: accepted; 1: refused; 2: no input. */
#include <errno.h>
#include <inttypes.h>
#include <stdio.h>
#include <stdlib.h>
#include <string.h>

#include "igvm.h"

/* One byte more than the longest sheet, so that a longer input is refused, not cut. */
static uint8_t sheet[IGVM_MAX_SHEET_BYTES + 1];

/* As many regions as a sheet can have. */
static uint8_t words[IGVM_REGION_BYTES * IGVM_MAX_INITIALIZATION_ROWS];

/* An index of as many. */
static uint8_t index_words[8 * IGVM_MAX_REGION_INDEX_WORDS];

static uint8_t numbers[8 * IGVM_RELOCATIONS_NUMBERS];

/* Word k of lent bytes. */
static uint64_t word(const uint8_t *bytes, size_t k) {
    uint64_t v = 0;
    for (size_t i = 8; i-- > 0;) v = v << 8 | bytes[8 * k + i];
    return v;
}

static uint64_t number(size_t which) { return word(numbers, which); }

static int refused(void) {
    printf("refused %" PRIu64 " row %" PRIu64 " detail %" PRIu64 "\n", number(IGVM_NUMBER), number(IGVM_ROW), number(IGVM_DETAIL));
    return 1;
}

/* A base check's answer. It is no yes because it is not 0. */
static const char *stays(uint64_t check) {
    switch (check) {
        case IGVM_BASE_VALID: return "yes";
        case IGVM_BASE_UNALIGNED: return "no (unaligned)";
        case IGVM_BASE_BELOW_MINIMUM: return "no (below the minimum)";
        case IGVM_BASE_ABOVE_MAXIMUM: return "no (above the maximum)";
        default: return "no"; /* none of this header's version */
    }
}

static void print_region(uint64_t k) {
    const uint8_t *region = words + IGVM_REGION_BYTES * k;
    uint64_t base = word(region, 0);
    printf("region %" PRIu64 ": base 0x%" PRIx64 " size 0x%" PRIx64 ", may stay: %s, holds its base: %" PRIu64 "\n", k, base, word(region, 1),
           stays(igvm_region_base_valid(region, IGVM_REGION_BYTES, base)), igvm_region_contains(region, IGVM_REGION_BYTES, base));
}

/* A lookup takes the words of the index that are filled, and no sheet. */
static void print_owner(uint64_t regions, uint64_t gpa) {
    uint64_t row = igvm_region_in(index_words, 8 * IGVM_REGION_INDEX_WORDS * regions, gpa);
    if (row != 0)
        printf("address 0x%" PRIx64 ": row %" PRIu64 "\n", gpa, row);
    else
        printf("address 0x%" PRIx64 ": no region\n", gpa);
}

/* The number of an argument in hexadecimal digits, if it is one. */
static int hexadecimal(const char *digits, uint64_t *v) {
    char *end;
    errno = 0;
    *v = strtoull(digits, &end, 16);
    return end != digits && *end == 0 && errno == 0;
}

/* `addresses` are arguments; behind the last stands a null pointer. */
static int answer(size_t n, int strict, uint32_t mask, char **addresses) {
    uint64_t refusal = (strict ? igvm_strict_verdict_numbers : igvm_verdict_numbers)(sheet, n, numbers, sizeof numbers);
    if (refusal != IGVM_ACCEPTED) return refused();
    printf("accepted %" PRIu64 " %" PRIu64 " %" PRIu64 "\n", number(IGVM_PLATFORM_ROWS), number(IGVM_INITIALIZATION_ROWS), number(IGVM_DIRECTIVE_ROWS));
    if (igvm_relocations_numbers(sheet, n, mask, words, sizeof words, numbers, sizeof numbers) != IGVM_ACCEPTED) return refused();
    for (uint64_t k = 0; k < number(IGVM_COUNT); k++) print_region(k);
    if (number(IGVM_PAGE_TABLE))
        printf("page table: gpa 0x%" PRIx64 " size 0x%" PRIx64 " used 0x%" PRIx64 "\n", number(IGVM_GPA), number(IGVM_SIZE), number(IGVM_USED_SIZE));
    if (igvm_region_index_numbers(sheet, n, mask, index_words, sizeof index_words, numbers, sizeof numbers) != IGVM_ACCEPTED) return refused();
    uint64_t regions = number(IGVM_COUNT);
    for (uint64_t gpa; *addresses; addresses++)
        if (hexadecimal(*addresses, &gpa)) print_owner(regions, gpa);
    return 0;
}

int main(int argc, char **argv) {
    int strict = argc > 1 && strcmp(argv[1], "--strict") == 0;
    char **given = argv + 1 + strict;
    uint64_t mask = 1, gpa;
    int understood = !*given || (hexadecimal(*given++, &mask) && mask <= UINT32_MAX);
    for (char **address = given; *address; address++) understood = understood && hexadecimal(*address, &gpa);
    if (!understood) {
        fprintf(stderr, "usage: host [--strict] [MASK [ADDRESS..]] < SHEET\n");
        return 2;
    }
    size_t n = fread(sheet, 1, sizeof sheet, stdin);
    if (ferror(stdin)) {
        fprintf(stderr, "the input can't be read\n");
        return 2;
    }
    return answer(n, strict, (uint32_t)mask, given);
}
