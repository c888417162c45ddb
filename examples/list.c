/*
 * Lists the minimal cuts of a plan: list [FILE], FILE in raw bytes. Without a FILE it takes the bridge.
 * It prints what the list program prints. Its exit status is 0 if the cuts are listed, 1 if the plan is
 * refused, 2 if there is nothing to read, 3 if what it printed was lost.
 *
 *   cc -std=c99 -I include examples/list.c target/staticlib/libcapi.a -o list
 */
#include <stdio.h>

#include "cutlist.h"

#define ROWS 2048

enum { LISTED = 0, REFUSED = 1, UNREADABLE = 2, LOST = 3 };

static const uint8_t bridge[] = {
    0x50, 4,
    0x53, 0, 3,
    0x43, 0, 0, 1,
    0x43, 1, 0, 2,
    0x43, 2, 1, 2,
    0x43, 3, 1, 3,
    0x43, 4, 2, 3,
    0x45,
};

/*
 * Reads what decides the plan of a file, which may be longer, and gives its length. Gives -1, and says
 * why, if the file cannot be read.
 */
static int read_plan(const char *name, uint8_t bytes[CUTLIST_DECIDING_BYTES])
{
    FILE *file = fopen(name, "rb");
    size_t length;
    int failed;

    if (file == NULL) {
        perror(name);
        return -1;
    }
    length = fread(bytes, 1, CUTLIST_DECIDING_BYTES, file);
    failed = ferror(file);
    if (failed)
        perror(name);
    fclose(file);
    return failed ? -1 : (int)length;
}

/* Prints the members of a set, rising, or a hyphen for none. */
static void print_set(uint64_t set)
{
    const char *gap = "";
    int k;

    if (set == 0)
        printf("-");
    for (k = 0; k < 64; k++) {
        if (set >> k & 1) {
            printf("%s%d", gap, k);
            gap = " ";
        }
    }
}

/* Reads a plan, lists it and prints the rows. Gives the refusal's number. */
static uint8_t list(const uint8_t *bytes, size_t length)
{
    static uint64_t cuts[ROWS];
    static uint64_t sides[ROWS];
    struct cutlist_plan plan;
    size_t count, row;
    uint8_t refusal;

    refusal = cutlist_plan_decode(bytes, length, &plan);
    if (refusal != CUTLIST_ACCEPTED)
        return refusal;

    refusal = cutlist_plan_list(&plan, cuts, ROWS, sides, ROWS, &count);
    if (refusal != CUTLIST_ACCEPTED)
        return refusal;

    printf("cuts %zu\n", count);
    for (row = 0; row < count; row++) {
        print_set(cuts[row]);
        printf(" | ");
        print_set(sides[row]);
        printf("\n");
    }
    return CUTLIST_ACCEPTED;
}

int main(int argc, char **argv)
{
    uint8_t refusal;

    if (argc > 2) {
        fprintf(stderr, "usage: list [FILE]\n");
        return UNREADABLE;
    }
    if (argc == 2) {
        uint8_t bytes[CUTLIST_DECIDING_BYTES];
        int length = read_plan(argv[1], bytes);
        if (length < 0)
            return UNREADABLE;
        refusal = list(bytes, (size_t)length);
    } else {
        refusal = list(bridge, sizeof bridge);
    }
    if (refusal != CUTLIST_ACCEPTED)
        printf("refused %d\n", refusal);

    /* A write may fail as late as when the output is closed. */
    if (ferror(stdout) || fclose(stdout) != 0) {
        perror("list: output lost");
        return LOST;
    }
    return refusal == CUTLIST_ACCEPTED ? LISTED : REFUSED;
}
