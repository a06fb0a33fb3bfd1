/* Prints the list of the rule file on standard input, line for line as `reachlist` does, and takes the list apart itself for that;
 * text.c leaves that to the library. From the root of the repository:
 *
 *     tools/prove remburai
 *     mkdir -p target
 *     gcc -O2 -Wall -Wextra -I include -o target/print examples/c/print.c crates/remburai/out/libremburai.a
 *     target/print < examples/p.rule
 *
 * The last line prints `reach 6 1 1 _` and `total 1 0 0 0 found`. The slices are as long as the library takes; with those of `reachlist`,
 * -DLIST_BYTES=32768 -DWORK_WORDS=16384, refusals 11 and 12 are given where `reachlist` gives them.
 *
 * Exit status: 0 found, 1 none, 2 undecided, 3 refused, 4 a fault in reading or writing.
 */
#include <stdio.h>
#include "remburai.h"

#ifndef LIST_BYTES
#define LIST_BYTES REMBURAI_LIST_LIMIT
#endif
#ifndef WORK_WORDS
#define WORK_WORDS REMBURAI_WORK_MOST
#endif

static uint8_t file[REMBURAI_FILE_LIMIT + 1]; /* one byte more, so that a file that is too long is seen to be */
static uint32_t work[WORK_WORDS];
static uint8_t list[LIST_BYTES];

/* An entry: its kind, its steps, and its values byte by byte. */
static void print_entry(const uint8_t *entry) {
    static const char *const kinds[] = {NULL, "reach", NULL, "unfinished", "missing"};
    const uint8_t *values = remburai_entry_values(entry);
    const uint8_t *end = values + remburai_entry_values_length(entry);
    printf("%s %u", kinds[remburai_entry_kind(entry)], remburai_entry_steps(entry));
    for (; values != end; values++) {
        if (*values == REMBURAI_OPEN)
            printf(" _");
        else
            printf(" %u", (unsigned)*values);
    }
    printf("\n");
}

/* The total: how many entries there are of each kind, and the share of the unfinished ones, in which the missing ones do not count. */
static void print_total(const uint32_t *count, const char *verdict) {
    uint32_t reached = count[REMBURAI_REACHED], unfinished = count[REMBURAI_UNFINISHED], missing = count[REMBURAI_MISSING];
    unsigned share = (unsigned)remburai_share(reached, unfinished);
    printf("total %u %u %u %u %s\n", (unsigned)reached, (unsigned)unfinished, (unsigned)missing, share, verdict);
}

/* The entries of the list, and the total where there is a verdict. */
static void print_list(size_t length, const char *verdict) {
    size_t place, size;
    uint32_t count[REMBURAI_MISSING + 1] = {0}; /* by the numbers of the kinds */
    for (place = 0; (size = remburai_size_at(list, length, place)) != 0; place += size) {
        print_entry(list + place);
        count[remburai_entry_kind(list + place)]++;
    }
    if (verdict != NULL)
        print_total(count, verdict);
}

int main(void) {
    static const char *const verdicts[] = {NULL, "found", "undecided", "none"};
    static const int statuses[] = {3, 0, 2, 1};
    size_t file_length = fread(file, 1, sizeof file, stdin);
    uint64_t answer = remburai_search(file, file_length, work, WORK_WORDS, list, LIST_BYTES);
    unsigned verdict = remburai_verdict(answer);

    print_list(remburai_list_length(answer), verdicts[verdict]);
    if (remburai_refusal(answer) != REMBURAI_ACCEPTED)
        printf("refused %u\n", remburai_refusal(answer));
    if (ferror(stdin) || fflush(stdout) != 0 || ferror(stdout)) {
        perror("print");
        return 4;
    }
    return statuses[verdict];
}
