/* Searches a rule file, and prints how many entries its list has, and the verdict with the depth and the step limit within which it holds,
 * or the number of the refusal.
 *
 * From the root of the repository:
 *
 *     tools/prove remburai
 *     mkdir -p target
 *     gcc -O2 -Wall -Wextra -I include -o target/list examples/c/list.c crates/remburai/out/libremburai.a
 *     target/list examples/p.rule
 *
 * The last line prints `entries 1, bytes 9, found within depth 4, 20 steps`.
 */
#include <stdio.h>
#include "remburai.h"

static uint8_t file[REMBURAI_FILE_LIMIT + 1]; /* one byte more, so that a file that is too long is seen to be */
static uint32_t work[REMBURAI_WORK_MOST];
static uint8_t list[REMBURAI_LIST_LIMIT];

static size_t count_entries(size_t length) {
    size_t count = 0, place, size;
    for (place = 0; (size = remburai_size_at(list, length, place)) != 0; place += size)
        count++;
    return count;
}

int main(int arguments, char **argument) {
    static const char *const verdicts[] = {"no verdict", "found", "undecided", "none"};
    if (arguments != 2) {
        fprintf(stderr, "usage: list FILE\n");
        return 2;
    }
    FILE *from = fopen(argument[1], "rb");
    if (from == NULL) {
        perror(argument[1]);
        return 2;
    }
    size_t length = fread(file, 1, sizeof file, from);
    fclose(from);

    uint64_t answer = remburai_search(file, length, work, REMBURAI_WORK_MOST, list, sizeof list);
    unsigned refusal = remburai_refusal(answer);
    if (refusal != REMBURAI_ACCEPTED && refusal != REMBURAI_LIST_FULL) {
        printf("refused %u\n", refusal);
        return 1;
    }
    size_t bytes = remburai_list_length(answer);
    const uint8_t *limits = file + length - 3; /* D and S end every rule file that is accepted */
    printf("entries %zu, bytes %zu, %s within depth %u, %u steps\n", count_entries(bytes), bytes, verdicts[remburai_verdict(answer)], limits[0],
           limits[1] + 256u * limits[2]);
    return refusal == REMBURAI_LIST_FULL;
}
