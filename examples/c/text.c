/* Prints the list of the rule file on standard input as `reachlist` does, in the library's own text: its length first, then that much
 * memory, then the text. From the root of the repository:
 *
 *     tools/prove remburai
 *     mkdir -p target
 *     gcc -O2 -Wall -Wextra -I include -o target/text examples/c/text.c crates/remburai/out/libremburai.a
 *     target/text < examples/p.rule
 *
 * The last line prints `reach 6 1 1 _` and `total 1 0 0 0 found`. The slices are as long as the library takes; with those of `reachlist`,
 * -DLIST_BYTES=32768 -DWORK_WORDS=16384, refusals 11 and 12 are given where `reachlist` gives them. print.c takes the list apart itself.
 *
 * Exit status: 0 found, 1 none, 2 undecided, 3 refused, 4 a fault in reading or writing, or no memory.
 */
#include <stdio.h>
#include <stdlib.h>
#include "remburai.h"

#ifndef LIST_BYTES
#define LIST_BYTES REMBURAI_LIST_LIMIT
#endif
#ifndef WORK_WORDS
#define WORK_WORDS REMBURAI_WORK_MOST
#endif

static uint8_t file[REMBURAI_FILE_LIMIT + 1]; /* one byte more, so that a file that is too long is seen to be */
static uint32_t work[WORK_WORDS];
static uint8_t list[LIST_BYTES];

/* The text of the list, whether it is complete or cut short. Neither call refuses what a search has written. */
static int print_text(size_t file_length, size_t list_length, bool full) {
    size_t length = remburai_text_bytes(remburai_text_length(file, file_length, list, list_length, full));
    uint8_t *text = malloc(length);
    if (text == NULL)
        return 0;
    uint64_t answer = remburai_write_text(file, file_length, list, list_length, full, text, length);
    int printed = remburai_refusal(answer) == REMBURAI_ACCEPTED && fwrite(text, 1, length, stdout) == length;
    free(text);
    return printed;
}

int main(void) {
    static const int statuses[] = {3, 0, 2, 1};
    size_t file_length = fread(file, 1, sizeof file, stdin);
    uint64_t answer = remburai_search(file, file_length, work, WORK_WORDS, list, LIST_BYTES);
    unsigned refusal = remburai_refusal(answer);
    bool full = refusal == REMBURAI_LIST_FULL;
    int printed;

    if (refusal == REMBURAI_ACCEPTED || full)
        printed = print_text(file_length, remburai_list_length(answer), full);
    else
        printed = printf("refused %u\n", refusal) > 0;
    if (!printed || ferror(stdin) || fflush(stdout) != 0) {
        perror("text");
        return 4;
    }
    return statuses[remburai_verdict(answer)];
}
