/* Prints the names in the list of the rule file on standard input, line for line as `namelist` does: for each entry and each parameter of
 * the named type the bytes of a name in Latin-1, then in UTF-8, in decimal. From the root of the repository:
 *
 *     tools/prove remburai
 *     mkdir -p target
 *     gcc -O2 -Wall -Wextra -I include -o target/names examples/c/names.c crates/remburai/out/libremburai.a
 *     target/names < RULE
 *
 * where the rule file RULE has a record NA; without one there are no names. docs/FORMAT.md has such a file, whose one name is printed as
 * `0 0`. The slices are as long as the library takes; with those of `namelist`, -DLIST_BYTES=32768 -DWORK_WORDS=16384, refusals 11 and 12
 * are given where `namelist` gives them.
 *
 * Exit status: 0 printed, also where there are no names, 3 refused, 4 a fault in reading or writing.
 */
#include <stdio.h>
#include "remburai.h"

#ifndef LIST_BYTES
#define LIST_BYTES REMBURAI_LIST_LIMIT
#endif
#ifndef WORK_WORDS
#define WORK_WORDS REMBURAI_WORK_MOST
#endif

static uint8_t file[REMBURAI_FILE_LIMIT + 1]; /* one byte more, so that a file that is too long is seen to be */
static uint32_t work[WORK_WORDS];
static uint8_t list[LIST_BYTES];
static uint8_t text[REMBURAI_TEXT_BOUND(LIST_BYTES)]; /* holds every text of such a list */

int main(void) {
    size_t file_length = fread(file, 1, sizeof file, stdin);
    size_t length = (size_t)remburai_names(file, file_length, work, WORK_WORDS, list, LIST_BYTES, text, sizeof text);

    if (fwrite(text, 1, length, stdout) != length || ferror(stdin) || fflush(stdout) != 0) {
        perror("names");
        return 4;
    }
    return remburai_names_refusal(text, length) == REMBURAI_ACCEPTED ? 0 : 3;
}
