/* Makes every call on one rule, examples/p.rule, that of names on another, that of the share on counts, and prints each answer: the number,
 * and what is read off it.
 * docs/FORMAT.md shows the lines and goes through the bytes. From the root of the repository:
 *
 *     tools/prove remburai
 *     mkdir -p target
 *     gcc -O2 -Wall -Wextra -I include -o target/answers examples/c/answers.c crates/remburai/out/libremburai.a
 *     target/answers
 */
#include <inttypes.h>
#include <stdio.h>
#include "remburai.h"

static const uint8_t file[] = {
    'T', 'Y', 2, 0, 1, 0,
    'F', 'N', 1, 0, 0, 23, 0, 3, 0, 0, 0, 1, 2, 0, 0, 1, 3, 0, 0, 1, 1, 2, 0, 0, 1, 5, 7, 2, 0, 0,
    'G', 'O', 0, 7, 4, 20, 0,
};
static const uint8_t named[] = {
    'T', 'Y', 16, 0, 0, 0, 0, 0, 0, 0, 0, 0, 0, 0, 0, 0, 0, 0, 0,
    'T', 'Y', 2, 0, 3, 0, 0, 1,
    'F', 'N', 1, 1, 1, 12, 0, 3, 1, 0, 0, 1, 0, 0, 1, 5, 7, 0, 0,
    'N', 'A', 1,
    'G', 'O', 0, 7, 2, 20, 0,
};
static uint32_t work[REMBURAI_WORK_WORDS(20)]; /* the S of both is 20 */
static uint8_t list[64];
static uint8_t text[64];

static void print_number(const char *call, uint64_t answer) { printf("%-19s 0x%-10" PRIX64 " ", call, answer); }

static void print_search(const char *call, size_t list_length) {
    static const char *const verdicts[] = {"no verdict", "found", "undecided", "none"};
    uint64_t answer = remburai_search(file, sizeof file, work, sizeof work / sizeof *work, list, list_length);
    print_number(call, answer);
    printf("refusal %u, %s, %zu bytes\n", remburai_refusal(answer), verdicts[remburai_verdict(answer)], remburai_list_length(answer));
}

static void print_run(const char *call, const uint8_t *input, size_t input_length) {
    static const char *const outcomes[] = {"no outcome", "reached", "ended", "unfinished", "missing"};
    uint64_t answer = remburai_run(file, sizeof file, input, input_length, work, sizeof work / sizeof *work);
    print_number(call, answer);
    printf("refusal %u, %s, ", remburai_refusal(answer), outcomes[remburai_outcome(answer)]);
    printf("%u steps, depth %u\n", remburai_steps(answer), remburai_depth(answer));
}

static void print_entry(const char *call, size_t list_length, size_t number) {
    uint64_t answer = remburai_entry(list, list_length, number);
    print_number(call, answer);
    printf("place %zu, size %zu\n", remburai_entry_place(answer), remburai_entry_size(answer));
}

static void print_text_answer(const char *call, uint64_t answer) {
    print_number(call, answer);
    printf("refusal %u, %zu bytes\n", remburai_refusal(answer), remburai_text_bytes(answer));
}

/* The text of the list, whose length is 9: its length, then the text itself. */
static void print_texts(void) {
    print_text_answer("length", remburai_text_length(file, sizeof file, list, 9, false));
    print_text_answer("length, full", remburai_text_length(file, sizeof file, list, 9, true));
    print_text_answer("length of 8 bytes", remburai_text_length(file, sizeof file, list, 8, false));
    print_text_answer("text, 33 bytes", remburai_write_text(file, sizeof file, list, 9, false, text, 33));
    print_text_answer("text, 64 bytes", remburai_write_text(file, sizeof file, list, 9, false, text, sizeof text));
}

static void print_share(const char *call, uint32_t reached, uint32_t unfinished) {
    uint64_t answer = remburai_share(reached, unfinished);
    print_number(call, answer);
    printf("%u per cent\n", (unsigned)answer);
}

/* The names in the list of the other rule, which has one entry of 10 bytes. */
static void print_names(const char *call, size_t list_length, size_t text_length) {
    uint64_t answer = remburai_names(named, sizeof named, work, sizeof work / sizeof *work, list, list_length, text, text_length);
    print_number(call, answer);
    printf("%zu bytes\n", (size_t)answer);
}

int main(void) {
    static const uint8_t two[] = {1, 1, 0}, zero[] = {0}, stranger[] = {2};
    uint64_t answer = remburai_check(file, sizeof file);
    print_number("check", answer);
    printf("refusal %u\n", remburai_refusal(answer));
    print_search("search, 8 bytes", 8);
    print_search("search, 64 bytes", sizeof list);
    print_entry("entry 0", 9, 0);
    print_entry("entry 1", 9, 1);
    print_run("run on 01 01 00", two, sizeof two);
    print_run("run on 00", zero, sizeof zero);
    print_run("run on 02", stranger, sizeof stranger);
    print_texts();
    print_share("share, 7 and 1", 7, 1);
    print_share("share, 5 and 3", 5, 3);
    print_names("names, 3 bytes", sizeof list, 3);
    print_names("names, 64 bytes", sizeof list, sizeof text);
    print_names("names, full", 8, sizeof text);
    return fflush(stdout) != 0 || ferror(stdout);
}
