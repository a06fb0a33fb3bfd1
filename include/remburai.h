/* Remburai, the case finder, for C: the check of a rule file, its search, a closed run, where an entry of a list stands, the printed text
 * of a list, with its length beforehand, and the names that the entries of a list stand for.
 *
 * Link with libremburai.a, which `tools/prove remburai` proves and writes to crates/remburai/out, and `make install` puts beside this file
 * (x86-64 Linux). docs/FORMAT.md has the bytes of rule files, inputs and lists, and the texts.
 *
 * Each call is proved to give the number that its definition gives, for every content and every length of the slices, to stop, and to
 * read and write inside the slices only. What the caller owes:
 *   - each pointer is not NULL, also where its length is 0, and stands for as many elements as its length says;
 *   - work is aligned for uint32_t;
 *   - what a call writes to, that is work, text and the list of a search or of names, overlaps no other slice of that call;
 *   - the thread has 256 KiB of stack left (tested with what nests deepest; the proofs say nothing of the stack);
 *   - the program has `memset`, with the meaning of C: the library asks for no other function.
 * Threads: nothing is kept between calls and nothing is shared, so calls may run at the same time, each with work, text and the list that
 * it writes of its own; file, input and a finished list may be lent to several at once, as long as nothing writes to them.
 * Time: a search, also the one that remburai_names makes, stops, but it may run for years, and no call ends it. S bounds the steps of one
 * path, not the number of paths; what bounds that is D with the types of the source's parameters: there are at most as many paths as closed
 * inputs within the depth. A rule of 115 bytes that walks over eight numbers has 64^8 of them at D 64 and would take 10 years; with four
 * numbers it takes 20 s (docs/COSTS.md). So begin with a small D, and search in a process of its own where the search may have to be given
 * up.
 */
#ifndef REMBURAI_H
#define REMBURAI_H

#include <stddef.h>
#include <stdint.h>
#ifndef __cplusplus
#include <stdbool.h>
#endif

#ifdef __cplusplus
extern "C" {
#endif

/* The version of this file and of the library beside it. */
#define REMBURAI_VERSION_MAJOR 0
#define REMBURAI_VERSION_MINOR 7
#define REMBURAI_VERSION_PATCH 0
#define REMBURAI_VERSION "0.7.0"

/* Every call answers with one number; the functions under "The parts of an answer" take it apart, but for those of
 * remburai_share, a share in per cent, and remburai_names, a length.
 *
 *                          bits 0 to 7     bits 8 to 15    from bit 16 on
 *   remburai_check         the refusal     0               0
 *   remburai_search        the refusal     the verdict     the length of the list, in bytes
 *   remburai_text_length   the refusal     0               the length of the text, in bytes; 0 with a refusal
 *   remburai_write_text    the refusal     0               the length of the text, in bytes; 0 with a refusal
 *
 *                          bits 0 to 7     bits 8 to 15    bits 16 to 31   bits 32 to 39
 *   remburai_run           the refusal     the outcome     the steps       the depth of the input
 *
 *                          bits 0 to 31                    from bit 32 on
 *   remburai_entry         the place in the list           the size, in bytes
 *
 *                          the whole number
 *   remburai_share         the share, in whole per cent
 *   remburai_names         the length of the text, in bytes; a refusal stands in the text
 */

/* Refusals. */
#define REMBURAI_ACCEPTED 0          /* no refusal */
#define REMBURAI_TRUNCATED 1         /* bytes run out in a record, in a body, or before GO is read */
#define REMBURAI_UNEXPECTED_MARK 2   /* a mark is unknown or out of its turn */
#define REMBURAI_OUT_OF_RANGE 3      /* a count, length, D, S, file size, nesting or view is beyond its limit */
#define REMBURAI_UNKNOWN_NUMBER 4    /* a type, constructor, function or variable number does not exist */
#define REMBURAI_UNKNOWN_CODE 5      /* an expression byte above 5, or an alternative byte above 1 */
#define REMBURAI_TYPE_MISMATCH 6     /* an expression's type is not the one expected */
#define REMBURAI_TRAILING_BYTES 7    /* bytes follow a body's expression, or GO */
#define REMBURAI_EMPTY_TYPE 8        /* a type has no closed value */
#define REMBURAI_DEPTH_TOO_SMALL 9   /* a source parameter's least depth exceeds D */
#define REMBURAI_BAD_INPUT 10        /* remburai_run only: the bytes are not one closed, fitting value per parameter */
#define REMBURAI_WORK_TOO_SHORT 11   /* remburai_search, remburai_run, remburai_names: the work slice is shorter than REMBURAI_WORK_WORDS(S) */
#define REMBURAI_LIST_FULL 12        /* remburai_search, remburai_names: the next entry does not fit the list slice */
#define REMBURAI_TEXT_TOO_SHORT 13   /* remburai_write_text only: the text slice is shorter than the text */
#define REMBURAI_BAD_LIST 14         /* remburai_text_length, remburai_write_text: the list is too long, or not whole entries that fit the file */
#define REMBURAI_BAD_SPELLING 15     /* the type named by NA is not of the form that spells names; of the file, tested straight after 9 */

/* Verdicts. */
#define REMBURAI_NO_VERDICT 0        /* with every refusal */
#define REMBURAI_FOUND 1             /* an entry reaches the target */
#define REMBURAI_UNDECIDED 2         /* no entry reaches the target, and one ran out of steps */
#define REMBURAI_NONE 3              /* no entry reaches or is unfinished: every closed input within the depth stops in time off target */

/* Outcomes of a run, and kinds of entries. An entry is of the kind REMBURAI_REACHED, REMBURAI_UNFINISHED or REMBURAI_MISSING. */
#define REMBURAI_NO_OUTCOME 0        /* with every refusal */
#define REMBURAI_REACHED 1           /* the sought target is demanded */
#define REMBURAI_ENDED 2             /* it stops off target: its whole result is evaluated */
#define REMBURAI_UNFINISHED 3        /* S steps are done and it is none of the others */
#define REMBURAI_MISSING 4           /* it stops off target at a case that has no alternative for the constructor */

/* The longest rule file, in bytes; the largest step limit S; the words of work slice that a step limit asks for; how many bytes of a
 * list slice count, which is also the most bytes of a list that has a text; and the most bytes of a text, by those of the list, of
 * which no more than REMBURAI_LIST_LIMIT need be counted. */
#define REMBURAI_FILE_LIMIT 16384u
#define REMBURAI_STEP_LIMIT 4096u
#define REMBURAI_WORK_WORDS(s) (64u * (size_t)(s) + 1024u)
#define REMBURAI_WORK_MOST REMBURAI_WORK_WORDS(REMBURAI_STEP_LIMIT)
#define REMBURAI_LIST_LIMIT 16777216u
#define REMBURAI_TEXT_BOUND(list_length) (4u * (size_t)(list_length) + 64u)

/* 0 where the file is accepted, else its refusal, 1 to 9 or 15. */
uint64_t remburai_check(const uint8_t *file, size_t file_length);

/* The search. Without a refusal: the verdict, and the length of the complete list, which stands at the front of `list`. With 12: the
 * length of the list of all entries before the one that does not fit, and no verdict. With 1 to 9, 11 or 15: nothing else, and no slice is
 * changed. The bytes of `list` behind the list are as before, and so are the words from REMBURAI_WORK_WORDS(S) on; do not count on what
 * the words before them hold. */
uint64_t remburai_search(const uint8_t *file, size_t file_length,
                         uint32_t *work, size_t work_length,
                         uint8_t *list, size_t list_length);

/* The run on one closed input. Without a refusal: the outcome, the steps that it took, at most S, and how deep the input goes, that is the
 * depth of its deepest parameter, at most D, and 0 without parameters. A constructor without fields is 1 deep, with fields 1 more than its
 * deepest field. With 1 to 11 or 15: nothing else, all of these are 0, and no word is changed. The words from REMBURAI_WORK_WORDS(S) on are
 * as before; do not count on what the words before them hold.
 * An input that fits is read as a whole, whatever the run looks at, 3 to 7 ns a byte, and of each part that a case looks at all fields but
 * the last are read again, to find where they end (docs/COSTS.md). One that is refused by 10 is read up to its first fault. A
 * value that is too deep is known to be so at its end, or where it goes deeper than 64, the largest D. */
uint64_t remburai_run(const uint8_t *file, size_t file_length,
                      const uint8_t *input, size_t input_length,
                      uint32_t *work, size_t work_length);

/* Where the entry of a given number stands in a list, counted from 0, and how many bytes it fills, from mark to last byte. Beyond the
 * last entry, or where a mark met is unknown or a header or length runs past the end: the list's end, and size 0. The list's end is
 * list_length, or REMBURAI_LIST_LIMIT where list_length is above that. Give the length that the search answered as `list_length`, else
 * bytes behind the list may be read as entries. */
uint64_t remburai_entry(const uint8_t *list, size_t list_length, size_t number);

/* The length of the printed text of a list, without writing it. The text has a line for each entry and the total line, as the program
 * `reachlist` prints them; with `full`, which says that the search ended in 12, the line `refused 12` in place of the total. So for the
 * list of a search give the file, the length that the search answered as `list_length`, and whether its refusal was REMBURAI_LIST_FULL.
 * With another length, entries behind the list that happen to fit are printed too, and what does not fit is refused.
 *
 * Refusals, the first that holds: 1 to 9 or 15 of the file, then 14: the list has more than REMBURAI_LIST_LIMIT bytes, or is not whole
 * entries of known kinds, each of at most S steps, whose values are one for each parameter of the source function, of its type and no
 * deeper than D (an open part is as deep as its type's least depth), with nothing behind them. What a search of the file has written always
 * passes, complete or cut short.
 *
 * Nothing is searched: an entry may be false, stand there twice, or out of its order. Counts and verdict of the text are those of the list
 * that is handed in, and speak for the file only where its search returned that list. */
uint64_t remburai_text_length(const uint8_t *file, size_t file_length,
                              const uint8_t *list, size_t list_length, bool full);

/* The same text, written to the front of `text`. The refusals are those of remburai_text_length, and behind them 13: text_length is below
 * the length of the text, which is never above REMBURAI_TEXT_BOUND(list_length). With a refusal no byte is written, and without one those
 * behind the text are as before. There is no 0 at its end: the answer says how long it is. */
uint64_t remburai_write_text(const uint8_t *file, size_t file_length,
                             const uint8_t *list, size_t list_length, bool full,
                             uint8_t *text, size_t text_length);

/* The share in the total line of a list with so many entries that reach the target and so many that are unfinished: the unfinished among both
 * in per cent, to the nearest whole number, an exact half to the even one, and 0 where there is neither. Of 8 entries 1 gives 12 and 3 give
 * 38. The missing ones do not count. No list has more than 2,796,202 entries. */
uint64_t remburai_share(uint32_t reached, uint32_t unfinished);

/* The names that the entries of a list stand for. A rule file may name a type by its record NA; a value of that type spells a name in
 * Latin-1 (docs/FORMAT.md). The call searches the file as remburai_search does, in the same slices: words and list are left as that call
 * leaves them. Then it writes a text to the front of `text`, what the program `namelist` prints: for each entry, in the order of the list,
 * and for each source parameter of the named type, in the order of the parameters, a line. It has the bytes of the name, then those of the
 * name in UTF-8, in decimal, with one space between two numbers; that of the empty name is empty. An open part of the parameter is filled
 * first, at each place with the first constructor of least depth: an open name ends there, and an open half of a byte is 0. So the name is
 * one of those that the entry stands for. There is no total. With a refusal of the search a last line has `refused` and its number, with 12
 * behind the names of the entries that are listed. Without NA, and where no source parameter is of the named type, there is no other line.
 *
 * The answer is the length of this text, in bytes, also where text_length is less: `text` then has as many bytes of it as it holds. The
 * bytes behind the text are as before. REMBURAI_TEXT_BOUND(list_length) bytes always hold all of it. There is no 0 at its end. */
uint64_t remburai_names(const uint8_t *file, size_t file_length,
                        uint32_t *work, size_t work_length,
                        uint8_t *list, size_t list_length,
                        uint8_t *text, size_t text_length);

/* The parts of an answer. They are proved to be those of the definition's answer (crates/remburai/proofs/Demands.antt). */
static inline unsigned remburai_refusal(uint64_t answer) { return (unsigned)(answer & 0xFF); }
static inline unsigned remburai_verdict(uint64_t answer) { return (unsigned)(answer >> 8 & 0xFF); }
static inline unsigned remburai_outcome(uint64_t answer) { return (unsigned)(answer >> 8 & 0xFF); }
static inline size_t remburai_list_length(uint64_t answer) { return (size_t)(answer >> 16); }
static inline unsigned remburai_steps(uint64_t answer) { return (unsigned)(answer >> 16 & 0xFFFF); }
static inline unsigned remburai_depth(uint64_t answer) { return (unsigned)(answer >> 32 & 0xFF); }
static inline size_t remburai_text_bytes(uint64_t answer) { return (size_t)(answer >> 16); }
static inline size_t remburai_entry_place(uint64_t answer) { return (size_t)(answer & 0xFFFFFFFF); }
static inline size_t remburai_entry_size(uint64_t answer) { return (size_t)(answer >> 32); }

/* A list is entries, one behind the other. An entry is
 *
 *   bytes 0 and 1   its mark: RE, each input that completes it reaches the target, UN, each of them runs out of steps, or MI, each of
 *                   them runs into a missing alternative, so that no case covers it
 *   bytes 2 and 3   the steps that each of them takes, low byte first
 *   bytes 4 and 5   the length in bytes of what follows, low byte first
 *   from byte 6 on  its values, one for each parameter of the source function, in prefix form: a constructor's number, then its fields
 *                   in order; or REMBURAI_OPEN for an open part, where anything may stand
 *
 * The rule file says how many fields a constructor has; the list does not. */
#define REMBURAI_ENTRY_HEAD 6u
#define REMBURAI_OPEN 0xFF

/* The size of the entry that begins at a place of a list; 0 where none does. The place is at most list_length. One pass over all entries:
 *
 *     for (place = 0; (size = remburai_size_at(list, length, place)) != 0; place += size)
 *
 * with each entry at list + place. */
static inline size_t remburai_size_at(const uint8_t *list, size_t list_length, size_t place) {
    return remburai_entry_size(remburai_entry(list + place, list_length - place, 0));
}

/* Of an entry, given by its first byte: its kind, the steps, the length of its values in bytes, and where they begin. */
static inline unsigned remburai_entry_kind(const uint8_t *entry) {
    return entry[0] == 'R' ? REMBURAI_REACHED : entry[0] == 'U' ? REMBURAI_UNFINISHED : REMBURAI_MISSING;
}
static inline unsigned remburai_entry_steps(const uint8_t *entry) { return entry[2] + 256u * entry[3]; }
static inline size_t remburai_entry_values_length(const uint8_t *entry) { return entry[4] + 256u * entry[5]; }
static inline const uint8_t *remburai_entry_values(const uint8_t *entry) { return entry + REMBURAI_ENTRY_HEAD; }

/* The refusal in the last line of the whole text that remburai_names has written, of so many bytes; 0 where there is none. No other line
 * has a letter. */
static inline unsigned remburai_names_refusal(const uint8_t *text, size_t length) {
    size_t place, digits = length == 0 ? 0 : length - 1; /* the last byte is a line feed */
    unsigned number = 0;
    while (digits > 0 && text[digits - 1] >= '0' && text[digits - 1] <= '9')
        digits--;
    if (digits < 2 || text[digits - 2] != 'd')
        return REMBURAI_ACCEPTED;
    for (place = digits; place + 1 < length; place++)
        number = 10 * number + (text[place] - (unsigned)'0');
    return number;
}

#ifdef __cplusplus
}
#endif

#endif
