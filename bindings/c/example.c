/*
 * Reads two ads from files, matches them and prints verdict, ranks and steps.
 *
 * From the repository's top folder:
 *
 *     cc -std=c99 bindings/c/example.c target/staticlib/libclassad.a -lm -o target/example
 *     target/example examples/job.ad examples/bench.ad
 *
 * Exit status: 0 matched; 1 unmatched or refused; 2 wrong usage or a file that cannot be read.
 */
#include "classad.h"

#include <inttypes.h>
#include <stdio.h>

enum { MATCHED = 0, UNMATCHED = 1, FAULT = 2 };

/* The memory of an ad: about 55 KB, so it is not put on the stack. */
struct ad {
    uint64_t words[CLASSAD_WORDS];
    uint8_t bytes[CLASSAD_BYTES];
};

static struct ad ads[2];
static uint64_t table[CLASSAD_TABLE_WORDS];
static uint64_t list[CLASSAD_LIST_ENTRIES];

/* The bytes of a file, as many as there is room for. Answers 0, or FAULT after a message. */
static int text_of(const char *name, uint8_t *text, size_t room, size_t *length)
{
    FILE *file = fopen(name, "rb");
    int failed = 1;

    if (file != NULL) {
        *length = fread(text, 1, room, file);
        failed = ferror(file);
        fclose(file);
    }
    if (failed) {
        fprintf(stderr, "%s: cannot be read\n", name);
        return FAULT;
    }
    return 0;
}

/* Reads one ad. Answers 0, or the exit status after a message. */
static int read_ad(const char *name, struct ad *ad)
{
    static uint8_t text[CLASSAD_TEXT_BYTES + 1]; /* one more tells that a text is too long */
    size_t length = 0;
    uint64_t answer[CLASSAD_READ_NUMBERS];
    uint64_t position[CLASSAD_POSITION_NUMBERS];

    if (text_of(name, text, sizeof text, &length) != 0)
        return FAULT;
    classad_read(text, length, ad->words, CLASSAD_WORDS, ad->bytes, CLASSAD_BYTES, answer);
    if (answer[0] == CLASSAD_ACCEPTED)
        return 0;
    classad_position(text, length, (size_t)answer[1], position);
    printf("%s: refused %" PRIu64 " at %" PRIu64 " (line %" PRIu64 ", column %" PRIu64 ")\n",
           name, answer[0], answer[1], position[0], position[1]);
    return UNMATCHED;
}

/* Only a match that is neither refused nor unfinished has a verdict. */
static int match_ads(void)
{
    uint64_t answer[CLASSAD_MATCH_NUMBERS];

    classad_match(ads[0].words, CLASSAD_WORDS, ads[0].bytes, CLASSAD_BYTES,
                  ads[1].words, CLASSAD_WORDS, ads[1].bytes, CLASSAD_BYTES,
                  table, CLASSAD_TABLE_WORDS, list, CLASSAD_LIST_ENTRIES,
                  CLASSAD_DEFAULT_BUDGET, answer);
    if (answer[0] != CLASSAD_ACCEPTED) {
        printf("refused %" PRIu64 "\n", answer[0]);
        return UNMATCHED;
    }
    if (answer[1] != 1) {
        printf("not done\nsteps %" PRIu64 "\n", answer[5]);
        return UNMATCHED;
    }
    printf("%s\n", answer[2] == 1 ? "matched" : "unmatched");
    printf("first rank %" PRIu64 "\nsecond rank %" PRIu64 "\n", answer[3], answer[4]);
    printf("steps %" PRIu64 "\n", answer[5]);
    return answer[2] == 1 ? MATCHED : UNMATCHED;
}

int main(int count, char **arguments)
{
    int first, second;

    if (count != 3) {
        fprintf(stderr, "usage: example FIRST SECOND\n");
        return FAULT;
    }
    first = read_ad(arguments[1], &ads[0]);
    second = read_ad(arguments[2], &ads[1]);
    if (first == 0 && second == 0)
        return match_ads();
    return first > second ? first : second;
}
