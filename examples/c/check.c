/* Prints the answer to the text on standard input, through the static library; with an argument, that to the base in the file of that name
   and the job on standard input. The exit status is 0 where the text is accepted, 1 where it is refused, and 2 where something can't be
   read or the answer can't be written. */
#include <stdio.h>

#include "fcheck.h"

enum { ACCEPTED = 0, REFUSED = 1, FAILED = 2 };

/* One byte more than a text may have: a longer text is refused by its length. */
enum { ROOM = 65536 };

static uint8_t base[ROOM], text[ROOM], rests[FCHECK_CLAUSES];

static int fail(const char *name, const char *what) {
    fprintf(stderr, "check: %s can't be %s\n", name, what);
    return FAILED;
}

/* Reads what there is room for, and answers whether it could. */
static int read_some(FILE *in, uint8_t *bytes, size_t *length) {
    *length = fread(bytes, 1, ROOM, in);
    return !ferror(in);
}

static int read_base(const char *name, size_t *length) {
    FILE *in = fopen(name, "rb");
    int done = in != NULL && read_some(in, base, length);
    if (in != NULL) {
        fclose(in);
    }
    return done;
}

static void print_rests(void) {
    fputs("rests", stdout);
    for (size_t number = 0; number < FCHECK_CLAUSES; number++) {
        if (rests[number]) {
            printf(" %zu", number);
        }
    }
    putchar('\n');
}

static int print_answer(uint32_t word, size_t first, size_t second) {
    switch (word) {
    case FCHECK_REFUTED:
        printf("refuted %zu %zu\n", first, second);
        print_rests();
        return ACCEPTED;
    case FCHECK_OPEN:
        printf("open %zu\n", first);
        return ACCEPTED;
    default:
        printf("refused %zu %zu\n", first, second);
        return REFUSED;
    }
}

int main(int count, char **arguments) {
    size_t base_length, length, first, second;
    uint32_t word;
    int status;
    const char *base_name = count > 1 ? arguments[1] : NULL;
    if (count > 2) {
        fputs("usage: check [BASE] < TEXT\n", stderr);
        return FAILED;
    }
    if (base_name != NULL && !read_base(base_name, &base_length)) {
        return fail(base_name, "read");
    }
    if (!read_some(stdin, text, &length)) {
        return fail("standard input", "read");
    }
    if (base_name != NULL) {
        word = fcheck_check_job(base, base_length, text, length, &first, &second, rests, sizeof rests);
    } else {
        word = fcheck_check(text, length, &first, &second, rests, sizeof rests);
    }
    status = print_answer(word, first, second);
    return fflush(stdout) == 0 && !ferror(stdout) ? status : fail("the answer", "written");
}
