/* The answer to a text, from crates/capi/out/libcapi.a (`rt lib` in crates/capi). docs/C-API.md says what a caller owes. */
#ifndef FCHECK_H
#define FCHECK_H

#include <stddef.h>
#include <stdint.h>

#ifdef __cplusplus
extern "C" {
#endif

/* The word of a verdict. */
enum {
    FCHECK_REFUSED = 0, /* first: the failing check, 1 to 11; second: the line, 0 where there is none */
    FCHECK_OPEN = 1,    /* first: the number of clauses; second: 0 */
    FCHECK_REFUTED = 2  /* first: the number of clauses; second: the number of the first empty one */
};

/* No text has so many clauses: room for the inputs of any. */
enum { FCHECK_CLAUSES = 1024 };

/* Answers the word of the verdict on text[0 .. length - 1] and leaves the verdict's numbers in *first and *second. Then rests[n], for each
   n < room, is 1 where the text is refuted and its first empty clause descends from input clause n, or is it, and 0 otherwise. */
uint32_t fcheck_check(const uint8_t *text, size_t length, size_t *first, size_t *second, uint8_t *rests, size_t room);

/* The same for a text in two parts, a base and a job: where the base alone is refused, the answer is its own, and otherwise that of the
   base's bytes followed by the job's. Neither is copied. */
uint32_t fcheck_check_job(const uint8_t *base, size_t base_length, const uint8_t *job, size_t job_length, size_t *first, size_t *second,
                          uint8_t *rests, size_t room);

#ifdef __cplusplus
}
#endif

#endif
