/*
 * The prover of plane geometry, the checker of its logs and the printer of readable proofs, as three calls over bytes.
 *
 * Link with bindings/out/libgeo_c.a, or load bindings/out/libgeo_c.so: bindings/build makes both of the proved library, of the
 * toolchain's liblibc_c.a, which joins it to `malloc`, `realloc` and `free`, and of geo_version.c.
 *
 * Each call reads the bytes that it is given, writes a text into a buffer of the caller's, and answers a status. It keeps no
 * pointer, and hands out no memory: what it takes from `malloc` it has given back when it returns. Calls share nothing, so
 * several threads may make calls at once, where `malloc` allows it.
 *
 * What the caller owes to each call, which nothing checks:
 *   - `text` or `log` points to as many readable bytes as its length says, and the buffer to as many writable ones as `room`
 *     says, all of them written at some time before. Neither pointer is null, also where its number is 0. Each number is below
 *     2^63.
 *   - `answer` points to a struct geo_answer whose members have values.
 *   - The three do not overlap, and nothing else reads or writes them while the call runs.
 *   - It is not made in a signal handler, nor in the forked child of a process with several threads.
 */
#ifndef GEO_C_H
#define GEO_C_H

#include <stddef.h>
#include <stdint.h>

#ifdef __cplusplus
extern "C" {
#endif

/* The version of this header. */
#define GEO_VERSION "0.2.0"

/* The version of the library: it fits this header where it is GEO_VERSION. */
const char *geo_version(void);

/* The statuses. They are the numbers that the program ends with. */
enum geo_status {
  /* The statement is true in every placement that meets the program, and there is such a placement. */
  GEO_PROVED = 0,
  /* The statement fails at the integers that the log prints. `at`: the goal that is not 0 there, from 1. */
  GEO_FALSE = 1,
  /* No placement meets the program. `at`: the condition that is never met, from 1. */
  GEO_IMPOSSIBLE = 2,
  /* The bytes spell no program. `at`: the place of the refused token, in bytes from 0; `reason`: its refusal, 1 to 12. */
  GEO_SYNTAX = 4,
  /* A line passes a limit. `at`: the line, from 1; `reason`: 1 the limit of norms, 2 that of degrees. */
  GEO_TOO_LARGE = 6,
  /* The charges pass the steps. `at`: the line, from 1. */
  GEO_SPENT = 7,
  /* Memory ran out. */
  GEO_NO_MEMORY = 10,
  /* A line of the log is not accepted. `at`: the line, from 1; `reason`: the reason, 21 to 32. */
  GEO_REJECTED = 11,
  /* The bytes that were given, or the log that is to be written, are longer than their limit. */
  GEO_TOO_LONG = 12,
  /* A readable proof is written. */
  GEO_DONE = 13
};

/* The most bytes of a program, and the most bytes of a log. */
#define GEO_PROGRAM_LIMIT 1048576
#define GEO_LOG_LIMIT 67108864

/* The steps that the program takes where it is told no number. */
#define GEO_STEPS UINT64_C(100000000)

/* What a call tells besides its status. */
struct geo_answer {
  /* How many bytes the text has that is due. Where it is more than `room`, the buffer holds the first `room` bytes of the text. */
  uint64_t length;
  /* Where: a goal, a condition or a line, counted from 1, or the place of a token, in bytes from 0; else 0. */
  uint64_t at;
  /* Why: the number of a refusal, of a limit or of a reason; else 0. */
  uint64_t reason;
};

/*
 * Proves the program that the text spells, with so many steps. The text that is due is its log, up to its verdict or to the line
 * of a stop.
 *
 * Statuses: GEO_PROVED, GEO_FALSE, GEO_IMPOSSIBLE; GEO_TOO_LARGE and GEO_SPENT, where the log ends with the line of the stop;
 * GEO_TOO_LONG, where the log stands before the line with which it would be too long, or where `length` is 0 and the text is
 * longer than GEO_PROGRAM_LIMIT; GEO_SYNTAX and GEO_NO_MEMORY, with no text.
 */
uint32_t geo_prove(const uint8_t *text, size_t text_length, uint64_t steps, uint8_t *log, size_t room, struct geo_answer *answer);

/*
 * Checks a log, whoever wrote it, with so many steps. Where it is accepted, the text that is due is its program, a line for each
 * condition of the program, and a line with the verdict. It is the program that the verdict speaks of: compare it with yours.
 *
 * Statuses: GEO_PROVED, GEO_FALSE, GEO_IMPOSSIBLE; with no text GEO_REJECTED, GEO_TOO_LARGE, GEO_SPENT, GEO_TOO_LONG and
 * GEO_NO_MEMORY.
 */
uint32_t geo_check(const uint8_t *log, size_t log_length, uint64_t steps, uint8_t *told, size_t room, struct geo_answer *answer);

/*
 * Checks a log as `geo_check` does. Where it is accepted, whatever its verdict, the text that is due is the log as a proof that a
 * person reads.
 *
 * Statuses: GEO_DONE; with no text GEO_REJECTED, GEO_TOO_LARGE, GEO_SPENT, GEO_TOO_LONG and GEO_NO_MEMORY.
 */
uint32_t geo_text(const uint8_t *log, size_t log_length, uint64_t steps, uint8_t *proof, size_t room, struct geo_answer *answer);

#ifdef __cplusplus
}
#endif

#endif
