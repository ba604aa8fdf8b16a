/*
 * The words `prove`, `check` and `text` of the program, over the library: geo prove|check|text [STEPS] <INPUT
 *
 * It writes the same bytes as the program, and ends with the same status.
 */
#include "geo_c.h"

#include <inttypes.h>
#include <stdio.h>
#include <stdlib.h>
#include <string.h>

/* The statuses of the program that no call has: no command, and a read or a write that failed. */
enum { USAGE = 3, READ_FAULT = 8, WRITE_FAULT = 9 };

typedef uint32_t call(const uint8_t *, size_t, uint64_t, uint8_t *, size_t, struct geo_answer *);

struct bytes {
  uint8_t *at;
  size_t length;
};

/* Memory for so many bytes, all of them 0; the program ends where there is none. */
static struct bytes new_bytes(size_t length)
{
  struct bytes made;
  made.at = (uint8_t *)calloc(length + 1, 1);
  made.length = length;
  if (made.at == NULL)
    exit(GEO_NO_MEMORY);
  return made;
}

/* Standard input to its end, or to one byte past the limit. */
static struct bytes read_input(size_t limit)
{
  struct bytes input = new_bytes(limit + 1);
  input.length = fread(input.at, 1, limit + 1, stdin);
  if (ferror(stdin))
    exit(READ_FAULT);
  return input;
}

/* The text of a call, in a buffer that has room for it: a second call is made where the first tells that there is more. */
static struct bytes text_of(call *made, struct bytes input, uint64_t steps, uint32_t *status, struct geo_answer *answer)
{
  struct bytes text = new_bytes(65536);
  *status = made(input.at, input.length, steps, text.at, text.length, answer);
  if (answer->length > text.length) {
    free(text.at);
    text = new_bytes((size_t)answer->length);
    *status = made(input.at, input.length, steps, text.at, text.length, answer);
  }
  text.length = (size_t)answer->length;
  return text;
}

/* The line that the program writes in place of a text. */
static void print_refusal(uint32_t status, const struct geo_answer *answer)
{
  switch (status) {
  case GEO_SYNTAX:
    printf("syntax %" PRIu64 " at %" PRIu64 "\n", answer->reason, answer->at);
    break;
  case GEO_TOO_LARGE:
    printf("stop too_large %" PRIu64 " %s\n", answer->at, answer->reason == 1 ? "norm" : "degree");
    break;
  case GEO_SPENT:
    printf("stop spent %" PRIu64 "\n", answer->at);
    break;
  case GEO_REJECTED:
    printf("rejected %" PRIu64 " %" PRIu64 "\n", answer->at, answer->reason);
    break;
  case GEO_TOO_LONG:
    printf("too long\n");
    break;
  default:
    break;
  }
}

static int run(call *made, size_t limit, uint64_t steps)
{
  struct geo_answer answer = {0, 0, 0};
  uint32_t status = 0;
  struct bytes input = read_input(limit);
  struct bytes text = text_of(made, input, steps, &status, &answer);
  if (text.length == 0)
    print_refusal(status, &answer);
  fwrite(text.at, 1, text.length, stdout);
  free(text.at);
  free(input.at);
  return fflush(stdout) == 0 ? (int)status : WRITE_FAULT;
}

int main(int count, char **words)
{
  uint64_t steps = count == 3 ? strtoull(words[2], NULL, 10) : GEO_STEPS;
  if (count == 2 || count == 3) {
    if (strcmp(words[1], "prove") == 0)
      return run(geo_prove, GEO_PROGRAM_LIMIT, steps);
    if (strcmp(words[1], "check") == 0)
      return run(geo_check, GEO_LOG_LIMIT, steps);
    if (strcmp(words[1], "text") == 0)
      return run(geo_text, GEO_LOG_LIMIT, steps);
  }
  fprintf(stderr, "usage: geo prove|check|text [STEPS] <INPUT\n");
  return USAGE;
}
