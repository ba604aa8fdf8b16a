/*
 * Makes the calls that standard input asks for, one after another in one process. fuzz.py feeds it, under valgrind.
 *
 * A request is a word (p, c or t), then three numbers of eight bytes (steps, length, room), then so many bytes. Its answer is four
 * numbers of eight bytes (status, length, at, reason), and then the text, or as much of it as the room holds. Where the room is
 * 2^64 - 1, a first call with no room asks for the length, and a second one has just that room.
 *
 * Each buffer is a block of its own with just that size, so that valgrind sees a byte read or written beside it. What stands
 * behind the text has to be as before.
 */
#include "geo_c.h"

#include <stdio.h>
#include <stdlib.h>
#include <string.h>

enum { MARK = 0xa5 };

typedef uint32_t call(const uint8_t *, size_t, uint64_t, uint8_t *, size_t, struct geo_answer *);

static void stop(const char *why)
{
  fprintf(stderr, "calls: %s\n", why);
  exit(1);
}

static uint8_t *block(size_t length)
{
  uint8_t *at = (uint8_t *)malloc(length);
  if (at == NULL)
    stop("no memory");
  memset(at, MARK, length);
  return at;
}

static uint64_t number(void)
{
  uint64_t read = 0;
  if (fread(&read, sizeof read, 1, stdin) != 1)
    stop("a request is cut short");
  return read;
}

/* Makes one call, and tells its answer. */
static uint64_t make(call *made, const uint8_t *given, size_t length, uint64_t steps, size_t room, int is_told)
{
  struct geo_answer answer = {1, 2, 3};
  uint8_t *buffer = block(room);
  uint64_t status = made(given, length, steps, buffer, room, &answer);
  size_t held = answer.length < room ? (size_t)answer.length : room;
  for (size_t i = held; i < room; i++)
    if (buffer[i] != MARK)
      stop("a byte behind the text has changed");
  if (is_told) {
    uint64_t told[4] = {status, answer.length, answer.at, answer.reason};
    fwrite(told, sizeof told, 1, stdout);
    fwrite(buffer, 1, held, stdout);
  }
  free(buffer);
  return answer.length;
}

int main(void)
{
  int word;
  while ((word = getchar()) != EOF) {
    call *made = word == 'p' ? geo_prove : word == 'c' ? geo_check : geo_text;
    uint64_t steps = number();
    size_t length = (size_t)number();
    uint64_t room = number();
    uint8_t *given = block(length);
    if (fread(given, 1, length, stdin) != length)
      stop("a request is cut short");
    if (room == UINT64_MAX)
      room = make(made, given, length, steps, 0, 0);
    make(made, given, length, steps, (size_t)room, 1);
    free(given);
  }
  return 0;
}
