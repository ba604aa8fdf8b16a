/* Proves a theorem and prints its log: the midline of a triangle is parallel to the third side. */
#include "geo_c.h"

#include <stdio.h>
#include <string.h>

int main(void)
{
  const char *program =
    "point A point B point C\n"
    "midpoint M A B midpoint N A C\n"
    "prove { parallel M N B C }\n";
  uint8_t log[4096];
  memset(log, 0, sizeof log);
  struct geo_answer answer = {0, 0, 0};
  uint32_t status = geo_prove((const uint8_t *)program, strlen(program), GEO_STEPS, log, sizeof log, &answer);
  if (answer.length <= sizeof log)
    fwrite(log, 1, (size_t)answer.length, stdout);
  else
    printf("the log has %llu bytes\n", (unsigned long long)answer.length);
  return (int)status;
}
