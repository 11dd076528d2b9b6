/* A program of wasi-libc: sums the numbers of its standard input, and says their mean by each of its words; a word 0 ends it by a trap. */
#include <stdio.h>
#include <stdlib.h>

static unsigned sum;

int main(int count, char **words) {
  static char line[64];
  unsigned lines = 0;
  while (fgets(line, sizeof line, stdin)) sum += (unsigned)strtoul(line, NULL, 10), lines++;
  unsigned *parts = malloc((size_t)count * sizeof *parts);
  for (int index = 1; index < count; index++) {
    parts[index] = (unsigned)strtoul(words[index], NULL, 10);
    printf("%s: %u lines, %u\n", words[index], lines, sum / parts[index]);
  }
  free(parts);
  return 0;
}
