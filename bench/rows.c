// The rows of the polynomial family with q = 16, k = 3 and n = 512, by plain arithmetic: rows WAY TURNS ROUNDS.
// The way is `plain`, each row and block asked by working out the value, `next`, each row's blocks read from one table that was made so before, or `holds`, each row and block read from such a table.
// For each round it prints the nanoseconds that its turns took, and at the end a number made of all blocks found.
#include <stdint.h>
#include <stdio.h>
#include <stdlib.h>
#include <string.h>
#include <time.h>

enum { Q = 16, ROWS = Q * Q, BLOCKS = 512 };

// By bits, reduced by x^4 + x + 1.
static int product(int a, int b) {
  int p = 0;
  for (int i = 0; i < 4; i++)
    if (b >> i & 1) p ^= a << i;
  for (int i = 6; i >= 4; i--)
    if (p >> i & 1) p ^= 0x13 << (i - 4);
  return p;
}

static int holds(int row, int block) {
  int x = (row - 1) / Q, j = block - 1;
  int value = j % Q ^ product(x, j / Q % Q ^ product(x, j / Q / Q));
  return value == (row - 1) % Q;
}

static uint8_t held[ROWS + 1][BLOCKS + 1];
static uint16_t listed[ROWS + 1][BLOCKS + 1];

static void make_tables(void) {
  for (int row = 1; row <= ROWS; row++) {
    int count = 0;
    for (int block = 1; block <= BLOCKS; block++)
      if ((held[row][block] = holds(row, block))) listed[row][count++] = block;
  }
}

static int64_t nanos(void) {
  struct timespec t;
  clock_gettime(CLOCK_MONOTONIC, &t);
  return (int64_t)t.tv_sec * 1000000000 + t.tv_nsec;
}

int main(int argc, char **argv) {
  if (argc != 4) return 2;
  int plain = !strcmp(argv[1], "plain"), next = !strcmp(argv[1], "next");
  unsigned long turns = strtoul(argv[2], 0, 10), rounds = strtoul(argv[3], 0, 10);
  uint32_t found = 0;
  make_tables();
  for (unsigned long r = 0; r < rounds; r++) {
    int64_t start = nanos();
    for (unsigned long t = 0; t < turns; t++)
      for (int row = 1; row <= ROWS; row++) {
        if (next) {
          for (const uint16_t *at = listed[row]; *at; at++) found = found * 31 + *at;
        } else {
          for (int block = 1; block <= BLOCKS; block++)
            if (plain ? holds(row, block) : held[row][block]) found = found * 31 + (uint32_t)block;
        }
      }
    printf("%lld\n", (long long)(nanos() - start));
  }
  printf("%u\n", found);
  return 0;
}
