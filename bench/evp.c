// OpenSSL's digests by its EVP calls: evp DIGEST SIZE TURNS ROUNDS.
// For each round it prints the nanoseconds that its turns took, and at the end the last digest.
#include <openssl/evp.h>
#include <stdint.h>
#include <stdio.h>
#include <stdlib.h>
#include <string.h>
#include <time.h>

static int64_t nanos(void) {
  struct timespec t;
  clock_gettime(CLOCK_MONOTONIC, &t);
  return (int64_t)t.tv_sec * 1000000000 + t.tv_nsec;
}

int main(int argc, char **argv) {
  if (argc != 5) return 2;
  EVP_MD *md = EVP_MD_fetch(NULL, strcmp(argv[1], "sha256") ? "BLAKE2S-256" : "SHA256", NULL);
  EVP_MD_CTX *ctx = EVP_MD_CTX_new();
  size_t size = strtoul(argv[2], 0, 10), turns = strtoul(argv[3], 0, 10), rounds = strtoul(argv[4], 0, 10);
  uint8_t *text = malloc(size), out[32];
  if (!md || !ctx || !text || size < 32) return 1;
  for (size_t i = 0; i < size; i++) text[i] = (uint8_t)(i * 7 + 3);
  for (size_t r = 0; r < rounds; r++) {
    int64_t start = nanos();
    for (size_t t = 0; t < turns; t++) {
      if (!EVP_DigestInit_ex(ctx, md, NULL) || !EVP_DigestUpdate(ctx, text, size) || !EVP_DigestFinal_ex(ctx, out, NULL)) return 1;
      memcpy(text, out, 32);
    }
    printf("%lld\n", (long long)(nanos() - start));
  }
  for (int k = 0; k < 32; k++) printf("%02x", text[k]);
  puts("");
  return 0;
}
