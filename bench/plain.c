// SHA-256, BLAKE2s and the tree of an LMS key written straight from FIPS 180-4, RFC 7693 and RFC 8554: plain DIGEST|lms SIZE TURNS ROUNDS.
// For each round it prints the nanoseconds that its turns took, and at the end the last digest or root.
#include <stdint.h>
#include <stdio.h>
#include <stdlib.h>
#include <string.h>
#include <time.h>

static uint32_t ror(uint32_t x, int n) { return x >> n | x << (32 - n); }

static const uint32_t K[64] = {
    0x428a2f98, 0x71374491, 0xb5c0fbcf, 0xe9b5dba5, 0x3956c25b, 0x59f111f1, 0x923f82a4, 0xab1c5ed5,
    0xd807aa98, 0x12835b01, 0x243185be, 0x550c7dc3, 0x72be5d74, 0x80deb1fe, 0x9bdc06a7, 0xc19bf174,
    0xe49b69c1, 0xefbe4786, 0x0fc19dc6, 0x240ca1cc, 0x2de92c6f, 0x4a7484aa, 0x5cb0a9dc, 0x76f988da,
    0x983e5152, 0xa831c66d, 0xb00327c8, 0xbf597fc7, 0xc6e00bf3, 0xd5a79147, 0x06ca6351, 0x14292967,
    0x27b70a85, 0x2e1b2138, 0x4d2c6dfc, 0x53380d13, 0x650a7354, 0x766a0abb, 0x81c2c92e, 0x92722c85,
    0xa2bfe8a1, 0xa81a664b, 0xc24b8b70, 0xc76c51a3, 0xd192e819, 0xd6990624, 0xf40e3585, 0x106aa070,
    0x19a4c116, 0x1e376c08, 0x2748774c, 0x34b0bcb5, 0x391c0cb3, 0x4ed8aa4a, 0x5b9cca4f, 0x682e6ff3,
    0x748f82ee, 0x78a5636f, 0x84c87814, 0x8cc70208, 0x90befffa, 0xa4506ceb, 0xbef9a3f7, 0xc67178f2};

static const uint32_t IV[8] = {0x6a09e667, 0xbb67ae85, 0x3c6ef372, 0xa54ff53a, 0x510e527f, 0x9b05688c, 0x1f83d9ab, 0x5be0cd19};

static void sha256_block(uint32_t h[8], const uint8_t *p) {
  uint32_t w[64];
  for (int t = 0; t < 16; t++)
    w[t] = (uint32_t)p[4 * t] << 24 | (uint32_t)p[4 * t + 1] << 16 | (uint32_t)p[4 * t + 2] << 8 | p[4 * t + 3];
  for (int t = 16; t < 64; t++) {
    uint32_t x = w[t - 15], y = w[t - 2];
    w[t] = (ror(y, 17) ^ ror(y, 19) ^ y >> 10) + w[t - 7] + (ror(x, 7) ^ ror(x, 18) ^ x >> 3) + w[t - 16];
  }
  uint32_t a = h[0], b = h[1], c = h[2], d = h[3], e = h[4], f = h[5], g = h[6], i = h[7];
  for (int t = 0; t < 64; t++) {
    uint32_t t1 = i + (ror(e, 6) ^ ror(e, 11) ^ ror(e, 25)) + ((e & f) ^ (~e & g)) + K[t] + w[t];
    uint32_t t2 = (ror(a, 2) ^ ror(a, 13) ^ ror(a, 22)) + ((a & b) ^ (a & c) ^ (b & c));
    i = g, g = f, f = e, e = d + t1, d = c, c = b, b = a, a = t1 + t2;
  }
  h[0] += a, h[1] += b, h[2] += c, h[3] += d, h[4] += e, h[5] += f, h[6] += g, h[7] += i;
}

static void sha256(const uint8_t *p, size_t n, uint8_t out[32]) {
  uint32_t h[8];
  uint8_t last[128] = {0};
  size_t whole = n / 64 * 64, rest = n - whole, end = rest < 56 ? 64 : 128;
  memcpy(h, IV, sizeof h);
  for (size_t at = 0; at < whole; at += 64) sha256_block(h, p + at);
  memcpy(last, p + whole, rest);
  last[rest] = 0x80;
  for (int k = 0; k < 8; k++) last[end - 1 - k] = (uint8_t)((uint64_t)n * 8 >> 8 * k);
  for (size_t at = 0; at < end; at += 64) sha256_block(h, last + at);
  for (int k = 0; k < 32; k++) out[k] = (uint8_t)(h[k / 4] >> (24 - k % 4 * 8));
}

static const uint8_t SIGMA[10][16] = {
    {0, 1, 2, 3, 4, 5, 6, 7, 8, 9, 10, 11, 12, 13, 14, 15}, {14, 10, 4, 8, 9, 15, 13, 6, 1, 12, 0, 2, 11, 7, 5, 3},
    {11, 8, 12, 0, 5, 2, 15, 13, 10, 14, 3, 6, 7, 1, 9, 4}, {7, 9, 3, 1, 13, 12, 11, 14, 2, 6, 5, 10, 4, 0, 15, 8},
    {9, 0, 5, 7, 2, 4, 10, 15, 14, 1, 11, 12, 6, 8, 3, 13}, {2, 12, 6, 10, 0, 11, 8, 3, 4, 13, 7, 5, 15, 14, 1, 9},
    {12, 5, 1, 15, 14, 13, 4, 10, 0, 7, 6, 3, 9, 2, 8, 11}, {13, 11, 7, 14, 12, 1, 3, 9, 5, 0, 15, 4, 8, 6, 2, 10},
    {6, 15, 14, 9, 11, 3, 0, 8, 12, 2, 13, 7, 1, 4, 10, 5}, {10, 2, 8, 4, 7, 6, 1, 5, 15, 11, 9, 14, 3, 12, 13, 0}};

#define G(a, b, c, d, x, y)                          \
  v[a] += v[b] + (x), v[d] = ror(v[d] ^ v[a], 16);   \
  v[c] += v[d], v[b] = ror(v[b] ^ v[c], 12);         \
  v[a] += v[b] + (y), v[d] = ror(v[d] ^ v[a], 8);    \
  v[c] += v[d], v[b] = ror(v[b] ^ v[c], 7)

static void blake2s_block(uint32_t h[8], const uint8_t *p, uint64_t count, int final) {
  uint32_t m[16], v[16];
  for (int t = 0; t < 16; t++)
    m[t] = (uint32_t)p[4 * t + 3] << 24 | (uint32_t)p[4 * t + 2] << 16 | (uint32_t)p[4 * t + 1] << 8 | p[4 * t];
  for (int t = 0; t < 8; t++) v[t] = h[t], v[t + 8] = IV[t];
  v[12] ^= (uint32_t)count, v[13] ^= (uint32_t)(count >> 32);
  if (final) v[14] = ~v[14];
  for (int r = 0; r < 10; r++) {
    const uint8_t *s = SIGMA[r];
    G(0, 4, 8, 12, m[s[0]], m[s[1]]);
    G(1, 5, 9, 13, m[s[2]], m[s[3]]);
    G(2, 6, 10, 14, m[s[4]], m[s[5]]);
    G(3, 7, 11, 15, m[s[6]], m[s[7]]);
    G(0, 5, 10, 15, m[s[8]], m[s[9]]);
    G(1, 6, 11, 12, m[s[10]], m[s[11]]);
    G(2, 7, 8, 13, m[s[12]], m[s[13]]);
    G(3, 4, 9, 14, m[s[14]], m[s[15]]);
  }
  for (int t = 0; t < 8; t++) h[t] ^= v[t] ^ v[t + 8];
}

static void blake2s(const uint8_t *p, size_t n, uint8_t out[32]) {
  uint32_t h[8];
  uint8_t last[64] = {0};
  size_t whole = n ? (n - 1) / 64 * 64 : 0;
  memcpy(h, IV, sizeof h);
  h[0] ^= 0x01010020;
  for (size_t at = 0; at < whole; at += 64) blake2s_block(h, p + at, at + 64, 0);
  memcpy(last, p + whole, n - whole);
  blake2s_block(h, last, n, 1);
  for (int k = 0; k < 32; k++) out[k] = (uint8_t)(h[k / 4] >> k % 4 * 8);
}

// The first bytes of an input: I, a number of four bytes and one of two.
static void begin(uint8_t *in, const uint8_t *id, uint32_t number, uint16_t mark) {
  memcpy(in, id, 16);
  for (int k = 0; k < 4; k++) in[16 + k] = (uint8_t)(number >> (24 - 8 * k));
  in[20] = (uint8_t)(mark >> 8), in[21] = (uint8_t)mark;
}

// A key's root: the chains of 32 leaves by Appendix A, and the tree above them.
static void lms_root(const uint8_t *id, const uint8_t *seed, uint8_t out[32]) {
  static uint8_t node[64][32], ends[22 + 34 * 32];
  uint8_t in[22 + 64];
  for (uint32_t leaf = 0; leaf < 32; leaf++) {
    for (uint16_t i = 0; i < 34; i++) {
      uint8_t *value = ends + 22 + 32 * i;
      begin(in, id, leaf, i);
      in[22] = 0xff, memcpy(in + 23, seed, 32);
      sha256(in, 55, value);
      for (int j = 0; j < 255; j++) in[22] = (uint8_t)j, memcpy(in + 23, value, 32), sha256(in, 55, value);
    }
    begin(ends, id, leaf, 0x8080);
    begin(in, id, 32 + leaf, 0x8282);
    sha256(ends, sizeof ends, in + 22);
    sha256(in, 54, node[32 + leaf]);
  }
  for (uint32_t r = 31; r >= 1; r--) {
    begin(in, id, r, 0x8383);
    memcpy(in + 22, node[2 * r], 64);
    sha256(in, 86, node[r]);
  }
  memcpy(out, node[1], 32);
}

static int64_t nanos(void) {
  struct timespec t;
  clock_gettime(CLOCK_MONOTONIC, &t);
  return (int64_t)t.tv_sec * 1000000000 + t.tv_nsec;
}

int main(int argc, char **argv) {
  if (argc != 5) return 2;
  int first = !strcmp(argv[1], "sha256"), keys = !strcmp(argv[1], "lms");
  size_t size = strtoul(argv[2], 0, 10), turns = strtoul(argv[3], 0, 10), rounds = strtoul(argv[4], 0, 10);
  if (size < (keys ? 48 : 32) || (!first && !keys && strcmp(argv[1], "blake2s"))) return 2;
  uint8_t *text = malloc(size), out[32];
  if (!text) return 1;
  for (size_t i = 0; i < size; i++) text[i] = (uint8_t)(i * 7 + 3);
  for (size_t r = 0; r < rounds; r++) {
    int64_t start = nanos();
    for (size_t t = 0; t < turns; t++) {
      keys ? lms_root(text, text + 16, out) : first ? sha256(text, size, out) : blake2s(text, size, out);
      memcpy(text, out, 32);
    }
    printf("%lld\n", (long long)(nanos() - start));
  }
  for (int k = 0; k < 32; k++) printf("%02x", text[k]);
  puts("");
  free(text);
  return 0;
}
