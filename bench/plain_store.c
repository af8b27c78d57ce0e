/* What a journal does, by a plain program: `commits FILE COUNT SIZE` writes and syncs in the same pattern,
   `load FILE` syncs, reads the whole file and hashes each content. */
#include <fcntl.h>
#include <stdint.h>
#include <stdio.h>
#include <stdlib.h>
#include <string.h>
#include <sys/stat.h>
#include <unistd.h>

static uint32_t rotated(uint32_t x, int n) { return x << n | x >> (32 - n); }

static void block(uint32_t h[5], const uint8_t *p) {
  uint32_t w[80], a = h[0], b = h[1], c = h[2], d = h[3], e = h[4];
  for (int i = 0; i < 16; i++)
    w[i] = (uint32_t)p[4 * i] << 24 | p[4 * i + 1] << 16 | p[4 * i + 2] << 8 | p[4 * i + 3];
  for (int i = 16; i < 80; i++) w[i] = rotated(w[i - 3] ^ w[i - 8] ^ w[i - 14] ^ w[i - 16], 1);
  for (int i = 0; i < 80; i++) {
    uint32_t f, k;
    if (i < 20) f = (b & c) | (~b & d), k = 0x5A827999;
    else if (i < 40) f = b ^ c ^ d, k = 0x6ED9EBA1;
    else if (i < 60) f = (b & c) | (b & d) | (c & d), k = 0x8F1BBCDC;
    else f = b ^ c ^ d, k = 0xCA62C1D6;
    uint32_t t = rotated(a, 5) + f + e + k + w[i];
    e = d, d = c, c = rotated(b, 30), b = a, a = t;
  }
  h[0] += a, h[1] += b, h[2] += c, h[3] += d, h[4] += e;
}

static void sha1(const uint8_t *p, uint64_t n, uint8_t out[20]) {
  uint32_t h[5] = {0x67452301, 0xEFCDAB89, 0x98BADCFE, 0x10325476, 0xC3D2E1F0};
  uint8_t last[128] = {0};
  uint64_t whole = n / 64 * 64, rest = n - whole, size = rest < 56 ? 64 : 128;
  for (uint64_t i = 0; i < whole; i += 64) block(h, p + i);
  memcpy(last, p + whole, rest);
  last[rest] = 0x80;
  for (int i = 0; i < 8; i++) last[size - 1 - i] = (uint8_t)(n * 8 >> 8 * i);
  for (uint64_t i = 0; i < size; i += 64) block(h, last + i);
  for (int i = 0; i < 20; i++) out[i] = (uint8_t)(h[i / 4] >> (24 - 8 * (i % 4)));
}

static void number(uint8_t *p, uint64_t n) {
  for (int i = 0; i < 8; i++) p[i] = (uint8_t)(n >> 8 * (7 - i));
}

static void put(int fd, const void *bytes, uint64_t n, uint64_t at) {
  if (pwrite(fd, bytes, n, at) != (ssize_t)n) perror("pwrite"), exit(1);
}

static int commits(const char *path, uint64_t count, uint64_t size) {
  int fd = open(path, O_RDWR);
  struct stat st;
  uint8_t *content = malloc(size), *record = malloc(30 + size), length[8];
  if (fd < 0 || fstat(fd, &st) || !content || !record) return 1;
  uint64_t gate = st.st_size - 1;
  memset(content, 'x', size);
  for (uint64_t i = 0; i < count; i++) {
    number(content, i);
    record[0] = 'B', record[1] = 0;
    sha1(content, size, record + 2);
    number(record + 22, size);
    memcpy(record + 30, content, size);
    number(length, 30 + size);
    put(fd, length, 8, gate + 1);
    put(fd, record, 30 + size, gate + 9);
    put(fd, "C", 1, gate + 39 + size);
    if (fsync(fd)) return 1;
    put(fd, "O", 1, gate);
    if (fsync(fd)) return 1;
    gate += 39 + size;
  }
  return 0;
}

static int load(const char *path) {
  int fd = open(path, O_RDWR);
  struct stat st;
  if (fd < 0 || fsync(fd) || fstat(fd, &st)) return 1;
  uint8_t *file = malloc(st.st_size), name[20];
  uint64_t at = 0, blobs = 0;
  while (at < (uint64_t)st.st_size) {
    ssize_t n = pread(fd, file + at, st.st_size - at, at);
    if (n <= 0) return 1;
    at += n;
  }
  for (at = 15; at < (uint64_t)st.st_size && file[at] == 'O';) {
    uint64_t length = 0, size = 0;
    for (int i = 0; i < 8; i++) length = length << 8 | file[at + 1 + i];
    uint8_t *record = file + at + 9;
    if (record[0] == 'B') {
      for (int i = 0; i < 8; i++) size = size << 8 | record[22 + i];
      uint8_t *content = malloc(size);
      memcpy(content, record + 30, size);
      sha1(content, size, name);
      if (memcmp(name, record + 2, 20)) return 1;
      blobs++;
    }
    at += 9 + length;
  }
  printf("%llu\n", (unsigned long long)blobs);
  return 0;
}

int main(int argc, char **argv) {
  if (argc == 5 && !strcmp(argv[1], "commits")) return commits(argv[2], atoll(argv[3]), atoll(argv[4]));
  if (argc == 3 && !strcmp(argv[1], "load")) return load(argv[2]);
  return 2;
}
