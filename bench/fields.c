/* Decodes with libnghttp2 the stories of field blocks that `layer_bench fields` decodes, and tells how long that took.
   Each line of the input is a story: its name, and its blocks in hexadecimal, which one decoder reads in their order. */
#include <nghttp2/nghttp2.h>
#include <stdio.h>
#include <stdlib.h>
#include <string.h>
#include <time.h>

enum { BLOCKS = 10000, TURNS = 100, LINE = 1 << 20, STORY = 1000 };

struct block {
  uint8_t *octets;
  size_t len;
};

/* The processor time so far. */
static double now(void) {
  struct timespec t;
  clock_gettime(CLOCK_THREAD_CPUTIME_ID, &t);
  return t.tv_sec + t.tv_nsec * 1e-9;
}

/* The octets of the names and values of a block. */
static size_t inflate_block(nghttp2_hd_inflater *inflater, const uint8_t *in, size_t left) {
  size_t octets = 0;
  for (;;) {
    nghttp2_nv field;
    int flags = 0;
    ssize_t used = nghttp2_hd_inflate_hd2(inflater, &field, &flags, in, left, 1);
    if (used < 0) {
      fprintf(stderr, "libnghttp2 refuses the block: %zd\n", used);
      exit(1);
    }
    in += used;
    left -= (size_t)used;
    if (flags & NGHTTP2_HD_INFLATE_EMIT) octets += field.namelen + field.valuelen;
    if (flags & NGHTTP2_HD_INFLATE_FINAL) {
      nghttp2_hd_inflate_end_headers(inflater);
      return octets;
    }
  }
}

/* The octets of the names and values of a story, by a new decoder. */
static size_t inflate_story(const struct block *blocks, size_t n) {
  nghttp2_hd_inflater *inflater;
  size_t octets = 0;
  if (nghttp2_hd_inflate_new(&inflater)) exit(1);
  for (size_t i = 0; i < n; i++) octets += inflate_block(inflater, blocks[i].octets, blocks[i].len);
  nghttp2_hd_inflate_del(inflater);
  return octets;
}

/* The octets that a word spells in hexadecimal. */
static struct block block_of(const char *hex) {
  struct block block = {malloc(strlen(hex) / 2 + 1), strlen(hex) / 2};
  if (!block.octets) exit(1);
  for (size_t i = 0; i < block.len; i++) {
    unsigned octet;
    if (sscanf(hex + 2 * i, "%2x", &octet) != 1) exit(1);
    block.octets[i] = (uint8_t)octet;
  }
  return block;
}

/* Reads a story over and over, and prints the best rate of its turns. */
static void measure(const char *name, const struct block *blocks, size_t n) {
  size_t times = (BLOCKS + n - 1) / n, octets = 0;
  double best = 0;
  for (int turn = 0; turn < TURNS; turn++) {
    double start = now();
    octets = 0;
    for (size_t i = 0; i < times; i++) octets += inflate_story(blocks, n);
    double rate = (double)(times * n) / (now() - start);
    if (rate > best) best = rate;
  }
  printf("libnghttp2 decode %s: %.0f blocks a second, %zu octets of fields each\n", name, best, octets / (times * n));
}

int main(void) {
  static char line[LINE];
  static struct block blocks[STORY];
  while (fgets(line, sizeof line, stdin)) {
    char *name = strtok(line, " \n");
    size_t n = 0;
    if (!name) continue;
    for (char *word; n < STORY && (word = strtok(NULL, " \n"));) blocks[n++] = block_of(word);
    if (n) measure(name, blocks, n);
    while (n) free(blocks[--n].octets);
  }
}
