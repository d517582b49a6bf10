/* Reads a card and prints what each of its modules comes to: marks CARD [OPTIONS] */
#include <stdio.h>
#include <stdlib.h>

#include "tuchovai.h"

static const char *const kinds[] = {"none", "esm", "cjs"};
static const char *const wraps[] = {"none", "cjs", "esm"};
static const char *const helpers[] = {"__commonJS", "__commonJSMin", "__esm", "__esmMin"};
static const char *const layers[] = {"", "card", "source", "link", "interop"};

static const char *yes(uint8_t flag) { return flag ? "yes" : "no"; }

/* Numbers are little-endian. */
static uint32_t number(const uint8_t *at) {
  return at[0] | (uint32_t)at[1] << 8 | (uint32_t)at[2] << 16 | (uint32_t)at[3] << 24;
}

static uint8_t *read_file(const char *path, size_t *length) {
  FILE *file = fopen(path, "rb");
  if (!file) return NULL;
  size_t room = 1 << 20;
  uint8_t *bytes = malloc(room);
  *length = bytes ? fread(bytes, 1, room, file) : 0;
  fclose(file);
  return bytes;
}

static void print_table(const uint8_t *table) {
  uint32_t marks = number(table), awaits = number(table + 4), wrappers = number(table + 8);
  const uint8_t *row = table + 16;
  for (uint32_t m = 0; m < marks; m++, row += 16)
    printf("mark module=%u kind=%s wrap=%s required=%s dynamic=%s awaiting=%s\n", m, kinds[row[0]], wraps[row[1]],
           yes(row[2]), yes(row[3]), yes(row[4]));
  for (uint32_t a = 0; a < awaits; a++, row += 28)
    printf("await importer=%u record=%u source=%u start=%u end=%u await_start=%u await_end=%u\n", number(row),
           number(row + 4), number(row + 8), number(row + 12), number(row + 16), number(row + 20), number(row + 24));
  for (uint32_t w = 0; w < wrappers; w++, row += 8)
    printf("wrapper module=%u wrap=%s helper=%s eval=%s\n", number(row + 4), wraps[row[0]], helpers[row[1]], yes(row[2]));
}

int main(int count, char **words) {
  size_t length = 0;
  uint8_t *image = count > 1 ? read_file(words[1], &length) : NULL;
  if (!image) {
    fprintf(stderr, "usage: marks CARD [OPTIONS]\n");
    return 1;
  }
  uint32_t options = count > 2 ? (uint32_t)strtoul(words[2], NULL, 10) : TUCHOVAI_FORMAT_ESM;
  tuchovai_fault fault;
  if (tuchovai_check_card(image, length, &fault) == TUCHOVAI_DONE) {
    size_t room = tuchovai_table_size(image, length);
    uint8_t *table = malloc(room);
    uint32_t status = table ? tuchovai_classify(image, length, options, table, room, &fault) : TUCHOVAI_NO_MEMORY;
    if (status == TUCHOVAI_DONE) print_table(table);
    free(table);
    free(image);
    if (status == TUCHOVAI_DONE) return 0;
    if (status != TUCHOVAI_REFUSED) {
      fprintf(stderr, "marks: status %u\n", status);
      return 1;
    }
  }
  printf("answer=refused number=%u layer=%s place=%llu,%llu\n", fault.number, layers[fault.layer],
         (unsigned long long)fault.at, (unsigned long long)fault.record);
  return 1;
}
