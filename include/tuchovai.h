/* Tuchovai for C: cards in, faults and tables of rows out. docs/ABI.md has the layouts and the numbers. */
#ifndef TUCHOVAI_H
#define TUCHOVAI_H

#include <stddef.h>
#include <stdint.h>

#ifdef __cplusplus
extern "C" {
#endif

/* What a call came to. */
enum {
  TUCHOVAI_DONE = 0,
  TUCHOVAI_REFUSED = 1,         /* the fault says why */
  TUCHOVAI_NO_MEMORY = 2,
  TUCHOVAI_TABLE_TOO_SHORT = 3, /* the table that was lent is shorter than what is to be written */
  TUCHOVAI_UNKNOWN_OPTIONS = 4  /* the options have a bit that means nothing */
};

/* Options are one format and any of the switches, added up. */
enum {
  TUCHOVAI_FORMAT_ESM = 0,
  TUCHOVAI_FORMAT_CJS = 1,
  TUCHOVAI_FORMAT_IIFE = 2,
  TUCHOVAI_FORMAT_UMD = 3,
  TUCHOVAI_NO_SPLITTING = 4,
  TUCHOVAI_STRICT_ORDER = 8,
  TUCHOVAI_MANUAL_GROUPS = 16,
  TUCHOVAI_PROFILER_NAMES = 32
};

/* A fault: the number of the rule, the layer that found it (1 card, 2 source, 3 link, 4 interop) and the place.
   All are 0 where there is none. */
typedef struct tuchovai_fault {
  uint32_t number;
  uint32_t layer;
  uint64_t at;
  uint64_t record;
} tuchovai_fault;

/* Checks a card: TUCHOVAI_DONE, or TUCHOVAI_REFUSED with the first fault. */
uint32_t tuchovai_check_card(const uint8_t *image, size_t length, tuchovai_fault *fault);

/* How many bytes are enough for the table of a card; 0 for a card that is refused. */
size_t tuchovai_table_size(const uint8_t *image, size_t length);

/* Opens a card and writes it again into `out`, byte for byte. */
uint32_t tuchovai_rewrite_card(const uint8_t *image, size_t length, uint8_t *out, size_t room, tuchovai_fault *fault);

/* Classifies the modules of a card and writes the table of marks and rows. */
uint32_t tuchovai_classify(const uint8_t *image, size_t length, uint32_t options, uint8_t *table, size_t room,
                           tuchovai_fault *fault);

#ifdef __cplusplus
}
#endif

#endif
