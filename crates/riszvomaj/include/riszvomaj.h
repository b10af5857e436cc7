/* The audit of two files. docs/FORMAT.md says what the files and the report
   are, and what each number means.

   No pointer may be null, not even one to 0 bytes. The memory of `report`, and
   that of `offset`, may not overlap any other that is passed. The functions
   keep nothing between calls. riszvomaj_report takes memory by malloc, realloc
   and free, and gives it back before it answers. */

#ifndef RISZVOMAJ_H
#define RISZVOMAJ_H

#include <stddef.h>
#include <stdint.h>

#ifdef __cplusplus
extern "C" {
#endif

/* What riszvomaj_report answers where memory ran out; nothing is written. */
#define RISZVOMAJ_NO_MEMORY SIZE_MAX

/* Writes the report of the audit of a setup file and a draws file to the front
   of `report`, if it has at most `report_length` bytes, and otherwise nothing.
   Answers how many bytes the report has, whether written or not. */
size_t riszvomaj_report(const uint8_t *setup, size_t setup_length,
                        const uint8_t *draws, size_t draws_length,
                        uint8_t *report, size_t report_length);

/* Reads a setup file alone. Answers 0 where it is accepted. Otherwise answers
   the number of the refusal, and writes to `offset` where in the file it is. */
uint8_t riszvomaj_read_setup(const uint8_t *setup, size_t setup_length,
                             size_t *offset);

#ifdef __cplusplus
}
#endif

#endif
