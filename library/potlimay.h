/* The report of an order file: its seismic sheet, or the refusal with the line that is to blame.
 * The library is proved: for every file and every buffer, it writes and answers what docs/RULES.md says, and nothing else. */
#ifndef POTLIMAY_H
#define POTLIMAY_H

#include <stddef.h>
#include <stdint.h>

#ifdef __cplusplus
extern "C" {
#endif

/* A buffer of so many bytes holds every report. */
#define POTLIMAY_BUFFER 4096

enum {
    POTLIMAY_WRITTEN = 0,   /* the report stands in the first `length` bytes of the buffer; further bytes are as they were */
    POTLIMAY_DENIED = 1,    /* by `number` 37 with `place` 4096: the buffer is shorter than that, and is as it was */
    POTLIMAY_NO_MEMORY = 2  /* malloc gave none; the buffer is as it was */
};

typedef struct {
    uint32_t status;
    uint32_t number; /* 0 unless denied */
    uint32_t place;  /* 0 unless denied */
    size_t length;   /* 0 unless written */
} potlimay_answer;

/* Writes the report of the order file into `out`. Neither pointer may be null, not even where its length is 0; the two
 * may not overlap, and no other thread may write the file's bytes, or touch the buffer's, during the call. Any number of
 * calls may run at once. Nothing is kept after the call. */
potlimay_answer potlimay_report(const uint8_t *file, size_t file_length, uint8_t *out, size_t out_length);

#ifdef __cplusplus
}
#endif

#endif
