/* Records in numbers, and their replies as the text of the same records. */
#ifndef REPLY_H
#define REPLY_H

#include "geo.h"

#define MOST_FIELDS (1 << 16)

/* A record in numbers. */
typedef struct Record {
    uint8_t word;
    size_t count;
    int64_t fields[MOST_FIELDS];
} Record;

/* Whether a record, from `at` to `end` without its line end, is one in numbers, which is written to `record`. A word that is that of no
   command is a number too, and a number past 64 bits is the last one within them. */
int in_numbers(const char *at, const char *end, Record *record);

/* Asks a record in numbers. */
uint8_t ask(GeoSession *session, const Record *record, GeoCounts *counts);

/* Writes the text of the reply that the session has to a record with this word, and gives its length; or 0 where the reply is none, or a
   copying call writes past its room. At most 16 MB are written. */
size_t reply_text(GeoSession *session, uint8_t word, uint8_t status, const GeoCounts *counts, char *out);

#endif
