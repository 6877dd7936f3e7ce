#include "reply.h"

#include <inttypes.h>
#include <stdio.h>
#include <stdlib.h>
#include <string.h>

#define MOST (1 << 20)

static uint32_t numbers[MOST];
static GeoPoint points[MOST];
static GeoFraction fractions[MOST];

static const char *const WORDS[] = {"polygon", "inside", "check",  "path", "tree",  "reach",  "see",   "kernel",
                                    "hull",    "geo,2",  "round", "guards", "pair", "sights"};
#define WORD_COUNT (sizeof WORDS / sizeof *WORDS)

static int is_digit(const char *at, const char *end) {
    return at < end && *at >= '0' && *at <= '9';
}

/* Reads a comma and a number. The end of them, or NULL where there are none. */
static const char *read_field(const char *at, const char *end, int64_t *field) {
    const char *start = at + 1;
    if (at == end || *at != ',') {
        return NULL;
    }
    at = start + (start < end && (*start == '-' || *start == '+'));
    if (!is_digit(at, end)) {
        return NULL;
    }
    while (is_digit(at, end)) {
        at++;
    }
    *field = strtoll(start, NULL, 10);
    return at;
}

int in_numbers(const char *at, const char *end, Record *record) {
    const char *start = at;
    record->count = 0;
    record->word = GEO_ASK_TWO;
    if (end - at == 5 && memcmp(at, "geo,2", 5) == 0) {
        return 1;
    }
    while (at < end && *at >= 'a' && *at <= 'z') {
        at++;
    }
    for (record->word = 0; record->word < WORD_COUNT; record->word++) {
        const char *word = WORDS[record->word];
        if (strlen(word) == (size_t)(at - start) && memcmp(word, start, at - start) == 0) {
            break;
        }
    }
    for (; at != NULL && at < end && record->count < MOST_FIELDS; record->count++) {
        at = read_field(at, end, record->fields + record->count);
    }
    return at == end && at > start;
}

uint8_t ask(GeoSession *session, const Record *record, GeoCounts *counts) {
    return geo_session_ask(session, record->word, record->fields, record->count, counts);
}

/* ---- what a reply holds */

static void copy_numbers(GeoSession *session, void *out, size_t count) {
    geo_session_numbers(session, out, count);
}

static void copy_points(GeoSession *session, void *out, size_t count) {
    geo_session_points(session, out, count);
}

static void copy_fractions(GeoSession *session, void *out, size_t count) {
    geo_session_fractions(session, out, count);
}

static int is_untouched(const uint8_t *out, size_t size) {
    while (size > 0 && out[size - 1] == 0x5a) {
        size--;
    }
    return size == 0;
}

/* Copies a whole part of a reply, of `count` items of a size. Whether a call with less room and one with more write no more than that. */
static int take(void (*copy)(GeoSession *, void *, size_t), GeoSession *session, void *out, size_t size, size_t count) {
    size_t half = count / 2;
    if (count >= MOST) {
        return 0;
    }
    memset(out, 0x5a, size * (count + 1));
    copy(session, out, half);
    if (!is_untouched((uint8_t *)out + size * half, size * (count + 1 - half))) {
        return 0;
    }
    copy(session, out, count + 1);
    return is_untouched((uint8_t *)out + size * count, size);
}

/* ---- its text */

static char *put_numbers(char *at, const uint32_t *from, size_t count) {
    for (size_t i = 0; i < count; i++) {
        at += sprintf(at, ",%" PRIu32, from[i]);
    }
    return at;
}

/* A number of 64 bits, which is two: its low half, and then its high half. */
static char *put_number(char *at, const char *word, size_t count) {
    return count == 2 ? at + sprintf(at, "%s,%" PRIu64, word, (uint64_t)numbers[1] << 32 | numbers[0]) : at;
}

static char *put_points(char *at, const GeoPoint *from, size_t count) {
    for (size_t i = 0; i < count; i++) {
        at += sprintf(at, ",%" PRId64 ",%" PRId64, from[i].x, from[i].y);
    }
    return at;
}

static char *put_fractions(char *at, const GeoFraction *from, size_t count) {
    for (size_t i = 0; i < count; i++) {
        unsigned __int128 size = (unsigned __int128)(uint64_t)from[i].high << 64 | from[i].low;
        char digits[40];
        int length = 0;
        *at++ = ',';
        if (from[i].high < 0) {
            *at++ = '-';
            size = -size;
        }
        for (; length == 0 || size > 0; size /= 10) {
            digits[length++] = (char)('0' + (int)(size % 10));
        }
        while (length > 0) {
            *at++ = digits[--length];
        }
        if (from[i].denominator != 1) {
            at += sprintf(at, "/%" PRIu64, from[i].denominator);
        }
    }
    return at;
}

static char *put_refusal(char *at, uint8_t status, size_t count) {
    static const struct {
        uint8_t status;
        const char *word;
    } refusals[] = {{GEO_WORD, "word"}, {GEO_FIELDS, "fields"}, {GEO_FEW, "few"}, {GEO_MANY, "many"},
                    {GEO_CLASH, "clash"}, {GEO_NO_POLYGON, "no_polygon"}, {GEO_NO_TREE, "no_tree"}, {GEO_LARGE, "large"},
                    {GEO_OUTSIDE_P, "outside"}, {GEO_RANGE_P, "range"}, {GEO_INDEX_P, "index"}};
    uint8_t kind = status < 20 ? status : status - status % 10;
    /* a place past the last digit of a status is told by the numbers alone */
    if (status >= 20 && (count != 1 || status - kind != (numbers[0] < 10 ? (int)numbers[0] : 0))) {
        return at;
    }
    for (size_t i = 0; i < sizeof refusals / sizeof *refusals; i++) {
        if (refusals[i].status == kind) {
            return put_numbers(at + sprintf(at, "bad,%s", refusals[i].word), numbers, count);
        }
    }
    return at;
}

static char *put_before(char *at, size_t count) {
    at += sprintf(at, "tree,%zu", count);
    for (size_t i = 0; i < count; i++) {
        at += sprintf(at, "\nfrom,%zu,", i);
        if (numbers[i] < GEO_BEFORE_SOURCE) {
            at += sprintf(at, "%" PRIu32, numbers[i]);
        } else {
            *at++ = numbers[i] == GEO_BEFORE_SOURCE ? 's' : '-';
        }
    }
    return at;
}

static char *put_verdict(char *at, size_t count) {
    static const char *const rules[] = {"repeat", "leaves", "not_reflex", "straight", "wrong_side"};
    if (count == 1 && numbers[0] == GEO_TAUT) {
        return at + sprintf(at, "taut");
    }
    if (count != 2 || numbers[0] < GEO_REPEAT || numbers[0] > GEO_WRONG_SIDE) {
        return at;
    }
    return put_numbers(at + sprintf(at, "not,%s", rules[numbers[0] - GEO_REPEAT]), numbers + 1, 1);
}

static char *put_sides(char *at, size_t count) {
    const GeoPoint *from = points;
    at += sprintf(at, "hull,%zu", count);
    for (size_t i = 0; i < count; i++) {
        at = put_numbers(at + sprintf(at, "\nside"), numbers + 3 * i, 3);
        at = put_points(at, from, numbers[3 * i + 2]);
        from += numbers[3 * i + 2];
    }
    return at;
}

static char *put_parts(char *at, size_t count) {
    at += sprintf(at, "see,%zu", count);
    for (size_t i = 0; i < count; i++) {
        at = put_numbers(at + sprintf(at, "\npart"), numbers + i, 1);
        at = put_fractions(at, fractions + 4 * i, 4);
    }
    return at;
}

static char *put_corners(char *at, size_t count) {
    at += sprintf(at, "kernel,%zu", count);
    for (size_t i = 0; i < count; i++) {
        at = put_fractions(at + sprintf(at, "\ncorner"), fractions + 2 * i, 2);
    }
    return at;
}

static char *put_sights(char *at, size_t count) {
    at += sprintf(at, "sights,%zu", count);
    for (size_t i = 0; i < count; i++) {
        at = put_numbers(at + sprintf(at, "\nsight"), numbers + 2 * i, 2);
    }
    return at;
}

static char *put_answer(char *at, uint8_t word, const GeoCounts *counts) {
    static const char *const places[] = {"outside", "inside", "edge"};
    switch (word) {
    case GEO_ASK_POLYGON: return put_number(at, "polygon", counts->numbers);
    case GEO_ASK_TWO: return put_number(at, "geo", counts->numbers);
    case GEO_ASK_INSIDE: return counts->numbers == 1 && numbers[0] < 3 ? at + sprintf(at, "%s", places[numbers[0]]) : at;
    case GEO_ASK_CHECK: return put_verdict(at, counts->numbers);
    case GEO_ASK_TREE: return put_before(at, counts->numbers);
    case GEO_ASK_SEE: return put_parts(at, counts->numbers);
    case GEO_ASK_KERNEL: return put_corners(at, counts->fractions / 2);
    case GEO_ASK_HULL: return put_sides(at, counts->numbers / 3);
    case GEO_ASK_ROUND:
    case GEO_ASK_GUARDS: return put_numbers(at + sprintf(at, "%s,%zu", WORDS[word], counts->numbers), numbers, counts->numbers);
    case GEO_ASK_SIGHTS: return put_sights(at, counts->numbers / 2);
    default: return put_points(at + sprintf(at, "path,%zu", counts->points), points, counts->points);
    }
}

size_t reply_text(GeoSession *session, uint8_t word, uint8_t status, const GeoCounts *counts, char *out) {
    char *at;
    if (!take(copy_numbers, session, numbers, sizeof *numbers, counts->numbers) ||
        !take(copy_points, session, points, sizeof *points, counts->points) ||
        !take(copy_fractions, session, fractions, sizeof *fractions, counts->fractions)) {
        return 0;
    }
    at = status == GEO_OK ? put_answer(out, word, counts) : put_refusal(out, status, counts->numbers);
    if (at == out) {
        return 0;
    }
    *at++ = '\n';
    return (size_t)(at - out);
}
