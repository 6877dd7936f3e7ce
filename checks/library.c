/* Asks the library what the program is asked, and refuses it memory. `checks/library` builds and runs this.

       library SCRIPT ANSWERS    compares the answers to a script with a file: asked as a whole, a line at a time, and a line at a time
                                 in numbers, where it is a record in numbers
       library                   refuses each allocation of some calls in turn, and asks many questions in one call

   malloc, realloc and free of the library come here by the linker's --wrap. */
#include "geo.h"
#include "reply.h"

#include <stdio.h>
#include <stdlib.h>
#include <string.h>

#define MOST (1 << 24)

void *__real_malloc(size_t size);
void *__real_realloc(void *block, size_t size);
void __real_free(void *block);

static long until_refused = -1; /* calls before the one that is refused; below 0 none is */
static long live;               /* blocks that are not freed */

static int is_refused(void) {
    return until_refused >= 0 && until_refused-- == 0;
}

void *__wrap_malloc(size_t size) {
    if (is_refused()) {
        return NULL;
    }
    live++;
    return __real_malloc(size);
}

void *__wrap_realloc(void *block, size_t size) {
    if (is_refused()) {
        return NULL;
    }
    live += block == NULL;
    return __real_realloc(block, size);
}

void __wrap_free(void *block) {
    live -= block != NULL;
    __real_free(block);
}

static void check(int holds, const char *what, long number) {
    if (!holds) {
        fprintf(stderr, "checks: the library: %s (%ld)\n", what, number);
        exit(1);
    }
}

static uint8_t *bytes_of(const char *name, size_t *length) {
    FILE *file = fopen(name, "rb");
    check(file != NULL, name, 0);
    uint8_t *bytes = __real_malloc(MOST);
    *length = fread(bytes, 1, MOST, file);
    fclose(file);
    return bytes;
}

static Record record;

/* The text of what is answered to a record, by numbers where it is one in numbers. How many are is counted. */
static size_t answer_in_numbers(GeoSession *session, const uint8_t *piece, size_t length, char *out, long *count) {
    const char *start = (const char *)piece, *end = start + length;
    GeoCounts counts;
    size_t needed;
    while (end > start && (end[-1] == '\n' || end[-1] == '\r')) {
        end--;
    }
    if (!in_numbers(start, end, &record)) {
        check(geo_session_answer(session, piece, length, &needed) == GEO_OK, "a record as text", *count);
        geo_session_text(session, (uint8_t *)out, MOST);
        return needed;
    }
    ++*count;
    uint8_t status = ask(session, &record, &counts);
    check(status != GEO_MEMORY, "memory", *count);
    return reply_text(session, record.word, status, &counts, out);
}

static void compare(const char *script_name, const char *answers_name) {
    static uint8_t out[MOST];
    static char text[MOST];
    GeoSession session = {0}, by_numbers = {0};
    size_t length, wanted, needed, told = 0, end;
    long count = 0;
    uint8_t *script = bytes_of(script_name, &length), *answers = bytes_of(answers_name, &wanted);

    check(geo_answer_script(script, length, out, sizeof out, &needed) == GEO_OK, script_name, 0);
    check(needed == wanted && memcmp(out, answers, wanted) == 0, script_name, 1);
    for (size_t start = 0; start < length; start = end) {
        for (end = start; end < length && script[end] != '\n'; end++) {
        }
        end += end < length;
        check(geo_session_answer(&session, script + start, end - start, &needed) == GEO_OK, script_name, 2);
        geo_session_text(&session, out, sizeof out);
        check(told + needed <= wanted && memcmp(out, answers + told, needed) == 0, script_name, 3);
        check(answer_in_numbers(&by_numbers, script + start, end - start, text, &count) == needed, script_name, 5);
        check(memcmp(text, answers + told, needed) == 0, script_name, 6);
        told += needed;
    }
    check(told == wanted, script_name, 4);
    geo_session_clear(&session);
    geo_session_clear(&by_numbers);
    printf("%ld\n", count);
    __real_free(script);
    __real_free(answers);
}

static uint8_t answer(GeoSession *session, const char *piece, size_t *needed) {
    return geo_session_answer(session, (const uint8_t *)piece, strlen(piece), needed);
}

static const char *const POLYGON = "polygon,0,0,4,0,4,2,2,2,2,4,0,4\n";
static const char *const PIECE = "tree,4,1\npath,4,1,1,4\nreach,1,4\ninside,1,1\nsee,1,1\nkernel\nguards\nhull,1,4,4,1\n"
                                 "round,1,4,4,1,0,0\nsights\npair,1,4\ncheck,1,4,2,2,4,1\npath,3,3,1,1\n";

/* One run, in which an allocation of the first piece, of the second and of the two questions is refused, where there are so many.
   Whether one of the second piece was. */
static int refuse(long number, const uint8_t *answers, size_t wanted) {
    uint8_t out[4096], place, status;
    GeoSession session = {0};
    GeoPoint points[4] = {{7, 7}};
    size_t needed;

    until_refused = number;
    status = answer(&session, POLYGON, &needed);
    if (status == GEO_MEMORY) {
        check(needed == 0 && geo_session_inside(&session, 1, 1, &place) == GEO_NO_POLYGON, "a refused polygon", number);
        status = answer(&session, POLYGON, &needed);
    }
    check(status == GEO_OK, "the polygon again", number);

    until_refused = number;
    status = answer(&session, PIECE, &needed);
    until_refused = -1;
    geo_session_text(&session, out, sizeof out);
    check(status == GEO_MEMORY || (status == GEO_OK && needed == wanted), "the piece", number);
    check(needed <= wanted && memcmp(out, answers, needed) == 0, "its answers", number);
    check(needed == 0 || out[needed - 1] == '\n', "whole answers", number);

    check(answer(&session, "tree,4,1\n", &needed) == GEO_OK, "the tree", number);
    for (int asked = 0; asked < 2; asked++) {
        uint8_t end;
        needed = 99;
        points[0].x = 7;
        until_refused = number;
        end = asked == 0 ? geo_session_path(&session, 4, 1, 1, 4, points, 4, &needed) : geo_session_reach(&session, 1, 4, points, 4, &needed);
        until_refused = -1;
        if (end == GEO_MEMORY) {
            check(needed == 99 && points[0].x == 7, "a refused question", number);
        } else {
            check(end == GEO_OK && needed == 3 && points[0].x == 4, "a question", number);
        }
    }
    geo_session_clear(&session);
    check(session.at == NULL && live == 0, "freed", number);
    return status == GEO_MEMORY;
}

/* ---- records in numbers, and many in one call */

static const char *const RECORDS[] = {"inside,1,1", "polygon,0,0,4,0,4,2,2,2,2,4,0,4", "reach,1,4", "tree,4,1", "path,4,1,1,4", "reach,1,4",
                                      "see,1,1", "kernel", "guards", "hull,1,4,4,1", "round,1,4,4,1,0,0", "sights", "pair,1,4",
                                      "check,4,0,2,2,0,4", "pair,0,6", "path,3,3,1,1", "polygon,0,0,4,4,4,0,0,4", "circle,0,0,5"};

/* A reply that a session has, by what was asked and told, and its text. */
typedef struct Told {
    uint8_t word, status;
    GeoCounts counts;
    char text[4096];
    size_t length;
} Told;

static int has_reply(GeoSession *session, const Told *told) {
    static char text[4096];
    size_t length = reply_text(session, told->word, told->status, &told->counts, text);
    return length == told->length && memcmp(text, told->text, length) == 0;
}

/* Asks `record` with an allocation refused, where there are so many. After a refusal all is as before, with the reply before; and else
   the reply is the one that is wanted, which `last` is then. Whether an allocation was refused. */
static int refuse_record(GeoSession *session, long number, Told *wanted, Told *last) {
    int was_refused;
    wanted->counts = last->counts;
    until_refused = number;
    wanted->status = ask(session, &record, &wanted->counts);
    was_refused = until_refused < 0;
    until_refused = -1;
    if (wanted->status == GEO_MEMORY) {
        check(was_refused && memcmp(&wanted->counts, &last->counts, sizeof last->counts) == 0, "a refused record", number);
        check(has_reply(session, last), "the reply before", number);
    } else {
        check(has_reply(session, wanted), "a record in numbers", number);
        *last = *wanted;
    }
    return was_refused;
}

/* Each record in turn, with each of its allocations refused in turn. How many there were. */
static long refuse_records(void) {
    static Told wanted, last = {0, GEO_NO_POLYGON, {0, 0, 0}, "bad,no_polygon\n", 15};
    GeoSession session = {0}, by_text = {0};
    long count = 0;
    for (size_t i = 0; i < sizeof RECORDS / sizeof *RECORDS; i++) {
        long number = 0;
        check(in_numbers(RECORDS[i], RECORDS[i] + strlen(RECORDS[i]), &record), RECORDS[i], 0);
        check(answer(&by_text, RECORDS[i], &wanted.length) == GEO_OK, RECORDS[i], 1);
        geo_session_text(&by_text, (uint8_t *)wanted.text, sizeof wanted.text);
        wanted.word = record.word;
        while (refuse_record(&session, number, &wanted, &last)) {
            number++;
        }
        count += number;
    }
    geo_session_clear(&session);
    geo_session_clear(&by_text);
    check(live == 0, "freed", 0);
    return count;
}

#define PAIRS 6

/* What single questions answer: the places of some points, and the paths between each two of them. */
static const GeoPoint ENDS[2 * PAIRS] = {{4, 1}, {1, 4}, {1, 1},       {1, 1}, {3, 3}, {1, 1},
                                         {0, 0}, {2, 1}, {2000000, 1}, {0, 0}, {4, 2}, {2, 4}};

typedef struct Paths {
    GeoPoint points[4 * PAIRS];
    uint8_t statuses[PAIRS];
    size_t lengths[PAIRS];
} Paths;

static void compare_places(GeoSession *session) {
    uint8_t places[2 * PAIRS], place = 0;
    for (size_t room = 0; room <= 2 * PAIRS; room++) {
        memset(places, 77, sizeof places);
        until_refused = 0;
        geo_session_places(session, ENDS, room % 2 ? room : 2 * PAIRS, places, room % 2 ? sizeof places : room);
        check(until_refused == 0, "places want no memory", room);
        until_refused = -1;
        for (size_t i = 0; i < 2 * PAIRS; i++) {
            uint8_t status = geo_session_inside(session, ENDS[i].x, ENDS[i].y, &place);
            check(places[i] == (i >= room ? 77 : status == GEO_OK ? place : status), "a place", i);
        }
    }
}

static size_t single_paths(GeoSession *session, Paths *paths) {
    size_t at = 0;
    for (size_t i = 0; i < PAIRS; i++) {
        const GeoPoint *from = ENDS + 2 * i, *to = from + 1;
        size_t room = 4 * PAIRS - at, *length = paths->lengths + i;
        *length = 0;
        paths->statuses[i] = geo_session_path(session, from->x, from->y, to->x, to->y, paths->points + at, room, length);
        at += *length;
    }
    return at;
}

/* Whether all that stands behind so many points and paths is as memset left it. */
static int is_untouched_after(const Paths *paths, size_t points, size_t done) {
    Paths blank;
    memset(&blank, 77, sizeof blank);
    return memcmp(paths->points + points, blank.points, (4 * PAIRS - points) * sizeof *blank.points) == 0 &&
           memcmp(paths->statuses + done, blank.statuses, PAIRS - done) == 0 &&
           memcmp(paths->lengths + done, blank.lengths, (PAIRS - done) * sizeof *blank.lengths) == 0;
}

/* Many paths in one call, into less room than all of them want, and for some first pairs. Whether an allocation was refused. */
static int compare_paths(GeoSession *session, const Paths *wanted, size_t room, size_t pairs, long refused) {
    Paths found;
    size_t done = 99, at = 0, fitting = 0;
    uint8_t status;
    int was_refused;
    memset(&found, 77, sizeof found);
    until_refused = refused;
    status = geo_session_paths(session, ENDS, 2 * pairs + 1, found.points, room, found.statuses, PAIRS, found.lengths, PAIRS, &done);
    was_refused = refused >= 0 && until_refused < 0;
    until_refused = -1;
    while (fitting < pairs && at + wanted->lengths[fitting] <= room) {
        at += wanted->lengths[fitting++];
    }
    check(status == GEO_OK ? done == fitting : status == GEO_MEMORY && was_refused && done < fitting, "how many paths", room);
    at = 0;
    for (size_t i = 0; i < done; i++) {
        check(found.statuses[i] == wanted->statuses[i] && found.lengths[i] == wanted->lengths[i], "the status of a path", i);
        at += found.lengths[i];
    }
    check(memcmp(found.points, wanted->points, at * sizeof *found.points) == 0, "the points of paths", room);
    check(is_untouched_after(&found, at, done), "what stands behind paths", room);
    return was_refused;
}

static long compare_many(void) {
    static Paths wanted;
    GeoSession session = {0};
    size_t needed, all;
    long number = 0;
    compare_places(&session);
    check(answer(&session, POLYGON, &needed) == GEO_OK, "the polygon", 0);
    compare_places(&session);
    all = single_paths(&session, &wanted);
    for (size_t room = 0; room <= all; room++) {
        compare_paths(&session, &wanted, room, PAIRS, -1);
    }
    for (size_t pairs = 0; pairs < PAIRS; pairs++) {
        compare_paths(&session, &wanted, all, pairs, -1);
    }
    while (compare_paths(&session, &wanted, all, PAIRS, number)) {
        number++;
    }
    geo_session_clear(&session);
    check(live == 0, "freed", 0);
    return number;
}

int main(int count, char **words) {
    if (count == 3) {
        compare(words[1], words[2]);
    } else {
        uint8_t answers[4096];
        GeoSession session = {0};
        size_t needed, wanted = 0;
        long number = 0;
        check(answer(&session, POLYGON, &needed) == GEO_OK && answer(&session, PIECE, &wanted) == GEO_OK, "no memory", 0);
        geo_session_text(&session, answers, sizeof answers);
        geo_session_clear(&session);
        while (refuse(number, answers, wanted)) {
            number++;
        }
        number += refuse_records();
        number += compare_many();
        printf("checks: each of %ld allocations of the library refused in turn\n", number);
    }
    check(live == 0, "freed", 0);
    return 0;
}
