/* geo from C: exact answers about one simple polygon with whole-number vertices. docs/C.md says how to link it.

   Who calls owes what follows; nothing checks it.
   - A pointer is valid for its length, and not NULL, also where the length is 0. What a call writes to, `session`, `out`, `points`,
     `place`, `places`, `needed`, `counts`, `statuses`, `lengths` and `done`, is memory that no other pointer of the call leads to.
   - A handle is zeroed before its first call, never copied, and stays on the thread of that call. Different threads may have
     handles of their own. No call comes from a signal handler, or from the forked child of a process with threads.
   - malloc, realloc and free are one allocator, which aligns as C wants it. */
#ifndef GEO_H
#define GEO_H

#include <stddef.h>
#include <stdint.h>

#ifdef __cplusplus
extern "C" {
#endif

/* How a call ends. 0, 3 and 5 mean what they mean as statuses of the program `geo`; the others are refusals of a record, as
   docs/ERRORS.md has them. Where a number is added to 20, 30 or 40 it is below 10: else the status is 20, 30 or 40 itself, and
   geo_session_numbers has the number. */
enum {
    GEO_OK = 0,
    GEO_TOO_LONG = 3,    /* the script or the piece has more than 8,388,608 bytes; nothing has changed */
    GEO_MEMORY = 5,      /* memory was wanted */
    GEO_WORD = 10,       /* bad,word: the number is that of no word, or GEO_ASK_TWO comes late or with fields */
    GEO_FIELDS = 11,     /* bad,fields: the count of fields is wrong for the word; for a list of points, it is odd */
    GEO_FEW = 12,        /* bad,few: a list has fewer points than its word takes */
    GEO_MANY = 13,       /* bad,many: a list has more points than its word takes */
    GEO_CLASH = 14,      /* bad,clash,i,j: edges i and j share a point where they must not, or one has equal ends */
    GEO_NO_POLYGON = 16, /* bad,no_polygon: none was accepted yet */
    GEO_NO_TREE = 17,    /* bad,no_tree: there is a polygon, and no tree in it yet */
    GEO_LARGE = 18,      /* bad,large: the polygon has more vertices than the word takes */
    GEO_OUTSIDE_P = 20,
    GEO_OUTSIDE_1 = 21,  /* bad,outside,p: point p, counted from 1, is the first that is not in the polygon */
    GEO_OUTSIDE_2,
    GEO_RANGE_P = 30,
    GEO_RANGE_1 = 31,    /* bad,range,p: number p of the call, counted from 1, is the first that passes the limit of the version */
    GEO_RANGE_2,
    GEO_RANGE_3,
    GEO_RANGE_4,
    GEO_INDEX_P = 40,
    GEO_INDEX_1 = 41,    /* bad,index,p: field p, counted from 1, is the first that is the number of no vertex */
    GEO_INDEX_2
};

/* Where a point lies. */
enum { GEO_OUTSIDE = 0, GEO_INSIDE = 1, GEO_EDGE = 2 };

/* x to the right and y upward, in the unit of the script. */
typedef struct GeoPoint {
    int64_t x, y;
} GeoPoint;

/* The words of records that are asked in numbers; each takes the fields of its record, and GEO_ASK_TWO none. */
enum {
    GEO_ASK_POLYGON,
    GEO_ASK_INSIDE,
    GEO_ASK_CHECK,
    GEO_ASK_PATH,
    GEO_ASK_TREE,
    GEO_ASK_REACH,
    GEO_ASK_SEE,
    GEO_ASK_KERNEL,
    GEO_ASK_HULL,
    GEO_ASK_TWO,
    GEO_ASK_ROUND,
    GEO_ASK_GUARDS,
    GEO_ASK_PAIR,
    GEO_ASK_SIGHTS
};

/* What is found of a chain: it is taut, or breaks a rule. */
enum { GEO_TAUT, GEO_REPEAT, GEO_LEAVES, GEO_NOT_REFLEX, GEO_STRAIGHT, GEO_WRONG_SIDE };

/* What comes before a vertex in a tree, where it is no vertex: nothing, as the vertex is at the source, or the source. */
#define GEO_BEFORE_NOTHING UINT32_C(4294967295)
#define GEO_BEFORE_SOURCE UINT32_C(4294967294)

/* How much a reply holds. */
typedef struct GeoCounts {
    size_t numbers, points, fractions;
} GeoCounts;

/* A fraction in lowest terms: the numerator is high * 2^64 + low, the denominator at least 1. */
typedef struct GeoFraction {
    int64_t high;
    uint64_t low, denominator;
} GeoFraction;

/* A script that is handed in piece by piece, its polygon and tree, the text of the last answers, and the last reply to a record
   in numbers. { 0 } is one of which no piece was handed in yet, and owns nothing. After that it owns memory: geo_session_clear
   frees it. */
typedef struct GeoSession {
    void *at;
} GeoSession;

/* Answers a whole script. `out` takes the front of the text, as much as fits, and is as before after that; *needed is the length
   of the text. No zero byte is put at its end. On GEO_MEMORY the text is the answers to some first records, each whole. */
uint8_t geo_answer_script(const uint8_t *script, size_t script_length, uint8_t *out, size_t out_length, size_t *needed);

/* Answers the next piece of a session's script: whole records, one or many. The first piece that has a record says of which
   version the script is, and a byte order mark is dropped at the front of the first piece that has a byte alone. Where each piece
   ends with the line end of a record, the answers are those to the script that the pieces are together. The session keeps the
   text of the answers until the next piece; *needed is its length. On GEO_MEMORY some first records of the piece are answered,
   and the text is their answers, each whole. The last reply to a record in numbers stays. */
uint8_t geo_session_answer(GeoSession *session, const uint8_t *piece, size_t piece_length, size_t *needed);

/* Copies the front of the text of the last answers, as much as fits; `out` is as before after that. */
void geo_session_text(GeoSession *session, uint8_t *out, size_t out_length);

/* Asks one record in numbers: `word` is one of GEO_ASK_.., and `fields` are its fields. It is a record of the session's script like
   any other, with the meaning that it has as text; where it is the first, it says of which version the script is, 2 for GEO_ASK_TWO
   and else 1. The session keeps the reply until the next record is asked in numbers; *counts says how much it holds. Before the
   first one the reply is GEO_NO_POLYGON, and holds nothing. The status is GEO_OK for each answer, and else that of the refusal. On
   GEO_MEMORY the session and *counts are as before. The text of the last answers stays.

   What a reply holds, where a number of 64 bits is two of the numbers: its low half of 32 bits, and then its high half. That of the
   vertices has a high half of 0.
   - GEO_ASK_POLYGON: how many vertices there are, a number of 64 bits
   - GEO_ASK_TWO: 2, a number of 64 bits
   - GEO_ASK_INSIDE: a number, a place
   - GEO_ASK_CHECK: the number GEO_TAUT; or that of the first rule that is broken, and the place of the point, counted from 0
   - GEO_ASK_PATH, GEO_ASK_REACH, GEO_ASK_PAIR: the points of the path
   - GEO_ASK_TREE: a number for each vertex, that of the vertex before it, GEO_BEFORE_NOTHING or GEO_BEFORE_SOURCE
   - GEO_ASK_SEE: a number for each part, that of its edge; and four fractions, x and y of its first end, x and y of its last
   - GEO_ASK_KERNEL: two fractions for each corner, x and y
   - GEO_ASK_HULL: three numbers for each side, those of the points that it joins, and how many points its path has; and the points
     of all sides, one after the other
   - GEO_ASK_ROUND, GEO_ASK_GUARDS: the numbers of the points, or of the vertices
   - GEO_ASK_SIGHTS: two numbers for each pair of vertices
   - a refusal: the numbers that it names */
uint8_t geo_session_ask(GeoSession *session, uint8_t word, const int64_t *fields, size_t fields_length, GeoCounts *counts);

/* Each copies the front of what the last reply holds, as much as fits; `out` is as before after that. The session is as before. */
void geo_session_numbers(GeoSession *session, uint32_t *out, size_t out_length);
void geo_session_points(GeoSession *session, GeoPoint *out, size_t out_length);
void geo_session_fractions(GeoSession *session, GeoFraction *out, size_t out_length);

/* The next three ask what `inside`, `path` and `reach` ask, of the polygon and the tree that the session has. They leave the
   session as it was, with the text of the last answers and the last reply. On a refusal or GEO_MEMORY what the other pointers point
   to is as before. */

/* *place is where the point lies. */
uint8_t geo_session_inside(GeoSession *session, int64_t x, int64_t y, uint8_t *place);

/* `points` takes the first points of the path, as many as fit; *needed is how many there are: at most 16,386. */
uint8_t geo_session_path(GeoSession *session, int64_t from_x, int64_t from_y, int64_t to_x, int64_t to_y, GeoPoint *points,
                         size_t points_length, size_t *needed);

/* So does this, for the path from the source of the tree: at most 16,387 points. */
uint8_t geo_session_reach(GeoSession *session, int64_t to_x, int64_t to_y, GeoPoint *points, size_t points_length, size_t *needed);

/* Many questions in one call. They leave the session as it was, too. */

/* Where each of the points lies: for each a place, or the status of its refusal, as many as fit both arrays. `places` is as before
   after that. */
void geo_session_places(GeoSession *session, const GeoPoint *points, size_t points_length, uint8_t *places, size_t places_length);

/* The paths between pairs of points, ends[2 * k] and ends[2 * k + 1]: in turn, as many as fit `statuses` and `lengths`, and while
   the points of the next one fit what is left of `points`. *done is how many are told; ask for the rest from ends[2 * *done] on.
   For each there is a status in statuses[k], the count of its points in lengths[k], 0 with a refusal, and its points behind those
   of the paths before; after that the buffers are as before. Any one path fits 16,386 points, so with that much room *done is at
   least 1. On GEO_MEMORY the paths of *done pairs are whole; else the status is GEO_OK. */
uint8_t geo_session_paths(GeoSession *session, const GeoPoint *ends, size_t ends_length, GeoPoint *points, size_t points_length,
                          uint8_t *statuses, size_t statuses_length, size_t *lengths, size_t lengths_length, size_t *done);

/* Frees what the session owns; it is { 0 } then, and may be used again. */
void geo_session_clear(GeoSession *session);

#ifdef __cplusplus
}
#endif

#endif
