/* Loads an L, and asks where three points lie, and for paths in it. `./run` beside this builds and runs it, and compares what it
   prints with corner.stdout. */
#include "geo.h"

#include <inttypes.h>
#include <stdio.h>
#include <string.h>

/* Answers a piece of the script, and prints the answers. */
static int answer(GeoSession *session, const char *piece) {
    uint8_t text[256];
    size_t needed;
    uint8_t status = geo_session_answer(session, (const uint8_t *)piece, strlen(piece), &needed);
    if (status != GEO_OK) {
        return status;
    }
    /* The session keeps the text, so what did not fit could be had with a greater buffer. */
    geo_session_text(session, text, sizeof text);
    fwrite(text, 1, needed < sizeof text ? needed : sizeof text, stdout);
    return GEO_OK;
}

static void print_points(uint8_t status, const GeoPoint *points, size_t room, size_t count) {
    if (status != GEO_OK) {
        printf("status %d\n", status);
        return;
    }
    printf("%zu points:", count);
    for (size_t i = 0; i < count && i < room; i++) {
        printf(" %" PRId64 ",%" PRId64, points[i].x, points[i].y);
    }
    printf("\n");
}

int main(void) {
    static const char *const words[] = {"outside", "inside", "edge"};
    static const GeoPoint asked[] = {{1, 1}, {4, 1}, {3, 3}};
    GeoSession session = {0};
    GeoPoint points[16];
    size_t count = 0;
    uint8_t place = 0;
    uint8_t status;

    int end = answer(&session, "polygon,0,0,4,0,4,2,2,2,2,4,0,4\n");
    for (size_t i = 0; end == GEO_OK && i < 3; i++) {
        end = geo_session_inside(&session, asked[i].x, asked[i].y, &place);
        printf("%" PRId64 ",%" PRId64 ": %s\n", asked[i].x, asked[i].y, words[place]);
    }
    status = geo_session_path(&session, 1, 4, 4, 1, points, 16, &count);
    print_points(status, points, 16, count);
    status = geo_session_path(&session, 1, 4, 3, 3, points, 16, &count);
    print_points(status, points, 16, count);
    if (end == GEO_OK) {
        end = answer(&session, "tree,4,1\n");
    }
    status = geo_session_reach(&session, 1, 3, points, 16, &count);
    print_points(status, points, 16, count);
    geo_session_clear(&session);
    return end;
}
