/* Loads a room, and asks in numbers what is seen of its edges from its upper corner, and from where the whole room is seen. Then it draws
   the room, by the places of many points in one call. `./run` beside this builds and runs it, and compares what it prints with
   view.stdout. */
#include "geo.h"

#include <inttypes.h>
#include <stdio.h>

#define MOST 16 /* of numbers and of fractions, which is enough for this room */
#define WIDTH 7
#define HEIGHT 6

__extension__ typedef unsigned __int128 Wide; /* of gcc and clang */

static void print_whole(Wide number) {
    if (number > 9) {
        print_whole(number / 10);
    }
    putchar('0' + (int)(number % 10));
}

/* The numerator has up to 128 bits, and is negative where `high` is. */
static void print_fraction(GeoFraction it) {
    Wide numerator = (Wide)(uint64_t)it.high << 64 | it.low;
    if (it.high < 0) {
        putchar('-');
        numerator = -numerator;
    }
    print_whole(numerator);
    if (it.denominator != 1) {
        printf("/%" PRIu64, it.denominator);
    }
}

static void print_point(const char *before, const GeoFraction *at) {
    printf("%s", before);
    print_fraction(at[0]);
    printf(",");
    print_fraction(at[1]);
}

static int print_view(GeoSession *session, int64_t x, int64_t y) {
    const int64_t point[] = {x, y};
    uint32_t edges[MOST];
    GeoFraction ends[MOST];
    GeoCounts counts;
    int status = geo_session_ask(session, GEO_ASK_SEE, point, 2, &counts);
    if (status != GEO_OK) {
        return status;
    }
    /* The session keeps the reply, so what did not fit could be had with a greater buffer. */
    geo_session_numbers(session, edges, MOST);
    geo_session_fractions(session, ends, MOST);
    for (size_t i = 0; i < counts.numbers && 4 * i + 3 < MOST; i++) {
        printf("edge %" PRIu32, edges[i]);
        print_point(": ", ends + 4 * i);
        print_point(" to ", ends + 4 * i + 2);
        printf("\n");
    }
    return GEO_OK;
}

static int print_kernel(GeoSession *session) {
    const int64_t none[1] = {0}; /* not NULL, as geo.h says */
    GeoFraction corners[MOST];
    GeoCounts counts;
    int status = geo_session_ask(session, GEO_ASK_KERNEL, none, 0, &counts);
    if (status != GEO_OK) {
        return status;
    }
    geo_session_fractions(session, corners, MOST);
    printf("all is seen from %zu corners:", counts.fractions / 2);
    for (size_t i = 0; i + 1 < counts.fractions && i + 1 < MOST; i += 2) {
        print_point(" ", corners + i);
    }
    printf("\n");
    return GEO_OK;
}

static void draw(GeoSession *session) {
    static const char signs[] = {'.', 'o', '+'};
    GeoPoint points[WIDTH * HEIGHT];
    uint8_t places[WIDTH * HEIGHT];
    for (int i = 0; i < WIDTH * HEIGHT; i++) {
        points[i].x = i % WIDTH;
        points[i].y = HEIGHT - 1 - i / WIDTH;
    }
    geo_session_places(session, points, WIDTH * HEIGHT, places, WIDTH * HEIGHT);
    for (int i = 0; i < WIDTH * HEIGHT; i++) {
        putchar(places[i] <= GEO_EDGE ? signs[places[i]] : '?');
        if (i % WIDTH == WIDTH - 1) {
            putchar('\n');
        }
    }
}

int main(void) {
    static const int64_t room[] = {0, 0, 6, 0, 3, 1, 0, 5};
    GeoSession session = {0};
    GeoCounts counts;
    int status = geo_session_ask(&session, GEO_ASK_POLYGON, room, 8, &counts);
    if (status == GEO_OK) {
        status = print_view(&session, 0, 5);
    }
    if (status == GEO_OK) {
        status = print_kernel(&session);
    }
    if (status == GEO_OK) {
        draw(&session);
    }
    geo_session_clear(&session);
    return status;
}
