/*
 * Builds a cube from end to end with libmahunopi.a: fills its link table, builds all 24 corners, and prints some control
 * points of the first one, in ticks. Then makes all corners sharp, and shows how a damaged mesh is refused.
 *
 *   cc -Iinclude examples/cube.c -Ltarget/staticlib -lmahunopi -o cube
 */
#include <inttypes.h>
#include <stdio.h>

#include "mahunopi.h"

enum { VERTICES = 8, FACES = 6, CORNERS = 24 };

/* Corners at -3 and 3. */
static int32_t coordinates[3 * VERTICES] = {
    3, 3, 3,  3, -3, 3,  -3, -3, 3,  -3, 3, 3,
    3, 3, -3, 3, -3, -3, -3, -3, -3, -3, 3, -3,
};

static const uint8_t sides[FACES] = {4, 4, 4, 4, 4, 4};

/* On z = 3 the corner at (3, 3, 3) leaves to (3, -3, 3): the faces run clockwise seen from outside. */
static uint16_t corners[CORNERS] = {
    0, 1, 2, 3, 4, 7, 6, 5, 1, 0, 4, 5, 2, 1, 5, 6, 3, 2, 6, 7, 0, 3, 7, 4,
};

/* u and v of each corner; main sets them. */
static uint8_t sharpness[2 * CORNERS];

static uint16_t links[CORNERS];
static int32_t points[CORNERS * MAHUNOPI_NUMBERS_PER_CORNER];

/* Links and builds the mesh as its lists stand; the answer of the first call that is refused. */
static uint32_t link_and_build(uint64_t *place)
{
    uint32_t answer = mahunopi_link(coordinates, 3 * VERTICES, sides, FACES, corners, CORNERS, sharpness, 2 * CORNERS,
                                    links, CORNERS, place);
    if (answer != MAHUNOPI_DONE)
        return answer;
    return mahunopi_build(coordinates, 3 * VERTICES, sides, FACES, corners, CORNERS, sharpness, 2 * CORNERS, links,
                          CORNERS, 0, CORNERS, points, CORNERS * MAHUNOPI_NUMBERS_PER_CORNER, place);
}

/* Prints one of the 41 control points of corner 0: b row by row from 0, a row by row from 25. */
static void print_point(const char *name, size_t number)
{
    const int32_t *point = points + 3 * number;
    printf("%s (%" PRId32 ",%" PRId32 ",%" PRId32 ")\n", name, point[0], point[1], point[2]);
}

static void sharpen(uint8_t number)
{
    for (size_t i = 0; i < 2 * CORNERS; i++)
        sharpness[i] = number;
}

int main(void)
{
    uint64_t place = 0;
    sharpen(MAHUNOPI_PLAIN_SHARPNESS);
    uint32_t answer = link_and_build(&place);
    if (answer != MAHUNOPI_DONE) {
        printf("refused %" PRIu32 " %" PRIu64 "\n", answer, place);
        return 1;
    }
    printf("corner 0, linked to corner %u\n", (unsigned)links[0]);
    print_point("b00", 0);
    print_point("b01", 1);
    print_point("b02", 2);
    print_point("b03", 3);
    print_point("b04", 4);
    print_point("b44", 24);
    print_point("a00", 25);
    print_point("a01", 26);

    /* as sharp as can be: the surface reaches the vertex at (3, 3, 3) */
    sharpen(MAHUNOPI_MAX_SHARPNESS);
    answer = link_and_build(&place);
    if (answer != MAHUNOPI_DONE)
        return 1;
    print_point("sharp b00", 0);
    print_point("sharp b11", 6);

    /* and no sharper */
    sharpness[5] = MAHUNOPI_MAX_SHARPNESS + 1;
    answer = link_and_build(&place);
    printf("refused %" PRIu32 " %" PRIu64 "\n", answer, place);
    if (answer != MAHUNOPI_BAD_SHARPNESS)
        return 1;
    sharpen(MAHUNOPI_PLAIN_SHARPNESS);

    /* a coordinate beyond the grid */
    coordinates[10] = 65537;
    answer = link_and_build(&place);
    printf("refused %" PRIu32 " %" PRIu64 "\n", answer, place);
    if (answer != MAHUNOPI_BAD_COORDINATE)
        return 1;

    /* the first two corners exchanged: face 0 now has the edge from vertex 1 to vertex 0, which leaves corner 8 as well */
    coordinates[10] = 3;
    corners[0] = 1;
    corners[1] = 0;
    answer = link_and_build(&place);
    printf("refused %" PRIu32 " %" PRIu64 "\n", answer, place);
    return answer != MAHUNOPI_EDGE_TWICE;
}
