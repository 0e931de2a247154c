/*
 * Prints what mahunopi_survey counts of the .dms file on standard input, in the lines of the program `inspect`: `mesh`
 * with the vertices, faces and corners; then for each m that occurs the vertices with m corners and the faces with m
 * sides. A refused file prints `refused`, the number, the place.
 *
 *   cc -Iinclude examples/inspect.c -Ltarget/staticlib -lmahunopi -o inspect && ./inspect < meshes/cube.dms
 */
#include <inttypes.h>
#include <stdio.h>

#include "mahunopi.h"

/* The longest file of an accepted mesh, in version 2; of a longer one the bytes after these are only counted. */
enum { ROOM = 11 + 12 * MAHUNOPI_MAX_VERTICES + MAHUNOPI_MAX_FACES + 4 * MAHUNOPI_MAX_CORNERS };

enum { COUNTS = MAHUNOPI_MAX_SIDES + 1 };

int main(void)
{
    static uint8_t bytes[ROOM];
    size_t held = fread(bytes, 1, ROOM, stdin);
    uint64_t length = held;
    while (getchar() != EOF)
        length++;

    uint64_t vertices, faces, corners, place;
    uint16_t vertices_with[COUNTS], faces_with[COUNTS];
    uint32_t answer = mahunopi_survey(bytes, held, length, &vertices, &faces, &corners, vertices_with, COUNTS,
                                      faces_with, COUNTS, &place);
    if (answer != MAHUNOPI_DONE) {
        printf("refused %" PRIu32 " %" PRIu64 "\n", answer, place);
        return 0;
    }
    printf("mesh %" PRIu64 " %" PRIu64 " %" PRIu64 "\n", vertices, faces, corners);
    for (int m = 0; m < COUNTS; m++)
        if (vertices_with[m] != 0 || faces_with[m] != 0)
            printf("%d %u %u\n", m, (unsigned)vertices_with[m], (unsigned)faces_with[m]);
    return 0;
}
