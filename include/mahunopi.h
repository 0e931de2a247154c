/*
 * Mahunopi: smooth patches over a closed mesh, in whole numbers.
 *
 * The functions below are the proved library's C face (libmahunopi.a). A mesh is four lists: coordinates, side counts,
 * corners, and the sharpness of the corners.
 *
 *   mahunopi_survey            counts what a .dms file holds
 *   mahunopi_decode            reads the mesh of a .dms file
 *   mahunopi_off               reads the mesh of an OFF text
 *   mahunopi_turn              turns faces that are drawn the wrong way round
 *   mahunopi_irregular         says whether a mesh is all squares
 *   mahunopi_link              fills the link table of a mesh
 *   mahunopi_build             writes the control points of a range of corners
 *   mahunopi_preview           does so with one vertex moved
 *   mahunopi_touched           marks the corners that a vertex can change
 *   mahunopi_floats            gives a control point as floats
 *   mahunopi_floats_all        gives all control points as floats
 *   mahunopi_sample            gives a point of the surface
 *   mahunopi_sample_triangle   gives all points of a triangle of the surface
 *   mahunopi_tangents_at       gives the two tangents at a point of the surface
 *   mahunopi_count_triangles   says how long the lists of the next two are
 *   mahunopi_triangles         writes the whole surface as one closed mesh of triangles
 *   mahunopi_tangents          writes the tangents at the points of that mesh
 *   mahunopi_report            adds a .dms file to the page of a border report
 *   mahunopi_merge             makes one page of two
 *   mahunopi_nest              lists a table of nested grids
 *   mahunopi_archive           rearranges a coordinate list for the archive
 *   mahunopi_restore           undoes that
 *
 * Each call is complete in itself: none relies on an earlier one.
 *
 * Every function returns MAHUNOPI_DONE, or the number of a refusal (enum mahunopi_refusal). After a refusal *place
 * says where, and everything else that was lent keeps its contents; when done, *place keeps its contents.
 *
 * A list is a pointer and the number of its entries. The pointer may be null where that number is 0. The pointers to
 * single numbers (place, pairs, the counts of surveying, of decoding, of OFF, of triangles and of turning, and what
 * mahunopi_irregular finds), to the six floats, to a sample's point, to its tangents and to a page must not be null. What
 * a function writes to must not overlap anything else that it is given.
 *
 * Calls share no state: any number of them may run at the same time, on any threads, as long as none writes to what
 * another one is given. Nothing is allocated. Scratch lies on the stack, of which a call needs up to
 * MAHUNOPI_CALL_STACK bytes; a stack that is too small ends the program, and no answer tells of it.
 *
 * The archive is one object file of x86-64 code for Linux, in the System V calling convention. It needs no more of the
 * processor than every x86-64 one has, and of the C library memcpy and memset; it is tested with glibc.
 */
#ifndef MAHUNOPI_H
#define MAHUNOPI_H

#include <stddef.h>
#include <stdint.h>

#ifdef __cplusplus
extern "C" {
#endif

/* The version of this face: it rises with every change of a signature, a limit or a refusal's number or meaning. The
 * archive does not tell its own, so keep header and archive of one build together. */
#define MAHUNOPI_VERSION 5

/* The most vertices, faces and corners of a mesh. */
#define MAHUNOPI_MAX_VERTICES 2048
#define MAHUNOPI_MAX_FACES 4096
#define MAHUNOPI_MAX_CORNERS 8192
/* The fewest and the most sides of a face, and corners of a vertex. */
#define MAHUNOPI_MIN_SIDES 3
#define MAHUNOPI_MAX_SIDES 16
/* The largest sharpness number, in sixteenths, and the one that a corner has where nothing else is said. */
#define MAHUNOPI_MAX_SHARPNESS 16
#define MAHUNOPI_PLAIN_SHARPNESS 8
/* The numbers that building writes for a corner: 41 control points of x, y, z. */
#define MAHUNOPI_NUMBERS_PER_CORNER 123
/* The most bodies of a nesting table, and what stands for the Sun in it. */
#define MAHUNOPI_MAX_BODIES 256
#define MAHUNOPI_SUN 65535
/* The bytes of stack that a call may take. */
#define MAHUNOPI_CALL_STACK 327680

/*
 * What a function answers: MAHUNOPI_DONE or the number of a refusal. Each call tries these, in this order:
 *
 *   1 to 13                      mahunopi_survey, mahunopi_decode
 *   24 to 26, 4 to 13            mahunopi_off
 *   36, 4 to 9, 34, 35           mahunopi_turn
 *   4 to 13                      mahunopi_irregular
 *   4 to 14                      mahunopi_link
 *   4 to 17                      mahunopi_build
 *   29, 4 to 17                  mahunopi_preview
 *   29, 4 to 13                  mahunopi_touched
 *   18 to 20                     mahunopi_floats
 *   18, 19                       mahunopi_floats_all
 *   18, 19, 32, 33               mahunopi_sample, mahunopi_sample_triangle, mahunopi_tangents_at
 *   4 to 16, 39, 40              mahunopi_count_triangles, mahunopi_triangles, mahunopi_tangents
 *   37, 38                       mahunopi_report, mahunopi_merge
 *   21 to 23                     mahunopi_nest
 *   30, 31                       mahunopi_archive, mahunopi_restore
 *
 * 27 and 28 are tried wherever 4 to 9 are, 27 after 4 and 28 after 8: the order is 4, 27, 5, 6, 7, 8, 28, 9 and so on.
 * 255 is tried last, by the calls that its comment names. Each number is tried over the whole input before the next, and
 * the place is the lowest that applies.
 *
 * The comment above each number is read by programs too (python/make-library): what is wrong, then in parentheses the
 * place, either always the same number or `place: the NOUN`, and what the place is in full after a comma.
 *
 * From a corner the leaving edge runs to the vertex of the next corner of its face, cyclically, and the arriving edge
 * comes from the vertex of the previous one. The link of a corner is the corner of the same vertex whose arriving edge
 * is the reverse of its leaving edge: the corner in the face across that edge.
 *
 * 13 in full: start at the lowest corner of a vertex and go from link to link until that corner comes back. This walks
 * once round the vertex, through the faces that hang together there by edges. A corner of the vertex that is not met
 * lies in other faces, which touch these in the vertex alone, as where two closed parts share one vertex.
 *
 * Each corner has two sharpness numbers of 0 to 16 sixteenths: u pulls the surface towards its leaving edge, v towards
 * its arriving edge. 8 and 8 is plain: the corner of Loop's construction. With 0 and 0 its refined point
 * lies amid its face, with 16 and 0 amid its leaving edge, with 0 and 16 amid its arriving edge, with 16 and 16 at its
 * vertex.
 *
 * A .dms file has one of two versions. Version 1 has coordinates, side counts and corners, and reads as 8 and 8
 * throughout; version 2 has two bytes more for each corner after these: u and v of corner 0, then of corner 1, and so
 * on.
 */
enum mahunopi_refusal {
    MAHUNOPI_DONE = 0,
    /* the file has fewer than 11 bytes or another mark than DMS (place 0) */
    MAHUNOPI_BAD_MARK = 1,
    /* the file's version is neither 1 nor 2 (place 0) */
    MAHUNOPI_BAD_VERSION = 2,
    /* the file's length is not 11 + 12 times vertices + faces + 2 times corners, plus twice the corners in version 2
     * (place 0) */
    MAHUNOPI_BAD_FILE_LENGTH = 3,
    /* no entries in a list or more than the limits, or a coordinate count that is no multiple of three (place 0) */
    MAHUNOPI_BAD_COUNTS = 4,
    /* a side count is outside 3 to 16 (place: the face) */
    MAHUNOPI_BAD_SIDE_COUNT = 5,
    /* the side counts do not sum to the corner count (place: the sum) */
    MAHUNOPI_BAD_SIDE_SUM = 6,
    /* a coordinate is outside -65,536 to 65,536 (place: the position in the list) */
    MAHUNOPI_BAD_COORDINATE = 7,
    /* a corner names a vertex not below the vertex count (place: the corner) */
    MAHUNOPI_NO_SUCH_VERTEX = 8,
    /* a corner names the vertex of an earlier corner of its face (place: the corner, the later one) */
    MAHUNOPI_VERTEX_TWICE_IN_FACE = 9,
    /* a leaving edge, with its direction, already left an earlier corner (place: the corner, the later one) */
    MAHUNOPI_EDGE_TWICE = 10,
    /* a leaving edge has no reverse among the leaving edges (place: the corner) */
    MAHUNOPI_EDGE_WITHOUT_REVERSE = 11,
    /* a vertex is named by fewer than 3 or more than 16 corners (place: the vertex) */
    MAHUNOPI_BAD_CORNERS_OF_VERTEX = 12,
    /* a vertex has a corner not met when following links from its lowest corner (place: the vertex); see above */
    MAHUNOPI_CORNER_NOT_MET = 13,
    /* the link table's length is not the corner count (place: the length) */
    MAHUNOPI_BAD_LINK_TABLE_LENGTH = 14,
    /* the link table differs from what linking writes (place: the corner) */
    MAHUNOPI_BAD_LINK = 15,
    /* the count asked is 0, or the first corner plus the count exceeds the corner count (place: the first corner) */
    MAHUNOPI_BAD_RANGE = 16,
    /* the output's length is not 123 times the count (place: the length) */
    MAHUNOPI_BAD_OUTPUT_LENGTH = 17,
    /* the list of a corner's numbers is not 123 long (place: the length) */
    MAHUNOPI_BAD_NET_LENGTH = 18,
    /* a number in a corner's list is outside -2^27 to 2^27 (place: the position in the list) */
    MAHUNOPI_BAD_NUMBER = 19,
    /* the point number is above 40 (place: the point) */
    MAHUNOPI_NO_SUCH_POINT = 20,
    /* there are no bodies, above 256, or the listing's length differs from the bodies' (place 0) */
    MAHUNOPI_BAD_BODY_COUNT = 21,
    /* a number is neither below the body count nor 65,535 (place: the body) */
    MAHUNOPI_NO_SUCH_HOLDER = 22,
    /* a chain does not end at the Sun (place: the body, the lowest such) */
    MAHUNOPI_CHAIN_WITHOUT_SUN = 23,
    /* a lent list is shorter than every mesh may need, or the text's first word is missing or not OFF (place 0) */
    MAHUNOPI_BAD_OFF_START = 24,
    /* a needed word of the text is missing, no whole number of at most nine digits, or out of its range (place: the
     * word, counted from 0, for a missing word the number of words that there are) */
    MAHUNOPI_BAD_WORD = 25,
    /* a word stands after the last face (place: the word, counted from 0) */
    MAHUNOPI_WORD_TOO_MANY = 26,
    /* the sharpness list is not twice as long as the corner list (place: the length); tried after 4 */
    MAHUNOPI_BAD_SHARPNESS_LENGTH = 27,
    /* a sharpness number is above 16 (place: the position in the sharpness list); tried after 8 */
    MAHUNOPI_BAD_SHARPNESS = 28,
    /* the vertex is not below a third of the coordinate list's length, rounded down (place: the vertex) */
    MAHUNOPI_NO_VERTEX_TO_MOVE = 29,
    /* the number list's length is no multiple of three (place: the length) */
    MAHUNOPI_BAD_NUMBER_COUNT = 30,
    /* the byte list is not four times as long as the number list (place: the length) */
    MAHUNOPI_BAD_BYTE_COUNT = 31,
    /* the side is above 3 (place: the side) */
    MAHUNOPI_NO_SUCH_SIDE = 32,
    /* the number of parts is outside 1 to 16, or the weights do not sum to it (place: the number of parts) */
    MAHUNOPI_BAD_WEIGHTS = 33,
    /* an edge, its direction ignored, is not in exactly two faces (place: the corner, the lowest that it leaves) */
    MAHUNOPI_EDGE_NOT_IN_TWO_FACES = 34,
    /* no choice of turns makes the model pass 10 and 11 (place: the face, the lowest of the lowest part that has none) */
    MAHUNOPI_NO_CHOICE_OF_TURNS = 35,
    /* the listing's length is not the face count (place: the length); tried before everything else */
    MAHUNOPI_BAD_LISTING_LENGTH = 36,
    /* a page counts 4,096 meshes or more; two pages to be merged count more than 4,096 (place 4,096) */
    MAHUNOPI_PAGE_FULL = 37,
    /* a number on a page is above 2^40 (place 0) */
    MAHUNOPI_PAGE_NUMBER = 38,
    /* the level list's length is not the corner count (place: the length); tried after 16 */
    MAHUNOPI_BAD_LEVEL_COUNT = 39,
    /* a level is outside 1 to 16 (place: the corner, the lowest such) */
    MAHUNOPI_BAD_LEVEL = 40,
    /* a lent list is too short, or has not a mark for each corner (place: the length needed, that of the first such
     * list); tried last: by surveying and decoding after 1 to 13, by mahunopi_touched after 29 and 4 to 13, by
     * mahunopi_sample_triangle after 33, by mahunopi_floats_all after 19, by mahunopi_triangles and mahunopi_tangents
     * after 40, the points before the triangles */
    MAHUNOPI_LENT_TOO_SHORT = 255
};

/*
 * Linking: checks a mesh by 4 to 14 and fills its link table.
 */
uint32_t mahunopi_link(
    /* x, y, z of vertex 0, then of vertex 1, and so on, in grid steps */
    const int32_t *coordinates,
    /* how many numbers that are: three for each vertex */
    size_t coordinate_count,
    /* the side count of each face */
    const uint8_t *sides,
    /* how many faces */
    size_t side_count,
    /* the vertex numbers of face 0 in order, then of face 1, and so on */
    const uint16_t *corners,
    /* how many corners */
    size_t corner_count,
    /* u and v of corner 0, then of corner 1, and so on, each 0 to 16 */
    const uint8_t *sharpness,
    /* how many numbers that are: has to be twice corner_count */
    size_t sharpness_count,
    /* receives the link of each corner */
    uint16_t *links,
    /* how many entries it has: has to be corner_count */
    size_t link_count,
    /* receives the place of a refusal; not null */
    uint64_t *place);

/*
 * Building: checks a mesh and its link table by 4 to 17 and writes the control points of a range of corners. Each
 * corner gets 123 numbers, in ticks (1/256 of a grid step): five rows of five b points, then four rows of four a
 * points, each x, y, z.
 */
uint32_t mahunopi_build(
    /* the four lists, as for mahunopi_link */
    const int32_t *coordinates,
    size_t coordinate_count,
    const uint8_t *sides,
    size_t side_count,
    const uint16_t *corners,
    size_t corner_count,
    const uint8_t *sharpness,
    size_t sharpness_count,
    /* the link table that mahunopi_link fills for these lists */
    const uint16_t *links,
    /* how many entries it has: has to be corner_count */
    size_t link_count,
    /* the first corner to build */
    size_t first,
    /* how many corners to build, at least 1 */
    size_t count,
    /* receives the control points of the corners first to first + count - 1 */
    int32_t *output,
    /* how many numbers it takes: has to be 123 times count */
    size_t output_count,
    /* receives the place of a refusal; not null */
    uint64_t *place);

/*
 * Decoding: checks a .dms file by 1 to 13 and writes its four lists to the beginnings of four lent ones, whose further
 * entries keep their contents. Lists of 3 * MAHUNOPI_MAX_VERTICES, MAHUNOPI_MAX_FACES, MAHUNOPI_MAX_CORNERS and
 * 2 * MAHUNOPI_MAX_CORNERS entries are long enough for every file.
 */
uint32_t mahunopi_decode(
    /* the file's bytes, from its beginning; those after the first length bytes are not looked at */
    const uint8_t *bytes,
    /* how many bytes are held */
    size_t byte_count,
    /* the file's length, which may exceed byte_count; a file that is not held whole is refused */
    uint64_t length,
    /* receives the coordinates */
    int32_t *coordinates,
    /* how many numbers it takes */
    size_t coordinate_space,
    /* receives the side counts */
    uint8_t *sides,
    /* how many bytes it takes */
    size_t side_space,
    /* receives the corners */
    uint16_t *corners,
    /* how many entries it takes */
    size_t corner_space,
    /* receives the sharpness numbers: those of a file of version 2, 8 throughout for one of version 1 */
    uint8_t *sharpness,
    /* how many bytes it takes */
    size_t sharpness_space,
    /* receives the number of coordinates written: three for each vertex; not null */
    uint64_t *coordinate_count,
    /* receives the number of side counts written: the faces; not null */
    uint64_t *side_count,
    /* receives the number of corners written; not null */
    uint64_t *corner_count,
    /* receives the number of sharpness numbers written: two for each corner; not null */
    uint64_t *sharpness_count,
    /* receives the place of a refusal; not null */
    uint64_t *place);

/*
 * Surveying: checks a .dms file by 1 to 13 and counts what it holds: vertices, faces and corners, and how many
 * vertices have m corners and how many faces m sides, for each m from 0 to MAHUNOPI_MAX_SIDES. These numbers go to the
 * beginnings of two lent lists of at least MAHUNOPI_MAX_SIDES + 1 entries, whose further entries keep their contents.
 */
uint32_t mahunopi_survey(
    /* the file, as for mahunopi_decode */
    const uint8_t *bytes,
    size_t byte_count,
    uint64_t length,
    /* receives the number of vertices; not null */
    uint64_t *vertices,
    /* receives the number of faces; not null */
    uint64_t *faces,
    /* receives the number of corners; not null */
    uint64_t *corners,
    /* entry m receives the number of vertices with m corners */
    uint16_t *vertices_with,
    /* how many entries it has */
    size_t vertices_with_space,
    /* entry m receives the number of faces with m sides */
    uint16_t *faces_with,
    /* how many entries it has */
    size_t faces_with_space,
    /* receives the place of a refusal; not null */
    uint64_t *place);

/*
 * One control point in floats: checks the 123 numbers of a corner and a point number by 18 to 20 and gives the point's
 * difference from b00, in ticks. Every float is a whole number, and every zero is plus zero. A near point, all of whose
 * differences lie within -2^24 to 2^24, is x, y, z in floats[0] to floats[2]; floats[3] to floats[5] keep their
 * contents. A far point is three pairs: floats[0] to floats[2] hold the first of each, a multiple of 4,096, floats[3]
 * to floats[5] the second, 0 to 4,095, and the two add up to the difference.
 */
uint32_t mahunopi_floats(
    /* the numbers of a corner, as mahunopi_build writes them */
    const int32_t *numbers,
    /* how many numbers that are: has to be 123 */
    size_t number_count,
    /* the point: 0 to 24 are the b points row by row, 25 to 40 the a points */
    size_t point,
    /* receives the floats */
    float floats[6],
    /* receives 0 where the point is near and 1 where it is far; not null */
    uint32_t *pairs,
    /* receives the place of a refusal; not null */
    uint64_t *place);

/*
 * All control points of a list of corners in floats, in one call: the numbers of any number of corners up to
 * MAHUNOPI_MAX_CORNERS, 123 for each, as mahunopi_build writes them. They are checked by 18, here when there are not 123
 * for each of at most so many corners (place: how many there are), then by 19 (place: the position in the whole list). It
 * writes six floats for each of the 41 points of each corner, in their order, to the beginning of a lent list: what
 * mahunopi_floats gives, the differences from the corner's own b00, with three zeros after the x, y, z of a near point. So
 * the first three and the second three always add up to the difference, and a caller who knows that all points are near
 * takes the first three alone. A list that is too short is 255 (place: the length it needs).
 */
uint32_t mahunopi_floats_all(
    /* the numbers of the corners, one after the other */
    const int32_t *numbers,
    /* how many numbers that are: 123 for each corner */
    size_t number_count,
    /* receives the floats: number 246c + 6p + e is float e of point p of the list's corner c */
    float *floats,
    /* how many floats it has room for: at least twice the numbers */
    size_t float_space,
    /* receives the place of a refusal; not null */
    uint64_t *place);

/* The most parts that the side of a triangle is cut into. */
#define MAHUNOPI_MAX_PARTS 16

/*
 * One sample of a patch: checks by 18 and 19, then 32 and 33, and writes the point at weights i/n, j/n, k/n of one of a
 * quad-net's four triangles, in ticks: the first weight belongs to the side's head, the second to its tail, the third to
 * the quad-net's centre. It is the quartic Bernstein sum of the triangle's 15 control points, rounded once.
 *
 * A quad-net has four ends: E0 at the corner's vertex (point 0, b00), E1 at its leaving edge (point 4, b04), E2 at its
 * face (point 24, b44), E3 at its arriving edge (point 20, b40). A side runs from its head to its tail; the head is the
 * end at a vertex or a face, the tail the one at an edge. The neighbour's side across it has the same head and tail. The
 * 15 control points of a side's triangle are these of the corner's 41, in rows from the side to the centre (point 12,
 * b22), each from the head:
 *
 *   side  head  tail  outer row        a row         next row   next    centre
 *   0     E0    E1     0  1  2  3  4   25 26 27 28    6  7  8   30 31   12
 *   1     E2    E1    24 19 14  9  4   40 36 32 28   18 13  8   35 31   12
 *   2     E2    E3    24 23 22 21 20   40 39 38 37   18 17 16   35 34   12
 *   3     E0    E3     0  5 10 15 20   25 29 33 37    6 11 16   30 34   12
 *
 * Where the faces of a mesh run counter-clockwise seen from outside, head, tail, centre of sides 0 and 2 do too, and of
 * sides 1 and 3 they run clockwise; where the faces run clockwise, as those of the sample meshes, it is the other way
 * round.
 *
 * How fine a grid should be: points are rounded to ticks, so that the normals of neighbouring patches at a common point
 * differ a little, by at most about 180 degrees over the model's width in grid steps (seen: 8 degrees at a width of 10
 * steps, 0.15 at 1,000, 0.003 at 60,000). Give a model a width of 1,000 steps or more, or sum the normals of the patches
 * that share a point.
 */
uint32_t mahunopi_sample(
    /* the numbers of a corner, as mahunopi_build writes them */
    const int32_t *numbers,
    /* how many numbers that are: has to be 123 */
    size_t number_count,
    /* the side, 0 to 3 */
    size_t side,
    /* the weights, which sum to n */
    size_t i,
    size_t j,
    size_t k,
    /* the number of parts, 1 to MAHUNOPI_MAX_PARTS */
    size_t n,
    /* receives x, y, z */
    int32_t point[3],
    /* receives the place of a refusal; not null */
    uint64_t *place);

/*
 * All samples of a triangle: checks by 18, 19, 32 and 33 and writes the (n + 1)(n + 2)/2 samples, x, y, z of each, to
 * the beginning of a lent list: in rows from the side inwards, each from the head, so that the sample of weights i, j, k
 * is number k(2n + 3 - k)/2 + j. A list that is too short is 255 (place: the length it needs).
 */
uint32_t mahunopi_sample_triangle(
    /* the numbers of a corner, as mahunopi_build writes them */
    const int32_t *numbers,
    /* how many numbers that are: has to be 123 */
    size_t number_count,
    /* the side, 0 to 3 */
    size_t side,
    /* the number of parts, 1 to MAHUNOPI_MAX_PARTS */
    size_t n,
    /* receives the points */
    int32_t *points,
    /* how many numbers it has room for: at least 3(n + 1)(n + 2)/2 */
    size_t points_space,
    /* receives the place of a refusal; not null */
    uint64_t *place);

/*
 * The two tangents at one sample, for shading: checks as mahunopi_sample does and writes two vectors. The first is the
 * derivative of the patch towards the side's tail: by the tail's weight, where the head's weight falls as it rises. The
 * second is the derivative towards the centre: by the centre's weight, where the head's weight falls as it rises. Both
 * are exact: in ticks, times n^3, so that nothing is rounded, and within -2^42 to 2^42. At a point of a side that two
 * quad-nets have in common the first is the same from both. The cross product of the first and the second is a normal of
 * the surface; on sides 0 and 2 it has the direction that the mesh's faces give, on sides 1 and 3 the opposite one.
 */
uint32_t mahunopi_tangents_at(
    /* the numbers of a corner, as mahunopi_build writes them */
    const int32_t *numbers,
    /* how many numbers that are: has to be 123 */
    size_t number_count,
    /* the side, 0 to 3 */
    size_t side,
    /* the weights, which sum to n */
    size_t i,
    size_t j,
    size_t k,
    /* the number of parts, 1 to MAHUNOPI_MAX_PARTS */
    size_t n,
    /* receives x, y, z of the first and x, y, z of the second */
    int64_t tangents[6],
    /* receives the place of a refusal; not null */
    uint64_t *place);

/*
 * Triangles: the whole surface as one closed mesh of triangles with shared points, each corner's quad-net as fine as
 * the caller wants it. Every corner of the mesh has a level of 1 to 16: the sides of its net's four triangles are cut
 * into so many parts. A border is cut into as many parts as the larger level of its two nets, so that both nets have
 * the same points on it. Whatever the levels are, no crack is left: wherever one triangle has an edge from point p to
 * point q, exactly one triangle has the edge from q to p. The triangles are wound as the mesh's faces are.
 *
 * A net of level 3 whose borders have three parts too, and the order of its corner's own points:
 *
 *     E3        .         .         2       The ends E0, E1, E2, E3 lie round the net in the direction in which the
 *                                           faces run. E0 (here 0) is at the corner's vertex, E1 (1) at its leaving
 *          13        12        11           edge, E2 (2) at its face, E3 at its arriving edge. The sides are gone
 *                                           along in that direction here: side 0 from E0 to E1, side 1 from E1 to E2,
 *     .         18        17        6       side 2 from E2 to E3, side 3 from E3 to E0. So sides 0 and 2 begin at
 *                                           their head, sides 1 and 3 at their tail.
 *          14        19        10
 *                                           Row 0 of a side is its border: 0 3 4 1 for side 0. Each further row is one
 *     .         15        16        5       part nearer to the centre: row 1 of side 0 is 7 8 9, row 2 is 15 16, row 3
 *                                           is the centre, 19. Rows k of the four sides make ring k: ring 1 is 7 to
 *          7         8         9            14, ring 2 is 15 to 18, the last ring is the centre. A strip is the band
 *                                           of triangles between a row of a side and the next one.
 *     0         3         4         1
 *
 * Points come corner by corner, each point of the surface once. Those of a corner come in this order:
 *
 *   - the ends that the corner has: E0 if it is the lowest corner of its vertex; E1 if it is lower than the corner
 *     whose leaving edge is the reverse of its own; E2 if it is the first corner of its face;
 *   - the inner points of side 0's border, from E0 on, then those of side 1's, from E1 on. Those of sides 2 and 3 (the
 *     dots) belong to the nets beyond them;
 *   - ring 1, from its point next to E0 on, in the direction of the sides; then ring 2 and so on, up to the centre.
 *
 * Triangles come corner by corner, side by side, strip by strip from the border inwards. A strip's lower row has p
 * segments, its upper row has u points, u at most p. First come the triangles over the lower segments, in the
 * direction of the side: the segment's two points, then the upper point whose share of the side, the u-th part of it,
 * holds the segment's middle; shares and segments are counted from the head. Then come those under the upper segments:
 * the segment's later point, its earlier one, then the lower point at which the first kind of triangles changes from
 * the one upper point to the other. Where p is u, as between nets of one level, this is the plain grid.
 *
 * Counting: checks by 4 to 16, then 39 and 40, and says how many numbers mahunopi_triangles writes for a range of
 * corners.
 */
uint32_t mahunopi_count_triangles(
    /* the four lists and the link table, as for mahunopi_build */
    const int32_t *coordinates,
    size_t coordinate_count,
    const uint8_t *sides,
    size_t side_count,
    const uint16_t *corners,
    size_t corner_count,
    const uint8_t *sharpness,
    size_t sharpness_count,
    const uint16_t *links,
    size_t link_count,
    /* the level of each corner of the mesh, 1 to MAHUNOPI_MAX_PARTS */
    const uint8_t *levels,
    /* how many levels: has to be corner_count */
    size_t level_count,
    /* the first corner of the range */
    size_t first,
    /* how many corners, at least 1 */
    size_t count,
    /* receives how many numbers their points have, three for each point; not null */
    uint64_t *point_numbers,
    /* receives how many numbers their triangles have, three for each triangle; not null */
    uint64_t *triangle_numbers,
    /* receives the place of a refusal; not null */
    uint64_t *place);

/*
 * Filling: checks by 4 to 16, then 39 and 40, then 255, and writes the points and the triangles of a range of corners
 * to the beginnings of two lent lists, whose further entries keep their contents. A triangle names its points by their
 * numbers among the points of all corners, from 0 on. What calls write for ranges that follow each other is, joined,
 * what one call writes for all of them: threads may fill the parts of two common buffers, each with the counts of its
 * range.
 */
uint32_t mahunopi_triangles(
    /* lists, link table, levels and range, as for mahunopi_count_triangles */
    const int32_t *coordinates,
    size_t coordinate_count,
    const uint8_t *sides,
    size_t side_count,
    const uint16_t *corners,
    size_t corner_count,
    const uint8_t *sharpness,
    size_t sharpness_count,
    const uint16_t *links,
    size_t link_count,
    const uint8_t *levels,
    size_t level_count,
    size_t first,
    size_t count,
    /* receives x, y, z of each point of the range, in ticks */
    int32_t *points,
    /* how many numbers it has room for */
    size_t point_space,
    /* receives the three points of each triangle of the range */
    uint32_t *triangles,
    /* how many numbers it has room for */
    size_t triangle_space,
    /* receives how many numbers were written to points; not null */
    uint64_t *point_numbers,
    /* receives how many numbers were written to triangles; not null */
    uint64_t *triangle_numbers,
    /* receives the place of a refusal; not null */
    uint64_t *place);

/*
 * The tangents at the points of a range of corners, for shading: checks as mahunopi_triangles does and writes six numbers
 * for each point that it writes, in the same order, to the beginning of a lent list: the two vectors of
 * mahunopi_tangents_at, exact, times n^3, where n is the number of parts in which the point is taken. They are those of the
 * corner that has the point among its own, so that a point that several quad-nets share has one normal and shading does not
 * break at a border. An inner point of a border and a point of a ring are taken on the side on which they lie, in turn from
 * side 0 on; E0, E1 and E2 are taken at the beginning of sides 0, 1 and 2, the centre on side 0. The cross product of the
 * two vectors has the direction that the mesh's faces give on sides 0 and 2, and the opposite one on sides 1 and 3. A list
 * that is too short is 255 (place: the length it needs, twice that of the points).
 */
uint32_t mahunopi_tangents(
    /* lists, link table, levels and range, as for mahunopi_count_triangles */
    const int32_t *coordinates,
    size_t coordinate_count,
    const uint8_t *sides,
    size_t side_count,
    const uint16_t *corners,
    size_t corner_count,
    const uint8_t *sharpness,
    size_t sharpness_count,
    const uint16_t *links,
    size_t link_count,
    const uint8_t *levels,
    size_t level_count,
    size_t first,
    size_t count,
    /* receives x, y, z of the first and x, y, z of the second vector of each point of the range */
    int64_t *tangents,
    /* how many numbers it has room for: at least twice those of the points */
    size_t tangent_space,
    /* receives how many numbers were written; not null */
    uint64_t *tangent_numbers,
    /* receives the place of a refusal; not null */
    uint64_t *place);

/* What mahunopi_irregular finds. */
enum mahunopi_kind {
    /* all faces have four sides and all vertices four corners */
    MAHUNOPI_NO_IRREGULAR = 0,
    MAHUNOPI_IRREGULAR_FACE = 1,
    MAHUNOPI_IRREGULAR_VERTEX = 2
};

/*
 * Is it all squares? Checks a mesh by 4 to 13 and finds the lowest face that has not four sides, else the lowest vertex
 * that has not four corners, else none. The search stops at the first face found.
 */
uint32_t mahunopi_irregular(
    /* the four lists, as for mahunopi_link */
    const int32_t *coordinates,
    size_t coordinate_count,
    const uint8_t *sides,
    size_t side_count,
    const uint16_t *corners,
    size_t corner_count,
    const uint8_t *sharpness,
    size_t sharpness_count,
    /* receives one of enum mahunopi_kind; not null */
    uint32_t *kind,
    /* receives the number of the face or of the vertex, 0 where there is none; not null */
    uint64_t *number,
    /* receives how many side counts the search read, those of the checks apart: the face plus one, or all; not null */
    uint64_t *sides_read,
    /* receives the place of a refusal; not null */
    uint64_t *place);

/*
 * Trying a vertex before moving it: checks the vertex by 29, then answers and writes what mahunopi_build would on a copy
 * of the lists in which that vertex has the coordinates x, y, z. The coordinate list keeps its numbers.
 */
uint32_t mahunopi_preview(
    /* lists, link table and range, as for mahunopi_build */
    const int32_t *coordinates,
    size_t coordinate_count,
    const uint8_t *sides,
    size_t side_count,
    const uint16_t *corners,
    size_t corner_count,
    const uint8_t *sharpness,
    size_t sharpness_count,
    const uint16_t *links,
    size_t link_count,
    size_t first,
    size_t count,
    /* the vertex to move, below coordinate_count / 3 */
    size_t vertex,
    /* the coordinates that it is to have, in grid steps */
    int32_t x,
    int32_t y,
    int32_t z,
    /* receives the control points, as for mahunopi_build */
    int32_t *output,
    size_t output_count,
    /* receives the place of a refusal; not null */
    uint64_t *place);

/*
 * For dragging: checks by 29 and then 4 to 13, and marks the corners whose control points a vertex can change. These are
 * the corners at the vertices of the faces that have the vertex. All other corners have the same numbers wherever it is
 * moved to, so a drag needs to build the marked ones only.
 */
uint32_t mahunopi_touched(
    /* the four lists, as for mahunopi_link */
    const int32_t *coordinates,
    size_t coordinate_count,
    const uint8_t *sides,
    size_t side_count,
    const uint16_t *corners,
    size_t corner_count,
    const uint8_t *sharpness,
    size_t sharpness_count,
    /* the vertex, below coordinate_count / 3 */
    size_t vertex,
    /* receives 1 for each corner that the vertex can change, and 0 for each other one */
    uint8_t *marks,
    /* how many entries it has: has to be corner_count */
    size_t mark_count,
    /* receives the place of a refusal; not null */
    uint64_t *place);

/*
 * Faces drawn the wrong way round: checks by 36, then 4 to 9, then 34 and 35, and turns faces so that the model passes
 * 10 and 11. Faces are connected through shared edges, and the lowest face of each connected part is kept, so there is
 * one such choice. A face is turned by reversing its corner order after the first corner; each corner's u and v go with
 * it and change places, those of the first corner too. The turned model stands in the lent corners and sharpness. It is
 * not checked by 12 and 13: linking may still refuse it.
 */
uint32_t mahunopi_turn(
    /* coordinates and side counts, as for mahunopi_link */
    const int32_t *coordinates,
    size_t coordinate_count,
    const uint8_t *sides,
    size_t side_count,
    /* the vertex numbers of face 0 in order, then of face 1, and so on; receives those of the turned model */
    uint16_t *corners,
    /* how many corners */
    size_t corner_count,
    /* u and v of corner 0, then of corner 1, and so on, each 0 to 16; receives those of the turned model */
    uint8_t *sharpness,
    /* how many numbers that are: has to be twice corner_count */
    size_t sharpness_count,
    /* its beginning receives the numbers of the turned faces in rising order; further entries keep their contents */
    uint16_t *listing,
    /* how many entries it has: has to be side_count */
    size_t listing_count,
    /* receives how many faces are turned; not null */
    uint64_t *turned,
    /* receives the place of a refusal; not null */
    uint64_t *place);

/*
 * Nesting: checks a table of nested grids by 21 to 23 and lists its bodies, each after the one whose grid it hangs in,
 * the lowest number first among those that may come next.
 */
uint32_t mahunopi_nest(
    /* for each body the number of the body whose grid it hangs in, or MAHUNOPI_SUN */
    const uint16_t *holders,
    /* how many bodies */
    size_t body_count,
    /* receives the numbers of the bodies in their order */
    uint16_t *listing,
    /* how many entries it has: has to be body_count */
    size_t listing_count,
    /* receives the place of a refusal; not null */
    uint64_t *place);

/*
 * Archiving: checks two lengths by 30 and 31, takes each number's difference from the same axis of the vertex before,
 * wrapping in 32 bits, the first vertex as it is, and writes the lowest bytes of all differences, then all second bytes,
 * all third, all highest. Lists may be far longer than those of a mesh, and empty.
 */
uint32_t mahunopi_archive(
    /* x, y, z of vertex 0, then of vertex 1, and so on: any 32-bit numbers */
    const int32_t *numbers,
    /* how many numbers: a multiple of three */
    size_t number_count,
    /* receives the bytes */
    uint8_t *bytes,
    /* how many bytes: has to be 4 times number_count */
    size_t byte_count,
    /* receives the place of a refusal; not null */
    uint64_t *place);

/*
 * Restoring: checks the same two lengths by 30 and 31, and writes the numbers of which mahunopi_archive makes these bytes.
 */
uint32_t mahunopi_restore(
    /* the bytes, as mahunopi_archive writes them: any bytes */
    const uint8_t *bytes,
    /* how many bytes: has to be 4 times number_count */
    size_t byte_count,
    /* receives the numbers */
    int32_t *numbers,
    /* how many numbers: a multiple of three */
    size_t number_count,
    /* receives the place of a refusal; not null */
    uint64_t *place);

/*
 * Reading OFF: checks a plain-text OFF model by 24 to 26 and then 4 to 13 and writes its lists, in the text's order,
 * to the beginnings of lent ones, whose further entries keep their contents. The sharpness is 8 and 8 throughout.
 *
 * Words are parted by spaces, tabs, carriage returns and line feeds, and # anywhere starts a comment that runs to the
 * next line feed. The words are OFF; the counts of vertices, faces and edges, each 0 to 65,535; three coordinates for
 * each vertex; for each face its side count, 0 to 255, and as many vertex numbers, 0 to 65,535. Every number is decimal
 * and whole, of one to nine digits with an optional minus (-0 is 0). The edge count is not used. Colours are not taken.
 */
uint32_t mahunopi_off(
    /* the text */
    const uint8_t *text,
    /* how many bytes it has */
    size_t text_count,
    /* receives the coordinates */
    int32_t *coordinates,
    /* how many numbers it takes: at least 3 * MAHUNOPI_MAX_VERTICES */
    size_t coordinate_space,
    /* receives the side counts */
    uint8_t *sides,
    /* how many bytes it takes: at least MAHUNOPI_MAX_FACES */
    size_t side_space,
    /* receives the corners */
    uint16_t *corners,
    /* how many entries it takes: at least MAHUNOPI_MAX_CORNERS */
    size_t corner_space,
    /* receives the sharpness */
    uint8_t *sharpness,
    /* how many bytes it takes: at least 2 * MAHUNOPI_MAX_CORNERS */
    size_t sharpness_space,
    /* receives the number of coordinates written: three for each vertex; not null */
    uint64_t *coordinate_count,
    /* receives the number of side counts written: the faces; not null */
    uint64_t *side_count,
    /* receives the number of corners written; not null */
    uint64_t *corner_count,
    /* receives the number of sharpness numbers written: two for each corner; not null */
    uint64_t *sharpness_count,
    /* receives the place of a refusal; not null */
    uint64_t *place);

/* The numbers of a page of the border report, and the most meshes that it counts. */
#define MAHUNOPI_PAGE_NUMBERS 21
#define MAHUNOPI_MAX_PAGE_MESHES 4096

/*
 * The border report: checks a page by 37 and 38 and adds one .dms file to it. A page is 21 numbers in this order: meshes
 * offered, corners built, borders met, refusals under 1 to 13, refusals under 28, and for each of the four conditions
 * across a border the largest miss in any coordinate, its sign dropped, as a whole number over 2^30 of a tick (at most
 * 13 * 2^30). A report starts with a page of zeros.
 *
 * An accepted mesh adds one to the meshes, its corners and its borders, two for each corner, and raises the misses to
 * those of its borders, each of which counts once. A file that is refused by 1 to 13 or 28 adds one to the meshes and
 * one under its number, and nothing else: the call is done all the same, and answers MAHUNOPI_DONE.
 */
uint32_t mahunopi_report(
    /* the file, as for mahunopi_decode */
    const uint8_t *bytes,
    size_t byte_count,
    uint64_t length,
    /* the page; receives the next one */
    uint64_t page[MAHUNOPI_PAGE_NUMBERS],
    /* receives the place of a refusal; not null */
    uint64_t *place);

/*
 * Two pages as one: checks by 37 and 38 and puts into the second the sums of the counts and the larger of each two
 * misses. The page of a run of files is the merge of the pages of its parts, so a report may be divided among threads
 * or machines.
 */
uint32_t mahunopi_merge(
    /* a page */
    const uint64_t other[MAHUNOPI_PAGE_NUMBERS],
    /* another one; receives the two as one */
    uint64_t page[MAHUNOPI_PAGE_NUMBERS],
    /* receives the place of a refusal; not null */
    uint64_t *place);

#ifdef __cplusplus
}
#endif

#endif
