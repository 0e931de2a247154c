// What a graphics card takes of a .dms file: a buffer of vertices with normals and a buffer of indices, closed and wound counter-clockwise
// seen from outside, each corner's patches at a level, 1 to 16.
//   g++ -Iinclude examples/draw.cpp -Ltarget/staticlib -lmahunopi -o draw && ./draw meshes/torus.dms 8
#include <algorithm>
#include <cmath>
#include <cstdio>
#include <cstdlib>
#include <fstream>
#include <iterator>
#include <vector>
#include "mahunopi.h"

struct Vertex { float at[3], normal[3]; };              // in grid steps; of length 1

int main(int argc, char **argv)
{
    std::ifstream file(argc > 1 ? argv[1] : "", std::ios::binary);
    std::vector<int32_t> coordinates(3 * MAHUNOPI_MAX_VERTICES), points;
    std::vector<uint8_t> bytes((std::istreambuf_iterator<char>(file)), {}), sides(MAHUNOPI_MAX_FACES), sharpness(2 * MAHUNOPI_MAX_CORNERS), levels;
    std::vector<uint16_t> corners(MAHUNOPI_MAX_CORNERS), links(MAHUNOPI_MAX_CORNERS);
    std::vector<uint32_t> index;
    std::vector<int64_t> tangents;
    uint64_t n[4] = {}, np = 0, nt = 0, place = 0;      // how many coordinates, sides, corners and sharpness numbers; of points, of triangles
    uint32_t no = mahunopi_decode(bytes.data(), bytes.size(), bytes.size(), coordinates.data(), coordinates.size(), sides.data(), sides.size(),
        corners.data(), corners.size(), sharpness.data(), sharpness.size(), &n[0], &n[1], &n[2], &n[3], &place);
    levels.resize(n[2], uint8_t(argc > 2 ? std::atoi(argv[2]) : 8));
#define MESH coordinates.data(), n[0], sides.data(), n[1], corners.data(), n[2], sharpness.data(), n[3], links.data(), n[2]
#define WHOLE MESH, levels.data(), levels.size(), 0, n[2]
    if (!no) no = mahunopi_link(MESH, &place);
    if (!no) no = mahunopi_count_triangles(WHOLE, &np, &nt, &place);
    points.resize(np), index.resize(nt), tangents.resize(2 * np);
    if (!no) no = mahunopi_triangles(WHOLE, points.data(), points.size(), index.data(), index.size(), &np, &nt, &place);
    if (!no) no = mahunopi_tangents(WHOLE, tangents.data(), tangents.size(), &np, &place);
    if (no) return std::printf("refused %u at %llu\n", unsigned(no), static_cast<unsigned long long>(place)), 1;

    std::vector<Vertex> vertices(points.size() / 3);
    for (size_t p = 0; p < points.size(); p++) vertices[p / 3].at[p % 3] = float(points[p]) / 256;
    double volume = 0;
    for (size_t i = 0; i < index.size(); i += 3)        // twice a triangle's area goes to its vertices
        for (size_t x = 0, y = 1, z = 2; x < 3; x++, y = (y + 1) % 3, z = (z + 1) % 3) {
            const float *p = vertices[index[i]].at, *q = vertices[index[i + 1]].at, *r = vertices[index[i + 2]].at;
            const double area = double(q[y] - p[y]) * double(r[z] - p[z]) - double(q[z] - p[z]) * double(r[y] - p[y]);
            for (size_t v = i; v < i + 3; v++) vertices[index[v]].normal[x] += float(area);
            volume += double(p[x]) * area / 6;
        }
    for (size_t v = 0; v < vertices.size(); v++) {      // the surface's normal where it has one, on the side of the areas
        const int64_t *t = &tangents[6 * v], *c = t + 3;
        double exact[3], dot = 0;
        for (size_t x = 0, y = 1, z = 2; x < 3; x++, y = (y + 1) % 3, z = (z + 1) % 3) exact[x] = double(t[y]) * double(c[z]) - double(t[z]) * double(c[y]);
        for (size_t x = 0; x < 3; x++) dot += exact[x] * double(vertices[v].normal[x]);
        if (dot == 0) std::copy(vertices[v].normal, vertices[v].normal + 3, exact), dot = 1;
        const double length = std::hypot(exact[0], exact[1], exact[2]) * (dot < 0 ? -1 : 1) * (volume < 0 ? -1 : 1);
        for (size_t x = 0; x < 3; x++) vertices[v].normal[x] = float(exact[x] / length);
    }
    for (size_t i = 0; volume < 0 && i < index.size(); i += 3) std::swap(index[i], index[i + 1]);
    std::printf("%zu vertices, %zu triangles, volume %.0f cubic steps\n", vertices.size(), index.size() / 3, std::fabs(volume));
}
