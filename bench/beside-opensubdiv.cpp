// The torus of 8,192 corners at level 8 as triangles, by this library and by OpenSubdiv's limit evaluation (Bfr), in turns on one thread: millions of
// triangles a second, by the least of many passes. Arguments: the seconds to spend, 5 where there are none; a .dms file to write the torus to.
//
// Ours: each pass checks and builds the mesh and writes shared points, indices and tangents. OpenSubdiv: surfaces are made once, before; each pass
// evaluates every face with points of its own in a grid of 22 parts, 968 triangles where ours has 1,024, in floats, and writes indices.
#include <opensubdiv/bfr/refinerSurfaceFactory.h>
#include <opensubdiv/bfr/surface.h>
#include <opensubdiv/bfr/tessellation.h>
#include <opensubdiv/far/topologyDescriptor.h>
#include <opensubdiv/far/topologyRefinerFactory.h>

#include <algorithm>
#include <chrono>
#include <cmath>
#include <cstdio>
#include <cstdlib>
#include <fstream>
#include <functional>
#include <memory>
#include <vector>

#include "mahunopi.h"

using namespace OpenSubdiv;

static const int P = 64, Q = 32, FACES = P * Q, CORNERS = 4 * FACES, LEVEL = 8, RATE = 22;
static const double PI = std::acos(-1.0);

static void normal(const float *a, const float *b, float *out)
{
    const float x = a[1] * b[2] - a[2] * b[1], y = a[2] * b[0] - a[0] * b[2], z = a[0] * b[1] - a[1] * b[0];
    const float length = std::sqrt(x * x + y * y + z * z);
    out[0] = x / length, out[1] = y / length, out[2] = z / length;
}

int main(int argc, char **argv)
{
    const double seconds = argc > 1 ? std::atof(argv[1]) : 5;
    std::vector<int32_t> coordinates;
    std::vector<uint16_t> corners, links(CORNERS);
    std::vector<int> indices;
    for (int i = 0; i < P; i++)
        for (int j = 0; j < Q; j++) {
            const double a = 2 * PI * i / P, b = 2 * PI * j / Q, around = 3 + std::cos(b);
            for (double x : {around * std::cos(a), around * std::sin(a), std::sin(b)}) coordinates.push_back(int32_t(std::lround(15000 * x)));
            for (int v : {i * Q + j, i * Q + (j + 1) % Q, (i + 1) % P * Q + (j + 1) % Q, (i + 1) % P * Q + j}) corners.push_back(uint16_t(v)), indices.push_back(v);
        }
    const std::vector<uint8_t> sides(FACES, 4), sharpness(2 * CORNERS, MAHUNOPI_PLAIN_SHARPNESS), levels(CORNERS, LEVEL);
    if (argc > 2) {
        std::ofstream file(argv[2], std::ios::binary);
        const auto put = [&](const void *bytes, size_t count) { file.write(static_cast<const char *>(bytes), std::streamsize(count)); };
        const uint16_t counts[] = {1, FACES, FACES, CORNERS};
        put("DMS", 3), put(counts, 8), put(coordinates.data(), 4 * coordinates.size()), put(sides.data(), FACES), put(corners.data(), 2 * CORNERS);
        if (!file.flush()) std::fprintf(stderr, "%s: cannot be written\n", argv[2]), std::exit(1);
    }
    uint64_t place = 0, point_numbers = 0, triangle_numbers = 0;
    auto refused = [&](uint32_t no) {
        if (no) std::fprintf(stderr, "refused %u at %llu\n", unsigned(no), static_cast<unsigned long long>(place)), std::exit(1);
    };
#define LISTS coordinates.data(), coordinates.size(), sides.data(), sides.size(), corners.data(), corners.size(), sharpness.data(), sharpness.size()
#define LEVELS LISTS, links.data(), links.size(), levels.data(), levels.size(), 0, CORNERS
    refused(mahunopi_link(LISTS, links.data(), links.size(), &place));
    refused(mahunopi_count_triangles(LEVELS, &point_numbers, &triangle_numbers, &place));
    std::vector<int32_t> points(point_numbers);
    std::vector<uint32_t> triangles(triangle_numbers);
    std::vector<int64_t> tangents(2 * point_numbers);
    std::vector<float> normals(point_numbers);
    auto ours = [&] { refused(mahunopi_triangles(LEVELS, points.data(), points.size(), triangles.data(), triangles.size(), &point_numbers, &triangle_numbers, &place)); };
    uint64_t numbers = 0;
    auto ours_tangents = [&] {
        ours();
        refused(mahunopi_tangents(LEVELS, tangents.data(), tangents.size(), &numbers, &place));
    };
    auto ours_normals = [&] {
        ours_tangents();
        for (size_t p = 0; p < points.size() / 3; p++) {
            float t[6];
            for (size_t x = 0; x < 6; x++) t[x] = float(tangents[6 * p + x]);
            normal(t, t + 3, &normals[3 * p]);
        }
    };

    Far::TopologyDescriptor descriptor;
    const std::vector<int> face_sizes(FACES, 4);
    descriptor.numVertices = FACES, descriptor.numFaces = FACES;
    descriptor.numVertsPerFace = face_sizes.data(), descriptor.vertIndicesPerFace = indices.data();
    Sdc::Options options;
    typedef Far::TopologyRefinerFactory<Far::TopologyDescriptor> Refiners;
    std::unique_ptr<Far::TopologyRefiner> refiner(Refiners::Create(descriptor, Refiners::Options(Sdc::SCHEME_CATMARK, options)));
    Bfr::RefinerSurfaceFactory<> factory(*refiner);
    std::vector<Bfr::Surface<float>> surfaces(FACES);
    for (int f = 0; f < FACES; f++) factory.InitVertexSurface(f, &surfaces[size_t(f)]);
    const std::vector<float> control(coordinates.begin(), coordinates.end());
    Bfr::Tessellation::Options triangulated;
    const Bfr::Tessellation pattern(surfaces[0].GetParameterization(), RATE, triangulated);
    const size_t own = size_t(pattern.GetNumCoords()), facets = size_t(pattern.GetNumFacets());
    std::vector<float> uv(2 * own), patch(3 * size_t(surfaces[0].GetNumPatchPoints())), their_points(3 * own * FACES), their_normals(3 * own * FACES);
    std::vector<int> facet(3 * facets), their_triangles(3 * facets * FACES);
    pattern.GetCoords(uv.data());
    pattern.GetFacets(facet.data());
    auto theirs = [&](bool with_normals) {
        for (size_t f = 0; f < size_t(FACES); f++) {
            surfaces[f].PreparePatchPoints(control.data(), 3, patch.data(), 3);
            for (size_t p = 0; p < own; p++) {
                float *at = &their_points[3 * (f * own + p)], along[3], across[3];
                if (with_normals) {
                    surfaces[f].Evaluate(&uv[2 * p], patch.data(), 3, at, along, across);
                    normal(along, across, &their_normals[3 * (f * own + p)]);
                } else {
                    surfaces[f].Evaluate(&uv[2 * p], patch.data(), 3, at);
                }
            }
            std::transform(facet.begin(), facet.end(), their_triangles.begin() + long(3 * facets * f), [&](int v) { return v + int(f * own); });
        }
    };

    struct Row { const char *name; std::function<void()> pass; size_t triangles; double least; };
    std::vector<Row> rows{{"OpenSubdiv, with unit normals", [&] { theirs(true); }, facets * FACES, 1e9},
        {"OpenSubdiv: points and triangles", [&] { theirs(false); }, facets * FACES, 1e9}, {"ours: points and triangles", ours, triangles.size() / 3, 1e9},
        {"ours, with tangents", ours_tangents, triangles.size() / 3, 1e9}, {"ours, with unit normals of them", ours_normals, triangles.size() / 3, 1e9}};
    typedef std::chrono::steady_clock Clock;
    const auto since = [](Clock::time_point then) { return std::chrono::duration<double>(Clock::now() - then).count(); };
    for (auto began = Clock::now(); since(began) < seconds;)
        for (Row &row : rows) {
            const auto then = Clock::now();
            row.pass();
            row.least = std::min(row.least, since(then));
        }
    const auto speed = [](const Row &row) { return double(row.triangles) / row.least; };
    for (const Row &row : rows)
        std::printf("%-34s %9zu triangles, %6.1f million a second, %5.2f times the first line\n", row.name, row.triangles, speed(row) / 1e6, speed(row) / speed(rows[0]));
}
