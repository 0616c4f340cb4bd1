// The points and places of bench_delaunay, in the same order, with CGAL's Delaunay triangulation: `cgal N insert` or `cgal N grid` puts N points in one by one;
// `cgal N locate` or `cgal N nearest` puts 16,384 in and then looks N places up; `locate-on` and `nearest-on` do that with the last answer's face as a hint.
// Not part of the gate. Wants CGAL's headers (Debian: libcgal-dev) and gmp.
#include <CGAL/Delaunay_triangulation_2.h>
#include <CGAL/Exact_predicates_inexact_constructions_kernel.h>
#include <cstdint>
#include <cstdio>
#include <cstdlib>
#include <string>

using Kernel = CGAL::Exact_predicates_inexact_constructions_kernel;
using Triangulation = CGAL::Delaunay_triangulation_2<Kernel>;
using Point = Kernel::Point_2;

const uint64_t limit = 1 << 20;
const uint64_t points = 16384;

static Point at(uint64_t x, uint64_t y) { return Point(double(x), double(y)); }

static Point next(uint64_t &seed) {
    seed = seed * 6364136223846793005u + 1442695040888963407u;
    return at(seed / limit % limit, seed / limit / limit % limit);
}

static void grid(Triangulation &triangulation, uint64_t n) {
    for (uint64_t i = 0; i < n; i++) triangulation.insert(at(i % 128, i / 128));
}

static void inserts(Triangulation &triangulation, uint64_t &seed, uint64_t n) {
    for (uint64_t i = 0; i < n; i++) triangulation.insert(next(seed));
}

// Looks n places up, each from the last answer's face if that is asked for. How many are inside the hull.
static uint64_t locates(Triangulation &triangulation, uint64_t &seed, uint64_t n, bool on) {
    Triangulation::Face_handle last;
    uint64_t inside = 0;
    for (uint64_t i = 0; i < n; i++) {
        const Triangulation::Face_handle face = triangulation.locate(next(seed), last);
        inside += !triangulation.is_infinite(face);
        if (on) last = face;
    }
    return inside;
}

// The same for the nearest vertex. How many are to the left of the middle.
static uint64_t nearests(Triangulation &triangulation, uint64_t &seed, uint64_t n, bool on) {
    Triangulation::Face_handle last;
    uint64_t left = 0;
    for (uint64_t i = 0; i < n; i++) {
        const Triangulation::Vertex_handle vertex = triangulation.nearest_vertex(next(seed), last);
        left += vertex->point().x() < double(limit / 2);
        if (on) last = vertex->face();
    }
    return left;
}

int main(int count, char **words) {
    if (count != 3) return 2;
    const uint64_t n = std::strtoull(words[1], nullptr, 10);
    const std::string what = words[2];
    Triangulation triangulation;
    uint64_t seed = 1;
    uint64_t found = 0;
    if (what == "insert") {
        inserts(triangulation, seed, n);
    } else if (what == "grid") {
        grid(triangulation, n);
    } else {
        inserts(triangulation, seed, points);
        if (what == "locate" || what == "locate-on") found = locates(triangulation, seed, n, what == "locate-on");
        if (what == "nearest" || what == "nearest-on") found = nearests(triangulation, seed, n, what == "nearest-on");
    }
    std::printf("%zu %zu %zu\n", size_t(triangulation.number_of_vertices()), size_t(triangulation.number_of_faces()), size_t(found));
}
