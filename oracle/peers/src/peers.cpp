// Clipper 6 and GEOS, called alike: a sheet is made ready once, then clipped any number of times.

#include <cmath>
#include <cstddef>
#include <cstdint>
#include <cstdio>
#include <cstdlib>
#include <memory>
#include <vector>

#include <geos_c.h>
#include <polyclipping/clipper.hpp>

namespace {

// Paths of `each` points: x and y of each point, path by path.
struct Flat {
    const std::int32_t *points;
    std::size_t each;
    std::size_t count;
};

// How many paths there are, and the sum of |dx| + |dy| over their steps.
struct Totals {
    std::uint64_t paths;
    double travel;
};

class Peer {
public:
    virtual ~Peer() = default;
    // Keeps the answer, and drops the one before.
    virtual void clip(bool outside) = 0;
    virtual Totals totals() const = 0;
};

class Clipper : public Peer {
public:
    Clipper(const Flat &areas, const Flat &lines) : areas(paths(areas)), lines(paths(lines)) {}

    // The paths are added in each call: a part of the work is done there.
    void clip(bool outside) override {
        ClipperLib::Clipper clipper;
        clipper.AddPaths(lines, ClipperLib::ptSubject, false);
        clipper.AddPaths(areas, ClipperLib::ptClip, true);
        const auto kept = outside ? ClipperLib::ctDifference : ClipperLib::ctIntersection;
        clipper.Execute(kept, answer, ClipperLib::pftNonZero, ClipperLib::pftNonZero);
    }

    Totals totals() const override {
        Totals sum = {0, 0};
        for (const auto *node : answer.Childs) {
            const auto &path = node->Contour;
            sum.paths += 1;
            for (std::size_t i = 1; i < path.size(); i++)
                sum.travel += std::llabs(path[i].X - path[i - 1].X) + std::llabs(path[i].Y - path[i - 1].Y);
        }
        return sum;
    }

private:
    static ClipperLib::Paths paths(const Flat &flat) {
        ClipperLib::Paths paths(flat.count);
        const std::int32_t *next = flat.points;
        for (auto &path : paths)
            for (std::size_t i = 0; i < flat.each; i++, next += 2)
                path.emplace_back(next[0], next[1]);
        return paths;
    }

    const ClipperLib::Paths areas, lines;
    ClipperLib::PolyTree answer;
};

struct Destroy {
    void operator()(GEOSGeometry *geometry) const { GEOSGeom_destroy(geometry); }
};

using Geometry = std::unique_ptr<GEOSGeometry, Destroy>;

// GEOS answers null where it fails.
template <typename T> T *good(T *answer) {
    if (answer == nullptr) {
        std::fputs("GEOS failed\n", stderr);
        std::abort();
    }
    return answer;
}

class Geos : public Peer {
public:
    Geos(const Flat &areas, const Flat &lines)
        : areas(collection(GEOS_MULTIPOLYGON, areas, polygon)),
          lines(collection(GEOS_MULTILINESTRING, lines, line)),
          overlapping(GEOSisValid(this->areas.get()) != 1) {}

    // Areas that overlap are no valid geometry before they are joined; the others are taken as they are.
    void clip(bool outside) override {
        const Geometry joined(overlapping ? good(GEOSUnaryUnion(areas.get())) : nullptr);
        const GEOSGeometry *all = overlapping ? joined.get() : areas.get();
        const auto keep = outside ? GEOSDifference : GEOSIntersection;
        answer.reset(good(keep(lines.get(), all)));
    }

    Totals totals() const override {
        Totals sum = {0, 0};
        for (int part = 0; part < GEOSGetNumGeometries(answer.get()); part++) {
            const GEOSCoordSequence *path = good(GEOSGeom_getCoordSeq(good(GEOSGetGeometryN(answer.get(), part))));
            unsigned size = 0;
            GEOSCoordSeq_getSize(path, &size);
            sum.paths += 1;
            for (unsigned i = 1; i < size; i++) {
                double x1, y1, x2, y2;
                GEOSCoordSeq_getXY(path, i - 1, &x1, &y1);
                GEOSCoordSeq_getXY(path, i, &x2, &y2);
                sum.travel += std::fabs(x2 - x1) + std::fabs(y2 - y1);
            }
        }
        return sum;
    }

private:
    static GEOSGeometry *line(std::vector<double> xy) {
        return good(GEOSGeom_createLineString(good(GEOSCoordSeq_copyFromBuffer(xy.data(), xy.size() / 2, 0, 0))));
    }

    // A ring ends at its first point.
    static GEOSGeometry *polygon(std::vector<double> xy) {
        xy.insert(xy.end(), {xy[0], xy[1]});
        auto *ring = good(GEOSGeom_createLinearRing(good(GEOSCoordSeq_copyFromBuffer(xy.data(), xy.size() / 2, 0, 0))));
        return good(GEOSGeom_createPolygon(ring, nullptr, 0));
    }

    static GEOSGeometry *collection(int type, const Flat &flat, GEOSGeometry *(*make)(std::vector<double>)) {
        std::vector<GEOSGeometry *> parts;
        for (std::size_t i = 0; i < flat.count; i++) {
            const std::int32_t *path = flat.points + 2 * flat.each * i;
            parts.push_back(make(std::vector<double>(path, path + 2 * flat.each)));
        }
        return good(GEOSGeom_createCollection(type, parts.data(), parts.size()));
    }

    const Geometry areas, lines;
    const bool overlapping;
    Geometry answer;
};

} // namespace

extern "C" {

Peer *peers_clipper(Flat areas, Flat lines) { return new Clipper(areas, lines); }

Peer *peers_geos(Flat areas, Flat lines) {
    static const bool started = (initGEOS(nullptr, nullptr), true);
    (void)started;
    return new Geos(areas, lines);
}

void peers_clip(Peer *peer, bool outside) { peer->clip(outside); }

Totals peers_totals(const Peer *peer) { return peer->totals(); }

void peers_free(Peer *peer) { delete peer; }

}
