// The same insertions, searches and removals as sp_bench does, by Boost.Geometry's rtree with the quadratic split and
// 16 members a node. Prints seconds of insertions, seconds of searches, how many values were found, and
// seconds of removals.
#include <boost/geometry.hpp>
#include <boost/geometry/index/rtree.hpp>
#include <chrono>
#include <cmath>
#include <cstdint>
#include <cstdio>
#include <cstdlib>
#include <iterator>
#include <utility>
#include <vector>

namespace bg = boost::geometry;
namespace bgi = boost::geometry::index;
using Point = bg::model::point<std::int32_t, 2, bg::cs::cartesian>;
using Box = bg::model::box<Point>;
using Value = std::pair<Box, std::uint64_t>;

static std::uint64_t state = 1;

static std::uint64_t step() {
    state = 16807 * state % 2147483647;
    return state;
}

static Box square(std::uint64_t side) {
    std::int32_t x = static_cast<std::int32_t>(step() % side);
    std::int32_t y = static_cast<std::int32_t>(step() % side);
    return Box(Point(x, y), Point(x + 50, y + 50));
}

int main(int argc, char **argv) {
    std::uint64_t count = argc > 1 ? std::strtoull(argv[1], nullptr, 10) : 100000;
    std::uint64_t searches = argc > 2 ? std::strtoull(argv[2], nullptr, 10) : count;
    std::uint64_t side = 100 * static_cast<std::uint64_t>(std::sqrt(static_cast<double>(count)));
    if (side == 0) side = 1;
    using Clock = std::chrono::steady_clock;
    bgi::rtree<Value, bgi::quadratic<16, 6>> tree;
    auto start = Clock::now();
    std::vector<Value> values;
    values.reserve(count);
    for (std::uint64_t i = 0; i < count; ++i) {
        values.push_back(Value(square(side), i));
        tree.insert(values.back());
    }
    auto middle = Clock::now();
    std::uint64_t found = 0;
    std::vector<Value> hits;
    for (std::uint64_t i = 0; i < searches; ++i) {
        hits.clear();
        tree.query(bgi::intersects(square(side)), std::back_inserter(hits));
        found += hits.size();
    }
    auto end = Clock::now();
    for (std::uint64_t i = 0; i < count; ++i) tree.remove(values[i * 7919 % count]);
    auto emptied = Clock::now();
    std::chrono::duration<double> insertions = middle - start, queries = end - middle, removals = emptied - end;
    std::printf("%.6f %.6f %llu %.6f\n", insertions.count(), queries.count(), static_cast<unsigned long long>(found), removals.count());
}
