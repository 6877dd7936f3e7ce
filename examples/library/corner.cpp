/* What corner.c asks, from C++17: an L, where three points lie in it, and paths; and what one of them sees. `./run` beside this builds and runs it, and compares what
   it prints with corner.cpp.stdout. */
#include "geo.hpp"

#include <iostream>

static void print(const std::vector<geo::Point> &points) {
    std::cout << points.size() << " points:";
    for (const geo::Point &point : points) {
        std::cout << ' ' << point.x << ',' << point.y;
    }
    std::cout << '\n';
}

static std::string to_string(const geo::ExactPoint &point) {
    return geo::to_string(point.x) + ',' + geo::to_string(point.y);
}

int main() {
    static const char *const words[] = {"outside", "inside", "edge"};
    geo::Session session({{0, 0}, {4, 0}, {4, 2}, {2, 2}, {2, 4}, {0, 4}});
    for (geo::Point point : {geo::Point{1, 1}, {4, 1}, {3, 3}}) {
        std::cout << point.x << ',' << point.y << ": " << words[static_cast<int>(session.inside(point))] << '\n';
    }
    print(session.path({1, 4}, {4, 1}));
    try {
        print(session.path({1, 4}, {3, 3}));
    } catch (const geo::Refusal &refusal) {
        std::cout << refusal.what() << '\n';
    }
    const std::vector<std::uint32_t> before = session.tree({4, 1});
    std::cout << "before vertex 4 comes vertex " << before[4] << '\n';
    print(session.reach({1, 3}));
    for (const geo::Part &part : session.see({4, 1})) {
        std::cout << "of edge " << part.edge << ": from " << to_string(part.first) << " to " << to_string(part.last) << '\n';
    }
}
