/* Answers a script of geo by geo.hpp: each record whose fields are numbers by the call of its word, and prints what the program would.
   All other records are handed in as text. checks/exports compares it with examples/. */
#include "geo.hpp"

#include <charconv>
#include <cstdio>
#include <fstream>
#include <iostream>
#include <iterator>
#include <optional>

using geo::Point;

struct Record {
    std::string word;
    std::vector<std::int64_t> fields;

    Point point(std::size_t i) const { return {fields[2 * i], fields[2 * i + 1]}; }

    std::vector<Point> points() const {
        std::vector<Point> found;
        for (std::size_t i = 0; 2 * i + 1 < fields.size(); i++) {
            found.push_back(point(i));
        }
        return found;
    }
};

/* The record of a line, if its fields are numbers of 64 bits that are written plainly. */
static std::optional<Record> record(std::string_view line) {
    Record found;
    std::size_t at = std::min(line.find(','), line.size());
    found.word = line.substr(0, at);
    while (at < line.size()) {
        const std::size_t end = std::min(line.find(',', at + 1), line.size());
        std::int64_t field = 0;
        const auto read = std::from_chars(line.data() + at + 1, line.data() + end, field);
        if (read.ec != std::errc() || read.ptr != line.data() + end) {
            return {};
        }
        found.fields.push_back(field);
        at = end;
    }
    return found;
}

static void print(const std::vector<Point> &points) {
    std::cout << points.size();
    for (Point point : points) {
        std::cout << ',' << point.x << ',' << point.y;
    }
    std::cout << '\n';
}

static void print(const char *word, const std::vector<std::uint32_t> &numbers) {
    std::cout << word << ',' << numbers.size();
    for (std::uint32_t number : numbers) {
        std::cout << ',' << number;
    }
    std::cout << '\n';
}

static std::string text(const geo::ExactPoint &point) { return geo::to_string(point.x) + ',' + geo::to_string(point.y); }

/* Asks what has the right count of fields for a call, and says whether it did. */
static bool ask(geo::Session &session, const Record &asked) {
    static const char *const places[] = {"outside", "inside", "edge"};
    static const char *const rules[] = {"taut", "repeat", "leaves", "not_reflex", "straight", "wrong_side"};
    const std::size_t count = asked.fields.size();
    const std::string &word = asked.word;
    if (word == "polygon" && count % 2 == 0) {
        const std::uint32_t vertices = session.polygon(asked.points());
        std::cout << "polygon," << vertices << '\n';
    } else if (word == "inside" && count == 2) {
        std::cout << places[static_cast<int>(session.inside(asked.point(0)))] << '\n';
    } else if (word == "path" && count == 4) {
        const std::vector<Point> path = session.path(asked.point(0), asked.point(1));
        std::cout << "path,";
        print(path);
    } else if (word == "reach" && count == 2) {
        const std::vector<Point> path = session.reach(asked.point(0));
        std::cout << "path,";
        print(path);
    } else if (word == "pair" && count == 2 && asked.fields[0] >= 0 && asked.fields[1] >= 0 && asked.fields[0] < 1 << 30 && asked.fields[1] < 1 << 30) {
        const std::vector<Point> path = session.pair(static_cast<std::uint32_t>(asked.fields[0]), static_cast<std::uint32_t>(asked.fields[1]));
        std::cout << "path,";
        print(path);
    } else if (word == "tree" && count == 2) {
        const std::vector<std::uint32_t> before = session.tree(asked.point(0));
        std::cout << "tree," << before.size() << '\n';
        for (std::size_t i = 0; i < before.size(); i++) {
            std::cout << "from," << i << ',';
            if (before[i] == geo::before_source || before[i] == geo::before_nothing) {
                std::cout << (before[i] == geo::before_source ? "s" : "-") << '\n';
            } else {
                std::cout << before[i] << '\n';
            }
        }
    } else if (word == "check" && count % 2 == 0) {
        const geo::Verdict verdict = session.check(asked.points());
        if (verdict) {
            std::cout << "taut\n";
        } else {
            std::cout << "not," << rules[static_cast<int>(verdict.rule)] << ',' << verdict.place << '\n';
        }
    } else if (word == "see" && count == 2) {
        const std::vector<geo::Part> parts = session.see(asked.point(0));
        std::cout << "see," << parts.size() << '\n';
        for (const geo::Part &part : parts) {
            std::cout << "part," << part.edge << ',' << text(part.first) << ',' << text(part.last) << '\n';
        }
    } else if (word == "kernel" && count == 0) {
        const std::vector<geo::ExactPoint> corners = session.kernel();
        std::cout << "kernel," << corners.size() << '\n';
        for (const geo::ExactPoint &corner : corners) {
            std::cout << "corner," << text(corner) << '\n';
        }
    } else if (word == "hull" && count % 2 == 0) {
        const std::vector<geo::Side> sides = session.hull(asked.points());
        std::cout << "hull," << sides.size() << '\n';
        for (const geo::Side &side : sides) {
            std::cout << "side," << side.start << ',' << side.end << ',';
            print(side.path);
        }
    } else if (word == "round" && count % 2 == 0) {
        print("round", session.round(asked.points()));
    } else if (word == "guards" && count == 0) {
        print("guards", session.guards());
    } else if (word == "sights" && count == 0) {
        const auto pairs = session.sights();
        std::cout << "sights," << pairs.size() << '\n';
        for (const auto &[i, j] : pairs) {
            std::cout << "sight," << i << ',' << j << '\n';
        }
    } else {
        return false;
    }
    return true;
}

/* The paths of all `path` records by one call have to be those of the calls one by one, and so have the places. */
static void all_at_once(geo::Session &session, const std::vector<Point> &ends) {
    const geo::Paths found = session.paths(ends);
    const std::vector<std::uint8_t> places = session.places(ends);
    const Point *at = found.points.data();
    for (std::size_t k = 0; 2 * k + 1 < ends.size(); k++) {
        std::vector<Point> path;
        std::uint8_t status = GEO_OK;
        try {
            path = session.path(ends[2 * k], ends[2 * k + 1]);
        } catch (const geo::Refusal &refusal) {
            status = refusal.status();
        }
        const auto same = [](const Point &one, const Point &other) { return one.x == other.x && one.y == other.y; };
        if (found.statuses[k] != status || found.lengths[k] != path.size() || !std::equal(path.begin(), path.end(), at, same)) {
            throw std::logic_error("a path of many differs from the path asked alone");
        }
        at += path.size();
    }
    for (std::size_t i = 0; i < ends.size(); i++) {
        std::uint8_t place = 0;
        try {
            place = static_cast<std::uint8_t>(session.inside(ends[i]));
        } catch (const geo::Refusal &refusal) {
            place = refusal.status();
        }
        if (place != places[i]) {
            throw std::logic_error("a place of many differs from the place asked alone");
        }
    }
    bool is_refused = false;
    try {
        session.paths({{0, 0}});
    } catch (const std::invalid_argument &) {
        is_refused = true;
    }
    if (!is_refused) {
        throw std::logic_error("paths takes an odd number of points");
    }
}

int main(int count, char **words) {
    std::ifstream file(count == 2 ? words[1] : "", std::ios::binary);
    const std::string script{std::istreambuf_iterator<char>(file), {}};
    if (!file || script.find('"') != std::string::npos || script.compare(0, 3, "\xef\xbb\xbf") == 0) {
        std::cout << geo::answer_script(script);
        return 0;
    }
    geo::Session session;
    std::vector<Point> ends;
    int by_call = 0;
    for (std::size_t at = 0; at < script.size();) {
        const std::size_t end = std::min(script.find_first_of("\r\n", at), script.size());
        const std::string line = script.substr(at, end - at);
        at = end + 1;
        const std::optional<Record> asked = record(line);
        if (line == "geo,2" && by_call == 0) {
            session = geo::Session(geo::Version::two);
            std::cout << "geo,2\n";
            continue;
        }
        try {
            if (asked && ask(session, *asked)) {
                by_call++;
                if (asked->word == "path") {
                    ends.push_back(asked->point(0));
                    ends.push_back(asked->point(1));
                }
                continue;
            }
        } catch (const geo::Refusal &refusal) {
            std::cout << refusal.what() << '\n';
            by_call++;
            continue;
        }
        std::cout << session.answer(line + "\n");
    }
    all_at_once(session, ends);
    std::cerr << by_call << '\n';
    return 0;
}
