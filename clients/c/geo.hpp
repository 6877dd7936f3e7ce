/* geo from C++17: a session that frees itself, spans and exceptions, over the calls of geo.h. What geo.h says of each call holds here too.

       geo::Session session({{0, 0}, {4, 0}, {4, 2}, {2, 2}, {2, 4}, {0, 4}});
       for (geo::Point point : session.path({1, 4}, {4, 1})) ..

   - A question that can't be answered throws a Refusal, which has the kind and the numbers of the line `bad,..`; the polygon and
     the tree stay. Want of memory throws OutOfMemory, a std::bad_alloc, and a text past 8,388,608 bytes TooLong, a
     std::length_error.
   - A session can be moved and not copied. It stays on the thread of its first question; nothing checks that.
   - Of two forms of a question the one with a Span writes the front of the answer to it, as much as fits, and returns how much there
     is. It allocates nothing here. */
#ifndef GEO_HPP
#define GEO_HPP

#include "geo.h"

#include <algorithm>
#include <cstddef>
#include <cstdint>
#include <initializer_list>
#include <iterator>
#include <new>
#include <stdexcept>
#include <string>
#include <string_view>
#include <type_traits>
#include <utility>
#include <vector>

namespace geo {

using Point = GeoPoint;
using Fraction = GeoFraction;

/* A point with exact coordinates. */
struct ExactPoint {
    Fraction x, y;
};

/* Of a script: its limits (docs/LIMITS.md), and which points of a path are told (docs/MANUAL.md). */
enum class Version { one, two };

enum class Place : std::uint8_t { outside = GEO_OUTSIDE, inside = GEO_INSIDE, edge = GEO_EDGE };

/* Elements that stand in a row and belong to someone else: an array, a std::vector, a std::array, a span of C++20, or a list in braces,
   which lasts until the end of the statement. */
template <class T>
class Span {
public:
    using element_type = T;
    using value_type = std::remove_cv_t<T>;

    constexpr Span() noexcept = default;
    constexpr Span(T *data, std::size_t size) noexcept : data_(data), size_(size) {}

    template <class Range, class Element = std::remove_pointer_t<decltype(std::data(std::declval<Range &>()))>,
              class = std::enable_if_t<std::is_convertible_v<Element (*)[], T (*)[]>>>
    constexpr Span(Range &&range) noexcept : data_(std::data(range)), size_(std::size(range)) {}

#if defined(__GNUC__) && !defined(__clang__)
#pragma GCC diagnostic push
#pragma GCC diagnostic ignored "-Winit-list-lifetime"
#endif
    template <class U = T, class = std::enable_if_t<std::is_const_v<U>>>
    constexpr Span(std::initializer_list<value_type> list) noexcept : data_(list.begin()), size_(list.size()) {}
#if defined(__GNUC__) && !defined(__clang__)
#pragma GCC diagnostic pop
#endif

    constexpr T *data() const noexcept { return data_; }
    constexpr std::size_t size() const noexcept { return size_; }
    constexpr bool empty() const noexcept { return size_ == 0; }
    constexpr T *begin() const noexcept { return data_; }
    constexpr T *end() const noexcept { return data_ + size_; }
    constexpr T &operator[](std::size_t i) const noexcept { return data_[i]; }

private:
    T *data_ = nullptr;
    std::size_t size_ = 0;
};

/* A rule of taut chains. */
enum class Rule : std::uint32_t {
    taut = GEO_TAUT,
    repeat = GEO_REPEAT,
    leaves = GEO_LEAVES,
    not_reflex = GEO_NOT_REFLEX,
    straight = GEO_STRAIGHT,
    wrong_side = GEO_WRONG_SIDE
};

/* The first rule that a list breaks, and the number of the point where it does, from 0 on; true where the list is a taut chain. */
struct Verdict {
    Rule rule = Rule::taut;
    std::uint32_t place = 0;

    explicit operator bool() const noexcept { return rule == Rule::taut; }
};

/* What is seen of an edge, from `first` to `last` in the direction of the edge. */
struct Part {
    std::uint32_t edge;
    ExactPoint first, last;
};

/* A side of a relative hull: the path from point `start` to point `end` of the list. */
struct Side {
    std::uint32_t start, end;
    std::vector<Point> path;
};

/* The paths of many pairs of points: of each a status, GEO_OK or that of its refusal, and how many points it has; and all points, one path
   after the other. */
struct Paths {
    std::vector<std::uint8_t> statuses;
    std::vector<std::size_t> lengths;
    std::vector<Point> points;
};

/* In a tree, what comes before a vertex where that is no vertex. */
inline constexpr std::uint32_t before_nothing = GEO_BEFORE_NOTHING;
inline constexpr std::uint32_t before_source = GEO_BEFORE_SOURCE;

/* Why a question is refused: the words of the lines `bad,..`, as docs/ERRORS.md has them. */
enum class Kind : std::uint8_t {
    word = GEO_WORD,
    fields = GEO_FIELDS,
    few = GEO_FEW,
    many = GEO_MANY,
    clash = GEO_CLASH,
    no_polygon = GEO_NO_POLYGON,
    no_tree = GEO_NO_TREE,
    large = GEO_LARGE,
    outside = GEO_OUTSIDE_P,
    range = GEO_RANGE_P,
    index = GEO_INDEX_P
};

constexpr const char *word(Kind kind) noexcept {
    switch (kind) {
    case Kind::word: return "word";
    case Kind::fields: return "fields";
    case Kind::few: return "few";
    case Kind::many: return "many";
    case Kind::clash: return "clash";
    case Kind::no_polygon: return "no_polygon";
    case Kind::no_tree: return "no_tree";
    case Kind::large: return "large";
    case Kind::outside: return "outside";
    case Kind::range: return "range";
    case Kind::index: return "index";
    }
    return "";
}

/* The number that is added to a status of a refusal, or 0; and its kind. */
constexpr std::uint32_t number_of(std::uint8_t status) noexcept { return status < GEO_OUTSIDE_P ? 0 : status % 10; }

constexpr Kind kind_of(std::uint8_t status) noexcept { return static_cast<Kind>(status - number_of(status)); }

class Refusal : public std::runtime_error {
public:
    explicit Refusal(Kind kind, Span<const std::uint32_t> numbers = {}) : std::runtime_error(line(kind, numbers)), kind_(kind) {
        count_ = std::min<std::size_t>(numbers.size(), 2);
        std::copy_n(numbers.begin(), count_, numbers_);
    }

    Kind kind() const noexcept { return kind_; }

    /* The numbers that the line has behind its word: two of a clash, else one or none. */
    Span<const std::uint32_t> numbers() const noexcept { return {numbers_, count_}; }

    /* The first of them, or 0. */
    std::uint32_t number() const noexcept { return numbers_[0]; }

    /* The status that geo.h has for it. */
    std::uint8_t status() const noexcept {
        const auto base = static_cast<std::uint8_t>(kind_);
        return static_cast<std::uint8_t>(base < GEO_OUTSIDE_P || number() > 9 ? base : base + number());
    }

private:
    static std::string line(Kind kind, Span<const std::uint32_t> numbers) {
        std::string text = std::string("bad,") + word(kind);
        for (std::uint32_t number : numbers) {
            text += "," + std::to_string(number);
        }
        return text;
    }

    Kind kind_;
    std::size_t count_ = 0;
    std::uint32_t numbers_[2] = {0, 0};
};

class TooLong : public std::length_error {
public:
    TooLong() : std::length_error("the text has more than 8,388,608 bytes") {}
};

class OutOfMemory : public std::bad_alloc {
public:
    const char *what() const noexcept override { return "the library wanted memory"; }
};

namespace detail {

/* geo.h wants a pointer that is not null also where there are no elements. */
template <class T>
T *pointer(Span<T> span) noexcept {
    static std::remove_const_t<T> none{};
    return span.data() == nullptr ? &none : span.data();
}

inline const std::uint8_t *bytes(std::string_view text) noexcept {
    return reinterpret_cast<const std::uint8_t *>(text.data() == nullptr ? "" : text.data());
}

inline std::uint8_t *bytes(Span<char> text) noexcept { return reinterpret_cast<std::uint8_t *>(pointer(text)); }

static_assert(sizeof(Point) == 2 * sizeof(std::int64_t) && offsetof(Point, y) == sizeof(std::int64_t), "a point is two numbers");

/* The coordinates of points, x before y. */
inline Span<const std::int64_t> coordinates(Span<const Point> points) noexcept {
    return {reinterpret_cast<const std::int64_t *>(pointer(points)), 2 * points.size()};
}

/* Throws for a status that is not GEO_OK. */
inline void check(std::uint8_t status) {
    if (status == GEO_OK) {
        return;
    }
    if (status == GEO_MEMORY) {
        throw OutOfMemory();
    }
    if (status == GEO_TOO_LONG) {
        throw TooLong();
    }
    const std::uint32_t number = number_of(status);
    throw Refusal(kind_of(status), {&number, number == 0 ? 0u : 1u});
}

/* The size of a numerator, in 128 bits. */
struct Size {
    explicit Size(const Fraction &value) noexcept : high(static_cast<std::uint64_t>(value.high)), low(value.low) {
        if (value.high < 0) {
            low = 0 - low;
            high = ~high + (low == 0 ? 1 : 0);
        }
    }

    /* Divides it by ten, and returns what is left. */
    unsigned tenth() noexcept {
        std::uint64_t rest = 0;
        for (std::uint64_t *half : {&high, &low}) {
            const std::uint64_t upper = (rest << 32) + (*half >> 32);
            const std::uint64_t lower = (upper % 10 << 32) + (*half & 0xffffffff);
            *half = (upper / 10 << 32) + lower / 10;
            rest = lower % 10;
        }
        return static_cast<unsigned>(rest);
    }

    std::uint64_t high, low;
};

} // namespace detail

/* A number near it, within two units in the last place. */
inline double to_double(const Fraction &value) noexcept {
    const detail::Size size(value);
    const double found = (static_cast<double>(size.high) * 18446744073709551616.0 + static_cast<double>(size.low)) / static_cast<double>(value.denominator);
    return value.high < 0 ? -found : found;
}

/* As the program writes it: 2, -7/3. */
inline std::string to_string(const Fraction &value) {
    detail::Size size(value);
    std::string text;
    do {
        text.push_back(static_cast<char>('0' + size.tenth()));
    } while (size.high != 0 || size.low != 0);
    if (value.high < 0) {
        text.push_back('-');
    }
    std::reverse(text.begin(), text.end());
    return value.denominator == 1 ? text : text + "/" + std::to_string(value.denominator);
}

/* The answers to a whole script, a line each. */
inline std::string answer_script(std::string_view script) {
    std::string text(4 * script.size() + 4096, '\0');
    for (;;) {
        std::size_t needed = 0;
        const std::uint8_t status = geo_answer_script(detail::bytes(script), script.size(), detail::bytes(Span<char>(text)), text.size(), &needed);
        if (needed <= text.size()) {
            detail::check(status);
            text.resize(needed);
            return text;
        }
        text.resize(needed);
    }
}

/* A polygon, and what was asked about it. */
class Session {
public:
    Session() noexcept = default;

    explicit Session(Version version) {
        if (version == Version::two) {
            ask(GEO_ASK_TWO);
        }
    }

    explicit Session(Span<const Point> ring, Version version = Version::one) : Session(version) { polygon(ring); }

    Session(const Session &) = delete;
    Session &operator=(const Session &) = delete;

    /* The one that is moved from is as one of which nothing was asked yet. */
    Session(Session &&other) noexcept
        : held_(std::exchange(other.held_, GeoSession{nullptr})), text_size_(std::exchange(other.text_size_, 0)),
          counts_(std::exchange(other.counts_, GeoCounts{})), room_(std::move(other.room_)) {}

    Session &operator=(Session &&other) noexcept {
        Session moved(std::move(other));
        std::swap(held_, moved.held_);
        std::swap(text_size_, moved.text_size_);
        std::swap(counts_, moved.counts_);
        room_.swap(moved.room_);
        return *this;
    }

    ~Session() { geo_session_clear(&held_); }

    /* The answers to the next records of the script, a line each; a refusal is a line of it. After OutOfMemory text() has the answers
       to some first records. */
    std::string answer(std::string_view records) {
        detail::check(geo_session_answer(&held_, detail::bytes(records), records.size(), &text_size_));
        return text();
    }

    /* The text of the last answers. */
    std::string text() {
        std::string found(text_size_, '\0');
        text(found);
        return found;
    }

    std::size_t text(Span<char> out) noexcept {
        geo_session_text(&held_, detail::bytes(out), out.size());
        return text_size_;
    }

    /* Takes a polygon in the place of the one before, and returns how many vertices it has. */
    std::uint32_t polygon(Span<const Point> ring) {
        ask(GEO_ASK_POLYGON, detail::coordinates(ring));
        return number();
    }

    /* Where a point lies. */
    Place inside(Point point) {
        std::uint8_t place = 0;
        detail::check(geo_session_inside(&held_, point.x, point.y, &place));
        return static_cast<Place>(place);
    }

    /* The path between two points of the polygon, which goes as a pulled string does. */
    std::vector<Point> path(Point from, Point to) {
        return grown([&](Span<Point> out) { return path(from, to, out); });
    }

    std::size_t path(Point from, Point to, Span<Point> out) {
        std::size_t needed = 0;
        detail::check(geo_session_path(&held_, from.x, from.y, to.x, to.y, detail::pointer(out), out.size(), &needed));
        return needed;
    }

    /* For each vertex the number of the one before it on the path from the source, before_source or before_nothing. The source is kept
       for reach. */
    std::vector<std::uint32_t> tree(Point source) {
        ask(GEO_ASK_TREE, {source.x, source.y});
        return numbers();
    }

    /* The path from the source of the last tree. */
    std::vector<Point> reach(Point to) {
        return grown([&](Span<Point> out) { return reach(to, out); });
    }

    std::size_t reach(Point to, Span<Point> out) {
        std::size_t needed = 0;
        detail::check(geo_session_reach(&held_, to.x, to.y, detail::pointer(out), out.size(), &needed));
        return needed;
    }

    /* Whether the points are a taut chain. */
    Verdict check(Span<const Point> points) {
        std::uint32_t found[2] = {GEO_TAUT, 0};
        ask(GEO_ASK_CHECK, detail::coordinates(points));
        geo_session_numbers(&held_, found, 2);
        return {static_cast<Rule>(found[0]), found[1]};
    }

    /* What a point sees: a part for each edge of which it sees something, in their order. */
    std::vector<Part> see(Point point) {
        ask(GEO_ASK_SEE, {point.x, point.y});
        const std::vector<std::uint32_t> edges = numbers();
        const std::vector<Fraction> ends = fractions();
        std::vector<Part> parts;
        parts.reserve(edges.size());
        for (std::size_t i = 0; i < edges.size(); i++) {
            const Fraction *at = ends.data() + 4 * i;
            parts.push_back({edges[i], {at[0], at[1]}, {at[2], at[3]}});
        }
        return parts;
    }

    /* The corners of the kernel, counterclockwise from the least one. */
    std::vector<ExactPoint> kernel() {
        ask(GEO_ASK_KERNEL);
        const std::vector<Fraction> found = fractions();
        std::vector<ExactPoint> corners;
        corners.reserve(found.size() / 2);
        for (std::size_t i = 0; i + 1 < found.size(); i += 2) {
            corners.push_back({found[i], found[i + 1]});
        }
        return corners;
    }

    /* The sides of the relative hull of up to 64 points, sorted by their starts. */
    std::vector<Side> hull(Span<const Point> points) {
        ask(GEO_ASK_HULL, detail::coordinates(points));
        const std::vector<std::uint32_t> found = numbers();
        const std::vector<Point> rows = this->points();
        std::vector<Side> sides;
        sides.reserve(found.size() / 3);
        const Point *at = rows.data();
        for (std::size_t i = 0; i + 2 < found.size(); i += 3) {
            sides.push_back({found[i], found[i + 1], {at, at + found[i + 2]}});
            at += found[i + 2];
        }
        return sides;
    }

    /* The numbers of the points that start a side of the relative hull, in the order in which the sides follow each other. */
    std::vector<std::uint32_t> round(Span<const Point> points) {
        ask(GEO_ASK_ROUND, detail::coordinates(points));
        return numbers();
    }

    /* The numbers of vertices that see everything together, at most a third of them. */
    std::vector<std::uint32_t> guards() {
        ask(GEO_ASK_GUARDS);
        return numbers();
    }

    /* The path between two vertices, in a polygon of at most 1,024. */
    std::vector<Point> pair(std::uint32_t from, std::uint32_t to) {
        ask(GEO_ASK_PAIR, {from, to});
        return points();
    }

    /* The pairs of vertices that see each other, in a polygon of at most 1,024. */
    std::vector<std::pair<std::uint32_t, std::uint32_t>> sights() {
        ask(GEO_ASK_SIGHTS);
        const std::vector<std::uint32_t> found = numbers();
        std::vector<std::pair<std::uint32_t, std::uint32_t>> pairs;
        pairs.reserve(found.size() / 2);
        for (std::size_t i = 0; i + 1 < found.size(); i += 2) {
            pairs.emplace_back(found[i], found[i + 1]);
        }
        return pairs;
    }

    /* Where each of many points lies, in one call: for each the number of a Place, or the status of its refusal. */
    std::vector<std::uint8_t> places(Span<const Point> points) {
        std::vector<std::uint8_t> found(points.size());
        places(points, found);
        return found;
    }

    void places(Span<const Point> points, Span<std::uint8_t> out) noexcept {
        geo_session_places(&held_, detail::pointer(points), points.size(), detail::pointer(out), out.size());
    }

    /* Returns the paths of many pairs of points, ends[0] to ends[1], ends[2] to ends[3] and so on. A refusal is a status among the others.
       Throws std::invalid_argument for an odd number of points. */
    Paths paths(Span<const Point> ends) {
        if (ends.size() % 2 != 0) {
            throw std::invalid_argument("geo: paths takes an even number of points, a start and a goal for each path");
        }
        const std::size_t count = ends.size() / 2;
        Paths found{std::vector<std::uint8_t>(count), std::vector<std::size_t>(count), {}};
        std::size_t used = 0;
        for (std::size_t first = 0, done = 0; first < count; first += done) {
            found.points.resize(used + std::max<std::size_t>(used, 16386)); /* which takes any path */
            detail::check(geo_session_paths(&held_, ends.data() + 2 * first, 2 * (count - first), found.points.data() + used, found.points.size() - used,
                                            found.statuses.data() + first, count - first, found.lengths.data() + first, count - first, &done));
            for (std::size_t k = first; k < first + done; k++) {
                used += found.lengths[k];
            }
        }
        found.points.resize(used);
        return found;
    }

    /* Asks a record in numbers by its word, GEO_ASK_POLYGON and so on. What the reply holds is told by geo.h, and had by the next
       three until another one is asked. A number of 64 bits is two of numbers(), its low half first. */
    GeoCounts ask(std::uint8_t word, Span<const std::int64_t> fields = {}) {
        const std::uint8_t status = geo_session_ask(&held_, word, detail::pointer(fields), fields.size(), &counts_);
        if (status >= GEO_WORD) {
            throw Refusal(kind_of(status), numbers());
        }
        detail::check(status);
        return counts_;
    }

    std::vector<std::uint32_t> numbers() {
        std::vector<std::uint32_t> found(counts_.numbers);
        geo_session_numbers(&held_, detail::pointer(Span<std::uint32_t>(found)), found.size());
        return found;
    }

    std::vector<Point> points() {
        std::vector<Point> found(counts_.points);
        geo_session_points(&held_, detail::pointer(Span<Point>(found)), found.size());
        return found;
    }

    std::vector<Fraction> fractions() {
        std::vector<Fraction> found(counts_.fractions);
        geo_session_fractions(&held_, detail::pointer(Span<Fraction>(found)), found.size());
        return found;
    }

    /* Forgets all, and frees what is held. */
    void clear() noexcept {
        geo_session_clear(&held_);
        text_size_ = 0;
        counts_ = GeoCounts{};
    }

    /* For the calls of geo.h; it stays the session's. */
    GeoSession *handle() noexcept { return &held_; }

private:
    /* The first number of the last reply, which of a number of 64 bits is the low half. That of a count of vertices is all of it. */
    std::uint32_t number() noexcept {
        std::uint32_t found = 0;
        geo_session_numbers(&held_, &found, 1);
        return found;
    }

    /* Asks again where there are more points than room, which stays for the next time. */
    template <class Ask>
    std::vector<Point> grown(Ask ask) {
        room_.resize(std::max<std::size_t>(room_.size(), 64));
        std::size_t count = ask(Span<Point>(room_));
        if (count > room_.size()) {
            room_.resize(count);
            count = ask(Span<Point>(room_));
        }
        return std::vector<Point>(room_.data(), room_.data() + count);
    }

    GeoSession held_{nullptr};
    std::size_t text_size_ = 0;
    GeoCounts counts_{};
    std::vector<Point> room_;
};

} // namespace geo

#endif
