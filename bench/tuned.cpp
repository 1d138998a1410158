// What a run costs by hand: a scan of a METIS graph file that checks numbers, ends, order and mirrors, then breadth-first
// search, least weights by buckets, or components by union-find, and the answers by one write for each 64 KiB. It takes only
// files whose lines ascend and have single blanks, and ends with 3 at any other.
//   tuned bfs|sssp FILE SOURCE
//   tuned components FILE
// And what writing a text a line a system call costs, as `pbgl` does:
//   tuned lines TEXT
#include <cstdint>
#include <cstdio>
#include <cstdlib>
#include <cstring>
#include <string>
#include <unistd.h>
#include <vector>

using Number = std::uint32_t;
using Numbers = std::vector<Number>;

static constexpr Number none = UINT32_MAX;

[[noreturn]] static void refuse(const char *why) {
    std::fprintf(stderr, "%s\n", why);
    std::exit(3);
}

static std::string whole(const char *name) {
    std::FILE *file = std::fopen(name, "rb");
    if (!file) refuse("cannot read");
    std::fseek(file, 0, SEEK_END);
    std::string text(std::ftell(file), '\0');
    std::rewind(file);
    if (std::fread(text.data(), 1, text.size(), file) != text.size()) refuse("cannot read");
    std::fclose(file);
    return text;
}

// The arcs from the vertex v, from 0, are those from bounds[v] on and before bounds[v + 1].
struct Graph {
    Number n = 0;
    Numbers bounds, ends, weights;
    bool weighted = false;
};

struct Scan {
    const char *at;
    const char *end;

    bool digit() const { return at < end && *at >= '0' && *at <= '9'; }

    Number number() {
        std::uint64_t value = 0;
        const char *begin = at;
        for (; digit(); at++) value = value * 10 + (*at - '0');
        if (at == begin || at > begin + 10 || value > UINT32_MAX) refuse("number");
        return value;
    }

    // Whether another word follows in this line, whose end is passed where none does.
    bool more() {
        if (at < end && *at == ' ') at++;
        if (at < end && *at != '\n') return true;
        at += at < end;
        return false;
    }
};

static void read_line(Scan &scan, Graph &graph, Number v) {
    for (Number last = 0; scan.more();) {
        Number to = scan.number();
        if (to <= last || to > graph.n || to == v + 1) refuse("neighbour");
        if (graph.ends.size() == graph.ends.capacity()) refuse("count");
        graph.ends.push_back(to - 1);
        last = to;
        if (!graph.weighted) continue;
        if (!scan.more()) refuse("short line");
        graph.weights.push_back(scan.number());
        if (graph.weights.back() == 0) refuse("weight");
    }
    graph.bounds.push_back(graph.ends.size());
}

static Graph read_graph(const std::string &text) {
    Scan scan{text.data(), text.data() + text.size()};
    Graph graph;
    graph.n = scan.number();
    scan.more();
    std::size_t arcs = 2 * std::size_t(scan.number());
    if (scan.more()) {
        graph.weighted = scan.number() % 10 == 1;
        scan.more();
    }
    graph.bounds.reserve(graph.n + 1);
    graph.bounds.push_back(0);
    graph.ends.reserve(arcs);
    if (graph.weighted) graph.weights.reserve(arcs);
    for (Number v = 0; v < graph.n; v++) read_line(scan, graph, v);
    if (graph.ends.size() != arcs || scan.at < scan.end) refuse("count");
    return graph;
}

// Lines that ascend name the mirrors of each vertex's arcs in the order of these arcs: a cursor for each meets them all.
static void check_mirrors(const Graph &graph) {
    Numbers cursors(graph.bounds.begin(), graph.bounds.end() - 1);
    for (Number u = 0; u < graph.n; u++) {
        for (Number arc = graph.bounds[u]; arc < graph.bounds[u + 1]; arc++) {
            Number v = graph.ends[arc], mirror = cursors[v]++;
            if (mirror == graph.bounds[v + 1] || graph.ends[mirror] != u) refuse("mirror");
            if (graph.weighted && graph.weights[mirror] != graph.weights[arc]) refuse("mirror's weight");
        }
    }
}

static Numbers bfs(const Graph &graph, Number source) {
    Numbers distances(graph.n, none), queue{source};
    queue.reserve(graph.n);
    distances[source] = 0;
    for (std::size_t head = 0; head < queue.size(); head++) {
        Number u = queue[head];
        for (Number arc = graph.bounds[u]; arc < graph.bounds[u + 1]; arc++) {
            Number v = graph.ends[arc];
            if (distances[v] != none) continue;
            distances[v] = distances[u] + 1;
            queue.push_back(v);
        }
    }
    return distances;
}

// Buckets of so many weights each; a vertex that has fallen since it was put there is passed over.
static Numbers sssp(const Graph &graph, Number source) {
    static constexpr Number width = 32;
    struct Entry {
        Number vertex, distance;
    };
    Numbers distances(graph.n, none);
    std::vector<std::vector<Entry>> buckets{{{source, 0}}};
    distances[source] = 0;
    for (std::size_t bucket = 0; bucket < buckets.size(); bucket++) {
        for (std::size_t i = 0; i < buckets[bucket].size(); i++) {
            auto [u, distance] = buckets[bucket][i];
            if (distances[u] != distance) continue;
            for (Number arc = graph.bounds[u]; arc < graph.bounds[u + 1]; arc++) {
                Number v = graph.ends[arc], there = distance + (graph.weighted ? graph.weights[arc] : 1);
                if (there >= distances[v]) continue;
                distances[v] = there;
                if (there / width >= buckets.size()) buckets.resize(there / width + 1);
                buckets[there / width].push_back({v, there});
            }
        }
        buckets[bucket] = {};
    }
    return distances;
}

static Number root(Numbers &parents, Number v) {
    while (parents[v] != v) v = parents[v] = parents[parents[v]];
    return v;
}

// Each vertex's least vertex that a walk joins to it, from 1.
static Numbers components(const Graph &graph) {
    Numbers parents(graph.n);
    for (Number v = 0; v < graph.n; v++) parents[v] = v;
    for (Number u = 0; u < graph.n; u++) {
        for (Number arc = graph.bounds[u]; arc < graph.bounds[u + 1] && graph.ends[arc] < u; arc++) {
            Number a = root(parents, u), b = root(parents, graph.ends[arc]);
            parents[a > b ? a : b] = a > b ? b : a;
        }
    }
    Numbers roots(graph.n);
    for (Number v = 0; v < graph.n; v++) roots[v] = root(parents, v) + 1;
    return roots;
}

static void print(const Numbers &answers) {
    std::string text;
    for (Number answer : answers) {
        text += answer == none ? "-" : std::to_string(answer);
        text += '\n';
        if (text.size() < 65536) continue;
        if (write(1, text.data(), text.size()) < 0) std::exit(6);
        text.clear();
    }
    if (write(1, text.data(), text.size()) < 0) std::exit(6);
}

static void print_lines(const std::string &text) {
    for (std::size_t at = 0, past; at < text.size(); at = past) {
        std::size_t end = text.find('\n', at);
        past = end == std::string::npos ? text.size() : end + 1;
        if (write(1, text.data() + at, past - at) < 0) std::exit(6);
    }
}

int main(int count, char **words) {
    if (count < 3) return 2;
    std::string name = words[1], text = whole(words[2]);
    if (name == "lines") {
        print_lines(text);
        return 0;
    }
    Graph graph = read_graph(text);
    check_mirrors(graph);
    Number source = count > 3 ? std::strtoul(words[3], nullptr, 10) - 1 : 0;
    if (source >= graph.n) return 8;
    print(name == "bfs" ? bfs(graph, source) : name == "sssp" ? sssp(graph, source) : components(graph));
}
