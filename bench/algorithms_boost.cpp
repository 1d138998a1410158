// Boost.Graph's breadth-first search, Dijkstra, connected components, least spanning forests and sequential colouring on a
// METIS graph file, printed as pbgl prints them: one line a vertex, one system call a line; of a forest the last line alone,
// since edges of equal weight may be chosen in more than one way. Prim's algorithm grows one tree from vertex 1, so its total
// is that of the first vertex's component. The milliseconds of reading the file, of building the graph and of running the
// algorithm go to standard error.
//   algorithms_boost bfs|sssp FILE SOURCE
//   algorithms_boost components|kruskal|prim|colour FILE
#include <boost/graph/breadth_first_search.hpp>
#include <boost/graph/compressed_sparse_row_graph.hpp>
#include <boost/graph/connected_components.hpp>
#include <boost/graph/dijkstra_shortest_paths.hpp>
#include <boost/graph/kruskal_min_spanning_tree.hpp>
#include <boost/graph/prim_minimum_spanning_tree.hpp>
#include <boost/graph/sequential_vertex_coloring.hpp>
#include <chrono>
#include <cstdint>
#include <cstdio>
#include <cstdlib>
#include <cstring>
#include <fstream>
#include <string>
#include <unistd.h>
#include <utility>
#include <vector>

struct Cost {
    std::uint32_t weight;
};

// Each edge is two arcs, so these hold an undirected graph.
using Graph = boost::compressed_sparse_row_graph<boost::directedS>;
using WeightedGraph = boost::compressed_sparse_row_graph<boost::directedS, boost::no_property, Cost>;
using Numbers = std::vector<std::uint64_t>;

static constexpr std::uint64_t none = UINT64_MAX;

// The arcs of a file, ascending by the vertex they lead from; the weights only where they are wanted.
struct Arcs {
    std::uint32_t n = 0;
    std::vector<std::pair<std::uint32_t, std::uint32_t>> ends;
    std::vector<Cost> costs;
};

enum class Directions { Both, Up };

static Arcs read_arcs(const char *name, bool with_costs, Directions directions) {
    std::ifstream file(name);
    std::string line;
    std::getline(file, line);
    char *at = line.data();
    Arcs arcs;
    arcs.n = std::strtoul(at, &at, 10);
    std::size_t m = std::strtoul(at, &at, 10);
    bool weighted = std::strtoul(at, &at, 10) % 10 == 1;
    arcs.ends.reserve(2 * m);
    if (with_costs) arcs.costs.reserve(2 * m);
    for (std::uint32_t u = 0; u < arcs.n && std::getline(file, line); u++) {
        char *end = line.data();
        for (;;) {
            char *begin = end;
            std::uint32_t v = std::strtoul(begin, &end, 10);
            if (end == begin) break;
            std::uint32_t weight = weighted ? std::strtoul(end, &end, 10) : 1;
            if (directions == Directions::Up && v <= u + 1) continue;
            arcs.ends.emplace_back(u, v - 1);
            if (with_costs) arcs.costs.push_back({weight});
        }
    }
    return arcs;
}

static Numbers bfs(const Graph &graph, std::uint32_t source) {
    Numbers distances(num_vertices(graph), none);
    distances[source] = 0;
    auto record = boost::record_distances(distances.data(), boost::on_tree_edge());
    boost::breadth_first_search(graph, source, boost::visitor(boost::make_bfs_visitor(record)));
    return distances;
}

static Numbers sssp(const WeightedGraph &graph, std::uint32_t source) {
    Numbers distances(num_vertices(graph));
    boost::dijkstra_shortest_paths(graph, source,
                                   boost::weight_map(get(&Cost::weight, graph))
                                       .distance_map(boost::make_iterator_property_map(
                                           distances.begin(), get(boost::vertex_index, graph)))
                                       .distance_inf(none)
                                       .distance_zero(std::uint64_t(0)));
    return distances;
}

// The search begins components in ascending order, so the first vertex of each is its least.
static Numbers components(const Graph &graph) {
    std::vector<std::uint32_t> component(num_vertices(graph));
    std::size_t count = boost::connected_components(
        graph, boost::make_iterator_property_map(component.begin(), get(boost::vertex_index, graph)));
    Numbers least(count, none), answers(component.size());
    for (std::size_t v = 0; v < component.size(); v++) {
        std::uint64_t &first = least[component[v]];
        if (first == none) first = v + 1;
        answers[v] = first;
    }
    return answers;
}

// Each edge is one arc here.
static std::uint64_t kruskal(const WeightedGraph &graph) {
    std::vector<WeightedGraph::edge_descriptor> tree;
    tree.reserve(num_vertices(graph));
    boost::kruskal_minimum_spanning_tree(graph, std::back_inserter(tree),
                                         boost::weight_map(get(&Cost::weight, graph)));
    std::uint64_t total = 0;
    for (auto edge : tree) total += graph[edge].weight;
    return total;
}

static std::uint64_t prim(const WeightedGraph &graph) {
    Numbers parents(num_vertices(graph)), nearest(num_vertices(graph));
    auto index = get(boost::vertex_index, graph);
    boost::prim_minimum_spanning_tree(graph, boost::make_iterator_property_map(parents.begin(), index),
                                      boost::root_vertex(0)
                                          .weight_map(get(&Cost::weight, graph))
                                          .distance_map(boost::make_iterator_property_map(nearest.begin(), index)));
    std::uint64_t total = 0;
    for (std::size_t v = 0; v < parents.size(); v++)
        if (parents[v] != v) total += nearest[v];
    return total;
}

static Numbers colour(const Graph &graph) {
    Numbers colours(num_vertices(graph));
    boost::sequential_vertex_coloring(
        graph, boost::make_iterator_property_map(colours.begin(), get(boost::vertex_index, graph)));
    return colours;
}

static bool print(const std::string &text) {
    return write(1, text.data(), text.size()) >= 0;
}

static bool print(const Numbers &answers) {
    for (std::uint64_t answer : answers) {
        if (!print(answer == none ? "-\n" : std::to_string(answer) + "\n")) return false;
    }
    return true;
}

static long since(std::chrono::steady_clock::time_point &mark) {
    auto before = mark;
    mark = std::chrono::steady_clock::now();
    return std::chrono::duration_cast<std::chrono::milliseconds>(mark - before).count();
}

static WeightedGraph weighted_graph(const Arcs &arcs) {
    return WeightedGraph(boost::edges_are_sorted, arcs.ends.begin(), arcs.ends.end(), arcs.costs.begin(), arcs.n);
}

// The milliseconds of a run's phases.
struct Phases {
    long reading = 0, building = 0, running = 0;
};

static Phases phases;

template <class G, class Algorithm>
static auto timed(const G &graph, Algorithm algorithm, std::chrono::steady_clock::time_point &mark) {
    phases.building = since(mark);
    auto answer = algorithm(graph);
    phases.running = since(mark);
    std::fprintf(stderr, "%ld ms reading, %ld ms building, %ld ms running\n", phases.reading, phases.building,
                 phases.running);
    return answer;
}

int main(int count, char **words) {
    std::string algorithm = count > 1 ? words[1] : "";
    bool sourced = algorithm == "bfs" || algorithm == "sssp";
    bool spans = algorithm == "kruskal" || algorithm == "prim";
    if (count != (sourced ? 4 : 3) || !(sourced || spans || algorithm == "components" || algorithm == "colour")) {
        std::fprintf(stderr, "algorithms_boost bfs|sssp FILE SOURCE | algorithms_boost components|kruskal|prim|colour FILE\n");
        return 2;
    }
    std::uint32_t source = sourced ? std::atoi(words[3]) - 1 : 0;
    auto mark = std::chrono::steady_clock::now();
    Arcs arcs = read_arcs(words[2], spans || algorithm == "sssp", algorithm == "kruskal" ? Directions::Up : Directions::Both);
    phases.reading = since(mark);
    bool written;
    if (spans) {
        std::uint64_t total = timed(weighted_graph(arcs), algorithm == "prim" ? prim : kruskal, mark);
        written = print("total " + std::to_string(total) + "\n");
    } else if (algorithm == "sssp") {
        written = print(timed(weighted_graph(arcs), [&](auto &graph) { return sssp(graph, source); }, mark));
    } else {
        Graph graph(boost::edges_are_sorted, arcs.ends.begin(), arcs.ends.end(), arcs.n);
        auto search = [&](auto &graph) {
            return sourced ? bfs(graph, source) : algorithm == "colour" ? colour(graph) : components(graph);
        };
        written = print(timed(graph, search, mark));
    }
    return written ? 0 : 1;
}
