// Reads a METIS graph file in one of three ways and prints how many neighbours it names.
//   read_metis boost FILE     Boost.Graph's own reader (boost/graph/metis.hpp), into a list of edges
//   read_metis stream FILE    a C++ istream, word by word, into a list of arcs
//   read_metis scan FILE      a scan by hand over pieces of 64 KiB, into a list of arcs
#include <boost/config.hpp>
#include <boost/throw_exception.hpp>
#include <boost/graph/metis.hpp>
#include <cstdint>
#include <cstdio>
#include <cstring>
#include <fstream>
#include <iostream>
#include <sstream>
#include <string>
#include <utility>
#include <vector>

struct Arc {
    std::uint32_t from, to, weight;
};

static std::size_t by_boost(const char *name) {
    std::ifstream file(name);
    boost::graph::metis_reader reader(file);
    std::vector<std::pair<std::size_t, std::size_t>> edges;
    std::vector<double> weights;
    edges.reserve(2 * reader.num_edges());
    bool weighted = reader.has_edge_weights();
    auto weight = reader.weight_begin();
    for (auto edge = reader.begin(); edge != reader.end(); ++edge, ++weight) {
        edges.push_back(*edge);
        if (weighted) weights.push_back(*weight);
    }
    return edges.size();
}

static std::size_t by_stream(const char *name) {
    std::ios::sync_with_stdio(false);
    std::ifstream file(name);
    std::string line;
    std::getline(file, line);
    std::istringstream header(line);
    std::uint32_t n = 0, format = 0;
    std::size_t m = 0;
    header >> n >> m >> format;
    std::vector<Arc> arcs;
    arcs.reserve(2 * m);
    for (std::uint32_t v = 1; v <= n && std::getline(file, line); v++) {
        std::istringstream words(line);
        std::uint32_t to, weight = 1;
        while (words >> to) {
            if (format % 10 == 1) words >> weight;
            arcs.push_back({v, to, weight});
        }
    }
    return arcs.size();
}

static std::size_t by_scan(const char *name) {
    std::FILE *file = std::fopen(name, "rb");
    if (!file) return 0;
    char line[4096];
    if (!std::fgets(line, sizeof line, file)) return 0;
    unsigned n = 0, format = 0;
    std::size_t m = 0;
    std::sscanf(line, "%u %zu %u", &n, &m, &format);
    std::vector<Arc> arcs;
    arcs.reserve(2 * m);
    std::vector<char> piece(65536);
    std::uint32_t v = 1, number = 0, to = 0;
    bool digits = false, weight_next = false;
    for (std::size_t got; (got = std::fread(piece.data(), 1, piece.size(), file)) > 0;) {
        for (std::size_t i = 0; i < got; i++) {
            char c = piece[i];
            if (c >= '0' && c <= '9') {
                number = number * 10 + (c - '0');
                digits = true;
                continue;
            }
            if (digits) {
                if (format % 10 != 1) arcs.push_back({v, number, 1});
                else if (!weight_next) to = number;
                else arcs.push_back({v, to, number});
                weight_next = format % 10 == 1 && !weight_next;
                number = 0;
                digits = false;
            }
            if (c == '\n') v++;
        }
    }
    std::fclose(file);
    return arcs.size();
}

int main(int count, char **words) {
    if (count != 3) return 2;
    std::size_t arcs = !std::strcmp(words[1], "boost")    ? by_boost(words[2])
                       : !std::strcmp(words[1], "stream") ? by_stream(words[2])
                                                          : by_scan(words[2]);
    std::printf("%zu\n", arcs);
}
