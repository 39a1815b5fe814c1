// The sum of the distances of all pairs by the Boost Graph Library, to compare times with: a breadth-first search from
// each node where all weights are one, and else Dijkstra's. Built by `g++ -O3 -DNDEBUG`; it takes a weighted edge list
// whose lines have two names and a weight, and is no part of the gate.
#include <boost/graph/breadth_first_search.hpp>
#include <boost/graph/compressed_sparse_row_graph.hpp>
#include <boost/graph/dijkstra_shortest_paths.hpp>
#include <cstdint>
#include <fstream>
#include <iostream>
#include <sstream>
#include <string>
#include <unordered_map>
#include <utility>
#include <vector>

struct Weight {
    std::uint32_t weight;
};
using Graph = boost::compressed_sparse_row_graph<boost::directedS, boost::no_property, Weight>;

int main(int count, char **words) {
    std::ifstream file(count == 2 ? words[1] : "");
    if (!file) {
        std::cerr << "distances FILE\n";
        return 2;
    }
    std::unordered_map<std::string, std::uint32_t> numbers;
    std::vector<std::pair<std::uint32_t, std::uint32_t>> arcs;
    std::vector<Weight> weights;
    bool units = true;
    for (std::string line; std::getline(file, line);) {
        std::istringstream parts(line.substr(0, line.find('#')));
        std::string u, v;
        std::uint32_t weight;
        if (!(parts >> u >> v >> weight)) continue;
        auto a = numbers.emplace(u, numbers.size()).first->second;
        auto b = numbers.emplace(v, numbers.size()).first->second;
        arcs.emplace_back(a, b);
        arcs.emplace_back(b, a);
        weights.push_back({weight});
        weights.push_back({weight});
        units = units && weight == 1;
    }
    const std::size_t nodes = numbers.size();
    const Graph graph(boost::edges_are_unsorted_multi_pass, arcs.begin(), arcs.end(), weights.begin(), nodes);
    std::vector<std::uint32_t> found(nodes);
    std::uint64_t sum = 0;
    for (std::size_t from = 0; from < nodes; ++from) {
        auto distances = boost::make_iterator_property_map(found.begin(), boost::get(boost::vertex_index, graph));
        if (units) {
            found[from] = 0;
            auto recorder = boost::record_distances(distances, boost::on_tree_edge());
            boost::breadth_first_search(graph, from, boost::visitor(boost::make_bfs_visitor(recorder)));
        } else {
            auto weight = boost::get(&Weight::weight, graph);
            boost::dijkstra_shortest_paths(graph, from, boost::distance_map(distances).weight_map(weight));
        }
        for (auto distance : found) sum += distance;
    }
    std::cout << sum << "\n";
}
