// The maximum flow of Boykov and Kolmogorov, as the Boost Graph Library has it, beside which `flow_planner` is measured where Boost
// is installed. The time is with the building of the network.
//
// It reads the graph of a certificate from the standard input, and prints the value of a greatest flow, which is what
// a cheapest plan costs, and the microseconds that it took.

#include <boost/graph/adjacency_list.hpp>
#include <boost/graph/boykov_kolmogorov_max_flow.hpp>

#include <chrono>
#include <cstdint>
#include <cstdio>
#include <iostream>
#include <limits>
#include <string>
#include <vector>

using Amount = std::int64_t;
constexpr Amount NO_BOUND = std::numeric_limits<Amount>::max() / 4;

using Traits = boost::adjacency_list_traits<boost::vecS, boost::vecS, boost::directedS>;
using Edge = Traits::edge_descriptor;

struct Node {
    Edge predecessor;
    boost::default_color_type color;
    long distance;
};

struct Arc {
    Amount capacity, residual;
    Edge reverse;
};

using Network = boost::adjacency_list<boost::vecS, boost::vecS, boost::directedS, Node, Arc>;

struct Job {
    bool needed;
    Amount load, compute;
    std::vector<int> parents;
};

void join(Network &network, int a, int b, Amount room) {
    Edge there = add_edge(a, b, network).first, back = add_edge(b, a, network).first;
    network[there] = {room, 0, back};
    network[back] = {0, 0, there};
}

Amount greatest(const std::vector<Job> &jobs) {
    int source = int(2 * jobs.size()), sink = source + 1;
    Network network(2 * jobs.size() + 2);
    for (int job = 0; job < int(jobs.size()); job++) {
        const Job &it = jobs[job];
        if (it.needed) join(network, source, 2 * job, NO_BOUND);
        join(network, 2 * job, 2 * job + 1, it.load);
        join(network, 2 * job + 1, sink, it.compute);
        for (int parent : it.parents) join(network, 2 * job + 1, 2 * parent, NO_BOUND);
    }
    return boykov_kolmogorov_max_flow(network, get(&Arc::capacity, network), get(&Arc::residual, network), get(&Arc::reverse, network),
                                      get(&Node::predecessor, network), get(&Node::color, network), get(&Node::distance, network),
                                      get(boost::vertex_index, network), source, sink);
}

int main() {
    std::ios::sync_with_stdio(false);
    std::string word, mark, load;
    int count = 0, parents = 0;
    std::cin >> word >> word >> word >> count;
    std::vector<Job> jobs(count);
    for (Job &job : jobs) {
        Amount skipped = 0;
        std::cin >> mark >> job.needed >> load >> job.compute >> skipped >> skipped >> skipped >> parents;
        job.load = load == "-" ? NO_BOUND : std::stoll(load);
        job.parents.resize(parents);
        for (int &parent : job.parents) std::cin >> parent >> skipped;
    }
    auto started = std::chrono::steady_clock::now();
    Amount value = greatest(jobs);
    auto took = std::chrono::steady_clock::now() - started;
    std::printf("cost %lld\nplan %lld\n", (long long)value, (long long)std::chrono::duration_cast<std::chrono::microseconds>(took).count());
}
