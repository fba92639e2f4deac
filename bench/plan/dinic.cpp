// A plain maximum flow by level graphs (Dinic), beside which `flow_planner` is measured.
//
// It reads the graph of a certificate from the standard input, and prints the value of a greatest flow, which is what
// a cheapest plan costs, and the microseconds that it took. Each job is two nodes: a needed job's first node hangs on
// the source, the load cost bounds what goes to its second node, the compute cost what goes from there to the sink,
// and without bound a job's second node leads to the first node of each parent.

#include <algorithm>
#include <chrono>
#include <cstdint>
#include <cstdio>
#include <iostream>
#include <limits>
#include <string>
#include <vector>

using Amount = std::uint64_t;
constexpr Amount NO_BOUND = std::numeric_limits<Amount>::max() / 4;

struct Arc {
    int to;
    Amount room;
};

struct Network {
    std::vector<Arc> arcs;  // each beside its reverse
    std::vector<std::vector<int>> from;
    std::vector<int> level;
    std::vector<std::size_t> next;

    explicit Network(int nodes) : from(nodes), level(nodes), next(nodes) {}

    void join(int a, int b, Amount room) {
        from[a].push_back(int(arcs.size()));
        arcs.push_back({b, room});
        from[b].push_back(int(arcs.size()));
        arcs.push_back({a, 0});
    }

    // The least number of open arcs from the source to each node; whether the sink is reached.
    bool build_levels(int source, int sink) {
        level.assign(level.size(), -1);
        std::vector<int> queue{source};
        level[source] = 0;
        for (std::size_t i = 0; i < queue.size(); i++) {
            for (int arc : from[queue[i]]) {
                int to = arcs[arc].to;
                if (arcs[arc].room > 0 && level[to] < 0) {
                    level[to] = level[queue[i]] + 1;
                    queue.push_back(to);
                }
            }
        }
        return level[sink] >= 0;
    }

    // Sends a path's worth down the level graph, by a stack of arcs in place of a recursion.
    Amount send(int source, int sink) {
        std::vector<int> path;
        int node = source;
        while (node != sink) {
            bool stuck = true;
            for (std::size_t &i = next[node]; i < from[node].size(); i++) {
                const Arc &arc = arcs[from[node][i]];
                if (arc.room > 0 && level[arc.to] == level[node] + 1) {
                    path.push_back(from[node][i]);
                    node = arc.to;
                    stuck = false;
                    break;
                }
            }
            if (stuck) {
                if (path.empty()) return 0;
                node = arcs[path.back() ^ 1].to;
                path.pop_back();
                next[node]++;
            }
        }
        Amount most = NO_BOUND;
        for (int arc : path) most = std::min(most, arcs[arc].room);
        for (int arc : path) {
            arcs[arc].room -= most;
            arcs[arc ^ 1].room += most;
        }
        return most;
    }

    Amount greatest(int source, int sink) {
        Amount value = 0;
        while (build_levels(source, sink)) {
            next.assign(next.size(), 0);
            while (Amount sent = send(source, sink)) value += sent;
        }
        return value;
    }
};

int main() {
    std::string word, mark, load;
    int jobs = 0, count = 0;
    std::cin >> word >> word >> word >> jobs;
    int source = 2 * jobs, sink = 2 * jobs + 1;
    Network network(2 * jobs + 2);
    for (int job = 0; job < jobs; job++) {
        Amount needed = 0, compute = 0, skipped = 0;
        std::cin >> mark >> needed >> load >> compute >> skipped >> skipped >> skipped >> count;
        if (needed) network.join(source, 2 * job, NO_BOUND);
        network.join(2 * job, 2 * job + 1, load == "-" ? NO_BOUND : std::stoull(load));
        network.join(2 * job + 1, sink, compute);
        for (int i = 0; i < count; i++) {
            int parent = 0;
            std::cin >> parent >> skipped;
            network.join(2 * job + 1, 2 * parent, NO_BOUND);
        }
    }
    auto started = std::chrono::steady_clock::now();
    Amount value = network.greatest(source, sink);
    auto took = std::chrono::steady_clock::now() - started;
    std::printf("cost %llu\nplan %lld\n", (unsigned long long)value,
                (long long)std::chrono::duration_cast<std::chrono::microseconds>(took).count());
}
