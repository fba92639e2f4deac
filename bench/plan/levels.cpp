// A careful maximum flow by level graphs, beside which `flow_planner` is measured: arcs in one vector, each beside its
// reverse, listed by node in one more; levels from the source, as far as the sink; paths from the sink back, with
// current arcs; a path is kept up to its first full arc. The time is with the building of the network.
//
// It reads the graph of a certificate from the standard input, and prints the value of a greatest flow, which is what
// a cheapest plan costs, and the microseconds that it took.

#include <algorithm>
#include <chrono>
#include <cstdint>
#include <cstdio>
#include <iostream>
#include <limits>
#include <string>
#include <vector>

using Amount = std::uint64_t;
constexpr Amount NO_BOUND = std::numeric_limits<Amount>::max() / 4;

struct Job {
    bool needed;
    Amount load, compute;
    std::vector<int> parents;
};

struct Arc {
    int to, next;
    Amount room;
};

struct Network {
    std::vector<Arc> arcs;
    std::vector<int> first, level, current, queue, path;
    int source, sink;

    explicit Network(const std::vector<Job> &jobs)
        : first(2 * jobs.size() + 2, -1), level(first.size()), source(int(2 * jobs.size())), sink(source + 1) {
        arcs.reserve(8 * jobs.size());
        for (int job = 0; job < int(jobs.size()); job++) {
            const Job &it = jobs[job];
            if (it.needed) join(source, 2 * job, NO_BOUND);
            join(2 * job, 2 * job + 1, it.load);
            join(2 * job + 1, sink, it.compute);
            for (int parent : it.parents) join(2 * job + 1, 2 * parent, NO_BOUND);
        }
    }

    void join(int a, int b, Amount room) {
        arcs.push_back({b, first[a], room});
        first[a] = int(arcs.size()) - 1;
        arcs.push_back({a, first[b], 0});
        first[b] = int(arcs.size()) - 1;
    }

    // How many open arcs lead from the source to each node, as far as the sink.
    bool build_levels() {
        std::fill(level.begin(), level.end(), -1);
        queue.assign(1, source);
        level[source] = 0;
        for (std::size_t i = 0; i < queue.size(); i++) {
            int node = queue[i];
            if (level[sink] >= 0 && level[node] >= level[sink]) break;
            for (int e = first[node]; e >= 0; e = arcs[e].next) {
                int to = arcs[e].to;
                if (level[to] < 0 && arcs[e].room > 0) {
                    level[to] = level[node] + 1;
                    queue.push_back(to);
                }
            }
        }
        return level[sink] >= 0;
    }

    Amount block() {
        Amount value = 0;
        current = first;
        path.clear();
        int node = sink;
        while (true) {
            if (node == source) {
                std::size_t full = 0;
                Amount most = NO_BOUND;
                for (std::size_t i = 0; i < path.size(); i++)
                    if (arcs[path[i] ^ 1].room < most) most = arcs[path[i] ^ 1].room, full = i;
                for (int e : path) arcs[e ^ 1].room -= most, arcs[e].room += most;
                value += most;
                node = arcs[path[full] ^ 1].to;
                path.resize(full);
                continue;
            }
            int &e = current[node];
            while (e >= 0 && !(arcs[e ^ 1].room > 0 && level[arcs[e].to] >= 0 && level[arcs[e].to] == level[node] - 1)) e = arcs[e].next;
            if (e >= 0) {
                path.push_back(e);
                node = arcs[e].to;
            } else if (path.empty()) {
                return value;
            } else {
                node = arcs[path.back() ^ 1].to;
                path.pop_back();
                current[node] = arcs[current[node]].next;
            }
        }
    }
};

int main() {
    std::ios::sync_with_stdio(false);
    std::string word, mark, load;
    int count = 0, parents = 0;
    std::cin >> word >> word >> word >> count;
    std::vector<Job> jobs(count);
    for (Job &job : jobs) {
        Amount skipped = 0;
        std::cin >> mark >> job.needed >> load >> job.compute >> skipped >> skipped >> skipped >> parents;
        job.load = load == "-" ? NO_BOUND : std::stoull(load);
        job.parents.resize(parents);
        for (int &parent : job.parents) std::cin >> parent >> skipped;
    }
    auto started = std::chrono::steady_clock::now();
    Network network(jobs);
    Amount value = 0;
    while (network.build_levels()) value += network.block();
    auto took = std::chrono::steady_clock::now() - started;
    std::printf("cost %llu\nplan %lld\n", (unsigned long long)value,
                (long long)std::chrono::duration_cast<std::chrono::microseconds>(took).count());
}
