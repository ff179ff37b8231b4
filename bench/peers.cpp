// Measures the libraries that others wrote, on the same questions: LEMON's Edmonds-Karp and
// Preflow on the split graph, and igraph's vertex-disjoint paths.
//
// Each query builds its graph from the table, as a user of these libraries would. They compute
// disjoint paths (igraph only their number); no log, no cut list, no refusals.

#include <igraph/igraph.h>
// LEMON's graph comes before its algorithms, which do not include it themselves.
#include <lemon/smart_graph.h>

#include <lemon/edmonds_karp.h>
#include <lemon/maps.h>
#include <lemon/preflow.h>

#include <algorithm>
#include <chrono>
#include <cstdint>
#include <cstdio>
#include <cstdlib>
#include <cstring>
#include <string>
#include <vector>

namespace {

using Clock = std::chrono::steady_clock;
using Graph = lemon::SmartDigraph;

// A pass is at least this many queries, so that reading the clock costs nothing.
constexpr std::size_t kFewestQueriesAPass = 1000;

struct Question {
    int radios, source, destination, wanted;
    std::vector<std::uint8_t> table;

    bool linked(int one, int other) const {
        return one != other && table[one * radios + other] == 1;
    }

    // Neither S nor T, and a handheld, which passes nothing on: no path leads over it.
    bool is_dead_end(int radio) const {
        return radio != source && radio != destination && table[radio * radios + radio] == 1;
    }
};

using Path = std::vector<int>;

// Document 01's halves and steps as a directed graph.
struct SplitGraph {
    Graph graph;
    std::vector<Graph::Node> in_half, out_half;

    explicit SplitGraph(const Question &question)
        : in_half(question.radios), out_half(question.radios) {
        for (int radio = 0; radio < question.radios; radio++) {
            if (radio != question.source) in_half[radio] = graph.addNode();
            if (radio != question.destination) out_half[radio] = graph.addNode();
        }
        for (int from = 0; from < question.radios; from++) {
            if (from == question.destination) continue;
            if (from != question.source && !question.is_dead_end(from))
                graph.addArc(in_half[from], out_half[from]);
            for (int to = 0; to < question.radios; to++) {
                if (to != question.source && question.linked(from, to))
                    graph.addArc(out_half[from], in_half[to]);
            }
        }
    }
};

// Follows the flow from S to T, one path for each arc of S that carries some.
template <typename Flow>
std::vector<Path> paths_of(const Question &question, const SplitGraph &split, const Flow &flow) {
    std::vector<int> radio_of(split.graph.nodeNum() + 1);
    for (int radio = 0; radio < question.radios; radio++) {
        if (radio != question.source) radio_of[split.graph.id(split.in_half[radio])] = radio;
    }
    std::vector<Path> paths;
    for (Graph::OutArcIt first(split.graph, split.out_half[question.source]);
         first != lemon::INVALID; ++first) {
        if (flow.flow(first) == 0) continue;
        Path path{question.source};
        Graph::Arc arc = first;
        while (true) {
            int radio = radio_of[split.graph.id(split.graph.target(arc))];
            path.push_back(radio);
            if (radio == question.destination) break;
            Graph::OutArcIt next(split.graph, split.out_half[radio]);
            while (flow.flow(next) == 0) ++next;
            arc = next;
        }
        paths.push_back(path);
    }
    return paths;
}

}  // namespace

// Plain names without inlining, so that their instructions can be counted.
extern "C" {

__attribute__((noinline)) std::size_t query_edmonds_karp(const Question &question) {
    SplitGraph split(question);
    lemon::ConstMap<Graph::Arc, int> room(1);
    lemon::EdmondsKarp<Graph, lemon::ConstMap<Graph::Arc, int>> flow(
        split.graph, room, split.out_half[question.source], split.in_half[question.destination]);
    flow.init();
    int found = 0;
    while (found < question.wanted && flow.augment()) found++;
    return paths_of(question, split, flow).size();
}

// An arc with room k in front of S keeps it to k paths.
__attribute__((noinline)) std::size_t query_preflow(const Question &question) {
    SplitGraph split(question);
    Graph::Node start = split.graph.addNode();
    Graph::Arc first = split.graph.addArc(start, split.out_half[question.source]);
    Graph::ArcMap<int> room(split.graph, 1);
    room[first] = question.wanted;
    lemon::Preflow<Graph> flow(split.graph, room, start, split.in_half[question.destination]);
    flow.run();
    return paths_of(question, split, flow).size();
}

__attribute__((noinline)) std::size_t query_igraph(const Question &question) {
    igraph_vector_int_t ends;
    igraph_vector_int_init(&ends, 0);
    for (int upper = 0; upper < question.radios; upper++) {
        for (int lower = 0; lower < upper; lower++) {
            if (!question.linked(lower, upper)) continue;
            if (question.is_dead_end(lower) || question.is_dead_end(upper)) continue;
            igraph_vector_int_push_back(&ends, lower);
            igraph_vector_int_push_back(&ends, upper);
        }
    }
    igraph_t graph;
    igraph_create(&graph, &ends, question.radios, IGRAPH_UNDIRECTED);
    igraph_integer_t all = 0;
    igraph_vertex_disjoint_paths(&graph, &all, question.source, question.destination);
    igraph_destroy(&graph);
    igraph_vector_int_destroy(&ends);
    return std::min<std::size_t>(all, question.wanted);
}
}

namespace {

std::vector<Question> read_questions(const char *name) {
    std::FILE *file = std::fopen(name, "rb");
    if (file == nullptr) {
        std::fprintf(stderr, "peers: %s cannot be opened\n", name);
        std::exit(1);
    }
    std::vector<Question> questions;
    std::uint8_t numbers[4];
    while (std::fread(numbers, 1, 4, file) == 4) {
        Question question{numbers[0], numbers[1], numbers[2], numbers[3], {}};
        question.table.resize(numbers[0] * numbers[0]);
        if (std::fread(question.table.data(), 1, question.table.size(), file) !=
            question.table.size()) {
            std::fprintf(stderr, "peers: %s ends inside a table\n", name);
            std::exit(1);
        }
        questions.push_back(question);
    }
    std::fclose(file);
    return questions;
}

using Query = std::size_t (*)(const Question &);

std::size_t ask_all(Query query, const std::vector<Question> &questions, std::size_t count) {
    std::size_t paths = 0;
    for (std::size_t place = 0; place < count; place++)
        paths += query(questions[place % questions.size()]);
    return paths;
}

// Nanoseconds per query in the best pass, and all paths found.
void measure(Query query, const std::vector<Question> &questions, double milliseconds) {
    std::size_t repeats = (kFewestQueriesAPass + questions.size() - 1) / questions.size();
    std::size_t paths = 0;
    double best = -1;
    Clock::time_point started = Clock::now();
    while (best < 0 || std::chrono::duration<double, std::milli>(Clock::now() - started).count() <
                           milliseconds) {
        Clock::time_point pass = Clock::now();
        for (std::size_t repeat = 0; repeat < repeats; repeat++)
            paths = ask_all(query, questions, questions.size());
        double took = std::chrono::duration<double, std::nano>(Clock::now() - pass).count();
        if (best < 0 || took < best) best = took;
    }
    std::printf("%.0f %zu\n", best / static_cast<double>(repeats * questions.size()), paths);
}

Query query_named(const std::string &name) {
    if (name == "edmonds_karp") return query_edmonds_karp;
    if (name == "preflow") return query_preflow;
    if (name == "igraph") return query_igraph;
    return nullptr;
}

}  // namespace

int main(int count, char **words) {
    Query query = count == 5 ? query_named(words[1]) : nullptr;
    if (query == nullptr) {
        std::fprintf(stderr, "usage: peers edmonds_karp|preflow|igraph time FILE MILLISECONDS\n"
                             "       peers edmonds_karp|preflow|igraph once FILE COUNT\n");
        return 2;
    }
    std::vector<Question> questions = read_questions(words[3]);
    if (questions.empty()) {
        std::fprintf(stderr, "peers: %s holds no question\n", words[3]);
        return 1;
    }
    if (std::strcmp(words[2], "time") == 0) {
        measure(query, questions, std::atof(words[4]));
    } else {
        std::printf("%zu\n", ask_all(query, questions, std::strtoul(words[4], nullptr, 10)));
    }
    return 0;
}
