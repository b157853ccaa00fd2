// Solves the fits of a release by LEMON's network simplex, which knows arcs of constant cost alone.
//
// So each arc with a convex cost becomes one arc for each person within a window about an answer that is known: the
// tables of the release. A user without an answer would have to guess. Costs are convex, so where the least cost within
// the window is that of the tables, they are least of all.
//
// usage: peer FOLDER WINDOW ARCS
// The folder holds `schema.txt` (made by peer.py), and the spine, facilities, totals, measurements and tables of the
// release. Fits of more than so many arcs are left out. Prints one line; the status is 1 where a fit has another least
// cost than its tables have.
#include <lemon/network_simplex.h>
#include <lemon/smart_graph.h>

#include <algorithm>
#include <cstdint>
#include <ctime>
#include <fstream>
#include <iostream>
#include <sstream>
#include <stdexcept>
#include <string>
#include <unordered_map>
#include <vector>

using Number = std::int64_t;
using Large = __int128;
using Names = std::unordered_map<std::string, int>;

constexpr Number kPersons = Number(1) << 30;
constexpr int kHub = -1;

struct Query {
    std::string name;
    Number weight;
    std::vector<int> groups;  // of each class
};

struct Level {
    std::string name;
    std::vector<int> larger;       // the next larger group of each group, or the hub
    std::vector<int> kind_groups;  // of each kind
    std::vector<int> smallest;     // the smallest group of each possible cell
    std::vector<Query> queries;
};

struct Schema {
    int kinds;
    Names kind_numbers;
    std::vector<int> possible, kind_of;  // the number and the kind of each possible cell
    std::vector<Level> levels;
};

struct Unit {
    std::string code;
    int level, parent;
    std::vector<int> children;
    std::vector<Number> facilities;    // of each kind
    std::vector<Number> measurements;  // in the order of places
    std::vector<Number> counts;        // of each possible cell
    Number total = -1;                 // of a state
};

// A flow from `low` to `high` costs weight * flow^2 - 2 * pull * flow.
struct Arc {
    int from, to;
    Number low, high, flow;
    Number weight = 0, pull = 0;
};

struct Fit {
    std::string name;
    std::vector<Number> supply;  // what each node sends out
    std::vector<Arc> arcs;
    Large constant = 0;

    void send(int from, int to, Number flow) {
        supply[from] += flow;
        supply[to] -= flow;
    }
};

// ---- reading ----

std::vector<int> read_numbers(std::istream& in, int count) {
    std::vector<int> numbers(count);
    for (int& number : numbers) in >> number;
    return numbers;
}

Schema read_schema(const std::string& path) {
    std::ifstream in(path);
    int cells, levels;
    Schema schema;
    std::string kind;
    in >> cells >> schema.kinds >> levels;
    for (int k = 0; k < schema.kinds && in >> kind; ++k) schema.kind_numbers.emplace(kind, k);
    schema.possible = read_numbers(in, cells);
    schema.kind_of = read_numbers(in, cells);
    for (int l = 0; l < levels; ++l) {
        Level level;
        int groups, queries;
        in >> level.name >> groups >> queries;
        level.larger = read_numbers(in, groups);
        level.kind_groups = read_numbers(in, schema.kinds);
        level.smallest = read_numbers(in, cells);
        for (int q = 0; q < queries; ++q) {
            Query query;
            int classes;
            in >> query.name >> query.weight >> classes;
            query.groups = read_numbers(in, classes);
            level.queries.push_back(query);
        }
        schema.levels.push_back(level);
    }
    if (!in) throw std::runtime_error(path);
    return schema;
}

// The fields of each row after the header are handed on.
template <class Take>
void read_rows(const std::string& path, Take take) {
    std::ifstream in(path);
    std::string line;
    if (!std::getline(in, line)) throw std::runtime_error(path);
    std::vector<std::string> fields;
    while (std::getline(in, line)) {
        fields.clear();
        std::size_t begin = 0, end;
        while ((end = line.find(',', begin)) != std::string::npos) {
            fields.emplace_back(line, begin, end - begin);
            begin = end + 1;
        }
        fields.emplace_back(line, begin);
        take(fields);
    }
}

std::vector<Unit> read_units(const Schema& schema, const std::string& folder, Names& units) {
    std::vector<Unit> all;
    Names levels;
    std::vector<std::string> parents;
    for (const Level& level : schema.levels) levels.emplace(level.name, int(levels.size()));
    read_rows(folder + "/spine.csv", [&](const auto& row) {
        units.emplace(row[0], int(all.size()));
        Unit unit{row[0], levels.at(row[1]), kHub, {}, {}, {}, {}};
        unit.facilities.assign(schema.kinds, 0);
        unit.counts.assign(schema.possible.size(), 0);
        all.push_back(unit);
        parents.push_back(row[2]);
    });
    for (std::size_t u = 0; u < all.size(); ++u) {
        if (parents[u].empty()) continue;
        all[u].parent = units.at(parents[u]);
        all[all[u].parent].children.push_back(int(u));
    }
    return all;
}

std::size_t places_of(const Level& level) {
    std::size_t places = 0;
    for (const Query& query : level.queries) places += query.groups.size();
    return places;
}

std::vector<Unit> read_release(const Schema& schema, const std::string& folder) {
    Names units, slots;
    std::vector<Unit> all = read_units(schema, folder, units);
    for (std::size_t j = 0; j < schema.possible.size(); ++j) slots.emplace(std::to_string(schema.possible[j]), int(j));
    read_rows(folder + "/facilities.csv", [&](const auto& row) {
        const int kind = schema.kind_numbers.at(row[1]);
        for (int u = units.at(row[0]); u != kHub; u = all[u].parent) all[u].facilities[kind] += std::stoll(row[2]);
    });
    read_rows(folder + "/totals.csv", [&](const auto& row) { all[units.at(row[0])].total = std::stoll(row[1]); });
    read_rows(folder + "/measurements.csv",
              [&](const auto& row) { all[units.at(row[0])].measurements.push_back(std::stoll(row[3])); });
    read_rows(folder + "/tables.csv",
              [&](const auto& row) { all[units.at(row[0])].counts[slots.at(row[1])] = std::stoll(row[2]); });
    for (const Unit& unit : all) {
        if (unit.measurements.size() != places_of(schema.levels[unit.level])) throw std::runtime_error(unit.code);
    }
    return all;
}

// ---- fits ----

// The arcs of a unit's groups, whose nodes begin at `base`. A group that isn't the last one sends its persons on.
void push_groups(const Schema& schema, const Unit& unit, int base, bool bounded, Fit& fit) {
    const Level& level = schema.levels[unit.level];
    const std::size_t first = fit.arcs.size();
    for (std::size_t g = 0; g < level.larger.size(); ++g) {
        const int to = level.larger[g] == kHub ? 0 : base + level.larger[g];
        fit.arcs.push_back({base + int(g), to, 0, kPersons, 0});
    }
    for (std::size_t j = 0; j < unit.counts.size(); ++j) {
        for (int g = level.smallest[j]; g != kHub; g = level.larger[g]) fit.arcs[first + g].flow += unit.counts[j];
    }
    for (int k = 0; bounded && k < schema.kinds; ++k) {
        Arc& arc = fit.arcs[first + level.kind_groups[k]];
        arc.low = std::max(arc.low, unit.facilities[k]);
        if (k > 0 && unit.facilities[k] == 0) arc.high = 0;
    }
    if (bounded && unit.total >= 0) fit.arcs[first].low = fit.arcs[first].high = unit.total;
    std::size_t place = 0;
    for (const Query& query : level.queries) {
        for (int group : query.groups) {
            const Number target = unit.measurements[place++];
            fit.arcs[first + group].weight += query.weight;
            fit.arcs[first + group].pull += query.weight * target;
            fit.constant += Large(query.weight) * target * target;
        }
    }
}

// The nation's fit: the hub, the states, the kinds, and the nation's groups.
Fit root_fit(const Schema& schema, const std::vector<Unit>& all, const Unit& nation) {
    const int states = int(nation.children.size()), groups = 1 + states + schema.kinds;
    Fit fit;
    fit.name = "-";
    fit.supply.assign(groups + schema.levels[0].larger.size(), 0);
    for (int s = 0; s < states; ++s) {
        const Unit& state = all[nation.children[s]];
        fit.send(1 + s, 0, state.total);
        for (int k = 0; k < schema.kinds; ++k) {
            Number flow = 0;
            for (std::size_t j = 0; j < state.counts.size(); ++j) flow += schema.kind_of[j] == k ? state.counts[j] : 0;
            const Number low = state.facilities[k], high = k > 0 && low == 0 ? 0 : kPersons;
            fit.arcs.push_back({1 + s, 1 + states + k, low, high, flow});
        }
    }
    for (std::size_t j = 0; j < nation.counts.size(); ++j) {
        const int to = groups + schema.levels[0].smallest[j];
        fit.arcs.push_back({1 + states + schema.kind_of[j], to, 0, kPersons, nation.counts[j]});
    }
    push_groups(schema, nation, groups, false, fit);
    return fit;
}

// The fit of a unit's children: the hub, the possible cells, and the groups of each child.
Fit split_fit(const Schema& schema, const std::vector<Unit>& all, const Unit& parent) {
    const Level& level = schema.levels[parent.level + 1];
    const int cells = int(schema.possible.size()), groups = int(level.larger.size());
    Fit fit;
    fit.name = parent.code;
    fit.supply.assign(1 + cells + groups * parent.children.size(), 0);
    for (int j = 0; j < cells; ++j) fit.send(1 + j, 0, parent.counts[j]);
    int base = 1 + cells;
    for (int child : parent.children) {
        for (int j = 0; j < cells; ++j) {
            fit.arcs.push_back({1 + j, base + level.smallest[j], 0, kPersons, all[child].counts[j]});
        }
        push_groups(schema, all[child], base, true, fit);
        base += groups;
    }
    return fit;
}

Large cost_of(const Arc& arc, Number flow) {
    return Large(arc.weight) * flow * flow - Large(2) * arc.pull * flow;
}

// ---- LEMON ----

double seconds() {
    timespec now;
    clock_gettime(CLOCK_PROCESS_CPUTIME_ID, &now);
    return double(now.tv_sec) + 1e-9 * double(now.tv_nsec);
}

struct Totals {
    std::size_t fits = 0, left_out = 0, arcs = 0, unit_arcs = 0, wrong = 0;
    Large cost = 0, answer = 0;
    double expanding = 0, solving = 0;
};

// A fit whose arcs cost the same for each person.
struct Expanded {
    lemon::SmartDigraph graph;
    std::vector<Number> supply, most, cost;
    Large constant;

    Expanded(const Fit& fit, Number window) : supply(fit.supply), constant(fit.constant) {
        for (std::size_t v = 0; v < supply.size(); ++v) graph.addNode();
        for (const Arc& arc : fit.arcs) push(arc, window);
    }

    void push(const Arc& arc, Number window) {
        if (arc.weight == 0) return push_arc(arc, arc.low, arc.high - arc.low, 0);
        const Number low = std::max(arc.low, arc.flow - window), high = std::min(arc.high, arc.flow + window);
        constant += cost_of(arc, low);
        push_arc(arc, low, 0, 0);
        for (Number x = low; x < high; ++x) push_arc(arc, 0, 1, arc.weight * (2 * x + 1) - 2 * arc.pull);
    }

    // What flows in any case is taken from the supplies.
    void push_arc(const Arc& arc, Number sure, Number room, Number each) {
        supply[arc.from] -= sure;
        supply[arc.to] += sure;
        if (room == 0) return;
        graph.addArc(graph.nodeFromId(arc.from), graph.nodeFromId(arc.to));
        most.push_back(room);
        cost.push_back(each);
    }

    Large least() {
        using Simplex = lemon::NetworkSimplex<lemon::SmartDigraph, Number, Number>;
        lemon::SmartDigraph::ArcMap<Number> upper(graph), costs(graph);
        lemon::SmartDigraph::NodeMap<Number> supplies(graph);
        for (std::size_t a = 0; a < most.size(); ++a) {
            upper[graph.arcFromId(int(a))] = most[a];
            costs[graph.arcFromId(int(a))] = cost[a];
        }
        for (std::size_t v = 0; v < supply.size(); ++v) supplies[graph.nodeFromId(int(v))] = supply[v];
        Simplex simplex(graph);
        simplex.upperMap(upper).costMap(costs).supplyMap(supplies);
        if (simplex.run() != Simplex::OPTIMAL) throw std::runtime_error("no answer");
        return constant + simplex.totalCost<Number>();
    }
};

void solve(const Fit& fit, Number window, std::size_t most_arcs, Totals& totals) {
    Large answer = fit.constant;
    for (const Arc& arc : fit.arcs) answer += cost_of(arc, arc.flow);
    totals.answer += answer;
    if (fit.arcs.size() > most_arcs) {
        ++totals.left_out;
        return;
    }
    const double begin = seconds();
    Expanded expanded(fit, window);
    const double middle = seconds();
    const Large cost = expanded.least();
    const double end = seconds();
    totals.expanding += middle - begin;
    totals.solving += end - middle;
    ++totals.fits;
    totals.arcs += fit.arcs.size();
    totals.unit_arcs += expanded.most.size();
    totals.cost += cost;
    if (cost != answer) {
        ++totals.wrong;
        std::cerr << "fit " << fit.name << ": another cost than its tables'\n";
    }
}

std::string decimal(Large value) {
    std::string digits;
    do digits += char('0' + int(value % 10)); while ((value /= 10) > 0);
    return {digits.rbegin(), digits.rend()};
}

int main(int count, char** words) try {
    if (count != 4) throw std::runtime_error("usage: peer FOLDER WINDOW ARCS");
    const std::string folder = words[1];
    const Number window = std::stoll(words[2]);
    const std::size_t most_arcs = std::stoull(words[3]);
    const Schema schema = read_schema(folder + "/schema.txt");
    const std::vector<Unit> all = read_release(schema, folder);
    const double reading = seconds();
    Totals totals;
    for (const Unit& unit : all) {
        if (unit.parent == kHub) solve(root_fit(schema, all, unit), window, most_arcs, totals);
    }
    for (const Unit& unit : all) {
        if (!unit.children.empty()) solve(split_fit(schema, all, unit), window, most_arcs, totals);
    }
    std::cout << "fits=" << totals.fits << " left_out=" << totals.left_out << " arcs=" << totals.arcs
              << " unit_arcs=" << totals.unit_arcs << " cost=" << decimal(totals.cost)
              << " answer=" << decimal(totals.answer) << " reading=" << reading << " expanding=" << totals.expanding
              << " solving=" << totals.solving << "\n";
    return totals.wrong == 0 ? 0 : 1;
} catch (const std::exception& error) {
    std::cerr << "peer: " << error.what() << "\n";
    return 2;
}
