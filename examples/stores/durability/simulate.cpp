// How many stripes a store loses, by simulation: nodes fail at drawn times, and workers take drawn times for their repairs.
// The book decides which fragment is repaired first and where to, and what is lost.
//
// Usage: simulate CODE LIFETIME REPAIR WORKERS YEARS SEED
//   CODE      wide or narrow
//   LIFETIME  mean hours until a node fails
//   REPAIR    mean hours from the lease of a fragment to the report
//   WORKERS   the most repairs at a time; 0 for no limit
//   YEARS     how long losses are counted, after ten times REPAIR that are not
// It prints the losses of each twentieth of the years, and then the failures and the repairs: 22 numbers.
#include "../calls.h"

#include <cmath>
#include <cstdio>
#include <cstdlib>
#include <queue>
#include <random>
#include <vector>

namespace {

constexpr std::size_t NODES = 250, UPGRADE_DOMAINS = 25, SLOTS = 16, STRIPES = 100, PARTS = 20;
constexpr double HOURS_A_YEAR = 8766;

// Each node has a fault domain of its own, so that fragments of a stripe fail independently.
std::string nodes_text() {
    std::string text;
    for (std::size_t i = 0; i < NODES; i++) text += node_text(i, i, i % UPGRADE_DOMAINS, SLOTS);
    return text;
}

class Book {
  public:
    Book() { open_book(&handle, nodes_text()); }
    Book(const Book &) = delete;
    Book &operator=(const Book &) = delete;
    ~Book() { lrc_embed_close(&handle); }

    lrc_reply call(const lrc_command &command) {
        forget_in_time(&handle);
        return call_book(&handle, 1, command).reply;
    }
    std::vector<std::uint16_t> lost() {
        std::size_t count = 0;
        expect_done("risk", lrc_embed_risk(&handle, rows.data(), rows.size(), &count));
        std::vector<std::uint16_t> stripes;
        for (std::size_t i = 0; i < count; i++)
            if (rows[i].level.kind == LRC_LOST) stripes.push_back(rows[i].stripe);
        return stripes;
    }

  private:
    lrc_handle handle = LRC_CLOSED;
    std::vector<lrc_risk> rows = std::vector<lrc_risk>(LRC_STRIPES);
};

struct Repair {
    double end;
    lrc_lease lease;
    bool operator<(const Repair &other) const { return end > other.end; } // the queue has the greatest in front
};

struct Setting {
    lrc_command_kind place;
    double lifetime, repair;
    std::size_t workers;
    double years;
    std::uint64_t seed;
};

class Simulation {
  public:
    explicit Simulation(const Setting &setting) : setting(setting), draw(setting.seed), losses(PARTS) {}

    void run() {
        for (std::uint16_t stripe = 0; stripe < STRIPES; stripe++) place(stripe);
        double begin = 10 * setting.repair, end = begin + setting.years * HOURS_A_YEAR;
        // All nodes together fail NODES times as often as one, and any of them may be the next.
        for (double failure = drawn(setting.lifetime / NODES); failure < end; failure += drawn(setting.lifetime / NODES)) {
            finish_repairs(failure);
            fail(static_cast<std::uint16_t>(draw() % NODES));
            for (auto stripe : book.lost()) {
                auto part = (failure - begin) / (end - begin) * PARTS;
                if (part >= 0) losses[static_cast<std::size_t>(part)]++;
                book.call(of_stripe(LRC_DROP, stripe));
                place(stripe);
            }
            start_repairs(failure);
        }
    }
    void print() const {
        for (auto lost : losses) std::printf("%zu ", lost);
        std::printf("%zu %zu\n", failures, repairs);
    }

  private:
    // A time that is distributed exponentially, in hours.
    double drawn(double mean) { return -mean * std::log1p(-static_cast<double>(draw() >> 11) * 0x1p-53); }

    void place(std::uint16_t stripe) {
        auto kind = book.call(of_stripe(setting.place, stripe)).kind;
        if (kind != LRC_PLACED && kind != LRC_PLACED6) throw std::runtime_error("a stripe was not placed");
    }
    // A node fails, and an empty one takes its place at once.
    void fail(std::uint16_t node) {
        book.call(of_node(LRC_FAIL, node));
        book.call(of_node(LRC_JOIN, node));
        failures++;
    }
    void finish_repairs(double until) {
        while (!under_way.empty() && under_way.top().end < until) {
            auto repair = under_way.top();
            under_way.pop();
            if (book.call(report_of(repair.lease)).kind == LRC_ENDED) repairs++; // else its target or its stripe has gone
            start_repairs(repair.end);
        }
    }
    void start_repairs(double now) {
        while (setting.workers == 0 || under_way.size() < setting.workers) {
            auto reply = book.call(of_kind(LRC_NEXT));
            if (reply.kind != LRC_GRANTED) return;
            under_way.push({now + drawn(setting.repair), reply.lease});
        }
    }

    const Setting setting;
    std::mt19937_64 draw;
    Book book;
    std::priority_queue<Repair> under_way;
    std::vector<std::size_t> losses;
    std::size_t failures = 0, repairs = 0;
};

} // namespace

int main(int count, char **words) {
    if (count != 7) return std::fprintf(stderr, "usage: simulate CODE LIFETIME REPAIR WORKERS YEARS SEED\n"), 2;
    Setting setting{std::string(words[1]) == "wide" ? LRC_PLACE : LRC_PLACE6, std::atof(words[2]), std::atof(words[3]),
                    std::strtoull(words[4], nullptr, 10), std::atof(words[5]), std::strtoull(words[6], nullptr, 10)};
    try {
        expect_version();
        Simulation simulation(setting);
        simulation.run();
        simulation.print();
    } catch (const std::exception &error) {
        return std::fprintf(stderr, "simulate: %s\n", error.what()), 1;
    }
}
