// Runs many books over one cluster, in several processes, each with some of the books. This one is the coordinator.
//
// Usage: books CONNECTION BOOKS NODES PROCESSES [ENTRIES], where CONNECTION is as libpq takes it. The log of a book is cut by an
// image after each ENTRIES entries (100,000).
//
// It makes the tables, or goes on with what is there, and prints `ready`. Then it answers each line of its input:
//   fill STRIPES        places the stripes from 0 on in each book
//   work SECONDS        lets the workers of all books repair, and prints how many calls were told a second
//   urgent              prints the book and stripe that is nearest to loss: `urgent BOOK STRIPE LEVEL MARGIN`, or `whole`
//   fail NODE           and down, up, drain, undrain, retire, join: to each book, and prints the replies with their counts
//   book BOOK COMMAND   the same to one book alone, upgrade and upgraded too
//   ask DOMAIN          asks each book whether the upgrade of a domain may begin, and changes nothing
//   begin DOMAIN        begins it in each book, after `ask` has said yes; if one refuses, takes it back in the others
//   end DOMAIN          ends it in each book
// Its status is 1 if the log, the library or a process fails; then start it again.
#include "process.h"

#include <iostream>
#include <map>
#include <memory>
#include <sstream>

namespace {

// A book that does not list a node of the domain has nothing to say of its upgrade.
bool is_against(const Answer &answer) {
    return answer.reply.kind != LRC_CHANGED && answer.reply.refusal != LRC_UNKNOWN_DOMAIN;
}

class Coordinator {
  public:
    Coordinator(const std::string &words, const Cluster &cluster, std::size_t processes) : cluster(cluster) {
        Log(words).make_tables();
        for (std::size_t first = 0; first < processes; first++) start(words, first, processes);
        log = std::make_unique<Log>(words);
        ask(Request::URGENT, {}); // which each process answers once it has its books
        // A coordinator that ended in the middle has left the upgrade begun in some books.
        for (auto domain : log->upgrades_half_begun())
            take_back(domain, ask(Request::PEEK, of_domain(LRC_UPGRADED, domain)));
    }
    Coordinator(const Coordinator &) = delete;
    Coordinator &operator=(const Coordinator &) = delete;
    ~Coordinator() {
        for (auto socket : sockets) close(socket);
        while (wait(nullptr) > 0) continue;
    }

    void answer(const std::string &line) {
        std::istringstream words(line);
        std::string word;
        words >> word;
        double number = 0;
        if (word == "book") {
            std::uint32_t book = 0;
            std::string rest;
            words >> book >> std::ws;
            std::getline(words, rest);
            print_replies(ask(Request::CALL, command(rest), book));
            return;
        }
        words >> number;
        auto domain = static_cast<std::uint8_t>(number);
        if (word == "fill") ask({Request::FILL, ALL, {}, static_cast<std::uint16_t>(number), 0}), say("filled");
        else if (word == "work") work(number);
        else if (word == "urgent") print_urgent();
        else if (word == "ask") may_begin(domain);
        else if (word == "begin") begin(domain);
        else if (word == "end") end(domain);
        else print_replies(ask(Request::CALL, command(line)));
    }

  private:
    static void say(const std::string &line) { std::cout << line << std::endl; }
    // The command of a line, which names a node or an upgrade domain: these are the same in all books.
    static lrc_command command(const std::string &line) {
        auto command = read_command(line);
        if (command.kind < LRC_FAIL || command.kind > LRC_UPGRADED) throw std::invalid_argument("this is not of all books: " + line);
        return command;
    }
    void start(const std::string &words, std::size_t first, std::size_t step) {
        int ends[2];
        if (socketpair(AF_UNIX, SOCK_SEQPACKET | SOCK_CLOEXEC, 0, ends)) throw std::runtime_error("no socket");
        auto child = fork();
        if (child < 0) throw std::runtime_error("no process");
        if (child == 0) {
            close(ends[0]);
            for (auto socket : sockets) close(socket);
            int status = 0;
            try {
                Process(words, cluster, first, step, ends[1]).serve();
            } catch (const std::exception &error) {
                std::fprintf(stderr, "books: process %zu: %s\n", first, error.what());
                status = 1;
            }
            _exit(status);
        }
        close(ends[1]);
        sockets.push_back(ends[0]);
    }
    // Sends a request to each process, and returns the answers of the books that it is for.
    std::vector<Answer> ask(const Request &request) {
        const std::runtime_error has_ended("a process has ended");
        std::vector<Answer> answers;
        auto is_for = [&](std::size_t book) { return request.book == ALL || request.book == book; };
        for (auto socket : sockets)
            if (send(socket, &request, sizeof request, MSG_NOSIGNAL) != sizeof request) throw has_ended;
        for (std::size_t first = 0; first < sockets.size(); first++)
            for (auto book = first; book < cluster.books; book += sockets.size()) {
                Answer answer{};
                if (!is_for(book)) continue;
                if (recv(sockets[first], &answer, sizeof answer, 0) != sizeof answer) throw has_ended;
                answers.push_back(answer);
            }
        return answers;
    }
    std::vector<Answer> ask(Request::Kind kind, const lrc_command &command, std::uint32_t book = ALL) {
        return ask({kind, book, command, 0, 0});
    }
    void work(double seconds) {
        std::uint64_t told = 0;
        for (auto &answer : ask({Request::WORK, ALL, {}, 0, seconds})) told += answer.told;
        say("told " + std::to_string(static_cast<std::uint64_t>(static_cast<double>(told) / seconds)) + " calls a second");
    }
    static void print_replies(const std::vector<Answer> &answers) {
        std::map<std::string, std::size_t> counts;
        for (auto &answer : answers) counts[text_of(answer.reply)]++;
        std::string line;
        for (auto &[text, count] : counts) line += (line.empty() ? "" : ", ") + std::to_string(count) + " " + text;
        say(line);
    }
    // Of all books, the stripe that survives the fewest further losses; one that is not recoverable comes last.
    void print_urgent() {
        const Answer *first = nullptr;
        auto answers = ask(Request::URGENT, {});
        auto rank = [](const lrc_risk &row) { return row.level.kind == LRC_AT_RISK ? row.level.margin : 4; };
        for (auto &answer : answers)
            if (answer.is_at_risk && (!first || rank(answer.urgent) < rank(first->urgent))) first = &answer;
        if (!first) return say("whole");
        auto &row = first->urgent;
        say("urgent " + std::to_string(first->book) + " " + std::to_string(row.stripe) + " " +
            std::to_string(row.level.kind) + " " + std::to_string(row.level.margin));
    }
    void may_begin(std::uint8_t domain) {
        asked.reset();
        for (auto &answer : ask(Request::PEEK, of_domain(LRC_UPGRADE, domain)))
            if (is_against(answer)) return say("no: book " + std::to_string(answer.book) + " " + text_of(answer.reply));
        asked = domain;
        say("yes");
    }
    // The row of the table says, to whoever comes after a crash, that some books may have begun.
    void begin(std::uint8_t domain) {
        if (asked != domain) return say("ask first");
        asked.reset();
        log->execute("INSERT INTO upgrade VALUES ($1, false)", {std::to_string(domain)});
        auto answers = ask(Request::CALL, of_domain(LRC_UPGRADE, domain));
        for (auto &answer : answers)
            if (is_against(answer)) {
                say("refused: book " + std::to_string(answer.book) + " " + text_of(answer.reply));
                return take_back(domain, answers);
            }
        log->execute("UPDATE upgrade SET has_begun = true WHERE domain = $1", {std::to_string(domain)});
        say("begun");
    }
    // Ends the upgrade in the books that have begun it, which are those that have the answer `changed`.
    void take_back(std::uint8_t domain, const std::vector<Answer> &answers) {
        std::size_t count = 0;
        for (auto &answer : answers)
            if (answer.reply.kind == LRC_CHANGED) ask(Request::CALL, of_domain(LRC_UPGRADED, domain), answer.book), count++;
        log->execute("DELETE FROM upgrade WHERE domain = $1", {std::to_string(domain)});
        say("taken back in " + std::to_string(count) + " books");
    }
    void end(std::uint8_t domain) {
        print_replies(ask(Request::CALL, of_domain(LRC_UPGRADED, domain)));
        log->execute("DELETE FROM upgrade WHERE domain = $1", {std::to_string(domain)});
    }

    const Cluster cluster;
    std::vector<int> sockets;
    std::unique_ptr<Log> log;
    std::optional<std::uint8_t> asked; // the domain whose upgrade all books would begin
};

} // namespace

int main(int count, char **words) {
    if (count < 5 || count > 6) return std::fprintf(stderr, "usage: books CONNECTION BOOKS NODES PROCESSES [ENTRIES]\n"), 2;
    try {
        expect_version();
        const Cluster cluster{std::stoul(words[2]), std::stoul(words[3]), count > 5 ? std::stoull(words[5]) : 100'000};
        Coordinator coordinator(words[1], cluster, std::stoul(words[4]));
        std::cout << "ready" << std::endl;
        for (std::string line; std::getline(std::cin, line);) {
            try {
                coordinator.answer(line);
            } catch (const std::invalid_argument &error) {
                std::cout << error.what() << std::endl;
            }
        }
    } catch (const std::exception &error) {
        return std::fprintf(stderr, "books: %s\n", error.what()), 1;
    }
}
