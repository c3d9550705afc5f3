// The processes that have the books, and the messages by which the coordinator asks them.
#ifndef PROCESS_H
#define PROCESS_H

#include "book.h"

#include <chrono>
#include <cstdio>
#include <sys/socket.h>
#include <sys/wait.h>
#include <unistd.h>

constexpr std::uint32_t ALL = UINT32_MAX;

struct Request {
    enum Kind { CALL, PEEK, URGENT, FILL, WORK } kind;
    std::uint32_t book; // its number, or ALL
    lrc_command command; // of CALL and PEEK
    std::uint16_t stripes; // of FILL: how many each book shall have
    double seconds; // of WORK
};

// What a process answers for each book that a request is for.
struct Answer {
    std::uint32_t book;
    lrc_reply reply; // of CALL and PEEK
    bool is_at_risk; // of URGENT
    lrc_risk urgent; // of URGENT
    std::uint64_t told; // of WORK: how many replies were told; the first book of a process has them all
};

// The cluster: so many nodes, each with its slots shared out among so many books, whose logs are cut after so many entries.
struct Cluster {
    std::size_t books, nodes;
    std::uint64_t entries_an_image;
    static constexpr std::size_t SLOTS = 10240, MOST_SLOTS = 256, FAULT_DOMAINS = 32, UPGRADE_DOMAINS = 16;
    // The nodes of one book, with its share of their slots.
    std::string nodes_of_book() const {
        std::string text;
        auto slots = std::min<std::size_t>(MOST_SLOTS, SLOTS / books);
        for (std::size_t i = 0; i < nodes; i++)
            text += node_text(i, i % FAULT_DOMAINS, (i + i / FAULT_DOMAINS) % UPGRADE_DOMAINS, slots);
        return text;
    }
};

// A process with some of the books. It answers requests until the coordinator is gone.
class Process {
  public:
    Process(const std::string &words, const Cluster &cluster, std::size_t first, std::size_t step, int socket)
        : socket(socket), entries_an_image(cluster.entries_an_image), log(words) {
        for (auto number = first; number < cluster.books; number += step) {
            auto book = static_cast<std::uint32_t>(number);
            books.emplace_back(book, log.take(book, cluster.nodes_of_book()), cluster.nodes, log);
        }
    }
    void serve() {
        Request request{};
        while (recv(socket, &request, sizeof request, 0) == sizeof request)
            for (auto &answer : answers_to(request))
                if (send(socket, &answer, sizeof answer, MSG_NOSIGNAL) != sizeof answer) return;
    }

  private:
    std::vector<Answer> answers_to(const Request &request) {
        std::vector<Answer> answers;
        for (auto &book : books)
            if (request.book == ALL || request.book == book.number) answers.push_back({book.number, {}, false, {}, 0});
        if (request.kind == Request::WORK) work(request.seconds, answers);
        else if (request.kind == Request::FILL) fill(request.stripes);
        else for (auto &answer : answers) ask(request, answer);
        commit();
        return answers;
    }
    Book &book_of(std::uint32_t number) {
        for (auto &book : books)
            if (book.number == number) return book;
        throw std::runtime_error("the process does not have this book");
    }
    void ask(const Request &request, Answer &answer) {
        auto &book = book_of(answer.book);
        if (request.kind == Request::CALL) answer.reply = book.call(OPERATOR, request.command, batch);
        if (request.kind == Request::PEEK) answer.reply = book.peek(OPERATOR, request.command);
        if (request.kind == Request::URGENT)
            if (auto urgent = book.most_urgent()) answer.is_at_risk = true, answer.urgent = *urgent;
    }
    void fill(std::uint16_t stripes) {
        constexpr std::uint16_t PIECE = 256;
        for (std::uint16_t begin = 0, end = 0; begin < stripes; begin = end) {
            end = static_cast<std::uint16_t>(std::min<int>(stripes, begin + PIECE));
            for (auto &book : books) book.fill(begin, end, batch);
            commit();
        }
    }
    // Whether the coordinator is gone.
    bool is_alone() const {
        char none = 0;
        return recv(socket, &none, sizeof none, MSG_PEEK | MSG_DONTWAIT) == 0;
    }
    // Batches, each with a turn of every worker of every book.
    void work(double seconds, std::vector<Answer> &answers) {
        auto end = std::chrono::steady_clock::now() + std::chrono::duration<double>(seconds);
        std::uint64_t told = 0;
        while (std::chrono::steady_clock::now() < end && !books.empty() && !is_alone()) {
            for (auto &book : books) book.work(batch);
            told += batch.size();
            commit();
        }
        if (!answers.empty()) answers[0].told = told;
    }
    // If this fails, the books are ahead of their log, and the process ends: another one replays.
    void commit() {
        log.append(batch);
        batch.clear();
        for (auto &book : books) book.cut_in_time(entries_an_image, log);
    }

    const int socket;
    const std::uint64_t entries_an_image;
    Log log;
    std::vector<Book> books;
    std::vector<Record> batch; // made, and not yet durable
};

#endif
