// Records what threads do on a queue: `g++ -O2 -std=c++17 -pthread record.cpp && ./a.out >FILE`. Copy `Recorder`,
// and record every call. Every clone and every drop of an end is a call; `close` is the sender's `drop_sender`.
// Each step of an iterator is a `recv`. Each arm of a selection is a future, `send_async` or `recv_async`, of a
// recorder of its own; those that lost return `dropped`.
#include <atomic>
#include <condition_variable>
#include <iostream>
#include <map>
#include <mutex>
#include <queue>
#include <string>
#include <thread>

// One for each thread. When it is destroyed, its events join those of the others in `recorded`, in order.
struct Recorder {
    static inline std::atomic<long> next{0};
    static inline std::mutex lock;
    static inline std::map<long, std::string> recorded;
    std::string name;
    std::map<long, std::string> events;

    explicit Recorder(const char* name) : name(name) {}
    ~Recorder() {
        std::lock_guard held(lock);
        recorded.merge(events);
    }
    // Makes a call, and records it with what `answer` says of its result.
    template <class Make, class Answer> auto call(const std::string& text, Make make, Answer answer) {
        events.emplace(next++, name + ": " + text);
        auto result = make();
        events.emplace(next++, name + " -> " + answer(result));
        return result;
    }
};

struct Queue {
    std::mutex lock;
    std::condition_variable changed;
    std::queue<int> messages;
    bool closed = false;

    template <class Ready, class Change> auto change(Ready ready, Change change) {
        std::unique_lock held(lock);
        changed.wait(held, ready);
        changed.notify_all();
        return change();
    }
    bool send(int message) {
        return change([&] { return messages.size() < 2; }, [&] { return messages.push(message), true; });
    }
    int receive() {
        return change([&] { return closed || !messages.empty(); }, [&] {
            int first = messages.empty() ? 0 : messages.front();
            if (first) messages.pop();
            return first;
        });
    }
    bool close() { return change([] { return true; }, [&] { return closed = true; }); }
};

int main() {
    Queue queue;
    auto receive_all = [&](const char* name) {
        Recorder here(name);
        auto answer = [](int got) { return got ? "got " + std::to_string(got) : "disconnected"; };
        while (here.call("recv", [&] { return queue.receive(); }, answer)) {}
    };
    auto send_all = [&](const char* name) {
        Recorder here(name);
        for (int it = 1; it <= 9; it++)
            here.call("send " + std::to_string(it), [&] { return queue.send(it); }, [](bool) { return "sent"; });
        here.call("drop_sender", [&] { return queue.close(); }, [](bool) { return "done"; });
    };
    std::thread s(send_all, "s"), q(receive_all, "q"), r(receive_all, "r");
    s.join(), q.join(), r.join();
    std::cout << "bounded 2\n";
    for (const auto& [place, line] : Recorder::recorded) std::cout << line << "\n";
}
