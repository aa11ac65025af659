// The token of token.da by hand: two processes, the numbers that came to each, and channels that keep the order. It runs the
// generated schedule of `stress`, and writes the same eight lines.
//
//     token START N
#include <cstdint>
#include <cstdio>
#include <cstdlib>
#include <deque>
#include <unordered_set>
#include <vector>

namespace {

struct Message {
    std::int64_t number;
    std::uint64_t time;
};

struct Process {
    std::int64_t next;
    bool started = false;
    std::uint64_t clock = 0;
    std::unordered_set<std::int64_t> came;
};

struct Event {
    enum { begin, take, deliver } kind;
    int process;
    int from;
};

struct Counts {
    std::uint64_t events = 0, took = 0, sent = 0, got = 0;
};

struct System {
    Process processes[2];
    std::deque<Message> channels[2][2];
    Counts counts;

    void send(int from, std::int64_t number) {
        Process &sender = processes[from];
        sender.clock++;
        channels[from][1 - from].push_back({number, sender.clock});
        counts.sent++;
    }

    // What may happen, in the order of the generated schedule.
    void list(std::vector<Event> &events) const {
        events.clear();
        for (int p = 0; p < 2; p++) {
            const Process &process = processes[p];
            if (!process.started) {
                events.push_back({Event::begin, p, p});
            } else if (process.came.count(process.next)) {
                events.push_back({Event::take, p, p});
            }
        }
        for (int p = 0; p < 2; p++) {
            for (int q = 0; q < 2; q++) {
                if (processes[q].started && !channels[p][q].empty()) {
                    events.push_back({Event::deliver, q, p});
                }
            }
        }
    }

    void carry_out(const Event &event) {
        Process &process = processes[event.process];
        counts.events++;
        if (event.kind == Event::deliver) {
            std::deque<Message> &channel = channels[event.from][event.process];
            const Message message = channel.front();
            channel.pop_front();
            process.clock = (process.clock > message.time ? process.clock : message.time) + 1;
            process.came.insert(message.number);
            counts.got++;
            return;
        }
        counts.took++;
        if (event.kind == Event::begin) {
            process.started = true;
            if (process.next == 2) {
                send(event.process, 1);
            }
            return;
        }
        send(event.process, process.next + 1);
        process.next += 2;
    }
};

}

int main(int count, char **words) {
    if (count != 3) {
        std::fputs("token: name the number to begin with and the number of events\n", stderr);
        return 2;
    }
    std::uint64_t state = std::strtoull(words[1], nullptr, 10);
    const std::uint64_t most = std::strtoull(words[2], nullptr, 10);
    System system;
    system.processes[0].next = 2;
    system.processes[1].next = 1;
    std::vector<Event> events;
    while (system.counts.events < most) {
        system.list(events);
        if (events.empty()) {
            break;
        }
        state = (25214903917 * state + 11) % (std::uint64_t{1} << 48);
        system.carry_out(events[(state >> 16) % events.size()]);
    }
    std::printf("events %llu\ntook %llu\nsent %llu\ngot %llu\nout 0\nend 0\nfault 0\nstate %llu\n",
        static_cast<unsigned long long>(system.counts.events), static_cast<unsigned long long>(system.counts.took),
        static_cast<unsigned long long>(system.counts.sent), static_cast<unsigned long long>(system.counts.got),
        static_cast<unsigned long long>(state));
}
