// A pool of workers: process 0 hands out jobs, 1 to 3 do them, and each result comes back.
#include <chanhub.hpp>
#include <cstdint>
#include <iostream>
#include <thread>
#include <vector>

static void work(chanhub::Seat seat, chanhub::Port jobs, chanhub::Port results) {
    chanhub::ExitAtEnd at_end(seat);
    try {
        for (const chanhub::Value &job : seat.drain(jobs)) seat.send(results, job.number() * job.number());
    } catch (const chanhub::Error &error) {
        std::cerr << error.what() << '\n';
    }
}

static std::uint64_t add_up(chanhub::Seat boss, chanhub::Port results, int count) {
    std::uint64_t sum = 0;
    for (int i = 0; i < count; i++) sum += boss.recv(results).value().number();
    return sum;
}

int main() {
    chanhub::Hub hub(4);
    chanhub::Seat boss = hub.seat(0);
    const chanhub::Port jobs = boss.make(2), results = boss.make(100);
    std::vector<std::thread> workers;
    for (unsigned pid = 1; pid <= 3; pid++) workers.emplace_back(work, hub.seat(pid), jobs, results);
    for (int job = 1; job <= 10; job++) boss.send(jobs, job);
    boss.close(jobs);
    std::cout << add_up(boss, results, 10) << '\n';
    boss.exit(); // before the joins, which are waits outside the hub
    for (std::thread &worker : workers) worker.join();
}
