// chanhub.hpp, by one thread and by several:
//
//     cpp             each call
//     cpp throws      an exception of the function that gets the chapters ends the program: here with status 0
//
// A test that hangs is ended by an alarm.
#include "chanhub.hpp"

#include <algorithm>
#include <atomic>
#include <chrono>
#include <cstdint>
#include <cstdio>
#include <cstring>
#include <exception>
#include <limits>
#include <new>
#include <numeric>
#include <optional>
#include <stdexcept>
#include <string>
#include <string_view>
#include <thread>
#include <type_traits>
#include <unistd.h>
#include <utility>
#include <vector>

using Edition = chanhub::Edition;
using Fault = chanhub::Fault;
using Hub = chanhub::Hub;
using Outcome = chanhub::Outcome;
using Port = chanhub::Port;
using Seat = chanhub::Seat;
using Told = chanhub::Told;
using Value = chanhub::Value;

enum { SECONDS = 300 };

// While it is set, memory is refused to what asks for it so.
static bool is_short_of_memory;

void *operator new(std::size_t size, const std::nothrow_t &) noexcept {
    return is_short_of_memory ? nullptr : ::operator new(size);
}

static std::atomic<int> tried{0}, wrong{0};

static void is(const char *name, bool right) {
    tried++;
    if (right) return;
    wrong++;
    std::printf("%s: wrong\n", name);
}

static void is_fault(const char *name, const Told &told, Fault fault) {
    is(name, told.outcome == Outcome::Fault && told.fault == fault);
}

// Whether this throws an Error of a call that was told so.
template <class Call>
static void throws(const char *name, Outcome outcome, Fault fault, const char *text, Call call) {
    try {
        call();
    } catch (const chanhub::Error &error) {
        is(name, error.opening() == 0 && error.told() && error.told()->outcome == outcome && error.told()->fault == fault);
        is(name, std::strcmp(error.what(), text) == 0);
        return;
    }
    is(name, false);
}

template <class Other, class Call>
static void throws_other(const char *name, Call call) {
    try {
        call();
    } catch (const Other &) {
        is(name, true);
        return;
    }
    is(name, false);
}

// Returns once the journal has so many entries. A call that is among them and waits has parked by then.
static void await_entries(const Hub &hub, std::ptrdiff_t entries) {
    const auto count = [&] {
        const std::string text = hub.journal();
        return std::count(text.begin(), text.end(), '\n') - 2;
    };
    while (count() < entries) std::this_thread::sleep_for(std::chrono::microseconds(100));
}

static void types() {
    static_assert(!std::is_copy_constructible_v<Hub> && !std::is_copy_assignable_v<Hub>);
    static_assert(std::is_nothrow_move_constructible_v<Hub> && std::is_nothrow_move_assignable_v<Hub>);
    static_assert(std::is_trivially_copyable_v<Seat> && std::is_trivially_copyable_v<Value>);
    static_assert(!std::is_constructible_v<Value, bool> && !std::is_constructible_v<Value, double>);
    static_assert(!std::is_constructible_v<Value, Port> && !std::is_convertible_v<unsigned, Port>);
    static_assert(!std::is_constructible_v<chanhub> && !std::is_destructible_v<chanhub>);
}

static void values() {
    is("a number", Value(7).number() == 7 && !Value(7).is_bytes());
    is("the greatest", Value(std::numeric_limits<std::uint64_t>::max()).number() == std::numeric_limits<std::uint64_t>::max());
    is("a negative number", Value(-1).number() == std::numeric_limits<std::uint64_t>::max());
    const std::string all(32, '\xff');
    const Value a("ab"), b(std::string("ab")), c(std::string_view("abc", 2)), longest(all), empty("");
    is("bytes", a.is_bytes() && a.bytes() == "ab" && a == b && b == c);
    is("32 bytes", longest.bytes() == all);
    is("no bytes", empty.is_bytes() && empty.bytes().empty() && empty != Value(0) && Value() == Value(0));
    is("others", a != longest && Value(1) != Value(2));
    throws_other<std::length_error>("33 bytes", [] { static_cast<void>(Value(std::string(33, 'a'))); });
    throws_other<std::logic_error>("no number", [&] { static_cast<void>(a.number()); });
    const Value seven = 7;
    throws_other<std::logic_error>("no bytes of a number", [&] { static_cast<void>(seven.bytes()); });
}

static void openings() {
    try {
        Hub hub(65);
        is("65 processes", false);
    } catch (const chanhub::Error &error) {
        is("65 processes", error.opening() == 1 && !error.told());
        is("65 processes", std::string("chanhub: ") + chanhub_strerror(1) == error.what());
    }
    try {
        static_cast<void>(Hub::endless(1, 0));
        is("nothing is kept", false);
    } catch (const chanhub::Error &error) {
        is("nothing is kept", error.opening() == 2);
    }
    int error = 9;
    is("no step", !Hub::open(1, 0, Edition::Two, &error) && error == 2);
    is("nothing is kept", !Hub::open_endless(1, 0, nullptr, Edition::Two, &error) && error == 2);
    is("an edition", !Hub::open(1, 1, static_cast<Edition>(4), &error) && error == 4);
    is("opened", Hub::open(1, 1, Edition::One, &error) && error == 0);
    is("opened", Hub::open(64).has_value() && Hub::open_endless(64, 900000).has_value());
    is_short_of_memory = true;
    is("no memory for the function", !Hub::open_endless(1, 1, [](std::string_view) {}, Edition::Two, &error) && error == 3);
    is_short_of_memory = false;
}

// A hub moves, its seats stay, and none of a hub that went can be called.
static void moves() {
    Hub first(1), second(2);
    const Seat seat = first.seat(0);
    const Port port = seat.make(1);
    second = std::move(first);
    seat.send(port, 5);
    Hub third(std::move(second));
    is("got", seat.recv(port) == Value(5));
    is("the same", third.seat(0).recv_told(Port{9}).fault == Fault::NoPort && third.get() != nullptr);
    is_fault("no hub", second.seat(0).recv_told(port), Fault::BadCall);
    is("no hub", second.steps_left() == 0 && !second.look(port).made && second.get() == nullptr && !second.divergence());
    throws_other<std::bad_alloc>("no journal", [&] { static_cast<void>(second.journal()); });
}

// All that does not wait.
static void one_process() {
    Hub hub(1, 100);
    const Seat seat = hub.seat(0);
    is("the seat", seat.pid() == 0);
    const Port port = seat.make(2), other = seat.make(0);
    is("made", port == Port{1} && other == Port{2});
    seat.send(port, "ab");
    const Told sent = seat.send_told(port, 7);
    is("sent", sent.outcome == Outcome::Sent && sent.index == 0 && sent.text() == "sent");
    is("no room", seat.try_send(port, 8).outcome == Outcome::Default);
    const chanhub::Counts counts = hub.look(port);
    is("look", counts.made && !counts.closed && counts.cap == 2 && counts.sent == 2 && counts.received == 0);
    const Told got = seat.recv_told(port);
    is("got", got.outcome == Outcome::Got && got.fault == Fault::None && got.value.bytes() == "ab");
    const Told chosen = seat.select({chanhub::recv(other), chanhub::send(port, 9), chanhub::recv(port)}, 3);
    is("select", chosen.outcome == Outcome::Got && chosen.index == 2 && chosen.value == Value(7));
    is("select", seat.try_select({chanhub::recv(other), chanhub::send(port, 9)}).outcome == Outcome::Sent);
    is("default", seat.try_select({chanhub::recv(other)}).outcome == Outcome::Default);
    const std::vector<chanhub::Case> cases(16, chanhub::recv(Port{}));
    is("16 cases", seat.try_select(cases.data(), cases.size()).outcome == Outcome::Default);
    is_fault("17 cases", seat.select(cases.data(), 17), Fault::BadCall);
    is("got", seat.try_recv(port).value == Value(9));
    is("nothing there", seat.try_recv(port).outcome == Outcome::Default);
    throws("alone", Outcome::Stalled, Fault::None, "chanhub: stalled", [&] { static_cast<void>(seat.recv(port)); });
    is("alone", seat.select({chanhub::recv(port), chanhub::send(other, 1)}).outcome == Outcome::Stalled);
    throws("alone", Outcome::Stalled, Fault::None, "chanhub: stalled", [&] {
        for (const Value &value : seat.drain(port)) static_cast<void>(value);
    });
    is("nobody waits", !seat.cancel(0));
    is_fault("nobody waits", seat.cancel_told(0), Fault::NotParked);
    is_fault("a process that would be 0 in a byte", seat.cancel_told(256), Fault::BadCall);
    const std::string bad_call = std::string("chanhub: fault 13: ") + chanhub_strfault(CHANHUB_BAD_CALL);
    throws("the same", Outcome::Fault, Fault::BadCall, bad_call.c_str(), [&] { static_cast<void>(seat.cancel(256)); });
    seat.send(port, 1);
    seat.close(port);
    is_fault("closed", seat.close_told(port), Fault::AlreadyClosed);
    throws("closed", Outcome::Fault, Fault::AlreadyClosed, "chanhub: fault 9: close of a closed port", [&] { seat.close(port); });
    throws("closed", Outcome::Closed, Fault::None, "chanhub: closed", [&] { seat.send(port, 1); });
    is("closed", seat.try_send(port, 2).outcome == Outcome::Closed);
    is("what is left", seat.recv(port) == Value(1));
    is("drained", !seat.recv(port) && seat.recv_told(port).outcome == Outcome::Drained && seat.try_recv(port).outcome == Outcome::Drained);
    is_fault("capacity", seat.make_told(1025), Fault::BadCap);
    throws("no port", Outcome::Fault, Fault::NoPort, "chanhub: fault 5: no such port", [&] { seat.send(Port{9}, 1); });
    is_fault("no process", hub.seat(1).try_recv(port), Fault::NoProcess);
    is("none before", !hub.before() && !hub.cut());
    seat.exit();
    throws("gone", Outcome::Fault, Fault::Gone, "chanhub: fault 2: the process has exited", [&] { seat.exit(); });
    is("journal", hub.journal().rfind("chanhub journal 2\nprocs 1\n0 make 2\n0 make 0\n0 send 1 #6162\n0 send 1 7\n"
                                      "0 select 0 s1:8 default\n0 recv 1\n0 select 3 r2 s1:9 r1\n", 0) == 0);
}

static void full_journal() {
    Hub hub(1, 2, Edition::One);
    const Seat seat = hub.seat(0);
    is("left", hub.steps_left() == 2);
    const Port port = seat.make(5);
    is_fault("edition 1", seat.send_told(port, "a"), Fault::BadCall);
    seat.send(port, 1);
    is("none left", hub.steps_left() == 0);
    is_fault("full", seat.try_recv(port), Fault::JournalFull);
    throws("full", Outcome::Fault, Fault::JournalFull, "chanhub: fault 10: the hub has reached its step limit",
           [&] { static_cast<void>(seat.recv(port)); });
    is("exit", seat.exit_told().outcome == Outcome::Done);
}

// A producer and a consumer, which drains what it gets.
static void drains() {
    enum { COUNT = 1000 };
    for (const std::uint32_t cap : {0U, 1U, 100U}) {
        Hub hub(2);
        const Seat main = hub.seat(0);
        const Port port = main.make(cap);
        std::uint64_t sum = 0, received = 0;
        std::thread consumer([&, seat = hub.seat(1)] {
            chanhub::ExitAtEnd exit(seat);
            for (const Value &value : seat.drain(port)) {
                sum += value.number();
                received++;
            }
        });
        for (int i = 1; i <= COUNT; i++) main.send(port, i);
        main.close(port);
        main.exit();
        consumer.join();
        is("all came", received == COUNT && sum == COUNT * (COUNT + 1) / 2);
        is("counts", hub.look(port).received == COUNT && hub.look(port).closed);
        is_fault("both have exited", hub.seat(1).exit_told(), Fault::Gone);
    }
}

// The values of a port are a range for the algorithms too.
static void drains_by_algorithm() {
    Hub hub(1);
    const Seat seat = hub.seat(0);
    const Port port = seat.make(3), none = seat.make(0);
    for (int i = 1; i <= 3; i++) seat.send(port, i);
    seat.close(port);
    seat.close(none);
    const chanhub::Values values = seat.drain(port), no_values = seat.drain(none);
    is("sum", std::accumulate(values.begin(), values.end(), std::uint64_t{0},
                              [](std::uint64_t sum, const Value &value) { return sum + value.number(); }) == 6);
    is("nothing", no_values.begin() == no_values.end());
}

// A select that waits takes what two producers send, until both ports are closed.
static void selects() {
    enum { COUNT = 300 };
    Hub hub(3);
    const Seat main = hub.seat(0);
    const Port ports[] = {main.make(0), main.make(1)};
    std::vector<std::thread> producers;
    for (unsigned i = 0; i < 2; i++) {
        producers.emplace_back([seat = hub.seat(1 + i), port = ports[i], i] {
            chanhub::ExitAtEnd exit(seat);
            for (int sent = 0; sent < COUNT; sent++) seat.send(port, i == 0 ? Value(sent) : Value("ab"));
            seat.close(port);
        });
    }
    std::uint64_t numbers = 0, bytes = 0, others = 0, word = 0;
    bool are_open[] = {true, true};
    while (are_open[0] || are_open[1]) {
        const auto left = [&](unsigned i) { return chanhub::recv(are_open[i] ? ports[i] : Port{}); };
        const Told told = main.select({left(0), left(1)}, word++);
        if (told.outcome == Outcome::Drained) are_open[told.index] = false;
        else if (told.outcome != Outcome::Got) others++;
        else if (told.value.is_bytes()) bytes += told.index == 1;
        else numbers += told.index == 0;
    }
    for (std::thread &producer : producers) producer.join();
    is("all came", numbers == COUNT && bytes == COUNT && others == 0);
}

// Two wait for one another: both are told, and what they do next counts again.
static void stalls() {
    Hub hub(2);
    const Port ports[] = {hub.seat(0).make(0), hub.seat(0).make(0)};
    std::atomic<int> stalled{0};
    std::vector<std::thread> threads;
    for (unsigned pid = 0; pid < 2; pid++) {
        threads.emplace_back([&, seat = hub.seat(pid), pid] {
            try {
                static_cast<void>(seat.recv(ports[pid]));
            } catch (const chanhub::Error &error) {
                if (error.told() && error.told()->outcome == Outcome::Stalled) stalled++;
            }
        });
    }
    for (std::thread &thread : threads) thread.join();
    is("both stalled", stalled == 2);
    std::thread receiver([&, seat = hub.seat(1)] { is("got", seat.recv(ports[1]) == Value(3)); });
    hub.seat(0).send(ports[1], 3);
    receiver.join();
}

static void cancels() {
    Hub hub(2);
    const Port port = hub.seat(0).make(0);
    std::thread waiter([&, seat = hub.seat(1)] {
        throws("cancelled", Outcome::Cancelled, Fault::None, "chanhub: cancelled", [&] { seat.send(port, 1); });
    });
    await_entries(hub, 2);
    is_fault("busy", hub.seat(1).recv_told(port), Fault::Busy);
    is("cancel", hub.seat(0).cancel(1));
    waiter.join();
}

// A call is begun, waits for a while in vain, and then gets its answer.
static void resumes() {
    Hub hub(2);
    const Seat seat = hub.seat(1);
    const Port port = hub.seat(0).make(0);
    is_fault("none is open", seat.resume(), Fault::NotParked);
    const Told begun = seat.begin({chanhub::recv(port)});
    is("begun", begun.outcome == Outcome::Waiting && begun.text() == "parked");
    is("in vain", seat.resume(std::chrono::milliseconds(2)).outcome == Outcome::Waiting);
    is("in vain", seat.resume(std::chrono::nanoseconds(-1)).outcome == Outcome::Waiting);
    std::thread sender([&, main = hub.seat(0)] { main.send(port, 4); });
    const Told told = seat.resume();
    is("got", told.outcome == Outcome::Got && told.value == Value(4));
    sender.join();
}

// An exception takes a process out of the hub on its way.
static void exits() {
    Hub hub(2);
    const Port port = hub.seat(0).make(0);
    std::thread thrower([&, seat = hub.seat(1)] {
        try {
            chanhub::ExitAtEnd exit(seat);
            throw std::runtime_error("no value");
        } catch (const std::runtime_error &) {
        }
    });
    thrower.join();
    is("only one is left", hub.seat(0).recv_told(port).outcome == Outcome::Stalled);
    is_fault("gone", hub.seat(1).recv_told(port), Fault::Gone);
    {
        const Seat seat = hub.seat(0);
        is("made", seat.make_told(0).outcome == Outcome::Made);
    }
    is("a seat does not exit by itself", hub.seat(0).make_told(0).outcome == Outcome::Made);
}

// A process that has exited is started again.
static void starts() {
    Hub hub(2, Hub::most_steps, Edition::Three);
    const Seat seat = hub.seat(0), other = hub.seat(1);
    const Port port = seat.make(2);
    is_fault("it has not exited", seat.start_told(1), Fault::NotGone);
    is_fault("itself", seat.start_told(0), Fault::NotGone);
    is_fault("no such process", seat.start_told(2), Fault::NotGone);
    is_fault("a process that would be 1 in a byte", seat.start_told(257), Fault::BadCall);
    throws("not gone", Outcome::Fault, Fault::NotGone, "chanhub: fault 17: the process has not exited", [&] { seat.start(1); });
    other.exit();
    is_fault("gone", other.send_told(port, 1), Fault::Gone);
    seat.start(1);
    other.send(port, 1);
    hub.seat(1).send(port, 2);
    is("both came", seat.recv(port) == Value(1) && seat.recv(port) == Value(2));
    std::thread exits([&] {
        await_entries(hub, 12);
        other.exit();
    });
    throws("alone", Outcome::Stalled, Fault::None, "chanhub: stalled", [&] { static_cast<void>(seat.recv(port)); });
    exits.join();
    is("journal", hub.journal() == "chanhub journal 3\nprocs 2\n0 make 2\n0 start 1\n0 start 0\n0 start 2\n0 start 1\n1 exit\n0 start 1\n"
                                   "1 send 1 1\n1 send 1 2\n0 recv 1\n0 recv 1\n0 recv 1\n1 exit\n");
    is_fault("edition 2", Hub(1).seat(0).start_told(0), Fault::BadCall);
}

// A port that is closed and empty is opened again.
static void reopens() {
    Hub hub(1, Hub::most_steps, Edition::Three);
    const Seat seat = hub.seat(0);
    const Port port = seat.make(1);
    is_fault("open", seat.reopen_told(port, 2), Fault::InUse);
    seat.send(port, 1);
    seat.close(port);
    throws("a value is left", Outcome::Fault, Fault::InUse, "chanhub: fault 16: the port is in use", [&] { seat.reopen(port, 2); });
    is("drained", seat.recv(port) == Value(1) && !seat.recv(port));
    is_fault("capacity", seat.reopen_told(port, 1025), Fault::BadCap);
    is_fault("no port", seat.reopen_told(Port{2}, 0), Fault::NoPort);
    is_fault("port 0", seat.reopen_told(Port{}, 0), Fault::NilClose);
    seat.reopen(port, 2);
    seat.send(port, 2);
    seat.send(port, "ab");
    const chanhub::Counts counts = hub.look(port);
    is("look", counts.made && !counts.closed && counts.cap == 2 && counts.sent == 3 && counts.received == 1);
    is("got", seat.recv(port) == Value(2) && seat.recv(port) == Value("ab"));
    is_fault("edition 2", Hub(1).seat(0).reopen_told(port, 0), Fault::BadCall);
}

// The chapters come once and in order; the last two when the hub is freed, also where another one is moved into it.
static void chapters() {
    std::vector<std::string> texts;
    Hub other(1);
    {
        Hub hub = Hub::endless(1, 2, [&texts](std::string_view text) { texts.emplace_back(text); });
        const Seat seat = hub.seat(0);
        is("without an end", hub.steps_left() == std::numeric_limits<std::uint64_t>::max());
        is("none before", !hub.before());
        const Port port = seat.make(1);
        for (int i = 0; i < 5; i++) {
            seat.send(port, i);
            is("got", seat.recv(port) == Value(i));
        }
        is("fell out", texts.size() == 2 && texts[0] == "chanhub journal 2\nprocs 1\n0 make 1\n0 send 1 0\n");
        is("before", hub.before().has_value());
        is("cut", hub.cut() && texts.size() == 3);
        Hub moved(std::move(hub));
        is("counts go on", moved.look(port).sent == 5 && moved.journal().rfind("chanhub journal 2\n", 0) == 0);
        moved = std::move(other);
        is("freed", texts.size() == 5);
        is("the other one", moved.seat(0).make_told(0).outcome == Outcome::Made && moved.steps_left() == Hub::most_steps - 1);
    }
    is("nothing more", texts.size() == 5);
    Hub silent = Hub::endless(1, 1);
    for (int i = 0; i < 5; i++) is("made", silent.seat(0).make(0) == Port(i + 1));
    std::optional<Hub> counted = Hub::open_endless(1, 1, [&](std::string_view text) { texts.emplace_back(text); });
    is("opened", counted && counted->seat(0).make_told(0).outcome == Outcome::Made);
    counted.reset();
    is("the only one", texts.size() == 6);
}

// The function runs without a lock: it may look at the hub and read its journals, and other threads go on.
static void chapters_of_threads() {
    enum { COUNT = 500 };
    Hub *at = nullptr;
    std::size_t got = 0, looks = 0;
    Hub hub = Hub::endless(2, 10, [&](std::string_view text) {
        got++;
        if (at) looks += at->look(Port{1}).made && !at->journal().empty() && text.rfind("chanhub journal 2\nprocs 2\n", 0) == 0;
    });
    at = &hub;
    const Port port = hub.seat(0).make(2);
    std::uint64_t sum = 0;
    std::thread consumer([&, seat = hub.seat(1)] {
        chanhub::ExitAtEnd exit(seat);
        for (const Value &value : seat.drain(port)) sum += value.number();
    });
    for (int i = 1; i <= COUNT; i++) hub.seat(0).send(port, i);
    hub.seat(0).close(port);
    hub.seat(0).exit();
    consumer.join();
    is("all came", sum == COUNT * (COUNT + 1) / 2);
    is("chapters", got > COUNT / 10 && looks == got);
    at = nullptr;
}

// An exception that leaves the function ends the program. Returns if it does not.
static void chapters_that_throw() {
    std::set_terminate([] { _exit(0); });
    Hub hub = Hub::endless(1, 1, [](std::string_view) { throw std::runtime_error("no room"); });
    for (int i = 0; i < 4; i++) static_cast<void>(hub.seat(0).make_told(0));
}

// Calls that wait for a limited time, on a hub of these options.
static void times() {
    using namespace std::chrono_literals;
    Hub::Options options;
    options.procs = 1;
    options.clock = true;
    const Hub hub = Hub::with(options);
    const Seat seat = hub.seat(0);
    const Port port = seat.make(1);
    const auto began = std::chrono::steady_clock::now();
    is("received in time", seat.recv_for(port, 5ms).outcome == Outcome::TimedOut);
    is("it waited", std::chrono::steady_clock::now() - began >= 5ms);
    is("sent in time", seat.send_for(port, 7, 5ms).outcome == Outcome::Sent);
    is("no room", seat.send_for(port, "ab", 1ms).outcome == Outcome::TimedOut);
    is("no room", seat.send_for(port, 8, -1ms).outcome == Outcome::TimedOut);
    is("no case", seat.select_for(1ms, {chanhub::send(port, 8), chanhub::recv(Port{})}).text() == "timed out");
    const Told got = seat.select_for(1h, {chanhub::send(port, 8), chanhub::recv(port)});
    is("a case", got.outcome == Outcome::Got && got.index == 1 && got.value == Value(7));
    is("nothing waits", !hub.expire(0));
    std::thread other([&] {
        while (!hub.expire(0)) std::this_thread::yield();
    });
    is("made to pass", seat.recv_for(port, 1h).outcome == Outcome::TimedOut);
    other.join();
    is("stalled", seat.recv_told(port).outcome == Outcome::Stalled);
    is_fault("no clock", Hub(1).seat(0).recv_for(Port{}, 1ms), Fault::BadCall);
}

// What no hub has, and one with a limit, a clock and chapters.
static void many_values() {
    const Hub hub(1);
    const Seat seat = hub.seat(0);
    const Port port = seat.make(4);
    seat.send_all(port, std::vector<int>{1, 2, 3});
    is("all that there are", seat.recv_up_to(port, 64) == std::vector<Value>{1, 2, 3});
    seat.send_all(port, std::vector<std::string>{"a", "", "bc"});
    is("as many as wanted", seat.recv_up_to(port, 2) == std::vector<Value>{"a", ""});
    const std::vector<Value> values{4, 5, 6, 7};
    std::size_t count = 9;
    is("full", seat.send_all_told(port, values.data(), values.size(), &count).outcome == Outcome::Stalled && count == 3);
    std::vector<Value> got(2);
    is("the last", seat.recv_up_to_told(port, got.data(), got.size(), &count).value == Value(4) && count == 2);
    is("each", got == std::vector<Value>{"bc", 4});
    throws("a stall in the middle", Outcome::Stalled, Fault::None, "chanhub: stalled", [&] { seat.send_all(port, values); });
    seat.close(port);
    throws("closed", Outcome::Closed, Fault::None, "chanhub: closed", [&] { seat.send_all(port, values); });
    is("none", seat.send_all_told(port, nullptr, 0).outcome == Outcome::Sent);
    is("what is left, at most", seat.recv_up_to(port, std::numeric_limits<std::size_t>::max()).size() == 4);
    is("no more", seat.recv_up_to(port, 64).empty());
    is_fault("none wanted", seat.recv_up_to_told(port, got.data(), 0), Fault::BadCall);
    is_fault("no clock", seat.send_all_for(port, values.data(), 1, std::chrono::milliseconds(1)), Fault::BadCall);

    Hub::Options options;
    options.procs = 1;
    options.clock = true;
    const Hub timed = Hub::with(options);
    const Port two = timed.seat(0).make(2);
    const Told told = timed.seat(0).send_all_for(two, values.data(), values.size(), std::chrono::milliseconds(1), &count);
    is("in the middle", told.outcome == Outcome::TimedOut && count == 2);
    is("got", timed.seat(0).recv_up_to_for(two, got.data(), got.size(), std::chrono::milliseconds(1), &count).value == Value(5));
    is("none", timed.seat(0).recv_up_to_for(two, got.data(), 1, std::chrono::milliseconds(1)).outcome == Outcome::TimedOut);
}

static void options() {
    int error = 0;
    Hub::Options none;
    is("no processes", !Hub::open_with(none, &error) && error == 1);
    Hub::Options old;
    old.procs = 1;
    old.edition = Edition::One;
    is("edition 1", Hub::open_with(old).has_value());
    old.clock = true;
    is("edition 1 with a clock", !Hub::open_with(old, &error) && error == 4);
    std::string text;
    Hub::Options endless;
    endless.procs = 1;
    endless.keep = 5;
    endless.clock = true;
    endless.chapters = [&text](std::string_view chapter) { text += chapter; };
    {
        const std::optional<Hub> hub = Hub::open_with(endless, &error);
        is("opened", hub && error == 0);
        is("no step limit", hub->steps_left() == UINT64_MAX);
        is("exit", hub->seat(0).exit_told().outcome == Outcome::Done);
    }
    is("the chapter", text == "chanhub journal 2\nprocs 2\n1 recv 0\n0 exit\n1 exit\n");
    bool thrown = false;
    try {
        endless.limit = 5;
        static_cast<void>(Hub::with(endless));
    } catch (const chanhub::Error &refused) {
        thrown = refused.opening() == 2;
    }
    is("both a limit and an endless hub", thrown);
}

// Whether no hub follows this text, for this cause and in this line.
static void is_refused(const char *name, std::string_view text, int cause, std::uint32_t line, const char *what) {
    int error = 0;
    std::uint32_t told = 0;
    is(name, !Hub::open_following(text, false, &error, &told) && error == cause && told == line);
    bool thrown = false;
    try {
        static_cast<void>(Hub::follow(text));
    } catch (const chanhub::Error &refused) {
        thrown = refused.opening() == cause && std::strcmp(refused.what(), what) == 0;
    }
    is(name, thrown);
}

static void follows() {
    const std::string journal = "chanhub journal 2\nprocs 1\n0 make 1\n0 send 1 7\n0 recv 1\n";
    const std::string fault = "fault 14: the journal that the hub follows has another step here: ";
    const std::string text = "chanhub: " + fault + "P0 asked send 1 8, the journal ends with step 3";
    const Hub hub = Hub::follow(journal);
    const Seat seat = hub.seat(0);
    const Port port = seat.make(1);
    seat.send(port, 7);
    is("followed", seat.recv(port) == Value(7) && hub.journal() == journal && !hub.divergence());
    throws("behind the end", Outcome::Fault, Fault::Diverged, text.c_str(), [&] { seat.send(port, 8); });
    throws("ended", Outcome::Fault, Fault::Diverged, text.c_str(), [&] { static_cast<void>(seat.recv(port)); });

    const Hub free = Hub::follow(journal, true);
    is("made", free.seat(0).make(1) == port);
    const Told other = free.seat(0).send_told(port, 8);
    is_fault("another value", other, Fault::Diverged);
    is("its step", other.value == Value(2) && other.text() == fault + "step 2");
    is("what was asked", other.text(free.divergence()) == fault + "P0 asked send 1 8, step 2 is 0 send 1 7");
    free.seat(0).send(port, 8);
    is("goes on", free.seat(0).recv(port) == Value(8));
    throws("later", Outcome::Stalled, Fault::None, "chanhub: stalled", [&] { static_cast<void>(free.seat(0).recv(port)); });

    const Hub stopped = Hub::follow(journal);
    stopped.stop();
    const Told told = stopped.seat(0).make_told(1);
    is_fault("stopped", told, Fault::Diverged);
    is("the step that would be next", told.value == Value(1));
    is("what would be next", stopped.divergence() == "stopped before step 1, which is 0 make 1");

    const std::string chosen = "chanhub journal 2\nprocs 1\n0 make 1\n0 select 1 s1:7 s1:8\n0 recv 1\n";
    const Hub again = Hub::follow(chosen);
    is("made", again.seat(0).make(1) == port);
    is("the choice of the journal", again.seat(0).select({chanhub::send(port, 7), chanhub::send(port, 8)}).index == 1);
    is("what was chosen", again.seat(0).recv_told(port).value == Value(8) && again.journal() == chosen);

    is_refused("no journal", {}, 5, 1, "chanhub: the journal to follow is malformed, in line 1");
    is_refused("no word", "chanhub journal 2\nprocs 1\n0 mak 1\n", 5, 3,
               "chanhub: the journal to follow is malformed, in line 3");
    is_refused("a step after an exit", "chanhub journal 2\nprocs 1\n0 exit\n0 make 1\n", 6, 4,
               "chanhub: the journal to follow has a step that no hub admits there, in line 4");
}

int main(int argc, char **argv) {
    alarm(SECONDS);
    if (argc == 2 && std::strcmp(argv[1], "throws") == 0) {
        chapters_that_throw();
        return 1;
    }
    types();
    values();
    openings();
    moves();
    one_process();
    full_journal();
    drains();
    drains_by_algorithm();
    selects();
    stalls();
    cancels();
    resumes();
    times();
    many_values();
    options();
    follows();
    exits();
    starts();
    reopens();
    chapters();
    chapters_of_threads();
    std::printf("cpp: %d of %d right\n", tried - wrong, tried.load());
    return wrong || !tried;
}
