// chanhub.hpp: chanhub.h for C++17. It is only this header: link the C library, as a program in C does.
//
// All names stand in the C type `chanhub`, since no namespace can have its name too: chanhub::Hub, chanhub::Seat, chanhub::Value.
//
// Most calls have two forms. `recv` returns what is usual, a value or that no more will come, and throws chanhub::Error for the rest: a
// stall, a cancel, a fault. `recv_told` returns a chanhub::Told, which has all that C returns, and throws nothing. So do the calls that
// have several usual results: try_send, send_for, select, begin, resume and so on. The compiler warns where a result is not used.
//
// The rules for callers are those of chanhub.h, which also explains each call.
#ifndef CHANHUB_HPP
#define CHANHUB_HPP

#if __cplusplus < 201703L
#error "chanhub.hpp needs C++17 or later, as by -std=c++17; chanhub.h needs C++11"
#endif

#include "chanhub.h"

#include <algorithm>
#include <chrono>
#include <cstddef>
#include <cstdint>
#include <functional>
#include <initializer_list>
#include <iterator>
#include <memory>
#include <new>
#include <optional>
#include <stdexcept>
#include <string>
#include <string_view>
#include <type_traits>
#include <utility>
#include <vector>

struct chanhub {
    // Only the library makes one. It is a scope here.
    chanhub() = delete;
    chanhub(const chanhub &) = delete;
    chanhub &operator=(const chanhub &) = delete;
    ~chanhub() = delete;

    // The kinds of result: all that a call can be told.
    enum class Outcome : std::uint8_t {
        Made = CHANHUB_MADE,
        Sent = CHANHUB_SENT,
        Got = CHANHUB_GOT,
        Drained = CHANHUB_DRAINED,
        Closed = CHANHUB_CLOSED,
        Default = CHANHUB_DEFAULT,
        Done = CHANHUB_DONE,
        Waiting = CHANHUB_WAITING,
        Stalled = CHANHUB_STALLED,
        Fault = CHANHUB_FAULT,
        Cancelled = CHANHUB_CANCELLED,
        TimedOut = CHANHUB_TIMED_OUT,
    };

    // The reasons why the hub did not carry out a call. A full journal is one of them.
    enum class Fault : std::uint8_t {
        None = 0,
        NoProcess = CHANHUB_NO_PROCESS,
        Gone = CHANHUB_GONE,
        Busy = CHANHUB_BUSY,
        TooManyCases = CHANHUB_TOO_MANY_CASES,
        NoPort = CHANHUB_NO_PORT,
        BadCap = CHANHUB_BAD_CAP,
        TooManyPorts = CHANHUB_TOO_MANY_PORTS,
        NilClose = CHANHUB_NIL_CLOSE,
        AlreadyClosed = CHANHUB_ALREADY_CLOSED,
        JournalFull = CHANHUB_JOURNAL_FULL,
        NoMemory = CHANHUB_NO_MEMORY,
        NotParked = CHANHUB_NOT_PARKED,
        BadCall = CHANHUB_BAD_CALL,
        Diverged = CHANHUB_DIVERGED,
        NotYet = CHANHUB_NOT_YET,
        InUse = CHANHUB_IN_USE,
        NotGone = CHANHUB_NOT_GONE,
    };

    // Edition 1 has only numbers as values, 8 cases in a select, and no cancel. Only edition 3 has start and reopen.
    enum class Edition : std::uint8_t { One = 1, Two = 2, Three = 3 };

    // The number of a port. Port{} is port 0, whose cases never proceed.
    enum class Port : std::uint16_t {};

    using Case = chanhub_case;
    using Counts = chanhub_counts;

    class Value;
    struct Told;
    class Error;
    class Seat;
    class Values;
    class ExitAtEnd;
    class Hub;

    // The cases of a select.
    static Case recv(Port port) noexcept;
    static Case send(Port port, const Value &value) noexcept;

private:
    // The text that this call of C makes, or nothing if it makes none.
    static std::optional<std::string> text_by(char *(*call)(chanhub *, std::size_t *), chanhub *hub);
};

inline std::optional<std::string> chanhub::text_by(char *(*call)(chanhub *, std::size_t *), chanhub *hub) {
    std::size_t length = 0;
    const std::unique_ptr<char, void (*)(char *)> text(call(hub, &length), chanhub_free_text);
    if (!text) return std::nullopt;
    return std::string(text.get(), length);
}

// What a channel carries: a number or, from edition 2 on, 0 to 32 bytes.
class chanhub::Value {
public:
    Value() noexcept : Value(0) {}

    // A negative number is sent as 2^64 more.
    template <class Number, std::enable_if_t<std::is_integral_v<Number> && !std::is_same_v<Number, bool>, int> = 0>
    Value(Number number) noexcept : value_(chanhub_number(static_cast<std::uint64_t>(number))) {}

    // Throws std::length_error for more than 32 bytes. They are copied.
    template <class Bytes, std::enable_if_t<std::is_convertible_v<const Bytes &, std::string_view>, int> = 0>
    Value(const Bytes &bytes) : value_(of_bytes(bytes)) {}

    explicit Value(const chanhub_value &value) noexcept : value_(value) {}

    [[nodiscard]] bool is_bytes() const noexcept { return value_.is_bytes; }

    // Throws std::logic_error if the value is bytes.
    [[nodiscard]] std::uint64_t number() const {
        if (value_.is_bytes) throw std::logic_error("chanhub: the value is bytes");
        return value_.number;
    }

    // They are part of this value. Throws std::logic_error if it is a number.
    [[nodiscard]] std::string_view bytes() const & {
        if (!value_.is_bytes) throw std::logic_error("chanhub: the value is a number");
        return {reinterpret_cast<const char *>(value_.bytes), value_.length};
    }
    std::string_view bytes() && = delete;

    [[nodiscard]] const chanhub_value &c() const noexcept { return value_; }

    friend bool operator==(const Value &left, const Value &right) noexcept {
        if (left.is_bytes() != right.is_bytes()) return false;
        return left.is_bytes() ? left.bytes() == right.bytes() : left.value_.number == right.value_.number;
    }
    friend bool operator!=(const Value &left, const Value &right) noexcept { return !(left == right); }

private:
    static chanhub_value of_bytes(std::string_view bytes) {
        const chanhub_value value = chanhub_bytes(bytes.data(), bytes.size());
        if (value.length > sizeof value.bytes) throw std::length_error("chanhub: a value has at most 32 bytes");
        return value;
    }

    chanhub_value value_;
};

inline chanhub::Case chanhub::recv(Port port) noexcept {
    return {false, static_cast<std::uint16_t>(port), {}};
}

inline chanhub::Case chanhub::send(Port port, const Value &value) noexcept {
    return {true, static_cast<std::uint16_t>(port), value.c()};
}

// The whole result of a call. The members beside `outcome` that do not belong to it are 0.
struct chanhub::Told {
    Outcome outcome;
    Fault fault;    // why the hub did not carry out the call, where the outcome is Fault
    unsigned index; // the case that fired
    Port port;      // the port that was made
    Value value;    // what was received; for the fault Diverged, the number of the journal's step

    explicit Told(const chanhub_told &told) noexcept
        : outcome(static_cast<Outcome>(told.what)), fault(static_cast<Fault>(told.fault)), index(told.index),
          port(static_cast<Port>(told.port)), value(told.value) {}

    // `sent`, `stalled`, and for a fault its reason. For the fault Diverged also what Hub::divergence returned, if that is given, or else
    // the number of the step.
    [[nodiscard]] std::string text(const std::optional<std::string> &divergence = std::nullopt) const {
        const std::string name = chanhub_what_name(static_cast<int>(outcome));
        if (outcome != Outcome::Fault) return name;
        const int number = static_cast<int>(fault);
        const std::string reason = name + ' ' + std::to_string(number) + ": " + chanhub_strfault(number);
        if (fault != Fault::Diverged) return reason;
        return reason + ": " + (divergence ? *divergence : "step " + std::to_string(value.number()));
    }
};

// Why a hub was not opened, or how a call ended if its short form has no result for that.
class chanhub::Error : public std::runtime_error {
public:
    explicit Error(int opening, std::uint32_t line = 0)
        : std::runtime_error(std::string("chanhub: ") + chanhub_strerror(opening) +
                             (line ? ", in line " + std::to_string(line) : "")),
          opening_(opening) {}
    explicit Error(const Told &told, const std::optional<std::string> &divergence = std::nullopt)
        : std::runtime_error("chanhub: " + told.text(divergence)), told_(told) {}

    // What chanhub_open returned; 0 if it was a call that failed.
    [[nodiscard]] int opening() const noexcept { return opening_; }

    // How the call ended; nothing if it was an opening that failed.
    [[nodiscard]] const std::optional<Told> &told() const noexcept { return told_; }

private:
    int opening_ = 0;
    std::optional<Told> told_;
};

// A process of a hub. It may be copied. It does not own the hub, and must not be used once the hub is freed.
class chanhub::Seat {
public:
    Seat(chanhub *hub, unsigned pid) noexcept : hub_(hub), pid_(pid) {}

    [[nodiscard]] unsigned pid() const noexcept { return pid_; }

    // ---- The short calls. They throw Error where they have no result for how the call ended. ----

    [[nodiscard]] Port make(std::uint32_t cap) const { return wanted(make_told(cap), Outcome::Made).port; }

    // Throws Error also if the port is closed, as Go panics.
    void send(Port port, const Value &value) const { wanted(send_told(port, value), Outcome::Sent); }

    // Nothing if the port is closed and empty.
    [[nodiscard]] std::optional<Value> recv(Port port) const {
        const Told told = recv_told(port);
        if (told.outcome == Outcome::Drained) return std::nullopt;
        return wanted(told, Outcome::Got).value;
    }

    // Sends all values of a range, such as a vector of numbers. Throws Error if one was not sent; those before it were.
    template <class Range> void send_all(Port port, const Range &values) const {
        const std::vector<Value> all(std::begin(values), std::end(values));
        wanted(send_all_told(port, all.data(), all.size()), Outcome::Sent);
    }

    // Waits for a value, and takes up to `most` while the buffer holds any. None if the port is closed and empty.
    [[nodiscard]] std::vector<Value> recv_up_to(Port port, std::size_t most) const {
        std::vector<Value> values(std::min(most, most_at_once));
        std::size_t received = 0;
        const Told told = recv_up_to_told(port, values.data(), values.size(), &received);
        if (told.outcome != Outcome::Drained) wanted(told, Outcome::Got);
        values.resize(received);
        return values;
    }

    // For a range-for: receives until the port is closed and empty.
    [[nodiscard]] Values drain(Port port) const noexcept;

    void close(Port port) const { wanted(close_told(port), Outcome::Done); }

    // Opens a port again that is closed and empty. Requires edition 3.
    void reopen(Port port, std::uint32_t cap) const { wanted(reopen_told(port, cap), Outcome::Done); }

    // Ends the process. A seat does not do so by itself; ExitAtEnd does.
    void exit() const { wanted(exit_told(), Outcome::Done); }

    // Starts the process `other` again, which has exited. Its seats can call again, those from before and those that Hub::seat returns.
    // Requires edition 3.
    void start(unsigned other) const { wanted(start_told(other), Outcome::Done); }

    // Whether the process `other` had a waiting call. It is cancelled then.
    [[nodiscard]] bool cancel(unsigned other) const {
        const Told told = cancel_told(other);
        if (told.fault == Fault::NotParked) return false;
        wanted(told, Outcome::Done);
        return true;
    }

    // ---- The calls that return a Told, and throw nothing. ----

    [[nodiscard]] Told make_told(std::uint32_t cap) const noexcept { return Told(chanhub_make(hub_, pid_, cap)); }
    [[nodiscard]] Told send_told(Port port, const Value &value) const noexcept {
        return Told(chanhub_send(hub_, pid_, static_cast<unsigned>(port), value.c()));
    }
    [[nodiscard]] Told recv_told(Port port) const noexcept { return Told(chanhub_recv(hub_, pid_, static_cast<unsigned>(port))); }
    [[nodiscard]] Told close_told(Port port) const noexcept { return Told(chanhub_close(hub_, pid_, static_cast<unsigned>(port))); }
    [[nodiscard]] Told reopen_told(Port port, std::uint32_t cap) const noexcept {
        return Told(chanhub_reopen(hub_, pid_, static_cast<unsigned>(port), cap));
    }
    [[nodiscard]] Told exit_told() const noexcept { return Told(chanhub_exit(hub_, pid_)); }
    [[nodiscard]] Told start_told(unsigned other) const noexcept { return Told(chanhub_start(hub_, pid_, other)); }
    [[nodiscard]] Told cancel_told(unsigned other) const noexcept { return Told(chanhub_cancel(hub_, pid_, other)); }

    // What the first value was told that was not sent, and how many were; or the last that was received.
    [[nodiscard]] Told send_all_told(Port port, const Value *values, std::size_t count, std::size_t *sent = nullptr) const noexcept {
        return send_all_until(port, values, count, CHANHUB_NEVER, sent);
    }
    [[nodiscard]] Told recv_up_to_told(Port port, Value *values, std::size_t most, std::size_t *received = nullptr) const noexcept {
        return recv_up_to_until(port, values, most, CHANHUB_NEVER, received);
    }

    // They never wait: the outcome is Default instead.
    [[nodiscard]] Told try_send(Port port, const Value &value) const noexcept {
        return Told(chanhub_try_send(hub_, pid_, static_cast<unsigned>(port), value.c()));
    }
    [[nodiscard]] Told try_recv(Port port) const noexcept {
        return Told(chanhub_try_recv(hub_, pid_, static_cast<unsigned>(port)));
    }

    // They wait for at most this time: the outcome is TimedOut then. They need a hub with a clock (Hub::Options).
    [[nodiscard]] Told send_for(Port port, const Value &value, std::chrono::nanoseconds time) const noexcept {
        return Told(chanhub_send_until(hub_, pid_, static_cast<unsigned>(port), value.c(), deadline_in(time)));
    }
    [[nodiscard]] Told recv_for(Port port, std::chrono::nanoseconds time) const noexcept {
        return Told(chanhub_recv_until(hub_, pid_, static_cast<unsigned>(port), deadline_in(time)));
    }
    [[nodiscard]] Told send_all_for(Port port, const Value *values, std::size_t count, std::chrono::nanoseconds time,
                                    std::size_t *sent = nullptr) const noexcept {
        return send_all_until(port, values, count, deadline_in(time), sent);
    }
    [[nodiscard]] Told recv_up_to_for(Port port, Value *values, std::size_t most, std::chrono::nanoseconds time,
                                      std::size_t *received = nullptr) const noexcept {
        return recv_up_to_until(port, values, most, deadline_in(time), received);
    }

    // seat.select({chanhub::recv(jobs), chanhub::send(results, 7)}) waits until one of the cases can proceed. If several can, a random word
    // makes a fair choice, and word 0 picks the first.
    [[nodiscard]] Told select(std::initializer_list<Case> cases, std::uint64_t word = 0) const noexcept {
        return select(cases.begin(), cases.size(), word);
    }
    [[nodiscard]] Told select(const Case *cases, std::size_t count, std::uint64_t word = 0) const noexcept {
        return Told(chanhub_select(hub_, pid_, cases, count, false, word));
    }

    // The same, for at most this time, as send_for.
    [[nodiscard]] Told select_for(std::chrono::nanoseconds time, std::initializer_list<Case> cases, std::uint64_t word = 0) const noexcept {
        return select_for(time, cases.begin(), cases.size(), word);
    }
    [[nodiscard]] Told select_for(std::chrono::nanoseconds time, const Case *cases, std::size_t count,
                                  std::uint64_t word = 0) const noexcept {
        return Told(chanhub_select_until(hub_, pid_, cases, count, false, word, deadline_in(time)));
    }

    // The same with a default.
    [[nodiscard]] Told try_select(std::initializer_list<Case> cases, std::uint64_t word = 0) const noexcept {
        return try_select(cases.begin(), cases.size(), word);
    }
    [[nodiscard]] Told try_select(const Case *cases, std::size_t count, std::uint64_t word = 0) const noexcept {
        return Told(chanhub_select(hub_, pid_, cases, count, true, word));
    }

    // A select that does not wait for its answer: the outcome is Waiting, and the call stays open until `resume` returns the answer.
    [[nodiscard]] Told begin(std::initializer_list<Case> cases, std::uint64_t word = 0) const noexcept {
        return Told(chanhub_begin(hub_, pid_, cases.begin(), cases.size(), false, word));
    }

    // Waits for that answer, without a limit or for this time. The outcome is Waiting if the time is up.
    [[nodiscard]] Told resume() const noexcept { return Told(chanhub_resume(hub_, pid_, UINT64_MAX)); }
    [[nodiscard]] Told resume(std::chrono::nanoseconds time) const noexcept {
        return Told(chanhub_resume(hub_, pid_, number_of(time)));
    }

private:
    static std::uint64_t number_of(std::chrono::nanoseconds time) noexcept {
        return time.count() > 0 ? static_cast<std::uint64_t>(time.count()) : 0;
    }
    static std::uint64_t deadline_in(std::chrono::nanoseconds time) noexcept { return chanhub_in(number_of(time)); }

    static constexpr std::size_t most_at_once = 1'024 + 63; // a full buffer, and what all others wait to send

    // A Value is no more than what it has of C.
    static_assert(sizeof(Value) == sizeof(chanhub_value) && std::is_standard_layout_v<Value>);
    Told send_all_until(Port port, const Value *values, std::size_t count, std::uint64_t deadline, std::size_t *sent) const noexcept {
        const auto *c = reinterpret_cast<const chanhub_value *>(values);
        return Told(chanhub_send_all(hub_, pid_, static_cast<unsigned>(port), c, count, deadline, sent));
    }
    Told recv_up_to_until(Port port, Value *values, std::size_t most, std::uint64_t deadline, std::size_t *received) const noexcept {
        auto *c = reinterpret_cast<chanhub_value *>(values);
        return Told(chanhub_recv_up_to(hub_, pid_, static_cast<unsigned>(port), c, most, deadline, received));
    }

    const Told &wanted(const Told &told, Outcome outcome) const {
        if (told.outcome != outcome) throw Error(told, text_by(chanhub_divergence, hub_));
        return told;
    }

    chanhub *hub_;
    unsigned pid_;
};

// The values that a process receives from a port, until the port is closed and empty. A receive that ends in another way throws Error.
class chanhub::Values {
public:
    class iterator {
    public:
        using iterator_category = std::input_iterator_tag;
        using value_type = Value;
        using difference_type = std::ptrdiff_t;
        using pointer = const Value *;
        using reference = const Value &;

        iterator() noexcept = default;
        iterator(Seat seat, Port port) : seat_(seat), port_(port), value_(seat.recv(port)) {}

        reference operator*() const noexcept { return *value_; }
        pointer operator->() const noexcept { return &*value_; }
        iterator &operator++() {
            value_ = seat_.recv(port_);
            return *this;
        }
        void operator++(int) { ++*this; }

        // Equal if both are at the end, or neither.
        friend bool operator==(const iterator &left, const iterator &right) noexcept { return !left.value_ == !right.value_; }
        friend bool operator!=(const iterator &left, const iterator &right) noexcept { return !(left == right); }

    private:
        Seat seat_{nullptr, 0};
        Port port_{};
        std::optional<Value> value_;
    };

    Values(Seat seat, Port port) noexcept : seat_(seat), port_(port) {}

    // Receives the first value.
    [[nodiscard]] iterator begin() const { return {seat_, port_}; }
    [[nodiscard]] iterator end() const noexcept { return {}; }

private:
    Seat seat_;
    Port port_;
};

inline chanhub::Values chanhub::Seat::drain(Port port) const noexcept {
    return {*this, port};
}

// Exits a process at the end of a scope, also if an exception ends it. If the hub refuses the exit, because the process has exited or its
// call is open, nothing happens.
class chanhub::ExitAtEnd {
public:
    explicit ExitAtEnd(Seat seat) noexcept : seat_(seat) {}
    ~ExitAtEnd() { static_cast<void>(seat_.exit_told()); }
    ExitAtEnd(const ExitAtEnd &) = delete;
    ExitAtEnd &operator=(const ExitAtEnd &) = delete;

private:
    Seat seat_;
};

// A hub, which is freed at the end of its scope. It can be moved; seats stay valid then. No call may be running when it is freed.
class chanhub::Hub {
public:
    // Gets the text of a chapter, as chanhub_open_endless says. If there was no memory for it, data() is null. An exception cannot go
    // through C: one that leaves the function ends the program.
    using Chapters = std::function<void(std::string_view text)>;

    static constexpr std::uint32_t most_steps = 1'000'000;

    // How `with` opens a hub. What is left as it is here has its usual meaning, as in chanhub_options.
    struct Options {
        unsigned procs = 0;
        Edition edition = Edition::Two;
        std::uint32_t limit = 0;
        std::uint32_t keep = 0;
        Chapters chapters = nullptr;
        bool clock = false; // whether calls may wait for a limited time
    };

    // A hub that makes at most `limit` steps, not counting exits. Throws Error if it cannot be opened.
    explicit Hub(unsigned procs, std::uint32_t limit = most_steps, Edition edition = Edition::Two) {
        int error = 0;
        std::optional<Hub> hub = open(procs, limit, edition, &error);
        if (!hub) throw Error(error);
        *this = *std::move(hub);
    }

    // A hub that never ends, which keeps the newest `keep` steps. Throws Error if it cannot be opened.
    [[nodiscard]] static Hub endless(unsigned procs, std::uint32_t keep, Chapters chapters = nullptr, Edition edition = Edition::Two) {
        int error = 0;
        std::optional<Hub> hub = open_endless(procs, keep, std::move(chapters), edition, &error);
        if (!hub) throw Error(error);
        return *std::move(hub);
    }

    // A hub with these options. Throws Error if it cannot be opened.
    [[nodiscard]] static Hub with(Options options) {
        int error = 0;
        std::optional<Hub> hub = open_with(std::move(options), &error);
        if (!hub) throw Error(error);
        return *std::move(hub);
    }

    // A hub that follows a journal, as the comment below chanhub_open_with says. Throws Error if it cannot be opened.
    [[nodiscard]] static Hub follow(std::string_view journal, bool goes_on = false) {
        int error = 0;
        std::uint32_t line = 0;
        std::optional<Hub> hub = open_following(journal, goes_on, &error, &line);
        if (!hub) throw Error(error, line);
        return *std::move(hub);
    }

    // The same without exceptions: nothing if it cannot be opened, and then *error is the cause, for chanhub_strerror.
    [[nodiscard]] static std::optional<Hub> open(unsigned procs, std::uint32_t limit = most_steps, Edition edition = Edition::Two,
                                                 int *error = nullptr) noexcept {
        chanhub *hub = nullptr;
        const int cause = chanhub_open(&hub, static_cast<unsigned>(edition), procs, limit);
        if (error) *error = cause;
        if (cause) return std::nullopt;
        return Hub(hub, {});
    }
    [[nodiscard]] static std::optional<Hub> open_endless(unsigned procs, std::uint32_t keep, Chapters chapters = nullptr,
                                                         Edition edition = Edition::Two, int *error = nullptr) noexcept {
        return opened(std::move(chapters), error, [=](chanhub **hub, chanhub_chapters *function, void *pointer) {
            return chanhub_open_endless(hub, static_cast<unsigned>(edition), procs, keep, function, pointer);
        });
    }
    [[nodiscard]] static std::optional<Hub> open_with(Options options, int *error = nullptr) noexcept {
        chanhub_options c = {};
        c.edition = static_cast<unsigned>(options.edition);
        c.procs = options.procs;
        c.limit = options.limit;
        c.keep = options.keep;
        c.clock = options.clock;
        return opened(std::move(options.chapters), error, [&c](chanhub **hub, chanhub_chapters *function, void *pointer) {
            c.chapters = function;
            c.pointer = pointer;
            return chanhub_open_with(hub, &c);
        });
    }

    // If the journal is refused, *line is the number of its faulty line.
    [[nodiscard]] static std::optional<Hub> open_following(std::string_view journal, bool goes_on = false, int *error = nullptr,
                                                           std::uint32_t *line = nullptr) noexcept {
        chanhub_options c = {};
        c.journal = journal.data() ? journal.data() : "";
        c.journal_length = journal.size();
        c.goes_on = goes_on;
        c.journal_line = line;
        return opened(nullptr, error, [&c](chanhub **hub, chanhub_chapters *, void *) { return chanhub_open_with(hub, &c); });
    }

    [[nodiscard]] Seat seat(unsigned pid) const noexcept { return {hub_.get(), pid}; }

    [[nodiscard]] Counts look(Port port) const noexcept { return chanhub_look(hub_.get(), static_cast<unsigned>(port)); }

    [[nodiscard]] std::uint64_t steps_left() const noexcept { return chanhub_steps_left(hub_.get()); }

    // Throws std::bad_alloc if memory runs out.
    [[nodiscard]] std::string journal() const {
        std::optional<std::string> text = text_by(chanhub_journal, hub_.get());
        if (!text) throw std::bad_alloc();
        return *std::move(text);
    }

    // Nothing if there is no chapter before, or no memory.
    [[nodiscard]] std::optional<std::string> before() const { return text_by(chanhub_before, hub_.get()); }

    // Where a hub that follows a journal diverged, what was asked and what the journal has: `P2 asked send 2 3, step 17 is 2 send 2 2`.
    // Nothing if it has not diverged, or if memory runs out.
    [[nodiscard]] std::optional<std::string> divergence() const { return text_by(chanhub_divergence, hub_.get()); }

    // Has the time of the process's waiting call be up. Returns false if it has no waiting call with such a time.
    bool expire(unsigned pid) const noexcept { return chanhub_expire(hub_.get(), pid); }

    // Ends a hub that follows a journal: all calls that wait, and all later ones, end with the fault Diverged.
    void stop() const noexcept { chanhub_stop(hub_.get()); }

    // Whether it was cut.
    [[nodiscard]] bool cut() const noexcept { return chanhub_cut(hub_.get()); }

    // For the calls of chanhub.h.
    [[nodiscard]] chanhub *get() const noexcept { return hub_.get(); }

private:
    static constexpr int no_memory = 3; // as chanhub_open returns it

    // The function gets the last chapters from chanhub_free, so it goes later than the hub.
    struct Free {
        std::unique_ptr<Chapters> chapters;
        void operator()(chanhub *hub) const noexcept { chanhub_free(hub); }
    };

    Hub(chanhub *hub, Free free) noexcept : hub_(hub, std::move(free)) {}

    // A hub that this function of C's hub, chapters and pointer opens.
    template <class Open> static std::optional<Hub> opened(Chapters chapters, int *error, Open open) noexcept {
        const bool hands_out = static_cast<bool>(chapters);
        Free free;
        if (hands_out) free.chapters.reset(new (std::nothrow) Chapters(std::move(chapters)));
        chanhub *hub = nullptr;
        int cause = no_memory;
        if (!hands_out || free.chapters) cause = open(&hub, hands_out ? hand_out : nullptr, free.chapters.get());
        if (error) *error = cause;
        if (cause) return std::nullopt;
        return Hub(hub, std::move(free));
    }

    static void hand_out(void *chapters, const char *text, std::size_t length) noexcept {
        (*static_cast<Chapters *>(chapters))({text, length});
    }

    std::unique_ptr<chanhub, Free> hub_;
};

#endif
