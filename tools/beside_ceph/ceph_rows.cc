// Measures Ceph's OSDCap::is_capable and OSDCap::parse in the rows of `osdgate_bench verdict` and `osdgate_bench parse`, and
// asks them for the answers that compare.py compares with ours.
//
// This is a library that the loader puts before the program ceph-osd. It has no code of Ceph: the functions that it
// measures are those of the program, which exports them. Instead of the program's main, the library's runs.
//
// The texts, targets, loops and runs are those of crates/osdgate_bench (verdict.rt, parse.rt, grants.rt) and crates/stopwatch (measure.rt).

#include <arpa/inet.h>
#include <dlfcn.h>
#include <netinet/in.h>
#include <unistd.h>

#include <algorithm>
#include <chrono>
#include <cstdint>
#include <cstdio>
#include <cstdlib>
#include <cstring>
#include <fstream>
#include <iosfwd>
#include <map>
#include <sstream>
#include <string>
#include <vector>

// What of Ceph's types a caller needs. The names make the names of the exported functions; that the layouts are those
// of the program is what check_layouts tries.

struct entity_addr_t {
    uint32_t type;
    uint32_t nonce;
    union {
        sockaddr generic;
        sockaddr_in four;
        sockaddr_in6 six;
    } address;
};

struct OpInfo {
    struct ClassInfo {
        std::string class_name;
        std::string method_name;
        bool read;
        bool write;
        bool allowed;
    };
};

using Applications = std::map<std::string, std::map<std::string, std::string>>;
using Classes = std::vector<OpInfo::ClassInfo>;

// The destructor of a vector of grants, as the program has it.
extern "C" void destroy_grants(void *grants) __asm__("_ZNSt6vectorI11OSDCapGrantSaIS0_EED1Ev");

struct OSDCap {
    // A vector of grants, whose type is not told here.
    char *begin = nullptr;
    char *end = nullptr;
    char *capacity = nullptr;

    OSDCap() = default;
    OSDCap(const OSDCap &) = delete;
    OSDCap &operator=(const OSDCap &) = delete;
    ~OSDCap() { destroy_grants(this); }

    bool parse(const std::string &text, std::ostream *error);
    bool is_capable(const std::string &pool, const std::string &name_space, const Applications &applications,
                    const std::string &object, bool reads, bool writes, const Classes &classes,
                    const entity_addr_t &peer) const;
};

namespace {

[[noreturn]] void fail(const std::string &why) {
    std::fprintf(stderr, "ceph_rows: %s\n", why.c_str());
    std::fflush(nullptr);
    _exit(1);
}

void expect(bool holds, const std::string &what) {
    if (!holds) fail("not as expected: " + what);
}

// Runs and times, as in measure.rt.

constexpr size_t RUNS = 15;
constexpr uint64_t LONG_ENOUGH = 5'000'000;
constexpr int DOUBLINGS = 30;

struct Run {
    uint64_t nanoseconds;
    size_t yes;
};

template <typename Work>
Run timed_run(const Work &work, size_t calls) {
    const auto start = std::chrono::steady_clock::now();
    size_t yes = 0;
    for (size_t turn = 0; turn < calls; ++turn) {
        if (work.once(turn)) ++yes;
    }
    const auto passed = std::chrono::steady_clock::now() - start;
    return {static_cast<uint64_t>(std::chrono::duration_cast<std::chrono::nanoseconds>(passed).count()), yes};
}

template <typename Work>
size_t enough_calls(const Work &work) {
    size_t calls = 1;
    for (int doubled = 0; doubled < DOUBLINGS; ++doubled) {
        if (timed_run(work, calls).nanoseconds >= LONG_ENOUGH) break;
        calls *= 2;
    }
    return calls;
}

struct Table {
    size_t calls = 0;
    size_t yes = 0;

    Table() { std::printf("%-48s%12s%12s\n", "nanoseconds a call, of 15 runs", "least", "middle"); }

    // Measures a piece of work, prints its line, and makes sure that each call answered as it should.
    template <typename Work>
    void row(const std::string &name, const Work &work, bool answer) {
        const size_t calls_of_run = enough_calls(work);
        uint64_t tenths[RUNS];
        for (uint64_t &one : tenths) {
            const Run run = timed_run(work, calls_of_run);
            one = run.nanoseconds * 10 / calls_of_run;
            expect(run.yes == (answer ? calls_of_run : 0), name);
            calls += calls_of_run;
            yes += run.yes;
        }
        std::sort(tenths, tenths + RUNS);
        std::printf("%-48s%12s%12s\n", name.c_str(), text_of(tenths[0]).c_str(), text_of(tenths[RUNS / 2]).c_str());
    }

    void finish() const { std::printf("%zu of %zu calls answered yes\n", yes, calls); }

    static std::string text_of(uint64_t tenths) {
        return std::to_string(tenths / 10) + "." + std::to_string(tenths % 10);
    }
};

// The verdicts, as in verdict.rt.

constexpr size_t FIRST = 10;
constexpr size_t NOBODY = 99;

enum class Shape { pool, place, tag, call };

const char *name_of(Shape shape) {
    switch (shape) {
        case Shape::pool: return "pool";
        case Shape::place: return "pool, namespace, prefix";
        case Shape::tag: return "tag";
        case Shape::call: break;
    }
    return "class call";
}

std::string grant(Shape shape, const std::string &name, size_t number) {
    const std::string digits = std::to_string(number);
    switch (shape) {
        case Shape::pool: return "allow rw pool=" + name + digits;
        case Shape::place: return "allow rw pool=" + name + " namespace=spaces object_prefix image." + digits + ".";
        case Shape::tag: return "allow rw tag cephfs data=" + name + digits;
        case Shape::call: break;
    }
    return "allow class " + name + digits;
}

std::string grants(Shape shape, const std::string &name, size_t count) {
    std::string text;
    for (size_t number = FIRST; number < FIRST + count; ++number) {
        if (!text.empty()) text += ", ";
        text += grant(shape, name, number);
    }
    return text;
}

// The peer of a session: some address. A verdict looks at it only where a grant names a network, and none here does.
entity_addr_t peer_at(uint32_t address) {
    entity_addr_t peer;
    std::memset(&peer, 0, sizeof peer);
    peer.type = 2;
    peer.address.four.sin_family = AF_INET;
    peer.address.four.sin_port = htons(6800);
    peer.address.four.sin_addr.s_addr = htonl(address);
    return peer;
}

// Where a request goes. An OSD passes the names of its pool and of the request's namespace and object, and the
// application metadata of its map's pool, which is what the tags of a target are.
struct Place {
    std::string pool;
    std::string name_space;
    Applications applications;
    std::string object;
};

// Requests that all have one verdict, four objects in turn. As an OSD does, it is asked whether the request needs
// the right to read or to write besides its class calls (need_read_cap, need_write_cap), and of each call its class,
// its method, whether it reads and writes, and whether its class is on the list of those that `x` is for.
struct Judge {
    OSDCap caps;
    std::vector<Place> places;
    bool plain;
    Classes classes;
    entity_addr_t peer = peer_at(0x0a000001);

    Judge(Shape shape, const std::string &name, size_t count, size_t number) : plain(shape != Shape::call) {
        expect(caps.parse(grants(shape, name, count), nullptr), "the text of a ticket is refused");
        const std::string numbered = name + std::to_string(number);
        for (size_t object = 0; object < 4; ++object) {
            places.push_back({shape == Shape::pool ? numbered : name,
                              "spaces",
                              {{"cephfs", {{"data", numbered}}}},
                              "image." + std::to_string(number) + "." + std::to_string(object)});
        }
        if (shape == Shape::call) classes.push_back({numbered, "get", true, false, true});
    }

    bool once(size_t turn) const {
        const Place &place = places[turn % 4];
        return caps.is_capable(place.pool, place.name_space, place.applications, place.object, plain, plain, classes,
                               peer);
    }
};

void print_verdicts(const std::string &name) {
    Table table;
    for (const Shape shape : {Shape::pool, Shape::place, Shape::tag, Shape::call}) {
        for (const size_t count : {1, 4, 16, 64}) {
            const std::string by = std::string("judge, ") + name_of(shape) + ", ";
            const std::string of = " of " + std::to_string(count);
            table.row(by + "last" + of, Judge(shape, name, count, FIRST + count - 1), true);
            table.row(by + "none" + of, Judge(shape, name, count, NOBODY), false);
        }
    }
    table.finish();
}

// The texts, as in parse.rt. As an OSD does at a login, it is asked for no words on what it refuses.

struct Parse {
    std::string text;

    bool once(size_t) const {
        OSDCap caps;
        return caps.parse(text, nullptr) && caps.begin != caps.end;
    }
};

void print_parses(const std::string &name) {
    Table table;
    table.row("parse, allow *", Parse{"allow *"}, true);
    table.row("parse, one grant with a pool", Parse{"allow rw pool=" + name}, true);
    table.row("parse, two grants, a prefix and a pool",
              Parse{"allow r object_prefix " + name + "., allow rw pool=" + name}, true);
    table.row("parse, 64 grants with pools", Parse{grants(Shape::pool, name, 64)}, true);
    table.row("parse, refused at its second grant", Parse{"allow rw pool=" + name + ", permit r"}, false);
    table.finish();
}

// Answers to requests of files, for compare.py.

std::vector<std::string> split(const std::string &text, char mark) {
    std::vector<std::string> parts;
    size_t from = 0;
    for (size_t at = text.find(mark); at != std::string::npos; at = text.find(mark, from)) {
        parts.push_back(text.substr(from, at - from));
        from = at + 1;
    }
    parts.push_back(text.substr(from));
    return parts;
}

std::vector<std::string> lines_of(const std::string &path) {
    std::ifstream file(path);
    if (!file) fail("cannot be read: " + path);
    std::vector<std::string> lines;
    for (std::string line; std::getline(file, line);) lines.push_back(line);
    return lines;
}

std::string bytes_of(const std::string &hexes) {
    std::string bytes;
    for (size_t at = 0; at + 1 < hexes.size(); at += 2) {
        bytes += static_cast<char>(std::stoi(hexes.substr(at, 2), nullptr, 16));
    }
    return bytes;
}

entity_addr_t peer_of(const std::string &text) {
    entity_addr_t peer;
    std::memset(&peer, 0, sizeof peer);
    peer.type = 2;
    if (inet_pton(AF_INET, text.c_str(), &peer.address.four.sin_addr) == 1) {
        peer.address.four.sin_family = AF_INET;
        peer.address.four.sin_port = htons(6800);
    } else if (inet_pton(AF_INET6, text.c_str(), &peer.address.six.sin6_addr) == 1) {
        peer.address.six.sin6_family = AF_INET6;
        peer.address.six.sin6_port = htons(6800);
    } else {
        fail("no address: " + text);
    }
    return peer;
}

// A line of tab-separated fields: pool, namespace, object, reads, writes, address, tags and calls. Names are hexadecimal.
struct Request {
    Place place;
    bool reads;
    bool writes;
    Classes calls;
    entity_addr_t peer;

    explicit Request(const std::string &line) {
        const std::vector<std::string> fields = split(line, '\t');
        if (fields.size() != 8) fail("a request has 8 fields: " + line);
        place = {bytes_of(fields[0]), bytes_of(fields[1]), {}, bytes_of(fields[2])};
        reads = fields[3] == "1";
        writes = fields[4] == "1";
        peer = peer_of(fields[5]);
        if (!fields[6].empty()) {
            for (const std::string &tag : split(fields[6], ',')) {
                const std::vector<std::string> parts = split(tag, ':');
                auto &pairs = place.applications[bytes_of(parts[0])];
                if (parts.size() == 3) pairs[bytes_of(parts[1])] = bytes_of(parts[2]);
            }
        }
        if (!fields[7].empty()) {
            for (const std::string &call : split(fields[7], ',')) {
                const std::vector<std::string> parts = split(call, ':');
                if (parts.size() != 5) fail("a call has 5 parts: " + call);
                calls.push_back({bytes_of(parts[0]), bytes_of(parts[1]), parts[2] == "1", parts[3] == "1", parts[4] == "1"});
            }
        }
    }

    bool is_allowed(const OSDCap &caps) const {
        return caps.is_capable(place.pool, place.name_space, place.applications, place.object, reads, writes, calls, peer);
    }
};

// The byte at which Ceph stopped to read a text, by its own words on it: .. stopped at 'REST' of 'TEXT'.
std::string refusal_of(const std::string &text, const std::string &words) {
    const std::string front = "stopped at '";
    const size_t at = words.find(front);
    const size_t behind = words.rfind("' of '" + text);
    if (at == std::string::npos || behind == std::string::npos) return "refused";
    return "refused " + std::to_string(text.size() - (behind - at - front.size()));
}

// A line for each text: `refused` and the byte where reading stopped, or 1 for each request that is allowed and 0 for each that
// is denied.
void print_answers(const std::string &texts, const std::string &requests) {
    std::vector<Request> asked;
    for (const std::string &line : lines_of(requests)) asked.emplace_back(line);
    for (const std::string &line : lines_of(texts)) {
        OSDCap caps;
        const std::string text = bytes_of(line);
        std::ostringstream words;
        std::string answers;
        if (!caps.parse(text, &words)) answers = refusal_of(text, words.str());
        else for (const Request &request : asked) answers += request.is_allowed(caps) ? '1' : '0';
        std::printf("%s\n", answers.c_str());
    }
}

// Asks the program for verdicts that come out only where the layouts above are its own.
void check_layouts() {
    const auto answer = [](const char *text, bool reads, bool writes, const Classes &classes, uint32_t address) {
        OSDCap caps;
        expect(caps.parse(text, nullptr), text);
        return caps.is_capable("data", "spaces", {{"cephfs", {{"data", "here"}}}}, "image.1", reads, writes, classes,
                               peer_at(address));
    };
    const uint32_t home = 0x0a000001;
    expect(answer("allow r", true, false, {}, home), "a read is allowed");
    expect(!answer("allow r", false, true, {}, home), "a write is denied");
    expect(!answer("allow rw namespace=other", true, true, {}, home), "another namespace is denied");
    expect(answer("allow rw tag cephfs data=here", true, true, {}, home), "a tag is found");
    expect(!answer("allow rw tag cephfs data=there", true, true, {}, home), "another tag is denied");
    expect(answer("allow r network 10.0.0.0/8", true, false, {}, home), "a peer of the network is allowed");
    expect(!answer("allow r network 10.0.0.0/8", true, false, {}, 0x0b000001), "another peer is denied");
    const auto from_six = [](const char *text, const char *address) {
        OSDCap caps;
        expect(caps.parse(text, nullptr), text);
        return caps.is_capable("data", "", {}, "image.1", true, false, {}, peer_of(address));
    };
    expect(from_six("allow r network fd00::/8", "fd12::1"), "an IPv6 peer of the network is allowed");
    expect(!from_six("allow r network fd00::/8", "fc00::1"), "another IPv6 peer is denied");
    expect(answer("allow class lock get", false, false, {{"lock", "get", true, true, false}}, home), "a method");
    expect(!answer("allow class lock get", false, false, {{"lock", "set", true, true, false}}, home), "no method");
    expect(answer("allow x", false, false, {{"lock", "get", true, true, true}}, home), "a listed class");
    expect(!answer("allow x", false, false, {{"lock", "get", true, true, false}}, home), "a class not listed");
    expect(answer("allow class-read", false, false, {{"lock", "get", true, false, true}}, home), "a call that reads");
    expect(!answer("allow class-read", false, false, {{"lock", "get", false, true, true}}, home), "one that writes");
    expect(!answer("allow class lock", false, false,
                   {{"lock", "get", true, false, true}, {"other", "get", true, false, true}}, home),
           "the second of two calls");
}

int main_of_rows(int count, char **words, char **) {
    if (count == 4 && std::string(words[1]) == "answers") {
        check_layouts();
        print_answers(words[2], words[3]);
        std::fflush(nullptr);
        _exit(0);
    }
    const std::string part = count > 1 ? words[1] : "";
    const std::string name = count > 2 ? words[2] : "data";
    if (count > 3 || (part != "verdict" && part != "parse")) fail("the words are verdict or parse, and a name");
    check_layouts();
    if (part == "verdict") print_verdicts(name);
    if (part == "parse") print_parses(name);
    std::fflush(nullptr);
    // The program's own end is not wanted: it never began.
    _exit(0);
}

}  // namespace

using Main = int(int, char **, char **);
using Start = int(Main *, int, char **, void (*)(), void (*)(), void (*)(), void *);

// The C library's function that a program begins with, here with another main. The program's own static values are
// made first.
extern "C" int __libc_start_main(Main *, int count, char **words, void (*init)(), void (*fini)(), void (*end)(),
                                 void *stack) {
    Start *const start = reinterpret_cast<Start *>(dlsym(RTLD_NEXT, "__libc_start_main"));
    if (start == nullptr) _exit(1);
    return start(main_of_rows, count, words, init, fini, end, stack);
}
