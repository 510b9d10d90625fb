// Sigmuyap's access gate for C++17: RAII handles over sigmuyap.h. It throws nothing and works with -fno-exceptions.
//
//     sigmuyap::Ticket ticket;
//     if (ticket.parse("allow rw pool=data").ok())
//         bool allowed = ticket.allows({.pool = "data", .object = "x", .reads = true});   // C++20; in C++17 set the fields
//
// What a caller owes is at the head of sigmuyap.h. Of that these classes see to pointers that are not null, to freeing, and to byte
// copies, which they do not allow. One call at a time uses a Ticket; share() makes a second one for another thread.
#ifndef SIGMUYAP_HPP
#define SIGMUYAP_HPP

#include "sigmuyap.h"

#include <algorithm>
#include <cstddef>
#include <cstdint>
#include <initializer_list>
#include <optional>
#include <string>
#include <string_view>
#include <utility>
#include <vector>

namespace sigmuyap {

/// An answer, by its number in sigmuyap.h.
enum class Answer : std::uint32_t {
    Deny = SIG_DENY,
    Allow = SIG_ALLOW,
    Empty = SIG_EMPTY,
    NotUtf8 = SIG_NOT_UTF8,
    NoMemory = SIG_NO_MEMORY,
    Refused = SIG_REFUSED,
    BadRules = SIG_BAD_RULES,
    BadLength = SIG_BAD_LENGTH,
    Depends = SIG_DEPENDS,
    BadAddress = SIG_BAD_ADDRESS,
};

/// May an object of a namespace in a pool be read or written at a tick? It borrows its names.
struct Request {
    std::string_view pool = {};
    std::string_view name_space = {};
    std::string_view object = {}; ///< empty: a listing
    std::string_view from = {};   ///< the client's address, or empty; only grants with a network look at it
    std::uint64_t tick = 0;
    bool reads = false;
    bool writes = false;
};

/// What parsing a text came to: ok(), or the first fault of the text if `status` is SIG_REFUSED.
struct Parsed {
    std::uint32_t status = SIG_OK;
    sig_fault fault = {0, 0};

    [[nodiscard]] bool ok() const noexcept { return status == SIG_OK; }

    /// The name of the fault's rule, as `C7 NetworkClause`; empty if there is no fault.
    [[nodiscard]] std::string name() const
    {
        char out[32] = {};
        return status == SIG_REFUSED ? std::string(out, sig_fault_name(fault.rule, out, sizeof out)) : std::string();
    }
};

namespace detail {

inline sig_text text(std::string_view bytes) noexcept { return sig_text_of(bytes.data(), bytes.size()); }

inline sig_request request(const Request &r) noexcept
{
    return sig_request{text(r.pool), text(r.name_space), text(r.object), text(r.from), r.tick, r.reads, r.writes};
}

/// A text by a call that takes a buffer: asked once for its length, and once for the text. `done` are the answers with a text.
template <typename Call> std::uint32_t whole(std::string &out, std::initializer_list<std::uint32_t> done, Call call)
{
    char none[1] = {0};
    std::size_t needed = 0;
    const std::uint32_t answer = call(none, std::size_t{0}, &needed);
    if (std::find(done.begin(), done.end(), answer) == done.end())
        return answer;
    out.assign(needed, '\0');
    return call(out.data(), out.size(), &needed);
}

inline const sig_application no_applications[1] = {};
inline const sig_call no_calls[1] = {};

} // namespace detail

/// A handle of a ticket, or of none. It moves and is not copied.
class Ticket {
public:
    Ticket() noexcept = default;
    Ticket(const Ticket &) = delete;
    Ticket &operator=(const Ticket &) = delete;
    Ticket(Ticket &&other) noexcept : handle(std::exchange(other.handle, SIG_NO_TICKET)) {}
    Ticket &operator=(Ticket &&other) noexcept
    {
        std::swap(handle, other.handle);
        return *this;
    }
    ~Ticket() { sig_ticket_free(&handle); }

    /// Reads a text; the old ticket stays unless the result is ok(). With `until` the ticket ends at that tick. `rules` is SIG_RULES or
    /// SIG_RULES_CEPH.
    [[nodiscard]] Parsed parse(std::string_view caps, std::optional<std::uint64_t> until = std::nullopt, std::uint32_t rules = SIG_RULES) noexcept
    {
        Parsed parsed;
        const sig_text text = detail::text(caps);
        parsed.status = sig_ticket_parse(&handle, rules, text.at, text.len, until.has_value(), until.value_or(0), &parsed.fault);
        return parsed;
    }

    /// Whether the ticket allows a request. An error allows nothing.
    [[nodiscard]] bool allows(const Request &request) noexcept { return judge(request) == Answer::Allow; }

    [[nodiscard]] Answer judge(const Request &request) noexcept
    {
        const sig_request asked = detail::request(request);
        return static_cast<Answer>(sig_judge(&handle, &asked));
    }

    /// The verdict of a request with class calls, for a pool with application tags.
    [[nodiscard]] Answer judge(const Request &request, const std::vector<sig_application> &applications, const std::vector<sig_call> &calls) noexcept
    {
        const sig_request asked = detail::request(request);
        return static_cast<Answer>(sig_judge_with(&handle, &asked, applications.empty() ? detail::no_applications : applications.data(),
            applications.size(), calls.empty() ? detail::no_calls : calls.data(), calls.size()));
    }

    /// The answers to requests without class calls, for pools without application tags, in their order; nothing for an empty handle.
    /// It calls the library once, so it is the fastest way to many verdicts.
    [[nodiscard]] std::optional<std::vector<Answer>> judge_all(const std::vector<Request> &requests)
    {
        // One place more, so that no pointer is null.
        std::vector<sig_request> asked(requests.size() + 1, detail::request(Request{}));
        std::vector<std::uint8_t> found(asked.size());
        std::transform(requests.begin(), requests.end(), asked.begin(), detail::request);
        if (sig_judge_all(&handle, asked.data(), requests.size(), found.data(), requests.size()) != SIG_OK)
            return std::nullopt;
        std::vector<Answer> answers(requests.size());
        std::transform(found.begin(), found.end() - 1, answers.begin(), [](std::uint8_t each) { return static_cast<Answer>(each); });
        return answers;
    }

    /// Why a request is denied, a line for each grant, or an allowed and a denied address if it depends on the address; else nothing.
    [[nodiscard]] std::optional<std::string> report(const Request &request, const std::vector<sig_application> &applications = {},
        const std::vector<sig_call> &calls = {})
    {
        const sig_request asked = detail::request(request);
        std::string text;
        const auto call = [&](char *out, std::size_t len, std::size_t *needed) {
            return sig_report(&handle, &asked, applications.empty() ? detail::no_applications : applications.data(), applications.size(),
                calls.empty() ? detail::no_calls : calls.data(), calls.size(), out, len, needed);
        };
        const std::uint32_t answer = detail::whole(text, {SIG_DENY, SIG_DEPENDS}, call);
        if (answer != SIG_DENY && answer != SIG_DEPENDS)
            return std::nullopt;
        return text;
    }

    /// The text: by SIG_RULES the canonical one, by SIG_RULES_CEPH the one that was read; nothing for an empty handle.
    [[nodiscard]] std::optional<std::string> text()
    {
        std::string text;
        const auto call = [&](char *out, std::size_t len, std::size_t *needed) { return sig_ticket_text(&handle, out, len, needed); };
        if (detail::whole(text, {SIG_OK}, call) != SIG_OK)
            return std::nullopt;
        return text;
    }

    /// A request that this ticket allows and `old` denies, in the words of `osdgate verdict`; nothing if there is none or memory runs
    /// out. `old` is another Ticket.
    [[nodiscard]] std::optional<std::string> gain_over(Ticket &old)
    {
        std::string text;
        if (this == &old)
            return std::nullopt;
        const auto call = [&](char *out, std::size_t len, std::size_t *needed) { return sig_widening(&old.handle, &handle, out, len, needed); };
        if (detail::whole(text, {SIG_WIDER}, call) != SIG_WIDER)
            return std::nullopt;
        return text;
    }

    /// The number of grants, profiles expanded.
    [[nodiscard]] std::size_t grants() noexcept { return sig_ticket_grants(&handle); }

    [[nodiscard]] bool empty() const noexcept { return handle.at == nullptr; }

    /// A second handle of the same ticket; empty if memory runs out.
    [[nodiscard]] Ticket share() noexcept
    {
        Ticket second;
        (void)sig_ticket_share(&handle, &second.handle);
        return second;
    }

    /// The handle for a call of sigmuyap.h. It stays this object's.
    [[nodiscard]] sig_ticket *c_handle() noexcept { return &handle; }

private:
    sig_ticket handle = SIG_NO_TICKET;
};

} // namespace sigmuyap

#endif
