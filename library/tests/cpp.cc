// The C++ header, with and without exceptions.
#include "sigmuyap.hpp"

#include <cstdio>
#include <type_traits>

static unsigned long checks, faults;

static void check(bool fact, const char *what)
{
    checks++;
    if (!fact) {
        std::fprintf(stderr, "cpp: %s\n", what);
        faults++;
    }
}

int main()
{
    using sigmuyap::Answer;
    using sigmuyap::Ticket;
    static_assert(!std::is_copy_constructible_v<Ticket> && std::is_nothrow_move_constructible_v<Ticket>);
    Ticket ticket;
    sigmuyap::Request request;
    request.pool = "data";
    request.object = "x";
    request.reads = true;
    check(ticket.empty() && ticket.judge(request) == Answer::Empty && !ticket.allows(request), "an empty handle");
    check(ticket.parse("allow r pool=data").ok() && ticket.allows(request), "a ticket allows");
    request.writes = true;
    check(!ticket.allows(request) && ticket.report(request) == "1 write\n", "a report");
    const auto parsed = ticket.parse("allow rw network 10.0.0.0/8");
    check(!parsed.ok() && parsed.fault.at == 9 && parsed.name() == "C7 NetworkClause", "a fault");
    check(ticket.text() == "allow r pool=data" && ticket.grants() == 1, "a failed parse keeps the ticket");
    Ticket second = ticket.share();
    Ticket third = std::move(ticket);
    check(ticket.empty() && !third.empty() && ticket.parse("allow rw").ok(), "a moved handle is empty");
    check(ticket.gain_over(second).has_value() && !second.gain_over(ticket).has_value(), "a gain");
    check(ticket.parse("allow rx tag app k=v", 5).ok(), "a ticket with an end");
    const sig_pair pairs[] = {{SIG_TEXT("k"), SIG_TEXT("v")}};
    const sig_application app = {SIG_TEXT("app"), pairs, 1};
    const sig_call get = {SIG_TEXT("counter"), SIG_TEXT("get"), true, false, true};
    request.writes = false;
    check(ticket.judge(request) == Answer::Deny && ticket.judge(request, {app}, {get}) == Answer::Allow, "tags and calls");
    request.tick = 5;
    check(ticket.report(request, {app}, {get}) == "1 expired\n", "a ticket that ended");
    ticket = std::move(second);
    check(ticket.text() == "allow r pool=data", "a handle that is assigned");
    check(ticket.parse("allow r network 10.0.0.0/8", std::nullopt, SIG_RULES_CEPH).ok(), "a network");
    request.tick = 0;
    check(ticket.judge(request) == Answer::Depends && !ticket.allows(request), "no address");
    check(ticket.report(request).value_or("").rfind("allow --from 10.", 0) == 0, "two addresses");
    request.from = "10.1.2.3";
    check(ticket.allows(request), "an address");
    request.from = "10.1.2.3/8";
    check(ticket.judge(request) == Answer::BadAddress && !ticket.report(request).has_value(), "no address at all");
    sigmuyap::Request near = request, far = request;
    near.from = "10.1.2.3";
    far.from = "11.1.2.3";
    const std::vector<Answer> each = {Answer::BadAddress, Answer::Allow, Answer::Deny};
    check(ticket.judge_all({request, near, far}) == each && ticket.judge_all({}) == std::vector<Answer>(), "several requests");
    check(!Ticket().judge_all({near}).has_value(), "several requests and no ticket");
    std::printf("%lu checks\n", checks);
    return faults != 0;
}
