/* Asks the verdicts of the sessions: a case a line, as library/cases.py writes them. The last line printed counts them. */
#include "sigmuyap.h"

#include <stdio.h>
#include <stdlib.h>

#define MOST 16
#define ROOM 65536

static char arena[1 << 20];
static size_t used;
static unsigned long line, cases, faults;

static void fail(const char *what)
{
    fprintf(stderr, "case %lu: %s\n", line, what);
    faults++;
}

static unsigned long long number(void)
{
    unsigned long long n;
    if (scanf("%llu", &n) != 1)
        exit(2);
    return n;
}

/* Reads a field: x and its bytes in hexadecimal digits. */
static sig_text text(void)
{
    static char digits[ROOM];
    if (scanf("%65535s", digits) != 1)
        exit(2);
    char *start = arena + used;
    size_t len = 0;
    for (const char *d = digits + 1; d[0] && d[1]; d += 2, len++) {
        unsigned byte;
        sscanf(d, "%2x", &byte);
        start[len] = (char)byte;
    }
    used += len;
    return sig_text_of(start, len);
}

static bool same(sig_text expected, const char *found, size_t len)
{
    return expected.len == len && memcmp(expected.at, found, len) == 0;
}

static void check_refused(sig_ticket *ticket, uint32_t made, const sig_fault *fault, sig_text expected, size_t at)
{
    char name[32];
    size_t len = sig_fault_name(fault->rule, name, sizeof name);
    if (made != SIG_REFUSED || !same(expected, name, len) || fault->at != at)
        fail("another fault");
    if (ticket->at != NULL)
        fail("a refused text has a ticket");
}

static void check_report(sig_ticket *ticket, const sig_request *request, const sig_application *tags, size_t tags_len,
    const sig_call *calls, size_t calls_len, uint32_t answer, sig_text expected)
{
    char whole[ROOM] = { 0 }, cut[8];
    size_t needed = 0;
    if (sig_report(ticket, request, tags, tags_len, calls, calls_len, whole, sizeof whole, &needed) != answer
        || !same(expected, whole, needed))
        fail("another report");
    for (size_t room = 0; room < sizeof cut; room++) {
        size_t fits = expected.len < room ? expected.len : room;
        memset(cut, '#', sizeof cut);
        needed = 0;
        if (sig_report(ticket, request, tags, tags_len, calls, calls_len, cut, room, &needed) != answer || needed != expected.len
            || memcmp(cut, expected.at, fits) != 0)
            fail("a report that is cut");
        for (size_t i = fits; i < sizeof cut; i++)
            if (cut[i] != '#')
                fail("a report beyond its buffer");
    }
}

/* Prints the ticket's text and reads it again: the second ticket prints the same, and neither is wider. */
static void check_text(sig_ticket *ticket, uint32_t rules)
{
    char first[ROOM] = { 0 }, second[ROOM] = { 0 }, example[ROOM] = { 0 };
    size_t first_len = 0, second_len = 0, needed = 0;
    sig_ticket again = SIG_NO_TICKET;
    sig_fault fault;
    if (sig_ticket_text(ticket, first, sizeof first, &first_len) != SIG_OK)
        fail("no canonical text");
    if (first_len > 4096)
        return;
    if (sig_ticket_parse(&again, rules, first, first_len, false, 0, &fault) != SIG_OK)
        fail("a canonical text is refused");
    if (sig_ticket_text(&again, second, sizeof second, &second_len) != SIG_OK || second_len != first_len
        || memcmp(first, second, first_len) != 0)
        fail("a canonical text is not kept");
    if (sig_ticket_grants(&again) != sig_ticket_grants(ticket))
        fail("another number of grants");
    if (sig_widening(ticket, &again, example, sizeof example, &needed) != SIG_NOT_WIDER
        || sig_widening(&again, ticket, example, sizeof example, &needed) != SIG_NOT_WIDER)
        fail("a canonical text is wider");
    sig_ticket_free(&again);
}

static void one_case(void)
{
    sig_ticket ticket = SIG_NO_TICKET;
    sig_fault fault = { 0, 0 };
    sig_pair pairs[MOST][MOST];
    sig_application tags[MOST];
    sig_call calls[MOST];
    uint32_t rules = (uint32_t)number();
    bool ends = number();
    uint64_t until = number();
    sig_text caps = text();
    sig_text pool = text(), space = text(), object = text();
    sig_request request = sig_request_of(pool, space, object);
    request.from = text();
    request.tick = number();
    request.reads = number();
    request.writes = number();
    size_t tags_len = number();
    for (size_t i = 0; i < tags_len; i++) {
        tags[i].name = text();
        tags[i].pairs = pairs[i];
        tags[i].pairs_len = number();
        for (size_t k = 0; k < tags[i].pairs_len; k++) {
            pairs[i][k].key = text();
            pairs[i][k].value = text();
        }
    }
    size_t calls_len = number();
    for (size_t i = 0; i < calls_len; i++) {
        calls[i].class_ = text();
        calls[i].method = text();
        calls[i].reads = number();
        calls[i].writes = number();
        calls[i].listed = number();
    }
    unsigned long long expected = number();
    sig_text more = text();
    size_t at = number();
    uint32_t made = sig_ticket_parse(&ticket, rules, caps.at, caps.len, ends, until, &fault);
    if (expected == SIG_REFUSED) {
        check_refused(&ticket, made, &fault, more, at);
        return;
    }
    if (made != SIG_OK) {
        fail("a text is refused");
        return;
    }
    if (sig_judge_with(&ticket, &request, tags, tags_len, calls, calls_len) != expected)
        fail("another verdict");
    if (tags_len == 0 && calls_len == 0) {
        sig_request twice[] = { request, request };
        uint8_t answers[] = { 9, 9 };
        if (sig_judge(&ticket, &request) != expected || sig_allows(&ticket, &request) != (expected == SIG_ALLOW))
            fail("another verdict without tags");
        if (sig_judge_all(&ticket, twice, 2, answers, 2) != SIG_OK || answers[0] != expected || answers[1] != expected)
            fail("another verdict of several");
    }
    if (expected == SIG_DENY || expected == SIG_DEPENDS)
        check_report(&ticket, &request, tags, tags_len, calls, calls_len, (uint32_t)expected, more);
    check_text(&ticket, rules);
    sig_ticket_free(&ticket);
}

int main(void)
{
    int next;
    while ((next = getchar()) != EOF) {
        ungetc(next, stdin);
        used = 0;
        line++;
        one_case();
        cases++;
        while ((next = getchar()) == '\n')
            ;
        if (next != EOF)
            ungetc(next, stdin);
    }
    printf("%lu cases, %lu faults\n", cases, faults);
    return faults != 0;
}
