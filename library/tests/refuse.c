/* Lets each allocation of a call fail in turn: the old ticket stays, and nothing leaks. Linked with -Wl,--wrap for malloc, realloc
 * and free. */
#include "sigmuyap.h"

#include <stdio.h>
#include <stdlib.h>

void *__real_malloc(size_t);
void *__real_realloc(void *, size_t);
void __real_free(void *);
void *__wrap_malloc(size_t);
void *__wrap_realloc(void *, size_t);
void __wrap_free(void *);

static long fails_at = -1, seen, live, refusals;

static bool refused(void)
{
    return ++seen == fails_at;
}

void *__wrap_malloc(size_t n)
{
    void *p = refused() ? NULL : __real_malloc(n);
    live += p != NULL;
    return p;
}

void *__wrap_realloc(void *old, size_t n)
{
    void *p = refused() ? NULL : __real_realloc(old, n);
    live += p != NULL && old == NULL;
    return p;
}

void __wrap_free(void *p)
{
    live -= p != NULL;
    __real_free(p);
}

#define CHECK(fact)                                                          \
    do {                                                                     \
        if (!(fact)) {                                                       \
            fprintf(stderr, "%s:%d: %s\n", __FILE__, __LINE__, #fact);       \
            exit(1);                                                         \
        }                                                                    \
    } while (0)

/* A text and its rules. */
typedef struct given {
    uint32_t rules;
    const char *text;
} given;

static const given texts[] = { { SIG_RULES, "allow rw pool=data" }, { SIG_RULES, "profile rbd pool=vms, allow r" },
    { SIG_RULES, "allow r pool=a, allow r pool=b, allow r pool=c, allow r pool=d, allow rw pool=e namespace=f, allow rw tag app k=v" },
    { SIG_RULES_CEPH, "profile rbd pool=vms, allow r" }, { SIG_RULES_CEPH, "allow rw pool=data, allow r network 10.0.0.0/8, allow w network fd00::/8" } };

static sig_request request;
static const sig_pair pairs[] = { { SIG_TEXT("k"), SIG_TEXT("w") } };
static const sig_application tags[] = { { SIG_TEXT("app"), pairs, 1 } };
static const sig_call calls[] = { { SIG_TEXT("counter"), SIG_TEXT("get"), true, false, true } };

/* A call on two handles, which returns whether memory ran out, and the answer with ample memory. */
typedef struct call {
    uint32_t (*run)(sig_ticket *, sig_ticket *, const given *);
    const char *name;
} call;

static char out[4096];
static size_t needed;

static uint32_t parses(sig_ticket *ticket, sig_ticket *other, const given *text)
{
    sig_fault fault = { 99, 99 };
    uint32_t made = sig_ticket_parse(other, text->rules, text->text, strlen(text->text), false, 0, &fault);
    (void)ticket;
    CHECK(fault.rule == 99);
    return made;
}

static uint32_t judges(sig_ticket *ticket, sig_ticket *other, const given *text)
{
    (void)other, (void)text;
    return sig_judge_with(ticket, &request, tags, 1, calls, 1);
}

static uint32_t reports(sig_ticket *ticket, sig_ticket *other, const given *text)
{
    (void)other, (void)text;
    return sig_report(ticket, &request, tags, 1, calls, 1, out, sizeof out, &needed);
}

static uint32_t compares(sig_ticket *ticket, sig_ticket *other, const given *text)
{
    (void)text;
    return sig_widening(other, ticket, out, sizeof out, &needed);
}

static uint32_t shares(sig_ticket *ticket, sig_ticket *other, const given *text)
{
    (void)text;
    return sig_ticket_share(ticket, other);
}

static const call runs[] = { { parses, "parse" }, { judges, "judge_with" }, { reports, "report" },
    { compares, "widening" }, { shares, "share" } };

/* Runs a call with its allocation number `n` failing; whether it met that allocation. */
static bool refuse(const call *run, const given *text, long n)
{
    sig_ticket ticket = SIG_NO_TICKET, other = SIG_NO_TICKET;
    sig_request reads = sig_request_of(sig_text_of_string("q"), SIG_NO_TEXT, sig_text_of_string("x"));
    sig_fault fault;
    reads.reads = true;
    fails_at = -1;
    CHECK(sig_ticket_parse(&ticket, text->rules, text->text, strlen(text->text), false, 0, &fault) == SIG_OK && sig_parse(&other, "allow r pool=q", &fault) == SIG_OK);
    uint32_t first = sig_judge(&ticket, &reads);
    long before = live;
    seen = 0, fails_at = n;
    uint32_t answer = run->run(&ticket, &other, text);
    bool met = seen >= n;
    CHECK(met == (answer == SIG_NO_MEMORY));
    seen = 0, fails_at = 1;
    CHECK(sig_judge(&ticket, &reads) == first && seen == 0);
    if (met) {
        refusals++;
        CHECK(live == before);
        CHECK(sig_judge(&other, &reads) == SIG_ALLOW);
    }
    sig_ticket_free(&ticket);
    sig_ticket_free(&other);
    fails_at = -1;
    CHECK(live == 0);
    return met;
}

int main(void)
{
    request = sig_request_of(sig_text_of_string("no pool"), sig_text_of_string("a"), sig_text_of_string("b"));
    request.writes = true;
    for (size_t run = 0; run < sizeof runs / sizeof runs[0]; run++)
        for (size_t i = 0; i < sizeof texts / sizeof texts[0]; i++)
            for (long n = 1; refuse(&runs[run], &texts[i], n); n++)
                ;
    printf("%ld refused allocations\n", refusals);
    return 0;
}
