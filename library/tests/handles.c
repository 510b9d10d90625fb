/* Handles: empty, kept by a failed call, replaced, shared, used by four threads at once. */
#include "sigmuyap.h"

#include <pthread.h>
#include <stdio.h>
#include <stdlib.h>

#define CHECK(fact)                                                          \
    do {                                                                     \
        checks++;                                                            \
        if (!(fact)) {                                                       \
            fprintf(stderr, "%s:%d: %s\n", __FILE__, __LINE__, #fact);       \
            exit(1);                                                         \
        }                                                                    \
    } while (0)

static unsigned long checks;

static sig_request writing(const char *pool)
{
    sig_request request = sig_request_of(sig_text_of_string(pool), SIG_NO_TEXT, sig_text_of_string("x"));
    request.writes = true;
    return request;
}

static void empty_handles(void)
{
    sig_ticket ticket = SIG_NO_TICKET, second = SIG_NO_TICKET;
    sig_request request = writing("data");
    uint8_t answer = 9;
    char out[4] = "###";
    size_t needed = 77;
    CHECK(sizeof(sig_ticket) == sizeof(void *));
    CHECK(sig_version() == SIG_VERSION);
    CHECK(sig_judge(&ticket, &request) == SIG_EMPTY);
    CHECK(!sig_allows(&ticket, &request));
    CHECK(sig_judge_all(&ticket, &request, 1, &answer, 1) == SIG_EMPTY && answer == 9);
    CHECK(sig_ticket_text(&ticket, out, 3, &needed) == SIG_EMPTY && needed == 77 && out[0] == '#');
    CHECK(sig_ticket_grants(&ticket) == 0);
    CHECK(sig_widening(&ticket, &second, out, 3, &needed) == SIG_EMPTY);
    CHECK(sig_ticket_share(&ticket, &second) == SIG_OK && second.at == NULL);
    sig_ticket_free(&ticket);
    sig_ticket_free(&ticket);
    CHECK(ticket.at == NULL);
}

static void failed_calls_keep(void)
{
    sig_ticket ticket = SIG_NO_TICKET;
    sig_fault fault = { 99, 99 };
    sig_request request = writing("data");
    CHECK(sig_parse(&ticket, "allow rw pool=data", &fault) == SIG_OK && fault.rule == 99);
    CHECK(sig_ticket_parse(&ticket, 2, "allow r", 7, false, 0, &fault) == SIG_BAD_RULES && fault.rule == 99);
    CHECK(sig_parse(&ticket, "\xff", &fault) == SIG_NOT_UTF8 && fault.rule == 99);
    CHECK(sig_parse(&ticket, "allow rw network 10.0.0.0/8", &fault) == SIG_REFUSED && fault.rule == 7 && fault.at == 9);
    CHECK(sig_parse(&ticket, "allow r, profile osd", &fault) == SIG_REFUSED && fault.rule == 17 && fault.at == 2);
    CHECK(sig_parse_ceph(&ticket, "allow rw network 10.0.0.0/8, deny", &fault) == SIG_REFUSED && fault.rule == 33 && fault.at == 27);
    CHECK(sig_judge(&ticket, &request) == SIG_ALLOW);
    sig_ticket_free(&ticket);
}

static void lengths_and_names(void)
{
    sig_ticket ticket = SIG_NO_TICKET;
    sig_fault fault;
    sig_request requests[3] = { writing("data"), writing("other"), writing("data") };
    uint8_t answers[3] = { 9, 9, 9 };
    char name[32];
    CHECK(sig_parse(&ticket, "allow rw pool=data", &fault) == SIG_OK);
    CHECK(sig_judge_all(&ticket, requests, 3, answers, 2) == SIG_BAD_LENGTH && answers[0] == 9);
    CHECK(sig_judge_all(&ticket, requests, 3, answers, 3) == SIG_OK && answers[0] == 1 && answers[1] == 0 && answers[2] == 1);
    CHECK(sig_judge_all(&ticket, requests, 0, answers, 0) == SIG_OK);
    requests[1].pool = sig_text_of("\xff", 1);
    CHECK(sig_judge(&ticket, &requests[1]) == SIG_DENY);
    requests[0].object = sig_text_of("\xff\0", 2);
    CHECK(sig_judge(&ticket, &requests[0]) == SIG_ALLOW);
    requests[0].from = sig_text_of_string("10.0.0.1");
    CHECK(sig_judge(&ticket, &requests[0]) == SIG_ALLOW);
    CHECK(sig_fault_name(7, name, sizeof name) == 16 && memcmp(name, "C7 NetworkClause", 16) == 0);
    CHECK(sig_fault_name(17, name, 2) == 17 && memcmp(name, "G17", 3) != 0 && name[1] == '1');
    CHECK(sig_fault_name(33, name, sizeof name) == 14 && memcmp(name, "E1 CephRefuses", 14) == 0);
    CHECK(sig_fault_name(0, name, sizeof name) == 0 && sig_fault_name(18, name, sizeof name) == 0);
    sig_ticket_free(&ticket);
}

static void ends_at_its_tick(void)
{
    sig_ticket ticket = SIG_NO_TICKET;
    sig_fault fault;
    sig_request request = writing("data");
    CHECK(sig_ticket_parse(&ticket, SIG_RULES, "allow rw", 8, true, 10, &fault) == SIG_OK);
    request.tick = 9;
    CHECK(sig_judge(&ticket, &request) == SIG_ALLOW);
    request.tick = 10;
    CHECK(sig_judge(&ticket, &request) == SIG_DENY);
    CHECK(sig_ticket_parse(&ticket, SIG_RULES, "allow rw", 8, false, 10, &fault) == SIG_OK);
    CHECK(sig_judge(&ticket, &request) == SIG_ALLOW);
    sig_ticket_free(&ticket);
}

static void texts_and_examples(void)
{
    sig_ticket old = SIG_NO_TICKET, new_ = SIG_NO_TICKET;
    sig_fault fault;
    char out[128];
    size_t needed = 0;
    memset(out, '#', sizeof out);
    CHECK(sig_parse(&old, " profile  rbd pool=\"vms\" ;allow r", &fault) == SIG_OK);
    CHECK(sig_ticket_text(&old, out, sizeof out, &needed) == SIG_OK);
    CHECK(needed == 29 && memcmp(out, "profile rbd pool=vms, allow r", 29) == 0 && out[29] == '#');
    CHECK(sig_parse(&old, "allow r", &fault) == SIG_OK && sig_parse(&new_, "allow rw pool=data", &fault) == SIG_OK);
    CHECK(sig_ticket_grants(&old) == 1);
    CHECK(sig_widening(&old, &new_, out, 6, &needed) == SIG_WIDER && needed > 6 && memcmp(out, "--pool", 6) == 0);
    CHECK(sig_widening(&old, &new_, out, sizeof out, &needed) == SIG_WIDER && memcmp(out, "--pool data ", 12) == 0);
    CHECK(sig_parse(&new_, "allow r pool=data", &fault) == SIG_OK);
    CHECK(sig_widening(&old, &new_, out, sizeof out, &needed) == SIG_NOT_WIDER);
    CHECK(sig_widening(&new_, &old, out, sizeof out, &needed) == SIG_WIDER);
    sig_ticket_free(&old);
    sig_ticket_free(&new_);
}

/* By Ceph's rules a grant may have a network. Other grants look at no address. */
static void addresses(void)
{
    sig_ticket near = SIG_NO_TICKET, all = SIG_NO_TICKET;
    sig_fault fault;
    sig_request requests[3] = { writing("data"), writing("data"), writing("data") };
    static const sig_pair pairs[] = { { SIG_TEXT(""), SIG_TEXT("") } };
    const sig_application tags[] = { { SIG_TEXT(""), pairs, 0 } };
    const sig_call calls[] = { { SIG_TEXT("rbd"), SIG_TEXT("get_children"), true, false, true } };
    uint8_t answers[3] = { 99, 99, 99 };
    char out[64], cut[4] = "###";
    size_t needed = 0;
    CHECK(sig_parse_ceph(&near, "allow rwx network 10.0.0.0/8", &fault) == SIG_OK && sig_ticket_grants(&near) == 1);
    CHECK(sig_parse_ceph(&all, "allow rw, allow r network 10.0.0.0/8", &fault) == SIG_OK && sig_ticket_grants(&all) == 2);
    requests[0].from = sig_text_of_string("10.1.2.3");
    requests[1].from = sig_text_of_string("::ffff:10.1.2.3");
    CHECK(sig_judge(&near, &requests[0]) == SIG_ALLOW && sig_judge(&near, &requests[1]) == SIG_DENY);
    CHECK(sig_judge(&near, &requests[2]) == SIG_DEPENDS && !sig_allows(&near, &requests[2]));
    CHECK(sig_judge_all(&near, requests, 3, answers, 3) == SIG_OK && answers[0] == SIG_ALLOW && answers[1] == SIG_DENY && answers[2] == SIG_DEPENDS);
    CHECK(sig_judge_with(&near, &requests[0], tags, 0, calls, 1) == SIG_ALLOW);
    CHECK(sig_judge_with(&near, &requests[2], tags, 0, calls, 1) == SIG_DEPENDS);
    CHECK(sig_report(&near, &requests[1], tags, 0, calls, 1, out, sizeof out, &needed) == SIG_DENY && needed == 10 && memcmp(out, "1 network\n", 10) == 0);
    CHECK(sig_report(&near, &requests[2], tags, 0, calls, 1, cut, 2, &needed) == SIG_DEPENDS && needed > 2 && memcmp(cut, "al#", 3) == 0);
    CHECK(sig_judge(&all, &requests[2]) == SIG_ALLOW);
    requests[0].from = sig_text_of_string("10.1.2.3:6789");
    CHECK(sig_judge(&near, &requests[0]) == SIG_BAD_ADDRESS && !sig_allows(&near, &requests[0]));
    CHECK(sig_report(&near, &requests[0], tags, 0, calls, 1, cut, 3, &needed) == SIG_BAD_ADDRESS && cut[2] == '#');
    CHECK(sig_judge_all(&near, requests, 1, answers, 1) == SIG_OK && answers[0] == SIG_BAD_ADDRESS);
    CHECK(sig_widening(&near, &all, out, sizeof out, &needed) == SIG_WIDER);
    sig_ticket_free(&all);
    CHECK(sig_parse_ceph(&all, "allow rwx", &fault) == SIG_OK && sig_judge(&all, &requests[0]) == SIG_ALLOW);
    CHECK(sig_widening(&all, &near, out, sizeof out, &needed) == SIG_NOT_WIDER);
    CHECK(sig_parse_ceph(&all, "", &fault) == SIG_OK && sig_ticket_grants(&all) == 0 && sig_judge(&all, &requests[0]) == SIG_DENY);
    sig_ticket_free(&near);
    sig_ticket_free(&all);
}

static void *judge_often(void *handle)
{
    sig_request allowed = writing("data"), denied = writing("other");
    unsigned long wrong = 0;
    for (int i = 0; i < 100000; i++)
        wrong += sig_judge(handle, &allowed) != SIG_ALLOW || sig_judge(handle, &denied) != SIG_DENY;
    for (int i = 0; i < 1000; i++) {
        sig_ticket other = SIG_NO_TICKET;
        wrong += sig_ticket_share(handle, &other) != SIG_OK || sig_judge(&other, &allowed) != SIG_ALLOW;
        sig_ticket_free(&other);
    }
    sig_ticket_free(handle);
    return (void *)wrong;
}

static void threads(void)
{
    sig_ticket first = SIG_NO_TICKET, handles[4] = { SIG_NO_TICKET, SIG_NO_TICKET, SIG_NO_TICKET, SIG_NO_TICKET };
    sig_fault fault;
    pthread_t ids[4];
    CHECK(sig_parse(&first, "allow r, allow rw pool=data", &fault) == SIG_OK);
    for (int i = 0; i < 4; i++)
        CHECK(sig_ticket_share(&first, &handles[i]) == SIG_OK);
    sig_ticket_free(&first);
    for (int i = 0; i < 4; i++)
        CHECK(pthread_create(&ids[i], NULL, judge_often, &handles[i]) == 0);
    for (int i = 0; i < 4; i++) {
        void *wrong = &first;
        CHECK(pthread_join(ids[i], &wrong) == 0 && wrong == NULL);
    }
}

int main(void)
{
    empty_handles();
    failed_calls_keep();
    lengths_and_names();
    ends_at_its_tick();
    texts_and_examples();
    addresses();
    threads();
    printf("%lu checks\n", checks);
    return 0;
}
