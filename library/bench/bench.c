/* What a verdict costs from C, in nanoseconds a request, the minimum of several rounds: bench NAME. library/bench/measure runs it.
 *
 * The rows are those of `osdgate_bench verdict NAME`, of pools: `border` is sig_judge; `batch` is sig_judge_all over 64 requests,
 * which pays the border once; `share` is sig_ticket_share and sig_ticket_free; `parse` is sig_ticket_parse, one verdict and
 * sig_ticket_free, and `ceph` is the same by Ceph's rules. */
#define _POSIX_C_SOURCE 200809L
#include "sigmuyap.h"

#include <stdio.h>
#include <stdlib.h>
#include <time.h>

#define BATCH 64
#define TURNS 3200
#define ROUNDS 25
#define FIRST 10
#define NOBODY 99

static const char *name;

static double now(void)
{
    struct timespec t;
    clock_gettime(CLOCK_MONOTONIC, &t);
    return (double)t.tv_sec * 1e9 + (double)t.tv_nsec;
}

static void keep_minimum(double *least, double from, double count)
{
    double each = (now() - from) / count;
    if (each < *least)
        *least = each;
}

static void print(const char *what, const char *which, int grants, double time)
{
    printf("%s, pool, %s %d %.1f\n", what, which, grants, time);
}

/* Nanoseconds of reading a text by these rules, of one verdict and of freeing the ticket. */
static double parse_time(uint32_t rules, const char *text, size_t len, const sig_request *request)
{
    sig_fault fault;
    double from = now();
    for (int turn = 0; turn < TURNS / 8; turn++) {
        sig_ticket once = SIG_NO_TICKET;
        if (sig_ticket_parse(&once, rules, text, len, false, 0, &fault) != SIG_OK || sig_judge(&once, request) > SIG_ALLOW)
            exit(1);
        sig_ticket_free(&once);
    }
    return (now() - from) / (TURNS / 8);
}

/* Requests for the pool of this number, for four objects in turn. */
static void rows(const char *which, int grants, int number)
{
    static char text[8192], objects[4][64];
    char pool[256];
    sig_request requests[BATCH];
    uint8_t answers[BATCH] = { 0 };
    sig_ticket ticket = SIG_NO_TICKET;
    sig_fault fault;
    size_t len = 0;
    for (int i = 0; i < grants; i++)
        len += (size_t)snprintf(text + len, sizeof text - len, "%sallow rw pool=%s%d", i ? ", " : "", name, FIRST + i);
    if (sig_ticket_parse(&ticket, SIG_RULES, text, len, false, 0, &fault) != SIG_OK)
        exit(1);
    snprintf(pool, sizeof pool, "%s%d", name, number);
    for (int i = 0; i < BATCH; i++) {
        snprintf(objects[i % 4], sizeof objects[0], "image.%d.%d", number, i % 4);
        requests[i] = sig_request_of(sig_text_of_string(pool), sig_text_of_string("spaces"), sig_text_of_string(objects[i % 4]));
        requests[i].reads = requests[i].writes = true;
    }
    double border = 1e18, batch = 1e18, share = 1e18, parse = 1e18, ceph = 1e18;
    unsigned long allowed = 0, allowed_at_once = 0;
    for (int round = 0; round < ROUNDS; round++) {
        double from = now();
        for (int turn = 0; turn < TURNS; turn++)
            for (int i = 0; i < BATCH; i++)
                allowed += sig_judge(&ticket, &requests[i]) == SIG_ALLOW;
        keep_minimum(&border, from, TURNS * BATCH);
        from = now();
        for (int turn = 0; turn < TURNS; turn++) {
            if (sig_judge_all(&ticket, requests, BATCH, answers, BATCH) != SIG_OK)
                exit(1);
            for (int i = 0; i < BATCH; i++)
                allowed_at_once += answers[i];
        }
        keep_minimum(&batch, from, TURNS * BATCH);
        from = now();
        for (int turn = 0; turn < TURNS; turn++) {
            sig_ticket other = SIG_NO_TICKET;
            if (sig_ticket_share(&ticket, &other) != SIG_OK)
                exit(1);
            sig_ticket_free(&other);
        }
        keep_minimum(&share, from, TURNS);
        double by_project = parse_time(SIG_RULES, text, len, &requests[0]);
        double by_ceph = parse_time(SIG_RULES_CEPH, text, len, &requests[0]);
        if (by_project < parse)
            parse = by_project;
        if (by_ceph < ceph)
            ceph = by_ceph;
    }
    if (allowed != allowed_at_once || (allowed != 0) != (number != NOBODY))
        exit(2);
    print("border", which, grants, border);
    print("batch", which, grants, batch);
    print("share", which, grants, share);
    print("parse", which, grants, parse);
    print("ceph", which, grants, ceph);
    sig_ticket_free(&ticket);
}

int main(int count, char **words)
{
    static const int sizes[] = { 1, 4, 16, 64 };
    name = count > 1 ? words[1] : "data";
    for (int i = 0; i < 4; i++) {
        rows("last of", sizes[i], FIRST - 1 + sizes[i]);
        rows("none of", sizes[i], NOBODY);
    }
    return 0;
}
