/* What a server must do with a script's octets, an item a line. Built and run by examples/embed/run.sh. */
#include "h2_bench.h"

int main(void) {
    static const char script[] = "PREFACE\nSETTINGS 00 0 -\nHEADERS 05 1 hi2,i6,i4,a1=\"www.example.com\"\nPING 00 0 x0102030405060708\nDATA 01 3 x00\n";
    static const char *const verdicts[] = {"taken", "ignored", "stream error", "connection error"};
    struct h2_bench_limits limits = H2_BENCH_LIMITS;
    h2_bench_text octets = {0}, tap = {0};
    h2_bench_item item;
    h2_bench *bench;
    const char *state;
    limits.streams = 10;
    bench = h2_bench_open(&limits, "GET|/|200|6869");
    if (!bench || !h2_bench_assemble(&octets, script)) return 1;
    /* The octets come in two cuts; the items that are whole are there at once. */
    for (size_t from = 0, count = 60; from < octets.length; from += count, count = octets.length - from) {
        if (!h2_bench_feed(bench, (const uint8_t *)octets.data + from, count)) return 1;
        while (h2_bench_next(bench, &item) > 0)
            printf("#%d @%d stream %d: %s %s, %d sent\n", (int)item.item, (int)item.offset, (int)item.stream, verdicts[item.verdict], item.cause, item.sent);
    }
    if (!(state = h2_bench_state(bench))) return 1;
    state = strchr(state, '\n') + 1; /* after the line "sent HEX" */
    printf("%.*s\n", (int)strcspn(state, "\n"), state);
    h2_bench_check(&tap, ";# PING is answered (RFC 9113, 6.7)\nPREFACE\nSETTINGS 00 0 -\nPING 00 0 x0102030405060708\n;< SETTINGS 01 0 -\n;< PING 01 0 x0102030405060708\n;! -\n");
    printf("%s", tap.data);
    if (!h2_bench_assemble(&octets, "PREFACE\nFOO\n")) printf("fault %d: %s", octets.fault, octets.sentence);
    h2_bench_free(&tap);
    h2_bench_free(&octets);
    h2_bench_close(bench);
    return 0;
}
