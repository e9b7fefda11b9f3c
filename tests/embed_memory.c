/* Each call of h2_bench.h, a line for what it gives; tests/embed.py refuses each allocation in turn. The lines of a text are parted by |. */
#include "h2_bench.h"

static void say(const char *call, const char *given, const h2_bench_text *text) {
    printf("%s: ", call);
    if (!given) printf("fault %d %.*s", text->fault, (int)strcspn(text->sentence, "\n"), text->sentence);
    for (; given && *given; given++) putchar(*given == '\n' ? '|' : *given);
    putchar('\n');
}

static void say_items(h2_bench *bench) {
    h2_bench_item item;
    int found;
    while ((found = h2_bench_next(bench, &item)) > 0) printf("item %d: %d %s %d %.*s\n", (int)item.item, (int)item.verdict, item.cause, item.sent, (int)item.json_length, item.json);
    say("rest", found ? NULL : h2_bench_rest(bench), &bench->items);
}

int main(void) {
    static const char script[] = "PREFACE\nSETTINGS 00 0 -\nHEADERS 05 1 hi2,i6,i4,a1=\"www.example.com\"\nPING 00 0 x0102030405060708\nDATA 01 3 x00\n";
    static char place[4096];
    h2_bench_text text = {0};
    struct h2_bench_limits limits = H2_BENCH_LIMITS;
    h2_bench *bench;
    uint8_t octets[200];
    size_t length;
    setvbuf(stdout, place, _IOFBF, sizeof place);
    while (!h2_bench_assemble(&text, script)) say("assemble", NULL, &text);
    memcpy(octets, text.data, length = text.length);
    say("disassemble", h2_bench_disassemble(&text, octets, length) ? text.data : NULL, &text);
    say("check", h2_bench_check(&text, ";# PING (RFC 9113, 6.7)\nPREFACE\nSETTINGS 00 0 -\nPING 00 0 x0102030405060708\n;< SETTINGS 01 0 -\n;< PING 01 0 x0102030405060708\n;! -\n") ? text.data : NULL, &text);
    while (!(bench = h2_bench_open(&limits, "GET|/|200|6869"))) printf("open: no memory\n");
    for (size_t from = 0, count = 60; from < length; from += count, count = length - from) {
        while (!h2_bench_feed(bench, octets + from, count)) say("feed", NULL, &bench->items);
        say_items(bench);
    }
    say("state", h2_bench_state(bench), &bench->said);
    say("explain", h2_bench_explain(bench, "--brief\n--errors"), &bench->said);
    h2_bench_close(bench);
    h2_bench_free(&text);
    return 0;
}
