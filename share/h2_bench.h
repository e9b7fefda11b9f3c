/* h2_bench for C: what an HTTP/2 server must do with the octets of a client, and why. docs/EMBED.md has each call, and what is proved.
 *
 * Link with libh2_bench.so, or with libh2_bench.a. The library has one function, h2_bench_run, which is proved; the others are here, over it. Each thread
 * may call them, with objects of its own. No call ends the process or prints anything. */
#ifndef H2_BENCH_H
#define H2_BENCH_H

#include <stddef.h>
#include <stdint.h>
#include <stdio.h>
#include <stdlib.h>
#include <string.h>

#define H2_BENCH_VERSION 1 /* of this header and the library; that of the JSON is the member "version" of item 0 */

#ifdef __cplusplus
extern "C" {
#endif

/* How a call ended. */
struct h2_bench_end {
    uint8_t fault;   /* 0: what was printed is given; 1: out of memory; 2: no space; 22: a word or the name is not UTF-8 */
    uint8_t status;  /* the exit status of the command */
    size_t printed;  /* how many octets it printed */
    size_t sentence; /* how many octets the sentence has that says why something was refused */
};

/* Carries out a command of h2_bench. `words` has a word on each line, the program's name first, as "h2_bench\nasm"; `input` is its input, `file` the one
 * file that it can read, under the path `name`. What it prints is put at the front of `out`, and the sentence after it; the number of both is returned.
 * With fault 2, `printed` and `sentence` say how much space they need. No pointer may be null, and each length is that of its octets. */
size_t h2_bench_run(const char *words, size_t words_length, const char *name, size_t name_length, const char *file, size_t file_length,
    const uint8_t *input, size_t input_length, uint8_t *out, size_t room, struct h2_bench_end *end);

/* From 0.10.0 on, and used by nothing below yet: a connection in the library's memory, or none: begin with zeros, change nothing, copy it nowhere, and close it. One call at a time. */
struct h2_bench_kept {
    uint8_t is_open;
    void *at;
};

/* Opens a connection by the words of a command `explain`, as h2_bench_run takes them, with its options; one that was there is closed. No input is read. Fault 3:
 * h2_bench_run says why there is none. */
void h2_bench_kept_open(const char *words, size_t words_length, const char *name, size_t name_length, const char *file, size_t file_length, struct h2_bench_kept *kept,
    struct h2_bench_end *end);

/* Takes octets of the client, in any cut, and puts what `explain` prints of the items that are whole now. With fault 2 nothing is lost: call it again with more space
 * and no octets. With fault 1 the connection is closed. */
size_t h2_bench_kept_feed(struct h2_bench_kept *kept, const uint8_t *octets, size_t count, uint8_t *out, size_t room, struct h2_bench_end *end);

/* Puts what `explain` prints after the last item; what `play` prints of the state. The connection stays as it is. */
size_t h2_bench_kept_end(struct h2_bench_kept *kept, uint8_t *out, size_t room, struct h2_bench_end *end);
size_t h2_bench_kept_state(struct h2_bench_kept *kept, uint8_t *out, size_t room, struct h2_bench_end *end);

void h2_bench_kept_close(struct h2_bench_kept *kept);

#ifdef __cplusplus
}
#endif

/* ---- over it: none of these is proved. What they hand out is theirs, and is there until the next call with the same object. */

/* A text or octets that a call gives; `data` has a 0 after its `length` octets. Free it by h2_bench_free, or use it again. */
typedef struct h2_bench_text {
    char *data;
    size_t length, room;
    int status;          /* the exit status of the command */
    int fault;           /* the number of the fault, or -1 where there is none; 0 is out of memory */
    const char *sentence; /* why, or "" */
} h2_bench_text;

static inline void h2_bench_free(h2_bench_text *text) {
    free(text->data);
    memset(text, 0, sizeof *text);
}

static inline int h2_bench_refuse(h2_bench_text *text, int fault, const char *sentence) {
    text->length = 0;
    text->fault = fault;
    text->sentence = sentence;
    return 0;
}

/* The number of the fault that the last line of a text is, or -1. */
static inline int h2_bench_fault_in(const char *data, size_t length) {
    size_t from = length ? length - 1 : 0;
    while (from > 0 && data[from - 1] != '\n') from--;
    if (length - from > 6 && !strncmp(data + from, "fault ", 6)) return atoi(data + from + 6);
    if (length - from > 19 && !strncmp(data + from, "{\"fault\":{\"number\":", 19)) return atoi(data + from + 19);
    return -1;
}

/* Carries out a command, with as much space as it needs. Gives 1 where the command was not refused; else 0, and `fault` and `sentence` say why. */
static inline int h2_bench_command(h2_bench_text *text, const char *words, const char *name, const char *file, size_t file_length, const char *input, size_t input_length) {
    struct h2_bench_end end;
    size_t given, room = text->room ? text->room : 65536;
    for (;;) {
        if (room > text->room) {
            char *grown = (char *)realloc(text->data, room + 2);
            if (!grown) return h2_bench_refuse(text, 0, "out of memory");
            text->data = grown;
            text->room = room;
        }
        given = h2_bench_run(words, strlen(words), name, strlen(name), file, file_length, (const uint8_t *)input, input_length, (uint8_t *)text->data, text->room, &end);
        if (end.fault != 2) break;
        room = 2 * (end.printed + end.sentence);
    }
    if (end.fault) return h2_bench_refuse(text, end.fault == 1 ? 0 : end.fault, end.fault == 1 ? "out of memory" : "a word or the name of the file is not UTF-8");
    /* The sentence moves behind the 0 that ends what was printed. */
    memmove(text->data + end.printed + 1, text->data + end.printed, given - end.printed);
    text->data[end.printed] = text->data[given + 1] = 0;
    text->length = end.printed;
    text->status = end.status;
    text->sentence = text->data + end.printed + 1;
    text->fault = end.status == 1 ? h2_bench_fault_in(text->data, text->length) : end.status == 2 ? 2 : -1;
    return text->fault < 0;
}

static inline void h2_bench_put_hex(char *to, const uint8_t *octets, size_t count) {
    for (size_t at = 0; at < count; at++) {
        to[2 * at] = "0123456789abcdef"[octets[at] >> 4];
        to[2 * at + 1] = "0123456789abcdef"[octets[at] & 15];
    }
}

static inline int h2_bench_digit(char digit) {
    return digit <= '9' ? digit - '0' : digit - 'a' + 10;
}

/* The octets of a script (docs/FORMATS.md): 1, and `text` has them; else 0, as with fault 18 and "fault 18 LINE KIND" in its data. */
static inline int h2_bench_assemble(h2_bench_text *text, const char *script) {
    if (!h2_bench_command(text, "h2_bench\nasm", "", "", 0, script, strlen(script))) return 0;
    text->length /= 2; /* the hex ends in a line feed */
    for (size_t at = 0; at < text->length; at++) text->data[at] = (char)(h2_bench_digit(text->data[2 * at]) << 4 | h2_bench_digit(text->data[2 * at + 1]));
    text->data[text->length] = 0;
    return 1;
}

/* The script of octets. */
static inline int h2_bench_disassemble(h2_bench_text *text, const uint8_t *octets, size_t count) {
    char *hex = (char *)malloc(2 * count + 1);
    int done;
    if (!hex) return h2_bench_refuse(text, 0, "out of memory");
    h2_bench_put_hex(hex, octets, count);
    done = h2_bench_command(text, "h2_bench\ndis", "", "", 0, hex, 2 * count);
    free(hex);
    return done;
}

/* The results of the cases of a text as TAP (docs/CASES.md). text->status is 1 where one failed. */
static inline int h2_bench_check(h2_bench_text *text, const char *cases) {
    return h2_bench_command(text, "h2_bench\ncheck\ncase.h2", "case.h2", cases, strlen(cases), "", 0);
}

/* ---- a connection */

/* The limits and settings of the server (docs/FORMATS.md, Commands). Begin with those of the program: struct h2_bench_limits limits = H2_BENCH_LIMITS; */
struct h2_bench_limits {
    uint32_t streams, credit, table, window, frame;
};
#define H2_BENCH_LIMITS {100, 32768, 4096, 65535, 16384}

/* A connection is the octets so far: each call plays them from the first on, so feed what is there at once. */
typedef struct h2_bench {
    char *words; /* the options and answers, each after a line feed */
    char *hex;   /* the octets so far */
    size_t length, room;
    size_t next;  /* where the next item begins in the JSON */
    size_t given; /* how many items were given */
    int is_played;
    h2_bench_text items; /* the JSON of all items; here is the fault of a call that gave 0 */
    h2_bench_text said;  /* what h2_bench_state and h2_bench_explain print */
} h2_bench;

static inline void h2_bench_close(h2_bench *bench) {
    if (!bench) return;
    free(bench->words);
    free(bench->hex);
    h2_bench_free(&bench->items);
    h2_bench_free(&bench->said);
    free(bench);
}

/* A connection of a server with these limits, or the program's where `limits` is null, and these answers, each METHOD|PATH|STATUS|BODYHEX on a line of its
 * own. Gives a null pointer where memory is refused; what is wrong with limits or answers is the fault of the first call. */
static inline h2_bench *h2_bench_open(const struct h2_bench_limits *limits, const char *answers) {
    h2_bench *bench = (h2_bench *)calloc(1, sizeof *bench);
    size_t at = 0;
    if (!bench) return NULL;
    if (!(bench->words = (char *)malloc(strlen(answers) + 200))) {
        h2_bench_close(bench);
        return NULL;
    }
    if (limits)
        at = (size_t)sprintf(bench->words, "\n--streams=%lu\n--credit=%lu\n--table=%lu\n--window=%lu\n--frame=%lu", (unsigned long)limits->streams, (unsigned long)limits->credit,
            (unsigned long)limits->table, (unsigned long)limits->window, (unsigned long)limits->frame);
    at += (size_t)sprintf(bench->words + at, "\n--%s%s", *answers ? "\n" : "", answers);
    if (bench->words[at - 1] == '\n') bench->words[at - 1] = 0;
    return bench;
}

/* Takes octets of the client, in any cut. Gives 0 where memory is refused: the connection is as it was. */
static inline int h2_bench_feed(h2_bench *bench, const uint8_t *octets, size_t count) {
    size_t wanted = bench->length + 2 * count;
    if (wanted + 1 > bench->room) {
        char *grown = (char *)realloc(bench->hex, 2 * wanted + 1);
        if (!grown) return h2_bench_refuse(&bench->items, 0, "out of memory");
        bench->hex = grown;
        bench->room = 2 * wanted + 1;
    }
    h2_bench_put_hex(bench->hex + bench->length, octets, count);
    bench->length = wanted;
    bench->is_played = 0;
    return 1;
}

/* Carries out a command with the words and the octets of a connection. */
static inline int h2_bench_with(h2_bench *bench, h2_bench_text *text, const char *command) {
    size_t length = strlen(command) + strlen(bench->words) + 11;
    char *words = (char *)malloc(length);
    int done;
    if (!words) return h2_bench_refuse(text, 0, "out of memory");
    snprintf(words, length, "h2_bench\n%s%s", command, bench->words);
    done = h2_bench_command(text, words, "", "", 0, bench->length ? bench->hex : "", bench->length);
    free(words);
    return done;
}

/* The state after the octets so far, after a line "sent HEX" of all that the server sent (docs/FORMATS.md). Gives a null pointer where it is refused: the
 * fault is in bench->said. */
static inline const char *h2_bench_state(h2_bench *bench) {
    return h2_bench_with(bench, &bench->said, "play") ? bench->said.data : NULL;
}

/* The text of `explain` with these options, each on a line of its own, as "--brief\n--errors", or "" for none. */
static inline const char *h2_bench_explain(h2_bench *bench, const char *options) {
    size_t length = strlen(options) + 10;
    char *command = (char *)malloc(length);
    int done;
    if (!command) {
        h2_bench_refuse(&bench->said, 0, "out of memory");
        return NULL;
    }
    snprintf(command, length, "explain%s%s", *options ? "\n" : "", options);
    done = h2_bench_with(bench, &bench->said, command);
    free(command);
    return done ? bench->said.data : NULL;
}

/* ---- its items */

enum h2_bench_verdict { H2_BENCH_TAKEN, H2_BENCH_IGNORED, H2_BENCH_STREAM_ERROR, H2_BENCH_CONNECTION_ERROR };

/* An item: the numbers that a C program wants. `json` is the object of docs/explain.schema.json, with all of it. */
typedef struct h2_bench_item {
    uint64_t item, offset;         /* its number, 0 for the server's opening; the octets before it */
    int type, flags;               /* of its frame, or -1 */
    int64_t stream;                /* or -1 */
    enum h2_bench_verdict verdict;
    int64_t code;                  /* the error code, or -1 */
    char cause[48];                /* the cause of the error or the reason to ignore it, else "" */
    int sent;                      /* how many frames the server sends for it */
    const char *json;
    size_t json_length;
} h2_bench_item;

/* Where the value of a member of an object begins: `json` is after its {, or within it. A null pointer where there is none. */
static inline const char *h2_bench_member(const char *json, const char *end, const char *name) {
    size_t length = strlen(name);
    int depth = 0;
    for (; json < end; json++) {
        if (*json == '{' || *json == '[') depth++;
        if ((*json == '}' || *json == ']') && --depth < 0) return NULL;
        if (*json != '"') continue;
        const char *text = ++json;
        while (json < end && *json != '"') json += *json == '\\' ? 2 : 1;
        if (!depth && (size_t)(json - text) == length && json + 1 < end && json[1] == ':' && !memcmp(text, name, length)) return json + 2;
    }
    return NULL;
}

/* The number that a member of a member is, or -1. */
static inline int64_t h2_bench_number(const char *json, const char *end, const char *of, const char *name) {
    const char *found = of ? h2_bench_member(json, end, of) : json - 1;
    if (found) found = h2_bench_member(found + 1, end, name);
    return found ? (int64_t)strtoll(found, NULL, 10) : -1;
}

static inline void h2_bench_put_cause(h2_bench_item *item, const char *text) {
    size_t length = text ? strcspn(text + 1, "\"") : 0;
    if (length >= sizeof item->cause) length = sizeof item->cause - 1;
    if (length) memcpy(item->cause, text + 1, length);
    item->cause[length] = 0;
}

static inline int h2_bench_count(const char *list, const char *end) {
    int depth = 0, count = 0;
    for (; list && list < end; list++) {
        if (*list == '"')
            for (list++; list < end && *list != '"'; list++) list += *list == '\\';
        else if (*list == '{' || *list == '[') count += ++depth == 2;
        else if ((*list == '}' || *list == ']') && !--depth) break;
    }
    return count;
}

static inline void h2_bench_read(h2_bench_item *item, const char *json, size_t length) {
    const char *from = json + 1, *end = json + length, *error, *ignored, *code;
    item->json = json;
    item->json_length = length;
    item->item = (uint64_t)h2_bench_number(from, end, NULL, "item");
    item->offset = (uint64_t)h2_bench_number(from, end, NULL, "offset");
    item->type = (int)h2_bench_number(from, end, "frame", "type_number");
    item->flags = (int)h2_bench_number(from, end, "frame", "flags");
    item->stream = h2_bench_number(from, end, "frame", "stream");
    item->sent = h2_bench_count(h2_bench_member(from, end, "sent"), end);
    error = h2_bench_member(from, end, "error");
    ignored = h2_bench_member(from, end, "ignored");
    code = error ? h2_bench_member(error + 1, end, "code") : NULL;
    item->code = code ? h2_bench_number(code + 1, end, NULL, "number") : -1;
    item->verdict = H2_BENCH_TAKEN;
    if (ignored) item->verdict = H2_BENCH_IGNORED;
    if (error) item->verdict = strncmp(h2_bench_member(error + 1, end, "scope"), "\"stream", 7) ? H2_BENCH_CONNECTION_ERROR : H2_BENCH_STREAM_ERROR;
    h2_bench_put_cause(item, error ? h2_bench_member(error + 1, end, "cause") : ignored ? h2_bench_member(ignored + 1, end, "reason") : NULL);
}

/* The next item that is whole with the octets so far: 1, or 0 where there is none yet. -1 where something is refused: the fault is in bench->items. */
static inline int h2_bench_next(h2_bench *bench, h2_bench_item *item) {
    const char *line, *end;
    if (!bench->is_played) {
        if (!h2_bench_with(bench, &bench->items, "explain\n--json\n--full\n--strict")) return -1;
        bench->is_played = 1;
        bench->next = 0;
        for (size_t count = 0; count < bench->given; count++) bench->next = (size_t)(strchr(bench->items.data + bench->next, '\n') + 1 - bench->items.data);
    }
    line = bench->items.data + bench->next;
    if (!strncmp(line, "{\"end\"", 6) || !(end = strchr(line, '\n'))) return 0;
    h2_bench_read(item, line, (size_t)(end - line));
    bench->next += (size_t)(end + 1 - line);
    bench->given++;
    return 1;
}

/* What is after the last item, as the object `end` of the schema, when h2_bench_next has given 0: octets of no whole item, and the verdict on the client. */
static inline const char *h2_bench_rest(h2_bench *bench) {
    return bench->is_played ? bench->items.data + bench->next : NULL;
}

#endif
