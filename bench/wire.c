// Decodes streams of requests that are fed in pieces of 4,096 bytes, as crates/bench_wire does: the straight program to compare
// it with. It keeps the bytes in one buffer, looks for the newline of a line, compares its verb with each one, and copies a text
// once. It keeps all decoders and texts until the last stream ends, as that program does.
#include <stdint.h>
#include <stdio.h>
#include <stdlib.h>
#include <string.h>

enum { PIECE = 4096, LONGEST_LINE = 139, LONGEST_TEXT = 16777216 };

static const char *const SHORT[] = {
    "apply main 4fdb5ea24421e6566f44e8d89fdde3a1c382dbec6da2808f7c88bcaf8b62d12e\n", "print main\n", "fork main a\n",
    "get 76ed9f68b1cf45637866540e51226616200745e0819e4ec4ab3c484c98209ac5\n", "log main\n"};

typedef struct { unsigned char *bytes; size_t start, end, room; } Decoder;
typedef struct { unsigned char name[2][64]; size_t length[2]; unsigned char change[32]; unsigned char *text; size_t count; } Command;

enum Kind { NUMBER, CHANGE, CHANNEL, CHANNELS, CHANNEL_CHANGE, BARE };
static const struct { const char *word; enum Kind kind; } VERBS[] = {
    {"put", NUMBER}, {"apply", CHANNEL_CHANGE}, {"unrecord", CHANNEL_CHANGE}, {"uproot", CHANNEL_CHANGE}, {"print", CHANNEL},
    {"graph", CHANNEL}, {"log", CHANNEL}, {"new", CHANNEL}, {"drop", CHANNEL}, {"pull", CHANNELS}, {"fork", CHANNELS},
    {"get", CHANGE}, {"inverse", CHANGE}, {"channels", BARE}, {"journal", BARE}, {"quit", BARE}};

static int feed(Decoder *d, const unsigned char *piece, size_t count) {
    if (d->end - d->start <= d->start) {
        memmove(d->bytes, d->bytes + d->start, d->end - d->start);
        d->end -= d->start;
        d->start = 0;
    }
    if (d->end + count > d->room) {
        size_t room = d->room * 2 > d->end + count ? d->room * 2 : d->end + count;
        unsigned char *bytes = realloc(d->bytes, room);
        if (!bytes) return 0;
        d->bytes = bytes;
        d->room = room;
    }
    memcpy(d->bytes + d->end, piece, count);
    d->end += count;
    return 1;
}

static int is_channel(const unsigned char *s, size_t n) {
    if (n < 1 || n > 64) return 0;
    for (size_t i = 0; i < n; i++) {
        unsigned char c = s[i];
        if (!((c >= 'a' && c <= 'z') || (c >= 'A' && c <= 'Z') || (c >= '0' && c <= '9') || c == '.' || c == '-' || c == '_')) return 0;
    }
    return 1;
}

static int digit(unsigned char c) { return c >= '0' && c <= '9' ? c - '0' : c >= 'a' && c <= 'f' ? c - 'a' + 10 : -1; }

static int read_change(Command *x, const unsigned char *s, size_t n) {
    if (n != 64) return 0;
    for (size_t i = 0; i < 32; i++) {
        int high = digit(s[2 * i]), low = digit(s[2 * i + 1]);
        if (high < 0 || low < 0) return 0;
        x->change[i] = (unsigned char)(high << 4 | low);
    }
    return 1;
}

static int read_channel(Command *x, int which, const unsigned char *s, size_t n) {
    if (!is_channel(s, n)) return 0;
    memcpy(x->name[which], s, n);
    x->length[which] = n;
    return 1;
}

enum Next { MESSAGE, MORE, BAD, NO_MEMORY };

static enum Next next(Decoder *d, Command *x) {
    const unsigned char *line = d->bytes + d->start;
    size_t left = d->end - d->start;
    const unsigned char *end = memchr(line, '\n', left < LONGEST_LINE ? left : LONGEST_LINE);
    if (!end) return left < LONGEST_LINE ? MORE : BAD;
    size_t length = (size_t)(end - line);
    const unsigned char *space = memchr(line, ' ', length);
    size_t verb = space ? (size_t)(space - line) : length;
    for (size_t v = 0; v < sizeof VERBS / sizeof *VERBS; v++) {
        if (strlen(VERBS[v].word) != verb || memcmp(VERBS[v].word, line, verb)) continue;
        if ((VERBS[v].kind == BARE) != !space) return BAD;
        const unsigned char *word = space ? space + 1 : end, *second;
        size_t count = (size_t)(end - word);
        x->text = NULL;
        switch (VERBS[v].kind) {
        case BARE: break;
        case CHANGE: if (!read_change(x, word, count)) return BAD; break;
        case CHANNEL: if (!read_channel(x, 0, word, count)) return BAD; break;
        case CHANNELS:
        case CHANNEL_CHANGE:
            second = memchr(word, ' ', count);
            if (!second || !read_channel(x, 0, word, (size_t)(second - word))) return BAD;
            second++;
            if (VERBS[v].kind == CHANNELS ? !read_channel(x, 1, second, (size_t)(end - second)) : !read_change(x, second, (size_t)(end - second)))
                return BAD;
            break;
        case NUMBER: {
            size_t number = 0;
            if (count < 1 || count > 8 || (count > 1 && *word == '0')) return BAD;
            for (size_t i = 0; i < count; i++) {
                if (word[i] < '0' || word[i] > '9') return BAD;
                number = number * 10 + (size_t)(word[i] - '0');
            }
            if (number > LONGEST_TEXT) return BAD;
            if (left < length + 1 + number + 1) return MORE;
            if (end[1 + number] != '\n') return BAD;
            x->text = malloc(number ? number : 1);
            if (!x->text) return NO_MEMORY;
            memcpy(x->text, end + 1, number);
            x->count = number;
            length += number + 1;
        }
        }
        d->start += length + 1;
        return MESSAGE;
    }
    return BAD;
}

static unsigned char **kept;
static size_t kept_count, kept_room;

static int keep(unsigned char *text) {
    if (kept_count == kept_room) {
        size_t room = kept_room ? kept_room * 2 : 16;
        unsigned char **more = realloc(kept, room * sizeof *more);
        if (!more) return 0;
        kept = more;
        kept_room = room;
    }
    kept[kept_count++] = text;
    return 1;
}

static unsigned char *stream(const char *kind, size_t size, size_t *count) {
    unsigned char *input = malloc(size * 80 + 64);
    if (!input) return NULL;
    if (!strcmp(kind, "put")) {
        *count = (size_t)sprintf((char *)input, "put %zu\n", size);
        memset(input + *count, '\n', size + 1);
        *count += size + 1;
    } else {
        *count = 0;
        for (size_t i = 0; i < size; i++) {
            size_t n = strlen(SHORT[i % 5]);
            memcpy(input + *count, SHORT[i % 5], n);
            *count += n;
        }
    }
    return input;
}

int main(int argc, char **argv) {
    if (argc != 5) return 2;
    size_t size = strtoul(argv[2], NULL, 10), streams = strtoul(argv[3], NULL, 10), times = strtoul(argv[4], NULL, 10), count = 0;
    unsigned char **inputs = malloc(streams * sizeof *inputs);
    Decoder *decoders = malloc(streams * sizeof *decoders);
    if (!inputs || !decoders) return 5;
    for (size_t s = 0; s < streams; s++)
        if (!(inputs[s] = stream(argv[1], size, &count))) return 5;
    for (size_t time = 0; time < times; time++) {
        Command x;
        uint64_t requests = 0, bytes = 0;
        for (size_t s = 0; s < streams; s++) {
            Decoder *d = &decoders[s];
            *d = (Decoder){malloc(PIECE), 0, 0, PIECE};
            for (size_t at = 0; at < count; at += PIECE) {
                if (!feed(d, inputs[s] + at, count - at < PIECE ? count - at : PIECE)) return 5;
                enum Next found;
                while ((found = next(d, &x)) == MESSAGE) {
                    requests++;
                    if (!x.text) continue;
                    bytes += x.count;
                    if (!keep(x.text)) return 5;
                }
                if (found == NO_MEMORY) return 5;
            }
        }
        printf("%llu requests, %llu bytes of texts\n", (unsigned long long)requests, (unsigned long long)bytes);
        for (size_t s = 0; s < streams; s++) free(decoders[s].bytes);
        while (kept_count) free(kept[--kept_count]);
    }
    return 0;
}
