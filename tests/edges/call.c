/* A line of a table, taken apart. Its form:
 *
 *   CASE QUESTION NAME=VALUE .. -> NUMBER NUMBER .. NAME=VALUE ..
 *
 * with one blank between two words. A value is a number, or a list: items with commas between them, none for the empty
 * list. An item is a number; 3..9 for counting up; (0,1,2) for a list in a list; "text" for its bytes, where \n is a line
 * feed; each with *N behind it for N times the same. Whatever else a line holds ends the runner with status 2. */
#include "call.h"

#include <stdio.h>
#include <stdlib.h>
#include <string.h>

struct call call;

/* Ends the runner: the line is not of the form. */
_Noreturn void malformed(const char *what, const char *which) {
    printf("%s:%zu: malformed: %s: %.60s\n", call.file, call.line, what, which);
    exit(2);
}

static int is_digit(char c) {
    return c >= '0' && c <= '9';
}

/* The largest number of the type without its sign. */
static uint64_t most_of(struct type type, int negative) {
    uint64_t all = UINT64_MAX >> (64 - 8 * type.size);
    if (type.is_signed)
        return all / 2 + (uint64_t)negative;
    return negative ? 0 : all;
}

/* Reads a number of the type, in two's complement. */
static uint64_t read_number(const char **at, struct type type) {
    const char *from = *at;
    int negative = *from == '-';
    uint64_t size = 0;
    *at += negative;
    if (!is_digit(**at))
        malformed("not a number", from);
    for (; is_digit(**at); ++*at) {
        uint64_t digit = (uint64_t)(**at - '0');
        if (size > (UINT64_MAX - digit) / 10)
            malformed("a number over 64 bits", from);
        size = size * 10 + digit;
    }
    if (size > most_of(type, negative))
        malformed("a number that its type does not hold", from);
    return negative ? -size : size;
}

/* Reads a text that is one number and nothing else. */
static uint64_t whole_number(const char *text, struct type type) {
    const char *at = text;
    uint64_t n = read_number(&at, type);
    if (*at != 0)
        malformed("not a number", text);
    return n;
}

/* A list that is being read. */
struct reading {
    const char *at;
    struct type type;
    uint8_t *to;
    size_t used, most;
};

static void put(struct reading *r, uint64_t entry) {
    if (r->most - r->used < r->type.size)
        malformed("a list that is too long for the runner", call.number);
    memcpy(r->to + r->used, &entry, r->type.size);
    r->used += r->type.size;
}

/* "text": its bytes. */
static void read_text(struct reading *r) {
    if (r->type.size != 1)
        malformed("text where the entries are no bytes", r->at);
    for (r->at++; *r->at != '"'; r->at++) {
        int is_feed = r->at[0] == '\\' && r->at[1] == 'n';
        if (*r->at == 0 || (*r->at == '\\' && !is_feed))
            malformed("text that does not end", call.number);
        put(r, is_feed ? '\n' : (uint8_t)*r->at);
        r->at += is_feed;
    }
    r->at++;
}

/* A number, or two for all from the first to the second. */
static void read_entries(struct reading *r) {
    const char *from = r->at;
    uint64_t entry = read_number(&r->at, r->type), last = entry;
    if (r->at[0] == '.' && r->at[1] == '.') {
        r->at += 2;
        last = read_number(&r->at, r->type);
    }
    if (entry > last)
        malformed("not counting up", from);
    put(r, entry);
    while (entry < last)
        put(r, ++entry);
}

/* *N: what was read since, N times in all. */
static void repeat(struct reading *r, size_t since) {
    size_t bytes = r->used - since;
    uint64_t times = read_number(&r->at, TYPE(size_t));
    if (times == 0 || bytes == 0 || times > (r->most - since) / bytes)
        malformed("repeated never, or too often for the runner", call.number);
    for (; times > 1; times--, r->used += bytes)
        memcpy(r->to + r->used, r->to + since, bytes);
}

/* Items with commas between them. */
static void read_items(struct reading *r) {
    for (;; r->at++) {
        size_t since = r->used;
        if (*r->at == '(') {
            r->at++;
            read_items(r);
            if (*r->at++ != ')')
                malformed("a bracket that does not close", call.number);
        } else if (*r->at == '"') {
            read_text(r);
        } else {
            read_entries(r);
        }
        if (*r->at == '*') {
            r->at++;
            repeat(r, since);
        }
        if (*r->at != ',')
            return;
    }
}

/* Reads a list of that type; answers its entries. */
size_t read_list(const char *text, struct type type, uint8_t *to, size_t most) {
    struct reading r = {text, type, to, 0, most};
    if (*text != 0)
        read_items(&r);
    if (*r.at != 0)
        malformed("not a list", r.at);
    return r.used / type.size;
}

/* The text behind a name, which the call is asking for. */
const char *text_of(struct side *side, const char *name) {
    for (size_t k = 0; k < side->count; k++)
        if (strcmp(side->names[k].name, name) == 0) {
            side->names[k].used = 1;
            return side->names[k].text;
        }
    malformed(side == &call.lent ? "not lent" : "not told at exit", name);
}

/* Was every name of this side asked for? */
void check_used(const struct side *side) {
    for (size_t k = 0; k < side->count; k++)
        if (!side->names[k].used)
            malformed("the question has no such name", side->names[k].name);
}

/* The number that is lent by this name. */
uint64_t number(const char *name, struct type type) {
    return whole_number(text_of(&call.lent, name), type);
}

/* Cuts the next word off the line; null at its end. */
static char *next_word(char **rest) {
    char *word = *rest, *end = word;
    if (word == NULL)
        return NULL;
    while (*end != 0 && *end != ' ')
        end++;
    if (end == word)
        malformed("a blank too many, or a word too few", call.number ? call.number : "");
    *rest = *end == ' ' ? end + 1 : NULL;
    *end = 0;
    return word;
}

/* Takes NAME=VALUE apart, with a name that this side does not have yet. */
static void take_named(struct side *side, char *word) {
    char *equals = word;
    while (*equals != 0 && *equals != '=')
        equals++;
    if (*equals == 0 || side->count == NAMES)
        malformed("not NAME=VALUE", word);
    *equals = 0;
    for (size_t k = 0; k < side->count; k++)
        if (strcmp(side->names[k].name, word) == 0)
            malformed("a name that stands there twice", word);
    side->names[side->count++] = (struct named){word, equals + 1, 0};
}

/* Is the word the number of a case: digits, with points between them? */
static int is_case(const char *word) {
    const char *at = word;
    while (is_digit(*at) || (*at == '.' && at > word && is_digit(at[1])))
        at++;
    return at > word && *at == 0;
}

/* Takes a line apart into the call. */
void take_apart(char *line) {
    char *rest = line, *word;
    call = (struct call){.file = call.file, .line = call.line};
    call.number = next_word(&rest);
    call.question = next_word(&rest);
    if (call.question == NULL || !is_case(call.number))
        malformed("neither a case and a question nor a comment", line);
    while ((word = next_word(&rest)) != NULL && strcmp(word, "->") != 0)
        take_named(&call.lent, word);
    if (word == NULL)
        malformed("no answer", call.number);
    while ((word = next_word(&rest)) != NULL && is_digit(*word)) {
        if (call.answer_count == FIELDS)
            malformed("more numbers than any answer has", word);
        call.answer[call.answer_count++] = whole_number(word, TYPE(uint64_t));
    }
    for (; word != NULL; word = next_word(&rest))
        take_named(&call.left, word);
}
