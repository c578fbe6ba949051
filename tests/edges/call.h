/* What the runner's files share: a call as a line of a table tells it (call.c), and the memory that is lent for it
 * (lend.c). */
#ifndef EDGES_CALL_H
#define EDGES_CALL_H

#include <stddef.h>
#include <stdint.h>

/* The type of a number: its bytes, and whether it may be negative. */
struct type {
    size_t size;
    int is_signed;
};
#define TYPE(t) ((struct type){sizeof(t), (t)-1 < (t)1})

enum { NAMES = 32, FIELDS = 8 };

/* A name and the text behind its `=`; used is whether the call asked for it. */
struct named {
    const char *name, *text;
    int used;
};

/* The names of one side of a line. */
struct side {
    struct named names[NAMES];
    size_t count;
};

/* A line of a table: where it stands, its case and question, what is lent, and what must come of it. */
struct call {
    const char *file;
    size_t line;
    const char *number, *question;
    struct side lent, left;
    uint64_t answer[FIELDS];
    size_t answer_count;
};
extern struct call call;

/* A lent list or room: where the library finds it, where it lies in the runner's memory, and its entries. */
struct piece {
    const char *name;
    struct type type;
    int is_room;
    void *at;
    size_t offset, count;
};

_Noreturn void malformed(const char *what, const char *which);
void take_apart(char *line);
const char *text_of(struct side *side, const char *name);
void check_used(const struct side *side);
uint64_t number(const char *name, struct type type);
size_t read_list(const char *text, struct type type, uint8_t *to, size_t most);

enum { ROUNDS = 2 };
void start_lending(int round);
const struct piece *lend(const char *name, struct type type, int is_room);
int right_memory(void);

/* The state of a running replay, which the line tells field by field: lent as the struct of the header. */
struct kaunorpi_running *lend_state(void);
void take_state_back(void);

void report(void);

#endif
