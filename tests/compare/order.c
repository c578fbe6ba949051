/* The inputs of two logs. Mostly they were one word that fires, dealt out to two recorders, so that an order exists; often a
 * letter is then exchanged. Beside them orders of such logs, for the unread rest. */
#include "compare.h"

#include <string.h>

enum { MOST_LOG = 255, WORK_SPACE = 65536, SMALL = 40 };

/* Two logs before they are lent. */
static struct {
    uint8_t letters[65536 + 300];
    size_t count;
} logs[2];

/* How many transitions a letter may name. */
static size_t names(void) {
    return in.transitions >= 1 && in.transitions <= 64 ? in.transitions : 64;
}

/* How many letters both logs have: mostly few, so that the reference tries every order; now and then as many as may be, or some
 * more than fit into one log. */
static size_t draw_letters(void) {
    size_t kind = below(160);
    if (kind == 0)
        return 2 * MOST_LOG - (chance(2) ? 0 : below(300));
    if (kind < 5)
        return MOST_LOG + 1 + below(8);
    if (kind < 12)
        return 0;
    return kind < 90 ? 1 + below(8) : kind < 130 ? 9 + below(4) : 13 + below(SMALL - 12);
}

/* Makes net and marking such that the order of letters matters: small weights, and places that few tokens fill; now and then
 * all of it so many times as much. */
static void tighten(void) {
    uint16_t *pre = own(&in.pre), *post = own(&in.post), *caps = own(&in.caps), *initial = own(&in.initial);
    size_t by = chance(4) ? 1 + below(MOST_WEIGHT / 2) : 1;
    for (size_t i = 0; i < in.pre.count; i++) {
        pre[i] = chance(3) ? (uint16_t)((1 + (size_t)chance(4)) * by) : 0;
        post[i] = chance(3) ? (uint16_t)((1 + (size_t)chance(4)) * by) : 0;
    }
    for (size_t p = 0; p < in.places; p++) {
        caps[p] = chance(4) ? 65535 : (uint16_t)((1 + below(3)) * by);
        initial[p] = within(p, (uint16_t)(below(4) * by));
    }
}

/* Makes every other transition the one before it turned round, so that no word ends where nothing can fire. */
static void pair_up(void) {
    uint16_t *pre = own(&in.pre), *post = own(&in.post);
    for (size_t t = 1; t < in.transitions; t += 2) {
        memcpy(pre + t * in.places, post + (t - 1) * in.places, 2 * in.places);
        memcpy(post + t * in.places, pre + (t - 1) * in.places, 2 * in.places);
    }
}

/* A letter that fires at m, from a transition by chance on; NOWHERE if none does. */
static size_t draw_enabled(const int64_t *m) {
    size_t from = below(in.transitions);
    for (size_t i = 0; i < in.transitions; i++)
        if (enabled_now(m, (from + i) % in.transitions))
            return (from + i) % in.transitions;
    return NOWHERE;
}

/* The initial marking; a tight net is drawn until something can fire there. */
static void begin(int64_t *m, int is_tight) {
    const uint16_t *initial = own(&in.initial);
    for (size_t tries = 0; tries < 8; tries++) {
        if (is_tight)
            tighten();
        if (is_tight && chance(2))
            pair_up();
        wire_net(0);
        for (size_t p = 0; p < in.places; p++)
            m[p] = initial[p];
        if (!is_tight || draw_enabled(m) != NOWHERE)
            return;
    }
}

/* Deals up to so many letters out to the two logs, in stretches of a length by chance: letters that fire one after another,
 * as long as there are such, then none or any. */
static void deal(size_t letters, int fires) {
    size_t which = below(2), turns = chance(letters > SMALL ? 2 : 10) ? 1000 : 1 + below(6);
    int64_t m[64];
    if (fires)
        begin(m, !wants(3) && !chance(5));
    for (; letters > 0; letters--) {
        size_t t = fires ? draw_enabled(m) : NOWHERE;
        if (fires && t == NOWHERE && chance(2))
            return;
        fires = t != NOWHERE;
        if (fires)
            fire_now(m, t);
        else
            t = below(names());
        which = chance(turns) ? 1 - which : which;
        which = logs[which].count == MOST_LOG ? 1 - which : which;
        logs[which].letters[logs[which].count++] = (uint8_t)t;
    }
}

/* Exchanges two letters of a log, or puts another one in. */
static void exchange(size_t which) {
    uint8_t *letters = logs[which].letters;
    size_t count = logs[which].count, i, j;
    if (count == 0)
        return;
    i = below(count);
    j = chance(2) && i + 1 < count ? i + 1 : below(count);
    if (chance(3))
        letters[i] = (uint8_t)below(names());
    else {
        uint8_t kept = letters[i];
        letters[i] = letters[j];
        letters[j] = kept;
    }
}

/* Makes a log at least so long, with letters by chance; without a net any letter will do. */
static void lengthen(size_t which, size_t count) {
    size_t had = logs[which].count, t = names();
    if (had >= count)
        return;
    fill_random(logs[which].letters + had, count - had);
    for (size_t i = had; in.transitions > 0 && i < count; i++)
        logs[which].letters[i] = (uint8_t)(logs[which].letters[i] % t);
    logs[which].count = count;
}

/* Makes the logs as long as planned faults want them: over 255 letters, over 65,535, or long enough for a faulty letter. */
static void suit_logs(void) {
    static const enum fault over[2] = {OVER_LOG, OVER_LOG_1}, is_long[2] = {LONG_LOG, LONG_LOG_1};
    static const enum fault letter[2] = {LOG_LETTER, LOG_LETTER_1};
    for (size_t which = 0; which < 2; which++) {
        if (breaks(letter[which]))
            lengthen(which, 1);
        if (breaks(over[which]))
            lengthen(which, 256 + (chance(2) ? 0 : below(chance(40) ? 65280 : 300)));
        if (breaks(is_long[which]))
            lengthen(which, 65536 + (chance(2) ? 0 : below(300)));
    }
}

/* Lends a log; where its length is to be another, with letters by chance behind. */
static void lend_log(size_t which) {
    uint8_t *to = lend(&in.log[which], 1, logs[which].count);
    size_t count = in.log[which].count, kept = count < logs[which].count ? count : logs[which].count;
    memcpy(to, logs[which].letters, kept);
    for (size_t i = kept; i < count; i++)
        to[i] = (uint8_t)below(names());
}

/* Makes one or two letters of a log name no transition where that is planned. */
static void break_log(size_t which, enum fault fault) {
    uint8_t *letters = own(&in.log[which]);
    size_t count = in.log[which].count, t = names();
    for (size_t times = breaks(fault) && count > 0 ? 1 + below(2) : 0; times > 0; times--)
        letters[chance(3) ? count - 1 : chance(3) ? 0 : below(count)] = (uint8_t)(chance(2) ? t : t + below(256 - t));
}

/* Lends the work space: full of zeros, of ones, or of some bytes by chance over and over. */
static void lend_work(void) {
    uint8_t *work = lend(&in.work, 1, WORK_SPACE);
    size_t kind = below(4), some = in.work.count < 499 ? in.work.count : 499;
    in.work.is_room = 1;
    memset(work, kind == 0, in.work.count);
    if (kind < 2)
        return;
    fill_random(work, some);
    for (size_t at = some; at < in.work.count; at += some)
        memcpy(work + at, work, in.work.count - at < some ? in.work.count - at : some);
}

/* Net, marking, logs, room, work space. Many letters go with a small net, since others take long. */
void make_order_logs(void) {
    size_t letters = draw_letters();
    if (!wants(1) && (letters > SMALL || chance(2)))
        draw_net_of(1 + below(4), 2 + below(5));
    else
        draw_net();
    draw_marking();
    logs[0].count = logs[1].count = 0;
    deal(letters, is_whole() && !chance(9));
    for (size_t times = chance(2) ? 1 + below(2) : 0; times > 0; times--)
        exchange(below(2));
    suit_logs();
    lend_log(0);
    lend_log(1);
    break_log(0, LOG_LETTER);
    break_log(1, LOG_LETTER_1);
    lend_room(&in.room, 1, in.log[0].count + in.log[1].count);
    lend_work();
    break_marking();
    break_net();
}

/* Puts an order of the two logs there, and answers its steps: at each any letter that is left is as likely. Logs that are far
 * too long come one after the other, or but for some letters. */
static size_t draw_order(uint8_t *order) {
    size_t left[2] = {in.log[0].count, in.log[1].count}, steps = left[0] + left[1];
    if (steps > 1000) {
        memset(order, 0, left[0]);
        memset(order + left[0], 1, left[1]);
        return chance(3) ? steps : 1 + below(500);
    }
    for (size_t i = 0; i < steps; i++) {
        order[i] = below(left[0] + left[1]) >= left[0];
        left[order[i]]--;
    }
    return steps;
}

/* Breaks an order as planned, each alone being one fault of refusal 16; how many steps it then has. */
static size_t break_order(uint8_t *order, size_t steps) {
    if (breaks(ORDER_LENGTH) && steps > 1 && chance(2))
        steps--;
    else if (breaks(ORDER_LENGTH))
        order[steps++] = (uint8_t)below(2);
    if (breaks(ORDER_SPLIT) && steps > 0)
        order[below(steps)] ^= 1;
    if (breaks(ORDER_BYTE)) {
        size_t at = below(steps + 1);
        if (at == steps || chance(2)) {
            memmove(order + at + 1, order + at, steps - at);
            steps++;
        }
        order[at] = (uint8_t)(chance(2) ? 2 : 2 + below(254));
    }
    return steps;
}

/* Two logs, any letters in them, an order of both, a step. */
void make_rest(void) {
    static uint8_t order[2 * 65536 + 700];
    size_t none = breaks(BAD_STEP) && chance(4), steps;
    for (size_t which = 0; which < 2; which++) {
        logs[which].count = 0;
        lengthen(which, none ? 0 : chance(30) ? MOST_LOG : chance(4) ? 0 : below(9));
    }
    if (!none && logs[0].count + logs[1].count == 0)
        lengthen(below(2), 1);
    suit_logs();
    lend_log(0);
    lend_log(1);
    steps = break_order(order, draw_order(order));
    memcpy(lend(&in.order, 1, steps), order, steps);
    in.step = chance(5) ? 0 : chance(5) ? steps - 1 : below(steps + (steps == 0));
    if (breaks(BAD_STEP))
        in.step = chance(2) ? steps : chance(2) ? steps + 1 + below(600) : (size_t)-1 - below(2);
}
