/* Two questions that misbehave, for tests/edges/run: the runner must notice each of their faults. They are linked in the place of
 * kaunorpi_replay_word and kaunorpi_replay_part, by -Dkaunorpi_replay_word=misbehaving_replay_word and so on; how many places
 * there are says what each does. */
#include "kaunorpi.h"

kaunorpi_replay kaunorpi_replay_word(KAUNORPI_NET, const uint16_t *initial, size_t initial_len, const uint8_t *word,
                                     size_t word_len, uint32_t *room, size_t room_len) {
    kaunorpi_replay answer = {KAUNORPI_ANSWERED, 0, 0, 0};
    uint8_t *front = (uint8_t *)room, *behind = (uint8_t *)(room + room_len);
    (void)transitions, (void)post, (void)post_len, (void)initial, (void)initial_len, (void)caps_len, (void)marks, (void)marks_len;
    switch (places) {
    case 1: /* writes before a room */
        front[-1] ^= 1;
        break;
    case 2: /* writes behind a room */
        behind[0] ^= 1;
        break;
    case 3: /* writes the guard's own value, in one of the rounds */
        behind[0] = 0xA5;
        break;
    case 4: /* writes to a list that is only to be read */
        ((uint16_t *)caps)[0]++;
        break;
    case 5: /* answers by what lies behind a list, in one of the rounds */
        answer.place = pre[pre_len] != 0xA5A5;
        break;
    case 6: /* answers otherwise where nothing is lent as a null pointer */
        answer.place = word_len == 0 && word == NULL;
        break;
    }
    return answer;
}

kaunorpi_replay kaunorpi_replay_part(KAUNORPI_NET, kaunorpi_running *state, const uint8_t *part, size_t part_len) {
    uint8_t *front = (uint8_t *)state, *behind = (uint8_t *)(state + 1);
    (void)transitions, (void)pre, (void)pre_len, (void)post, (void)post_len, (void)caps, (void)caps_len, (void)marks;
    (void)marks_len, (void)part, (void)part_len;
    switch (places) {
    case 1: /* writes before the state */
        front[-1] ^= 1;
        break;
    case 2: /* writes behind it */
        behind[0] ^= 1;
        break;
    case 3: /* writes the guard's own value, in one of the rounds */
        behind[0] = 0xA5;
        break;
    }
    return (kaunorpi_replay){KAUNORPI_ANSWERED, 0, 0, 0};
}
