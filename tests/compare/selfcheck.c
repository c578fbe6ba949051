/* The comparer's own check, built with -DSELF_CHECK: each rule of the reference is broken in turn, and the inputs of each
 * question that it is named for must show a difference. A comparer that passes this can fail. */
#include "compare.h"

#include <stdio.h>
#include <string.h>

enum { NAMED = 24 };

/* The questions that are lent a net and a marking, and those that are lent a net without one; a state is no marking. */
#define MARKED \
    "replay_word", "replay_stretch", "start_replay", "ask_summary", "place_bound", "closed_list", "closed_target", \
        "closed_stall", "cover_list", "cover_target", "complement_net", "case_length", "write_case", "order_logs"
#define UNMARKED \
    "replay_part", "summary_word", "summary_stretch", "place_weighting", "transition_weighting", "siphon_set", "trap_set", \
        "complement_places"

/* The rules by number, what is broken, and where it must show. */
static const struct {
    int number;
    const char *what, *questions[NAMED];
} rules[] = {
    {1, "002's capacity rule: tokens plus Post", {"replay_word", "replay_part", "cut_replay"}},
    {2, "over is named before short", {"replay_word", "replay_part", "cut_replay"}},
    {3, "refusal 5 counts from the word's first letter", {"replay_stretch"}},
    {4, "need from Change alone", {"summary_word"}},
    {5, "a no writes the room", {"ask_summary"}},
    {6, "the bound is rounded up", {"place_bound"}},
    {7, "capacities are used in a cover list", {"cover_list"}},
    {8, "a frame 05 may follow a short one", {"read_case"}},
    {9, "a refusal writes the room", {"replay_word"}},
    {10, "one entry past the room is written", {"complement_net"}},
    {11, "a lent weighting is changed", {"place_weighting"}},
    {12, "the climb of a join forgets the first change", {"join_summaries"}},
    {13, "slots past the places are left", {"empty_summary"}},
    {14, "proper is answered as invariant", {"transition_weighting"}},
    {15, "transition 0 is not looked at", {"trap_set"}},
    {16, "only transition 0 is asked what it takes", {"siphon_set"}},
    {17, "results are cut to 16 bits", {"closed_list"}},
    {18, "a target above capacity is refused", {"closed_target"}},
    {19, "a stall that is not shown has a position", {"closed_stall"}},
    {20, "65,535 is taken for a number where the result is any number", {"cover_target"}},
    {21, "capacity 0 is none", {"complement_places"}},
    {22, "tokens of a closed list are not looked at", {"closed_list", "closed_target", "closed_stall"}},
    {23, "tokens of a target are not looked at", {"closed_target", "cover_target"}},
    {24, "entries of a cover list are taken for tokens", {"cover_list", "cover_target"}},
    {25, "the summary's own count is not looked at", {"ask_summary"}},
    {26, "the first summary's own count is not looked at", {"join_summaries"}},
    {27, "the second summary's own count is not looked at", {"join_summaries"}},
    {28, "the start of a stretch is ignored", {"replay_stretch", "summary_stretch"}},
    {29, "the end of a stretch is ignored", {"replay_stretch", "summary_stretch"}},
    {30, "a stretch past its word ends with it", {"replay_stretch", "summary_stretch"}},
    {31, "a stretch that ends before its start is empty", {"replay_stretch", "summary_stretch"}},
    {32, "65,535 tokens are allowed where there is no capacity",
     {"replay_word", "ask_summary", "place_bound", "closed_list", "cover_list", "complement_net", "case_length", "write_case",
      "order_logs"}},
    {33, "tokens above capacity are allowed",
     {"replay_word", "ask_summary", "place_bound", "closed_list", "cover_list", "complement_net", "case_length", "write_case",
      "order_logs"}},
    {34, "a list of no marking is allowed", {"closed_list", "cover_list"}},
    {35, "a list of 4,097 markings is allowed", {"closed_list", "cover_list"}},
    {36, "the second summary is not looked at", {"join_summaries"}},
    {37, "the first summary is not looked at", {"join_summaries"}},
    {38, "summaries of over 65,535 letters are joined", {"join_summaries"}},
    {39, "the summary is not looked at", {"ask_summary"}},
    {40, "a weighting or set of nothing is allowed",
     {"place_weighting", "transition_weighting", "place_bound", "siphon_set", "trap_set"}},
    {41, "a complement of 65 places is allowed", {"complement_places", "complement_net"}},
    {42, "a summary of another count than the net's is allowed", {"ask_summary"}},
    {43, "two summaries of different counts are joined", {"join_summaries"}},
    {44, "the index of a frame 04 is not looked at", {"read_case"}},
    {45, "the last line may lack its line feed", {"read_case"}},
    {46, "the length forgets the line feeds", {"case_length"}},
    {47, "numbers have the low byte first", {"write_case"}},
    {48, "the last, short line of letters is left out", {"case_length", "write_case"}},
    {49, "the empty word has a line of letters", {"case_length", "write_case"}},
    {50, "Pre and Post are exchanged", {"write_case"}},
    {51, "14 for a room of exactly the length", {"write_case"}},
    {52, "a byte past the file's end is written", {"write_case"}},
    {53, "14 writes the room", {"write_case"}},
    {54, "the order takes from the second log as early as can be", {"order_logs"}},
    {55, "a letter of the first log that can fire is never taken back", {"order_logs"}},
    {56, "none where the last letter is the second log's", {"order_logs"}},
    {57, "a 1 is left in the work space", {"order_logs"}},
    {58, "none writes the room", {"order_logs"}},
    {59, "the marking is taken one letter late", {"order_logs"}},
    {60, "where no order leads on is remembered for (k, n)", {"order_logs"}},
    {61, "a longer room for the order is allowed", {"order_logs"}},
    {62, "a work space of another length is allowed", {"order_logs"}},
    {63, "a first log of 256 letters is allowed", {"order_logs", "rest_fault", "unread_rest"}},
    {64, "a second log of 256 letters is allowed", {"order_logs", "rest_fault", "unread_rest"}},
    {65, "15 comes before 4", {"order_logs", "rest_fault", "unread_rest"}},
    {66, "letters of the second log are not looked at", {"order_logs"}},
    {67, "letters of the second log are looked at first", {"order_logs"}},
    {68, "a refusal leaves the work space zero", {"order_logs"}},
    {69, "none leaves the work space as found", {"order_logs"}},
    {70, "5 comes before 15", {"order_logs"}},
    {71, "another byte is taken for a 1", {"rest_fault", "unread_rest"}},
    {72, "other bytes beside the 0s and 1s are passed over", {"rest_fault", "unread_rest"}},
    {73, "a step at the order's length is allowed", {"rest_fault", "unread_rest"}},
    {74, "the rest begins after the step's letter", {"unread_rest"}},
    {75, "the rest is the other log's", {"unread_rest"}},
    {76, "the rest begins at the step's number", {"unread_rest"}},
    {77, "0s are counted for the second log and 1s for the first", {"rest_fault", "unread_rest"}},
    {78, "16 comes before 15", {"rest_fault", "unread_rest"}},
    {79, "a refused rest is not empty", {"unread_rest"}},
    {80, "17 comes before 3", {MARKED}},
    {81, "transitions are looked at before places", {MARKED, UNMARKED}},
    {82, "the position of a loose transition lacks its 64", {MARKED, UNMARKED}},
    {83, "a node is loose if nothing is taken there", {MARKED, UNMARKED, "read_case"}},
    {84, "a node is loose if nothing is put there", {MARKED, UNMARKED, "read_case"}},
    {85, "a capped place that only loops touch has a complement place", {"complement_places", "complement_net"}},
    {86, "17 in a file falls on the line of the loose transition", {"read_case"}},
    {87, "places are not looked at for arcs", {MARKED, UNMARKED, "read_case"}},
    {88, "transitions are not looked at for arcs", {MARKED, UNMARKED, "read_case"}},
    {89, "4 comes before 17",
     {"replay_word", "replay_stretch", "replay_part", "summary_word", "summary_stretch", "case_length", "write_case",
      "order_logs"}},
    {90, "6 comes before 17", {"ask_summary"}},
    {91, "8 comes before 17", {"place_weighting", "transition_weighting", "place_bound", "siphon_set", "trap_set"}},
    {92, "9 comes before 17", {"closed_list", "closed_target", "closed_stall", "cover_list", "cover_target"}},
    {93, "15 comes before 17", {"order_logs"}},
    {94, "10 comes before 17", {"complement_places", "complement_net"}},
    {95, "17 in a file comes after all its letters", {"read_case"}},
    {96, "a capped place that is only taken from has no complement place", {"complement_places", "complement_net"}},
    {97, "a pocket fires as a plain place",
     {"replay_word", "replay_stretch", "replay_part", "cut_replay", "closed_list", "closed_target", "closed_stall", "order_logs"}},
    {98, "a pocket's Post is compared with the capacity alone",
     {"replay_word", "replay_stretch", "replay_part", "cut_replay", "closed_list", "closed_target", "closed_stall", "order_logs"}},
    {99, "a mark of 2 is plain",
     {"replay_word", "replay_stretch", "replay_part", "cut_replay", "summary_word", "summary_stretch", "closed_list",
      "closed_target", "closed_stall", "complement_places", "complement_net", "case_length", "write_case", "order_logs"}},
    {100, "a longer list of marks is allowed", {MARKED, UNMARKED}},
    {101, "a pocket without capacity climbs as one with", {"summary_word", "summary_stretch"}},
    {102, "a pocket climbs as a plain place", {"summary_word", "summary_stretch"}},
    {103, "capacities are used at the pockets of a cover list", {"cover_list", "cover_target"}},
    {104, "Post goes to a pocket's complement place, and Pre comes from it", {"complement_net"}},
    {105, "a pocket that only loops touch has no complement place", {"complement_places", "complement_net"}},
    {106, "a pocket's complement place has the arcs of a plain place's", {"complement_net"}},
    {107, "the complement net keeps the marks", {"complement_net"}},
    {108, "place 0 is in the first byte of a mask that is read", {"read_case"}},
    {109, "a frame 06 may follow 03", {"read_case"}},
    {110, "a mask of zeros is allowed", {"read_case"}},
    {111, "a mask may have a bit past the places", {"read_case"}},
    {112, "a second frame 06 is allowed", {"read_case"}},
    {113, "a longer frame 06 is allowed", {"read_case"}},
    {114, "the reader gives a pocket the mark 255", {"read_case"}},
    {115, "the reader leaves the room for marks as found where there is no frame 06", {"read_case"}},
    {116, "place 0 is in the first byte of a mask that is written", {"write_case"}},
    {117, "a frame 06 is written where all places are plain", {"case_length", "write_case"}},
    {118, "no frame 06 is written where no pocket has a capacity", {"case_length", "write_case"}},
    {119, "weights are cut to a byte",
     {"replay_word", "replay_stretch", "replay_part", "cut_replay", "summary_word", "summary_stretch", "place_weighting", "transition_weighting",
      "place_bound", "siphon_set", "trap_set", "closed_list", "closed_target", "closed_stall", "cover_list", "cover_target",
      "complement_places", "complement_net", "read_case", "case_length", "write_case", "order_logs"}},
    {120, "weights of Pre may be over 4,095", {MARKED, UNMARKED}},
    {121, "weights of Post may be over 4,095", {MARKED, UNMARKED}},
    {122, "a weight of 4,095 is refused", {MARKED, UNMARKED}},
    {123, "a weight of 4,096 is allowed", {MARKED, UNMARKED}},
    {124, "18 names the highest transition", {MARKED, UNMARKED}},
    {125, "all of Pre is looked at for 18 before Post", {MARKED, UNMARKED}},
    {126, "the position of 18 is that of the transition's first weight", {MARKED, UNMARKED}},
    {127, "18 comes after 3", {MARKED}},
    {128, "18 comes after 17", {MARKED, UNMARKED}},
    {129, "18 comes before 2 for a list of the net that is too long", {MARKED, UNMARKED}},
    {130, "18 is never given", {MARKED, UNMARKED}},
    {131, "a summary is well formed with 255n", {"join_summaries", "ask_summary"}},
    {132, "a summary is well formed with 4,096n", {"join_summaries", "ask_summary"}},
    {133, "arcs of complement places are cut to a byte", {"complement_net"}},
    {134, "a line may have 260 digits", {"read_case"}},
    {135, "a line may have 518 digits", {"read_case"}},
    {136, "a frame 07 is read with the low byte first", {"read_case"}},
    {137, "the index of a frame 07 is not looked at", {"read_case"}},
    {138, "a frame 07 needs a weight over 255 in Post", {"read_case"}},
    {139, "a frame 07 needs a weight over 255 in Pre", {"read_case"}},
    {140, "a frame 07 needs a weight over 256", {"read_case"}},
    {141, "a frame 07 needs a weight over 254", {"read_case"}},
    {142, "weights of a file may be over 4,095", {"read_case"}},
    {143, "17 comes before 18 on the line of the last transition", {"read_case"}},
    {144, "a last frame 07 is not followed by 17", {"read_case"}},
    {145, "the first transition has a frame 04", {"read_case"}},
    {146, "a frame 04 is written for a weight of 256", {"case_length", "write_case"}},
    {147, "a frame 07 is written for a weight of 255", {"case_length", "write_case"}},
    {148, "a frame 07 is written for weights of Post alone", {"case_length", "write_case"}},
    {149, "a frame 07 is written for weights of Pre alone", {"case_length", "write_case"}},
    {150, "a frame 07 is written with the low byte first", {"write_case"}},
    {151, "a frame 07 is written for every transition", {"case_length", "write_case"}},
    {152, "a frame 07 is written after one that is needed", {"case_length", "write_case"}},
    {153, "two-byte weights are written in a frame 04", {"write_case"}},
    {154, "a frame 07 needs no weight over 255", {"read_case"}},
    {155, "18 in a file falls on the line of the last transition", {"read_case"}},
    {156, "weights of Post in a file may be over 4,095", {"read_case"}},
    {157, "the length counts each row as a frame 04", {"case_length"}},
    {158, "a refused start writes the state", {"start_replay"}},
    {159, "a start leaves the slots past the places as found", {"start_replay"}},
    {160, "a start counts a letter as fired", {"start_replay"}},
    {161, "a start leaves a block's position and place as found", {"start_replay"}},
    {162, "a start leaves a block as found", {"start_replay"}},
    {163, "a block's position counts from the part", {"replay_part"}},
    {164, "letters of a part after a block are counted", {"replay_part"}},
    {165, "a state's tokens are judged by the capacity alone", {"replay_part"}},
    {166, "a state's tokens are judged by the letters fired alone", {"replay_part"}},
    {167, "a wrong letter is let through after a block", {"replay_part"}},
    {168, "slots past the places are cleared", {"replay_part"}},
    {169, "13 comes before 5", {"replay_part"}},
    {170, "4 is not given to a state that holds a block", {"replay_part"}},
    {171, "as many tokens as the letters can bring are refused", {"replay_part"}},
    {172, "the tokens that are allowed do not grow with the letters", {"replay_part"}},
    {173, "one token more than the letters can bring is allowed", {"replay_part"}},
    {174, "65,535 letters, those fired and the part, are refused", {"replay_part"}},
    {175, "4 looks at the part alone", {"replay_part"}},
    {176, "a block may be held at the place count", {"replay_part"}},
    {177, "13 is given without a block", {"replay_part"}},
    {178, "another cause than 1 and 2 is no block", {"replay_part"}},
    {179, "a held cause is handed back as 1 or 2", {"replay_part"}},
    {180, "the position of 13 is the place", {"replay_part"}},
    {181, "65,535 is a capacity for a state", {"replay_part"}},
    {182, "the position of 5 counts from the first part", {"replay_part"}},
    {183, "a part that fires clears a block's position and place", {"replay_part"}},
    {184, "a block is not held", {"replay_part"}},
    {185, "a blocked part leaves the tokens as found", {"replay_part"}},
    {186, "all letters of a blocked part are counted", {"replay_part"}},
    {187, "13 comes before 4", {"replay_part"}},
    {188, "a held block comes before 3", {"replay_part"}},
    {189, "slots past the places are looked at for 3", {"replay_part"}},
    {190, "what the letters can bring is cut to 32 bits", {"replay_part"}},
    {191, "letters fired and part are cut to 32 bits", {"replay_part"}},
    {192, "the letters that are answered count from the part", {"replay_part"}},
    {193, "over is held as short", {"replay_part"}},
    {194, "17 comes before 3 for a state", {"replay_part"}},
    {195, "18 comes after 3 for a state", {"replay_part"}},
    {196, "a refused part forgets the block", {"replay_part"}},
    {197, "an empty part forgets the block", {"replay_part"}},
};

/* Must the rule show in this question? */
static int is_named(size_t k, const char *question) {
    for (size_t i = 0; i < NAMED && rules[k].questions[i] != NULL; i++)
        if (strcmp(rules[k].questions[i], question) == 0)
            return 1;
    return 0;
}

/* Does some input of the question show a difference? */
static int is_noticed(size_t q, size_t inputs, uint64_t seed) {
    for (size_t i = 0; i < inputs; i++)
        if (!agrees(q, seed, i, 0))
            return 1;
    return 0;
}

/* Breaks each rule; 1 if one was not noticed in a question. */
int self_check(size_t inputs, uint64_t seed) {
    int passed_over = 0;
    for (size_t k = 0; k < sizeof rules / sizeof rules[0]; k++) {
#ifdef SELF_CHECK
        reference_wrong = rules[k].number;
#endif
        for (size_t q = 0; q < question_count; q++)
            if (is_named(k, questions[q].name) && !is_noticed(q, inputs, seed)) {
                printf("compare: a reference with a fault passes: %s (%s)\n", rules[k].what, questions[q].name);
                passed_over = 1;
            }
    }
    return passed_over;
}
