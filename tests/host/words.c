/* words.c - dted_refusal of every kind of answer in every room, where DTED_CHECK would stop it at an answer taken amiss. */
#define DTED_CHECK
#include "compare.h"
#include "dted_words.h"
#include "lent.h"
#include "numbers.h"

static struct lent pages;

/* Nothing is written outside the room, and what fits of the phrase is there and ended. */
static void expect_cut(dted_answer answer, const char *whole, enum side side, size_t room) {
    char *text = (char *)lent_place(&pages, side, room);
    memset(text, '~', room);
    expect("the text is given back", dted_refusal(text, room, answer) == text, 1);
    expect("the margin", lent_margin_kept(&pages), 1);
    if (room == 0)
        return;
    size_t due = strlen(whole) < room ? strlen(whole) : room - 1;
    expect("the phrase", (uint64_t)memcmp(text, whole, due), 0);
    expect("its end", (uint64_t)(unsigned char)text[due], 0);
}

static void room_case(const void *context) {
    dted_answer answer = {*(const uint64_t *)context};
    char whole[DTED_WORDS_ROOM];
    name_case("words of %016" PRIX64, answer.bits);
    dted_refusal(whole, sizeof whole, answer);
    expect("it fits", strlen(whole) + 1 < sizeof whole, 1);
    for (size_t room = 0; room <= DTED_WORDS_ROOM; room++) {
        expect_cut(answer, whole, AT_START, room);
        expect_cut(answer, whole, AT_END, room);
    }
}

void run_word_cases(void) {
    static const uint64_t accepted[] = {0, 0x0001000000790079, 0x00020000000001E6, 0x0003003C003C01E6, 0x00FFFFFFFFFFFFFF};
    static const uint64_t places[] = {0, 1, 321, 328, 3678, 0xFFFFFFFF, 0xFFFFFFFFFFFFFF};
    static const uint64_t numbers[] = {1, 2, 3, 4, 5, 6, 7, 8, 9, 10, 11, 12, 13, 16, 17, 18, 20, 21, 22, 23, 24, 255};
    lent_map(&pages, DTED_WORDS_ROOM);
    for (size_t i = 0; i < COUNT(accepted); i++)
        run_case(room_case, &accepted[i]);
    for (size_t i = 0; i < COUNT(numbers); i++)
        for (size_t j = 0; j < COUNT(places); j++) {
            uint64_t bits = refusal(numbers[i], places[j]);
            run_case(room_case, &bits);
        }
}
