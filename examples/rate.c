/* Rates a cable by the proved library and prints its rating in mA, or the refusal's number and word. */
#include "sheafdawn.h"
#include <inttypes.h>
#include <stdio.h>

int main(void) {
    const uint32_t cable[SHEAFDAWN_CASE] = {1, 2, 5000, 9000, 2000, 1150000, 480, 1920, 600, 1280, 6000, 250, 400, 1470,
                                            3, 1077562, 8000, 0, 0, 0, 0, 0, 596281, 0, 185062, 3212858,
                                            0, 0, 0, 0};
    uint64_t rated[SHEAFDAWN_RATED];
    uint32_t answer = sheafdawn_rate(cable, SHEAFDAWN_CASE, rated, SHEAFDAWN_RATED);
    if (answer != 0) {
        printf("refused by %" PRIu32 " %s\n", answer, sheafdawn_word(answer));
        return 1;
    }
    printf("%" PRIu64 " mA\n", rated[SHEAFDAWN_RATING]);
    return 0;
}
