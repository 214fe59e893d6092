/* A quote from C: a store is booted, loader 1 learns Object and defines a class, and a quote runs its method 20 with the int 7. */
#include <stdio.h>
#include <stdlib.h>

#include "tariff.h"

/* Class 10 below Object; its method 20 returns its int. */
static const uint8_t file[] = {0x01, 0x00, 0x11, 0x00, 0x0A, 0x00, 0x02, 0x00, 0x01, 0x00, 0x14,
                               0x00, 0x01, 0x00, 0x01, 0x00, 0x03, 0x15, 0x01, 0xAC};

static struct tariff_store store;
static uint32_t answer[TARIFF_ANSWER];

/* Ends the program where a call was refused, or answered something else than its kind. */
static void expect(const char *call, uint8_t number, uint32_t kind)
{
    if (number == 0 && answer[TARIFF_CELL_KIND] == kind)
        return;
    printf("%s: %s", call, tariff_word_name(number));
    if (number == TARIFF_WANTED)
        printf(", class %u under loader %u", answer[TARIFF_CELL_TWO], answer[TARIFF_CELL_ONE]);
    printf("\n");
    exit(1);
}

int main(void)
{
    expect("boot", tariff_boot(TARIFF_LEND(&store), answer, TARIFF_ANSWER), TARIFF_ACCEPTED);
    printf("The store is booted.\n");

    expect("record", tariff_record(TARIFF_LEND(&store), 1, 2, 0, answer, TARIFF_ANSWER), TARIFF_ACCEPTED);
    printf("Loader 1 knows Object.\n");

    expect("define", tariff_define(TARIFF_LEND(&store), 1, file, sizeof file, answer, TARIFF_ANSWER), TARIFF_DEFINED);
    printf("Loader 1 defined class 10 as number %u.\n", answer[TARIFF_CELL_ONE]);

    expect("start", tariff_start(TARIFF_LEND(&store), TARIFF_QUOTE, 1, 10, 20, 7, answer, TARIFF_ANSWER), TARIFF_ACCEPTED);
    printf("The quote stands at the start of method 20, with 7.\n");

    expect("run", tariff_run(TARIFF_LEND(&store), 1000, answer, TARIFF_ANSWER), TARIFF_RAN_FOR);
    printf("Steps that ran: %u.\n", answer[TARIFF_CELL_STEPS]);
    if (answer[TARIFF_CELL_WORD] != 0) {
        printf("The next was refused: %s.\n", tariff_word_name(answer[TARIFF_CELL_WORD]));
        return 1;
    }
    if (answer[TARIFF_CELL_ONE] != TARIFF_FINISHED) {
        printf("The quote needs more steps.\n");
        return 1;
    }
    printf("The next finished the quote. It is %d.\n", (int32_t)answer[TARIFF_CELL_THREE]);
    return 0;
}
