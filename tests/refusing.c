/* Stands in for the machine: the first calls are accepted, as many as REFUSED_AFTER says, then every call is refused with the number
   that REFUSED_WITH says; a run is accepted and has the number in its answer. For programs that must say any refusal, also one of later
   papers. */
#include <stdlib.h>

#include "tariff.h"

static uint8_t made(uint32_t *answer, uint32_t kind, int is_run)
{
    static int calls;
    const char *after = getenv("REFUSED_AFTER"), *with = getenv("REFUSED_WITH");
    uint8_t number = (uint8_t)(with ? atoi(with) : 0);
    int is_refused = calls++ >= (after ? atoi(after) : 0);
    for (int i = 0; i < TARIFF_ANSWER; i++)
        answer[i] = 0;
    answer[TARIFF_CELL_KIND] = is_refused && !is_run ? TARIFF_DENIED : kind;
    answer[TARIFF_CELL_WORD] = is_refused ? number : 0;
    answer[TARIFF_CELL_ONE] = kind == TARIFF_RAN_FOR && !is_refused ? TARIFF_FINISHED : 0;
    return is_refused && !is_run ? number : 0;
}

#define TABLES(c)                                                                                                                   \
    uint16_t *counts, size_t a, c##1 uint16_t *classes, size_t b, c##2 uint8_t *kept, size_t d, c##3 uint16_t *cache, size_t e,      \
        c##4 uint16_t *ties, size_t f, c##5 uint16_t *subtypes, size_t g, c##6 uint32_t *objects, size_t h, c##7 uint32_t *frames,   \
        size_t i
#define UNUSED                                                                                                                      \
    (void)counts, (void)a, (void)classes, (void)b, (void)kept, (void)d, (void)cache, (void)e, (void)ties, (void)f, (void)subtypes,   \
        (void)g, (void)objects, (void)h, (void)frames, (void)i, (void)length

#define BOOT1
#define BOOT2 const
#define BOOT3
#define BOOT4 const
#define BOOT5 const
#define BOOT6 const
#define BOOT7 const
uint8_t tariff_boot(TABLES(BOOT), uint32_t *answer, size_t length) { return UNUSED, made(answer, TARIFF_ACCEPTED, 0); }

#define RECORD1 const
#define RECORD2 const
#define RECORD3
#define RECORD4 const
#define RECORD5 const
#define RECORD6 const
#define RECORD7 const
uint8_t tariff_record(TABLES(RECORD), uint32_t loader, uint32_t name, uint32_t class_number, uint32_t *answer, size_t length)
{
    return UNUSED, (void)loader, (void)name, (void)class_number, made(answer, TARIFF_ACCEPTED, 0);
}

#define DEFINE1
#define DEFINE2
#define DEFINE3
#define DEFINE4
#define DEFINE5
#define DEFINE6 const
#define DEFINE7 const
uint8_t tariff_define(TABLES(DEFINE), uint32_t loader, const uint8_t *file, size_t size, uint32_t *answer, size_t length)
{
    return UNUSED, (void)loader, (void)file, (void)size, made(answer, TARIFF_DEFINED, 0);
}

#define START1 const
#define START2 const
#define START3 const
#define START4 const
#define START5 const
#define START6
#define START7
uint8_t tariff_start(TABLES(START), uint32_t task, uint32_t loader, uint16_t name, uint16_t method, uint32_t value, uint32_t *answer, size_t length)
{
    return UNUSED, (void)task, (void)loader, (void)name, (void)method, (void)value, made(answer, TARIFF_ACCEPTED, 0);
}

#define RUN1 const
#define RUN2 const
#define RUN3 const
#define RUN4
#define RUN5 const
#define RUN6
#define RUN7
uint8_t tariff_run(TABLES(RUN), uint32_t n, uint32_t *answer, size_t length) { return UNUSED, (void)n, made(answer, TARIFF_RAN_FOR, 1); }
