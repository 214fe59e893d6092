/* For tests/host.c: the search for an order of offered loads, on a second store. The box's pages may only be read, those of the second too if the
   search is refused; offers and files end where their memory ends. */

static void *second[TABLES];
static size_t second_length[TABLES];
static uint8_t *held[TABLES];
static size_t deepest_how;

#define LEND_SECOND(i) second[i], second_length[i]
#define SECOND \
    LEND_SECOND(0), LEND_SECOND(1), LEND_SECOND(2), LEND_SECOND(3), LEND_SECOND(4), LEND_SECOND(5), LEND_SECOND(6), LEND_SECOND(7)

struct question {
    uint32_t loader;
    uint16_t name;
    size_t cells;
    const uint32_t *offers;
    size_t size;
    const uint8_t *files;
};

static void lend_second(int i, size_t n)
{
    second_length[i] = n;
    second[i] = second_memory[i] + second_room[i] - n * width[i];
}

/* Every table of the second store with its length, full of such bytes. */
static void fill_second(int byte)
{
    for (int i = 0; i < TABLES; i++) {
        if (second_memory[i] == NULL) {
            second_room[i] = room[i];
            second_memory[i] = guarded(room[i]);
            held[i] = malloc(room[i]);
        }
        memset(second_memory[i], byte, second_room[i]);
        lend_second(i, cells[i]);
    }
}

static const struct question *wanted;

/* The offers and files as the call is lent them; with none of them no memory at all. */
static void how_on_stack(void)
{
    static uint8_t *ends[2];
    for (int i = 0; i < 2; i++)
        ends[i] = ends[i] ? ends[i] : guarded(16 * PAGE) + 16 * PAGE;
    const uint32_t *offers = wanted->cells ? (uint32_t *)(ends[0] - wanted->cells * 4) : NULL;
    const uint8_t *files = wanted->size ? ends[1] - wanted->size : NULL;
    if (wanted->cells)
        memcpy(ends[0] - wanted->cells * 4, wanted->offers, wanted->cells * 4);
    if (wanted->size)
        memcpy(ends[1] - wanted->size, wanted->files, wanted->size);
    returned = tariff_how(LENT, SECOND, wanted->loader, wanted->name, offers, wanted->cells, files, wanted->size, LEND(ANSWER));
}

static uint8_t searched(const struct question *q)
{
    wanted = q;
    on_painted(how_on_stack, &deepest_how);
    return returned;
}

/* The number and the cells of the answer: six, or fourteen if an order is found. The box isn't written, and if the search is refused the second
   isn't either. */
static void answers(const char *what, struct question q, uint8_t number, size_t n, const uint32_t *cell)
{
    static uint8_t told[2 * PAGE];
    keep(&before);
    for (int i = 0; i < TABLES; i++)
        memcpy(held[i], second_memory[i], second_room[i]);
    memset(memory[ANSWER], 0xEE, room[ANSWER]);
    memset(told, 0xEE, sizeof told);
    memcpy(told + room[ANSWER] - length[ANSWER] * 4, cell, (length[ANSWER] < n ? length[ANSWER] : n) * 4);
    pages_written = 0;
    let_tables(PROT_READ);
    let_second(number == 0 ? PROT_READ | PROT_WRITE : PROT_READ);
    uint8_t is = searched(&q);
    let_tables(PROT_READ | PROT_WRITE);
    let_second(PROT_READ | PROT_WRITE);
    check(what, is == number);
    check(what, pages_written == 0 && same(&before));
    check(what, memcmp(told, memory[ANSWER], room[ANSWER]) == 0);
    for (int i = 0; i < TABLES && number != 0; i++)
        check(what, memcmp(held[i], second_memory[i], second_room[i]) == 0);
}

/* Is the second store the box's, cell for cell, with nothing written before its tables? */
static int is_second_the_boxs(void)
{
    for (int i = 0; i < TABLES; i++) {
        size_t lead = second_room[i] - cells[i] * width[i];
        if (memcmp(table[i], second[i], cells[i] * width[i]) != 0 || memcmp(held[i], second_memory[i], lead) != 0)
            return 0;
    }
    return 1;
}

static void refuses_how(const char *what, struct question q, uint8_t word)
{
    answers(what, q, word, 6, SIX(TARIFF_DENIED, word, 0, 0, 0, 0));
}

static void finds_none(const char *what, struct question q)
{
    answers(what, q, 0, 6, SIX(TARIFF_NONE, 0, 0, 0, 0, 0));
    check(what, is_second_the_boxs());
}

/* The order found; the second store is the box's after those loads, made here by define and record. */
static void finds(const char *what, struct question q, uint32_t loads, const uint32_t *order)
{
    uint32_t cell[TARIFF_HOW_ANSWER] = {TARIFF_FOUND, 0, loads};
    for (uint32_t i = 0; i < loads; i++)
        cell[TARIFF_CELL_ORDER + i] = order[i];
    answers(what, q, 0, TARIFF_HOW_ANSWER, cell);
    keep(&first);
    for (uint32_t i = 0; i < loads; i++) {
        const uint32_t *row = q.offers + order[i] * TARIFF_OFFER;
        struct call load = record(row[1], row[2], row[3]);
        if (row[0] == TARIFF_OFFER_DEFINE)
            load = (struct call){.name = DEFINE, .one = row[1], .file = q.files + row[2], .size = row[3]};
        check(what, perform(&load) == 0);
    }
    check(what, is_second_the_boxs());
    put_back(&first);
}

#define ORDER(...) sizeof((uint32_t[]){__VA_ARGS__}) / 4, (const uint32_t[]){__VA_ARGS__}

/* Files of 9 bytes, of classes 10 to 17, each below the next; the last is below Object. */
static uint8_t line[TARIFF_MOST_OFFERS][9];

static void make_line(void)
{
    for (uint8_t i = 0; i < TARIFF_MOST_OFFERS; i++) {
        uint8_t super = i + 1 < TARIFF_MOST_OFFERS ? (uint8_t)(11 + i) : 2;
        memcpy(line[i], (uint8_t[]){1, 0, 6, 0, (uint8_t)(10 + i), 0, super, 0, 0}, 9);
    }
}

/* The define of class 10 + i by loader 1. */
#define OFFERED(i) TARIFF_OFFER_DEFINE, 1, 9 * (i), 9

/* Asks for a request, with these rows and the files of the line. */
#define ASK_OF(loader, name, ...) \
    (struct question){loader, name, sizeof((uint32_t[]){__VA_ARGS__}) / 4, (const uint32_t[]){__VA_ARGS__}, sizeof line, line[0]}
#define ASK(name, ...) ASK_OF(1, name, __VA_ARGS__)

#define EIGHT OFFERED(0), OFFERED(1), OFFERED(2), OFFERED(3), OFFERED(4), OFFERED(5), OFFERED(6), OFFERED(7)

/* Orders that are found, and none, whatever the second store held. */
static void orders_found(void)
{
    finds("one load", ASK(17, OFFERED(6), OFFERED(7)), ORDER(1));
    finds("the last first", ASK(15, OFFERED(5), OFFERED(6), OFFERED(7)), ORDER(2, 1, 0));
    finds("eight in reverse", ASK(10, EIGHT), ORDER(7, 6, 5, 4, 3, 2, 1, 0));
    finds("no load too many", ASK(17, TARIFF_OFFER_RECORD, 4, 2, 0, OFFERED(7)), ORDER(1));
    finds("equal offers", ASK(17, OFFERED(7), OFFERED(7)), ORDER(0));
    finds("a record of a class that the order makes", ASK_OF(2, 16, OFFERED(6), TARIFF_OFFER_RECORD, 2, 16, 2, OFFERED(7)), ORDER(2, 0, 1));
    finds("an offer of no loader is passed over", ASK(17, 1, 16, 63, 9, OFFERED(7)), ORDER(1));
    finds("cached already", ASK(2, OFFERED(7)), 0, NULL);
    finds("cached already, and no offers", (struct question){.loader = 1, .name = 2}, 0, NULL);
    finds_none("a line that lacks one", ASK(15, OFFERED(5), OFFERED(6)));
    finds_none("no offers", (struct question){.loader = 1, .name = 17});
    finds_none("the largest name", ASK(65535, OFFERED(7)));
    finds_none("an offer of no bytes", ASK(17, 1, 1, 72, 0));
    finds_none("another loader's", ASK_OF(3, 17, OFFERED(7)));
}

/* Words 1, 3 and 20, in that order; 20 also where the request is cached. */
static void how_refused(void)
{
    const uint32_t nine[36] = {EIGHT, OFFERED(7)};
    struct question many = {1, 17, 36, nine, sizeof line, line[0]};
    refuses_how("nine offers", many, TARIFF_OFFERS);
    many.name = 2;
    refuses_how("nine offers, and cached", many, TARIFF_OFFERS);
    many.name = 1;
    refuses_how("nine offers, and no class's name", many, TARIFF_UNKNOWN);
    many.loader = 16;
    refuses_how("nine offers, and no loader", many, TARIFF_UNKNOWN);
    many.name = 17;
    refuses_how("no loader", many, TARIFF_UNKNOWN);
    many.loader = UINT32_MAX;
    refuses_how("no loader", many, TARIFF_UNKNOWN);
    many.loader = 65536 + 1;
    many.name = 2;
    refuses_how("a loader whose lowest bits are one", many, TARIFF_UNKNOWN);
    refuses_how("a cut row", ASK(17, OFFERED(7), 2, 1, 17), TARIFF_OFFERS);
    refuses_how("a cell", ASK(17, 1), TARIFF_OFFERS);
    refuses_how("kind 0", ASK(17, 0, 1, 0, 9), TARIFF_OFFERS);
    refuses_how("kind 3", ASK(17, OFFERED(7), 3, 1, 0, 9), TARIFF_OFFERS);
    refuses_how("a file outside", ASK(17, 1, 1, 63, 10), TARIFF_OFFERS);
    refuses_how("a file behind", ASK(17, 1, 1, 73, 0), TARIFF_OFFERS);
    refuses_how("a file of any size", ASK(17, 1, 1, 1, UINT32_MAX), TARIFF_OFFERS);
    refuses_how("a file of any start", ASK(17, 1, 1, UINT32_MAX, 1), TARIFF_OFFERS);
    refuses_how("a record's name", ASK(17, 2, 1, 65536 + 2, 0), TARIFF_OFFERS);
    set(0, 0, 65);
    refuses_how("a broken box", ASK(17, OFFERED(7)), TARIFF_BROKEN);
    many.name = 1;
    refuses_how("a broken box, no such request, nine offers", many, TARIFF_BROKEN);
    set(0, 0, 1);
    for (int i = 0; i < TABLES; i++)
        for (size_t n = cells[i] - 1; n <= cells[i] + 1; n += 2) {
            lend_second(i, n);
            refuses_how("a second table of another length", ASK(17, OFFERED(7)), TARIFF_BROKEN);
            refuses_how("the same, and nine offers", many, TARIFF_BROKEN);
            lend_second(i, cells[i]);
        }
    lend_second(2, 0);
    second[2] = NULL;
    refuses_how("a second store without a table", ASK(17, OFFERED(7)), TARIFF_BROKEN);
    lend_second(2, cells[2]);
}

static void searching(void)
{
    make_line();
    ready();
    for (int byte = 0; byte < 256; byte += 85) {
        fill_second(byte);
        lend(ANSWER, TARIFF_HOW_ANSWER);
        orders_found();
    }
    fill_second(0x5A);
    how_refused();
    for (size_t n = 0; n <= TARIFF_HOW_ANSWER + 2; n++) {
        lend(ANSWER, n);
        finds("an answer table of any length", ASK(15, OFFERED(5), OFFERED(6), OFFERED(7)), ORDER(2, 1, 0));
        finds_none("an answer table of any length", ASK(15, OFFERED(5)));
        refuses_how("an answer table of any length", ASK(1, OFFERED(5)), TARIFF_UNKNOWN);
    }
    lend_all();
    accepts("boot", boot());
    accepts("Object recorded", record(1, 2, 0));
    for (unsigned i = 0; i < MOST_LOADS; i++)
        defines("a load", define(1, 100 + i, 2, 0, 0, 0, NULL), 1 + i);
    lend(ANSWER, TARIFF_HOW_ANSWER);
    finds("the oldest loads are pushed out", ASK(15, OFFERED(5), OFFERED(6), OFFERED(7)), ORDER(2, 1, 0));
    finds_none("and none by tries", ASK(14, OFFERED(5), OFFERED(6), OFFERED(7)));
    lend_all();
    accepts("the box's loads can be taken back", take_back());
    check("the search's stack is measured, and as promised", 0 < deepest_how && deepest_how <= PROMISED);
}
