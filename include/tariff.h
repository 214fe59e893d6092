/* The tariff class machine for programs in C: twelve calls on a store that the program owns, a row of its constraints by number, tariff_row,
   and a search, tariff_how, that is lent two stores.
   docs/HOST.md tells how to build and link.

   A store is eight tables (docs/STORE.md). Every call is lent all eight, each as a pointer and its number of cells, then takes its
   own arguments, then a table for the answer. It returns 0 if it is accepted, else the number of its refusal. A refused call changes
   nothing but the answer table and, if it is a try that clashes, its list. Tables may hold anything, and be of any length: what is no
   store is refused with TARIFF_BROKEN.

   The program sees to it that each pointer is good for that many cells, that no two tables overlap, and that nothing else uses them
   while the call runs. A length of 0 may come with any pointer. */
#ifndef TARIFF_H
#define TARIFF_H

#include <stddef.h>
#include <stdint.h>

/* The version: how many change papers the machine has taken up, the number of the store's layout (docs/STORE.md, 'Layouts'), and the
   toolchain that proved it. A store that was saved under another layout is no store of this machine. */
#define TARIFF_PAPERS 14
#define TARIFF_LAYOUT 5
#define TARIFF_TOOLCHAIN "rattle-kit-13f logic dac8208d650f15bf"

#define TARIFF_TEXT_(number) #number
#define TARIFF_TEXT(number) TARIFF_TEXT_(number)
/* As `box --version` prints it. */
#define TARIFF_VERSION "tariff " TARIFF_TEXT(TARIFF_PAPERS) ", layout " TARIFF_TEXT(TARIFF_LAYOUT) ", proved by " TARIFF_TOOLCHAIN

#ifdef __cplusplus
extern "C" {
#endif

/* How many cells each table has. */
enum {
    TARIFF_COUNTS = 1193,
    TARIFF_CLASSES = 192,
    TARIFF_KEPT = 16384,
    TARIFF_CACHE = 768,
    TARIFF_TIES = 768,
    TARIFF_SUBTYPES = 768,
    TARIFF_OBJECTS = 8448,
    TARIFF_FRAMES = 3328,
    TARIFF_ANSWER = 6,
    TARIFF_LIST = 512,      /* of the list that a try is lent, the least */
    TARIFF_OFFER = 4,       /* of the row of an offered load */
    TARIFF_MOST_OFFERS = 8, /* so many rows at most */
    TARIFF_HOW_ANSWER = 14, /* of the answer of tariff_how: six, and the order that is found */
    TARIFF_OLD_COUNTS = 8   /* of a store of layout 1; its other tables have the lengths above */
};

/* A store in one piece, 70,868 bytes: 70,866 of its tables, and two before objects that say nothing. A program may as well keep its
   tables apart. */
struct tariff_store {
    uint16_t counts[TARIFF_COUNTS];
    uint16_t classes[TARIFF_CLASSES];
    uint8_t kept[TARIFF_KEPT];
    uint16_t cache[TARIFF_CACHE];
    uint16_t ties[TARIFF_TIES];
    uint16_t subtypes[TARIFF_SUBTYPES];
    uint32_t objects[TARIFF_OBJECTS];
    uint32_t frames[TARIFF_FRAMES];
};

/* The eight tables of a store as a call takes them: tariff_step(TARIFF_LEND(&store), answer, TARIFF_ANSWER). */
#define TARIFF_LEND(store)                                                                                                          \
    (store)->counts, TARIFF_COUNTS, (store)->classes, TARIFF_CLASSES, (store)->kept, TARIFF_KEPT, (store)->cache, TARIFF_CACHE,     \
        (store)->ties, TARIFF_TIES, (store)->subtypes, TARIFF_SUBTYPES, (store)->objects, TARIFF_OBJECTS, (store)->frames, TARIFF_FRAMES

/* A store of layout 1, that of the first document, in one piece of 68,496 bytes; and its eight tables as the changeover takes them. */
struct tariff_old_store {
    uint16_t counts[TARIFF_OLD_COUNTS];
    uint16_t classes[TARIFF_CLASSES];
    uint8_t kept[TARIFF_KEPT];
    uint16_t cache[TARIFF_CACHE];
    uint16_t ties[TARIFF_TIES];
    uint16_t subtypes[TARIFF_SUBTYPES];
    uint32_t objects[TARIFF_OBJECTS];
    uint32_t frames[TARIFF_FRAMES];
};

#define TARIFF_LEND_OLD(store)                                                                                                      \
    (store)->counts, TARIFF_OLD_COUNTS, (store)->classes, TARIFF_CLASSES, (store)->kept, TARIFF_KEPT, (store)->cache, TARIFF_CACHE, \
        (store)->ties, TARIFF_TIES, (store)->subtypes, TARIFF_SUBTYPES, (store)->objects, TARIFF_OBJECTS, (store)->frames, TARIFF_FRAMES

/* The cells of the answer. Of a shorter table the first ones are written, of a longer one the first six, and of TARIFF_FOUND the first
   fourteen. */
enum tariff_cell {
    TARIFF_CELL_KIND = 0,   /* one of enum tariff_kind */
    TARIFF_CELL_WORD = 1,   /* one of enum tariff_word: of a run, that of its last answer */
    TARIFF_CELL_ONE = 2,    /* three details: see enum tariff_kind */
    TARIFF_CELL_TWO = 3,
    TARIFF_CELL_THREE = 4,
    TARIFF_CELL_STEPS = 5,  /* how many steps of a run ran; of a try that clashes, how many rows its chain has; else 0 */
    TARIFF_CELL_ORDER = 6   /* from here on, of TARIFF_FOUND alone: the numbers of the offers found, in order, and 0 behind them */
};

/* What a call answers. Details that are not named are 0. Of a refusal by TARIFF_WANTED, one and two are the loader and the name that
   are wanted, three the task whose step wants them, 0 if no step does; other refusals have no details. */
enum tariff_kind {
    TARIFF_ACCEPTED = 0,    /* boot, record, start, drop, take back, change over or the try of a record */
    TARIFF_DEFINED = 1,     /* define or its try; one: the number of the new class, of a try as it would be */
    TARIFF_STEPPED = 2,     /* step, refused or not; one: enum tariff_done; two: the task; three: of a task that finished, its int */
    TARIFF_RAN_FOR = 3,     /* run; the word and the details are those of its last step */
    TARIFF_DENIED = 4,      /* any call but step, refused */
    TARIFF_SWEPT = 5,       /* sweep; one: how many objects it freed */
    TARIFF_FOUND = 6,       /* how; one: how many loads, 0 if the request is cached already */
    TARIFF_NONE = 7,        /* how: no order of the offers works */
    TARIFF_TIE = 8,         /* row: a tie; one and two: its loaders; three: the name that is tied */
    TARIFF_BELOW = 9        /* row: a subtype constraint; one: its loader; two: the lower name; three: the higher */
};

/* The first cell of an offer's row, and what the three behind it are. */
enum tariff_offer {
    TARIFF_OFFER_DEFINE = 1, /* loader; where its file starts among the bytes that are lent; how many bytes it has */
    TARIFF_OFFER_RECORD = 2  /* loader, name, class number */
};

/* What a step did. */
enum tariff_done {
    TARIFF_IDLE = 0,        /* nothing: no task has a frame */
    TARIFF_RAN = 1,         /* one instruction of the task */
    TARIFF_FINISHED = 2     /* one instruction, by which the task returned its int and has no frame left */
};

/* Tasks. A step is one of the quote's while it has a frame. */
enum tariff_task { TARIFF_QUOTE = 0, TARIFF_REPORT = 1 };

/* Words of refusal. */
enum tariff_word {
    TARIFF_BROKEN = 1,      /* the tables are no store */
    TARIFF_FILE = 2,        /* the file rules fail */
    TARIFF_UNKNOWN = 3,     /* loader, task, class number, row or n not there; a class name below 2, or a method name 0 */
    TARIFF_TAKEN = 4,       /* define: request cached; record: cached with another class */
    TARIFF_WANTED = 5,      /* a request needed isn't cached; it is named */
    TARIFF_UNVERIFIED = 6,  /* the verifier rejects */
    TARIFF_ABSENT = 7,      /* no such field or method upward */
    TARIFF_HIDDEN = 8,      /* reserved: no call answers it */
    TARIFF_CLASH = 9,       /* the call adds a cache entry or constraint, and the new store wouldn't agree */
    TARIFF_FULL = 10,       /* a limit would be passed; of objects, 256 in use */
    TARIFF_NULL = 11,       /* receiver null */
    TARIFF_BUSY = 12,       /* start on a task with frames */
    TARIFF_MISNAMED = 13,   /* record: the class has another name */
    TARIFF_STUCK = 14,      /* step: no instruction, or no operand, local, class or method, as the instruction needs it */
    TARIFF_UNMAPPED = 15,   /* define: a jump's target, or an instruction after a goto or return, without a map */
    TARIFF_SHORT_LIST = 16, /* a try: its list has fewer than TARIFF_LIST cells */
    TARIFF_ZERO_DIVISOR = 17, /* step: idiv by 0 */
    TARIFF_SHARE_USED = 18, /* the report's start, or its step's new: 192 objects in use are the report's */
    TARIFF_TOO_LATE = 19,   /* take back: no load is left that can be taken back */
    TARIFF_OFFERS = 20      /* how: more than eight offers, or offers that can't be read */
};

/* A word of refusal in words, for any number: 0 is "accepted", and a number that is no word is "no such word". The names are those of
   docs/HOST.md, 'Words of refusal'. */
static inline const char *tariff_word_name(uint32_t word)
{
    switch (word) {
    case 0: return "accepted";
    case TARIFF_BROKEN: return "broken";
    case TARIFF_FILE: return "file";
    case TARIFF_UNKNOWN: return "unknown";
    case TARIFF_TAKEN: return "taken";
    case TARIFF_WANTED: return "wanted";
    case TARIFF_UNVERIFIED: return "unverified";
    case TARIFF_ABSENT: return "absent";
    case TARIFF_HIDDEN: return "hidden";
    case TARIFF_CLASH: return "clash";
    case TARIFF_FULL: return "full";
    case TARIFF_NULL: return "null";
    case TARIFF_BUSY: return "busy";
    case TARIFF_MISNAMED: return "misnamed";
    case TARIFF_STUCK: return "stuck";
    case TARIFF_UNMAPPED: return "unmapped";
    case TARIFF_SHORT_LIST: return "short list";
    case TARIFF_ZERO_DIVISOR: return "zero divisor";
    case TARIFF_SHARE_USED: return "share used";
    case TARIFF_TOO_LATE: return "too late";
    case TARIFF_OFFERS: return "offers";
    default: return "no such word";
    }
}

/* The kind of an answer in words, for any number. */
static inline const char *tariff_kind_name(uint32_t kind)
{
    switch (kind) {
    case TARIFF_ACCEPTED: return "accepted";
    case TARIFF_DEFINED: return "defined";
    case TARIFF_STEPPED: return "stepped";
    case TARIFF_RAN_FOR: return "ran";
    case TARIFF_DENIED: return "denied";
    case TARIFF_SWEPT: return "swept";
    case TARIFF_FOUND: return "found";
    case TARIFF_NONE: return "none";
    case TARIFF_TIE: return "tie";
    case TARIFF_BELOW: return "below";
    default: return "no such kind";
    }
}

/* Says of boot that it reads and writes none of a table's cells, so that a store may be fresh memory; the argument's place, from 1. */
#if defined(__GNUC__) && !defined(__clang__) && __GNUC__ >= 11
#define TARIFF_UNTOUCHED(place) __attribute__((access(none, place)))
#else
#define TARIFF_UNTOUCHED(place)
#endif

/* boot: makes a store of the tables, whatever they held. Class 0 is Object, known to loader 0 alone. Refusal: 1, for the lengths. */
TARIFF_UNTOUCHED(5) TARIFF_UNTOUCHED(9) TARIFF_UNTOUCHED(11) TARIFF_UNTOUCHED(13) TARIFF_UNTOUCHED(15)
uint8_t tariff_boot(uint16_t *counts, size_t counts_length, uint16_t *classes, size_t classes_length,
                    const uint8_t *kept, size_t kept_length, uint16_t *cache, size_t cache_length,
                    const uint16_t *ties, size_t ties_length, const uint16_t *subtypes, size_t subtypes_length,
                    const uint32_t *objects, size_t objects_length, const uint32_t *frames, size_t frames_length,
                    uint32_t *answer, size_t answer_length);

/* define: a class of that loader, 0 to 15, from its file, which is kept. Answers the class's number. Refusals: 1 3 2 15 6 4 5 10 9,
   the first that applies. */
uint8_t tariff_define(uint16_t *counts, size_t counts_length, uint16_t *classes, size_t classes_length,
                      uint8_t *kept, size_t kept_length, uint16_t *cache, size_t cache_length,
                      uint16_t *ties, size_t ties_length, uint16_t *subtypes, size_t subtypes_length,
                      const uint32_t *objects, size_t objects_length, const uint32_t *frames, size_t frames_length,
                      uint32_t loader, const uint8_t *file, size_t file_length,
                      uint32_t *answer, size_t answer_length);

/* record: under that loader the name means the class of that number, as another loader defined it. Refusals: 1 3 13 4 10 9. */
uint8_t tariff_record(uint16_t *counts, size_t counts_length, const uint16_t *classes, size_t classes_length,
                      const uint8_t *kept, size_t kept_length, uint16_t *cache, size_t cache_length,
                      const uint16_t *ties, size_t ties_length, const uint16_t *subtypes, size_t subtypes_length,
                      const uint32_t *objects, size_t objects_length, const uint32_t *frames, size_t frames_length,
                      uint32_t loader, uint32_t name, uint32_t class_number,
                      uint32_t *answer, size_t answer_length);

/* start: the task gets a new object of the class of that name under that loader, and a first frame in its method of that
   name with one int as its argument and an int as its result, called with that object and `value`, the 32 bits of an int. Nothing runs yet. The object takes the lowest unused number, as one
   that a step makes does. Refusals: 1 3 12 5 7 18 10. */
uint8_t tariff_start(uint16_t *counts, size_t counts_length, const uint16_t *classes, size_t classes_length,
                     const uint8_t *kept, size_t kept_length, const uint16_t *cache, size_t cache_length,
                     const uint16_t *ties, size_t ties_length, const uint16_t *subtypes, size_t subtypes_length,
                     uint32_t *objects, size_t objects_length, uint32_t *frames, size_t frames_length,
                     uint32_t task, uint32_t loader, uint16_t name, uint16_t method, uint32_t value,
                     uint32_t *answer, size_t answer_length);

/* step: one instruction of the quote if it has a frame, else of the report. Refusals: 1, unreadable 14, 5 7 18 10 9, other 14, 11 17.
   A step that wants a class is tried again once the class is loaded. */
uint8_t tariff_step(uint16_t *counts, size_t counts_length, const uint16_t *classes, size_t classes_length,
                    const uint8_t *kept, size_t kept_length, const uint16_t *cache, size_t cache_length,
                    uint16_t *ties, size_t ties_length, const uint16_t *subtypes, size_t subtypes_length,
                    uint32_t *objects, size_t objects_length, uint32_t *frames, size_t frames_length,
                    uint32_t *answer, size_t answer_length);

/* run: up to n steps, 1 to 65,535, ended by the first answer other than TARIFF_RAN. Refusals: 1 3. A run that a refused step ends is
   itself accepted: it returns 0, and the step's word stands in the answer. */
uint8_t tariff_run(uint16_t *counts, size_t counts_length, const uint16_t *classes, size_t classes_length,
                   const uint8_t *kept, size_t kept_length, const uint16_t *cache, size_t cache_length,
                   uint16_t *ties, size_t ties_length, const uint16_t *subtypes, size_t subtypes_length,
                   uint32_t *objects, size_t objects_length, uint32_t *frames, size_t frames_length,
                   uint32_t n,
                   uint32_t *answer, size_t answer_length);

/* drop: clears the task's frames, if it has any. Refusals: 1 3. */
uint8_t tariff_drop(uint16_t *counts, size_t counts_length, const uint16_t *classes, size_t classes_length,
                    const uint8_t *kept, size_t kept_length, const uint16_t *cache, size_t cache_length,
                    const uint16_t *ties, size_t ties_length, const uint16_t *subtypes, size_t subtypes_length,
                    const uint32_t *objects, size_t objects_length, const uint32_t *frames, size_t frames_length,
                    uint32_t task,
                    uint32_t *answer, size_t answer_length);

/* sweep: frees every object that no frame of either task reaches through operands, locals and fields. Answers how many. Those reached keep
   number, class and fields. Refusal: 1. */
uint8_t tariff_sweep(uint16_t *counts, size_t counts_length, const uint16_t *classes, size_t classes_length,
                     const uint8_t *kept, size_t kept_length, const uint16_t *cache, size_t cache_length,
                     const uint16_t *ties, size_t ties_length, const uint16_t *subtypes, size_t subtypes_length,
                     const uint32_t *objects, size_t objects_length, const uint32_t *frames, size_t frames_length,
                     uint32_t *answer, size_t answer_length);

/* take back: undoes the latest load that changed the store, a define or a record that added an entry, so that classes, kept files, cache and
   constraints read as before it; again for the last 32 of them. An accepted boot, start, drop or sweep, and a step that ran or finished, close
   what came before. Refusals: 1 19. */
uint8_t tariff_take_back(uint16_t *counts, size_t counts_length, const uint16_t *classes, size_t classes_length,
                         const uint8_t *kept, size_t kept_length, const uint16_t *cache, size_t cache_length,
                         const uint16_t *ties, size_t ties_length, const uint16_t *subtypes, size_t subtypes_length,
                         const uint32_t *objects, size_t objects_length, const uint32_t *frames, size_t frames_length,
                         uint32_t *answer, size_t answer_length);

/* change over: fills the new tables, every cell, whatever they held, from a store of layout 1, which is only read. From there calls get the
   answers that the old store would have given, frames half run included, until what came later is involved (docs/HOST.md, 'Changing over an
   old store'). No old table may overlap a new one. Refusal: 1, if a new table has a wrong length or the old store is broken by the first
   document's rules; then no new table changes. */
uint8_t tariff_change_over(const uint16_t *old_counts, size_t old_counts_length, const uint16_t *old_classes, size_t old_classes_length,
                           const uint8_t *old_kept, size_t old_kept_length, const uint16_t *old_cache, size_t old_cache_length,
                           const uint16_t *old_ties, size_t old_ties_length, const uint16_t *old_subtypes, size_t old_subtypes_length,
                           const uint32_t *old_objects, size_t old_objects_length, const uint32_t *old_frames, size_t old_frames_length,
                           uint16_t *counts, size_t counts_length, uint16_t *classes, size_t classes_length,
                           uint8_t *kept, size_t kept_length, uint16_t *cache, size_t cache_length,
                           uint16_t *ties, size_t ties_length, uint16_t *subtypes, size_t subtypes_length,
                           uint32_t *objects, size_t objects_length, uint32_t *frames, size_t frames_length,
                           uint32_t *answer, size_t answer_length);

/* try define, try record: the load isn't made, and is answered as it would be. No table of the store changes. If it clashes, the first cells
   of the list get the numbers of the rows, upward, of the shortest chain of constraints that breaks agreement (of several of one length that
   with the newer row at the earliest position where they differ, a chain of ties alone being read from either end), and TARIFF_CELL_STEPS how
   many they are; the list past them stays, and on any other answer all of it. Refusals: 1 3 16 2 15 6 4 5 10 9, and 1 3 16 13 4 10 9. */
uint8_t tariff_try_define(const uint16_t *counts, size_t counts_length, const uint16_t *classes, size_t classes_length,
                          const uint8_t *kept, size_t kept_length, const uint16_t *cache, size_t cache_length,
                          const uint16_t *ties, size_t ties_length, const uint16_t *subtypes, size_t subtypes_length,
                          const uint32_t *objects, size_t objects_length, const uint32_t *frames, size_t frames_length,
                          uint32_t loader, const uint8_t *file, size_t file_length, uint16_t *list, size_t list_length,
                          uint32_t *answer, size_t answer_length);

uint8_t tariff_try_record(const uint16_t *counts, size_t counts_length, const uint16_t *classes, size_t classes_length,
                          const uint8_t *kept, size_t kept_length, const uint16_t *cache, size_t cache_length,
                          const uint16_t *ties, size_t ties_length, const uint16_t *subtypes, size_t subtypes_length,
                          const uint32_t *objects, size_t objects_length, const uint32_t *frames, size_t frames_length,
                          uint32_t loader, uint32_t name, uint32_t class_number, uint16_t *list, size_t list_length,
                          uint32_t *answer, size_t answer_length);

/* row: what the stored row of constraints of that number says: TARIFF_TIE or TARIFF_BELOW. Numbers are those that the tries list; of a
   tried define, those from the sum of cells 3 and 4 of counts on are of rows that it would post, and aren't stored. Nothing but the answer
   table is written. Refusals: 1 3 (no stored row has that number). */
uint8_t tariff_row(const uint16_t *counts, size_t counts_length, const uint16_t *classes, size_t classes_length,
                   const uint8_t *kept, size_t kept_length, const uint16_t *cache, size_t cache_length,
                   const uint16_t *ties, size_t ties_length, const uint16_t *subtypes, size_t subtypes_length,
                   const uint32_t *objects, size_t objects_length, const uint32_t *frames, size_t frames_length,
                   uint32_t number, uint32_t *answer, size_t answer_length);

/* how: which of the offered loads, in which order, would have the request of that loader and name cached. The box's store is read and never
   written; the search is made on a second store, of which only the lengths are looked at. Offers are rows of TARIFF_OFFER cells, numbered
   from 0, at most TARIFF_MOST_OFFERS: enum tariff_offer says what a row holds; `files` has the bytes of the files. The answer is TARIFF_FOUND
   with an order that is accepted throughout and ends with the request cached, of the fewest loads and then the lowest offer numbers, compared
   from the first, or TARIFF_NONE; both return 0. The second store is then the box's after the loads found, cell for cell, or equal to the
   box's. Refusals: 1 (the box's store, or a length of the second), 3 (the wanted request alone), 20; they write neither store. Lend an answer
   of TARIFF_HOW_ANSWER cells. */
uint8_t tariff_how(const uint16_t *counts, size_t counts_length, const uint16_t *classes, size_t classes_length,
                   const uint8_t *kept, size_t kept_length, const uint16_t *cache, size_t cache_length,
                   const uint16_t *ties, size_t ties_length, const uint16_t *subtypes, size_t subtypes_length,
                   const uint32_t *objects, size_t objects_length, const uint32_t *frames, size_t frames_length,
                   uint16_t *second_counts, size_t second_counts_length, uint16_t *second_classes, size_t second_classes_length,
                   uint8_t *second_kept, size_t second_kept_length, uint16_t *second_cache, size_t second_cache_length,
                   uint16_t *second_ties, size_t second_ties_length, uint16_t *second_subtypes, size_t second_subtypes_length,
                   uint32_t *second_objects, size_t second_objects_length, uint32_t *second_frames, size_t second_frames_length,
                   uint32_t loader, uint16_t name, const uint32_t *offers, size_t offers_length,
                   const uint8_t *files, size_t files_length,
                   uint32_t *answer, size_t answer_length);

#ifdef __cplusplus
}
#endif

#endif
