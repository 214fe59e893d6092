/* The publishers' desk from C: good files, each file rule broken, each rule of the verifier broken, maps that are there or not, no bytes, every
   length. */
#include <stdio.h>
#include <stdlib.h>
#include <string.h>

#include "desk.h"

static int checked = 0;
static int wrong = 0;

static void expect(const char *what, uint8_t number, const uint8_t *bytes, size_t length)
{
    uint32_t answer[TARIFF_DESK_ANSWER] = {77, 77, 77};
    uint8_t got = tariff_check(bytes, length);
    uint8_t with_place = tariff_check_at(bytes, length, answer, TARIFF_DESK_ANSWER);
    int placed = number == TARIFF_DESK_UNVERIFIED || number == TARIFF_DESK_UNMAPPED;
    checked++;
    if (got != number || with_place != number || answer[TARIFF_DESK_NUMBER] != number || (!placed && (answer[1] != 0 || answer[2] != 0))) {
        wrong++;
        printf("desk: %s: %u, and with the place %u (%u %u %u), not %u\n", what, got, with_place, (unsigned)answer[0], (unsigned)answer[1], (unsigned)answer[2], number);
    }
}

static void expect_at(const char *what, uint8_t number, unsigned method, unsigned point, const uint8_t *bytes, size_t length)
{
    const uint32_t expected[] = {number, method, point, 77, 77};
    for (size_t cells = 0; cells <= 4; cells++) {
        uint32_t answer[5] = {77, 77, 77, 77, 77};
        uint8_t got = tariff_check_at(bytes, length, answer, cells);
        checked++;
        for (size_t i = 0; i < 5; i++) {
            if (got != number || answer[i] != (i < cells ? expected[i] : 77)) {
                wrong++;
                printf("desk: %s, %u cells: %u, and %u in cell %u\n", what, (unsigned)cells, got, (unsigned)answer[i], (unsigned)i);
            }
        }
    }
}

/* A file that is put together from its parts. */
struct file {
    uint8_t bytes[8192];
    size_t length;
};

static void byte(struct file *f, unsigned n)
{
    f->bytes[f->length++] = (uint8_t)n;
}

static void pair(struct file *f, unsigned n)
{
    byte(f, n / 256);
    byte(f, n % 256);
}

/* Version, length and names; the length is filled in by `whole`. */
static void begin_version(struct file *f, unsigned version, unsigned name, unsigned super)
{
    f->length = 0;
    byte(f, version);
    pair(f, 0);
    pair(f, name);
    pair(f, super);
}

static void begin(struct file *f, unsigned name, unsigned super)
{
    begin_version(f, 1, name, super);
}

static void whole(struct file *f)
{
    size_t rest = f->length - 3;
    f->bytes[1] = (uint8_t)(rest / 256);
    f->bytes[2] = (uint8_t)(rest % 256);
}

static void method(struct file *f, unsigned name, unsigned argument, unsigned result, size_t length, const uint8_t *code)
{
    pair(f, name);
    pair(f, argument);
    pair(f, result);
    pair(f, (unsigned)length);
    for (size_t i = 0; i < length; i++)
        byte(f, code[i]);
}

/* Class 10 below Object with one method 20, of that argument and result. */
static void one_method(struct file *f, unsigned argument, unsigned result, size_t length, const uint8_t *code)
{
    begin(f, 10, 2);
    byte(f, 0);
    byte(f, 1);
    method(f, 20, argument, result, length, code);
    whole(f);
}

#define CODE(...) sizeof((uint8_t[]){__VA_ARGS__}), (uint8_t[]){__VA_ARGS__}

static void code_is(const char *what, uint8_t number, unsigned argument, unsigned result, size_t length, const uint8_t *code)
{
    struct file f;
    one_method(&f, argument, result, length, code);
    expect(what, number, f.bytes, f.length);
}

/* Code of a given length that returns its int: `iload 1, pop`, pairs of `aconst_null, pop`, then `iload 1, ireturn`. */
static size_t filled(uint8_t *code, size_t length)
{
    size_t i = 0;
    if ((length - 3) % 2 == 1) {
        code[i++] = 0x15;
        code[i++] = 1;
        code[i++] = 0x57;
    }
    while (i + 3 < length) {
        code[i++] = 0x01;
        code[i++] = 0x57;
    }
    code[i++] = 0x15;
    code[i++] = 1;
    code[i++] = 0xAC;
    return i;
}

static const uint8_t quote[] = {0x01, 0x00, 0x11, 0x00, 0x0A, 0x00, 0x02, 0x00, 0x01, 0x00, 0x14, 0x00, 0x01, 0x00, 0x01, 0x00, 0x03, 0x15, 0x01, 0xAC};

static void good_files(void)
{
    const uint8_t smallest[] = {0x01, 0x00, 0x06, 0x00, 0x0A, 0x00, 0x02, 0x00, 0x00};
    expect("the smallest file", 0, smallest, sizeof smallest);
    expect("the file that returns its int", 0, quote, sizeof quote);

    struct file f;
    uint8_t code[512];
    begin(&f, 10, 2);
    byte(&f, 8);
    for (unsigned i = 0; i < 8; i++) {
        pair(&f, 1 + i);
        pair(&f, 1 + i);
    }
    byte(&f, 8);
    for (unsigned i = 0; i < 8; i++)
        method(&f, 20 + i, 1, 1, CODE(0x15, 1, 0xAC));
    whole(&f);
    expect("eight fields and eight methods", 0, f.bytes, f.length);

    begin(&f, 10, 2);
    byte(&f, 0);
    byte(&f, 8);
    for (unsigned i = 0; i < 8; i++)
        method(&f, 20 + i, 1, 1, filled(code, i < 7 ? 512 : 439), code);
    whole(&f);
    expect("4,096 bytes", f.length == 4096 ? 0 : 99, f.bytes, f.length);

    begin(&f, 10, 2);
    byte(&f, 0);
    byte(&f, 8);
    for (unsigned i = 0; i < 8; i++)
        method(&f, 20 + i, 1, 1, filled(code, i < 7 ? 512 : 440), code);
    whole(&f);
    expect("4,097 bytes", f.length == 4097 ? 2 : 99, f.bytes, f.length);

    one_method(&f, 1, 1, filled(code, 512), code);
    expect("512 bytes of code", 0, f.bytes, f.length);

    begin(&f, 10, 2);
    byte(&f, 0);
    byte(&f, 2);
    method(&f, 20, 1, 1, CODE(0x15, 1, 0xAC));
    method(&f, 20, 1, 12, CODE(0x01, 0xB0));
    whole(&f);
    expect("two methods of one name and argument, with two results", 0, f.bytes, f.length);
}

static void file_rules(void)
{
    uint8_t f[sizeof quote];
    struct { const char *rule; size_t place; uint8_t value; } changed[] = {
        {"version 0", 0, 0}, {"version 2 without a count of maps", 0, 2}, {"version 3", 0, 3}, {"a length too small", 2, 0x10}, {"a length too large", 2, 0x12},
        {"a length too large by 256", 1, 1}, {"class name 0", 4, 0}, {"class name 1", 4, 1}, {"superclass name 0", 6, 0},
        {"superclass name 1", 6, 1}, {"a field that isn't there", 7, 1}, {"9 fields", 7, 9}, {"no method where one is", 8, 0},
        {"a method too many", 8, 2}, {"9 methods", 8, 9}, {"method name 0", 10, 0}, {"argument type 0", 12, 0},
        {"result type 0", 14, 0}, {"a code length too small", 16, 2}, {"a code length too large", 16, 4}, {"code length 0", 16, 0},
    };
    for (size_t i = 0; i < sizeof changed / sizeof *changed; i++) {
        memcpy(f, quote, sizeof quote);
        f[changed[i].place] = changed[i].value;
        expect(changed[i].rule, 2, f, sizeof f);
    }

    struct file g;
    uint8_t code[513];
    memset(code, 0x01, sizeof code);
    one_method(&g, 1, 1, 0, code);
    expect("no code", 2, g.bytes, g.length);
    one_method(&g, 1, 1, 513, code);
    expect("513 bytes of code", 2, g.bytes, g.length);

    for (unsigned name = 0; name < 2; name++) {
        begin(&g, 10, 2);
        byte(&g, 1);
        pair(&g, name);
        pair(&g, 1 - name);
        byte(&g, 0);
        whole(&g);
        expect(name ? "field type 0" : "field name 0", 2, g.bytes, g.length);
    }

    begin(&g, 10, 2);
    byte(&g, 2);
    pair(&g, 5);
    pair(&g, 1);
    pair(&g, 5);
    pair(&g, 12);
    byte(&g, 0);
    whole(&g);
    expect("two fields of one name", 2, g.bytes, g.length);

    begin(&g, 10, 2);
    byte(&g, 0);
    byte(&g, 2);
    method(&g, 20, 1, 1, CODE(0x15, 1, 0xAC));
    method(&g, 20, 1, 1, CODE(0x11, 0, 0, 0xAC));
    whole(&g);
    expect("two methods alike", 2, g.bytes, g.length);

    one_method(&g, 1, 1, CODE(0x15, 1, 0xAC));
    byte(&g, 0);
    expect("a byte after the end", 2, g.bytes, g.length);
    whole(&g);
    expect("a byte after the end that the length counts", 2, g.bytes, g.length);
}

static void verifier_rules(void)
{
    code_is("every instruction", 0, 1, 12,
            CODE(0x15, 1, 0x11, 0x80, 0, 0x60, 0x11, 0, 1, 0x64, 0x36, 7, 0x01, 0x3A, 2, 0x19, 2, 0x57, 0xBB, 0, 30, 0x59, 0xB4, 0, 30,
                 0, 5, 0, 1, 0x57, 0x59, 0x15, 7, 0xB5, 0, 30, 0, 5, 0, 1, 0x15, 7, 0xB6, 0, 30, 0, 20, 0, 1, 0, 12, 0xB0));
    code_is("an unset local, as an int", 6, 1, 1, CODE(0x15, 2, 0xAC));
    code_is("an unset local, as a reference", 6, 1, 12, CODE(0x19, 7, 0xB0));
    code_is("local 8 read", 6, 1, 1, CODE(0x15, 8, 0xAC));
    code_is("local 8 written", 6, 1, 1, CODE(0x15, 1, 0x36, 8, 0x15, 1, 0xAC));
    code_is("local 255 of a reference", 6, 12, 12, CODE(0x19, 255, 0xB0));

    uint8_t deep[20];
    memset(deep, 0x01, sizeof deep);
    deep[16] = 0xB0;
    code_is("16 operands", 0, 1, 12, 17, deep);
    deep[16] = 0x01;
    deep[17] = 0xB0;
    code_is("17 operands", 6, 1, 12, 18, deep);
    deep[15] = 0x15;
    deep[16] = 1;
    deep[17] = 0x59;
    deep[18] = 0xAC;
    code_is("17 operands by dup", 6, 1, 1, 19, deep);

    code_is("no operand to pop", 6, 1, 1, CODE(0x57, 0x15, 1, 0xAC));
    code_is("no operand to dup", 6, 1, 1, CODE(0x59, 0xAC));
    code_is("one operand to add", 6, 1, 1, CODE(0x15, 1, 0x60, 0xAC));
    code_is("one operand to subtract", 6, 1, 1, CODE(0x15, 1, 0x64, 0xAC));
    code_is("no operand to return", 6, 1, 1, CODE(0xAC));
    code_is("no reference to return", 6, 1, 12, CODE(0xB0));
    code_is("no receiver", 6, 1, 1, CODE(0xB4, 0, 30, 0, 5, 0, 1, 0xAC));
    code_is("a value and no receiver", 6, 1, 1, CODE(0x15, 1, 0xB5, 0, 30, 0, 5, 0, 1, 0x15, 1, 0xAC));
    code_is("an argument and no receiver", 6, 1, 1, CODE(0x15, 1, 0xB6, 0, 30, 0, 20, 0, 1, 0, 1, 0xAC));

    for (unsigned opcode = 0; opcode < 256; opcode++) {
        uint8_t alone[] = {(uint8_t)opcode};
        code_is("an opcode alone", 6, 1, 1, 1, alone);
    }

    code_is("sipush cut off", 6, 1, 1, CODE(0x11, 0));
    code_is("iload cut off", 6, 1, 1, CODE(0x15));
    code_is("getfield cut off", 6, 1, 1, CODE(0x01, 0xB4, 0, 30, 0, 5, 0));
    code_is("invokevirtual cut off", 6, 1, 1, CODE(0x01, 0x15, 1, 0xB6, 0, 30, 0, 20, 0, 1, 0));
    code_is("new cut off", 6, 1, 12, CODE(0xBB, 0));

    code_is("a field's name 0", 6, 1, 1, CODE(0x01, 0xB4, 0, 30, 0, 0, 0, 1, 0xAC));
    code_is("a field's type 0", 6, 1, 1, CODE(0x01, 0xB4, 0, 30, 0, 5, 0, 0, 0xAC));
    code_is("a method's name 0", 6, 1, 1, CODE(0x01, 0x15, 1, 0xB6, 0, 30, 0, 0, 0, 1, 0, 1, 0xAC));
    code_is("a method's argument 0", 6, 1, 1, CODE(0x01, 0x15, 1, 0xB6, 0, 30, 0, 20, 0, 0, 0, 1, 0xAC));
    code_is("a method's result 0", 6, 1, 1, CODE(0x01, 0x15, 1, 0xB6, 0, 30, 0, 20, 0, 1, 0, 0, 0xAC));
    code_is("a class below 2 in getfield", 6, 1, 1, CODE(0x01, 0xB4, 0, 1, 0, 5, 0, 1, 0xAC));
    code_is("a class below 2 in putfield", 6, 1, 1, CODE(0x01, 0x15, 1, 0xB5, 0, 1, 0, 5, 0, 1, 0x15, 1, 0xAC));
    code_is("a class below 2 in invokevirtual", 6, 1, 1, CODE(0x01, 0x15, 1, 0xB6, 0, 0, 0, 20, 0, 1, 0, 1, 0xAC));
    code_is("a class below 2 in new", 6, 1, 12, CODE(0xBB, 0, 1, 0xB0));

    code_is("an int for a reference, returned", 6, 1, 12, CODE(0x15, 1, 0xB0));
    code_is("a reference for an int, returned", 6, 12, 1, CODE(0x19, 1, 0xAC));
    code_is("null for an int", 6, 1, 1, CODE(0x01, 0xAC));
    code_is("a reference loaded as an int", 6, 1, 1, CODE(0x15, 0, 0xAC));
    code_is("an int loaded as a reference", 6, 1, 12, CODE(0x19, 1, 0xB0));
    code_is("a reference stored as an int", 6, 1, 1, CODE(0x19, 0, 0x36, 2, 0x15, 1, 0xAC));
    code_is("an int stored as a reference", 6, 1, 1, CODE(0x15, 1, 0x3A, 2, 0x15, 1, 0xAC));
    code_is("a reference added", 6, 1, 1, CODE(0x15, 1, 0x19, 0, 0x60, 0xAC));
    code_is("an int as receiver", 6, 1, 1, CODE(0x15, 1, 0xB4, 0, 30, 0, 5, 0, 1, 0xAC));
    code_is("a reference put into a field of ints", 6, 1, 1, CODE(0x19, 0, 0x19, 0, 0xB5, 0, 10, 0, 5, 0, 1, 0x15, 1, 0xAC));
    code_is("an int put into a field of references", 6, 1, 1, CODE(0x19, 0, 0x15, 1, 0xB5, 0, 10, 0, 5, 0, 12, 0x15, 1, 0xAC));
    code_is("an int as an argument of another type", 6, 1, 1, CODE(0x19, 0, 0x15, 1, 0xB6, 0, 10, 0, 20, 0, 12, 0, 1, 0xAC));

    code_is("areturn of an int's method", 6, 1, 1, CODE(0x01, 0xB0));
    code_is("ireturn of a reference's method", 6, 1, 12, CODE(0x15, 1, 0xAC));
    code_is("an instruction after a return", 6, 1, 1, CODE(0x15, 1, 0xAC, 0x01));
    code_is("a return before the last", 6, 1, 1, CODE(0x15, 1, 0x59, 0xAC, 0xAC));
    code_is("no return", 6, 1, 1, CODE(0x15, 1));
}

/* Class 10 of version 2 with one method 20 from int to int; the maps come with their count. */
static void mapped_file(struct file *f, size_t length, const uint8_t *code, size_t maps_length, const uint8_t *maps)
{
    begin_version(f, 2, 10, 2);
    byte(f, 0);
    byte(f, 1);
    method(f, 20, 1, 1, length, code);
    for (size_t i = 0; i < maps_length; i++)
        byte(f, maps[i]);
    whole(f);
}

static void mapped_is(const char *what, uint8_t number, size_t length, const uint8_t *code, size_t maps_length, const uint8_t *maps)
{
    struct file f;
    mapped_file(&f, length, code, maps_length, maps);
    expect(what, number, f.bytes, f.length);
}

/* A map at a low offset: its first locals, the others unset, and its operand count. */
#define MAP(offset, one, two, three, operands) 0, offset, 0, one, 0, two, 0, three, 0, 0, 0, 0, 0, 0, 0, 0, 0, 0, operands
#define IDENTITY CODE(0x15, 1, 0xAC)
#define NONE CODE(0)

static void map_shapes(void)
{
    mapped_is("no map", 0, IDENTITY, NONE);
    mapped_is("a map that unsets all", 0, IDENTITY, CODE(1, MAP(2, 0, 0, 0, 1), 0, 1));
    mapped_is("a goto to itself", 0, CODE(0xA7, 0, 0), CODE(1, MAP(0, 10, 1, 0, 0)));
    mapped_is("a map of another name", 0, IDENTITY, CODE(1, MAP(0, 40, 1, 0, 0)));
    mapped_is("code that nothing jumps to", 0, CODE(0x15, 1, 0xAC, 0x15, 2, 0xAC), CODE(1, MAP(3, 0, 0, 1, 0)));
    mapped_is("null for a name, a name for unset", 0, CODE(0x01, 0x3A, 2, 0x15, 1, 0xAC), CODE(1, MAP(3, 0, 1, 30, 0)));

    mapped_is("offsets alike", 2, IDENTITY, CODE(2, MAP(0, 0, 1, 0, 0), MAP(0, 0, 1, 0, 0)));
    mapped_is("offsets that fall", 2, IDENTITY, CODE(2, MAP(2, 0, 1, 0, 1), 0, 1, MAP(0, 0, 1, 0, 0)));
    mapped_is("17 operands", 2, IDENTITY,
              CODE(1, MAP(0, 0, 0, 0, 17), 0, 1, 0, 1, 0, 1, 0, 1, 0, 1, 0, 1, 0, 1, 0, 1, 0, 1, 0, 1, 0, 1, 0, 1, 0, 1, 0, 1, 0, 1, 0, 1, 0, 1));
    mapped_is("an operand of type 0", 2, IDENTITY, CODE(1, MAP(2, 0, 0, 0, 1), 0, 0));
    mapped_is("no count of maps", 2, IDENTITY, 0, NULL);
    mapped_is("a map that isn't there", 2, IDENTITY, CODE(2, MAP(0, 0, 1, 0, 0)));
    mapped_is("a map too many", 2, IDENTITY, CODE(0, MAP(0, 0, 1, 0, 0)));
    mapped_is("operands cut off", 2, IDENTITY, CODE(1, MAP(2, 0, 0, 0, 1), 0));
}

static void maps_wanted(void)
{
    mapped_is("a target without a map", 15, CODE(0xA7, 0, 0), NONE);
    mapped_is("ifeq without a map", 15, CODE(0x15, 1, 0x99, 0, 5, 0x15, 1, 0xAC), NONE);
    mapped_is("if_icmplt without a map", 15, CODE(0x15, 1, 0x15, 1, 0xA1, 0, 7, 0x15, 1, 0xAC), NONE);
    mapped_is("a target past the code", 15, CODE(0xA7, 255, 255), NONE);
    mapped_is("a target inside an instruction", 15, CODE(0xA7, 0, 1), NONE);
    mapped_is("after a return", 15, CODE(0x15, 1, 0xAC, 0x15, 1, 0xAC), NONE);
    mapped_is("after a goto", 15, CODE(0xA7, 0, 0, 0x01), CODE(1, MAP(0, 0, 0, 0, 0)));
    mapped_is("local 9 before it", 15, CODE(0x15, 9, 0xA7, 0, 0), NONE);
    mapped_is("class 0 before it", 15, CODE(0xBB, 0, 0, 0xA7, 0, 0), NONE);
}

static void flow_rules(void)
{
    mapped_is("an unknown opcode before it", 6, CODE(0xFF, 0xA7, 0, 0), NONE);
    mapped_is("an unknown opcode after a return", 6, CODE(0x15, 1, 0xAC, 0xFF), NONE);
    mapped_is("cut off after a return", 6, CODE(0x15, 1, 0xAC, 0xA7, 0), NONE);
    mapped_is("a map inside an instruction", 6, CODE(0xA7, 0, 1), CODE(1, MAP(1, 0, 0, 0, 0)));
    mapped_is("a map where the code ends", 6, IDENTITY, CODE(1, MAP(3, 0, 0, 0, 0)));
    mapped_is("off the end by ifeq", 6, CODE(0x15, 1, 0x99, 0, 0), CODE(1, MAP(0, 10, 1, 0, 0)));
    mapped_is("unset for an int, from entry", 6, IDENTITY, CODE(1, MAP(0, 10, 1, 1, 0)));
    mapped_is("an int for a name, from entry", 6, IDENTITY, CODE(1, MAP(0, 10, 30, 0, 0)));
    mapped_is("an operand too few", 6, IDENTITY, CODE(1, MAP(0, 10, 1, 0, 1), 0, 1));
    mapped_is("an operand too many, to the next", 6, IDENTITY, CODE(1, MAP(2, 10, 1, 0, 0)));
    mapped_is("a name for an int, by a jump", 6, CODE(0xA7, 0, 3, 0x15, 1, 0xAC), CODE(1, MAP(3, 1, 1, 0, 0)));
    mapped_is("a local that the map unsets", 6, CODE(0xA7, 0, 3, 0x15, 1, 0xAC), CODE(1, MAP(3, 10, 0, 0, 0)));
    mapped_is("ifeq of a reference", 6, CODE(0x19, 0, 0x99, 0, 5, 0x15, 1, 0xAC), CODE(1, MAP(5, 0, 1, 0, 0)));
    code_is("goto in version 1", 6, 1, 1, CODE(0xA7, 0, 0));
    code_is("ifeq in version 1", 6, 1, 1, CODE(0x15, 1, 0x99, 0, 5, 0x15, 1, 0xAC));
    code_is("if_icmplt in version 1", 6, 1, 1, CODE(0x15, 1, 0x15, 1, 0xA1, 0, 7, 0x15, 1, 0xAC));
}

static void code_at(const char *what, unsigned point, unsigned argument, unsigned result, size_t length, const uint8_t *code)
{
    struct file f;
    one_method(&f, argument, result, length, code);
    expect_at(what, 6, 0, point, f.bytes, f.length);
}

static void mapped_at(const char *what, uint8_t number, unsigned point, size_t length, const uint8_t *code, size_t maps_length, const uint8_t *maps)
{
    struct file f;
    mapped_file(&f, length, code, maps_length, maps);
    expect_at(what, number, 0, point, f.bytes, f.length);
}

/* The place of a 6 or 15: each way to be rejected, and the method's number. */
static void places(void)
{
    struct file f;
    expect_at("accepted", 0, 0, 0, quote, sizeof quote);
    expect_at("no file", 2, 0, 0, quote, 4);
    code_at("an unset local", 0, 1, 1, CODE(0x15, 2, 0xAC));
    code_at("no operand to pop", 3, 1, 1, CODE(0x15, 1, 0x57, 0x57, 0x15, 1, 0xAC));
    code_at("an unknown opcode", 2, 1, 1, CODE(0x15, 1, 0xFF));
    code_at("cut off", 1, 1, 1, CODE(0x01, 0x11, 0));
    code_at("a wrong return", 1, 1, 1, CODE(0x01, 0xB0));
    code_at("behind a return, in version 1", 2, 1, 1, CODE(0x15, 1, 0xAC, 0x01));
    code_at("off the end", 2, 1, 1, CODE(0x15, 1));
    mapped_at("a target without a map", 15, 2, CODE(0x15, 1, 0x99, 0, 5, 0x15, 1, 0xAC), NONE);
    mapped_at("a target past the code", 15, 0, CODE(0xA7, 255, 255), NONE);
    mapped_at("after a return", 15, 3, CODE(0x15, 1, 0xAC, 0x15, 1, 0xAC), NONE);
    mapped_at("an unknown opcode after a return", 6, 2, CODE(0x15, 1, 0xAC, 0xFF), NONE);
    mapped_at("a map inside an instruction", 6, 2, IDENTITY, CODE(1, MAP(1, 10, 1, 0, 0)));
    mapped_at("a map inside the last instruction", 6, 3, CODE(0xA7, 0, 1), CODE(1, MAP(1, 0, 0, 0, 0)));
    mapped_at("a map where the code ends", 6, 3, IDENTITY, CODE(1, MAP(3, 0, 0, 0, 0)));
    mapped_at("off the end by ifeq", 6, 5, CODE(0x15, 1, 0x99, 0, 0), CODE(1, MAP(0, 10, 1, 0, 0)));
    mapped_at("unset for an int, from entry", 6, 0, IDENTITY, CODE(1, MAP(0, 10, 1, 1, 0)));
    mapped_at("an operand too many, to the next", 6, 0, IDENTITY, CODE(1, MAP(2, 10, 1, 0, 0)));
    mapped_at("a name for an int, by a jump", 6, 2, CODE(0x01, 0x57, 0xA7, 0, 5, 0x15, 1, 0xAC), CODE(1, MAP(5, 1, 1, 0, 0)));

    for (unsigned bad = 0; bad < 8; bad++) {
        begin(&f, 10, 2);
        byte(&f, 0);
        byte(&f, 8);
        for (unsigned i = 0; i < 8; i++) {
            if (i < bad)
                method(&f, 20 + i, 1, 1, CODE(0x15, 1, 0xAC));
            else
                method(&f, 20 + i, 1, 1, CODE(0x15, 1, 0x15, 1, 0x57, 0xB0));
        }
        whole(&f);
        expect_at("the first method that is rejected", 6, bad, 5, f.bytes, f.length);
    }
}

/* Products and quotients are of version 2 and take two ints; their neighbours are no opcodes. */
static void rates(void)
{
    for (uint8_t opcode = 0x65; opcode <= 0x70; opcode++) {
        int known = opcode == 0x68 || opcode == 0x6C;
        mapped_is("of two ints", known ? 0 : 6, CODE(0x15, 1, 0x15, 1, opcode, 0xAC), NONE);
        mapped_is("of one int", 6, CODE(0x15, 1, opcode, 0xAC), NONE);
        mapped_is("of a reference above", 6, CODE(0x15, 1, 0x19, 0, opcode, 0xAC), NONE);
        mapped_is("of a reference below", 6, CODE(0x19, 0, 0x15, 1, opcode, 0xAC), NONE);
        mapped_is("which leaves one int", 6, CODE(0x15, 1, 0x15, 1, opcode, 0x57, 0xAC), NONE);
        code_is("in version 1", 6, 1, 1, CODE(0x15, 1, 0x15, 1, opcode, 0xAC));
    }
}

/* 15 is said of any method before 6 is said of one. */
static void map_words(void)
{
    struct file f;
    for (unsigned first = 0; first < 2; first++) {
        begin_version(&f, 2, 10, 2);
        byte(&f, 0);
        byte(&f, 2);
        for (unsigned i = 0; i < 2; i++) {
            if (i == first)
                method(&f, 20 + i, 1, 1, CODE(0x15, 2, 0xAC));
            else
                method(&f, 20 + i, 1, 1, CODE(0xA7, 0, 0));
            byte(&f, 0);
        }
        whole(&f);
        expect("a method unmapped, another unverified", 15, f.bytes, f.length);
    }
    mapped_file(&f, IDENTITY, CODE(1, MAP(2, 10, 1, 0, 1), 0, 1));
    for (size_t n = 0; n < f.length; n++)
        expect("a file of version 2 cut off", 2, f.bytes, n);
}

/* The last of eight methods is verified too. */
static void last_method(void)
{
    struct file f;
    for (unsigned bad = 0; bad < 2; bad++) {
        begin(&f, 65535, 65535);
        byte(&f, 0);
        byte(&f, 8);
        for (unsigned i = 0; i < 7; i++)
            method(&f, 20 + i, 1, 1, CODE(0x15, 1, 0xAC));
        method(&f, 27, 1, bad ? 12 : 1, CODE(0x15, 1, 0xAC));
        whole(&f);
        expect("eight methods", bad ? 6 : 0, f.bytes, f.length);
    }
}

static void lengths(void)
{
    expect("no bytes", 2, quote, 0);
    for (size_t n = 0; n < sizeof quote; n++)
        expect("cut off", 2, quote, n);
    static uint8_t same[70000];
    for (unsigned value = 0; value < 256; value++)
        for (size_t n = 0; n < 40; n++) {
            memset(same, (int)value, n);
            expect("one byte repeated", 2, same, n);
        }
    memset(same, 1, sizeof same);
    expect("70,000 bytes", 2, same, sizeof same);
}

int main(void)
{
    good_files();
    file_rules();
    verifier_rules();
    map_shapes();
    maps_wanted();
    flow_rules();
    places();
    rates();
    map_words();
    last_method();
    lengths();
    printf("desk: %d checks, %d wrong\n", checked, wrong);
    return wrong == 0 && 0 < checked ? 0 : 1;
}
