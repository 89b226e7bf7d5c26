/* How much stack a call takes. Each call runs on a stack of its own with exactly HULL_STACK_BYTES and a page before it
 * that must not be touched, so that a call that needs more ends the program by a signal; the stack is painted before,
 * and how far the paint is gone tells what was used. */
#define _GNU_SOURCE
#include <stdio.h>
#include <stdlib.h>
#include <string.h>
#include <sys/mman.h>
#include <ucontext.h>
#include <unistd.h>

#include "hullplaiter.h"

#define PAINT 0x5A
#define SLOTS HULL_SLOTS_MOST
#define TOTAL (64 * (SLOTS - 1))

static uint8_t image[HULL_IMAGE_BYTES(SLOTS)];
static uint8_t pool[TOTAL];
static size_t pool_length;
static uint8_t *stack;
static size_t most;
static ucontext_t here, there;

/* What the maker is told, and what every DF has: all rights, always. The expanded rule is as long and as deep as it can be,
 * and has to be judged to its end. */
struct card {
    uint32_t kind, form;
    uint8_t tag, rule_length, rule[HULL_RULE_MOST];
};
static const struct card cards[] = {
    {HULL_VERSION_1, HULL_COMPACT, 0x8C, 8, {0x7F}},
    {HULL_VERSION_2, HULL_EXPANDED, 0xAB, 30,
     {0x80, 0x01, 0x7F, 0xA0, 0x19, 0x97, 0x00, 0x97, 0x00, 0xAF, 0x13, 0x90, 0x00, 0xA0, 0x0F, 0x97, 0x00, 0xAF, 0x0B,
      0x90, 0x00, 0x90, 0x00, 0x90, 0x00, 0x90, 0x00, 0x9E, 0x01, 0x00}},
    {HULL_VERSION_3, HULL_EXPANDED, 0xAB, 28,
     {0x80, 0x01, 0x7F, 0xA0, 0x17, 0x97, 0x00, 0xAF, 0x13, 0x90, 0x00, 0xA0, 0x0F, 0x97, 0x00, 0xAF, 0x0B,
      0x90, 0x00, 0x90, 0x00, 0x90, 0x00, 0x90, 0x00, 0x9E, 0x01, 0x00}},
};
static const struct card *made;

static const uint8_t *bytes;
static size_t length;
static uint8_t response[HULL_RESPONSE_MOST];
static size_t response_length;
static uint32_t numbers[HULL_COMMAND_NUMBERS];
static uint32_t slot, place[HULL_RULE_NUMBERS];
static uint32_t given;

static void make(void)
{
    given = hull_make(image, sizeof image, made->kind, TOTAL, made->form, made->rule, made->rule_length);
}
static void command(void)
{
    given = hull_command(image, sizeof image, pool_length == 0 ? NULL : pool, pool_length, bytes, length, response,
                         response_length, 0, 0, 0, 0, numbers);
}
static void sound(void) { given = hull_sound(image, sizeof image); }
static void report(void)
{
    uint32_t counts[HULL_REPORT_NUMBERS];
    given = hull_report(image, sizeof image, counts);
}

static void rule(void)
{
    given = hull_rule(image, sizeof image, pool_length == 0 ? NULL : pool, pool_length, slot, place);
}

/* Runs a call on the painted stack; gives what it returned. */
static uint32_t run(void (*call)(void))
{
    size_t clean = 0;
    memset(stack, PAINT, HULL_STACK_BYTES);
    getcontext(&there);
    there.uc_stack.ss_sp = stack;
    there.uc_stack.ss_size = HULL_STACK_BYTES;
    there.uc_link = &here;
    makecontext(&there, call, 0);
    swapcontext(&here, &there);
    while (clean < HULL_STACK_BYTES && stack[clean] == PAINT) clean++;
    if (HULL_STACK_BYTES - clean > most) most = HULL_STACK_BYTES - clean;
    return given;
}

static void must(const char *what, uint32_t got, uint32_t wanted)
{
    if (got != wanted) {
        printf("stack: %s gave %X and not %X\n", what, (unsigned)got, (unsigned)wanted);
        exit(1);
    }
}

static uint32_t play(const uint8_t *one, size_t size)
{
    bytes = one;
    length = size;
    return run(command);
}

/* The CREATE of a DF in the current one, with a name and the card's rule. The root keeps 512 bytes of room. */
static size_t df(uint8_t *to, size_t level)
{
    uint32_t total = (uint32_t)(64 * (SLOTS - 2 - level) - 512);
    const uint8_t head[] = {0x00, 0xE0, 0x00, 0x00, 0x00, 0x62, 0x00, 0x82, 0x02, 0x78, 0x21, 0x83, 0x02,
                            (uint8_t)(0x70 + level / 256), (uint8_t)level, 0x84, 0x02, (uint8_t)(0xA0 + level / 256),
                            (uint8_t)level, 0x8A, 0x01, 0x05, made->tag, made->rule_length};
    const uint8_t tail[] = {0x81, 0x03, (uint8_t)(total >> 16), (uint8_t)(total >> 8), (uint8_t)total, 0xC6, 0x01, 0x00};
    size_t end = sizeof head + made->rule_length;
    memcpy(to, head, sizeof head);
    memcpy(to + sizeof head, made->rule, made->rule_length);
    memcpy(to + end, tail, sizeof tail);
    end += sizeof tail;
    to[4] = (uint8_t)(end - 5), to[6] = (uint8_t)(end - 7);
    return end;
}

/* CREATE of an EF of so many bytes in the current DF, which anybody may read and update. */
static uint32_t ef(uint8_t identifier, size_t size)
{
    const uint8_t create[] = {0x00, 0xE0, 0x00, 0x00, 0x16, 0x62, 0x14, 0x82, 0x02, 0x41, 0x21, 0x83, 0x02, 0x6F,
                              identifier, 0x8A, 0x01, 0x05, 0x8C, 0x03, 0x03, 0x00, 0x00, 0x80, 0x02,
                              (uint8_t)(size >> 8), (uint8_t)size};
    return play(create, sizeof create);
}

/* READ and UPDATE of the current EF, of 256 and of 255 bytes. */
static void body(void)
{
    const uint8_t read[] = {0x00, 0xB0, 0x00, 0x00, 0x00};
    static const uint8_t update[5 + 255] = {0x00, 0xD6, 0x00, 0x00, 0xFF};
    must("READ", play(read, sizeof read), 0x9000);
    must("what is read", numbers[0], 256);
    must("a byte of a new body", response[255], 0xFF);
    must("UPDATE", play(update, sizeof update), 0x9000);
    response_length--;
    must("READ with a short response", play(read, sizeof read), (uint32_t)HULL_SHORT_RESPONSE << 16);
    response_length++;
    pool_length--;
    must("a pool of another length", play(read, sizeof read), (uint32_t)HULL_WRONG_POOL << 16);
    pool_length++;
}

/* A CREATE for which bodies must be moved: the card is as long as it can be, and so is what is moved. */
static void moving(void)
{
    const uint8_t erase[] = {0x00, 0xE4, 0x00, 0x00, 0x02, 0x6F, 0x01};
    must("make", run(make), HULL_DONE);
    must("CREATE of a first EF", ef(1, 1000), 0x9000);
    must("CREATE of a large EF", ef(2, 60000), 0x9000);
    must("DELETE of the first EF", play(erase, sizeof erase), 0x9000);
    must("what was deleted", pool[0], 0x00);
    must("CREATE that moves", ef(3, 5280), 0x9000);
    must("what was moved", pool[0], 0xFF);
    must("where a body starts then", (uint32_t)(image[16 + 64 * 2 + 62] << 8 | image[16 + 64 * 2 + 63]), 0);
}

/* A refusal whose rule is asked once more to its end, under everything: as deep as it can be, and closed by its last byte; of a
 * compact rule, which has one group, by all of them. */
static void closed(void)
{
    const uint8_t head[] = {0x00, 0xE0, 0x00, 0x00, 0x00, 0x62, 0x00, 0x82, 0x02, 0x41, 0x21, 0x83, 0x02,
                            0x6F, 0x07, 0x8A, 0x01, 0x05, made->tag, made->rule_length};
    const uint8_t tail[] = {0x80, 0x02, 0x00, 0x01}, deactivate[] = {0x00, 0x04, 0x00, 0x00};
    uint8_t create[sizeof head + HULL_RULE_MOST + sizeof tail];
    size_t end = sizeof head + made->rule_length, from = made->form == HULL_COMPACT ? 7 : 1;
    memcpy(create, head, sizeof head);
    memcpy(create + sizeof head, made->rule, made->rule_length);
    memset(create + end - from, 0xFF, from);
    memcpy(create + end, tail, sizeof tail);
    end += sizeof tail;
    create[4] = (uint8_t)(end - 5), create[6] = (uint8_t)(end - 7);
    must("make", run(make), HULL_DONE);
    must("CREATE of an EF that nobody opens", play(create, end), 0x9000);
    must("DEACTIVATE of it", play(deactivate, sizeof deactivate), 0x6982);
    must("what it lacks", numbers[1], HULL_CLOSED);
}

/* A file of one record in the root, which is as long as it can be, and so is the expanded rule in it, with one byte of padding:
 * conditions that never hold, and behind them those of the card's own rule. */
static void rule_file(void)
{
    const uint8_t create[] = {0x00, 0xE0, 0x00, 0x00, 0x18, 0x62, 0x16, 0x82, 0x04, 0x42, 0x21, 0x00, 0xFF, 0x83, 0x02, 0x6F,
                              0x06, 0x8A, 0x01, 0x05, 0x8C, 0x03, 0x03, 0x00, 0x00, 0x80, 0x02, 0x00, 0xFF};
    static uint8_t update[5 + 255] = {0x00, 0xDC, 0x01, 0x04, 0xFF, 0x80, 0x01, 0x7F};
    size_t end = sizeof update - 1, last = end - (made->rule_length - 3u), i;
    for (i = 8; i < last; i += 2) update[i] = 0x97, update[i + 1] = 0x00;
    memcpy(update + last, made->rule + 3, made->rule_length - 3u);
    update[end] = 0xFF;
    must("CREATE of a rule file", play(create, sizeof create), 0x9000);
    must("UPDATE of its record", play(update, sizeof update), 0x9000);
}

/* CREATE of an EF in the deepest DF that refers to a record of a file, a READ of it, and where its rule stands. */
static void referred(uint8_t identifier, uint8_t named, uint32_t word, uint32_t lacks, uint32_t stands)
{
    const uint8_t create[] = {0x00, 0xE0, 0x00, 0x00, 0x16, 0x62, 0x14, 0x82, 0x02, 0x41, 0x21, 0x83, 0x02, 0x6F, identifier,
                              0x8A, 0x01, 0x05, 0x8B, 0x03, 0x6F, named, 0x01, 0x80, 0x02, 0x00, 0x01};
    const uint8_t read[] = {0x00, 0xB0, 0x00, 0x00, 0x01};
    must("CREATE of an EF with a reference", play(create, sizeof create), 0x9000);
    must("READ by a referred rule", play(read, sizeof read), word);
    must("what it lacks", numbers[1], lacks);
    for (slot = SLOTS - 1; image[16 + 64 * slot] == 0; slot--) continue;
    must("where its rule stands", run(rule), HULL_DONE);
    must("in which buffer", place[0], stands);
    must("how many bytes it has", place[2], stands == HULL_IN_POOL ? 254 : 0);
}

/* Every call, on a card as deep as it can be. */
static void calls(void)
{
    const uint8_t root[] = {0x00, 0xA4, 0x00, 0x0C, 0x02, 0x3F, 0x00}, erase[] = {0x00, 0xE4, 0x00, 0x00, 0x02, 0x70, 0x00};
    const uint8_t told[] = {0x00, 0xA4, 0x00, 0x04, 0x02, 0x3F, 0x00, 0x00};
    const uint8_t instructions[] = {0x04, 0x44, 0xE8, 0xE6};
    uint8_t bare[] = {0x00, 0x00, 0x00, 0x00}, directory[80];
    size_t level, i;

    response_length = sizeof response;
    pool_length = made->kind == HULL_VERSION_3 ? sizeof pool : 0;
    if (pool_length > 0) moving();
    closed();
    must("make", run(make), HULL_DONE);
    if (pool_length > 0) rule_file();
    for (level = 0; level < 900; level++) must("CREATE of a DF", play(directory, df(directory, level)), 0x9000);
    must("CREATE of an EF", ef(7, 300), 0x9000);
    if (pool_length > 0) {
        body();
        referred(8, 6, 0x9000, HULL_NO_SECURITY_REFUSAL, HULL_IN_POOL);
        referred(9, 0xFE, 0x6982, HULL_CLOSED, HULL_NOWHERE);
    }
    slot = 0;
    must("where the root's rule stands", run(rule), HULL_DONE);
    must("in its record", place[0], HULL_IN_IMAGE);
    must("report", run(report), HULL_DONE);
    must("sound", run(sound), 1);
    must("an empty command", play(NULL, 0), 0x6700);
    for (i = 0; i < sizeof instructions; i++) {
        bare[1] = instructions[i];
        play(bare, sizeof bare);
    }
    must("SELECT", play(root, sizeof root), 0x9000);
    must("SELECT with the template", play(told, sizeof told), 0x9000);
    must("the root's template", numbers[0], 19u + made->rule_length);
    response_length = numbers[0] - 1;
    must("SELECT with a short response", play(told, sizeof told), (uint32_t)HULL_SHORT_RESPONSE << 16);
    must("DELETE", play(erase, sizeof erase), 0x9000);
    bare[1] = 0xB1;
    must("an unknown instruction", play(bare, sizeof bare), 0x6D00);
    bare[1] = 0xFE;
    must("TERMINATE CARD USAGE", play(bare, sizeof bare), 0x9000);
    image[15] = 1;
    must("a damaged image", play(root, sizeof root), (uint32_t)HULL_NOT_SOUND << 16);
}

int main(void)
{
    size_t page = (size_t)sysconf(_SC_PAGESIZE), size = (HULL_STACK_BYTES + page - 1) / page * page;
    uint8_t *memory = mmap(NULL, size + page, PROT_READ | PROT_WRITE, MAP_PRIVATE | MAP_ANONYMOUS, -1, 0);
    if (memory == MAP_FAILED || mprotect(memory, page, PROT_NONE) != 0) return 2;
    stack = memory + page + size - HULL_STACK_BYTES;

    for (made = cards; made < cards + sizeof cards / sizeof *cards; made++) calls();
    printf("stack: the calls took at most %zu of the %u bytes that the header tells\n", most, (unsigned)HULL_STACK_BYTES);
    return most > HULL_STACK_BYTES / 2 ? 0 : 1;
}
