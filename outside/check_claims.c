/*
   Claims about texts, made by another program (outside/texts/texts.py): a file of
   words and numbers, with calls on each text and what they must answer and leave.

       text LENGTH HEX            or - in place of no bytes
       read LENGTHS NUMBERS ...   of the five tables; then what is read, table by table
       name NUMBER START LENGTH
       names LENGTHS NUMBERS ...  of the two tables; then starts, and sizes
       end TEXTS

   The other program's outcomes are wanted as they stand: no reader of this one is
   asked.
*/
#include <inttypes.h>
#include <stdio.h>
#include <stdlib.h>
#include <string.h>

#include "door.h"
#include "host.h"
#include "text_door.h"
#include "texts.h"

static FILE *file;
static struct text text;
static struct text_storage lent, left;
static uint64_t read_so_far;

static void damaged(const char *what)
{
    fprintf(stderr, "host: the claims are damaged in text %" PRIu64 ": %s\n", read_so_far, what);
    exit(2);
}

static uint32_t number_below(uint32_t bound)
{
    uint32_t number;
    if (fscanf(file, "%" SCNu32, &number) != 1 || number >= bound)
        damaged("a number");
    return number;
}

static uint32_t any_number(void)
{
    uint32_t number;
    if (fscanf(file, "%" SCNu32, &number) != 1)
        damaged("a number");
    return number;
}

static size_t length_of_table(void)
{
    return number_below(TEXT_ROOM + 1);
}

static void numbers_wanted(uint32_t numbers[4])
{
    for (int k = 0; k < 4; k++)
        numbers[k] = any_number();
}

static void fill_bytes(struct bytes table, size_t count)
{
    if (count > table.length)
        damaged("more entries than there is room");
    for (size_t k = 0; k < count; k++)
        table.at[k] = (uint8_t)number_below(256);
}

static void fill_cells(struct cells table, size_t count)
{
    if (count > table.length)
        damaged("more entries than there is room");
    for (size_t k = 0; k < count; k++)
        table.at[k] = (uint16_t)number_below(65536);
}

/* ---- one claim each ---- */

static struct bytes take_text(void)
{
    text.length = 0;
    size_t length = length_of_table();
    if (length == 0)
        (void)!fscanf(file, " -");
    for (size_t k = 0; k < length; k++) {
        unsigned byte;
        if (fscanf(file, k == 0 ? " %2x" : "%2x", &byte) != 1)
            damaged("the text");
        text_add(&text, &(uint8_t){(uint8_t)byte}, 1);
    }
    return (struct bytes){text.at, text.length};
}

static void try_read(struct bytes bytes, struct dice *dice)
{
    uint32_t numbers[4];
    struct text_call call = text_read_call(&lent, bytes, 0, 0);
    call.kinds.length = length_of_table();
    call.types.length = length_of_table();
    call.gates.length = length_of_table();
    call.sources.length = length_of_table();
    call.drains.length = length_of_table();
    text_random_tables(&call, dice);
    struct text_call wanted = text_copied(&left, &call);
    numbers_wanted(numbers);
    if (numbers[0] == 0) {
        fill_bytes(wanted.kinds, numbers[2]);
        fill_bytes(wanted.types, numbers[3]);
        fill_cells(wanted.gates, numbers[3]);
        fill_cells(wanted.sources, numbers[3]);
        fill_cells(wanted.drains, numbers[3]);
    }
    text_door_try(&call, &wanted, numbers);
}

static void try_name(struct bytes bytes)
{
    struct text_call call = text_name_call(bytes, any_number());
    uint32_t numbers[4] = {0, 0, 0, 0};
    numbers[0] = any_number();
    numbers[1] = any_number();
    text_door_try(&call, &call, numbers);
}

static void try_names(struct bytes bytes, struct dice *dice)
{
    uint32_t numbers[4];
    struct text_call call = text_names_call(&lent, bytes, 0, 0);
    call.starts.length = length_of_table();
    call.sizes.length = length_of_table();
    text_random_tables(&call, dice);
    struct text_call wanted = text_copied(&left, &call);
    numbers_wanted(numbers);
    if (numbers[0] == 0) {
        fill_cells(wanted.starts, numbers[2]);
        fill_bytes(wanted.sizes, numbers[2]);
    }
    text_door_try(&call, &wanted, numbers);
}

/* The rest of a claim about a text that is passed over. */
static void pass_over(void)
{
    (void)!fscanf(file, "%*[^\n]");
}

/* ---- the file ---- */

void check_claims(const struct options *options)
{
    static char replay[300];
    struct dice dice = dice_for(options->seed, 4);
    struct bytes bytes = {NULL, 0};
    uint64_t claims = 0;
    bool chosen = false;
    char word[8];

    if (options->claims == NULL) {
        fprintf(stderr, "host: claims wants --claims FILE\n");
        exit(2);
    }
    file = fopen(options->claims, "r");
    if (file == NULL) {
        perror(options->claims);
        exit(2);
    }
    snprintf(replay, sizeof replay, "--claims %s", options->claims);
    door_cases_option = "--texts";
    while (fscanf(file, "%7s", word) == 1 && strcmp(word, "end") != 0) {
        if (strcmp(word, "text") == 0) {
            bytes = take_text();
            door_now_checking("claims", read_so_far, replay);
            door_lend_null(read_so_far % 2);
            chosen = read_so_far >= options->from && read_so_far - options->from < options->texts;
            read_so_far++;
        } else if (!chosen) {
            pass_over();
        } else if (strcmp(word, "read") == 0) {
            try_read(bytes, &dice);
        } else if (strcmp(word, "name") == 0) {
            try_name(bytes);
        } else if (strcmp(word, "names") == 0) {
            try_names(bytes, &dice);
        } else {
            damaged(word);
        }
        claims += chosen && strcmp(word, "text") != 0;
    }
    if (any_number() != read_so_far || read_so_far == 0)
        damaged("its end");
    fclose(file);
    door_cases_option = "--networks";
    printf("claims: %" PRIu64 " texts from another program, %" PRIu64 " claims tried\n",
           read_so_far, claims);
}
