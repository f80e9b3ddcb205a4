/* Prints every constant of the header, calls each of its functions on each description (the arguments' files) and code
 * 25 FE at address 1000 and alignment 2, and prints each answer: its number, its four values, and what was lent. */
#include <inttypes.h>
#include <stdio.h>

#include "dookerand.h"

static uint8_t description[91406];

static void print(const char *request, uint32_t number, const uint64_t values[4])
{
    printf("%s %" PRIu32, request, number);
    for (int i = 0; i < 4; i++)
        printf(" %" PRIu64, values[i]);
    printf("\n");
}

static void print_rows(const int64_t *rows, size_t numbers)
{
    for (size_t i = 0; i < numbers; i++)
        printf("%" PRId64 "%s", rows[i], i + 1 < numbers ? " " : "\n");
}

static void print_bytes(const uint8_t *bytes, size_t length)
{
    for (size_t i = 0; i < length; i++)
        printf("%d%s", bytes[i], i + 1 < length ? " " : "\n");
}

static void print_constants(void)
{
    const int answers[] = { DOOKERAND_DONE, DOOKERAND_MALFORMED, DOOKERAND_SHORT, DOOKERAND_NO_MATCH,
                            DOOKERAND_AMBIGUOUS, DOOKERAND_HOLE, DOOKERAND_TOO_FAR, DOOKERAND_TOO_MANY_ROWS,
                            DOOKERAND_ROOT_LENGTH_ZERO, DOOKERAND_NO_ROOM, DOOKERAND_TEXT_TOO_LONG, DOOKERAND_BAD_TREE,
                            DOOKERAND_NO_TABLE, DOOKERAND_OUTSIDE, DOOKERAND_NO_MULTIPLE, DOOKERAND_CLASHING,
                            DOOKERAND_TREE_TOO_LARGE };

    printf("answers");
    for (size_t i = 0; i < sizeof answers / sizeof answers[0]; i++)
        printf(" %d", answers[i]);
    printf("\nrows %d %d %d %d\n", DOOKERAND_ROW_CONSTRUCTOR, DOOKERAND_ROW_FIELD, DOOKERAND_ROW_NAME,
           DOOKERAND_ROW_COMPUTED);
    printf("ends %d %d %d\n", DOOKERAND_END_USED, DOOKERAND_END_FULL, DOOKERAND_END_SHORT);
    printf("room %d %d %d %d %d %d\n", DOOKERAND_VALUES, DOOKERAND_ROW_NUMBERS, DOOKERAND_DECODE_ROOM,
           DOOKERAND_TEXT_ROOM, DOOKERAND_LINE_ROOM, DOOKERAND_TREE_ROOM);
    printf("none %d\n", DOOKERAND_NONE);
}

static void call_each(size_t length)
{
    const uint8_t code[] = { 0x25, 0xfe };
    const uint8_t tree[] = { 1, 0, 0, 0, 0, 0 };
    const uint32_t address = 0x1000, alignment = 2;
    uint8_t built[320] = { 0 };
    int64_t rows[20] = { 0 };
    uint8_t text[16] = "................";
    uint8_t lines[24] = "........................";
    uint64_t values[DOOKERAND_VALUES];

    print("check", dookerand_check(description, length, values), values);
    print("ask", dookerand_ask(description, length, 1, 0, code, sizeof code, values), values);
    print("clash", dookerand_clash(description, length, 1, values), values);
    print("tree", dookerand_tree(description, length, 0, tree, sizeof tree, values), values);
    print("build", dookerand_build(description, length, 1, built, sizeof built, values), values);
    print_bytes(built, sizeof built);
    print("decode", dookerand_decode(description, length, 0, address, code, sizeof code, rows, 20, values), values);
    print_rows(rows, 20);
    print("text", dookerand_text(description, length, 0, address, code, sizeof code, text, sizeof text, values),
          values);
    printf("%.16s\n", (const char *) text);
    print("sweep", dookerand_sweep(description, length, 0, address, alignment, code, sizeof code, rows, 20, values),
          values);
    print_rows(rows, 20);
    print("list", dookerand_list(description, length, 0, address, alignment, code, sizeof code, 0, lines, sizeof lines,
                                 values), values);
    printf("%.24s\n", (const char *) lines);
}

int main(int argc, char **argv)
{
    print_constants();
    for (int i = 1; i < argc; i++) {
        FILE *file = fopen(argv[i], "rb");

        if (file == NULL)
            return 2;
        call_each(fread(description, 1, sizeof description, file));
        fclose(file);
    }
    return 0;
}
