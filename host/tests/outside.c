/* For the tests: a host that knows nothing but the installed header and archive. It is built as C and as C++, so it is written in what both have.
   usage: outside CELL UPDATE
   Prints the header's version, and the answers of the three calls: on the cell, and on the cell with the update. */
#include <s57loader.h>

#include <stdio.h>

static uint8_t cell[S57_LONGEST + 1], update[S57_LONGEST + 1], out[S57_LONGEST], work[S57_WORK_BOTH], area[S57_ANSWER];

static size_t load(const char *path, uint8_t *bytes)
{
    size_t length = 0;
    FILE *file = fopen(path, "rb");
    if (file != NULL) {
        length = fread(bytes, 1, S57_LONGEST + 1, file);
        fclose(file);
    }
    return length;
}

static void print_answer(const char *call, uint32_t code)
{
    struct s57_answer answer = s57_answer_read(area);
    printf("%s %u: %u %u %u %u\n", call, (unsigned)code, (unsigned)answer.code, (unsigned)answer.file, (unsigned)answer.record, (unsigned)answer.number);
}

int main(int words, char **word)
{
    if (words != 3)
        return 2;
    size_t cell_length = load(word[1], cell), update_length = load(word[2], update);
    printf("%s %d.%d.%d\n", S57LOADER_VERSION, S57LOADER_VERSION_MAJOR, S57LOADER_VERSION_MINOR, S57LOADER_VERSION_PATCH);
    print_answer("judge", s57_judge(cell, cell_length, work, S57_WORK_FOR(cell_length), area, sizeof area));
    print_answer("admit", s57_admit(cell, cell_length, out, sizeof out, work, S57_WORK_MOST, area, sizeof area));
    print_answer("apply", s57_apply(cell, cell_length, update, update_length, out, sizeof out, work, sizeof work, area, sizeof area));
    return 0;
}
