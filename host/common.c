#include "common.h"

#include <stdio.h>

/* `texts`: what host/codes.txt has for the mate, what the code means and what to do. host/build.sh makes the file. */
#include "texts.h"

int read_file(const char *path, uint8_t *bytes, size_t room, size_t *length)
{
    FILE *file = fopen(path, "rb");
    if (file == NULL)
        return 0;
    *length = fread(bytes, 1, room, file);
    int whole = !ferror(file);
    fclose(file);
    return whole;
}

/* Whether the answer names an item, by its place in held order, which isn't the number of a record in the file. */
static int names_place(struct s57_answer answer)
{
    return answer.code >= S57_SHAPE && answer.code <= S57_RING;
}

void say(const char *path, const char *done, struct s57_answer answer)
{
    const char *after = names_place(answer) && answer.file == S57_RESULT ? "With this update the chart would be wrong. " : "";
    printf("%s: %s%s", path, after, answer.code == S57_DONE ? done : texts[answer.code]);
    say_where(answer);
}

void say_where(struct s57_answer answer)
{
    printf(" (code %u, file %u, %s %u", (unsigned)answer.code, (unsigned)answer.file, names_place(answer) ? "place" : "record",
           (unsigned)answer.record);
    if (answer.number != 0)
        printf(", number %u", (unsigned)answer.number);
    printf(")\n");
}
