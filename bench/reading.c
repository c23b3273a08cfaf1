/* reading SHEET: one call of koubospar_respond on the sheet in that file, for counting instructions under valgrind. */
#include "../c/koubospar.h"

#include <stdio.h>

int main(int argc, char **argv)
{
    static uint8_t sheet[65537], output[KOUBOSPAR_MOST];
    FILE *file = argc == 2 ? fopen(argv[1], "rb") : NULL;
    if (file == NULL)
        return 2;
    size_t length = fread(sheet, 1, sizeof sheet, file);
    fwrite(output, 1, koubospar_respond(sheet, length, output), stdout);
    return 0;
}
