/* Saves a file as an index with c/examples/save.c, whatever its bytes are: save_bytes INDEX FILE. */
#include <stdio.h>
#include <stdlib.h>

#include "index_file.h"
#include "save.h"

int main(int count, char **arguments)
{
    struct bytes file;
    struct save save;

    if (count != 3 || !load_file(arguments[2], &file))
        return 2;
    if (save_begin(&save, arguments[1]) == SAVE_DONE)
        save_commit(&save, file.data, file.length);
    save_explain(&save, arguments[1], stdout);
    save_free(&save);
    free(file.data);
    return save.result == SAVE_DONE ? 0 : 1;
}
