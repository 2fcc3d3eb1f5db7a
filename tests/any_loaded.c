/* Loads gazhdor.dll by its name, and calls it by the names of its functions: any_loaded RIDE. */
#include "gazhdor.h"

#include <stdio.h>
#include <windows.h>

typedef gazhdor_answer check_call(const uint8_t *bytes, size_t length);
typedef gazhdor_answer show_call(const uint8_t *bytes, size_t length, gazhdor_text *text);
typedef void free_call(gazhdor_text text);

int main(int argc, char **argv)
{
    static uint8_t bytes[100000];
    HMODULE library = LoadLibraryA("gazhdor.dll");
    FILE *file = argc == 2 ? fopen(argv[1], "rb") : NULL;
    if (library == NULL || file == NULL)
        return 1;
    check_call *check = (check_call *)(void (*)(void))GetProcAddress(library, "gazhdor_check");
    show_call *show = (show_call *)(void (*)(void))GetProcAddress(library, "gazhdor_show");
    free_call *give_back = (free_call *)(void (*)(void))GetProcAddress(library, "gazhdor_free");
    if (check == NULL || show == NULL || give_back == NULL)
        return 2;
    size_t length = fread(bytes, 1, sizeof bytes, file);
    gazhdor_text text = GAZHDOR_NO_TEXT;
    gazhdor_answer answer = check(bytes, length);
    if (answer.status != GAZHDOR_GOOD || answer.files != 1 || show(bytes, length, &text).status != GAZHDOR_GOOD || text.length < 10000)
        return 3;
    give_back(text);
    return 0;
}
