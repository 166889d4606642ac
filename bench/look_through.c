/* The look-through by hand, for the benchmark: a C program over the tests' model, which sets the key up once for a file. */
#include <unistd.h>

#include "model.h"

static uint8_t input[MODEL_INPUT + 1], report[MODEL_REPORT];

int main(void)
{
    size_t length = 0, written = 0;
    ssize_t some;
    while (length < sizeof input && (some = read(0, input + length, sizeof input - length)) > 0)
        length += (size_t)some;
    size_t size = model_look_through(input, length, report);
    while (written < size && (some = write(1, report + written, size - written)) > 0)
        written += (size_t)some;
    return written < size;
}
