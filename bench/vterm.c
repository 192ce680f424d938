/* Counts the calls of libvterm's parser, with callbacks that only count: what C needs for the
   same streams. Its arguments are a file, and how often it is parsed. It decodes no UTF-8. */
#include <stdio.h>
#include <stdlib.h>
#include <vterm.h>

static unsigned long calls, sum;

/* Text up to the next control: the answer is how many bytes it has. */
static int text(const char *bytes, size_t length, void *user)
{
    size_t taken = 0;
    calls++;
    for (; taken < length && (unsigned char)bytes[taken] >= 0x20; taken++)
        sum += (unsigned char)bytes[taken];
    return (int)taken;
}

static int take(const char *bytes, size_t length, void *user)
{
    calls++;
    for (size_t i = 0; i < length; i++)
        sum += (unsigned char)bytes[i];
    return 1;
}

static int control(unsigned char byte, void *user)
{
    calls++;
    sum += byte;
    return 1;
}

static int csi(const char *leader, const long arguments[], int count, const char *intermediates,
               char command, void *user)
{
    calls++;
    for (int i = 0; i < count; i++)
        sum += arguments[i];
    sum += command;
    return 1;
}

int main(int count, char **arguments)
{
    static const VTermParserCallbacks callbacks = {
        .text = text, .control = control, .escape = take, .csi = csi, .osc = take, .dcs = take,
    };
    FILE *file = count == 3 ? fopen(arguments[1], "rb") : NULL;
    if (!file)
        return 2;
    static char bytes[1 << 24];
    size_t length = fread(bytes, 1, sizeof bytes, file);
    for (int n = atoi(arguments[2]); n > 0; n--) {
        VTerm *terminal = vterm_new(25, 80);
        vterm_parser_set_callbacks(terminal, &callbacks, NULL);
        vterm_input_write(terminal, bytes, length);
        vterm_free(terminal);
    }
    printf("calls %lu sum %lu\n", calls, sum);
    return 0;
}
