/* Writes the sequence that selects a style. pane.c takes this file along. */
#include "ansi_screen.h"

#include <stdio.h>

static void put_color(ansi_color color, unsigned base)
{
    const uint8_t *values = color.values;

    switch (color.kind) {
    case ANSI_COLOR_NAMED: printf(";%u", base + values[0]); break;
    case ANSI_COLOR_BRIGHT: printf(";%u", base + 60 + values[0]); break;
    case ANSI_COLOR_INDEXED: printf(";%u;5;%u", base + 8, values[0]); break;
    case ANSI_COLOR_DIRECT: printf(";%u;2;%u;%u;%u", base + 8, values[0], values[1], values[2]); break;
    }
}

static void put_style(const ansi_style *style)
{
    fputs("\033[0", stdout);
    if (style->bold) fputs(";1", stdout);
    if (style->dim) fputs(";2", stdout);
    if (style->italic) fputs(";3", stdout);
    if (style->underline) printf(";4:%u", style->underline);
    if (style->blink) fputs(";5", stdout);
    if (style->reverse) fputs(";7", stdout);
    if (style->hidden) fputs(";8", stdout);
    if (style->struck_out) fputs(";9", stdout);
    if (style->overlined) fputs(";53", stdout);
    put_color(style->foreground, 30);
    put_color(style->background, 40);
    putchar('m');
}
