/* putline.h: puts digits and lines of a set into a buffer after the bytes that are used; shared by the C programs here that build sets.
   It assumes that the buffer has room. */
#ifndef PUTLINE_H
#define PUTLINE_H
enum { LINE_FRAME = 9, LENGTH_DIGITS = 3, LABEL_DIGITS = 4 };

static void put_digits(uint8_t *set, size_t *used, size_t number, int width)
{
    for (int i = width - 1; i >= 0; i--) {
        set[*used + (size_t)i] = (uint8_t)('0' + number % 10);
        number /= 10;
    }
    *used += (size_t)width;
}

static void put_line(uint8_t *set, size_t *used, size_t label, const char *content, size_t length)
{
    put_digits(set, used, length + LINE_FRAME, LENGTH_DIGITS);
    put_digits(set, used, label, LABEL_DIGITS);
    memcpy(set + *used, content, length);
    *used += length;
    set[(*used)++] = '\r';
    set[(*used)++] = '\n';
}
#endif
