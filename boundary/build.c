#include <stdlib.h>
#include <string.h>

#include "build.h"

static uint8_t room[1 << 21];
static size_t used;

size_t mark(void) {
    return used;
}

struct list taken(size_t start) {
    struct list list = {room + start, used - start};
    return list;
}

void fill(char byte, size_t count) {
    if (count > sizeof room - used) abort();
    memset(room + used, byte, count);
    used += count;
}

void put(const char *text) {
    for (; *text; text++) fill(*text, 1);
}

size_t begin(uint8_t tag) {
    size_t start = used;
    fill((char)tag, 1);
    fill(0, 2);
    return start;
}

void end(size_t start) {
    size_t length = used - start - 3;
    room[start + 1] = (uint8_t)(length >> 8);
    room[start + 2] = (uint8_t)length;
}

void cell(const char *text) {
    size_t start = begin(1);
    put(text);
    end(start);
}
