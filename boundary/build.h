/* Bytes of trees, lists and stores, built one behind another in one room. */
#ifndef BUILD_H
#define BUILD_H

#include "calls.h"

/* Where the next byte goes. */
size_t mark(void);

/* The bytes from there on, as a list of their own. */
struct list taken(size_t start);

/* Begins an element; answers where it starts. */
size_t begin(uint8_t tag);

/* Ends the element that starts there: its length is what was put since. */
void end(size_t start);

void put(const char *text);

/* The same byte this many times. */
void fill(char byte, size_t count);

void cell(const char *text);

#endif
