/*
 * Any bytes as a job's text. The first two bytes say how long the listing is,
 * the rest is the text.
 */
#include "../include/jisampode.h"
#include "fence.h"
#include <ctype.h>

#define MOST_TEXT 8192

static fence text_room, listing_room;

/* Reads a decimal number without leading zeros. */
static const char *number(const char *p, unsigned long *value) {
    hold(isdigit((unsigned char)*p) && (*p != '0' || !isdigit((unsigned char)p[1])), "a number");
    *value = 0;
    for (; isdigit((unsigned char)*p); p++)
        *value = 10 * *value + (unsigned long)(*p - '0');
    return p;
}

static const char *word(const char *p, const char *is) {
    size_t length = strlen(is);
    hold(strncmp(p, is, length) == 0, is);
    return p + length;
}

/* Reads a space and 16 lowercase hexadecimal digits. */
static const char *bits(const char *p) {
    p = word(p, " ");
    for (int i = 0; i < 16; i++, p++)
        hold(isdigit((unsigned char)*p) || (*p >= 'a' && *p <= 'f'), "a float");
    return p;
}

/* Holds a listing to its form: it ends with a byte 0. */
static void holds_form(const char *p) {
    unsigned long n, line, counts[5];
    if (strncmp(p, "(refused ", 9) == 0) {
        p = number(p + 9, &n);
        saw(1, n);
        hold((n >= 1 && n <= 6) || n == 12, "the number of a refusal");
        if (n == 12) {
            p = number(word(p, " "), &line);
            saw(2, line);
            hold(line >= 1 && line <= 69, "the line of a refusal");
        }
        p = word(p, ")\n");
        hold(*p == 0, "a refusal is one line");
        return;
    }
    p = word(p, "(done");
    for (int i = 0; i < 5; i++) {
        p = number(word(p, " "), &counts[i]);
        saw(3 + (unsigned)i, counts[i]);
    }
    p = word(p, ")\n");
    unsigned long active = 0, leaves = 0, values = 0;
    for (; *p == '('; active++) {
        int leaf = strncmp(p, "(leaf ", 6) == 0;
        p = number(word(p, leaf ? "(leaf " : "(constant "), &n);
        hold(n < counts[0], "a child's node");
        p = number(word(p, " "), &n);
        if (!leaf)
            p = bits(p);
        for (leaves += (unsigned long)leaf; leaf && *p == ' '; values++)
            p = bits(p);
        p = word(p, ")\n");
    }
    hold(*p == 0, "a listing has leaves and constants alone");
    hold(active == counts[1] && leaves == counts[2] && values == counts[3], "a listing's counts");
}

int LLVMFuzzerTestOneInput(const uint8_t *data, size_t size) {
    if (!text_room.room) {
        fence_make(&text_room, MOST_TEXT);
        fence_make(&listing_room, JISAMPODE_LISTING_BYTES);
    }
    if (size < 2 || size - 2 > MOST_TEXT)
        return 0;
    tried(size);
    size_t length = data[0] < 192 ? JISAMPODE_LISTING_BYTES : (data[0] - 192) * 256u + data[1];
    int at_end = data[1] & 1;
    uint8_t *text = fence_slice(&text_room, size - 2, at_end);
    uint8_t *listing = fence_slice(&listing_room, length, at_end);
    memcpy(text, data + 2, size - 2);
    memset(listing, 0x5a, length);
    size_t written[3] = {1, 77, 3};
    uint32_t answer = jisampode_list_job(text, size - 2, listing, length, &written[1]);
    saw(0, answer);
    hold(fence_holds(&text_room) && fence_holds(&listing_room), "a guard byte has changed");
    hold(written[0] == 1 && written[2] == 3, "a number beside the length has changed");
    hold(memcmp(text, data + 2, size - 2) == 0, "the text has changed");
    if (answer == JISAMPODE_REFUSED_SHORT) {
        hold(length < JISAMPODE_LISTING_BYTES, "enough bytes are too few");
        hold(written[1] == 77, "a refused call has written a length");
        hold(all(listing, length, 0x5a), "a refused call has written");
        return 0;
    }
    hold(answer == JISAMPODE_ACCEPTED, "an answer that is not defined");
    hold(written[1] <= length, "more is written than there is");
    hold(all(listing + written[1], length - written[1], 0), "what follows a listing is not 0");
    static char copy[JISAMPODE_LISTING_BYTES + 1];
    memcpy(copy, listing, written[1]);
    copy[written[1]] = 0;
    hold(strlen(copy) == written[1], "a byte 0 in a listing");
    holds_form(copy);
    return 0;
}
