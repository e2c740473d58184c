/* The numbers that have words, a line each, by ovenlute_text; every text is looked at: its length, and the zeros behind it. */

#include "libc.h"
#include "ovenlute.h"

int main(void) {
    struct ovenlute_words none = ovenlute_text(255);
    int number;
    for (number = 0; number < 256; number++) {
        struct ovenlute_words words = ovenlute_text((uint8_t)number);
        size_t i = strlen(words.text);
        if (words.length != i || i == 0) printf("%d: a length of %d\n", number, words.length);
        for (; i < sizeof words.text; i++)
            if (words.text[i]) printf("%d: a byte behind the words\n", number);
        if (memcmp(&words, &none, sizeof words)) printf("%d %s\n", number, words.text);
    }
    return 0;
}
