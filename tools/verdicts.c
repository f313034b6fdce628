/* Reads texts, each behind a line with its length, and prints the three numbers of its check: 0, blocks and instructions, or number, line
   and item. They must be the same with working memory lent, which holds what the check before left in it. For tools/fuzz_items. */
#include "stal.h"
#include <stdio.h>

static stal_memory memory;
static uint8_t text[1 << 18];

int main(void) {
    size_t n;
    while (scanf("%zu", &n) == 1 && getchar() == '\n' && n <= sizeof text && fread(text, 1, n, stdin) == n) {
        stal_verdict v = stal_check_text(text, n), w = stal_check_with(text, n, &memory);
        if (v.code == w.code && v.first == w.first && v.second == w.second)
            printf("%zu %zu %zu\n", v.code, v.first, v.second);
        else
            puts("two answers");
    }
    return 0;
}
