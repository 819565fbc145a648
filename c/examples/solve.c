/* An auction from a string to a table on standard output.
 *
 *     cc solve.c $(pkg-config --cflags --libs product_mix) && ./a.out
 *
 * Where the loader doesn't look in the library's folder, add -Wl,-rpath,$(pkg-config --variable=libdir product_mix).
 */
#include <product_mix.h>
#include <stdio.h>
#include <stdlib.h>
#include <string.h>

static const char auction[] = "mix,1\n"
                              "goods,weak,strong\n"
                              "supply,30,20\n"
                              "reserve,10,15\n"
                              "bid,alpha,10,40,50\n"
                              "bid,beta,15,35,-\n"
                              "bid,gamma,25,-,30\n"
                              "end\n";

/* The reply to a command on a text, with a zero after it, for the caller to free; NULL where memory was wanting. */
static char *reply_to(const char *words, const char *text, uint32_t *status) {
    size_t length = strlen(text), room = 4096 + 20 * length, needed = 0;
    for (;;) {
        char *reply = malloc(room + 1);
        if (reply == NULL) {
            return NULL;
        }
        *status = product_mix_run((const uint8_t *)words, strlen(words), (const uint8_t *)text, length,
                                  (uint8_t *)reply, room, &needed);
        if (*status != PRODUCT_MIX_NO_MEMORY && needed <= room) {
            reply[needed] = '\0';
            return reply;
        }
        free(reply);
        if (*status == PRODUCT_MIX_NO_MEMORY) {
            return NULL;
        }
        room = needed;
    }
}

/* Prints the rows of an outcome that say what each good costs and what each bidder gets and pays. Fields are numbers and
 * names, so a comma always ends one. */
static void print_table(char *outcome) {
    for (char *row = strtok(outcome, "\n"); row != NULL; row = strtok(NULL, "\n")) {
        if (strncmp(row, "price,", 6) == 0 || strncmp(row, "share,", 6) == 0) {
            for (; *row != '\0'; row++) {
                putchar(*row == ',' ? '\t' : *row);
            }
            putchar('\n');
        }
    }
}

int main(void) {
    uint32_t status;
    char *reply = reply_to("solve", auction, &status);
    if (reply == NULL) {
        fputs("memory was wanting\n", stderr);
        return EXIT_FAILURE;
    }
    if (status == PRODUCT_MIX_DONE) {
        print_table(reply);
    } else {
        /* As `fault,5,number`, where row 5 of the text has a field that should be a number. */
        fprintf(stderr, "status %u: %s", (unsigned)status, reply);
    }
    free(reply);
    return status == PRODUCT_MIX_DONE ? EXIT_SUCCESS : EXIT_FAILURE;
}
