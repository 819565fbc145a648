/* product_mix.h: the solver of product-mix auctions in this process.
 *
 * One function does what the program does: it takes the words and the text of a call of `product_mix`, and hands over
 * the bytes that the program would write and its status. The manual pages that are installed with it say which commands
 * there are (product_mix(1)) and what stands in the texts (product_mix(5)); in the checkout docs/FORMAT.md and
 * docs/LIBRARY.md say more.
 *
 *     cc solve.c $(pkg-config --cflags --libs product_mix)
 *
 * Where the loader doesn't look in the library's folder, add -Wl,-rpath,$(pkg-config --variable=libdir product_mix), or
 * name the folder in LD_LIBRARY_PATH when the program starts. A call, which gives 0:
 *
 *     const char text[] = "mix,1\ngoods,weak,strong\nsupply,30,20\nreserve,10,15\n"
 *                         "bid,alpha,10,40,50\nbid,beta,15,35,-\nbid,gamma,25,-,30\nend\n";
 *     uint8_t out[8192];
 *     size_t needed;
 *     uint32_t status = product_mix_run((const uint8_t *)"solve", 5, (const uint8_t *)text, strlen(text),
 *                                       out, sizeof out, &needed);
 */
#ifndef PRODUCT_MIX_H
#define PRODUCT_MIX_H

#include <stddef.h>
#include <stdint.h>

#ifdef __cplusplus
extern "C" {
#endif

/* The version of these functions that this header describes; product_mix_version tells that of the library. */
#define PRODUCT_MIX_LIBRARY_VERSION 1

/* What product_mix_run returns: the statuses of the program that a call in memory can have, by the program's numbers. */
enum product_mix_status {
    PRODUCT_MIX_DONE = 0,          /* the command was done */
    PRODUCT_MIX_UNMET = 1,         /* a bidder's list stands for no demand, or the outcome that was checked isn't true */
    PRODUCT_MIX_UNKNOWN_WORDS = 2, /* the words ask for nothing that is known */
    PRODUCT_MIX_FAULT = 3,         /* the text has a fault: the reply names the row, counted from 1 without blank ones,
                                      and what is wrong with it */
    PRODUCT_MIX_LIMIT = 4,         /* the text passes a limit: the reply names the row, and what there is too much of */
    PRODUCT_MIX_NO_MEMORY = 7      /* memory was wanting, and there is no reply */
};

/* Does what the words ask for with a text, as `product_mix WORDS <TEXT` does, and hands over the reply.
 *
 * words         the command, such as "solve". The words of a command line stand in one text with a blank between them,
 *               as in "trial 7"; no other command has a second word.
 * text          an auction, and what the command wants after it. `trial` reads none.
 * out, room     where the reply goes, and how many bytes may be written there. No zero follows the reply.
 * needed        gets how many bytes the reply has.
 *
 * Returns a status, as above. If *needed <= room the reply stands in the first *needed bytes of out, and the others are
 * as they were. If *needed > room all of out is as it was: call again with that much room. Then everything is computed
 * again, so offer enough at first: 4,096 bytes and twenty times the length of the text have served for all commands but
 * `session`, of which a short row can ask for a long outcome. For a text of more than 200 KB its own length has served.
 * If the status is 7, *needed is 0 and out is as it was.
 *
 * What the caller owes:
 * - words, text and out point to so many bytes that may be read (out: written), and needed to a size_t. A pointer whose
 *   length is 0 may be null. The bytes need be no valid text, and no zero ends them: the length of a string is its
 *   strlen, not its sizeof.
 * - out and *needed overlap neither each other nor words nor text, and nobody writes to any of the four during the call.
 * - Each length is below 2^63.
 * - The thread has 256 KiB of stack left.
 * - The call is made neither in a signal handler nor in the child of a fork of a process that had threads.
 *
 * Any number of threads may call at once: nothing is kept between calls and nothing shared, but malloc, realloc and free
 * of the process, which have to belong together. No file is read or written, and the locale has no effect. */
uint32_t product_mix_run(const uint8_t *words, size_t words_length, const uint8_t *text, size_t text_length,
                         uint8_t *out, size_t room, size_t *needed);

/* The parts whose versions are told. */
enum product_mix_part {
    PRODUCT_MIX_LIBRARY = 0, /* these functions */
    PRODUCT_MIX_AUCTION = 1, /* the greatest format of auctions that is read: 3 says `mix,1` to `mix,3` */
    PRODUCT_MIX_OUTCOME = 2  /* the greatest version of outcomes that is written: 2 says `outcome,1` and `outcome,2` */
};

/* The version of a part, or 0 of a part that isn't known. */
uint32_t product_mix_version(uint32_t part);

#ifdef __cplusplus
}
#endif

#endif
