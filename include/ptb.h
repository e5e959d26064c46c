/*
 * ptb: page tables for AArch64 (VMSAv8-64, 4 KiB granule, 48 bits), proved. Link with libptb.a (tools/archive.sh).
 *
 * What is lent to each call
 *   words, words_len     the pool: 512 words for each of its n tables. Table k has the physical address base + 4096 * k;
 *                        table 0 is the root
 *   ledger, ledger_len   a number for each table, so ledger_len is n, from 1 to 4096: 0 is free, the root has 4 + level,
 *                        any other table 4 + level + 8 * (512 * p + i + 1), where slot i of table p refers to it
 *   base, level, range   the handle: the physical address of table 0, the root's level (0 to 3), and the end of the
 *                        address space that the root spans (PTB_LOWER or PTB_UPPER)
 *   answer               four numbers, written only as said below
 * A length counts elements. Pointers are aligned and not null, also where a length is 0; no two of what is lent overlap.
 * What is `const` is only read. Nothing is kept between calls.
 *
 * What comes back
 *   The returned number is 0 where the call was accepted, else the refusal's. A refused call changes nothing that is lent
 *   but `answer`; where several refusals apply the lowest number is given. The rest of `answer` is untouched.
 *
 *   accepted     answer holds the call's values, from answer[0] on, as said at the call
 *   refusal 1    n is 0 or above 4096, words_len is not 512 * n, base is not a multiple of 4096 or its end is above 2^48,
 *                a level above 3, a range above 1, a table not below n                             answer: nothing
 *   refusal 2    end is 0 or above 2^64 - 4096                                                     answer[0]: end
 *   refusal 3    a flag argument has bit 1                                                         answer[0]: that argument
 *   refusal 4    a flag outside the set; modify: bit 0 to set, or a bit both set and cleared       answer[0]: that argument
 *   refusal 5    the rounded end is below the rounded start                                        answer[0], [1]: start, end, rounded
 *   refusal 6    an address outside the root's span                                                answer[0]: the address
 *   refusal 7    a frame that is no multiple of 4096, or that ends above 2^48                      answer[0]: frame
 *   refusal 8    the pool is not sound                                                             answer: nothing
 *   refusal 9    more new tables are needed than are free                                          answer[0], [1]: needed, free
 *   refusal 10   a live edit that the house rule forbids                                           answer[0]: the old word
 *   refusal 11   a buffer of the wrong length                                                      answer[0]: the length needed
 */
#ifndef PTB_H
#define PTB_H

#include <stddef.h>
#include <stdint.h>

#ifdef __cplusplus
extern "C" {
#endif

#define PTB_LOWER 0
#define PTB_UPPER 1

#define PTB_HOLE 0
#define PTB_BLOCK 1
#define PTB_PAGE 2

/* Flags of a page or block: bits 0, 2 to 11 and 50 to 63 may be given, bit 1 never. Bits 2 to 4 are the attribute index. */
#define PTB_VALID 0x1
#define PTB_NS 0x20
#define PTB_USER 0x40
#define PTB_READ_ONLY 0x80
#define PTB_OUTER_SHAREABLE 0x200
#define PTB_INNER_SHAREABLE 0x300
#define PTB_ACCESSED 0x400
#define PTB_NON_GLOBAL 0x800
#define PTB_GP 0x4000000000000
#define PTB_DBM 0x8000000000000
#define PTB_PXN 0x20000000000000
#define PTB_UXN 0x40000000000000

#define PTB_NO_BLOCK_MAPPINGS 1
#define PTB_NO_CONTIGUOUS_HINT 2

/*
 * Makes a pool: zeroes all words and the ledger, then enters the root as table 0.
 * Refusal 1. Accepted: no value.
 */
uint64_t ptb_make(uint64_t *words, size_t words_len, uint32_t *ledger, size_t ledger_len,
                  uint64_t base, uint64_t level, uint64_t range, uint64_t answer[4]);

/*
 * Checks that the pool is sound, whoever wrote its words: every used table hangs from the slot that its number names, every
 * table word is the address of such a table + 3, every other word has only what its level allows, and free tables are zero.
 * Refusals 1, 8. Accepted: no value.
 */
uint64_t ptb_check(const uint64_t *words, size_t words_len, const uint32_t *ledger, size_t ledger_len,
                   uint64_t base, uint64_t level, uint64_t range, uint64_t answer[4]);

/*
 * Looks an address up: the Arm walk, on any words. The handle's span is tested first; a word on the path that refers to a table
 * outside the pool is refusal 8.
 * Refusals 1, 6, 8. Accepted: answer[0] kind (PTB_HOLE, PTB_BLOCK, PTB_PAGE), answer[1] level, answer[2] flags without bit 1,
 * answer[3] the frame of the address's page (0 for a hole).
 */
uint64_t ptb_look_up(const uint64_t *words, size_t words_len, const uint32_t *ledger, size_t ledger_len,
                     uint64_t base, uint64_t level, uint64_t range, uint64_t va, uint64_t answer[4]);

/*
 * Lists the entries that start..end meets (start rounded down and end up to 4096), ascending, four numbers a line: start,
 * end, word, level. What lies in `lines` after the last line stays.
 * Refusals 1, 2, 5, 6, 8, 11 (lines_len is below four numbers a line; answer[0] is what is needed). Accepted: answer[0] the
 * count of lines.
 */
uint64_t ptb_list(const uint64_t *words, size_t words_len, const uint32_t *ledger, size_t ledger_len,
                  uint64_t base, uint64_t level, uint64_t range, uint64_t start, uint64_t end,
                  uint64_t *lines, size_t lines_len, uint64_t answer[4]);

/*
 * Puts a map down: each page of start..end (start rounded down, end up) to its frame, ascending, with these flags. Without
 * bit 0 of the flags the pages become holes with these flags. Constraints are PTB_NO_BLOCK_MAPPINGS and
 * PTB_NO_CONTIGUOUS_HINT (which changes nothing); other bits are ignored.
 * Refusals 1 to 9. Accepted: answer[0] the tables in use afterwards.
 */
uint64_t ptb_map(uint64_t *words, size_t words_len, uint32_t *ledger, size_t ledger_len,
                 uint64_t base, uint64_t level, uint64_t range, uint64_t start, uint64_t end, uint64_t frame,
                 uint64_t flags, uint64_t constraints, uint64_t answer[4]);

/*
 * Sets and clears bits in the valid blocks and pages of start..end (start rounded down, end up); an entry that is covered in
 * part is split first. `live` is true for any value but 0. Live, only bits 0 (clearing), 7, 10, 11, 51 and 53 to 58 of a valid
 * entry may change, no valid entry is split, and `list` gets the page number (address / 4096 mod 2^44) of each valid entry whose
 * word changed: a lower table's numbers when that table is finished, a table's own last, ascending; the rest of `list` stays.
 * Not live, `list` is neither read nor written and may have any length.
 * Refusals 1 to 6, 8, 9 and, live, 10 and 11 (list_len is below the count of numbers; answer[0] is what is needed). Accepted:
 * answer[0] the tables in use afterwards and, live, answer[1] the count of numbers.
 */
uint64_t ptb_modify(uint64_t *words, size_t words_len, uint32_t *ledger, size_t ledger_len,
                    uint64_t base, uint64_t level, uint64_t range, uint64_t start, uint64_t end,
                    uint64_t set, uint64_t clear, uint64_t live, uint64_t *list, size_t list_len, uint64_t answer[4]);

/*
 * Compacts the pool, from the leaves up: each table other than the root whose words are all zero is freed and its slot zeroed, and
 * so is a table that this empties. Every address walks as before.
 * Refusals 1, 8. Accepted: answer[0] the tables in use afterwards.
 */
uint64_t ptb_compact(uint64_t *words, size_t words_len, uint32_t *ledger, size_t ledger_len,
                     uint64_t base, uint64_t level, uint64_t range, uint64_t answer[4]);

/*
 * Writes one table's 512 words, little-endian, into 4096 bytes. It does not ask that the pool is sound.
 * Refusals 1 (a table not below n), 11 (page_len is not 4096; answer[0] is 4096). Accepted: no value.
 */
uint64_t ptb_image(const uint64_t *words, size_t words_len, const uint32_t *ledger, size_t ledger_len,
                   uint64_t base, uint64_t level, uint64_t range, uint64_t table,
                   uint8_t *page, size_t page_len, uint64_t answer[4]);

#ifdef __cplusplus
}
#endif

#endif
