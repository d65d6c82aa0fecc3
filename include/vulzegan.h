/* The functions of libgateway.a and libkiosk.a, for C on x86-64: `./build.sh` writes the archives into target/staticlib; link one.
 *
 * A lent list is a pointer, never null, and the number of its elements.
 * Cells and lists that a function may change overlap no other list of the same call.
 *
 * A cell is a number of 64 bits: a key (1 to 4,294,967,295) times 4,294,967,296, plus its price in cents; 0 is an empty cell.
 * A price is 1 to 9,999,999. A table has 2 to 8,192 cells, and a phase 1 to 16 workers. Every function has a counterpart for kiosks, at the end.
 * The home of a key is computed from two numbers, a and b: it is (a times key plus b) modulo 4,294,967,296, then modulo the number of cells.
 * a is odd; with a 1 and b 0 the home is the key modulo the number of cells. The probe path of a key is the cells from its home up to, not
 * including, its own, with cell 0 after the last one. A table is sound by a and b if a cell is empty, every other one has a key and a price
 * within these limits, and the probe path of every key holds only greater keys.
 * Lend a table with the a and b by which it was closed: by others it is refused, unless it is sound by them too.
 *
 * The answer of every function is one number of 64 bits: below VULZEGAN_REFUSED it is a value, from there up to VULZEGAN_WORDS a refusal, from there on a word.
 */
#ifndef VULZEGAN_H
#define VULZEGAN_H

#include <stddef.h>
#include <stdint.h>

#ifdef __cplusplus
extern "C" {
#endif

/* Values: a count, the price that a find found, or VULZEGAN_ACCEPTED where a call gives no value and is not refused. */
#define VULZEGAN_ACCEPTED UINT64_C(0)

/* Refusals: VULZEGAN_REFUSED + the number of documents 01 and 02, 1 to 21, 23 and 24; 22 is for a single reply of a round. A refusal changes nothing. */
#define VULZEGAN_REFUSED UINT64_C(4294967296)

/* The refusals of a table that is not sound. UNSOUND: no cell is empty, or some cell other than 0 has no key or a price outside the limits.
 * Otherwise the lowest-numbered cell decides whose key has on its probe path not only greater keys, by the first content there that is not
 * greater: GAP if that is an empty cell, DISORDER if it is a key. */
#define VULZEGAN_UNSOUND (VULZEGAN_REFUSED + 4)
#define VULZEGAN_GAP (VULZEGAN_REFUSED + 17)
#define VULZEGAN_DISORDER (VULZEGAN_REFUSED + 18)

/* The refusals of a till's list. BAD_RECORD: a record breaks the grammar or has not two fields. BAD_FIELD: a field is not a number. */
#define VULZEGAN_BAD_RECORD (VULZEGAN_REFUSED + 19)
#define VULZEGAN_BAD_FIELD (VULZEGAN_REFUSED + 20)

/* The refusal of an even a, in every function that takes a: at the opening of a phase behind 1, 2 and 3, where a round is opened or closed or a
 * move is opened behind 1 and 2, in all of these before 16 and all others; elsewhere behind 1. */
#define VULZEGAN_EVEN (VULZEGAN_REFUSED + 21)

/* The refusal of a table to move to: some cell is not 0, or it has no more cells than there are keys to move. */
#define VULZEGAN_UNFIT (VULZEGAN_REFUSED + 23)

/* The refusal of a list of orders or a list sent that has a key from 4,000,000,000 up, for factory tests, which no shop adds, also if the table has it
 * already: of a line behind 7 and before 14. Such keys in a table are checked, counted, listed, found, deleted, replied to and moved as any others. */
#define VULZEGAN_TEST_NUMBER (VULZEGAN_REFUSED + 24)

/* The answers to the single replies of a round, each of 32 bits: ACCEPTED, or the number of documents 01 and 02. BLANK: the key is 0. NO_WORKER:
 * the worker is not below count. ABSENT: the table that was lent has no such key. The first to apply, in this sequence. */
#define VULZEGAN_REPLY_ACCEPTED UINT32_C(0)
#define VULZEGAN_REPLY_BLANK UINT32_C(7)
#define VULZEGAN_REPLY_NO_WORKER UINT32_C(6)
#define VULZEGAN_REPLY_ABSENT UINT32_C(22)

/* Words: the answers of turns that are neither refused nor a price. */
#define VULZEGAN_WORDS UINT64_C(8589934592)
#define VULZEGAN_WENT_ON (VULZEGAN_WORDS + 1)
#define VULZEGAN_FINISHED (VULZEGAN_WORDS + 2)
#define VULZEGAN_NO (VULZEGAN_WORDS + 4)
#define VULZEGAN_IDLE (VULZEGAN_WORDS + 5)

/* Whether the table is sound by a and b: VULZEGAN_ACCEPTED or a refusal. The time, as measured, is linear in the cells. This and the next
 * two take some 19 KB of stack. */
uint64_t vulzegan_check(uint32_t a, uint32_t b, const uint64_t *cells, size_t cells_len);

/* How many keys the table has, or a refusal. */
uint64_t vulzegan_count(uint32_t a, uint32_t b, const uint64_t *cells, size_t cells_len);

/* The same, and the cells that have a key, whole and in cell order, at the front of out. */
uint64_t vulzegan_list(uint32_t a, uint32_t b, const uint64_t *cells, size_t cells_len, uint64_t *out, size_t out_len);

/* A line of the list of orders: key at price for worker. */
struct vulzegan_order {
    uint32_t key;
    uint32_t price;
    uint32_t worker;
};

/* Whether a phase of a kind (1 insert, 2 delete, 3 find) with count workers opens on cells by a and b: VULZEGAN_ACCEPTED or a refusal.
 * An insert phase opens for a list of at most 65,536 orders, whose keys and those of the table, each counted once, are fewer than the cells.
 * Behind the refusals of the table and before 9, the earliest line decides that has one of these, first to apply: 7 for key 0,
 * VULZEGAN_TEST_NUMBER, 14 for a price outside the limits, 6 for a worker not below count.
 * The other kinds do not read the list. Opening a phase takes some 185 KB of stack, here and in all functions below but that of moves. */
uint64_t vulzegan_open(uint64_t kind, uint64_t count, uint32_t a, uint32_t b, const uint64_t *cells, size_t cells_len,
                       const struct vulzegan_order *orders, size_t orders_len);

/* The operations of a list of calls: an order, a turn of worker workers[i], and a close.
 * In an insert phase the order is line lines[i] of the list of orders, counted from 0; a line may be ordered any number of times.
 * In the others it is keys[i] for worker workers[i]. Neither reads what is meant for the other, turns read workers[i] alone, closes nothing. */
enum { VULZEGAN_ORDER = 1, VULZEGAN_TURN = 2, VULZEGAN_CLOSE = 3 };

/* Opens a phase as vulzegan_open does, the list of orders lent as three lists: line i is order_keys[i] at order_prices[i] for worker
 * order_workers[i], and there are as many lines as the shortest of the three has.
 * If it opens, applies calls 0, 1, .. in order, as many as the shortest of ops, lines, workers, keys and answers has.
 * answers[i] takes the answer of call i: of an order or a close VULZEGAN_ACCEPTED or a refusal; of a turn a word, a refusal or,
 * where a find finishes and has found its key, the price of that key. */
uint64_t vulzegan_run_calls(uint64_t kind, uint64_t count, uint32_t a, uint32_t b, uint64_t *cells, size_t cells_len,
                            const uint32_t *order_keys, size_t order_keys_len, const uint32_t *order_prices, size_t order_prices_len,
                            const uint32_t *order_workers, size_t order_workers_len,
                            const uint32_t *ops, size_t ops_len, const uint32_t *lines, size_t lines_len,
                            const uint32_t *workers, size_t workers_len, const uint32_t *keys, size_t keys_len,
                            uint64_t *answers, size_t answers_len);

/* The same, each call by value with the record tested at each, as single calls are: slower. */
uint64_t vulzegan_run_calls_singly(uint64_t kind, uint64_t count, uint32_t a, uint32_t b, uint64_t *cells, size_t cells_len,
                                   const uint32_t *order_keys, size_t order_keys_len, const uint32_t *order_prices, size_t order_prices_len,
                                   const uint32_t *order_workers, size_t order_workers_len,
                                   const uint32_t *ops, size_t ops_len, const uint32_t *lines, size_t lines_len,
                                   const uint32_t *workers, size_t workers_len, const uint32_t *keys, size_t keys_len,
                                   uint64_t *answers, size_t answers_len);

/* Reads a till's list for count workers: how many records it has, or a refusal. Record i becomes keys[i] at prices[i] for worker workers[i],
 * which is i modulo count: three lists as vulzegan_run_calls takes them. Places behind the records keep their contents, so lend it as many
 * places on as there are records.
 * Each list has fewer than 4,294,967,296 places, so that a count is told from a refusal.
 *
 * The text is comma-separated after RFC 4180, without a header. It is one record or more, parted by CR LF, and may end in one more CR LF.
 * A record is two fields parted by a comma: key and price. A field is either any bytes from 0x20 to 0x7E, or none, without comma and double
 * quote; or it begins and ends with a double quote, and between these stand any bytes from 0x20 to 0x7E, CR and LF, or none, a double quote
 * always as two. A number is decimal, below 4,294,967,296 and without leading zeros, in double quotes or not.
 *
 * The refusals, first to apply: 2 if count is not 1 to 16; then, of the earliest record that has one of them, VULZEGAN_BAD_RECORD before
 * VULZEGAN_BAD_FIELD; at last 12 if one of the three lists has fewer places than the text has records. A text without bytes is a broken record.
 * Key 0, keys from 4,000,000,000 up, prices outside the limits and more than 65,536 records are read here, and refused when a phase is opened
 * with them. */
uint64_t vulzegan_read_till(const uint8_t *text, size_t text_len, uint64_t count, uint32_t *keys, size_t keys_len,
                            uint32_t *prices, size_t prices_len, uint32_t *workers, size_t workers_len);

/* Opens a reply round with the list sent: VULZEGAN_ACCEPTED or a refusal. Line i is keys[i] at prices[i] for worker workers[i], and there are as many
 * lines as the shortest of the three lists has. Cells are emptied, whatever they hold, and filled by one insert phase of count workers: the table
 * is then sound by a and b, with the keys sent and no others, each at the least price sent for it.
 *
 * The refusals are those of an insert phase on a table of as many empty cells, first to apply: 1 for the number of cells, 2 if count is not
 * 1 to 16, VULZEGAN_EVEN, 16 for more than 65,536 lines; then, of the earliest line that has one of them, 7 for key 0, VULZEGAN_TEST_NUMBER,
 * 14 for a price outside the limits, 6 for a worker not below count; at last 9 if the keys sent, each counted once, are as many as the cells or
 * more. This takes some 250 KB of stack. */
uint64_t vulzegan_round_open(uint64_t count, uint32_t a, uint32_t b, uint64_t *cells, size_t cells_len, const uint32_t *keys, size_t keys_len,
                             const uint32_t *prices, size_t prices_len, const uint32_t *workers, size_t workers_len);

/* Closes a reply round: how many keys are left, or a refusal. Reply i is keys[i] for worker workers[i], and there are as many replies as the shorter
 * of the two lists has, any number. Those neither blank nor without a worker are looked up in one find phase of count workers, those found are
 * taken out in one delete phase, and what is left is listed as by vulzegan_list, at the front of out. answers[i] takes the answer to reply i;
 * two replies for one key may both be accepted; the key then counts once. Places behind the replies in answers, and behind the listed cells in out, keep their contents.
 * Cells then hold what is left, sound by a and b. count need not be the opening's. With the table, a and b as the opening left them, every key
 * sent has an accepted reply or is listed, and none has both: the different keys sent are as many as the different keys with an accepted reply
 * and those listed.
 *
 * The refusals, first to apply: 1 for the number of cells, 2 if count is not 1 to 16, VULZEGAN_EVEN, VULZEGAN_UNSOUND, VULZEGAN_GAP and
 * VULZEGAN_DISORDER; at last 12 if out has fewer places than the lent table has keys, or answers fewer than there are replies. This takes some 185 KB of stack, as opening
 * does. */
uint64_t vulzegan_round_close(uint64_t count, uint32_t a, uint32_t b, uint64_t *cells, size_t cells_len, const uint32_t *keys, size_t keys_len,
                              const uint32_t *workers, size_t workers_len, uint32_t *answers, size_t answers_len,
                              uint64_t *out, size_t out_len);

/* Moves the keys of the table old to the table cells, which is longer, as long or shorter, by count workers: opens the move, VULZEGAN_ACCEPTED or a
 * refusal. One a and b serve both tables. If it opens, applies calls 0, 1, .. in order, as many as the shortest of ops, workers and answers has:
 * orders and turns as above, which read workers[i] alone, and any other operation is a close. answers[i] takes the answer of call i: of an
 * order or a close VULZEGAN_ACCEPTED or a refusal, of a turn a word or a refusal. Places behind the answers keep their contents.
 * An order gives the worker the next cell of old, from cell 0 up. The worker's first turn reads that cell, and if it is empty finishes; otherwise
 * the next turns insert its key and price into cells, one cell a turn. Once a close is accepted, cells are the table that is sound by a and b with
 * the keys of old and no others, each at its price. Without one they hold the part that was moved so far: the record is not kept, and a move
 * cannot be carried on by another call. old is not changed.
 *
 * The refusals of the opening, first to apply: 1 for the number of cells of either table, 2 if count is not 1 to 16, VULZEGAN_EVEN; then
 * VULZEGAN_UNSOUND, VULZEGAN_GAP and VULZEGAN_DISORDER for old; at last VULZEGAN_UNFIT for cells. Those of an order, first to apply: 11 behind an
 * accepted close, 6 for a worker not below count, 8 for one whose order is unfinished, 9 if every cell of old was ordered. Those of a turn: 11 and 6.
 * Those of a close: 11, and 10 while some order is unfinished or some cell of old was not ordered. This takes some 23 KB of stack. */
uint64_t vulzegan_run_moves(uint64_t count, uint32_t a, uint32_t b, const uint64_t *old, size_t old_len, uint64_t *cells, size_t cells_len,
                            const uint32_t *ops, size_t ops_len, const uint32_t *workers, size_t workers_len,
                            uint64_t *answers, size_t answers_len);

/* The functions of libkiosk.a, for a smaller model. There a table has 2 to 256 cells, and a phase 1 to 4 workers: each does as the function without
 * kiosk_ in its name, but answers 1 and 2 by these limits. What both models take gets the same answers and closes alike in both. */
uint64_t vulzegan_kiosk_check(uint32_t a, uint32_t b, const uint64_t *cells, size_t cells_len);
uint64_t vulzegan_kiosk_count(uint32_t a, uint32_t b, const uint64_t *cells, size_t cells_len);
uint64_t vulzegan_kiosk_list(uint32_t a, uint32_t b, const uint64_t *cells, size_t cells_len, uint64_t *out, size_t out_len);
uint64_t vulzegan_kiosk_open(uint64_t kind, uint64_t count, uint32_t a, uint32_t b, const uint64_t *cells, size_t cells_len,
                             const struct vulzegan_order *orders, size_t orders_len);
uint64_t vulzegan_kiosk_run_calls(uint64_t kind, uint64_t count, uint32_t a, uint32_t b, uint64_t *cells, size_t cells_len,
                                  const uint32_t *order_keys, size_t order_keys_len, const uint32_t *order_prices, size_t order_prices_len,
                                  const uint32_t *order_workers, size_t order_workers_len,
                                  const uint32_t *ops, size_t ops_len, const uint32_t *lines, size_t lines_len,
                                  const uint32_t *workers, size_t workers_len, const uint32_t *keys, size_t keys_len,
                                  uint64_t *answers, size_t answers_len);
uint64_t vulzegan_kiosk_run_calls_singly(uint64_t kind, uint64_t count, uint32_t a, uint32_t b, uint64_t *cells, size_t cells_len,
                                         const uint32_t *order_keys, size_t order_keys_len,
                                         const uint32_t *order_prices, size_t order_prices_len,
                                         const uint32_t *order_workers, size_t order_workers_len,
                                         const uint32_t *ops, size_t ops_len, const uint32_t *lines, size_t lines_len,
                                         const uint32_t *workers, size_t workers_len, const uint32_t *keys, size_t keys_len,
                                         uint64_t *answers, size_t answers_len);
uint64_t vulzegan_kiosk_read_till(const uint8_t *text, size_t text_len, uint64_t count, uint32_t *keys, size_t keys_len,
                                  uint32_t *prices, size_t prices_len, uint32_t *workers, size_t workers_len);
uint64_t vulzegan_kiosk_round_open(uint64_t count, uint32_t a, uint32_t b, uint64_t *cells, size_t cells_len,
                                   const uint32_t *keys, size_t keys_len, const uint32_t *prices, size_t prices_len,
                                   const uint32_t *workers, size_t workers_len);
uint64_t vulzegan_kiosk_round_close(uint64_t count, uint32_t a, uint32_t b, uint64_t *cells, size_t cells_len,
                                    const uint32_t *keys, size_t keys_len, const uint32_t *workers, size_t workers_len,
                                    uint32_t *answers, size_t answers_len, uint64_t *out, size_t out_len);
uint64_t vulzegan_kiosk_run_moves(uint64_t count, uint32_t a, uint32_t b, const uint64_t *old, size_t old_len, uint64_t *cells, size_t cells_len,
                                  const uint32_t *ops, size_t ops_len, const uint32_t *workers, size_t workers_len,
                                  uint64_t *answers, size_t answers_len);

#ifdef __cplusplus
}
#endif

#endif
