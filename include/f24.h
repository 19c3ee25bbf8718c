/* f24.h: CBI F24 flows, judged at once or by portions, corrected, rebalanced, shortened by whole deleghe, these three
 * also with a record of the flow's sums beside it, and written from working sheets; and records of the F24 EP form of
 * public bodies, judged.
 *
 * The functions of the static library libf24.a, for C and all that speaks C on x86-64 Linux. docs/LINKING.md says how
 * to build and link it.
 *
 * A flow is a run of records of 120 characters with no line ends, at most 65,520 bytes. Records and positions count
 * from 1. Amounts are whole cents. The F24 EP form has records of its own, of 1,900 characters: f24_ep_judge has them.
 *
 * Every function takes any bytes of any length as a flow, a sheet or records and any number as a number: it asks nothing
 * but that
 *   - flow, sheet, room and records point to as many bytes as their lengths say, and answer, state, changed, numbers and
 *     kept, aligned as uint64_t is, to answer_len, state_len, changed_len, numbers_len and kept_len numbers;
 *   - no pointer is null, not even where its length is 0;
 *   - none of them overlaps another, and nobody else writes to them during the call.
 * Nothing is allocated, remembered between calls or printed: calls from several threads do not meet, so long as what
 * they are lent does not. What a judgement by portions goes on from is in state, and the sums that stand for a flow are
 * in kept: the caller has both.
 *
 * What a function returns:
 *   0             accepted, found, made, rebalanced, dropped, written or started: see each function for the answer
 *   1 to 29       the number of the refusal, as docs/REFUSALS.md lists them. answer[0] is then the record and answer[1]
 *                 the position, both 0 where the refusal has no place; nothing else is written. f24_judge_portion has
 *                 the number of records examined before them. 27, of f24_rebalance and f24_rebalance_kept alone: the
 *                 list of changed fields is too short. 28, of f24_drop and f24_drop_kept alone: no delega would be
 *                 left. 29, of f24_correct_kept, f24_rebalance_kept and f24_drop_kept alone: the sums in kept are not
 *                 those of the flow's lines
 *   30 to 33      the number of the refusal, of f24_ep_judge alone, which returns none of 1 to 29. answer[0] is then the
 *                 record, 0 with 30, and answer[1] is 0
 *   100           there is room for too few numbers in answer, in state or in kept (F24_NO_ROOM): nothing was read,
 *                 written, corrected, rebalanced or dropped. A list of changed fields that is too short is 27
 *   101           the judgement by portions has not ended yet (F24_NOT_ENDED)
 *   102           the state is foreign: no judgement by portions of this flow handed it back (F24_FOREIGN)
 * 101 and 102 come from f24_judge_portion alone.
 *
 * Numbers of answer, of state, of changed and of kept beyond those that are written stay as they were, and so do all of
 * numbers, every byte of a flow that is neither corrected nor rebalanced nor shortened, all of kept where a call is
 * refused, every byte of a room that no flow is written to, and every byte of records.
 *
 * The sections stand in this order everywhere: Erario (lines 40-01), INPS (40-03), Regioni (40-05), IMU and local
 * taxes (40-07), identifying elements (40-17).
 */
#ifndef F24_H
#define F24_H

#include <stddef.h>
#include <stdint.h>

#ifdef __cplusplus
extern "C" {
#endif

/* The version of these answers. Version 1 had no line counts and no sets of sections: f24_judge needed room for 13
 * numbers then and f24_delega for 11, and the sums stood at answer[3] and answer[1] on. Version 2 began without
 * f24_drop, and nothing that it answers has changed since: a header that defines F24_DROP_ROOM has f24_drop, one that
 * defines F24_KEPT_ROOM has f24_kept and the three functions that take its record, and one that defines F24_EP_ROOM has
 * f24_ep_judge. */
#define F24_VERSION 2

/* The return value where answer, state or kept has too little room. */
#define F24_NO_ROOM 100

/* The return values of a judgement by portions that are no verdict. */
#define F24_NOT_ENDED 101
#define F24_FOREIGN 102

/* How many numbers each answer must have room for, refusals included. f24_correct_kept, f24_rebalance_kept and
 * f24_drop_kept need the room of the function without kept. */
#define F24_JUDGE_ROOM 14
#define F24_DELEGA_ROOM 14
#define F24_FIND_ROOM 2
#define F24_CORRECT_ROOM 2
#define F24_REBALANCE_ROOM 2
#define F24_DROP_ROOM 2
#define F24_KEPT_ROOM 2
#define F24_WRITE_ROOM 2
#define F24_PORTION_ROOM 15
#define F24_EP_ROOM 2

/* How many numbers a state is. */
#define F24_STATE_ROOM 53

/* How many numbers a record of sums is: kept has so many. F24_KEPT_ROOM, above, is the room of an answer. */
#define F24_SUMS_ROOM 10

/* A list of so many numbers is long enough for every flow that is rebalanced: four fields for each of 546 records. */
#define F24_CHANGED_MOST 4368

/* Judges a flow. Where it is accepted:
 *   answer[0]           number of deleghe
 *   answer[1]           number of records
 *   answer[2]           sum of the final balances
 *   answer[3]           number of lines, that is of records 40-01, 40-03, 40-05, 40-07 and 40-17
 *   answer[4], [5]      debit and credit sum of Erario over the flow
 *   answer[6], [7]      of INPS
 *   answer[8], [9]      of Regioni
 *   answer[10], [11]    of IMU and local taxes
 *   answer[12], [13]    of identifying elements
 */
uint64_t f24_judge(const uint8_t *flow, size_t flow_len, uint64_t *answer, size_t answer_len);

/* Judges a flow and gives the summary of one delega, by its number. Where it is there:
 *   answer[0]           its final balance
 *   answer[1]           number of its lines
 *   answer[2]           which sections it has lines of: 1 for Erario, 2 for INPS, 4 for Regioni, 8 for IMU and local
 *                       taxes, 16 for identifying elements, added
 *   answer[3]           how many sections these are
 *   answer[4], [5]      debit and credit sum of its Erario section, 0 and 0 where it has none
 *   answer[6], [7]      of INPS
 *   answer[8], [9]      of Regioni
 *   answer[10], [11]    of IMU and local taxes
 *   answer[12], [13]    of identifying elements
 * 21 where the number is 0 or above the number of deleghe.
 */
uint64_t f24_delega(const uint8_t *flow, size_t flow_len, uint64_t number, uint64_t *answer, size_t answer_len);

/* Judges a flow and finds one line: by delega, subtype (1, 3, 5, 7 or 17) and place in its section, counted from 1.
 * Where it is there:
 *   answer[0]           the number of its record: its bytes start at flow + 120 * (answer[0] - 1)
 * answer[1] is then left as it was. 21 where there is no such delega, section or line.
 */
uint64_t f24_find(const uint8_t *flow, size_t flow_len, uint64_t delega, uint64_t subtype, uint64_t place,
                  uint64_t *answer, size_t answer_len);

/* Judges a flow and gives one line a new debit and credit. Where that is done, the flow holds the new amounts, and
 * the totals, sign and balance of the section, the final balance of the delega and the sum in EF are those of the
 * lines again; no other byte has changed and the flow is accepted. Nothing is written to answer then.
 *
 * After the refusals of the judgement it tries 21 (no such delega, section or line), 22 (an amount above
 * 999,999,999,999,999), 9 (the line rule), 14 (the delega would be negative) and 23 (a stored total, balance or sum
 * would need more than fifteen digits). A refusal leaves every byte of the flow as it was.
 */
uint64_t f24_correct(uint8_t *flow, size_t flow_len, uint64_t delega, uint64_t subtype, uint64_t place, uint64_t debit,
                     uint64_t credit, uint64_t *answer, size_t answer_len);

/* Rebalances a flow: the totals, sign and balance of every section, every final balance, and the two counts and the
 * sum of EF are written anew from the lines, and each of these fields whose bytes are others then is listed. Where that
 * is done:
 *   answer[0]           the number of fields listed, n
 *   changed[2 * i]      for each i below n: the record of a field
 *   changed[2 * i + 1]  and the position at which it starts
 * answer[1] is then left as it was, and so is every number of changed from changed[2 * n] on. The fields stand in the
 * order of the flow's bytes; a sign is a field of its own. No other byte of the flow has changed, and the flow is
 * accepted. One that was accepted before comes back as it was, with n = 0.
 *
 * changed has room for changed_len / 2 fields, and changed_len may be 0. F24_CHANGED_MOST numbers are enough for every
 * flow.
 *
 * It tries the refusals of the judgement, but not 10 to 13, 15 and 18 to 20, nor 7 in a field that is written anew; 3
 * stops it there too. The name in EF is not written anew: 16 stays. Then it tries 23 (a total, balance or sum would
 * need more than fifteen digits) and 27 (more fields would be listed than changed has room for). A refusal leaves every
 * byte of the flow and every number of changed as it was.
 */
uint64_t f24_rebalance(uint8_t *flow, size_t flow_len, uint64_t *changed, size_t changed_len, uint64_t *answer,
                       size_t answer_len);

/* Drops deleghe from a flow, by their numbers. Where that is done:
 *   answer[0]           the length of what is left in bytes, 120 for each of its records
 * answer[1] is then left as it was. What is left stands at the start of flow: F4, the other deleghe in their order,
 * numbered from 1, and EF with their number, the sum of their final balances and the number of records. But for these
 * numbers every byte of its records is as it was, and it is accepted. Every byte of flow behind it is a space: a later
 * call is lent answer[0] bytes, since with the spaces the flow is refused 4.
 *
 * The numbers are those of the flow before the call, in any order. Where numbers_len is 0 nothing changes, and
 * answer[0] is flow_len. Dropping one by one ends in the same bytes, where a number above one that was dropped is one
 * less afterwards.
 *
 * After the refusals of the judgement it tries 21 (a number is 0, is above the number of deleghe or is named twice) and
 * 28 (no delega would be left). A refusal leaves every byte of the flow as it was.
 */
uint64_t f24_drop(uint8_t *flow, size_t flow_len, const uint64_t *numbers, size_t numbers_len, uint64_t *answer,
                  size_t answer_len);

/* Judges a flow and makes the record of its sums, which the caller keeps beside the flow. Where it is accepted:
 *   kept[0], [1]        debit and credit sum of Erario over the flow
 *   kept[2], [3]        of INPS
 *   kept[4], [5]        of Regioni
 *   kept[6], [7]        of IMU and local taxes
 *   kept[8], [9]        of identifying elements
 * which are answer[4] to answer[13] of f24_judge. Nothing is written to answer then. A refusal leaves kept as it was.
 *
 * Here and in the next three functions kept has 10 numbers at least (F24_SUMS_ROOM), else 100 is returned. Those behind
 * the tenth are neither read nor written.
 */
uint64_t f24_kept(const uint8_t *flow, size_t flow_len, uint64_t *kept, size_t kept_len, uint64_t *answer,
                  size_t answer_len);

/* Corrects a line as f24_correct does, with the record of the flow's sums. Where that is done, the sums of the corrected
 * flow stand in kept.
 *
 * A record stands for a flow whose lines have its ten sums, and for no other. After the refusals of the judgement and
 * before 21, 22, 9, 14 and 23 it tries 29 (the ten numbers of kept are not the sums of the flow's lines), also where
 * the new amounts are the old ones. All else is as in f24_correct, to the byte. A refusal, 29 too, leaves every byte of
 * the flow and every number of kept as it was.
 *
 * So what f24_kept made is handed on from call to call of these three functions, refused ones among them, and stands
 * for the flow all along. A call without kept that changes a sum, as f24_correct and f24_drop do, leaves kept behind:
 * the next call with it returns 29, until f24_kept makes it anew.
 */
uint64_t f24_correct_kept(uint8_t *flow, size_t flow_len, uint64_t delega, uint64_t subtype, uint64_t place,
                          uint64_t debit, uint64_t credit, uint64_t *kept, size_t kept_len, uint64_t *answer,
                          size_t answer_len);

/* Rebalances a flow as f24_rebalance does, with the record of the flow's sums. Where that is done, kept holds the sums
 * of the rebalanced flow, which are those it came with, since no line has changed.
 *
 * kept is compared with the lines as they stand, never with the totals that are stored. After the refusals that
 * f24_rebalance tries before 23 and 27, it tries 29, also where nothing would change; so 10 to 13, 15 and 18 to 20, and
 * 7 in a field that is written anew, do not come before it. Then it tries 23 and 27. All else is as in f24_rebalance, to
 * the byte. A refusal, 29 too, leaves every byte of the flow and every number of changed and of kept as it was.
 *
 * f24_kept makes no record of a flow that is refused. For one whose totals are wrong the caller has the sums from
 * elsewhere, as from the time when it was accepted, or adds its lines up.
 */
uint64_t f24_rebalance_kept(uint8_t *flow, size_t flow_len, uint64_t *changed, size_t changed_len, uint64_t *kept,
                            size_t kept_len, uint64_t *answer, size_t answer_len);

/* Drops deleghe as f24_drop does, with the record of the flow's sums. Where that is done, the sums of what is left stand
 * in kept.
 *
 * After the refusals of the judgement and before 21 and 28 it tries 29, also where numbers_len is 0. All else is as in
 * f24_drop, to the byte. A refusal, 29 too, leaves every byte of the flow and every number of kept as it was.
 */
uint64_t f24_drop_kept(uint8_t *flow, size_t flow_len, const uint64_t *numbers, size_t numbers_len, uint64_t *kept,
                       size_t kept_len, uint64_t *answer, size_t answer_len);

/* Writes the flow of a working sheet into a room. docs/SHEETS.md says what a sheet is. Where that is done:
 *   answer[0]           the length of the flow in bytes, 120 for each of its records
 * answer[1] is then left as it was. The flow stands at the start of room, and every byte behind it is as it was. It is
 * accepted, with the sheet's number of deleghe and the sums of its lines, and carries the sheet's records in order, all
 * but the columns that are filled: the numbers of deleghe, the final balances, and the name, counts and sum of EF. A
 * room of 65,520 bytes is long enough for every flow.
 *
 * It tries 24 (the bytes are no sheet), 25 (room is too short for the flow), 1 (more than 546 records, which shows only
 * in a room of more than 65,520 bytes), the first fault of the records to be written, counted in the flow, and 23 (a
 * total, balance or sum would need more than fifteen digits). A refusal leaves every byte of room as it was.
 *
 * The call puts the flow together in memory of its own: it needs some 70,000 bytes of stack.
 */
uint64_t f24_write(const uint8_t *sheet, size_t sheet_len, uint8_t *room, size_t room_len, uint64_t *answer,
                   size_t answer_len);

/* Starts a judgement by portions: the 53 numbers of its first state stand at the start of state, and those behind them
 * are as they were. Nothing is written where 100 is returned.
 */
uint64_t f24_start(uint64_t *state, size_t state_len);

/* Judges no more records of a flow than the portion, from a state on: that of f24_start, or the one that the call
 * before it left. The flow must be the same at every call of a judgement. docs/PORTIONS.md has the rules and the numbers
 * of a state.
 *
 * Any portions above zero end in what f24_judge returns for the flow, given by the call that examines the last record
 * needed. A portion of zero examines nothing, but gives 1 and 2. A state that has ended gives its answer again.
 *   0       answer[0]            number of records examined, which is all of them
 *           answer[1] to [14]    the answer of f24_judge
 *   1 to 20, 26
 *           answer[0]            number of records examined: that of the refusing record, all with 5, 0 with 1 and 2
 *           answer[1], [2]       record and position of the refusal
 *   101     answer[0]            number of records examined so far, which have passed; records are left
 *   102     answer[0]            0. The state is as it came, and this is no verdict on the flow
 * Nothing else is written to answer. But for 102 the first 53 numbers of state are the new state. Where 100 is
 * returned, for either room, neither is touched.
 */
uint64_t f24_judge_portion(const uint8_t *flow, size_t flow_len, uint64_t portion, uint64_t *state, size_t state_len,
                           uint64_t *answer, size_t answer_len);

/* Judges records M and V of the F24 EP form of public bodies, each of 1,900 characters, one behind the other with no
 * line ends and no other record before, between or behind them. Where they are accepted:
 *   answer[0]           number of payments, that is of records M
 *   answer[1]           sum of their totals, which is that of all debits in use
 *
 * A payment is an M and the V records that follow it, one at least. It tries 30 (no bytes, a length that is no multiple
 * of 1,900, or more than 10,000 records, which is 19,000,000 bytes); then, record by record: 31 (neither M nor V, a V
 * before the first M, or an M without a V, which is told at the record behind that M), 32 (a debit in use or a final
 * balance in V is not fifteen digits), 33 (the debits in use of a V are not its final balance; or the total of an M is
 * not the text of the sum over its V records, which is told of the M and judged before the record that follows them).
 * A position is always 0. docs/REFUSALS.md has them all.
 */
uint64_t f24_ep_judge(const uint8_t *records, size_t len, uint64_t *answer, size_t answer_len);

#ifdef __cplusplus
}
#endif

#endif
