/* The C functions of the library: target/staticlib/libdvbs.a, which
 * `./build.sh libdvbs` writes; -ldvbs. examples/link_from_c.c uses two of them,
 * truck.c those of a sender's state and board.c those of a lock's.
 *
 * A buffer is a pointer and its length. The functions test what they are lent,
 * so any length and any bytes may come; what the caller owes is that lengths are
 * true and that buffers of one call do not overlap. Nothing is kept between
 * calls: a sender, a reader or a receiver that goes on is bytes that the caller keeps. After
 * a refusal the buffers are as they were, but for the byte that takes the answer, or
 * the six of the result, and output beyond what is given is never written. No pointer
 * is NULL, also where its length is 0. The library has no data of its own: calls may
 * run at the same time in several threads, each with buffers of its own. A call takes
 * up to 43 KB of stack, and one of a lock 284 KB.
 *
 * Answers:
 *   0  done
 *   1  a packet, or the message of the outer coder, is not 188 bytes
 *   2  the packet's first byte is not 47 hex; of dvbs_randomize alone
 *   3  a block is not 204 bytes
 *   4  room too short
 *   5  a number is out of its range: here a place above 7, a memory above 63, a
 *      number of blocks that is not the recording's, or a field of a state
 *   6  a rate other than 0 to 3 and 5; for reading, one other than 0 to 4, and for a
 *      lock, other than 0 to 5
 *   7  more came than can be counted: 4,294,967,295 blocks, or the points of a lock
 *   8  no codeword within eight bytes; with marks, none with 2 e + f at most 16
 *  12  symbols that do not make whole puncturing patterns
 *  13  a run of more than 1,632 bits
 *  14  a symbol above 3
 *  15  done, with a null packet put in
 *  16  the recording has no such block
 * 17 to 19 and 21 are answers about the texts of pass reports, which the programs
 * read, and are given by no function here.
 *  20  not a mark for each byte, or a mark above 1
 *  22  a state of another length
 *  24  the lists of points are not of one length, or a mark is above 1
 * Where several are due, the first in the order 6, 5, 24, 16, 1 or 3, 2, 12, 13,
 * 14, 20, 4, 7 is given, and with a state in the order 22, 5, 6, 1, 14, 20, 24, 4, 7. */
#ifndef DVBS_H
#define DVBS_H

#include <stddef.h>
#include <stdint.h>

#ifdef __cplusplus
extern "C" {
#endif

enum { DVBS_PACKET = 188, DVBS_BLOCK = 204, DVBS_COUNTS = 64, DVBS_RESULT = 6, DVBS_SYMBOLS = 1632, DVBS_REPORT = 310 };
enum { DVBS_SENDER_STATE = 1139, DVBS_READER_STATE = 1638, DVBS_RECEIVER_STATE = 2731, DVBS_LOCK_STATE = 15121 };
enum { DVBS_LOCK_PACKETS = 1504, DVBS_LOCK_TEXT = 2048 };

/* Energy dispersal: the packet at this place (0 to 7) of its group of eight, as
 * it is sent, 188 bytes; and the packet that was sent so. The second takes any
 * first byte, and writes 47 hex there. Returns the answer. */
uint8_t dvbs_randomize(uint8_t place, const uint8_t *packet, size_t packet_len,
                       uint8_t *output, size_t output_len);
uint8_t dvbs_derandomize(uint8_t place, const uint8_t *packet, size_t packet_len,
                         uint8_t *output, size_t output_len);

/* Outer coder, RS(204,188): the 188 bytes of a message and its 16 check bytes.
 * Returns the answer. */
uint8_t dvbs_rs_encode(const uint8_t *message, size_t message_len,
                       uint8_t *output, size_t output_len);

/* Outer decoder: leaves the codeword within eight bytes of the block in its
 * place. Returns the answer; where it is 0, count[0] is how many bytes were
 * changed and count[1] how many bits of them, otherwise both are left. Lend at
 * least two bytes for the count. */
uint8_t dvbs_rs_decode(uint8_t *block, size_t block_len,
                       uint8_t *count, size_t count_len);

/* The same with a mark for each of the 204 bytes, 1 for a doubtful one and 0 for
 * any other. Where f bytes are marked, the codeword that differs from the block
 * in e bytes that are not marked, 2 e + f at most 16, is left, if there is one:
 * there is at most one. Marks that turn out wrong cost as much as right ones, and
 * more than sixteen are always 8, also for a block that is clean: mark fewer, or
 * none. Each mark uses up a check byte: with sixteen a block is always accepted,
 * and an error in a byte that is not marked goes unseen. The counts are those of
 * bytes and bits that differ, marked or not. With no mark this is dvbs_rs_decode.
 * 3, then 20, then 4, then 8 or 0. */
uint8_t dvbs_rs_decode_marked(uint8_t *block, size_t block_len,
                              const uint8_t *marks, size_t marks_len,
                              uint8_t *count, size_t count_len);

/* What a fresh sender sends for the packets, which lie one after the other;
 * rates 0 to 3 are QPSK 1/2, 2/3, 3/4, 5/6, and 5 is 16QAM 3/4 of EN 301 210;
 * QPSK 7/8, rate 4, is read and no longer sent. Returns how many symbols were
 * written, one byte each: 2 I + Q, and at 16QAM 8 U2 + 4 U1 + 2 C2 + C1;
 * answer[0] is the answer. A packet gives at most 1,632 symbols, and at 16QAM
 * 544. In place of 188 bytes that do not begin with 47 hex a null packet is sent
 * (47 1F FF 10 and 184 bytes FF), and the answer is 15 where at least one was,
 * else 0: a caller that has nothing to send lends 188 zeros. Lengths are tested
 * before anything is sent: 6, then 1 where packets_len is no multiple of 188, then 4
 * where the output is shorter than the symbols of all packets. Where no byte is lent for the answer: returns 0,
 * writes nothing. */
uint64_t dvbs_send_run(uint8_t rate, const uint8_t *packets, size_t packets_len,
                       uint8_t *output, size_t output_len,
                       uint8_t *answer, size_t answer_len);

/* A sender whose state is bytes that the caller keeps. It may copy, save and load
 * them between any two calls: a call reads all that it needs from them. Two
 * different strings of bytes never stand for one sender. The state of a sender:
 *   offset  bytes  holds        range
 *        0   1122  cells        any bytes: the delay branches, one after the other
 *     1122     12  positions    byte j below 17 j; the first one 0
 *     1134      1  place        0 to 7: of the next packet in its group
 *     1135      1  mode         0 to 5, as the rate of dvbs_send_run; 4 is not sent
 *     1136      1  memory       0 to 63: the last six bits of the inner coder
 *     1137      1  pattern      below 1, 4, 3, 5, 7, 1 by the mode: the next bit's place
 *     1138      1  held         0 or 1: an I without its Q; 0 where none is held
 *
 * Makes the state of a fresh sender in a mode: 22, then 6, or 0. */
uint8_t dvbs_sender_fresh(uint8_t *state, size_t state_len, uint8_t mode);

/* Sends one packet with it: what dvbs_send_run gives of a list of packets, call
 * after call. Returns how many symbols were written, at most DVBS_SYMBOLS;
 * answer[0] is 22, 5, 6, 1 or 4, after which every byte of the state and of the
 * output is as it was; else 0, or 15 where a null packet was put in, for a packet
 * of no bytes or for 188 that do not begin with 47 hex. Where no byte is lent for
 * the answer: returns 0, writes nothing. */
uint64_t dvbs_sender_send(uint8_t *state, size_t state_len,
                          const uint8_t *packet, size_t packet_len,
                          uint8_t *output, size_t output_len,
                          uint8_t *answer, size_t answer_len);

/* Reads a run of symbols, 2 I + Q each, which begins with a puncturing pattern;
 * memory is the coder's before it: its last six bits, the newest counting 32.
 * A pattern has 1, 4, 3, 5 or 7 bits in 1, 3, 2, 3 or 4 symbols. Writes the bits
 * whose coding differs from the symbols in the fewest I and Q bits, one byte
 * each, 0 or 1; where several tie, those with 0 at the last place where they
 * differ. Returns how many bits were written. result: the answer, the memory
 * after the run, which serves the next one, and in how many I and Q bits the
 * coding differs, four bytes, lowest first; after a refusal the memory is the
 * one given and the number 0. Where result is shorter than 6 bytes: returns 0,
 * writes nothing. */
uint64_t dvbs_read_run(uint8_t rate, uint8_t memory,
                       const uint8_t *symbols, size_t symbols_len,
                       uint8_t *output, size_t output_len,
                       uint8_t *result, size_t result_len);

/* The same by soft decisions. Of each symbol come the numbers I and Q of the
 * received point, of which 1.0 is sent for 0 and -1.0 for 1, and 1 where the
 * symbol was lost or else 0. The level of a number is how many of -0.75, -0.5,
 * -0.25, 0, 0.25, 0.5, 0.75 are at or below it. Deciding its bit as 0 costs 7 less
 * the level, and as 1 the level; a NaN costs nothing either way, and neither does
 * anything of a lost symbol. The bits written are those that cost the least, and
 * the number in the result is what they cost. Otherwise as dvbs_read_run. */
uint64_t dvbs_read_soft_run(uint8_t rate, uint8_t memory,
                            const float *i, size_t i_len,
                            const float *q, size_t q_len,
                            const uint8_t *lost, size_t lost_len,
                            uint8_t *output, size_t output_len,
                            uint8_t *result, size_t result_len);

/* A reader whose state is bytes that the caller keeps, as those of a sender, and
 * which takes any number of received symbols a call. The state of a reader:
 *   offset  bytes  holds        range
 *        0   1632  pairs        0 to 80 each: the symbols that are held; zeros behind them
 *     1632      2  count        how many they are, low byte first: below 1632, 1224, 1088, 978, 932 by the rate
 *     1634      1  rate         0 to 4, as the rate of dvbs_read_run
 *     1635      1  memory       0 to 63: the coder's before the first of them
 *     1636      1  carry        below 1 << held: the bits that fill no byte yet
 *     1637      1  held         0 to 7: how many they are
 * docs/STATES.md says what a pair is.
 *
 * Makes the state of a fresh reader of a rate: 22, then 6, or 0. */
uint8_t dvbs_reader_fresh(uint8_t *state, size_t state_len, uint8_t rate);

/* Reads symbols, 2 I + Q each, the first of all being the first of a puncturing
 * pattern: the bits of runs that overlap, packed into bytes, the first bit on top.
 * Symbols of any number, call after call, give what all of them give at once.
 * Returns how many bytes were written; answer[0] is 22, 5, 14 or 4, after which
 * every byte of the state and of the output is as it was, or else 0. Lend
 * symbols_len / 4 + 409 bytes. Where no byte is lent for the answer: returns 0,
 * writes nothing. */
uint64_t dvbs_reader_feed(uint8_t *state, size_t state_len,
                          const uint8_t *symbols, size_t symbols_len,
                          uint8_t *output, size_t output_len,
                          uint8_t *answer, size_t answer_len);

/* The same by soft decisions, from the lists of dvbs_read_soft_run: 22, 5, 24 or 4,
 * else 0. Lend i_len / 4 + 409 bytes. One reader may be fed with both. */
uint64_t dvbs_reader_feed_soft(uint8_t *state, size_t state_len,
                               const float *i, size_t i_len,
                               const float *q, size_t q_len,
                               const uint8_t *lost, size_t lost_len,
                               uint8_t *output, size_t output_len,
                               uint8_t *answer, size_t answer_len);

/* Writes the bytes of what is held, where no more symbols come. left[0] is how many
 * symbols are in no whole pattern, and left[1] how many bits fill no byte. The state
 * is left as it is, and more may come instead. Returns how many bytes were written;
 * answer[0] is 22, 5, 4 or 0. Lend 204 bytes of output and two for left. Where no
 * byte is lent for the answer: returns 0, writes nothing. */
uint64_t dvbs_reader_end(const uint8_t *state, size_t state_len,
                         uint8_t *output, size_t output_len,
                         uint8_t *left, size_t left_len,
                         uint8_t *answer, size_t answer_len);

/* What a fresh receiver gives for the whole blocks of a recording; bytes after
 * the last of them are left alone. The blocks must follow each other without gap
 * or repeat: behind one that is missing or doubled up to six packets are given
 * that were never sent. After a gap begin a new run. Returns how many bytes of packets were
 * written; answer[0] is the answer, by which a refused run is told from one that
 * gave no packet yet. counts: taken, filling, delivered, lost, waiting,
 * outofstep, changed, bits, eight bytes each, lowest first. Lend 188 bytes for
 * each whole block. Where counts is shorter than 64 bytes, or the output is too
 * short for that: 4. More than 4,294,967,295 blocks: 7. In both cases nothing
 * else is written, and 0 is returned. Where no byte is lent for the answer:
 * returns 0, writes nothing. */
uint64_t dvbs_receive_run(const uint8_t *blocks, size_t blocks_len,
                          uint8_t *output, size_t output_len,
                          uint8_t *counts, size_t counts_len,
                          uint8_t *answer, size_t answer_len);

/* The same with a mark for each byte of the recording, 1 for a doubtful one and 0
 * for any other: marks_len is blocks_len. They are delayed as their bytes are,
 * and each block is decoded with its own, as by dvbs_rs_decode_marked: a block
 * with more than sixteen of them is lost, also where it is clean. Marks that are
 * not such: 20, before 4. */
uint64_t dvbs_receive_run_marked(const uint8_t *blocks, size_t blocks_len,
                                 const uint8_t *marks, size_t marks_len,
                                 uint8_t *output, size_t output_len,
                                 uint8_t *counts, size_t counts_len,
                                 uint8_t *answer, size_t answer_len);

/* A receiver whose state is bytes that the caller keeps, as those of a sender, and
 * which takes the received bytes in pieces of any length. The state of a receiver:
 *   offset  bytes  holds        range
 *        0   2322  receiver     as DVBS_BRIDGE_STATE bytes of dvbs_bridge.h
 *     2322    204  pending      the bytes after the last whole block; zeros behind them
 *     2526    204  doubtful     their marks, 0 or 1 each; zeros behind them
 *     2730      1  held         0 to 203: how many they are
 *
 * Makes the state of a fresh receiver: 22, or 0. */
uint8_t dvbs_receiver_fresh(uint8_t *state, size_t state_len);

/* Takes a piece of the received bytes with a mark for each, as
 * dvbs_receive_run_marked takes a recording: pieces of any length, one after the
 * other, give what all their bytes give as one. Returns how many bytes of packets
 * were written; answer[0] is 22, 5, 20, 4 or 7, after which every byte of the state
 * and of the output is as it was, or else 0. 7 is due where the piece goes past block
 * 4,294,967,295: nothing of it is taken. Lend 188 bytes for each block that is
 * whole then: (held + piece_len) / 204 of them. Where no byte is lent for the
 * answer: returns 0, writes nothing. */
uint64_t dvbs_receiver_feed(uint8_t *state, size_t state_len,
                            const uint8_t *piece, size_t piece_len,
                            const uint8_t *marks, size_t marks_len,
                            uint8_t *output, size_t output_len,
                            uint8_t *answer, size_t answer_len);

/* Writes the pass report on all that came, in form 2, as the program pass_report
 * prints it. The state is left as it is, and more may come. Returns the length of
 * the text, at most DVBS_REPORT bytes; answer[0] is 22, 5, 4 or 0. Where no byte is
 * lent for the answer: returns 0, writes nothing. */
uint64_t dvbs_receiver_report(const uint8_t *state, size_t state_len,
                              uint8_t *output, size_t output_len,
                              uint8_t *answer, size_t answer_len);

/* Packets and lines from received points that begin anywhere, turned any way, as the
 * program dvbs_lock takes them, by a state that is bytes which the caller keeps, as
 * those of a sender. docs/ACQUISITION.md says what is decided and told. The state of a lock:
 *   offset  bytes  holds        range
 *        0   2322  receiver     as DVBS_BRIDGE_STATE bytes of dvbs_bridge.h
 *     2322   1632  pending      0 to 80 each: the points that are not read yet; zeros behind them
 *     3954   1632  pairs        0 to 80 each: those that the reader holds; zeros behind them
 *     5586   8168  bits         0 or 1 each: those in which blocks are looked for; zeros behind them
 *    13754      2  held         how many points are not read yet, low byte first
 *    13756      2  count        how many the reader holds
 *    13758      2  gathered     how many bits there are: 0 to 8167
 *    13760      8  came         how many points came in all: below 1 << 60
 *    13768      8  first        how many came before the first that the reading reads
 *    13776      8  used         how many bits the decisions on blocks used up
 *    13784      1  searched     the rate that is searched, 0 to 5; + 8 mirrored, + 16 reading
 *    13785      1  turned       the turn, 0 to 7; + 8 blocks are given, + 16 inverted
 *    13786      1  rate         0 to 4: the rate that is read
 *    13787      1  memory       0 to 63: the coder's before the first of pairs
 *    13788      8  skipped      how many points were skipped before the last lock
 *    13796      8  end          how many came before the bit behind its last block
 *    13804      1  certain      how many packets wait, 0 to 7, or 32 for none that has to; + 8 found, + 16 locked
 *    13805   1316  packets      the packets that wait; zeros behind them
 * While it searches there is no reading: every byte of it is 0.
 *
 * Makes the state of a fresh lock of a rate, 0 to 4, or 5 for any: 22, then 6, or 0. */
uint8_t dvbs_lock_fresh(uint8_t *state, size_t state_len, uint8_t rate);

/* Takes some of the points, from the lists of dvbs_read_soft_run: as many as one step
 * takes, at most 1,632. Returns how many; call again with the others, also where it is
 * 0 and there are some. Of no points it takes none, and both counts are 0. counts[0] is how many bytes of packets stand at the front of
 * packets, and counts[1] how many of text; what is behind them there is as it was.
 * answer[0] is 22, 5, 24, 4 or 7, after which every byte of the state and of what else
 * is lent is as it was, or else 0. Lend DVBS_LOCK_PACKETS bytes of packets,
 * DVBS_LOCK_TEXT of text and two counts. Where no byte is lent for the answer: returns
 * 0, writes nothing. */
uint64_t dvbs_lock_feed(uint8_t *state, size_t state_len,
                        const float *i, size_t i_len,
                        const float *q, size_t q_len,
                        const uint8_t *lost, size_t lost_len,
                        uint8_t *packets, size_t packets_len,
                        uint8_t *text, size_t text_len,
                        uint64_t *counts, size_t counts_len,
                        uint8_t *answer, size_t answer_len);

/* After the last point, call after call until it returns 1 or answer[0] is not 0: what
 * the end decides, as dvbs_lock_feed writes it. The call that returns 1 writes the
 * closing lines; rest is how many bytes are behind the last whole point, which they
 * tell. answer[0] is 22, 5 or 4, after which 0 is returned and every byte of the state
 * and of what else is lent is as it was, or else 0. Where no byte is lent for the
 * answer: returns 0, writes nothing. The next stream begins with dvbs_lock_fresh. */
uint64_t dvbs_lock_end(uint8_t *state, size_t state_len, uint64_t rest,
                       uint8_t *packets, size_t packets_len,
                       uint8_t *text, size_t text_len,
                       uint64_t *counts, size_t counts_len,
                       uint8_t *answer, size_t answer_len);

/* Block p of a recording, corrected, p from 0: the 204 bytes, the counts and the
 * answer 8 that a fresh receiver's outer decoder has at its call p + 12. A view of the
 * recording is given as its two parts: blocks must be the number of its whole
 * blocks, recording_len / 204, otherwise 5. 16 where p + 12 is above that or
 * above 4,294,967,295. Returns the answer; where it is 0, output has the block,
 * count[0] how many bytes were changed and count[1] how many bits, otherwise both
 * are left. Lend 204 bytes of output and two bytes for the counts, otherwise 4.
 * Only 204 bytes of the recording are looked at, among the 2,448 from byte 204 p
 * on. */
uint8_t dvbs_recording_block(const uint8_t *recording, size_t recording_len,
                             uint64_t blocks, uint64_t p,
                             uint8_t *output, size_t output_len,
                             uint8_t *count, size_t count_len);

/* What to ask for again of a recording: a line for each block of which a fresh
 * receiver gave no packet, and for each packet whose place in its group is in
 * doubt, in the order of the blocks. A line is one number: 16 times the block, as
 * dvbs_recording_block counts them, and its answer: 8, 10 (waiting for a group
 * start) or 11 (out of step), or 0, which says that a packet was given and is in
 * doubt. Behind a gap these are the packets that were never sent. Returns how many
 * lines were written; answer[0] is the answer. marks_len is 0, for no mark, or
 * blocks_len, otherwise 20, as for a mark above 1. Lend a number for each whole
 * block, otherwise 4. More bytes than those of 4,294,967,295 blocks: 7. Then nothing else is
 * written, and 0 is returned. Where no byte is lent for the answer: returns 0,
 * writes nothing. */
uint64_t dvbs_losses_run(const uint8_t *blocks, size_t blocks_len,
                         const uint8_t *marks, size_t marks_len,
                         uint64_t *lines, size_t lines_len,
                         uint8_t *answer, size_t answer_len);

#ifdef __cplusplus
}
#endif

#endif
