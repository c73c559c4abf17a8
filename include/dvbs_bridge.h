/* The C functions of the part for the bridge: target/staticlib/libdvbs_bridge.a,
 * which `./build.sh libdvbs_bridge` writes. examples/bridge_pass.c uses all three.
 *
 * A block receiver whose state is bytes that the firmware keeps. It may copy,
 * save and load them between any two calls: a call reads all that it needs from
 * them, and nothing is kept elsewhere. A buffer is a pointer and its length. The
 * functions test what they are lent, so any length and any bytes may come; what
 * the caller owes is that lengths are true and that buffers of one call do not
 * overlap, and that no pointer is NULL. Output beyond what is given is never written.
 * A call takes 11 KB of stack and no data of its own. The functions bring no
 * marks of doubtful bytes. Marks that are already in the state are honoured.
 *
 * Answers:
 *   0  done; of a block: a packet was given
 *   3  a block is not 204 bytes
 *   4  room too short
 *   5  the bytes of the state stand for no receiver: a field is out of its range
 *   7  the receiver has taken 4,294,967,295 blocks
 *   8  no codeword within eight bytes, or none by the rule for marked bytes
 *   9  the deinterleaver is filling: the first eleven blocks
 *  10  a codeword, while no start of a group was seen
 *  11  a codeword without the sync byte that is due
 *  22  the state is not DVBS_BRIDGE_STATE bytes
 *  23  there is no count with this number
 * Those that refuse are 3, 4, 5, 7, 22 and 23; after them every byte is as it
 * was. Where several are due, the first in the order 22, 23, 5, 3, 4, 7 is given.
 *
 * The layout of the state; numbers have their lowest byte first:
 *   offset  bytes  holds        range
 *        0   1122  cells        any bytes: the delay branches, one after the other
 *     1122     12  positions    byte j below 187 - 17 j; the last one 0
 *     1134      1  place        0 to 7, or 8 where it is not known
 *     1135      1  missed       0 or 1; 0 where the place is 8
 *     1136      8  taken        to 4,294,967,295; the sum of the next five
 *     1144      8  filling      the smaller of taken and 11
 *     1152      8  delivered    part of the sum
 *     1160      8  lost         part of the sum
 *     1168      8  waiting      part of the sum
 *     1176      8  outofstep    part of the sum
 *     1184      8  changed      to 16 (delivered + waiting + outofstep)
 *     1192      8  bits         changed to 8 changed
 *     1200   1122  marks        each 0 or 1: the marks of the bytes in the cells
 * Two different strings of bytes never stand for one receiver. */
#ifndef DVBS_BRIDGE_H
#define DVBS_BRIDGE_H

#include <stddef.h>
#include <stdint.h>

#ifdef __cplusplus
extern "C" {
#endif

enum { DVBS_BRIDGE_STATE = 2322, DVBS_BRIDGE_BLOCK = 204, DVBS_BRIDGE_PACKET = 188, DVBS_BRIDGE_COUNT = 8 };

/* The numbers of the counts. */
enum {
    DVBS_BRIDGE_TAKEN,
    DVBS_BRIDGE_FILLING,
    DVBS_BRIDGE_DELIVERED,
    DVBS_BRIDGE_LOST,
    DVBS_BRIDGE_WAITING,
    DVBS_BRIDGE_OUTOFSTEP,
    DVBS_BRIDGE_CHANGED,
    DVBS_BRIDGE_BITS
};

/* Makes the state of a fresh receiver: 0, or 22. */
uint8_t dvbs_bridge_fresh(uint8_t *state, size_t state_len);

/* Takes one block of 204 interleaved bytes, and writes the packet that it
 * completes to the front of the output, of which 188 bytes are lent. Refused in the
 * order 22, 5, 3, 4, 7; else 0, 8, 9, 10 or 11, and the output is written on 0
 * alone. The blocks must follow each other without gap or repeat: behind one that
 * is missing or doubled up to six packets are given that were never sent. After a
 * gap begin with a fresh state. */
uint8_t dvbs_bridge_take(uint8_t *state, size_t state_len,
                         const uint8_t *block, size_t block_len,
                         uint8_t *output, size_t output_len);

/* Writes a count to the first eight bytes of the output, the lowest byte first.
 * Refused in the order 22, 23, 5, 4; else 0. */
uint8_t dvbs_bridge_count(const uint8_t *state, size_t state_len, uint8_t number,
                          uint8_t *output, size_t output_len);

#ifdef __cplusplus
}
#endif

#endif
