/* The outer code from C: codes a message, harms eight bytes of the codeword and corrects them, then harms nine. */
#include "dvbs.h"

#include <stdio.h>
#include <string.h>

/* Adds an error to the first n of these bytes. */
static void harm(uint8_t *block, int n)
{
    static const int places[] = {0, 1, 50, 99, 140, 187, 190, 202, 203};
    for (int i = 0; i < n; i++)
        block[places[i]] ^= (uint8_t)(0x11 + i);
}

int main(void)
{
    uint8_t message[DVBS_PACKET], codeword[DVBS_BLOCK], block[DVBS_BLOCK], came[DVBS_BLOCK], count[2] = {0};
    for (int n = 0; n < DVBS_PACKET; n++)
        message[n] = (uint8_t)n;

    unsigned answer = dvbs_rs_encode(message, sizeof message, codeword, sizeof codeword);
    printf("coded: answer %u\n", answer);

    memcpy(block, codeword, sizeof block);
    harm(block, 8);
    answer = dvbs_rs_decode(block, sizeof block, count, sizeof count);
    printf("eight bytes harmed: answer %u, %u bytes and %u bits repaired, %s\n", answer, count[0], count[1],
           memcmp(block, codeword, sizeof block) ? "another codeword" : "the same codeword");

    memcpy(block, codeword, sizeof block);
    harm(block, 9);
    memcpy(came, block, sizeof came);
    answer = dvbs_rs_decode(block, sizeof block, count, sizeof count);
    printf("nine bytes harmed: answer %u, the block is %s\n", answer,
           memcmp(block, came, sizeof block) ? "changed" : "as it came");
    return 0;
}
