/*
 * A host in C: a memory in four buffers, a write, a snapshot, quotes, a load that pays for growth, a rollback, a refusal.
 * From the repository's folder:
 *
 *     tools/build zincpapaya
 *     cc -Iinclude examples/host.c target/staticlib/libzincpapaya.a -o target/host && target/host
 */
#include <inttypes.h>
#include <stdio.h>
#include <stdlib.h>

#include "zincpapaya.h"

/* Room for 16 chunks, 4 dynamic pages and 8 words in each journal. */
enum { C = 16, P = 4, J = 8 };

static uint8_t bytes[ZP_BYTES_LEN(C, P, J)];
static uint64_t keys[ZP_KEYS_LEN(C, P, J)];
static uint32_t order[ZP_ORDER_LEN(C, P, J)];
static uint64_t words[ZP_WORDS_LEN(C, P, J)];

/* The four buffers, as every call takes them. */
#define MEMORY                                                                                     \
    bytes, ZP_BYTES_LEN(C, P, J), keys, ZP_KEYS_LEN(C, P, J), order, ZP_ORDER_LEN(C, P, J), words, \
        ZP_WORDS_LEN(C, P, J)

/* The pages of the layout below. */
enum { STATIC = 1, CALLDATA = 4, BOOTLOADER_HEAP = 5, BOOTLOADER_AUX = 6, BASE = 64, STRIDE = 8 };

/* Ends the program where a call was not carried out. */
static void done(const char *call, uint32_t status) {
    if (status != 0) {
        printf("%s returned %" PRIu32 "\n", call, status);
        exit(1);
    }
}

/* The lowest limb of the word at an address of the bootloader heap. */
static uint64_t low_limb(uint32_t address) {
    uint64_t word[4];
    done("zp_read_u256", zp_read_u256(MEMORY, BOOTLOADER_HEAP, address, word, 4));
    return word[0];
}

/* What loads of these four addresses cost from the bound 4096 on, if they have this much gas. */
static void show_quote(uint32_t gas) {
    static const uint32_t list[4] = {4064, 4065, 0, 4070};
    uint64_t out[3];
    done("zp_quote", zp_quote(list, 4, gas, 4096, out, 3));
    printf("quoted %" PRIu64 " gas, bound %" PRIu64 ", position %" PRIu64 ": %s\n", out[0], out[1],
           out[2], out[2] == 4 ? "all go through" : "a panic");
}

int main(void) {
    static const uint8_t calldata[] = "calldata";
    done("zp_open", zp_open(MEMORY, STATIC, CALLDATA, BOOTLOADER_HEAP, BOOTLOADER_AUX, BASE, STRIDE,
                            C, P, J, calldata, sizeof calldata - 1));

    /* The word 7 at 4065, and where to come back to. */
    done("zp_write_u256", zp_write_u256(MEMORY, BOOTLOADER_HEAP, 4065, 7, 0, 0, 0));
    uint64_t mark[2];
    done("zp_snapshot", zp_snapshot(MEMORY, mark, 2));

    /* They pay 0, 1, 0 and 5; with 5 gas, the last one panics and takes what is left. */
    show_quote(10);
    show_quote(5);

    /* A load one byte past the bound of 4096 pays 1 gas. The address is in register 1, the word goes to register 2. */
    uint32_t frame[6] = {10, BOOTLOADER_HEAP, BOOTLOADER_AUX, 4096, 4096, 0};
    uint64_t registers[65] = {0};
    registers[4 * 1] = 4065;
    done("zp_load", zp_load(MEMORY, frame, 6, registers, 65, false, 1, 2, 0, false));
    printf("loaded %" PRIu64 ", %" PRIu32 " gas left\n", registers[4 * 2], frame[0]);

    /* A word over the first one, and back. */
    done("zp_write_u256", zp_write_u256(MEMORY, BOOTLOADER_HEAP, 4066, 8, 0, 0, 0));
    printf("written over: %" PRIu64 "\n", low_limb(4065));
    done("zp_rollback", zp_rollback(MEMORY, mark[0], mark[1]));
    printf("rolled back: %" PRIu64 "\n", low_limb(4065));

    /* Page 3 is none of the layout's: a refusal, and nothing has changed. */
    uint32_t status = zp_write_u256(MEMORY, 3, 0, 1, 0, 0, 0);
    printf("refused with %" PRIu32 "\n", status);
    return status == ZP_UNDECODABLE ? 0 : 1;
}
