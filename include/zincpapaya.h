/*
 * Zincpapaya: the EraVM's memory. Each function here has a contract, and a proof that it keeps it.
 * Link target/staticlib/libzincpapaya.a, which `tools/build zincpapaya` writes for x86-64 Linux; it asks for
 * memcpy and memset, and for nothing else. examples/host.c is a small host.
 *
 * A MEMORY is four buffers that the host owns and lends to every call. Their lengths follow from the
 * three counts of the opening (the ZP_*_LEN below; docs/BUFFERS.md). The host allocates them once, with
 * any contents, opens the memory, and writes to none of them between calls.
 *
 * The library has no state of its own and keeps no pointer: calls on different memories may run at once.
 *
 * A SLICE is a pointer and a number of elements, and so two arguments. The pointer of an empty slice
 * must not be null, only aligned. Two slices of one call may not overlap, unless the call only reads both.
 *
 * A CALL RETURNS 0 where it was carried out. 1 to 16 are refusals, and ZP_UNFIT comes before any of them:
 * then no lent element has changed. ZP_PANICKED and ZP_SUSPENDED are outcomes of instructions (below).
 *
 * WHAT A CALL IS REFUSED WITH stands before it, in the order in which it is tested. Two are not repeated:
 * every call that is lent a memory, but zp_open, tests it and returns ZP_NOT_FORMED first; and every call
 * with an `out`, a `frame` or `registers` may return ZP_UNFIT.
 *
 * A WORD is four limbs of 64 bits, the lowest first. A bool must be 0 or 1.
 * A RANGE goes from `start` up to, but without, `end`; where `end` is not above `start` it is empty.
 */
#ifndef ZINCPAPAYA_H
#define ZINCPAPAYA_H

#include <stdbool.h>
#include <stddef.h>
#include <stdint.h>

#ifdef __cplusplus
extern "C" {
#endif

/* The lengths of the four buffers: C chunks, P pages, J words of each journal. The last part of `words` has a bit for each
 * chunk, in numbers of 64 bits. */
#define ZP_BYTES_LEN(C, P, J) (256 * (size_t)(C) + 64 * (size_t)(J))
#define ZP_KEYS_LEN(C, P, J) ((size_t)(C) + (size_t)(P) + 4)
#define ZP_ORDER_LEN(C, P, J) (3 * (size_t)(C) + (size_t)(P) + 4)
#define ZP_WORDS_LEN(C, P, J) (16 + 6 * (size_t)(J) + ((size_t)(C) + 63) / 64)

/* What a call returns besides 0. The numbers 1 to 16 are those of the project's scope papers. */
#define ZP_LAYOUT 1        /* two fixed ids are equal, or the stride is below 4; or two compared memories have different layouts */
#define ZP_SIZES 2         /* a count is out of its bounds, or a buffer has another length */
#define ZP_NOT_FORMED 3    /* a lent memory is not well formed: somebody else has written to it, or it was never opened */
#define ZP_UNDECODABLE 4   /* the page id decodes to no page, or page arithmetic leaves 32 bits */
#define ZP_FIXED 5         /* the page is a fixed one, which is neither allocated nor freed */
#define ZP_ALLOCATED 6     /* the page is allocated already */
#define ZP_NOT_ALLOCATED 7 /* the page is not allocated */
#define ZP_RANGE 8         /* a byte write goes past address 4,294,967,295; a partial read has more than 32 bytes; an output has
                              another length than its range; a zero block is not 256 zeros; a quote has more than 4,096 addresses */
#define ZP_NO_PAGE 9       /* the page needs an entry and none is free */
#define ZP_NO_CHUNK 10     /* the pool has too few chunks */
#define ZP_NO_JOURNAL 11   /* the bootloader page's journal has too little room */
#define ZP_BAD_MARK 12     /* a rollback to a number above its journal's length */
#define ZP_BAD_LENGTH 13   /* a truncation to more than the dynamic length */
#define ZP_POINTER 14      /* start + length of a pointer is above 4,294,967,295 */
#define ZP_HOOK_VALUE 15   /* the hook address is hit by a value above 4,294,967,295 */
#define ZP_OPERAND 16      /* an instruction does not take one of its places */
#define ZP_PANICKED 100    /* the instruction panicked as the EraVM does: the frame tells, dst1 is cleared, the memory is as it
                              was */
#define ZP_SUSPENDED 101   /* the store was carried out and the hook stops the run: out[0] is the value */
#define ZP_UNFIT 102       /* `out`, `frame`, `registers` or the chunk lookup's `output` has another length than this file asks
                              for */

/* Places: source, value, dst0 and dst1 of the instructions. A register is its number, 0 to 15. */
#define ZP_OTHER_FORM 131072 /* this number, and any above it, is a form that no instruction here takes */
/* The immediate i, 0 to 65,535. Any other i is a form that is refused. The macro evaluates i twice. */
#define ZP_IMMEDIATE(i) ((uint64_t)(i) <= 65535 ? 65536 + (uint32_t)(i) : ZP_OTHER_FORM)

/* The kinds of a page, as zp_decode gives them. */
#define ZP_CODE 0
#define ZP_HEAP 1
#define ZP_AUX 2
#define ZP_STATIC 3
#define ZP_CALLDATA 4
#define ZP_BOOTLOADER_HEAP 5
#define ZP_BOOTLOADER_AUX 6
#define ZP_NO_KIND 7 /* the id is undecodable */

/* A lent memory: for calls that change it, and for calls that only read it. */
#define ZP_MEMORY                                                                                  \
    uint8_t *bytes, size_t bytes_len, uint64_t *keys, size_t keys_len, uint32_t *order,            \
        size_t order_len, uint64_t *words, size_t words_len
#define ZP_CONST_MEMORY                                                                            \
    const uint8_t *bytes, size_t bytes_len, const uint64_t *keys, size_t keys_len,                 \
        const uint32_t *order, size_t order_len, const uint64_t *words, size_t words_len

/* ---- opening
 * Makes a memory of the buffers, empty but for the calldata on its page; or opens one afresh.
 * chunks, pages and room are the C, P and J of the lengths above: 1 to 65,536, 1 to 4,096, 0 to 65,536.
 */
/* ZP_LAYOUT, ZP_SIZES, ZP_NO_CHUNK where the calldata does not fit; never ZP_NOT_FORMED */
uint32_t zp_open(ZP_MEMORY, uint32_t static_memory, uint32_t calldata_page, uint32_t bootloader_heap,
                 uint32_t bootloader_aux, uint32_t base, uint32_t stride, uint32_t chunks,
                 uint32_t pages, uint32_t room, const uint8_t *calldata, size_t calldata_len);

/* ---- reads
 * What was never written, and any page that is undecodable or not allocated, reads as zeros.
 */
/* out: 4 limbs. No further refusal */
uint32_t zp_read_u256(ZP_CONST_MEMORY, uint32_t page, uint32_t address, uint64_t *out, size_t out_len);
/* out: 5 numbers: the 4 limbs of the word, and how many bytes the range has, 0 to 32. The bytes of the range lead the word, and
 * zeros follow. Bytes that were never written count too, and so do those of a page that is undecodable or not allocated.
 * ZP_RANGE above 32 bytes */
uint32_t zp_read_u256_partially(ZP_CONST_MEMORY, uint32_t page, uint32_t start, uint32_t end,
                                uint64_t *out, size_t out_len);
/* output: the bytes of the range. ZP_RANGE where it has another length than the range */
uint32_t zp_read_range_big_endian(ZP_CONST_MEMORY, uint32_t page, uint32_t start, uint32_t end,
                                  uint8_t *output, size_t output_len);
/* out: 1 number. No further refusal */
uint32_t zp_read_byte(ZP_CONST_MEMORY, uint32_t page, uint32_t address, uint64_t *out, size_t out_len);
/* out: 1 number. No further refusal */
uint32_t zp_dynamic_len(ZP_CONST_MEMORY, uint64_t *out, size_t out_len);
/* out: 2 numbers, the words in the journals of heap and aux heap. No further refusal */
uint32_t zp_snapshot(ZP_CONST_MEMORY, uint64_t *out, size_t out_len);
/* output: the 256 bytes of a chunk, else ZP_UNFIT. ZP_RANGE where block is not 256 zeros */
uint32_t zp_chunk(ZP_CONST_MEMORY, uint32_t page, uint32_t number, const uint8_t *block,
                  size_t block_len, uint8_t *output, size_t output_len);

/* ---- writes and allocation
 * A write allocates its page if it must, even a write of no bytes. On a bootloader page it journals the old word,
 * or each aligned word that its bytes touch.
 */
/* ZP_UNDECODABLE, ZP_NO_PAGE, ZP_NO_CHUNK, ZP_NO_JOURNAL */
uint32_t zp_write_u256(ZP_MEMORY, uint32_t page, uint32_t address, uint64_t limb0, uint64_t limb1,
                       uint64_t limb2, uint64_t limb3);
/* ZP_UNDECODABLE, ZP_RANGE, ZP_NO_PAGE, ZP_NO_CHUNK, ZP_NO_JOURNAL */
uint32_t zp_write_bytes(ZP_MEMORY, uint32_t page, uint32_t start, const uint8_t *src, size_t src_len);
/* ZP_UNDECODABLE, ZP_FIXED, ZP_ALLOCATED, ZP_NO_PAGE */
uint32_t zp_allocate_at(ZP_MEMORY, uint32_t page);
/* ZP_UNDECODABLE, ZP_FIXED, ZP_ALLOCATED, ZP_NO_PAGE, ZP_NO_CHUNK */
uint32_t zp_allocate_with_content_at(ZP_MEMORY, uint32_t page, const uint8_t *content,
                                     size_t content_len);

/* ---- freeing: chunks go back to the pool, zeroed */
/* ZP_UNDECODABLE, ZP_FIXED, ZP_NOT_ALLOCATED */
uint32_t zp_deallocate(ZP_MEMORY, uint32_t page);
/* Keeps the chunks that overlap `length` bytes from `start`; a page that is not dynamic or not allocated is
 * left as it is. No further refusal */
uint32_t zp_compact_to_window(ZP_MEMORY, uint32_t page, uint32_t start, uint32_t length);
/* Frees the groups from `len` on. ZP_BAD_LENGTH */
uint32_t zp_truncate_dynamic_to(ZP_MEMORY, uint64_t len);

/* ---- history of the two bootloader pages */
/* heap, aux: what zp_snapshot gave. ZP_BAD_MARK */
uint32_t zp_rollback(uint8_t *bytes, size_t bytes_len, const uint64_t *keys, size_t keys_len,
                     const uint32_t *order, size_t order_len, uint64_t *words, size_t words_len,
                     uint64_t heap, uint64_t aux);
/* Empties both journals. No further refusal */
uint32_t zp_delete_history(const uint8_t *bytes, size_t bytes_len, const uint64_t *keys,
                           size_t keys_len, const uint32_t *order, size_t order_len,
                           uint64_t *words, size_t words_len);

/* ---- comparison of two memories */
/* out: 1 where they are equal, else 0. ZP_NOT_FORMED for either, then ZP_LAYOUT */
uint32_t zp_compare(ZP_CONST_MEMORY, const uint8_t *other_bytes, size_t other_bytes_len,
                    const uint64_t *other_keys, size_t other_keys_len, const uint32_t *other_order,
                    size_t other_order_len, const uint64_t *other_words, size_t other_words_len,
                    uint64_t *out, size_t out_len);

/* ---- the five instructions
 * An instruction reads its operands from the registers and writes its results to them.
 *
 * frame: 6 numbers: gas, heap page, aux page, heap bound, aux bound, panicked (0 or 1)
 * registers: 65 numbers: the 4 limbs of register 0, of register 1, and so on up to 15; then the set of pointer flags.
 *   Bit n of the set is the flag of register n. The bits above 15 are neither read nor changed.
 * aux: whether the aux heap is meant
 * source: the place of the operand, which is read with its flag. An immediate has no flag.
 * value: the register that is stored. Where its flag is set, it is a pointer: its page and its start, bits 32 to 95,
 *   are stored as 0, except in kernel mode. The register stays as it is.
 * dst0, dst1: the registers that are written. dst0 is written first, so dst1 decides where both are the same.
 * increment: whether the operand plus 32 is written
 * kernel: whether the run is in kernel mode
 *
 * Register 0 is never written. It is read as it is. To clear a register is to write 0 to it and to clear its flag.
 *
 * AFTER          the frame                  dst0                                dst1
 * a load         has paid for the growth    the word, no flag                   with increment the operand plus 32, else
 *                                                                               it is cleared
 * a store        has paid for the growth    with increment the operand plus     it is cleared
 *                                           32, no flag; else as it was
 * ZP_SUSPENDED   as after a store           as after a store                    as after a store
 * ZP_PANICKED    has panicked = 1, and the  as it was                           it is cleared
 *                gas may be 0
 * a refusal      as it was                  as it was                           as it was
 *
 * Only zp_load and zp_store pay for growth. All other registers and flags stay as they were. A panic leaves the memory as it
 * was.
 *
 * Two instructions have an `out`, of one number. zp_store writes the hook's value to it where it returns ZP_SUSPENDED.
 * zp_load_pointer writes how many bytes of the pointer's range lead the word, where it returns 0. Otherwise `out` stays as it
 * was.
 *
 * WHAT IS TESTED, in this order: ZP_UNFIT, ZP_NOT_FORMED, ZP_OPERAND, the panic, the refusals named here. ZP_OPERAND is
 * returned for a register above 15, for a form from ZP_OTHER_FORM on, and for an immediate as value, dst0 or dst1, or as the
 * source of zp_load_pointer. Every place is tested, even one that would not be written.
 */
/* With increment dst1 gets the flag of the operand. ZP_OPERAND; ZP_PANICKED; no further refusal */
uint32_t zp_load(ZP_CONST_MEMORY, uint32_t *frame, size_t frame_len, uint64_t *registers,
                 size_t registers_len, bool aux, uint32_t source, uint32_t dst0, uint32_t dst1,
                 bool increment);
/* ZP_OPERAND; ZP_PANICKED; ZP_UNDECODABLE, ZP_NO_PAGE, ZP_NO_CHUNK, ZP_NO_JOURNAL, ZP_HOOK_VALUE; or ZP_SUSPENDED, where
 * `hook` is set and the address is hook_address. out: 1 number */
uint32_t zp_store(ZP_MEMORY, uint32_t *frame, size_t frame_len, uint64_t *registers,
                  size_t registers_len, bool aux, uint32_t source, uint32_t value, uint32_t dst0,
                  uint32_t dst1, bool increment, bool kernel, bool hook, uint32_t hook_address,
                  uint64_t *out, size_t out_len);
/* The operand is a pointer, and its flag must be set, else it panics. With increment dst1 gets the flag too.
 * out: 1 number, 0 to 32. The word begins with so many bytes of the pointer's range, from its offset on; zeros follow. Bytes
 * that were never written count too, and so do those of a page that is undecodable or not allocated. The number is 0 where the
 * offset is not below the length. A host that shows the word splits its 32 bytes, the highest first,
 * after so many.
 * ZP_OPERAND; ZP_PANICKED; ZP_POINTER */
uint32_t zp_load_pointer(ZP_CONST_MEMORY, uint32_t *frame, size_t frame_len, uint64_t *registers,
                         size_t registers_len, uint32_t source, uint32_t dst0, uint32_t dst1,
                         bool increment, uint64_t *out, size_t out_len);
/* With increment dst1 gets the flag of the operand. ZP_OPERAND; ZP_PANICKED; no further refusal */
uint32_t zp_load_static(ZP_CONST_MEMORY, uint32_t *frame, size_t frame_len, uint64_t *registers,
                        size_t registers_len, uint32_t source, uint32_t dst0, uint32_t dst1,
                        bool increment);
/* ZP_OPERAND; ZP_PANICKED; ZP_NO_CHUNK */
uint32_t zp_store_static(ZP_MEMORY, uint32_t *frame, size_t frame_len, uint64_t *registers,
                         size_t registers_len, uint32_t source, uint32_t value, uint32_t dst0,
                         uint32_t dst1, bool increment, bool kernel);

/* ---- page ids */
/* out: 2 numbers, kind and group (0 where the page has none). ZP_LAYOUT; an undecodable id is no refusal here, but
 * ZP_NO_KIND */
uint32_t zp_decode(uint32_t static_memory, uint32_t calldata_page, uint32_t bootloader_heap,
                   uint32_t bootloader_aux, uint32_t base, uint32_t stride, uint32_t page,
                   uint64_t *out, size_t out_len);
/* The next five. out: 1 number, the page id or base page. ZP_UNDECODABLE where it would leave 32 bits, which
 * zp_code_page_from_base never does */
uint32_t zp_heap_page_from_base(uint32_t base, uint64_t *out, size_t out_len);
uint32_t zp_aux_heap_page_from_base(uint32_t base, uint64_t *out, size_t out_len);
uint32_t zp_code_page_from_base(uint32_t base, uint64_t *out, size_t out_len);
uint32_t zp_base_page_from_heap(uint32_t heap, uint64_t *out, size_t out_len);
uint32_t zp_next_page_group(uint32_t base, uint32_t stride, uint64_t *out, size_t out_len);

/* ---- fat pointers. Never refused */
/* out: 4 numbers: offset, page, start, length */
uint32_t zp_fat_pointer_from_u256(uint64_t limb0, uint64_t limb1, uint64_t limb2, uint64_t limb3,
                                  uint64_t *out, size_t out_len);
/* out: the 4 limbs of the word */
uint32_t zp_fat_pointer_into_u256(uint32_t offset, uint32_t page, uint32_t start, uint32_t length,
                                  uint64_t *out, size_t out_len);

/* ---- gas */
/* out: 2 numbers: the gas left, and whether the amount was paid. Never refused */
uint32_t zp_use_gas(uint32_t gas, uint32_t amount, uint64_t *out, size_t out_len);
/* out: 1 number, whether the growth was paid; frame: its gas and that bound may change. Never refused */
uint32_t zp_grow_heap(uint32_t *frame, size_t frame_len, bool aux, uint32_t new_bound, uint64_t *out,
                      size_t out_len);
/* What loads at these addresses of one area cost if they run in this order. The first load is given `gas` and `bound`,
 * each later one the gas and the bound that the one before it left; each pays for its growth. The quote ends at the first
 * load that panics: its address is above 4,294,967,263, or its growth costs more than the gas that is left. That load takes
 * all the gas and keeps the bound, and the addresses after it are not looked at.
 * out: 3 numbers: the gas spent; the bound reached; the position, counted from 0, of the load that panics, or list_len
 * where none does. A quote that ends at a panic returns 0 too, and only out[2] tells it: all loads go through where out[2]
 * is list_len. The gas does not tell: loads that go through may spend all of it; and with gas 0, a load that panics spends
 * 0 and keeps the bound.
 * A store pays what a load pays, unless it is refused; a quote knows no memory, and so no refusals.
 * ZP_RANGE above 4,096 addresses, before any of them is looked at */
uint32_t zp_quote(const uint32_t *list, size_t list_len, uint32_t gas, uint32_t bound, uint64_t *out,
                  size_t out_len);

#ifdef __cplusplus
}
#endif

#endif
