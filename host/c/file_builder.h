/*
 * Writes module files, byte by byte as document 01 lists them. Only for small modules: nothing is checked.
 */
#ifndef FILE_BUILDER_H
#define FILE_BUILDER_H

#include <stddef.h>
#include <stdint.h>

/* More than any file here has. */
enum { FILE_LIMIT = 1024 };

/* A file under construction: bytes written so far. */
typedef struct {
    uint8_t bytes[FILE_LIMIT];
    size_t length;
} file_builder;

static inline void put_u8(file_builder *file, uint8_t value) {
    file->bytes[file->length] = value;
    file->length += 1;
}

static inline void put_u16(file_builder *file, uint16_t value) {
    put_u8(file, (uint8_t)(value & 0xff));
    put_u8(file, (uint8_t)(value >> 8));
}

static inline void put_u32(file_builder *file, uint32_t value) {
    put_u16(file, (uint16_t)(value & 0xffff));
    put_u16(file, (uint16_t)(value >> 16));
}

static inline void put_header(file_builder *file, uint8_t tag, uint16_t length) {
    put_u8(file, tag);
    put_u16(file, length);
}

static inline void put_instruction(file_builder *file, uint8_t op, uint8_t a, uint8_t b, uint8_t w,
                                   uint32_t imm) {
    put_u8(file, op);
    put_u8(file, a);
    put_u8(file, b);
    put_u8(file, w);
    put_u32(file, imm);
}

/* A target that claims a range for r1 and anything for the other registers. */
static inline void put_target(file_builder *file, uint16_t index, uint8_t kind, uint32_t r1_lowest,
                              uint32_t r1_highest) {
    put_u16(file, index);
    put_u8(file, kind);
    put_u8(file, 0);
    for (int r = 0; r < 8; r++) {
        put_u32(file, r == 1 ? r1_lowest : 0);
        put_u32(file, r == 1 ? r1_highest : UINT32_MAX);
    }
}

#endif
