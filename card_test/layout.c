/* The header's structs are laid out as the library's are, on x86-64. */
#include "blentovar.h"

#include <assert.h>

static_assert(sizeof(size_t) == 8, "places and lengths are 64-bit");

static_assert(offsetof(blentovar_sizes_answer, number) == 0, "number");
static_assert(offsetof(blentovar_sizes_answer, zero_after_number) == 4, "zero_after_number");
static_assert(offsetof(blentovar_sizes_answer, n) == 8, "n");
static_assert(offsetof(blentovar_sizes_answer, k) == 16, "k");
static_assert(sizeof(blentovar_sizes_answer) == 24, "sizes_answer");

static_assert(offsetof(blentovar_describe_answer, number) == 0, "number");
static_assert(offsetof(blentovar_describe_answer, zero_after_number) == 4, "zero_after_number");
static_assert(offsetof(blentovar_describe_answer, n) == 8, "n");
static_assert(offsetof(blentovar_describe_answer, k) == 16, "k");
static_assert(sizeof(blentovar_describe_answer) == 24, "describe_answer");

static_assert(offsetof(blentovar_encode_answer, number) == 0, "number");
static_assert(offsetof(blentovar_encode_answer, buffer) == 4, "buffer");
static_assert(offsetof(blentovar_encode_answer, place) == 8, "place");
static_assert(sizeof(blentovar_encode_answer) == 16, "encode_answer");

static_assert(offsetof(blentovar_decode_answer, number) == 0, "number");
static_assert(offsetof(blentovar_decode_answer, buffer) == 4, "buffer");
static_assert(offsetof(blentovar_decode_answer, place) == 8, "place");
static_assert(offsetof(blentovar_decode_answer, wrong) == 16, "wrong");
static_assert(sizeof(blentovar_decode_answer) == 24, "decode_answer");

static_assert(offsetof(blentovar_edit_answer, number) == 0, "number");
static_assert(offsetof(blentovar_edit_answer, buffer) == 4, "buffer");
static_assert(offsetof(blentovar_edit_answer, place) == 8, "place");
static_assert(sizeof(blentovar_edit_answer) == 16, "edit_answer");

static_assert(offsetof(blentovar_kept, m) == 0, "m");
static_assert(offsetof(blentovar_kept, t) == 8, "t");
static_assert(offsetof(blentovar_kept, bits) == 16, "bits");
static_assert(offsetof(blentovar_kept, zero_after_bits) == 1039, "zero_after_bits");
static_assert(offsetof(blentovar_kept, sums) == 1040, "sums");
static_assert(offsetof(blentovar_kept, zero_after_sums) == 1550, "zero_after_sums");
static_assert(sizeof(blentovar_kept) == 1552, "kept");

static_assert(offsetof(blentovar_kept_answer, number) == 0, "number");
static_assert(offsetof(blentovar_kept_answer, buffer) == 4, "buffer");
static_assert(offsetof(blentovar_kept_answer, place) == 8, "place");
static_assert(offsetof(blentovar_kept_answer, record) == 16, "record");
static_assert(sizeof(blentovar_kept_answer) == 1568, "kept_answer");

static_assert(offsetof(blentovar_decode_kept_answer, number) == 0, "number");
static_assert(offsetof(blentovar_decode_kept_answer, zero_after_number) == 4, "zero_after_number");
static_assert(offsetof(blentovar_decode_kept_answer, wrong) == 8, "wrong");
static_assert(sizeof(blentovar_decode_kept_answer) == 16, "decode_kept_answer");

static_assert(offsetof(blentovar_read_answer, number) == 0, "number");
static_assert(offsetof(blentovar_read_answer, house) == 4, "house");
static_assert(offsetof(blentovar_read_answer, poll) == 6, "poll");
static_assert(offsetof(blentovar_read_answer, counter) == 8, "counter");
static_assert(offsetof(blentovar_read_answer, wrong) == 16, "wrong");
static_assert(sizeof(blentovar_read_answer) == 24, "read_answer");

static_assert(offsetof(blentovar_look_answer, number) == 0, "number");
static_assert(offsetof(blentovar_look_answer, zero_after_number) == 4, "zero_after_number");
static_assert(offsetof(blentovar_look_answer, count) == 8, "count");
static_assert(sizeof(blentovar_look_answer) == 16, "look_answer");

static_assert(offsetof(blentovar_part_answer, number) == 0, "number");
static_assert(offsetof(blentovar_part_answer, zero_after_number) == 4, "zero_after_number");
static_assert(offsetof(blentovar_part_answer, offset) == 8, "offset");
static_assert(offsetof(blentovar_part_answer, length) == 16, "length");
static_assert(sizeof(blentovar_part_answer) == 24, "part_answer");
