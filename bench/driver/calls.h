// Each operation as a call on one input.
#pragma once
#include "cases.h"

call call_sizes, call_describe, call_encode, call_decode, call_decode_bad_bit, call_edit, call_open, call_splice, call_decode_kept, call_make_frame, call_read_frame, call_look_at_book, call_read_book, call_write_book;
