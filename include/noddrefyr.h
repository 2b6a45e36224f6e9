/* The C interface of noddrefyr: encodings of tokens and their windows, in proved functions. Made by
   `compare/run header` from the sources of the crates c_* and record; link target/libnoddrefyr.a, which
   `compare/archive` writes.

   A batch is lent as two slices of uint32_t, nodes and rows, each as a pointer and its length in numbers (README.md
   draws them): a node is 26 numbers, a row 11. A special table is lent as three slices: entries of 5 numbers (id start and
   length in the added texts, first member, number of ids, number of texts), members of 3 (id, text start and length in the
   added texts), and the added texts. The library keeps no pointer, allocates nothing, and takes any
   numbers whatever; it needs only that each pointer is valid for its length, not null even where the length is 0,
   and that what it may write overlaps nothing else that it is lent.

   Each function returns 0, or the number of its refusal, unless its comment says otherwise. */
#ifndef NODDREFYR_H
#define NODDREFYR_H

#include <stdbool.h>
#include <stddef.h>
#include <stdint.h>

#ifdef __cplusplus
extern "C" {
#endif

/* What a function returns that refuses. README.md says each in words. */
enum noddrefyr_refusal {
    NODDREFYR_MALFORMED_RECORD = 1,
    NODDREFYR_NO_ROOM = 2,
    NODDREFYR_STRIDE = 3,
    NODDREFYR_SECOND_MISSING = 4,
    NODDREFYR_TOO_SHORT = 5,
    NODDREFYR_OFFSET_TOO_LARGE = 6,
    NODDREFYR_TEMPLATE_TOO_LONG = 8,
    NODDREFYR_PAIR_LACKS_A_OR_B = 9,
    NODDREFYR_SPECIAL_ID_UNKNOWN = 10,
    NODDREFYR_B_WITHOUT_SECOND = 11,
    NODDREFYR_IDS_AND_TEXTS_DIFFER = 12,
    NODDREFYR_SEQUENCE_ID_ABOVE_LAST = 13,
    NODDREFYR_TEXT_OUTSIDE_POOL = 14,
    NODDREFYR_MALFORMED_TABLE = 15,
    NODDREFYR_NOT_TEXT = 16,
    NODDREFYR_OFFSET_PAST_END = 17,
    NODDREFYR_OFFSET_INSIDE_CHARACTER = 18,
    NODDREFYR_MORE_THAN_ONE_COLON = 19,
    NODDREFYR_BAD_TYPE_NUMBER = 20,
    NODDREFYR_UNKNOWN_SEQUENCE_NAME = 21,
    NODDREFYR_TOTAL_TOO_LARGE = 22,
};

/* Whether two slices are a well-formed batch (else 1), and the number of its encodings at the top. */
uint32_t noddrefyr_check_batch(
    const uint32_t *nodes, size_t nodes_len,
    const uint32_t *rows, size_t rows_len,
    size_t *encodings);

/* The encoding of tokens of 5 numbers each (id, text start, text length, offset start, offset end), written to the output;
   written is its nodes and its rows. Refused with 1 (no whole tokens), 2. */
uint32_t noddrefyr_from_tokens(
    const uint32_t *tokens, size_t tokens_len,
    uint32_t type_id,
    uint32_t *out_nodes, size_t out_nodes_len,
    uint32_t *out_rows, size_t out_rows_len,
    size_t written[2]);

/* One encoding with the range of a sequence set to all its rows, written to the output; written is its nodes and its rows.
   Refused with 1, 13, 2. */
uint32_t noddrefyr_set_sequence_id(
    const uint32_t *nodes, size_t nodes_len,
    const uint32_t *rows, size_t rows_len,
    uint32_t sequence_id,
    uint32_t *out_nodes, size_t out_nodes_len,
    uint32_t *out_rows, size_t out_rows_len,
    size_t written[2]);

/* The rows of a sequence of one encoding: start, end (not included). Refused with 1. */
uint32_t noddrefyr_sequence_range(
    const uint32_t *nodes, size_t nodes_len,
    const uint32_t *rows, size_t rows_len,
    uint32_t sequence_id,
    uint32_t answer[2]);

/* The number of sequences of one encoding. Refused with 1. */
uint32_t noddrefyr_n_sequences(
    const uint32_t *nodes, size_t nodes_len,
    const uint32_t *rows, size_t rows_len,
    uint32_t answer[1]);

/* The sequence that a row of one encoding is in, and the row's place from the start of it: found or not, sequence, place.
   Without ranges sequence 0 and the row's own number. Refused with 1. */
uint32_t noddrefyr_token_to_sequence(
    const uint32_t *nodes, size_t nodes_len,
    const uint32_t *rows, size_t rows_len,
    uint32_t token,
    uint32_t answer[3]);

/* The mark and the sequence of each row of one encoding, written to out; written is the number of rows. Refused with 1, 2. */
uint32_t noddrefyr_get_sequence_ids(
    const uint32_t *nodes, size_t nodes_len,
    const uint32_t *rows, size_t rows_len,
    uint32_t *out, size_t out_len,
    size_t written[1]);

/* The rows of a word in a sequence of one encoding: found or not, start, end (not included). Refused with 1. */
uint32_t noddrefyr_word_to_tokens(
    const uint32_t *nodes, size_t nodes_len,
    const uint32_t *rows, size_t rows_len,
    uint32_t word,
    uint32_t sequence_id,
    uint32_t answer[3]);

/* The characters of a word in a sequence of one encoding: found or not, start, end. Refused with 1. */
uint32_t noddrefyr_word_to_chars(
    const uint32_t *nodes, size_t nodes_len,
    const uint32_t *rows, size_t rows_len,
    uint32_t word,
    uint32_t sequence_id,
    uint32_t answer[3]);

/* The row that holds a character, in a sequence of one encoding: found or not, row. Refused with 1. */
uint32_t noddrefyr_char_to_token(
    const uint32_t *nodes, size_t nodes_len,
    const uint32_t *rows, size_t rows_len,
    uint32_t place,
    uint32_t sequence_id,
    uint32_t answer[2]);

/* The sequence of a row of one encoding, the row's place from the start of it, and the row's characters: found or not, sequence,
   place, start, end. Refused with 1. */
uint32_t noddrefyr_token_to_chars(
    const uint32_t *nodes, size_t nodes_len,
    const uint32_t *rows, size_t rows_len,
    uint32_t token,
    uint32_t answer[5]);

/* The sequence of a row of one encoding, the row's place from the start of it, and the row's word: found or not, sequence, place,
   word. Refused with 1. */
uint32_t noddrefyr_token_to_word(
    const uint32_t *nodes, size_t nodes_len,
    const uint32_t *rows, size_t rows_len,
    uint32_t token,
    uint32_t answer[4]);

/* The word that holds a character, in a sequence of one encoding: found or not, word. Refused with 1. */
uint32_t noddrefyr_char_to_word(
    const uint32_t *nodes, size_t nodes_len,
    const uint32_t *rows, size_t rows_len,
    uint32_t place,
    uint32_t sequence_id,
    uint32_t answer[2]);

/* Where the text of a row lies, numbered through the whole batch: found or not, pool (0 tokens, 1 added), start, length.
   Refused with 1, 14. */
uint32_t noddrefyr_text(
    const uint32_t *nodes, size_t nodes_len,
    const uint32_t *rows, size_t rows_len,
    uint32_t row,
    const uint8_t *tokens, size_t tokens_len,
    const uint8_t *added, size_t added_len,
    uint32_t answer[4]);

/* The least offset start and the greatest offset end of a node over its own rows with special mask 0, numbered through the
   whole batch: found or not, start, end. Refused with 1. */
uint32_t noddrefyr_span(
    const uint32_t *nodes, size_t nodes_len,
    const uint32_t *rows, size_t rows_len,
    uint32_t node,
    uint32_t answer[3]);

/* One encoding cut to max rows, from its left or its right end, with the other windows of the cut as its windows, written
   to the output; written is its nodes and its rows. Refused with 1, 3, 2. */
uint32_t noddrefyr_truncate(
    const uint32_t *nodes, size_t nodes_len,
    const uint32_t *rows, size_t rows_len,
    uint32_t max,
    uint32_t stride,
    bool left,
    uint32_t *out_nodes, size_t out_nodes_len,
    uint32_t *out_rows, size_t out_rows_len,
    size_t written[2]);

/* Two encodings joined, written to the output; written is its nodes and its rows. Growing moves the second's offsets on by
   the first's last offset end. Refused with 1, 2, 6; 6 (an offset past 32 bits) leaves the output all zeros. */
uint32_t noddrefyr_merge_with(
    const uint32_t *first_nodes, size_t first_nodes_len,
    const uint32_t *first_rows, size_t first_rows_len,
    const uint32_t *second_nodes, size_t second_nodes_len,
    const uint32_t *second_rows, size_t second_rows_len,
    bool growing,
    uint32_t *out_nodes, size_t out_nodes_len,
    uint32_t *out_rows, size_t out_rows_len,
    size_t written[2]);

/* The encodings of a batch joined in their order, from the empty encoding on, written to the output; written is its nodes
   and its rows. The working store takes as much as the output and is all zeros afterwards. Refused with 1, 2, 6; 6 leaves
   output and working store all zeros. */
uint32_t noddrefyr_merge(
    const uint32_t *nodes, size_t nodes_len,
    const uint32_t *rows, size_t rows_len,
    bool growing,
    uint32_t *out_nodes, size_t out_nodes_len,
    uint32_t *out_rows, size_t out_rows_len,
    uint32_t *working_nodes, size_t working_nodes_len,
    uint32_t *working_rows, size_t working_rows_len,
    size_t written[2]);

/* How many rows an encoding of first_rows rows and, if has_second, one of second_rows keep, so that they have at most max_length
   together: kept is whether the first is cut and the rows it keeps, then the same of the second, zeros if it is missing. Strategy
   0 cuts the longest first, 1 only the first, any other only the second. Refused with 4, 5. */
uint32_t noddrefyr_pair_lengths(
    uint32_t first_rows,
    bool has_second,
    uint32_t second_rows,
    uint32_t max_length,
    uint32_t strategy,
    uint32_t kept[4]);

/* A batch of one or two encodings, the first cut to first_length rows and the second, if has_second_length, to second_length, from
   their left or their right ends, written to the output one after the other; written is its nodes and its rows. A length for a
   missing second is passed over; a second without one stays whole. Refused with 1, 3, 2. */
uint32_t noddrefyr_cut_pair(
    const uint32_t *nodes, size_t nodes_len,
    const uint32_t *rows, size_t rows_len,
    uint32_t first_length,
    bool has_second_length,
    uint32_t second_length,
    uint32_t stride,
    bool left,
    uint32_t *out_nodes, size_t out_nodes_len,
    uint32_t *out_rows, size_t out_rows_len,
    size_t written[2]);

/* One encoding and its windows padded on the left or on the right to target_length rows, written to the output; written
   is its nodes and its rows. The pad text lies in the added texts. Refused with 1, 14, 2. */
uint32_t noddrefyr_pad(
    const uint32_t *nodes, size_t nodes_len,
    const uint32_t *rows, size_t rows_len,
    const uint8_t *added, size_t added_len,
    uint64_t target_length,
    uint32_t pad_id,
    uint32_t pad_type_id,
    uint32_t text_start,
    uint32_t text_length,
    bool left,
    uint32_t *out_nodes, size_t out_nodes_len,
    uint32_t *out_rows, size_t out_rows_len,
    size_t written[2]);

/* Every encoding of a batch, its windows too, padded to fixed_length if it is fixed, else to that of the longest, in
   both cases rounded up to a multiple (0 for none), written to the output; written is its nodes and its rows. Refused with
   1, 14, 2. */
uint32_t noddrefyr_pad_encodings(
    const uint32_t *nodes, size_t nodes_len,
    const uint32_t *rows, size_t rows_len,
    const uint8_t *added, size_t added_len,
    bool fixed,
    uint64_t fixed_length,
    uint64_t multiple,
    uint32_t pad_id,
    uint32_t pad_type_id,
    uint32_t text_start,
    uint32_t text_length,
    bool left,
    uint32_t *out_nodes, size_t out_nodes_len,
    uint32_t *out_rows, size_t out_rows_len,
    size_t written[2]);

/* The pieces of a template text, kind (0 A, 1 B, 2 special), type, id start and id length in the text of each, spare ones zero,
   and their number. Refused with 8, 19, 20, 21; with the last three fault is the number of the part at fault and the place of its
   first byte in the text, both from 0, and else it stays as it was. */
uint32_t noddrefyr_read_template(
    const uint8_t *text, size_t text_len,
    uint32_t pieces[256],
    size_t *count,
    size_t fault[2]);

/* Whether a template for one encoding and one for a pair can be used with a special table. One that is not set is `$0`, or
   `$A:0 $B:1`, whatever its text. Refused with 15, 12, then 8, 19, 20, 21 for the single, 8, 19, 20, 21 for the pair, 9, 10. With
   19 to 21 fault is the template (0 the single, 1 the pair), the number of its part at fault and the place of that part's first byte,
   both from 0, and else it stays as it was. */
uint32_t noddrefyr_validate(
    bool single_set,
    const uint8_t *single, size_t single_len,
    bool pair_set,
    const uint8_t *pair, size_t pair_len,
    const uint32_t *entries, size_t entries_len,
    const uint32_t *members, size_t members_len,
    const uint8_t *added, size_t added_len,
    size_t fault[3]);

/* How many tokens a template adds, where an unknown special id adds none; one that is not set is `$0`, or `$A:0 $B:1` if it is
   the pair's. Refused with 15, 12, 8, 19, 20, 21; with the last three fault is the number of the part at fault and the place of its
   first byte in the text, both from 0, and else it stays as it was. */
uint32_t noddrefyr_count_added(
    bool set,
    const uint8_t *text, size_t text_len,
    bool is_pair,
    const uint32_t *entries, size_t entries_len,
    const uint32_t *members, size_t members_len,
    const uint8_t *added, size_t added_len,
    uint64_t *count,
    size_t fault[2]);

/* One or two encodings put together as the template for one or for two says, special tokens added or left out, written to the
   output; written is its nodes and its rows. Encoding i gets sequence id i; a template that is not set is `$0`, or
   `$A:0 $B:1`. The working store takes as much as the output and is all zeros afterwards. Refused with 1, 15, 12, 8, 19,
   20, 21, 11 (B without a second encoding), 10 (only where special tokens are added), 2; with 19 to 21 fault is the number of the
   part at fault of the template used and the place of its first byte, both from 0, and else it stays as it was. */
uint32_t noddrefyr_process(
    const uint32_t *nodes, size_t nodes_len,
    const uint32_t *rows, size_t rows_len,
    bool single_set,
    const uint8_t *single, size_t single_len,
    bool pair_set,
    const uint8_t *pair, size_t pair_len,
    const uint32_t *entries, size_t entries_len,
    const uint32_t *members, size_t members_len,
    const uint8_t *added, size_t added_len,
    bool add_special_tokens,
    uint32_t *out_nodes, size_t out_nodes_len,
    uint32_t *out_rows, size_t out_rows_len,
    uint32_t *working_nodes, size_t working_nodes_len,
    uint32_t *working_rows, size_t working_rows_len,
    size_t written[2],
    size_t fault[2]);

/* A batch whose offsets are places of bytes in a text, with the number of characters before each in its place, written to the output;
   written is its nodes and its rows. The text is in UTF-8. Refused with 1, 16, then 17 or 18 by the first row concerned, 2. */
uint32_t noddrefyr_bytes_to_chars(
    const uint32_t *nodes, size_t nodes_len,
    const uint32_t *rows, size_t rows_len,
    const uint8_t *text, size_t text_len,
    uint32_t *out_nodes, size_t out_nodes_len,
    uint32_t *out_rows, size_t out_rows_len,
    size_t written[2]);

/* The way back: a batch whose offsets are numbers of characters, with the place of each character's first byte in its place, the
   text's length for the number of all. Refused with 1, 16, 17, 2. */
uint32_t noddrefyr_chars_to_bytes(
    const uint32_t *nodes, size_t nodes_len,
    const uint32_t *rows, size_t rows_len,
    const uint8_t *text, size_t text_len,
    uint32_t *out_nodes, size_t out_nodes_len,
    uint32_t *out_rows, size_t out_rows_len,
    size_t written[2]);

/* A batch added to a report, which is six totals: encodings at the top, windows at every level, rows of both; of these rows those
   with attention 0, those with attention not 0 and special mask not 0, and the rest. An empty report is six zeros.
   Refused with 1, 22. */
uint32_t noddrefyr_report_add(
    const uint32_t *nodes, size_t nodes_len,
    const uint32_t *rows, size_t rows_len,
    uint64_t report[6]);

/* The rows with attention 0 over all rows of a report, in lowest terms; 0 of 0 when there are no rows. Never refused. */
uint32_t noddrefyr_report_share(
    const uint64_t report[6],
    uint64_t share[2]);

/* Whether a batch keeps the terminal profile. Rule 1: windows have no windows; 2: both masks are 0 or 1; 3: attention is 0 only
   where the special mask is 1; 4: offset start does not pass offset end; 5: no row lies in two ranges; 6: inside each range, or
   in all rows if the node has no range, the words that are present never fall. The answer is three zeros if all are kept, else
   the first broken rule, the node in the batch and the row in the node, both counted from 0. Rule 1 is looked for in the whole
   batch, then rule 2, and so on, each in the order in which nodes and rows are stored. It is told for rule 1 of the window that
   has windows, with row 0; for rule 5 of the first row in two ranges; for rule 6 of the first row whose word is below the last
   one present before it there. Refused with 1. */
uint32_t noddrefyr_check_profile(
    const uint32_t *nodes, size_t nodes_len,
    const uint32_t *rows, size_t rows_len,
    uint32_t answer[3]);

#ifdef __cplusplus
}
#endif

#endif
