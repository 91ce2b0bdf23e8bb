/* C ABI of the feed script page library (document 01), `liblexpage.a`.
 *
 * Calls. Every function writes its reply to the front of `reply`, which has
 * room for 16 words, and returns how many words it wrote; words past them are
 * untouched. reply[0] is 01's number: 0 accepted, otherwise the refusal; the
 * values follow.
 *
 *   accepted   0, then the values named at each function
 *   1          1, length: over 1,048,576 bytes (2^64 - 1 also stands for any longer)
 *   2          2, length of the longest well-formed prefix: not well-formed UTF-8
 *   3          3, code, detail, found, position, line, column, range start, range end:
 *              a lexical failure
 *   4          4, line: a 17th level would open
 *   5          5, buffer, least length: that buffer is shorter
 *   6          6: an edit a..b with a > b or b > n; a token number of k or more; an
 *              offset past n, or before n and not at the start of a scalar
 *   7          7: the header needs more text, line words or token words than are lent;
 *              a token asked for has a kind above 92 or reaches past n
 *
 * code: 1 (E0001), 2 (E0002), 4 (E0004), 101 (E0101).
 * detail, in 01's order: 1 unexpected character, 2 expected '&&', 3 unterminated
 * string literal, 4 Bad Indent, 5 unterminated, 6 empty, 7 \x escape above \x7F,
 * 8 expected hex digit, 9 unknown escape, 10 control character, 11 non-ASCII
 * character, 12 expected closing quote (5 to 12 are of a byte literal).
 * found: the scalar that details 1 and 8 to 12 name; 0 with the others.
 * buffer: 1 text, 2 spare, 3 lines, 4 tokens, 5 out, 6 names. Least lengths are
 * in elements of the buffer: bytes, or 32-bit words of lines and tokens.
 *
 * Parameters. A Rattle parameter `x: &[u8]` / `&mut [u32]` is a pointer and then
 * a length in elements; `reply: &mut [u64; 16]` is one pointer; u32 and usize are
 * numbers. An empty slice still has a non-null, aligned pointer. No two lent
 * slices overlap; the reply and the bytes `w` of an edit overlap none either.
 *
 * Threads. Calls share no state: they may run at the same time on different buffers,
 * and those that only read a buffer on the same one. While a call runs, nothing else
 * may change a buffer that it is lent, also not one that it only reads: a text that
 * changes during lexpage_read may end the program (a trap).
 *
 * Pages. A page is a header n, m, k (bytes, lines, tokens), which the caller keeps,
 * and the buffers text, spare, lines and tokens. A page begins as the fresh one,
 * or as a text with the header and the records of a reading. After an accepted
 * edit the header is the one that the reply gives; after a refused one it is as it
 * was, and so are text, lines and tokens (the spare may hold the edited text).
 * An accepted edit is not atomic: it writes tokens, lines and text in place. Where it is
 * broken off in the middle and the page is in lasting memory, read the text again
 * (lexpage_read) before the page is used. That text may then be a mixture of the old and
 * the new one. Check does not tell: it says whether header and records are those of the
 * text that is there, not whether this is the text before the edit or after it.
 *
 * Records. Positions and columns are in bytes; lines and columns count from 1.
 *   token, 5 words    kind, position, length, line, column. Kinds are 0 to 92 in the
 *                     order of the Rust's `TokenKind`; 90 Indent, 91 Dedent and
 *                     92 Newline have length 0.
 *   line, 21 words    start, number of its first token (from 0), then the state before
 *                     it: depth of brackets, arrow carried 0 or 1, open levels, 16
 *                     widths of them, outermost first, unused ones 0.
 * One more line record stands for the end: start n, the first closing Dedent.
 *
 * Room. A page needs n bytes of text, 21 * (m + 1) line words and 5 * k token words.
 * A text of n bytes that reads has m <= n and k <= 2 * n, so that 21 * (n + 1) line
 * words and 10 * n token words are always enough. Most texts need far fewer:
 * refusal 5 names the least length, and the same call with that much room goes on.
 */
#ifndef LEXPAGE_H
#define LEXPAGE_H
#include <stddef.h>
#include <stdint.h>
#ifdef __cplusplus
extern "C" {
#endif

/* The fresh page: 0, n, m, k (all 0). Writes 21 zero line words. Refuses 5 (lines). */
uint64_t lexpage_fresh(uint32_t *lines, size_t lines_len, uint64_t *reply);

/* A reading of a text by itself: 0, n, m, k. Refuses 1, 2, 3 or 4, 5 (lines), 5 (tokens). */
uint64_t lexpage_read(const uint8_t *text, size_t text_len,
                      uint32_t *lines, size_t lines_len,
                      uint32_t *tokens, size_t tokens_len, uint64_t *reply);

/* An edit of a page, bytes a..b become w: 0, n', m', k', re-read count. Refuses 7, 6, 1,
 * 5 (text), 5 (spare), 2, 3 or 4, 5 (lines), 5 (tokens). Text and spare both hold the
 * edited text afterwards; from 2 on a refusal leaves it in the spare too. */
uint64_t lexpage_edit(uint32_t n, uint32_t m, uint32_t k,
                      uint8_t *text, size_t text_len,
                      uint8_t *spare, size_t spare_len,
                      uint32_t *lines, size_t lines_len,
                      uint32_t *tokens, size_t tokens_len,
                      size_t a, size_t b,
                      const uint8_t *w, size_t w_len, uint64_t *reply);

/* Check: 0, then 1 (faithful: header and records are those of a fresh reading) or 0. Refuses 7. */
uint64_t lexpage_check(uint32_t n, uint32_t m, uint32_t k,
                       const uint8_t *text, size_t text_len,
                       const uint32_t *lines, size_t lines_len,
                       const uint32_t *tokens, size_t tokens_len, uint64_t *reply);

/* Where the text of token i stands: 0, buffer (1 text, 6 names), start, length. (In
 * Rattle the call hands back the part itself, which has no C form.) The names are 18 bytes,
 * "<INDENT><DEDENT>\\n" as a C string. Refuses 7, 6, 7, 5 (names). */
uint64_t lexpage_token_text(uint32_t n, uint32_t m, uint32_t k,
                            const uint8_t *text, size_t text_len,
                            const uint32_t *lines, size_t lines_len,
                            const uint32_t *tokens, size_t tokens_len,
                            size_t i,
                            const uint8_t *names, size_t names_len, uint64_t *reply);

/* One step of a token walk whose next number is `next`:
 * 0, 1, next + 1, kind, position, length, line, column; or 0, 0, next when done.
 * The walk goes by the words lent, not by k: `tokens_len` is 5 * k, also where the buffer is
 * larger, since what stands past the records would be given as tokens. */
uint64_t lexpage_walk_step(const uint32_t *tokens, size_t tokens_len, size_t next,
                           uint64_t *reply);

/* Report: 0, length of the message (0: the text reads), which is at the front of out, without
 * a NUL or an LF at its end. Refuses 1, 2, 4, 5 (out). */
uint64_t lexpage_report(const uint8_t *text, size_t text_len,
                        uint8_t *out, size_t out_len, uint64_t *reply);

/* Panel column of an offset: 0, column. Refuses 1, 2, 6. */
uint64_t lexpage_panel_column(const uint8_t *text, size_t text_len, size_t offset,
                              uint64_t *reply);

/* Byte-literal value: 0, 1, value; or 0, 0 for none. Refuses 1, 2. */
uint64_t lexpage_byte_value(const uint8_t *text, size_t text_len, uint64_t *reply);

/* The number at the front of a text: 0, 1, end, base (10 or 16), digits' end, suffix (0 none,
 * 1 fx, 2 i32, 3 u32, 4 f64); or 0, 0 where the text does not begin with a digit. Both ends
 * are in bytes from the text's start: `0x`, digits, `_` and fraction stand before the digits'
 * end, the suffix from there to the end. Without a suffix the two are equal, as for `0x1f64`,
 * whose hex digits run to its end. What follows the number changes no value. Refuses 1, 2. */
uint64_t lexpage_number_parts(const uint8_t *text, size_t text_len, uint64_t *reply);

#ifdef __cplusplus
}
#endif
#endif
