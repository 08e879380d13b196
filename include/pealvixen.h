/* Pealvixen: truncated power series solutions of linear differential systems modulo a prime.
 *
 * Link with libpealvixen.a, which `rust/archive` writes into target/staticlib/.
 *
 * A job has an order r from 1 to 8, a number of terms N from 1 to 4096, and a modulus p, a prime from 2 to 2147483647
 * with N at most p. Its five buffers are lent by the caller; each is handed over as a pointer and a length. The
 * length counts words in a call on words, and bytes in a call on bytes (four to a word, low byte first, r*r*N at most
 * 1024). Words are residues from 0 to p-1; the N coefficients of an entry stand together, lowest power first, entries
 * row by row.
 *
 *   job        1                    2           3            4            5
 *   system     A, r*r*N             b, r*N      v, r         y, r*N       work room, 16*r*r*N
 *   basis      A, r*r*N             Y0, r*r     Y, r*r*N     Z, r*r*N     work room, 16*r*r*N
 *   equation   a_0..a_r, (r+1)*N    b, N        start, r     y, N         work room, 16*r*r*N
 *
 * Buffers that are written are not const below. No two buffers of a call may overlap where one of them is written. A
 * length may be 0, with any pointer that is not null. Nothing is allocated and nothing is kept from call to call.
 *
 * The answer is 0 for done, and else number + 2^8 * first place + 2^32 * second place:
 *
 *    1  r is outside 1..8
 *    2  N is outside 1..4096
 *    3  p is below 2, above 2147483647, or not a prime
 *    4  N is greater than p
 *    5  a buffer's length is not exactly as above       first place: the lowest such buffer
 *    6  a word of a read buffer is p or more            places: the lowest such buffer, the first such index from 0
 *    7  basis: Y0 has no inverse modulo p
 *    8  equation: a_r at t = 0 is 0
 *    9  sheet: a line breaks the form                   first place: the first such line, from 1
 *   10  sheet over 65536 bytes, or sheet or byte job with r*r*N over 1024
 *
 * The first of 1, 2, 3, 4, (on bytes 10,) 5, 6, 7, 8 that holds is given. After a refusal every cell of every buffer is
 * what it was; after "done" the work room holds zeros.
 */
#ifndef PEALVIXEN_H
#define PEALVIXEN_H

#include <stddef.h>
#include <stdint.h>

#ifdef __cplusplus
extern "C" {
#endif

/* The parts of an answer. */
#define PEALVIXEN_NUMBER(answer) ((answer) & UINT64_C(0xff))
#define PEALVIXEN_FIRST(answer) ((answer) >> 8 & UINT64_C(0xffffff))
#define PEALVIXEN_SECOND(answer) ((answer) >> 32)

/* Jobs on words. A system y' = Ay + b, y(0) = v; a basis Y' = AY, Y(0) = Y0 with its inverse Z; an equation
 * a_r y^(r) + .. + a_1 y' + a_0 y = b, where start_i is the derivative y^(i)(0). Both methods give the same words. */

uint64_t pealvixen_system_halving(
    uint64_t r, uint64_t n, uint64_t p,
    const uint32_t *a, size_t a_length,
    const uint32_t *b, size_t b_length,
    const uint32_t *v, size_t v_length,
    uint32_t *y, size_t y_length,
    uint32_t *work, size_t work_length);

uint64_t pealvixen_system_newton(
    uint64_t r, uint64_t n, uint64_t p,
    const uint32_t *a, size_t a_length,
    const uint32_t *b, size_t b_length,
    const uint32_t *v, size_t v_length,
    uint32_t *y, size_t y_length,
    uint32_t *work, size_t work_length);

uint64_t pealvixen_basis(
    uint64_t r, uint64_t n, uint64_t p,
    const uint32_t *a, size_t a_length,
    const uint32_t *y0, size_t y0_length,
    uint32_t *y, size_t y_length,
    uint32_t *z, size_t z_length,
    uint32_t *work, size_t work_length);

uint64_t pealvixen_equation_halving(
    uint64_t r, uint64_t n, uint64_t p,
    const uint32_t *a, size_t a_length,
    const uint32_t *b, size_t b_length,
    const uint32_t *start, size_t start_length,
    uint32_t *y, size_t y_length,
    uint32_t *work, size_t work_length);

uint64_t pealvixen_equation_newton(
    uint64_t r, uint64_t n, uint64_t p,
    const uint32_t *a, size_t a_length,
    const uint32_t *b, size_t b_length,
    const uint32_t *start, size_t start_length,
    uint32_t *y, size_t y_length,
    uint32_t *work, size_t work_length);

/* The same jobs on bytes. */

uint64_t pealvixen_system_halving_bytes(
    uint64_t r, uint64_t n, uint64_t p,
    const uint8_t *a, size_t a_length,
    const uint8_t *b, size_t b_length,
    const uint8_t *v, size_t v_length,
    uint8_t *y, size_t y_length,
    uint8_t *work, size_t work_length);

uint64_t pealvixen_system_newton_bytes(
    uint64_t r, uint64_t n, uint64_t p,
    const uint8_t *a, size_t a_length,
    const uint8_t *b, size_t b_length,
    const uint8_t *v, size_t v_length,
    uint8_t *y, size_t y_length,
    uint8_t *work, size_t work_length);

uint64_t pealvixen_basis_bytes(
    uint64_t r, uint64_t n, uint64_t p,
    const uint8_t *a, size_t a_length,
    const uint8_t *y0, size_t y0_length,
    uint8_t *y, size_t y_length,
    uint8_t *z, size_t z_length,
    uint8_t *work, size_t work_length);

uint64_t pealvixen_equation_halving_bytes(
    uint64_t r, uint64_t n, uint64_t p,
    const uint8_t *a, size_t a_length,
    const uint8_t *b, size_t b_length,
    const uint8_t *start, size_t start_length,
    uint8_t *y, size_t y_length,
    uint8_t *work, size_t work_length);

uint64_t pealvixen_equation_newton_bytes(
    uint64_t r, uint64_t n, uint64_t p,
    const uint8_t *a, size_t a_length,
    const uint8_t *b, size_t b_length,
    const uint8_t *start, size_t start_length,
    uint8_t *y, size_t y_length,
    uint8_t *work, size_t work_length);

/* Sheets. A sheet is lines ended by a line feed, with fields parted by one tab. A reader takes the text as it stands
 * and fills rooms of exactly 2048 words each, from their first word: a job's read buffers in the order of their numbers
 * (a basis leaves room 3 as it was), a result's y into room 1, or Y and Z into rooms 1 and 2. The order of its
 * refusals is: 5 for the rooms, 10 for the bytes, 9 for line 1, then 1, 2, 3, 4, 10 for r*r*N, and 9 for the
 * remaining lines. */

#define PEALVIXEN_ROOM 2048
#define PEALVIXEN_TEXT 65536

/* What a reader found; kind, r, n and p are 0 on a refusal. */
struct pealvixen_sheet {
    uint64_t answer;
    uint64_t kind; /* 1 system, 2 basis, 3 equation */
    uint64_t r;
    uint64_t n;
    uint64_t p;
};

struct pealvixen_sheet pealvixen_read_job(
    const uint8_t *text, size_t text_length,
    uint32_t *room_1, size_t room_1_length,
    uint32_t *room_2, size_t room_2_length,
    uint32_t *room_3, size_t room_3_length);

struct pealvixen_sheet pealvixen_read_result(
    const uint8_t *text, size_t text_length,
    uint32_t *room_1, size_t room_1_length,
    uint32_t *room_2, size_t room_2_length);

/* A writer takes words at their exact lengths (y: r*N for a system, N for an equation; Y and Z: r*r*N each) and, as its
 * last buffer, exactly 65536 bytes for text. The order of its refusals is: 1, 2, 3, 4, 10 for r*r*N, 5, 6. */

/* How many bytes of text were written; 0 on a refusal. */
struct pealvixen_text {
    uint64_t answer;
    uint64_t length;
};

struct pealvixen_text pealvixen_write_system(
    uint64_t r, uint64_t n, uint64_t p,
    const uint32_t *y, size_t y_length,
    uint8_t *text, size_t text_length);

struct pealvixen_text pealvixen_write_equation(
    uint64_t r, uint64_t n, uint64_t p,
    const uint32_t *y, size_t y_length,
    uint8_t *text, size_t text_length);

struct pealvixen_text pealvixen_write_basis(
    uint64_t r, uint64_t n, uint64_t p,
    const uint32_t *y, size_t y_length,
    const uint32_t *z, size_t z_length,
    uint8_t *text, size_t text_length);

#ifdef __cplusplus
}
#endif

#endif
