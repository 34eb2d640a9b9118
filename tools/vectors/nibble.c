/* The nibble field (16 elements, x^4 + x + 1) by GF-Complete, with Jerasure as a second opinion on every product, inverse and check
 * symbol. This file does no field arithmetic of its own.
 *
 *   nibble poly    prints `nibble poly k v` for k = 0 .. 6, where v is the power k of 2
 *   nibble table   prints `nibble a negative inverse S P` for each element a
 *   nibble rows    prints `nibble rows a HS HP` for each element a
 *   nibble checks  reads cases (a line `m r L`, then m rows of L numbers), prints the r check rows of each, a line a row
 *
 * S is the sum over all b of (b + 1) * (a + b), and P of (b + 1) * (a * b); the inner operation is the field's, the outer ones
 * are those of whole numbers. HS folds the sums a + b, and HP the products a * b, in the order of b: from 0, each step multiplies by
 * 263, adds the element and takes the remainder by 1000003. GF-Complete's regions hold two elements a byte. Here each byte holds one,
 * in its low half.
 */
#include <gf_complete.h>
#include <jerasure/galois.h>
#include <stdio.h>
#include <stdlib.h>
#include <string.h>

enum { BITS = 4, SIZE = 16, SYMBOLS = 128, POLYNOMIAL = 0x13 };

typedef unsigned char region[SYMBOLS] __attribute__((aligned(64)));

static gf_t field;

static void fail(const char *what) {
    fprintf(stderr, "nibble: %s\n", what);
    exit(1);
}

static int product(int a, int b) {
    int answer = field.multiply.w32(&field, a, b);
    if (answer != galois_single_multiply(a, b, BITS)) fail("the two libraries differ on a product");
    return answer;
}

/* The inverse of 0 is 0 by our convention; the libraries are asked for the others only. */
static int inverse(int a) {
    if (a == 0) return 0;
    int answer = field.inverse.w32(&field, a);
    if (answer != galois_single_divide(1, a, BITS)) fail("the two libraries differ on an inverse");
    return answer;
}

/* Adds `factor` times the row `from` to the row `to`, all by the library. */
static void add_multiple(region to, region from, int factor) {
    field.multiply_region.w32(&field, from, to, factor, SYMBOLS, 1);
}

static int sum(int a, int b) {
    region left = {0}, right = {0};
    left[0] = a;
    right[0] = b;
    add_multiple(left, right, 1);
    return left[0];
}

static void poly(void) {
    for (int k = 0, power = 1; k <= 6; k++) {
        printf("nibble poly %d %d\n", k, power);
        power = product(power, 2);
    }
}

static void table(void) {
    for (int a = 0; a < SIZE; a++) {
        long s = 0, p = 0;
        int negative = -1;
        for (int b = 0; b < SIZE; b++) {
            if (sum(a, b) == 0) negative = b;
            s += (b + 1L) * sum(a, b);
            p += (b + 1L) * product(a, b);
        }
        printf("nibble %d %d %d %ld %ld\n", a, negative, inverse(a), s, p);
    }
}

static void rows(void) {
    for (int a = 0; a < SIZE; a++) {
        long s = 0, p = 0;
        for (int b = 0; b < SIZE; b++) {
            s = (s * 263 + sum(a, b)) % 1000003;
            p = (p * 263 + product(a, b)) % 1000003;
        }
        printf("nibble rows %d %ld %ld\n", a, s, p);
    }
}

static void checks(void) {
    static region row[SIZE];
    int m, r, l, symbol;
    while (scanf("%d %d %d", &m, &r, &l) == 3) {
        if (m < 1 || r < 1 || m + r > SIZE || l < 1 || l > SYMBOLS) fail("counts out of range");
        memset(row, 0, sizeof row);
        for (int j = 0; j < m; j++)
            for (int s = 0; s < l; s++) {
                if (scanf("%d", &symbol) != 1 || symbol < 0 || symbol >= SIZE) fail("bad symbol");
                row[j][s] = symbol;
            }
        for (int i = 0; i < r; i++) {
            region again = {0};
            for (int j = 0; j < m; j++) {
                int factor = inverse(sum(m + i, j));
                add_multiple(row[m + i], row[j], factor);
                for (int s = 0; s < l; s++) again[s] = sum(again[s], product(row[j][s], factor));
            }
            if (memcmp(row[m + i], again, l) != 0) fail("rows and single symbols differ");
            for (int s = 0; s < l; s++) printf("%d%c", row[m + i][s], s + 1 == l ? '\n' : ' ');
        }
    }
}

int main(int count, char **words) {
    if (!gf_init_hard(&field, BITS, GF_MULT_DEFAULT, GF_REGION_DEFAULT, GF_DIVIDE_DEFAULT, POLYNOMIAL, 0, 0, NULL, NULL))
        fail("the field could not be opened");
    if (count == 2 && strcmp(words[1], "poly") == 0) poly();
    else if (count == 2 && strcmp(words[1], "table") == 0) table();
    else if (count == 2 && strcmp(words[1], "rows") == 0) rows();
    else if (count == 2 && strcmp(words[1], "checks") == 0) checks();
    else fail("say poly, table, rows or checks");
    return 0;
}
