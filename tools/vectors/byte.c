/* The byte field (256 elements) by Intel's ISA-L. This file does no field arithmetic of its own: sums, products, inverses, the
 * Cauchy matrix and the check rows all come from the library.
 *
 *   byte poly    prints `byte poly k v` for k = 0 .. 14, where v is the power k of 2
 *   byte table   prints `byte a negative inverse S P` for each element a
 *   byte rows    prints `byte rows a HS HP` for each element a
 *   byte checks  reads cases (a line `m r L`, then m rows of L numbers), prints the r check rows of each, a line a row
 *
 * S is the sum over all b of (b + 1) * (a + b), and P of (b + 1) * (a * b); the inner operation is the field's, the outer ones
 * are those of whole numbers. HS folds the sums a + b, and HP the products a * b, in the order of b: from 0, each step multiplies by
 * 263, adds the element and takes the remainder by 1000003.
 */
#include <isa-l/erasure_code.h>
#include <stdio.h>
#include <stdlib.h>
#include <string.h>

enum { SIZE = 256, ROWS = 64, SYMBOLS = 128 };

static void fail(const char *what) {
    fprintf(stderr, "byte: %s\n", what);
    exit(1);
}

/* Sums of a and every b: the library encodes the two rows (a, a, ..) and (0, 1, ..) with both coefficients 1. */
static void sums(int a, unsigned char *out) {
    static unsigned char first[SIZE], second[SIZE], tables[2 * 32];
    unsigned char ones[2] = {1, 1}, *from[2] = {first, second}, *to[1] = {out};
    memset(first, a, SIZE);
    for (int b = 0; b < SIZE; b++) second[b] = b;
    ec_init_tables(2, 1, ones, tables);
    ec_encode_data(SIZE, 2, 1, tables, from, to);
}

static void poly(void) {
    unsigned char power = 1;
    for (int k = 0; k <= 14; k++) {
        printf("byte poly %d %d\n", k, power);
        power = gf_mul(power, 2);
    }
}

static void table(void) {
    static unsigned char sum[SIZE];
    for (int a = 0; a < SIZE; a++) {
        long s = 0, p = 0;
        int negative = -1;
        sums(a, sum);
        for (int b = 0; b < SIZE; b++) {
            if (sum[b] == 0) negative = b;
            s += (b + 1L) * sum[b];
            p += (b + 1L) * gf_mul(a, b);
        }
        printf("byte %d %d %d %ld %ld\n", a, negative, a == 0 ? 0 : gf_inv(a), s, p);
    }
}

static void rows(void) {
    static unsigned char sum[SIZE];
    for (int a = 0; a < SIZE; a++) {
        long s = 0, p = 0;
        sums(a, sum);
        for (int b = 0; b < SIZE; b++) {
            s = (s * 263 + sum[b]) % 1000003;
            p = (p * 263 + gf_mul(a, b)) % 1000003;
        }
        printf("byte rows %d %ld %ld\n", a, s, p);
    }
}

static void checks(void) {
    static unsigned char row[2 * ROWS][SYMBOLS], plain[ROWS][SYMBOLS];
    static unsigned char matrix[2 * ROWS * ROWS], tables[32 * ROWS * ROWS];
    unsigned char *from[ROWS], *to[ROWS], *again[ROWS];
    int m, r, l, symbol;
    while (scanf("%d %d %d", &m, &r, &l) == 3) {
        if (m < 1 || m > ROWS || r < 1 || r > ROWS || l < 1 || l > SYMBOLS) fail("counts out of range");
        for (int j = 0; j < m; j++)
            for (int s = 0; s < l; s++) {
                if (scanf("%d", &symbol) != 1 || symbol < 0 || symbol >= SIZE) fail("bad symbol");
                row[j][s] = symbol;
            }
        for (int j = 0; j < m; j++) from[j] = row[j];
        for (int i = 0; i < r; i++) to[i] = row[m + i], again[i] = plain[i];
        /* Row m + i, column j of this matrix is the inverse of (m + i) - j in the field. */
        gf_gen_cauchy1_matrix(matrix, m + r, m);
        ec_init_tables(m, r, matrix + m * m, tables);
        ec_encode_data(l, m, r, tables, from, to);
        /* The library's plain routine has to agree with the one it chose for this processor. */
        ec_encode_data_base(l, m, r, tables, from, again);
        for (int i = 0; i < r; i++) {
            if (memcmp(to[i], again[i], l) != 0) fail("the library's two encoders differ");
            for (int s = 0; s < l; s++) printf("%d%c", to[i][s], s + 1 == l ? '\n' : ' ');
        }
    }
}

int main(int count, char **words) {
    if (count == 2 && strcmp(words[1], "poly") == 0) poly();
    else if (count == 2 && strcmp(words[1], "table") == 0) table();
    else if (count == 2 && strcmp(words[1], "rows") == 0) rows();
    else if (count == 2 && strcmp(words[1], "checks") == 0) checks();
    else fail("say poly, table, rows or checks");
    return 0;
}
