/* The same task done by FLINT and by PARI, for the benchmark: of an m by n matrix A without moduli, H, the normal multiplier V and its
   inverse W. Both get it from one Hermite form: that of the identity with A below it is V with A·V below it, with the columns that A
   kills first. */
#include <flint/fmpz_mat.h>
#include <pari/pari.h>
#include <stddef.h>
#include <stdint.h>

/* H, V and W from z, which holds that Hermite form row after row: the last columns, which A does not kill, come first. */
static void split(size_t m, size_t n, const int32_t *z, int32_t *h, int32_t *v)
{
    size_t rank = 0;
    for (size_t c = 0; c < n; c++)
        for (size_t i = 0; i < m; i++)
            if (z[(n + i) * n + c] != 0) {
                rank++;
                break;
            }
    for (size_t c = 0; c < n; c++) {
        size_t from = c < rank ? n - rank + c : c - rank;
        for (size_t i = 0; i < m; i++)
            h[i * n + c] = z[(n + i) * n + from];
        for (size_t i = 0; i < n; i++)
            v[i * n + c] = z[i * n + from];
    }
}

/* FLINT's form is by rows, with the pivot leftmost: so the matrix goes in turned about both ways. */
void flint_build(size_t m, size_t n, const int32_t *a, int32_t *h, int32_t *v, int32_t *w)
{
    int32_t z[24 * 16] = {0};
    fmpz_mat_t y, f, p, q;
    fmpz_t den;
    fmpz_mat_init(y, (slong)n, (slong)(m + n));
    fmpz_mat_init(f, (slong)n, (slong)(m + n));
    fmpz_mat_init(p, (slong)n, (slong)n);
    fmpz_mat_init(q, (slong)n, (slong)n);
    fmpz_init(den);
    for (size_t i = 0; i < n; i++)
        for (size_t k = 0; k < m + n; k++) {
            size_t row = m + n - 1 - k, column = n - 1 - i;
            fmpz_set_si(fmpz_mat_entry(y, i, k), row < n ? row == column : a[(row - n) * n + column]);
        }
    fmpz_mat_hnf(f, y);
    for (size_t row = 0; row < m + n; row++)
        for (size_t c = 0; c < n; c++)
            z[row * n + c] = (int32_t)fmpz_get_si(fmpz_mat_entry(f, n - 1 - c, m + n - 1 - row));
    split(m, n, z, h, v);
    for (size_t i = 0; i < n * n; i++)
        fmpz_set_si(fmpz_mat_entry(p, i / n, i % n), v[i]);
    fmpz_mat_inv(q, den, p);
    for (size_t i = 0; i < n * n; i++)
        w[i] = (int32_t)(fmpz_get_si(fmpz_mat_entry(q, i / n, i % n)) * fmpz_get_si(den));
    fmpz_clear(den);
    fmpz_mat_clear(q);
    fmpz_mat_clear(p);
    fmpz_mat_clear(f);
    fmpz_mat_clear(y);
}

void pari_build(size_t m, size_t n, const int32_t *a, int32_t *h, int32_t *v, int32_t *w)
{
    static int begun = 0;
    if (!begun) {
        pari_init(64000000, 0);
        begun = 1;
    }
    pari_sp top = avma;
    int32_t z[24 * 16] = {0};
    GEN y = cgetg((long)n + 1, t_MAT);
    for (size_t c = 0; c < n; c++) {
        GEN column = cgetg((long)(m + n) + 1, t_COL);
        for (size_t row = 0; row < m + n; row++)
            gel(column, row + 1) = stoi(row < n ? row == c : a[(row - n) * n + c]);
        gel(y, c + 1) = column;
    }
    GEN f = ZM_hnf(y);
    for (size_t row = 0; row < m + n; row++)
        for (size_t c = 0; c < n; c++)
            z[row * n + c] = (int32_t)itos(gcoeff(f, row + 1, c + 1));
    split(m, n, z, h, v);
    GEN p = cgetg((long)n + 1, t_MAT);
    for (size_t c = 0; c < n; c++) {
        GEN column = cgetg((long)n + 1, t_COL);
        for (size_t i = 0; i < n; i++)
            gel(column, i + 1) = stoi(v[i * n + c]);
        gel(p, c + 1) = column;
    }
    GEN q = ZM_inv(p, NULL);
    for (size_t i = 0; i < n * n; i++)
        w[i] = (int32_t)itos(gcoeff(q, i / n + 1, i % n + 1));
    avma = top;
}
