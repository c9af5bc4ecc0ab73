// The same eliminations in plain C: rows in arrays, equal coefficients found by a look through the rows.
#include <stdio.h>
#include <stdlib.h>
#include <string.h>
#include <time.h>

typedef __int128 num;
#define MOST_VARS 64
#define MOST_ROWS 2048

typedef struct { num coefs[MOST_VARS]; num constant; } row;
typedef struct { int vars, count; row *rows; } rows;

static int most;

static num size_of(num x) { return x < 0 ? -x : x; }
static num gcd(num a, num b) { while (b) { num r = a % b; a = b; b = r; } return a; }

static void add(rows *to, row *r) {
    int idle = r->constant >= 0;
    num g = size_of(r->constant);
    for (int i = 0; i < to->vars; i++) { if (r->coefs[i]) idle = 0; if (g != 1) g = gcd(g, size_of(r->coefs[i])); }
    if (idle) return;
    if (g > 1) { for (int i = 0; i < to->vars; i++) r->coefs[i] /= g; r->constant /= g; }
    for (int k = 0; k < to->count; k++)
        if (!memcmp(to->rows[k].coefs, r->coefs, sizeof(num) * to->vars)) {
            if (r->constant < to->rows[k].constant) to->rows[k].constant = r->constant;
            return;
        }
    to->rows[to->count++] = *r;
}

static int combine(num a, num x, num b, num y, num *out) {
    num p, q;
    return __builtin_mul_overflow(a, x, &p) || __builtin_mul_overflow(b, y, &q) || __builtin_add_overflow(p, q, out);
}

// 0, or 1 where a number is too wide, or 2 where there are too many rows
static int step(const rows *from, int k, rows *to) {
    int up = 0, down = 0, flat = 0;
    for (int i = 0; i < from->count; i++) { num c = from->rows[i].coefs[k]; if (c > 0) up++; else if (c < 0) down++; else flat++; }
    if (flat + up * down > MOST_ROWS) return 2;
    to->vars = from->vars;
    to->count = 0;
    for (int i = 0; i < from->count; i++) if (!from->rows[i].coefs[k]) { row r = from->rows[i]; add(to, &r); }
    for (int i = 0; i < from->count; i++) {
        const row *p = &from->rows[i];
        if (p->coefs[k] <= 0) continue;
        for (int j = 0; j < from->count; j++) {
            const row *n = &from->rows[j];
            if (n->coefs[k] >= 0) continue;
            num g = gcd(p->coefs[k], -n->coefs[k]), a = -n->coefs[k] / g, b = p->coefs[k] / g;
            row r;
            for (int v = 0; v < from->vars; v++) if (combine(a, p->coefs[v], b, n->coefs[v], &r.coefs[v])) return 1;
            if (combine(a, p->constant, b, n->constant, &r.constant)) return 1;
            add(to, &r);
        }
    }
    if (to->count > most) most = to->count;
    return 0;
}

static const char *is_empty(const rows *s) {
    static row one[MOST_ROWS], two[MOST_ROWS];
    rows a = { s->vars, 0, one }, b = { s->vars, 0, two };
    for (int i = 0; i < s->count; i++) { row r = s->rows[i]; add(&a, &r); }
    for (int k = s->vars - 1; k >= 0; k--) {
        if (step(&a, k, &b)) return "refused";
        rows t = a; a = b; b = t;
    }
    for (int i = 0; i < a.count; i++) if (a.rows[i].constant < 0) return "empty";
    return "some point";
}

static void put(rows *s, int parts, const int *at, const num *coef, num constant) {
    row r;
    memset(&r, 0, sizeof r);
    for (int i = 0; i < parts; i++) r.coefs[at[i]] = coef[i];
    r.constant = constant;
    s->rows[s->count++] = r;
}
#define PUT(s, k, ...) do { struct { int at; num coef; } w[] = { __VA_ARGS__ }; int n_ = sizeof w / sizeof *w; int at_[3]; num c_[3]; \
    for (int i_ = 0; i_ < n_; i_++) { at_[i_] = w[i_].at; c_[i_] = w[i_].coef; } put(s, n_, at_, c_, k); } while (0)

static void chain(rows *s) {
    int n = s->vars;
    PUT(s, 0, {0, 1});
    for (int i = 1; i < n; i++) { PUT(s, 0, {i, 1}, {i - 1, -1}); PUT(s, 3, {i, -1}, {i - 1, 1}); }
    PUT(s, 100, {n - 1, -1});
}

static void nest(rows *s) {
    int n = s->vars, h = n / 2;
    for (int i = 0; i < h; i++) {
        PUT(s, 0, {i, 1}); PUT(s, 992, {i, -1});
        PUT(s, 0, {h + i, 1}, {i, -1}); PUT(s, 31, {h + i, -1}, {i, 1}); PUT(s, 999, {h + i, -1});
    }
}

static void sparse(rows *s) {
    int n = s->vars;
    unsigned long long seed = 12345;
    for (int i = 0; i < n; i++) { PUT(s, 0, {i, 1}); PUT(s, 50, {i, -1}); }
    for (int i = 0; i < n; i++) {
        seed = (seed * 1103515245 + 12345) % 2147483648ULL; num a = (num)(seed / 65536 % 5) - 2;
        seed = (seed * 1103515245 + 12345) % 2147483648ULL; num b = (num)(seed / 65536 % 5) - 2;
        PUT(s, 7, {i, a}, {(i + 1) % n, b}, {(i + 3) % n, 1});
    }
}

static double now(void) { struct timespec t; clock_gettime(CLOCK_MONOTONIC, &t); return t.tv_sec * 1e9 + t.tv_nsec; }

int main(void) {
    static row space[MOST_ROWS];
    const char *names[] = { "chain", "nest", "sparse" };
    void (*make[])(rows *) = { chain, nest, sparse };
    for (int vars = 4; vars <= 20; vars += 4)
        for (int kind = 0; kind < 3; kind++) {
            rows s = { vars, 0, space };
            make[kind](&s);
            most = s.count;
            const char *answer = "";
            double start = now();
            long turns = 0;
            while (now() - start < 3e8 && turns < 100000) { answer = is_empty(&s); turns++; }
            printf("%s %d: %.0f ns, %d rows at most, %s\n", names[kind], vars, (now() - start) / turns, most, answer);
        }
    return 0;
}
