/* A stand-in for libtrace.a that tests the referee itself. The environment
   variable TRACE_FAULT plants one fault; 0 or none plants none. The faults are
   listed in selftest.sh. */
#include <stddef.h>
#include <stdint.h>
#include <stdlib.h>
#include <string.h>

static int FAULT;

__attribute__((constructor)) static void plant(void) {
    const char *number = getenv("TRACE_FAULT");
    FAULT = number ? atoi(number) : 0;
}

static uint64_t refuse(uint64_t number, uint64_t detail) { return (number << 32) + detail; }

typedef struct { const uint8_t *t; size_t m; } tab;
static uint8_t kind(tab t, size_t k) { return t.t[4 * k]; }
static size_t fa(tab t, size_t k) { return t.t[4 * k + 1]; }
static size_t fb(tab t, size_t k) { return t.t[4 * k + 2]; }
static uint8_t tag(tab t, size_t k) { return t.t[4 * k + 3]; }
static int letter(tab t, size_t k) { return kind(t, k) == 2 || kind(t, k) == 6; }

static int holds(tab t, size_t k, uint8_t c) {
    size_t a = fa(t, k), b = fb(t, k);
    if (kind(t, k) == 2) return a <= c && c <= b;
    switch (FAULT) {
    case 22: return c <= a || c >= b;
    case 23: return c < a;
    case 24: return c > b;
    case 25: return a != b && (c < a || c > b);
    case 26: return (a == 0 && b == 255) || c < a || c > b;
    default: return c < a || c > b;
    }
}

uint64_t trace_check(const uint8_t *table, size_t len) {
    uint8_t named[256] = {0};
    if (len == 0 || len > 1020 || len % 4) return refuse(1, 0);
    size_t m = len / 4;
    tab t = {table, m};
    if (FAULT == 9) return m;
    if (FAULT == 10) return refuse(6, 0);
    for (size_t k = 0; k < m; k++) {
        uint8_t d = kind(t, k);
        size_t a = fa(t, k), b = fb(t, k);
        if (d > (FAULT == 27 ? 5 : FAULT == 28 ? 7 : 6)) return refuse(2, k);
        if ((d < 2 && (a || b)) || (d == 5 && b)) return refuse(3, k);
        if (letter(t, k) && a > b && !(FAULT == 29 && d == 6)) return refuse(4, k);
        if (FAULT == 30 && d == 6 && a == 0 && b == 255) return refuse(4, k);
        int two = d == 3 || d == 4, any = two || d == 5 || (FAULT == 31 && d == 6);
        if ((any && a >= k) || (two && b >= k)) return refuse(5, k);
        if (two && a == b) return refuse(6, k);
        if ((any && named[a]) || (two && named[b])) return refuse(6, k);
        if (any) named[a] = 1;
        if (two) named[b] = 1;
    }
    return m;
}

static uint64_t open_table(const uint8_t *table, size_t len, uint64_t start) {
    uint64_t c = trace_check(table, len);
    if (c >> 32) return c;
    if (FAULT == 17) start = (uint32_t)start;
    return start < c ? c : refuse(9, 0);
}

/* The table of parts: is line[i..j] in L(k)? */
typedef struct { tab t; const uint8_t *s; size_t n; uint8_t *w; uint8_t *out; size_t at; } rd;

static uint8_t *part(rd *r, size_t k, size_t i, size_t j) {
    size_t tri = (r->n + 1) * (r->n + 2) / 2;
    return &r->w[k * tri + (j * (j + 1)) / 2 + i];
}

static void fill(rd *r) {
    for (size_t k = 0; k < r->t.m; k++)
        for (size_t d = 0; d <= r->n; d++)
            for (size_t i = 0; i + d <= r->n; i++) {
                size_t j = i + d, a = fa(r->t, k), b = fb(r->t, k);
                int y = 0;
                switch (kind(r->t, k)) {
                case 1: y = d == 0; break;
                case 2: case 6: y = d == 1 && holds(r->t, k, r->s[i]); break;
                case 3: y = *part(r, a, i, j) || *part(r, b, i, j); break;
                case 4: for (size_t p = i; p <= j && !y; p++) y = *part(r, a, i, p) && *part(r, b, p, j); break;
                case 5: y = d == 0; for (size_t p = i + 1; p <= j && !y; p++) y = *part(r, a, i, p) && *part(r, k, p, j); break;
                }
                *part(r, k, i, j) = (uint8_t)y;
            }
}

/* One record of a reading: kind, argument, length, record number. */
static void put4(rd *r, uint8_t d, uint8_t x, size_t n, size_t k) {
    if (FAULT == 133 && n == 255) n = 0;
    if (r->out) {
        uint8_t *to = r->out + r->at;
        to[0] = d;
        to[1] = x;
        to[2] = (uint8_t)n;
        to[3] = (uint8_t)k;
    }
    r->at += 4;
}

static size_t cut(rd *r, size_t a, size_t k, size_t i, size_t j, size_t lo, int shortest) {
    if (shortest) { for (size_t p = lo; p <= j; p++) if (*part(r, a, i, p) && *part(r, k, p, j)) return p; }
    for (size_t p = j + 1; p-- > lo;) if (*part(r, a, i, p) && *part(r, k, p, j)) return p;
    return lo;
}

static void put(rd *r, size_t k, size_t i, size_t j) {
    size_t a = fa(r->t, k), b = fb(r->t, k), n = FAULT == 130 ? r->n - i : FAULT == 131 ? j : j - i;
    switch (kind(r->t, k)) {
    case 1: put4(r, 0, 0, n, k); break;
    case 2: case 6: put4(r, FAULT == 32 && kind(r->t, k) == 6 ? 6 : 1, r->s[i], n, k); break;
    case 3:
        if (FAULT == 11 ? !*part(r, b, i, j) : *part(r, a, i, j)) { put4(r, 2, 0, n, FAULT == 132 ? a : k); put(r, a, i, j); }
        else { put4(r, 3, 0, n, FAULT == 132 ? b : k); put(r, b, i, j); }
        break;
    case 4: {
        size_t p = cut(r, a, b, i, j, i, FAULT == 1);
        put4(r, 4, 0, FAULT == 117 ? p - i : n, k); put(r, a, i, p); put(r, b, p, j);
        break;
    }
    case 5: {
        size_t at = r->at, count = 0;
        put4(r, 5, 0, n, k);
        while (i < j) {
            size_t p = cut(r, a, k, i, j, i + 1, FAULT == 1 || (FAULT == 2 && count));
            put(r, a, i, p);
            i = p;
            count++;
        }
        if (r->out) r->out[at + 1] = (uint8_t)count;
        if (r->out && FAULT == 118) r->out[at + 2] = (uint8_t)count;
    }
    }
}

uint64_t trace_read(const uint8_t *table, size_t table_len, uint64_t start, const uint8_t *line,
                    size_t line_len, uint8_t *work, size_t work_len, uint8_t *out, size_t out_len) {
    uint64_t c = open_table(table, table_len, start);
    if (c >> 32) return c;
    if (line_len > 255) return refuse(7, 0);
    if (FAULT == 15 && work_len) work[0] = 0;
    if (work_len < c * (line_len + 1) * (line_len + 2) / 2) return refuse(10, 0);
    rd r = {{table, c}, line, line_len, work, NULL, 0};
    fill(&r);
    if (!*part(&r, (uint32_t)start, 0, line_len) || (FAULT == 3 && line_len > 20)) return refuse(8, 0);
    put(&r, (uint32_t)start, 0, line_len);
    if (out_len < r.at || (FAULT == 4 && out_len == r.at)) return refuse(11, FAULT == 18 ? r.at / 4 : FAULT == 134 ? r.at / 2 : r.at);
    r.out = out;
    r.at = 0;
    put(&r, (uint32_t)start, 0, line_len);
    if (FAULT == 14) out[r.at] = 0;
    return r.at / 4 + (FAULT == 5);
}

/* Faults 127 and 164 to 166: the lengths and record numbers of the reading that is looked at are not. */
static int lax;

/* Whether a written length is taken where the element spells n bytes and its first part first; count is the argument. */
static int length_taken(uint8_t written, uint64_t n, uint64_t first, int d, uint8_t count, int root) {
    if (lax) return 1;
    switch (FAULT) {
    case 119: if (n == written + 1u) return 1; break;
    case 120: if (n + 1 == written) return 1; break;
    case 121: case 126: return (uint8_t)n == written;
    case 122: if (d == 4 && written == first) return 1; break;
    case 123: if (d == 5 && written == count) return 1; break;
    case 124: if (!root) return 1; break;
    case 125: return written == (n > 255 ? 255 : n);
    case 135: return ((written ^ n) & 127) == 0 && n < 256;
    case 136: if (written == 0) return 1; break;
    case 137: if (written == 255) return 1; break;
    case 138: return written <= n && n < 256;
    case 139: return written >= n;
    case 140: case 141: case 142: case 143: case 144: case 145: if (d == FAULT - 140) return 1; break;
    }
    return written == n;
}

/* Whether a written record number is taken at record k. */
static int number_taken(uint8_t written, size_t k, tab t, int d, int root) {
    if (lax) return 1;
    switch (FAULT) {
    case 128: return 1;
    case 129: if (!root) return 1; break;
    case 146: case 147: case 148: case 149: case 150: case 151: if (d == FAULT - 146) return 1; break;
    case 152: return ((written ^ k) & 127) == 0;
    case 153: if (written == 0) return 1; break;
    case 154: if (written == t.m) return 1; break;
    case 155: if ((d == 2 || d == 3 || d == 4) && (written == fa(t, k) || written == fb(t, k))) return 1; break;
    case 156: return written <= k;
    case 157: return written >= k;
    case 158: return written < t.m && kind(t, written) == kind(t, k);
    }
    return written == k;
}

/* Fitting: the place after the element, or SIZE_MAX; n is moved on by what it spells. */
static size_t element(tab t, size_t k, const uint8_t *v, size_t len, size_t at, uint64_t *n) {
    if (FAULT == 20) {
        volatile uint8_t *big = __builtin_alloca(8192);
        big[0] = big[8191] = 0;
    }
    if (FAULT == 16 && v[at] == 9) return SIZE_MAX;
    if (FAULT == 159 && v[at + 3] == 9) return SIZE_MAX;
    if (len - at < (FAULT == 160 ? 3 : 4)) return SIZE_MAX;
    uint8_t d = v[at], x = v[at + 1], written = v[at + 2], number = len - at < 4 ? (uint8_t)k : v[at + 3];
    int root = at == 0;
    if (FAULT == 163 && !root && number < t.m) k = number;
    size_t a = fa(t, k), b = fb(t, k);
    uint64_t had = *n, first = 0;
    if (!number_taken(number, k, t, d, root)) return SIZE_MAX;
    at += len - at < 4 ? 3 : 4;
    switch (kind(t, k)) {
    case 1:
        if (d || x) return SIZE_MAX;
        break;
    case 2: case 6:
        if (d != 1 || (!holds(t, k, x) && !(FAULT == 33 && kind(t, k) == 6))) return SIZE_MAX;
        *n += FAULT == 162 ? written : 1;
        break;
    case 3:
        if (x || (d != 2 && d != 3)) return SIZE_MAX;
        at = element(t, d == 2 ? a : b, v, len, at, n);
        break;
    case 4:
        if (x || d != 4) return SIZE_MAX;
        at = element(t, a, v, len, at, n);
        first = *n - had;
        if (at != SIZE_MAX) at = element(t, b, v, len, at, n);
        break;
    case 5:
        if (d != 5) return SIZE_MAX;
        for (int i = 0; i < x && at != SIZE_MAX; i++) {
            uint64_t before = *n;
            at = element(t, a, v, len, at, n);
            if (*n == before && FAULT != 12) return SIZE_MAX;
        }
        break;
    default: return SIZE_MAX;
    }
    return at != SIZE_MAX && length_taken(written, *n - had, first, d, x, root) ? at : SIZE_MAX;
}

static uint64_t fits(tab t, size_t k, const uint8_t *v, size_t len, uint64_t which, uint64_t *n) {
    *n = 0;
    if (FAULT == 161 && which == 1) which = 0;
    size_t at = element(t, k, v, len, 0, n);
    lax = 0;
    if (FAULT == 126 && at == len && *n > 255) return refuse(13, which);
    return at == len ? 0 : refuse(12, which);
}

uint64_t trace_spell(const uint8_t *table, size_t table_len, uint64_t start, const uint8_t *reading,
                     size_t reading_len, uint8_t *out, size_t out_len) {
    uint64_t n, e, c = open_table(table, table_len, start);
    if (c >> 32) return c;
    tab t = {table, c};
    lax = FAULT == 164;
    if ((e = fits(t, (uint32_t)start, reading, reading_len, 0, &n)) || FAULT == 8) return refuse(12, 0);
    if (out_len < n) return refuse(11, n);
    for (size_t i = 0, at = 0; i + 4 <= reading_len; i += 4) if (reading[i] == 1) out[at++] = reading[i + 1];
    return n;
}

/* Fault 38: the walk is inside an empty tagged part. */
static int inside_empty;

static int left_out(uint64_t n, int counting) {
    switch (FAULT) {
    case 35: return 0;
    case 36: return n < 2;
    case 38: return n == 0 && !inside_empty;
    case 39: return n == 0 && !counting;
    default: return n == 0;
    }
}

static size_t inside(tab t, size_t k, const uint8_t *v, size_t len, size_t at, uint64_t *off, uint8_t *out, size_t *cnt);

static size_t tokens(tab t, size_t k, const uint8_t *v, size_t len, size_t at, uint64_t *off, uint8_t *out, size_t *cnt) {
    if (tag(t, k)) {
        uint64_t n = 0;
        size_t after = element(t, k, v, len, at, &n);
        if (!left_out(n, !out)) {
            if (out) { out[*cnt] = tag(t, k); out[*cnt + 1] = (uint8_t)*off; out[*cnt + 2] = (uint8_t)n; }
            *cnt += 3;
        } else if (FAULT == 38) {
            inside_empty = 1;
            inside(t, k, v, len, at, off, out, cnt);
            inside_empty = 0;
        }
        if (FAULT == 37 && n == 0) ++*off;
        if (FAULT != 21) { *off += n; return after; }
    }
    return inside(t, k, v, len, at, off, out, cnt);
}

static size_t inside(tab t, size_t k, const uint8_t *v, size_t len, size_t at, uint64_t *off, uint8_t *out, size_t *cnt) {
    size_t a = fa(t, k), b = fb(t, k);
    uint8_t d = v[at], x = v[at + 1];
    at += 4;
    switch (kind(t, k)) {
    case 6: if (FAULT == 34) break; /* fall through */
    case 2: ++*off; break;
    case 3: return tokens(t, d == 2 ? a : b, v, len, at, off, out, cnt);
    case 4: at = tokens(t, a, v, len, at, off, out, cnt); return tokens(t, b, v, len, at, off, out, cnt);
    case 5: while (x--) at = tokens(t, a, v, len, at, off, out, cnt); break;
    }
    return at;
}

uint64_t trace_tokens(const uint8_t *table, size_t table_len, uint64_t start, const uint8_t *reading,
                      size_t reading_len, uint8_t *out, size_t out_len) {
    uint64_t n, e, off = 0, c = open_table(table, table_len, start);
    size_t need = 0;
    if (c >> 32) return c;
    tab t = {table, c};
    lax = FAULT == 165;
    if ((e = fits(t, (uint32_t)start, reading, reading_len, 0, &n))) return e;
    tokens(t, (uint32_t)start, reading, reading_len, 0, &off, NULL, &need);
    if (FAULT == 7) return 0;
    if (out_len < need) return refuse(11, need);
    off = 0;
    need = 0;
    tokens(t, (uint32_t)start, reading, reading_len, 0, &off, out, &need);
    return need / 3;
}

/* The first difference of two walks, parent first, decides. */
static int rank(tab t, size_t k, const uint8_t *v, const uint8_t *w, size_t *x, size_t *y) {
    size_t a = fa(t, k), b = fb(t, k);
    uint8_t dv = v[*x], dw = w[*y], cv = v[*x + 1], cw = w[*y + 1], n = v[*x + 2], o = w[*y + 2];
    *x += 4;
    *y += 4;
    int g;
    if (n != o) return n > o ? 1 : 2;
    switch (kind(t, k)) {
    case 3:
        if (dv != dw) return dv == 2 ? 1 : 2;
        return rank(t, dv == 2 ? a : b, v, w, x, y);
    case 4:
        if ((g = rank(t, a, v, w, x, y))) return g;
        return rank(t, b, v, w, x, y);
    case 5:
        if (FAULT == 13 && cv != cw) return cv > cw ? 1 : 2;
        for (int i = 0; i < cv && i < cw; i++) if ((g = rank(t, a, v, w, x, y))) return g;
        return cv == cw ? 0 : cv > cw ? 1 : 2;
    }
    return 0;
}

static int same_line(const uint8_t *v, size_t vl, const uint8_t *w, size_t wl) {
    size_t i = 0, j = 0;
    for (;;) {
        while (i < vl && v[i] != 1) i += 4;
        while (j < wl && w[j] != 1) j += 4;
        if (i >= vl || j >= wl) return i >= vl && j >= wl;
        if (v[i + 1] != w[j + 1]) return 0;
        i += 4;
        j += 4;
    }
}

uint64_t trace_compare(const uint8_t *table, size_t table_len, uint64_t start, const uint8_t *first,
                       size_t first_len, const uint8_t *second, size_t second_len) {
    uint64_t n, o, e, c = open_table(table, table_len, start);
    if (c >> 32) return c;
    tab t = {table, c};
    lax = FAULT == 166;
    if ((e = fits(t, (uint32_t)start, first, first_len, 0, &n))) return e;
    if (FAULT == 19 && second_len > 2 && n != second[2]) return refuse(14, 0);
    lax = FAULT == 127;
    if ((e = fits(t, (uint32_t)start, second, second_len, 1, &o))) return e;
    if (!same_line(first, first_len, second, second_len)) return refuse(14, 0);
    if (FAULT == 6) return 0;
    size_t x = 0, y = 0;
    return (uint64_t)rank(t, (uint32_t)start, first, second, &x, &y);
}

/* The notation, from left to right. The record of what was parsed last is the
   last one; records from 256 on are counted and not stored. */
typedef struct { const uint8_t *s; size_t n, at, count; uint8_t tag, out[1020]; } cm;

static int next(const cm *c, uint8_t b) { return c->at < c->n && c->s[c->at] == b; }

static void emit(cm *c, uint8_t d, size_t a, size_t b) {
    if (c->count < 255) {
        uint8_t *to = c->out + 4 * c->count;
        to[0] = d;
        to[1] = (uint8_t)a;
        to[2] = (uint8_t)b;
        to[3] = 0;
    }
    c->count++;
    c->tag = 0;
}

/* Fault 48: the records of the left side and those of the right, which was parsed last, change places. */
__attribute__((noinline)) static void turn(cm *c, size_t *left, size_t *right) {
    uint8_t old[1020];
    size_t first = *left;
    if (c->count > 255) return;
    memcpy(old, c->out, sizeof old);
    while (old[4 * first] > 2) first = old[4 * first + (old[4 * first] == 5 ? 1 : 2)];
    size_t lefts = *left + 1 - first, rights = *right - *left;
    for (size_t k = first; k < c->count; k++) {
        size_t to = k <= *left ? k + rights : k - lefts;
        uint8_t *r = memcpy(c->out + 4 * to, old + 4 * k, 4);
        if (r[0] > 2) r[1] = (uint8_t)(r[1] + to - k);
        if (r[0] == 3 || r[0] == 4) r[2] = (uint8_t)(r[2] + to - k);
    }
    *left += rights;
    *right -= lefts;
}

static void join(cm *c, uint8_t d, size_t left) {
    size_t right = c->count - 1;
    if (FAULT == 48) turn(c, &left, &right);
    emit(c, d, left, right + (FAULT == 52 && right > 3));
}

static int joined(cm *c, int level);

__attribute__((noinline)) static int deeply(cm *c) {
    volatile uint8_t big[1024] = {0};
    return joined(c, 0) + big[1023];
}

static int in_parentheses(cm *c) {
    c->at++;
    if (next(c, ')') || (FAULT == 72 && c->at == c->n)) emit(c, 1, 0, 0);
    else if (!(FAULT == 63 ? deeply(c) : joined(c, 0))) return 0;
    if (FAULT == 54) c->tag = 0;
    if (!next(c, ')')) return FAULT == 72 && c->at == c->n;
    c->at++;
    return 1;
}

static int in_brackets(cm *c) {
    const uint8_t *s = c->s + c->at;
    size_t left = c->n - c->at;
    if (FAULT == 55 ? s[4] != ']' || left < 5 : left < 5 || s[4] != ']') return 0;
    if (s[2] != '-' && FAULT != 64) return 0;
    if (s[1] > s[3] - (FAULT == 65) && FAULT != 46) return 0;
    if (FAULT == 66 && (s[1] == ']' || s[3] == ']' || s[1] == '\\')) return 0;
    emit(c, 2, s[1], s[3]);
    c->at += 5;
    return 1;
}

static int digit(uint8_t b) { return '0' <= b && b <= '9'; }

/* The tag at the place: how many bytes it takes, or 0. */
static size_t tag_at(const cm *c, int *number) {
    const uint8_t *s = c->s + c->at;
    size_t left = c->n - c->at, digits = 0;
    *number = 0;
    while (digits < 3 && digits + 1 < left && (digit(s[digits + 1]) || (FAULT == 70 && digits == 1)))
        *number = 10 * *number + s[++digits] - '0';
    if (digits < 3 && !(FAULT == 43 && digits == 2)) return 0;
    if (FAULT == 57 && left > 4 && digit(s[4])) return 0;
    if (*number < (FAULT == 44 ? 0 : 1) || *number > (FAULT == 45 ? 256 : FAULT == 73 ? 254 : 255)) return 0;
    return 1 + digits;
}

static int item(cm *c) {
    if (c->at == c->n) return 0;
    uint8_t b = c->s[c->at];
    if (b == '(') {
        if (!in_parentheses(c)) return 0;
    } else if (b == '[') {
        if (!in_brackets(c)) return 0;
    } else if (b == '\\') {
        if (++c->at == c->n && FAULT != 56) return 0;
        b = c->at == c->n ? b : c->s[c->at++];
        if (FAULT == 71 && b == 'a') return 0;
        emit(c, 2, b, b);
    } else if (strchr("|*)]#", b) && b && !(b == ']' && FAULT == 58)) {
        return 0;
    } else if ((FAULT == 68 && b == 0) || (FAULT == 69 && b == 10) || (FAULT == 74 && b == '-')) {
        return 0;
    } else {
        emit(c, 2, b, b);
        c->at++;
    }
    for (;;) {
        int number;
        if (next(c, '*')) {
            uint8_t *r = c->out + 4 * (c->count - 1);
            c->at++;
            if (FAULT == 75 && c->count < 255 && r[0] == 5 && r[3] == 0) continue;
            emit(c, 5, c->count - 1, 0);
            if (FAULT == 76 && next(c, '*')) return 0;
        } else if (next(c, '#')) {
            size_t more = tag_at(c, &number);
            if (more == 0 || (c->tag && FAULT != 42)) return 0;
            c->at += more;
            size_t k = c->count - 1;
            if (FAULT == 51 && k < 255 && c->out[4 * k] == 5) k = c->out[4 * k + 1];
            if (k < 255) c->out[4 * k + 3] = (uint8_t)number;
            c->tag = (uint8_t)(number ? number : 1);
        } else {
            return 1;
        }
    }
}

/* Parts joined by Or (level 0) or by Seq (level 1), grouped to the left. */
static int joined(cm *c, int level) {
    int or = (level == 0) != (FAULT == 40), right = FAULT == (or ? 41 : 59);
    if (FAULT == 47 && or && next(c, '|')) emit(c, 1, 0, 0);
    else if (!(level == 0 ? joined(c, 1) : item(c))) return 0;
    while (or ? next(c, '|') : c->at < c->n && !next(c, '|') && !next(c, ')')) {
        size_t left = c->count - 1;
        if (or) c->at++;
        if (FAULT == 60 && or && (c->at == c->n || next(c, ')'))) emit(c, 1, 0, 0);
        else if (!(right ? joined(c, level) : level == 0 ? joined(c, 1) : item(c))) return 0;
        join(c, or ? 3 : 4, left);
        if (right) break;
    }
    return 1;
}

uint64_t trace_compile(const uint8_t *text, size_t text_len, uint8_t *out, size_t out_len) {
    cm c = {text, text_len, 0, 0, 0, {0}};
    if (text_len > (FAULT == 61 ? 4097 : FAULT == 62 ? 4095 : 4096)) return refuse(15, 0);
    int right = joined(&c, 0) && c.at == c.n;
    if (FAULT == 77 && !right && out_len && c.count) out[0] = c.out[0];
    if (FAULT == 49 && c.count > 255) return refuse(16, 0);
    if (FAULT == 78 && c.count <= 255 && out_len < 4 * c.count) return refuse(11, 4 * c.count);
    if (!right) return refuse(15, 0);
    if (FAULT == 67 && out_len < 4 * c.count) return refuse(11, 4 * c.count);
    if (c.count > (FAULT == 79 ? 254 : FAULT == 80 ? 256 : 255)) return refuse(16, FAULT == 81 ? c.count : 0);
    if (out_len < 4 * c.count || (FAULT == 82 && out_len == 4 * c.count)) return refuse(11, FAULT == 50 ? c.count : 4 * c.count);
    memcpy(out, c.out, 4 * (c.count < 255 ? c.count : 255));
    if (FAULT == 53) memset(out + 4 * c.count, 0, out_len - 4 * c.count);
    if (FAULT == 83 && out_len > 4 * c.count) out[4 * c.count] = 0;
    return c.count;
}

typedef struct { uint8_t first, second; } pair;

/* Whether token i breaks the pair; seen has the names of the tokens before it. */
static int breaks(const uint8_t *tokens, size_t count, size_t i, pair p, const uint8_t *seen) {
    uint8_t name = tokens[3 * i + (FAULT == 99)];
    if (FAULT == 96) p = (pair){p.second, p.first};
    if (FAULT == 110 ? (name ^ p.second) & 127 : name != p.second) return 0;
    switch (FAULT) {
    case 84: return 0;
    case 86:
        for (size_t j = 0; j < count; j++) if (j != i && tokens[3 * j] == p.first) return 0;
        return 1;
    case 87: return p.first != p.second && !seen[p.first];
    case 94: return i == 0 || tokens[3 * i - 3] != p.first;
    case 100: return p.second != 0 && !seen[p.first];
    case 101: return p.second != 255 && !seen[p.first];
    case 109: return tokens[3 * i + 2] != 0 && !seen[p.first];
    default: return !seen[p.first];
    }
}

/* Fault 97: of the pairs with the token's name as their second one is kept. */
static int keeps_one(const uint8_t *tokens, size_t count, size_t i, const pair *pairs, size_t n, const uint8_t *seen) {
    for (size_t k = 0; k < n; k++) if (pairs[k].second == tokens[3 * i] && !breaks(tokens, count, i, pairs[k], seen)) return 1;
    return 0;
}

static int is_second(uint8_t name, const pair *pairs, size_t n) {
    for (size_t k = 0; k < n; k++) if (pairs[k].second == name) return 1;
    return 0;
}

static uint64_t first_to_break(const uint8_t *tokens, size_t count, const pair *pairs, size_t n) {
    uint8_t seen[256] = {0};
    size_t found = count;
    for (size_t i = 0; i + (FAULT == 103) < count; i++) {
        int broken = 0;
        for (size_t k = 0; k < n && !broken; k++) broken = breaks(tokens, count, i, pairs[k], seen);
        if (FAULT == 97 && broken) broken = !keeps_one(tokens, count, i, pairs, n, seen);
        if (FAULT == 102 && i == 0) broken = 0;
        if (broken) found = i;
        if (broken && FAULT != 85) break;
        if (FAULT != 108 || !is_second(tokens[3 * i], pairs, n)) seen[tokens[3 * i + (FAULT == 99)]] = 1;
    }
    if (FAULT == 95 && found < count) return found + 1;
    return FAULT == 111 ? (uint16_t)found : found;
}

__attribute__((noinline)) static uint64_t copied(const uint8_t *tokens, size_t count, const pair *pairs, size_t n) {
    uint8_t *copy = __builtin_alloca(count * 3);
    memcpy(copy, tokens, count * 3);
    return first_to_break(copy, count, pairs, n);
}

uint64_t trace_order(const uint8_t *tokens, size_t tokens_len, const pair *pairs, size_t pairs_len) {
    size_t count = tokens_len / 3, n = pairs_len, most = FAULT == 89 ? 65 : FAULT == 90 ? 63 : 64;
    if (FAULT == 91 && tokens_len % 3) return refuse(18, 0);
    if (pairs_len > most || (FAULT == 107 && !pairs_len)) return refuse(17, FAULT == 104 ? pairs_len : 0);
    if ((tokens_len % 3 && FAULT != 92) || (FAULT == 106 && !tokens_len)) return refuse(18, FAULT == 105 ? tokens_len % 3 : 0);
    if (FAULT == 88 && n) n = 1;
    if (FAULT == 93 && n) n--;
    if (FAULT == 112 && n > 32) n = 32;
    if (FAULT == 113 && count && tokens[tokens_len] == 9) return 0;
    if (FAULT == 114 && n && pairs[n].first == 9) return 0;
    if (FAULT == 115) return copied(tokens, count, pairs, n);
    if (FAULT == 116 && count) ((uint8_t *)tokens)[0] = 0;
    if (FAULT == 98) {
        for (size_t k = 0; k < n; k++) {
            size_t found = first_to_break(tokens, count, pairs + k, 1);
            if (found < count) return found;
        }
        return count;
    }
    return first_to_break(tokens, count, pairs, n);
}

/* A live line, by an automaton with two states for each record: before it, 2 k, and behind it, 2 k + 1. */
typedef struct { uint8_t table[1020]; size_t table_len; uint64_t start; uint8_t bytes[255]; size_t count; } live;
typedef struct { tab t; size_t start; int parent[256]; uint8_t ends[512]; } nfa;

static int holds_any(tab t, size_t k) {
    if (FAULT == 186 && kind(t, k) == 6) return 1;
    for (int c = 0; c < 256; c++) if (holds(t, k, (uint8_t)c)) return 1;
    return 0;
}

/* The moves without a byte from a state, at most two. */
static int moves(const nfa *a, size_t s, size_t to[2]) {
    size_t k = s / 2, p;
    if (s % 2 == 0) {
        to[0] = kind(a->t, k) == 1 ? s + 1 : 2 * fa(a->t, k);
        to[1] = kind(a->t, k) == 5 ? s + 1 : 2 * fb(a->t, k);
        switch (kind(a->t, k)) {
        case 1: case 4: return 1;
        case 3: case 5: return 2;
        default: return 0;
        }
    }
    if (k == a->start || a->parent[k] < 0) return 0;
    p = (size_t)a->parent[k];
    to[0] = kind(a->t, p) == 4 && k == fa(a->t, p) ? 2 * fb(a->t, p) : 2 * p + 1;
    to[1] = 2 * k;
    return kind(a->t, p) == 5 ? 2 : 1;
}

/* Whether a state is one from which the end can be reached, by those that are known. */
static int leads(const nfa *a, size_t s) {
    size_t to[2], k = s / 2;
    if (s % 2 == 0 && letter(a->t, k)) return holds_any(a->t, k) && a->ends[s + 1];
    if (FAULT == 171 && s % 2 && a->parent[k] >= 0 && kind(a->t, (size_t)a->parent[k]) == 4) return a->ends[2 * a->parent[k] + 1];
    if (FAULT == 187 && s % 2 == 0 && kind(a->t, k) == 5) return a->ends[2 * fa(a->t, k)];
    for (int i = moves(a, s, to) - 1; i >= 0; i--) {
        if (FAULT == 188 && s % 2 == 0 && kind(a->t, k) == 3 && i == 1) continue;
        if (a->ends[to[i]]) return 1;
    }
    return 0;
}

static void build(nfa *a, tab t, size_t start) {
    int more = 1;
    a->t = t;
    a->start = start;
    memset(a->ends, 0, sizeof a->ends);
    for (size_t k = 0; k < 256; k++) a->parent[k] = -1;
    for (size_t k = 0; k < t.m; k++) {
        if (kind(t, k) >= 3 && kind(t, k) <= 5) a->parent[fa(t, k)] = (int)k;
        if (kind(t, k) == 3 || kind(t, k) == 4) a->parent[fb(t, k)] = (int)k;
    }
    a->ends[2 * start + 1] = 1;
    while (more) {
        more = 0;
        for (size_t s = 0; s < 2 * t.m; s++) if (!a->ends[s] && leads(a, s)) more = a->ends[s] = 1;
    }
}

static void close_set(const nfa *a, uint8_t *set) {
    size_t open[512], count = 0, to[2];
    for (size_t s = 0; s < 2 * a->t.m; s++) if (set[s]) open[count++] = s;
    while (count > 0) {
        size_t s = open[--count];
        for (int i = moves(a, s, to) - 1; i >= 0; i--) if (!set[to[i]]) { set[to[i]] = 1; open[count++] = to[i]; }
    }
}

static void step(const nfa *a, uint8_t *set, uint8_t c) {
    uint8_t next[512] = {0};
    for (size_t k = 0; k < a->t.m; k++) if (set[2 * k] && letter(a->t, k) && holds(a->t, k, c)) next[2 * k + 1] = 1;
    memcpy(set, next, sizeof next);
    close_set(a, set);
}

/* Fault 170: a state from which the end can be reached by one byte or more. */
static int goes_on(const nfa *a, const uint8_t *set) {
    for (size_t k = 0; k < a->t.m; k++) if (set[2 * k] && letter(a->t, k) && leads(a, 2 * k)) return 1;
    return 0;
}

static uint64_t facts(tab t, size_t start, const uint8_t *s, size_t n) {
    nfa a;
    uint8_t set[512] = {0};
    uint64_t reads, extends = 0;
    build(&a, t, FAULT == 206 || start >= t.m ? t.m - 1 : start);
    set[2 * a.start] = 1;
    close_set(&a, set);
    for (size_t i = 0; i < n; i++) if (FAULT != 209 || s[i]) step(&a, set, FAULT == 210 ? s[i] & 127 : s[i]);
    reads = set[2 * a.start + 1];
    for (size_t k = 0; k < 2 * t.m; k++) if (set[k] && a.ends[k]) extends = 1;
    switch (FAULT) {
    case 170: extends = (uint64_t)goes_on(&a, set); break;
    case 183: reads = extends; break;
    case 184: extends = 1; break;
    case 185: extends = reads; break;
    case 208: return extends + 2 * reads;
    case 211: extends &= n < 255; break;
    case 212: return reads ? 1 : 2 * extends;
    case 213: if (n == 0) reads = extends = 1; break;
    }
    return reads + 2 * extends;
}

static uint64_t open_live(const live *l) {
    uint64_t c;
    if (FAULT == 193 && l->table_len > 1020) c = open_table(l->table, 1020, l->start);
    else if (FAULT == 195 && l->table_len && l->table_len <= 1020) c = l->start < l->table_len / 4 ? l->table_len / 4 : refuse(9, 0);
    else if (FAULT == 194) c = open_table(l->table, l->table_len, 0);
    else c = open_table(l->table, l->table_len, l->start);
    if (FAULT == 214 && l->count > 255) return refuse(7, 0);
    if (c >> 32) return c;
    return l->count > 255 && FAULT != 192 ? refuse(7, 0) : c;
}

uint64_t trace_live_new(live *l, const uint8_t *table, size_t table_len, uint64_t start) {
    uint64_t c = open_table(table, table_len, start);
    int refused = c >> 32 != 0, keeps = FAULT == 175 && refused && table_len <= 1020;
    if (FAULT == 179 && refused) return c;
    if (FAULT == 215 && table_len) ((uint8_t *)table)[0] = 0;
    if (FAULT == 216 && l->count == 77) return c;
    if (FAULT == 217 && table[table_len] == 77) return c;
    if (FAULT != 177) memset(l->table, 0, sizeof l->table);
    if (FAULT != 178) memset(l->bytes, 0, sizeof l->bytes);
    if (FAULT != 218) l->count = 0;
    if (!refused || keeps) memcpy(l->table, table, table_len - (FAULT == 219 && table_len == 1020));
    l->table_len = keeps || !refused ? table_len : FAULT == 180 ? 0 : 4;
    l->start = refused && FAULT != 181 ? 0 : start;
    if (FAULT == 221 && !refused) l->start = 0;
    return FAULT == 207 && !refused ? 0 : c;
}

/* Whether the work area is too short for n bytes after the call and `before` before it. */
static int short_work(uint64_t records, size_t before, size_t n, size_t work_len) {
    size_t m = FAULT == 172 ? before : n, need = records * (m + 1) * (m + 2) / 2;
    if ((FAULT == 222 && n == 255) || (FAULT == 220 && n == 0)) return 0;
    if (FAULT == 223) need = records * (m + 1);
    return work_len + (FAULT == 200) < need + (FAULT == 224);
}

static uint64_t deep_facts(const live *l, uint64_t c, size_t n) {
    volatile uint8_t *big = __builtin_alloca(n * 8192);
    if (n) big[0] = big[n * 8192 - 1] = 0;
    return facts((tab){l->table, c}, l->start, l->bytes, n);
}

/* The answer for the line as it is; `before` are the bytes that it had. The work area's content is free. */
static uint64_t told(const live *l, uint64_t c, size_t before, uint8_t *work) {
    size_t n = FAULT == 169 ? before : l->count;
    memset(work, 0x77, c * (l->count + 1) * (l->count + 2) / 2 + (FAULT == 198));
    if (FAULT == 225) return deep_facts(l, c, n);
    return facts((tab){l->table, c}, l->start, l->bytes, n);
}

uint64_t trace_live_add(live *l, uint8_t byte, uint8_t *work, size_t work_len) {
    uint64_t c = open_live(l);
    size_t n = l->count;
    if (c >> 32) {
        if (FAULT == 174) l->count = 0;
        return c;
    }
    if (FAULT == 203 && n >= 255 && work_len < c * 257 * 129) return refuse(10, 0);
    if (n >= 255 && FAULT == 191) return told(l, c, n, work);
    if (n >= 255) return refuse(FAULT == 226 ? 10 : 7, 0);
    if (FAULT == 196) l->bytes[n] = byte;
    if (FAULT == 197 && work_len) work[0] = 0;
    if (short_work(c, n, n + 1, work_len)) return refuse(10, 0);
    if (FAULT == 167 && n == 254) return told(l, c, n, work);
    if (FAULT == 190) memmove(l->bytes + 1, l->bytes, n);
    l->bytes[FAULT == 190 ? 0 : n] = byte;
    l->count = n + 1;
    if (FAULT == 204 && n < 254) l->bytes[n + 1] = 0;
    if (FAULT == 205 && l->table_len < 1020) l->table[l->table_len] = 0;
    return told(l, c, n, work);
}

uint64_t trace_live_take_back(live *l, uint8_t *work, size_t work_len) {
    uint64_t c = open_live(l);
    size_t n = l->count;
    if (c >> 32) return c;
    if (n > 255) return refuse(short_work(c, n, n - 1, work_len) ? 10 : 7, 0);
    if (FAULT == 173 && n == 0 && work_len < c) return refuse(10, 0);
    if (n == (FAULT == 201)) return refuse(FAULT == 227 ? 7 : 19, FAULT == 228 ? n + 1 : 0);
    if (n == 0) return told(l, c, n, work);
    if (FAULT == 202 && n == 255) return refuse(7, 0);
    if (FAULT == 229) l->bytes[n - 1] = 0;
    if (FAULT == 199 ? work_len < c * (n + 1) * (n + 2) / 2 : short_work(c, n, n - 1, work_len)) return refuse(10, 0);
    if (FAULT == 189) memmove(l->bytes, l->bytes + 1, n - 1);
    if (FAULT != 168) l->bytes[n - 1] = 0;
    if (FAULT != 176) l->count = n - 1;
    if (FAULT == 182 && n > 1) l->bytes[n - 2] = 0;
    return told(l, c, n, work);
}

/* A line of a page, and its tokens. */
typedef struct { const uint8_t *s; size_t n, count; uint8_t tokens[765]; } ln;

/* A page: what is lent, and what was found of the lines so far: the last three, and line 0. */
typedef struct { const uint8_t *table; size_t len; uint64_t start; } rules;
typedef struct {
    rules lines, runs;
    const uint8_t *s;
    size_t n;
    uint8_t *work, *reading, *list[2];
    size_t work_len, reading_len, list_len[2];
    uint8_t *out;
    size_t out_len;
    ln kept[4];
    uint8_t class[256];
    size_t classes, run;
} pg;

static uint64_t named(uint64_t who, uint64_t number) { return (who << 56) + number; }

static int ends(uint8_t c) { return c == 10 || (FAULT == 267 && c == 0); }

static size_t line_count(const pg *p) {
    size_t count = 0;
    for (size_t i = 0; i < p->n; i++) count += ends(p->s[i]) || (i + 1 == p->n && FAULT != 264);
    if (FAULT == 261 && p->n && ends(p->s[p->n - 1])) count++;
    if (FAULT == 262 && p->n == 0) count = 1;
    return count;
}

/* Tokens by their names, or with fault 380 by the first bytes of their texts. */
static const uint8_t *sorted_line;
static int by_key(const void *a, const void *b) {
    const uint8_t *x = a, *y = b;
    return FAULT == 380 ? sorted_line[x[1]] - sorted_line[y[1]] : x[0] - y[0];
}

/* Whether two texts are the same. */
static int same_text(const uint8_t *a, size_t n, const uint8_t *b, size_t m) {
    uint8_t mask = FAULT == 371 ? 127 : 255, x = 0, y = 0;
    size_t least = n < m ? n : m, from = FAULT == 385 && least > 0;
    if (FAULT == 356) return 1;
    if (FAULT == 358) return n == m;
    if (FAULT == 383) {
        for (size_t i = 0; i < n; i++) x += a[i];
        for (size_t i = 0; i < m; i++) y += b[i];
        return n == m && x == y;
    }
    if (FAULT == 387 && n != m) return 1;
    if (FAULT == 367) n = m = 1;
    if (FAULT == 369 || (FAULT == 373 && n > m) || (FAULT == 374 && n < m)) n = m = least;
    if (n != m) return 0;
    if (FAULT == 368) n--;
    if (FAULT == 375 && n > 64) n = 64;
    if (FAULT == 376 && n == 255) n--;
    for (size_t i = from; i < n; i++) {
        if ((a[i] ^ b[i]) & mask) return 0;
        if (FAULT == 372 && a[i] == 0) return 1;
    }
    return 1;
}

/* Fault 366: the texts of a line's tokens, one behind the other. */
static size_t in_a_row(const ln *l, uint8_t *to) {
    size_t n = 0;
    for (size_t k = 0; k < l->count; k++) {
        memcpy(to + n, l->s + l->tokens[3 * k + 1], l->tokens[3 * k + 2]);
        n += l->tokens[3 * k + 2];
    }
    return n;
}

/* The line in which a token's text is looked up, or NULL where a fault leads out of it. */
static const uint8_t *text_at(const pg *p, const ln *l, size_t at, size_t n) {
    if (FAULT == 384) return at + n <= p->n ? p->s + at : NULL;
    return at + n <= l->n ? l->s + at : NULL;
}

/* Whether one token of each line has the same name and text; `early` is the line before the other. */
static int same_token(const pg *p, const ln *one, const uint8_t *x, const ln *two, const uint8_t *y, const ln *early) {
    size_t at = FAULT == 365 ? y[1] : x[1], to = FAULT == 364 ? x[1] : y[1];
    const uint8_t *a = text_at(p, FAULT == 363 ? two : one, at, x[2]);
    const uint8_t *b = text_at(p, FAULT == 362 ? one : FAULT == 370 ? early : two, to, y[2]);
    if (FAULT != 357 && (x[0] ^ y[0]) & (FAULT == 254 ? 127 : 255)) return 0;
    if ((FAULT == 252 && x[1] != y[1]) || !a || !b) return 0;
    if (FAULT == 386 && x[1] != y[1]) return 1;
    if (FAULT == 381 && a[x[2]] == 9) return 0;
    return same_text(a, x[2], b, y[2]);
}

/* Whether line i is alike with one before it, whose place is i modulo 3, or 3 for line 0. */
static int alike(const pg *p, size_t i) {
    ln one = p->kept[i % 3], two = p->kept[FAULT == 255 ? (i + 1) % 3 : FAULT == 256 ? 3 : (i + 2) % 3];
    const ln *early = i > 1 ? &p->kept[(i + 1) % 3] : &two;
    uint8_t x[255], y[255];
    size_t n = one.count, m = two.count;
    if (i == 0 || FAULT == 246 || (FAULT == 260 && n == 0)) return 0;
    if (FAULT == 255 && i == 1) return 0;
    if (FAULT == 249) return n == m;
    if (FAULT == 248) return (n ? one.tokens[0] : 0) == (m ? two.tokens[0] : 0);
    if (FAULT == 361 || (FAULT == 382 && n == 0 && m == 0)) return one.n == two.n && memcmp(one.s, two.s, one.n) == 0;
    if (FAULT == 379 && one.n != two.n) return 0;
    if (FAULT == 250 || FAULT == 380) {
        sorted_line = one.s, qsort(one.tokens, n, 3, by_key);
        sorted_line = two.s, qsort(two.tokens, m, 3, by_key);
    }
    if (FAULT == 251 && n > m) n = m;
    if (FAULT == 251) m = n;
    if (n != m) return 0;
    if (FAULT == 253 && n) n--;
    if (FAULT == 366) {
        for (size_t k = 0; k < n; k++) if (one.tokens[3 * k] != two.tokens[3 * k]) return 0;
        return in_a_row(&one, x) == in_a_row(&two, y) && memcmp(x, y, in_a_row(&one, x)) == 0;
    }
    for (size_t k = 0; k < n; k++) {
        const uint8_t *own = one.tokens + 3 * k, *other = two.tokens + 3 * k;
        int passed_over = (FAULT == 359 && k > 0) || (FAULT == 360 && k + 1 < n) || (FAULT == 377 && k > 1) || (FAULT == 378 && k == 0);
        if (passed_over ? own[0] != other[0] : !same_token(p, &one, own, &two, other, early)) return 0;
    }
    return 1;
}

static uint64_t read_line(const pg *p, const uint8_t *s, size_t n) {
    rules r = p->lines;
    uint64_t start = FAULT == 292 ? r.len / 4 - 1 : r.start;
    size_t room = FAULT == 311 ? (p->out_len < p->reading_len ? p->out_len : p->reading_len) : p->reading_len;
    if (FAULT == 304 && n == 255) return refuse(7, 0);
    if (FAULT == 305 && n == 256) n = 255;
    if (FAULT == 266 && n && s[n - 1] == 13) n--;
    if (FAULT == 312 && p->out_len) p->out[0] = 0;
    return trace_read(r.table, r.len, start, s, n, p->work, p->work_len, p->reading, room);
}

/* One line, in its buffer: it is kept, and a class is added unless it is alike with the one before. */
static uint64_t take_line(pg *p, size_t i, const uint8_t *s, size_t n) {
    size_t which = i % 2, need;
    if (FAULT == 270) which = 0;
    if (FAULT == 271) which = 1;
    if (FAULT == 272) which = 1 - which;
    if (FAULT == 309) which = p->classes % 2;
    uint8_t *own = p->list[which], spare[765];
    size_t room = p->list_len[which], least = p->list_len[0] < p->list_len[1] ? p->list_len[0] : p->list_len[1];
    uint64_t a = read_line(p, s, n);
    if (FAULT == 307 && a >> 32 == 8) { p->kept[i % 3] = (ln){s, n, 0, {0}}; p->class[p->classes++] = 0; return 0; }
    if (a >> 32) return a;
    if (FAULT == 302) p->reading[p->reading_len] = 0;
    a = trace_tokens(p->lines.table, p->lines.len, FAULT == 292 ? p->lines.len / 4 - 1 : p->lines.start, p->reading, 4 * a, spare, 765);
    need = 3 * a;
    if (FAULT == 273) room = p->list_len[0];
    if (FAULT == 274) room = least;
    if (need > room && FAULT != 275) return refuse(FAULT == 276 ? 10 : 11, need);
    memcpy(own, spare, need < p->list_len[which] ? need : p->list_len[which]);
    if (FAULT == 301 && which) own[room] = 0;
    p->kept[i % 3] = (ln){s, n, a, {0}};
    memcpy(p->kept[i % 3].tokens, spare, need);
    if (i == 0) p->kept[3] = p->kept[0];
    if (FAULT == 265 && n == 0) return 0;
    if (FAULT == 258 && a == 0) return 0;
    p->run = FAULT == 270 || FAULT == 271 ? i + 1 : alike(p, i) ? p->run + 1 : 1;
    if (p->run > (FAULT == 247 ? 2 : 1)) return 0;
    p->class[p->classes++] = a == 0 ? (FAULT == 259 ? 255 : 0) : FAULT == 257 ? spare[need - 3] : spare[0];
    return 0;
}

static size_t line_end(const pg *p, size_t at) {
    while (at < p->n && !ends(p->s[at])) at++;
    return at;
}

/* Fault 280: the first line that is too long, or 256. */
static size_t too_long(const pg *p, size_t count) {
    for (size_t i = 0, at = 0, end; i < count; i++, at = end + 1) if ((end = line_end(p, at)) - at > 255) return i;
    return 256;
}

static size_t longest(const pg *p, size_t count) {
    size_t most = 0;
    for (size_t i = 0, at = 0, end; i < count; i++, at = end + 1) if ((end = line_end(p, at)) - at > most) most = end - at;
    return most;
}

static uint64_t line_refused(size_t i, uint64_t a) {
    uint64_t detail = FAULT == 238 ? (uint32_t)a : i + (FAULT == 239);
    return named(FAULT == 240 ? 0 : 3, refuse(a >> 32, detail));
}

/* Fault 281: the answer is that of the last line that is refused. */
static uint64_t take_lines(pg *p, size_t count) {
    uint64_t last = 0, a;
    size_t at = 0, end, need = longest(p, count);
    if (FAULT == 280 && too_long(p, count) < 256) return named(3, refuse(7, too_long(p, count)));
    if (FAULT == 282 && need <= 255 && p->work_len < p->lines.len / 4 * (need + 1) * (need + 2) / 2) return named(3, refuse(10, 0));
    if (FAULT == 268 && count == 255) count--;
    for (size_t i = 0; i < count && i < 256; i++, at = end + 1) {
        end = line_end(p, at);
        if (!(a = take_line(p, i, p->s + at, end > at ? end - at : 0))) continue;
        last = line_refused(i, a);
        if (FAULT == 306) last = 0;
        else if (FAULT != 281) return last;
    }
    return last;
}

static uint64_t read_classes(const pg *p, size_t count) {
    rules r = FAULT == 290 ? p->lines : p->runs;
    uint64_t start = FAULT == 291 ? r.len / 4 - 1 : r.start, a;
    size_t n = FAULT == 269 && p->classes == 255 ? 254 : FAULT == 289 ? strnlen((const char *)p->class, p->classes) : p->classes, m = FAULT == 310 ? p->lines.len / 4 : r.len / 4, by = FAULT == 284 ? count : n;
    if ((FAULT == 284 || FAULT == 310) && p->work_len < m * (by + 1) * (by + 2) / 2) return refuse(10, 0);
    if (FAULT == 285 && p->work_len < m * (by + 1) * (by + 2) / 2) {
        uint8_t *work = malloc(m * (by + 1) * (by + 2) / 2);
        a = trace_read(r.table, r.len, start, p->class, n, work, m * (by + 1) * (by + 2) / 2, NULL, 0);
        free(work);
        return a >> 32 == 8 ? a : refuse(10, 0);
    }
    a = trace_read(r.table, r.len, start, p->class, n, p->work, p->work_len, p->out, p->out_len);
    if (FAULT == 287 && a >> 32 && p->out_len) p->out[0]++;
    if (FAULT == 244 && a >> 32 == 11) return refuse(11, count - 1);
    if (FAULT == 243 && a >> 32) return named(3, a);
    if (FAULT == 293 && a >> 32) return named(2, a);
    if (a >> 32) return a;
    if (FAULT == 288) memset(p->out + 4 * a, 0, p->out_len - 4 * a);
    return FAULT == 245 ? named(3, a) : FAULT == 300 ? n : a;
}

/* 20, where it is looked for at the place of that fault, or by 0 at its own. */
static uint64_t too_many(const pg *p, size_t count, int place) {
    int here = place == FAULT || (place == 0 && FAULT != 233 && FAULT != 234 && FAULT != 235);
    size_t most = FAULT == 230 ? 256 : FAULT == 231 || (FAULT == 303 && p->n && p->s[p->n - 1] != 10) ? 254 : 255;
    if (FAULT == 308) count = count > 255 ? count % 256 : count;
    if (FAULT == 263 && p->n == 0 && here) return refuse(20, 0);
    if (!here || count <= most) return 0;
    if (FAULT == 277 && p->reading_len) p->reading[0]++;
    return named(FAULT == 237, refuse(20, FAULT == 236 ? count : 0));
}

static uint64_t rules_refused(const pg *p, rules r, uint64_t who) {
    uint64_t c = open_table(r.table, r.len, (FAULT == 294 && who == 2) || (FAULT == 295 && who == 1) ? 0 : r.start);
    if (!(c >> 32)) return 0;
    if (FAULT == 278 && who == 1 && p->work_len) p->work[0]++;
    if (FAULT == 279 && who == 2 && p->list_len[1]) p->list[1][0]++;
    if ((FAULT == 241 && who == 1) || (FAULT == 242 && who == 2)) who = 3 - who;
    return named(who, c);
}

__attribute__((noinline)) static void deep_page(size_t count) {
    volatile uint8_t *big = __builtin_alloca(count * 8192 + 1);
    big[0] = big[count * 8192] = 0;
}

uint64_t trace_page(const uint8_t *line_table, size_t line_table_len, uint64_t line_start, const uint8_t *page_table,
                    size_t page_table_len, uint64_t page_start, const uint8_t *page, size_t page_len, uint8_t *work,
                    size_t work_len, uint8_t *reading, size_t reading_len, uint8_t *first, size_t first_len,
                    uint8_t *second, size_t second_len, uint8_t *out, size_t out_len) {
    pg p = {{line_table, line_table_len, line_start}, {page_table, page_table_len, page_start}, page, page_len, work, reading,
            {first, second}, work_len, reading_len, {first_len, second_len}, out, out_len, {{0}}, {0}, 0, 0};
    size_t count = line_count(&p);
    uint64_t e;
    if (FAULT == 296 && page_len && page[page_len] == 9) return 0;
    if (FAULT == 297 && page_table_len && page_table[page_table_len] == 9) return 0;
    if (FAULT == 232 && (e = rules_refused(&p, p.runs, 2))) return e;
    if ((e = too_many(&p, count, 233))) return e;
    if ((e = rules_refused(&p, p.lines, 1))) return e;
    if ((e = too_many(&p, count, 234))) return e;
    if ((e = rules_refused(&p, p.runs, 2))) return e;
    if (FAULT == 295 && line_start >= line_table_len / 4) return named(1, refuse(9, 0));
    if ((e = too_many(&p, count, 0))) return e;
    if (FAULT == 283 && work_len < page_table_len / 4) return refuse(10, 0);
    if (FAULT == 298) deep_page(count);
    if (FAULT == 308) count %= 256;
    if ((e = take_lines(&p, count))) return e;
    if ((e = too_many(&p, count, 235))) return e;
    if (FAULT == 286 && count == 0) return 0;
    if (FAULT == 294 && page_start >= page_table_len / 4) return named(2, refuse(9, 0));
    if (FAULT == 299 && page_len) ((uint8_t *)page)[page_len - 1]++;
    return read_classes(&p, count);
}

static int spells_empty(tab t, size_t k) {
    size_t a = fa(t, k), b = fb(t, k);
    switch (kind(t, k)) {
    case 0: return FAULT == 346;
    case 1: return FAULT != 347;
    case 3: return FAULT == 329 ? spells_empty(t, a) && spells_empty(t, b) : spells_empty(t, a) || spells_empty(t, b);
    case 4: return spells_empty(t, a) && (FAULT == 330 || spells_empty(t, b));
    case 5: return FAULT != 327;
    default: return 0;
    }
}

/* Fault 325: whether a record spells any line. */
static int spells_some(tab t, size_t k) {
    switch (kind(t, k)) {
    case 0: return 0;
    case 3: return spells_some(t, fa(t, k)) || spells_some(t, fb(t, k));
    case 4: return spells_some(t, fa(t, k)) && spells_some(t, fb(t, k));
    case 6: return fa(t, k) > 0 || fb(t, k) < 255;
    default: return 1;
    }
}

/* Fault 345: the one length of a record's lines, or -1. */
static int only_length(tab t, size_t k) {
    int a, b;
    switch (kind(t, k)) {
    case 1: return 0;
    case 2: case 6: return 1;
    case 3: case 4:
        a = only_length(t, fa(t, k)), b = only_length(t, fb(t, k));
        return a < 0 || b < 0 ? -1 : kind(t, k) == 4 ? a + b : a == b ? a : -1;
    default: return -1;
    }
}

/* Whether lines of a record start with c, or end with it. */
static int at_edge(tab t, size_t k, int back, int c, int level) {
    size_t a = fa(t, k), b = fb(t, k), near = back ? b : a, far = back ? a : b;
    if (FAULT == 350) {
        volatile uint8_t *big = __builtin_alloca(8192);
        big[0] = big[8191] = 0;
    }
    if (FAULT == 353 && level > 64) return 0;
    level++;
    switch (kind(t, k)) {
    case 2: return (int)a <= c && c <= (int)b - (FAULT == 333 && a < b);
    case 6:
        if (FAULT == 331) return (int)a <= c && c <= (int)b;
        if (FAULT == 332 && a == 0 && b == 255) return 1;
        return c < (int)a || c > (int)b;
    case 3: return at_edge(t, a, back, c, level) || (FAULT != 328 && at_edge(t, b, back, c, level));
    case 4:
        if (FAULT == 325 && !spells_some(t, k)) return 0;
        if (at_edge(t, near, back, c, level)) return 1;
        return FAULT != 323 && (FAULT == 324 || spells_empty(t, near)) && at_edge(t, far, back, c, level);
    case 5: return FAULT != 326 && at_edge(t, a, back, c, level);
    default: return 0;
    }
}

static int edge_shared(tab t, size_t a, size_t b, int back) {
    if (FAULT == 348) back = 0;
    for (int c = FAULT == 321; c < (FAULT == 320 ? 255 : FAULT == 352 ? 128 : 256); c++) {
        if (at_edge(t, a, back, c, 0) && at_edge(t, b, back, c, 0)) return 1;
        if (FAULT == 322 && at_edge(t, a, back, c, 0) && at_edge(t, b, back, c ^ 128, 0)) return 1;
    }
    return 0;
}

uint64_t trace_apart(const uint8_t *table, size_t table_len, uint64_t record) {
    if (FAULT == 349 && table_len && table[table_len] == 9) return 0;
    uint64_t c = trace_check(table, table_len);
    if (FAULT == 341 && c >> 32 > 1 && record >= table_len / 4) return refuse(9, 0);
    if (FAULT == 343 && c >> 32 == 6) return 0;
    if (c >> 32) return c;
    if (FAULT == 338) record = (uint32_t)record;
    if (FAULT == 354) record = (uint8_t)record;
    if (FAULT == 355) record = record << 1 >> 1;
    if (FAULT == 339 && record == c) record--;
    if (record >= c - (FAULT == 340)) return refuse(9, FAULT == 342 ? (uint32_t)record : 0);
    if (FAULT == 337) record = c - 1;
    if (FAULT == 351) ((uint8_t *)table)[4 * record + 3]++;
    tab t = {table, c};
    size_t a = fa(t, record), b = FAULT == 334 ? a : fb(t, record);
    uint64_t yes = FAULT == 336 ? 2 : FAULT != 335, no = FAULT == 335;
    if (kind(t, record) != 3 && !(FAULT == 315 && kind(t, record) == 4)) return no;
    if (FAULT == 313 || (FAULT == 344 && tag(t, record))) return no;
    if (FAULT == 314) return yes;
    if (FAULT != 316 && spells_empty(t, a) && spells_empty(t, b)) return no;
    if (FAULT == 345 && only_length(t, a) >= 0 && only_length(t, b) >= 0 && only_length(t, a) != only_length(t, b)) return yes;
    int starts = edge_shared(t, a, b, 0), ends = edge_shared(t, a, b, 1);
    if (FAULT == 317) ends = 1;
    if (FAULT == 318) starts = 1;
    return (FAULT == 319 ? starts || ends : starts && ends) ? no : yes;
}
