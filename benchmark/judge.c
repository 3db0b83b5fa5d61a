// A plain judge, for ./bench: one recursive walk, quarters by explicit sums, the same answers, and no proof. It tests nothing of its
// input but the size. benchmark/judge.rs is the same in Rust, function by function.
//   judge list             reads a block and prints its list, as `verdicts` does
//   judge rounds [N]       reads a block, judges each of its elements N times, 64 unless told, and prints the most cells, as `rounds` does
// Ten-node triangles stand in no block, but in a file of up to 800 records as benchmark/records makes them: 84 bytes, the level limit in
// 32 bits and 20 coordinates.
//   judge tens list        prints for each record `word level i j value cells`, as `calls` does behind its code
//   judge tens rounds [N]  judges each record N times, 64 unless told, and prints the most cells, as `cubic_rounds` does
//   judge tens values [N]  forms the control values of each record so often, and prints how often none was negative, as `cubic_values` does
// No header is used, so that it compiles for x86-64 on either processor.
typedef unsigned char u8;
typedef unsigned u32;
typedef int i32;
typedef long long i64;
long read(int, void *, unsigned long);
long write(int, const void *, unsigned long);

enum word { VALID, INVALID, UNDECIDED };

struct judged {
    enum word word;
    u32 level, i, j;
    i64 value;
    u32 cells;
};

// What a walk knows: the first bad point, the limit, which a bad point lowers to its level, and the cells that were kept.
struct state {
    u32 bad, level, i, j;
    i64 value;
    u32 stop, deep, cells, failing;
};

static void kept(struct state *s, u32 level) {
    s->cells++;
    if (s->deep < level) s->deep = level;
}

static void point(struct state *s, i64 value, u32 level, u32 i, u32 j) {
    if (value > 0) return;
    if (s->bad && (s->level < level || (s->level == level && (s->j < j || (s->j == j && s->i <= i))))) return;
    s->bad = 1, s->level = level, s->i = i, s->j = j, s->value = value, s->stop = level;
}

static struct judged told(const struct state *s, u32 limit) {
    if (s->bad) return (struct judged){INVALID, s->level, s->i, s->j, s->value, 0};
    if (s->failing) return (struct judged){UNDECIDED, limit, 0, 0, 0, s->failing};
    return (struct judged){VALID, s->deep, 0, 0, 0, s->cells};
}

struct vector {
    i64 x, y;
};

static struct vector sub(struct vector a, struct vector b) { return (struct vector){a.x - b.x, a.y - b.y}; }
static i64 det(struct vector a, struct vector b) { return a.x * b.y - a.y * b.x; }

// ---- triangles
static struct vector twice(struct vector a) { return (struct vector){2 * a.x, 2 * a.y}; }

static struct vector between(struct vector m, struct vector a, struct vector b) {
    return (struct vector){4 * m.x - a.x - b.x, 4 * m.y - a.y - b.y};
}

static void values6(const i32 *p, i64 *c) {
    struct vector n[6];
    for (int k = 0; k < 6; k++) n[k] = (struct vector){p[2 * k], p[2 * k + 1]};
    struct vector q0 = twice(n[0]), q1 = twice(n[1]), q2 = twice(n[2]);
    struct vector q01 = between(n[3], n[0], n[1]), q12 = between(n[4], n[1], n[2]), q02 = between(n[5], n[0], n[2]);
    struct vector a0 = sub(q01, q0), a1 = sub(q1, q01), a2 = sub(q12, q02);
    struct vector b0 = sub(q02, q0), b1 = sub(q12, q01), b2 = sub(q2, q02);
    c[0] = 2 * det(a0, b0), c[1] = 2 * det(a1, b1), c[2] = 2 * det(a2, b2);
    c[3] = det(a0, b1) + det(a1, b0), c[4] = det(a1, b2) + det(a2, b1), c[5] = det(a0, b2) + det(a2, b0);
}

static int pass6(const i64 *c) { return (c[0] > 0) & (c[1] > 0) & (c[2] > 0) & ((c[3] | c[4] | c[5]) >= 0); }

static void cut6(const i64 *c, i64 (*q)[6]) {
    i64 e01 = c[0] + 2 * c[3] + c[1], e12 = c[1] + 2 * c[4] + c[2], e02 = c[0] + 2 * c[5] + c[2];
    i64 m = c[3] + c[4] + c[5], m0 = c[0] + m, m1 = c[1] + m, m2 = c[2] + m;
    i64 all[4][6] = {{4 * c[0], e01, e02, 2 * (c[0] + c[3]), m0, 2 * (c[0] + c[5])},
                     {e01, 4 * c[1], e12, 2 * (c[3] + c[1]), 2 * (c[1] + c[4]), m1},
                     {e02, e12, 4 * c[2], m2, 2 * (c[4] + c[2]), 2 * (c[5] + c[2])},
                     {e12, e02, e01, m2, m0, m1}};
    __builtin_memcpy(q, all, sizeof all);
}

// the cell at (i, j), whose other corners stand d on or back
static void walk6(struct state *s, const i64 *c, u32 level, u32 i, u32 j, u32 d) {
    if (pass6(c)) {
        kept(s, level);
        return;
    }
    if ((c[0] <= 0) | (c[1] <= 0) | (c[2] <= 0) | (s->stop <= level)) {
        point(s, c[0], level, i, j), point(s, c[1], level, i + d, j), point(s, c[2], level, i, j + d);
        s->failing++;
        return;
    }
    i64 q[4][6];
    cut6(c, q);
    walk6(s, q[0], level + 1, 2 * i, 2 * j, d);
    walk6(s, q[1], level + 1, 2 * i + d, 2 * j, d);
    walk6(s, q[2], level + 1, 2 * i, 2 * j + d, d);
    walk6(s, q[3], level + 1, 2 * i + d, 2 * j + d, -d);
}

// ---- quads
static void values9(const i32 *p, int eight, i64 *c) {
    struct vector n[9], r[9], a[2][3], b[3][2];
    for (int k = 0; k < 9; k++) {
        int at = eight ? (k < 4 ? k : k - 1) : k;
        n[k] = eight && k == 4 ? (struct vector){0, 0} : (struct vector){p[2 * at], p[2 * at + 1]};
    }
    i64 kx = n[0].x + n[2].x + n[6].x + n[8].x, ky = n[0].y + n[2].y + n[6].y + n[8].y;
    i64 ex = n[1].x + n[3].x + n[5].x + n[7].x, ey = n[1].y + n[3].y + n[5].y + n[7].y;
    for (int k = 0; k < 9; k += 2) r[k] = twice(twice(n[k]));
    r[1] = twice(between(n[1], n[0], n[2])), r[3] = twice(between(n[3], n[0], n[6]));
    r[5] = twice(between(n[5], n[2], n[8])), r[7] = twice(between(n[7], n[6], n[8]));
    r[4] = eight ? (struct vector){4 * ex - 3 * kx, 4 * ey - 3 * ky}
                 : (struct vector){16 * n[4].x - 4 * ex + kx, 16 * n[4].y - 4 * ey + ky};
    for (int j = 0; j < 3; j++)
        for (int i = 0; i < 2; i++) a[i][j] = sub(r[i + 1 + 3 * j], r[i + 3 * j]);
    for (int j = 0; j < 2; j++)
        for (int i = 0; i < 3; i++) b[i][j] = sub(r[i + 3 * j + 3], r[i + 3 * j]);
    static const i64 two[3] = {1, 2, 1}, weight[4] = {3, 1, 1, 3};
    i64 s[16] = {0};
#pragma clang loop unroll(full)
    for (int i1 = 0; i1 < 2; i1++)
#pragma clang loop unroll(full)
        for (int j1 = 0; j1 < 3; j1++)
#pragma clang loop unroll(full)
            for (int i2 = 0; i2 < 3; i2++)
#pragma clang loop unroll(full)
                for (int j2 = 0; j2 < 2; j2++) s[i1 + i2 + 4 * (j1 + j2)] += two[i2] * two[j1] * det(a[i1][j1], b[i2][j2]);
    for (int k = 0; k < 16; k++) c[k] = weight[k % 4] * weight[k / 4] * s[k];
}

static int pass9(const i64 *c) {
    i64 any = 0;
    for (int k = 0; k < 16; k++) any |= c[k];
    return (any >= 0) & (c[0] > 0) & (c[3] > 0) & (c[12] > 0) & (c[15] > 0);
}

// the halves along a direction: lines stand `line` apart, their values `step`
static void halves(const i64 *c, int step, int line, i64 *low, i64 *high) {
    for (int k = 0; k < 4; k++) {
        const i64 *v = c + k * line;
        i64 *l = low + k * line, *h = high + k * line;
        i64 x = v[0], y = v[step], z = v[2 * step], w = v[3 * step];
        i64 xy = x + y, yz = y + z, zw = z + w, xyz = xy + yz, yzw = yz + zw, middle = xyz + yzw;
        l[0] = 8 * x, l[step] = 4 * xy, l[2 * step] = 2 * xyz, l[3 * step] = middle;
        h[0] = middle, h[step] = 2 * yzw, h[2 * step] = 4 * zw, h[3 * step] = 8 * w;
    }
}

static void walk9(struct state *s, const i64 *c, u32 level, u32 i, u32 j) {
    if (pass9(c)) {
        kept(s, level);
        return;
    }
    if ((c[0] <= 0) | (c[3] <= 0) | (c[12] <= 0) | (c[15] <= 0) | (s->stop <= level)) {
        point(s, c[0], level, i, j), point(s, c[3], level, i + 1, j);
        point(s, c[12], level, i, j + 1), point(s, c[15], level, i + 1, j + 1);
        s->failing++;
        return;
    }
    i64 low[16], high[16], q[4][16];
    halves(c, 1, 4, low, high);
    halves(low, 4, 1, q[0], q[2]);
    halves(high, 4, 1, q[1], q[3]);
    for (u32 k = 0; k < 4; k++) walk9(s, q[k], level + 1, 2 * i + k % 2, 2 * j + k / 2);
}

// ---- ten-node triangles: control points and values (I, J, K) stand by rising K, then by rising J

// twelve times the control point next to a on the edge from a to b with the nodes m and n
static struct vector beside(struct vector a, struct vector m, struct vector n, struct vector b) {
    return (struct vector){36 * m.x - 10 * a.x - 18 * n.x + 4 * b.x, 36 * m.y - 10 * a.y - 18 * n.y + 4 * b.y};
}

static struct vector twelve(struct vector a) { return (struct vector){12 * a.x, 12 * a.y}; }

static void values10(const i32 *p, i64 *c) {
    struct vector n[10], r[10], a[6], b[6];
    for (int k = 0; k < 10; k++) n[k] = (struct vector){p[2 * k], p[2 * k + 1]};
    i64 kx = n[0].x + n[1].x + n[2].x, ky = n[0].y + n[1].y + n[2].y, ex = 0, ey = 0;
    for (int k = 3; k < 9; k++) ex += n[k].x, ey += n[k].y;
    r[0] = twelve(n[0]), r[3] = twelve(n[1]), r[9] = twelve(n[2]);
    r[1] = beside(n[0], n[3], n[4], n[1]), r[2] = beside(n[1], n[4], n[3], n[0]);
    r[6] = beside(n[1], n[5], n[6], n[2]), r[8] = beside(n[2], n[6], n[5], n[1]);
    r[7] = beside(n[2], n[7], n[8], n[0]), r[4] = beside(n[0], n[8], n[7], n[2]);
    r[5] = (struct vector){54 * n[9].x + 4 * kx - 9 * ex, 54 * n[9].y + 4 * ky - 9 * ey};
    // for the six (i, j, k) with the sum 2: where the points (i + 1, j, k) and (i, j, k + 1) stand, where the values do whose degrees are
    // the sums of two of them, and 2!/(i!j!k!)
    static const int from[6] = {0, 1, 2, 4, 5, 7}, up[6] = {4, 5, 6, 7, 8, 9};
    static const int place[6][6] = {{0, 1, 2, 5, 6, 9},   {1, 2, 3, 6, 7, 10},   {2, 3, 4, 7, 8, 11},
                                    {5, 6, 7, 9, 10, 12}, {6, 7, 8, 10, 11, 13}, {9, 10, 11, 12, 13, 14}};
    static const i64 two[6] = {1, 2, 1, 2, 2, 1}, weight[15] = {12, 3, 2, 3, 12, 3, 1, 1, 3, 2, 1, 2, 3, 3, 12};
    for (int k = 0; k < 6; k++) a[k] = sub(r[from[k] + 1], r[from[k]]), b[k] = sub(r[up[k]], r[from[k]]);
    i64 s[15] = {0};
#pragma clang loop unroll(full)
    for (int k1 = 0; k1 < 6; k1++)
#pragma clang loop unroll(full)
        for (int k2 = 0; k2 < 6; k2++) s[place[k1][k2]] += two[k1] * two[k2] * det(a[k1], b[k2]);
    for (int k = 0; k < 15; k++) c[k] = weight[k] * s[k];
}

static int none_negative(const i64 *c) {
    i64 any = 0;
    for (int k = 0; k < 15; k++) any |= c[k];
    return any >= 0;
}

static int pass10(const i64 *c) { return none_negative(c) & (c[0] > 0) & (c[4] > 0) & (c[14] > 0); }

// The sums of a line of two to five values by Pascal's rule: low[k] of the first k + 1 of them, high[k] of the last.
struct sums {
    i64 low[5], high[5];
};

static struct sums sums2(i64 a, i64 b) { return (struct sums){{a, a + b}, {b, a + b}}; }

static struct sums sums3(i64 a, i64 b, i64 c) {
    i64 ab = a + b, bc = b + c, all = ab + bc;
    return (struct sums){{a, ab, all}, {c, bc, all}};
}

static struct sums sums4(i64 a, i64 b, i64 c, i64 d) {
    i64 ab = a + b, bc = b + c, cd = c + d, abc = ab + bc, bcd = bc + cd, all = abc + bcd;
    return (struct sums){{a, ab, abc, all}, {d, cd, bcd, all}};
}

static struct sums sums5(i64 a, i64 b, i64 c, i64 d, i64 e) {
    i64 ab = a + b, bc = b + c, cd = c + d, de = d + e, abc = ab + bc, bcd = bc + cd, cde = cd + de;
    i64 abcd = abc + bcd, bcde = bcd + cde, all = abcd + bcde;
    return (struct sums){{a, ab, abc, abcd, all}, {e, de, cde, bcde, all}};
}

static void cut10(const i64 *c, i64 (*q)[15]) {
    // lines from corner 0 to corner 1; from the sums next to corner 0 to corner 2; and from those next to corner 1
    struct sums r0 = sums5(c[0], c[1], c[2], c[3], c[4]), r1 = sums4(c[5], c[6], c[7], c[8]);
    struct sums r2 = sums3(c[9], c[10], c[11]), r3 = sums2(c[12], c[13]);
    struct sums u0 = sums5(c[0], c[5], c[9], c[12], c[14]), u1 = sums4(r0.low[1], r1.low[1], r2.low[1], r3.low[1]);
    struct sums u2 = sums3(r0.low[2], r1.low[2], r2.low[2]), u3 = sums2(r0.low[3], r1.low[3]);
    struct sums v0 = sums5(c[4], c[8], c[11], c[13], c[14]), v1 = sums4(r0.high[1], r1.high[1], r2.high[1], r3.high[1]);
    struct sums v2 = sums3(r0.high[2], r1.high[2], r2.high[2]), v3 = sums2(r0.high[3], r1.high[3]);
    i64 e01 = r0.low[4], e02 = u0.low[4], e12 = v0.low[4];
    // what has the middles of all edges in it, or both next to corner 2: a middle is the sum of the other two less a corner twice
    i64 m211 = v2.low[2] + v1.low[3] - 2 * v1.low[2], m121 = u2.low[2] + u1.low[3] - 2 * u1.low[2];
    i64 m112 = u3.low[1] + u2.low[2] - 2 * u2.low[1], t = c[10] + c[13];
    i64 w112 = 4 * (t + u0.high[1]), w211 = 2 * (c[6] + c[10] + t + u0.high[2]);
    i64 w310 = u1.low[3] + e02 - 2 * u0.low[3], w130 = v1.low[3] + e12 - 2 * v0.low[3];
    i64 w220 = m121 - w310 + w211, w121 = w220 - m211 + w130;
    i64 all[4][15] = {{16 * c[0], 8 * u1.low[0], 4 * u2.low[0], 2 * u3.low[0], e01,
                       8 * u0.low[1], 4 * u1.low[1], 2 * u2.low[1], u3.low[1],
                       4 * u0.low[2], 2 * u1.low[2], u2.low[2],
                       2 * u0.low[3], u1.low[3],
                       e02},
                      {e01, 2 * v3.low[0], 4 * v2.low[0], 8 * v1.low[0], 16 * c[4],
                       v3.low[1], 2 * v2.low[1], 4 * v1.low[1], 8 * v0.low[1],
                       v2.low[2], 2 * v1.low[2], 4 * v0.low[2],
                       v1.low[3], 2 * v0.low[3],
                       e12},
                      {e02, w310, w220, w130, e12,
                       2 * u0.high[3], w211, w121, 2 * v0.high[3],
                       4 * u0.high[2], w112, 4 * v0.high[2],
                       8 * u0.high[1], 8 * v0.high[1],
                       16 * c[14]},
                      {e12, w130, w220, w310, e02,
                       v1.low[3], m211, m121, u1.low[3],
                       v2.low[2], m112, u2.low[2],
                       v3.low[1], u3.low[1],
                       e01}};
    __builtin_memcpy(q, all, sizeof all);
}

// as walk6
static void walk10(struct state *s, const i64 *c, u32 level, u32 i, u32 j, u32 d) {
    if (pass10(c)) {
        kept(s, level);
        return;
    }
    if ((c[0] <= 0) | (c[4] <= 0) | (c[14] <= 0) | (s->stop <= level)) {
        point(s, c[0], level, i, j), point(s, c[4], level, i + d, j), point(s, c[14], level, i, j + d);
        s->failing++;
        return;
    }
    i64 q[4][15];
    cut10(c, q);
    walk10(s, q[0], level + 1, 2 * i, 2 * j, d);
    walk10(s, q[1], level + 1, 2 * i + d, 2 * j, d);
    walk10(s, q[2], level + 1, 2 * i, 2 * j + d, d);
    walk10(s, q[3], level + 1, 2 * i + d, 2 * j + d, -d);
}

// ---- blocks
static u32 get(const u8 *p) {
    u32 v;
    __builtin_memcpy(&v, p, 4);
    return v;
}

static struct judged judge(const u8 *p) {
    i32 n[18];
    i64 c[16];
    struct state s = {.stop = p[5]};
    __builtin_memcpy(n, p + 8, sizeof n);
    if (p[4] == 6) {
        values6(n, c);
        walk6(&s, c, 0, 0, 0, 1);
    } else {
        values9(n, p[4] == 8, c);
        walk9(&s, c, 0, 0, 0);
    }
    return told(&s, p[5]);
}

// the control values of the ten-node triangle of a record
static void values_of(const u8 *p, i64 *c) {
    i32 n[20];
    __builtin_memcpy(n, p + 4, sizeof n);
    values10(n, c);
}

static struct judged judge10(const u8 *p) {
    i64 c[15];
    struct state s = {.stop = get(p)};
    values_of(p, c);
    walk10(&s, c, 0, 0, 0, 1);
    return told(&s, get(p));
}

// one byte more than 800 records have tells a longer input
static u8 in[67201], out[65536];
static unsigned long at;

static void text(const char *s) {
    while (*s) out[at++] = *s++;
}

static void number(u32 n) {
    char d[10];
    int k = 0;
    do d[k++] = '0' + n % 10, n /= 10;
    while (n);
    while (k) out[at++] = d[--k];
}

static void integer(i64 n) {
    char d[20];
    int k = 0;
    if (n < 0) out[at++] = '-';
    // the remainders of a negative number are not above zero
    do d[k++] = '0' + (n < 0 ? -(n % 10) : n % 10), n /= 10;
    while (n);
    while (k) out[at++] = d[--k];
}

static const char *const words[] = {" valid ", " invalid ", " undecided "};

static u32 most_cells(u32 count, u32 rounds) {
    u32 most = 0;
    for (u32 r = 0; r < rounds; r++)
        for (u32 k = 0; k < count; k++) {
            struct judged v = judge(in + 9 + 80 * k);
            if (most < v.cells) most = v.cells;
        }
    return most;
}

static void list(u32 count) {
    text("CEL 1 "), number(count), text("\n");
    for (u32 k = 0; k < count; k++) {
        const u8 *p = in + 9 + 80 * k;
        struct judged v = judge(p);
        number(get(p)), text(" "), number(p[4]), text(words[v.word]);
        number(v.level), text(" "), number(v.i), text(" "), number(v.j), text(" "), number(v.cells), text("\n");
    }
}

static u32 most_cells10(u32 count, u32 rounds) {
    u32 most = 0;
    for (u32 r = 0; r < rounds; r++)
        for (u32 k = 0; k < count; k++) {
            struct judged v = judge10(in + 84 * k);
            if (most < v.cells) most = v.cells;
        }
    return most;
}

static u32 clear10(u32 count, u32 rounds) {
    u32 clear = 0;
    for (u32 r = 0; r < rounds; r++)
        for (u32 k = 0; k < count; k++) {
            i64 c[15];
            values_of(in + 84 * k, c);
            clear += none_negative(c);
        }
    return clear;
}

static void list10(u32 count) {
    for (u32 k = 0; k < count; k++) {
        struct judged v = judge10(in + 84 * k);
        text(words[v.word] + 1), number(v.level), text(" "), number(v.i), text(" "), number(v.j), text(" ");
        integer(v.value), text(" "), number(v.cells), text("\n");
    }
}

// the number that is told, or 64
static u32 times(const char *s) {
    u32 n = 0;
    if (!s) return 64;
    while (*s) n = 10 * n + *s++ - '0';
    return n;
}

static int blocks(unsigned long size, char mode, u32 rounds) {
    u32 count = get(in + 5);
    if (size != 9 + 80ul * count) return 1;
    if (mode == 'r')
        number(most_cells(count, rounds)), text("\n");
    else
        list(count);
    return 0;
}

static int tens(unsigned long size, char mode, u32 rounds) {
    u32 count = size / 84;
    if (size != 84ul * count || count > 800) return 1;
    if (mode == 'r')
        number(most_cells10(count, rounds)), text("\n");
    else if (mode == 'v')
        number(clear10(count, rounds)), text("\n");
    else
        list10(count);
    return 0;
}

int main(int argc, char **argv) {
    unsigned long size = 0;
    long got;
    while (size < sizeof in && (got = read(0, in + size, sizeof in - size)) > 0) size += got;
    if (argc < 2) return 1;
    int ten = argv[1][0] == 't';
    argv += ten;
    if (!argv[1]) return 1;
    u32 rounds = times(argv[2]);
    int failed = ten ? tens(size, argv[1][0], rounds) : blocks(size, argv[1][0], rounds);
    write(1, out, at);
    return failed;
}
