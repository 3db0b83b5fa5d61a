// The same reading of a Gmsh text in C, for ./bench: the same rules (docs/GMSH.md) and the same answers, with no proof. No heap: node
// numbers are marked in windows of W bytes, and the places of the first nodes that elements name are kept in a table of H slots.
//   mesh LIMIT      reads a text from standard input, appends its elements to an empty block and prints as `mesh_file` does
// No header is used, so that it compiles for x86-64 on either processor.
typedef unsigned char u8;
typedef unsigned u32;
typedef unsigned long long u64;
typedef long long i64;
long read(int, void *, unsigned long);
long write(int, const void *, unsigned long);
void *memset(void *, int, unsigned long);

enum { W = 1048576, H = 16384, STEPS = 64, ROOM = 67108864, RECORDS = 800 };

// no number of 32 bits
static const u64 none = 4294967296;

static u8 text[ROOM + 1];
static u64 size;

// ---- words and rows
struct row {
    int found;
    u64 start, end, next; // the first byte of a word, the line's end, the next line
};

static int blank(u8 c) { return c == 32 || c == 9 || c == 13; }

static int is_digit(u8 c) { return '0' <= c && c <= '9'; }

static struct row row_from(u64 at) {
    while (at < size && (blank(text[at]) || text[at] == 10)) at++;
    struct row r = {at < size, at, at, at};
    while (r.end < size && text[r.end] != 10) r.end++;
    r.next = r.end < size ? r.end + 1 : r.end;
    return r;
}

static u64 word_end(u64 end, u64 at) {
    while (at < end && !blank(text[at])) at++;
    return at;
}

static u64 word_next(u64 end, u64 at) {
    while (at < end && blank(text[at])) at++;
    return at;
}

static u64 digits_end(u64 end, u64 at) {
    while (at < end && is_digit(text[at])) at++;
    return at;
}

static u64 unsign(u64 a, u64 e) { return a < e && (text[a] == '+' || text[a] == '-') ? a + 1 : a; }

static int same(u64 a, u64 e, const char *s) {
    while (a < e && *s && text[a] == (u8)*s) a++, s++;
    return a == e && !*s;
}

static int same_bytes(u64 a, u64 b, u64 n) {
    while (n && text[a] == text[b]) a++, b++, n--;
    return !n;
}

// whether a row has one word, and whether it is this one
static int alone(struct row r) { return word_next(r.end, word_end(r.end, r.start)) == r.end; }

static int is_mark(struct row r, const char *s) { return r.found && alone(r) && same(r.start, word_end(r.end, r.start), s); }

// ---- numbers
static u64 whole_number(u64 a, u64 e) {
    u64 v = 0;
    if (a == e) return none;
    for (; a < e; a++) {
        if (!is_digit(text[a])) return none;
        v = 10 * v + (text[a] - '0');
        if (v >= none) return none;
    }
    return v;
}

static int is_tag(u64 a, u64 e) {
    a = unsign(a, e);
    return a < e && digits_end(e, a) == e;
}

static int is_number(u64 a, u64 e) {
    a = unsign(a, e);
    u64 b = digits_end(e, a);
    int any = b > a;
    if (b < e && text[b] == '.') {
        u64 c = digits_end(e, b + 1);
        any |= c > b + 1;
        b = c;
    }
    if (!any) return 0;
    return b == e || ((text[b] == 'e' || text[b] == 'E') && is_tag(b + 1, e));
}

static int is_whole(u64 a, u64 e) {
    a = unsign(a, e);
    u64 b = digits_end(e, a);
    if (b == a) return 0;
    if (b == e) return 1;
    if (text[b] != '.' || b + 1 == e) return 0;
    for (b++; b < e; b++)
        if (text[b] != '0') return 0;
    return 1;
}

// the value of a whole coordinate, digits past 2^40 left out
static i64 value(u64 a, u64 e) {
    i64 v = 0;
    for (u64 b = unsign(a, e); b < e && is_digit(text[b]); b++)
        if (v < 1ll << 40) v = 10 * v + (text[b] - '0');
    return text[a] == '-' ? -v : v;
}

// ---- nodes and elements
struct node {
    int ok, whole;
    u64 number;
    i64 x, y;
};

static struct node node_at(u64 start, u64 end) {
    struct node n = {0, 1, 0, 0, 0};
    u64 a = start, e = word_end(end, a);
    n.number = whole_number(a, e);
    if (n.number == none || n.number == 0) return n;
    for (int k = 0; k < 3; k++) {
        a = word_next(end, e), e = word_end(end, a);
        if (!is_number(a, e)) return n;
        int whole = is_whole(a, e);
        i64 v = whole ? value(a, e) : 0;
        if (!whole || (k == 2 && v)) n.whole = 0;
        if (k == 0) n.x = v;
        if (k == 1) n.y = v;
    }
    n.ok = word_next(end, e) == end;
    return n;
}

struct element {
    int ok;
    u64 number, type, count, nodes[9];
};

static struct element element_at(u64 start, u64 end) {
    struct element r = {0};
    u64 a = start, e = word_end(end, a);
    r.number = whole_number(a, e);
    if (r.number == none || !r.number) return r;
    a = word_next(end, e), e = word_end(end, a);
    r.type = whole_number(a, e);
    if (r.type == none || !r.type) return r;
    a = word_next(end, e), e = word_end(end, a);
    u64 tags = whole_number(a, e);
    if (tags == none) return r;
    for (; tags; tags--) {
        a = word_next(end, e), e = word_end(end, a);
        if (!is_tag(a, e)) return r;
    }
    while ((a = word_next(end, e)) != end) {
        e = word_end(end, a);
        u64 n = whole_number(a, e);
        if (n == none || !n) return r;
        if (r.count < 9) r.nodes[r.count] = n;
        r.count++;
    }
    u64 want = r.type == 9 ? 6 : r.type == 10 ? 9 : r.type == 16 ? 8 : r.count;
    r.ok = r.count > 0 && r.count == want;
    return r;
}

static int ours(u64 type) { return type == 9 || type == 10 || type == 16; }

// ---- sections
enum part { OUTSIDE, NODES, ELEMENTS };
enum kind { DONE, BAD, NODE, ELEMENT };
struct cursor {
    u64 at, left;
    enum part part;
    int seen;
};
struct item {
    enum kind kind;
    u64 start, end;
    struct cursor next;
};

static int format_row(struct row r) {
    u64 a = r.start, e = word_end(r.end, a);
    if (!r.found || e - a < 3 || !same(a, a + 3, "2.2")) return 0;
    for (u64 k = a + 3; k < e; k++)
        if (text[k] != '0') return 0;
    a = word_next(r.end, e), e = word_end(r.end, a);
    if (whole_number(a, e) != 0) return 0;
    a = word_next(r.end, e), e = word_end(r.end, a);
    return whole_number(a, e) == 8 && word_next(r.end, e) == r.end;
}

// the place behind the row that ends the section of a mark; past the text where there is none
static u64 section_end(struct row mark) {
    u64 name = mark.start + 1, n = word_end(mark.end, mark.start) - name, at = mark.next;
    for (;;) {
        struct row r = row_from(at);
        if (!r.found) return size + 1;
        u64 e = word_end(r.end, r.start);
        at = r.next;
        if (e - r.start == n + 4 && same(r.start, r.start + 4, "$End") && same_bytes(r.start + 4, name, n) && alone(r)) return at;
    }
}

// the next node or element row; marks, counts and other sections are walked over
static struct item next_item(struct cursor c) {
    struct item i = {BAD, 0, 0, c};
    for (;;) {
        struct row r = row_from(c.at);
        if (c.left) {
            if (!r.found) return i;
            c.left--, c.at = r.next;
            i.kind = c.part == NODES ? NODE : ELEMENT, i.start = r.start, i.end = r.end, i.next = c;
            return i;
        }
        if (c.part) {
            if (!is_mark(r, c.part == NODES ? "$EndNodes" : "$EndElements")) return i;
            c.part = OUTSIDE, c.at = r.next;
            continue;
        }
        if (!r.found) {
            i.kind = c.seen ? DONE : BAD;
            return i;
        }
        if (!alone(r) || text[r.start] != '$') return i;
        c.at = r.next;
        int nodes = is_mark(r, "$Nodes"), elements = is_mark(r, "$Elements");
        if (is_mark(r, "$MeshFormat")) {
            struct row a = row_from(c.at), b = row_from(a.next);
            if (!format_row(a) || !is_mark(b, "$EndMeshFormat")) return i;
            c.at = b.next, c.seen = 1;
        } else if (nodes || elements) {
            struct row a = row_from(c.at);
            if (!c.seen || !a.found || !alone(a)) return i;
            c.left = whole_number(a.start, word_end(a.end, a.start));
            if (c.left == none) return i;
            c.part = nodes ? NODES : ELEMENTS, c.at = a.next;
        } else if ((c.at = section_end(r)) > size)
            return i;
    }
}

static const struct cursor start;

struct form {
    int ok, whole;
    u64 ours, passed;
};

static struct form form(void) {
    struct form f = {1, 1, 0, 0};
    for (struct item i = next_item(start); i.kind != DONE; i = next_item(i.next)) {
        if (i.kind == BAD) {
            f.ok = 0;
            return f;
        }
        if (i.kind == NODE) {
            struct node n = node_at(i.start, i.end);
            f.ok &= n.ok, f.whole &= n.whole;
        } else {
            struct element e = element_at(i.start, i.end);
            f.ok &= e.ok;
            if (ours(e.type)) f.ours++;
            else f.passed++;
        }
        if (!f.ok) return f;
    }
    return f;
}

// ---- numbers listed twice, and not at all
struct marked {
    int twice;
    u64 above; // the next window that has a number
};

static struct marked mark(u8 *flags, u64 window) {
    struct marked m = {0, none};
    memset(flags, 0, W);
    for (struct item i = next_item(start); i.kind != DONE; i = next_item(i.next)) {
        if (i.kind != NODE) continue;
        u64 n = whole_number(i.start, word_end(i.end, i.start)), w = n / W;
        if (w == window) m.twice |= flags[n % W], flags[n % W] = 1;
        else if (w > window && w < m.above) m.above = w;
    }
    return m;
}

static int twice(void) {
    u8 flags[W];
    for (u64 window = 0; window != none;) {
        struct marked m = mark(flags, window);
        if (m.twice) return 1;
        window = m.above;
    }
    return 0;
}

static int unlisted(void) {
    u8 flags[W];
    for (u64 window = 0, above; window != none; window = above) {
        mark(flags, window);
        above = none;
        for (struct item i = next_item(start); i.kind != DONE; i = next_item(i.next)) {
            if (i.kind != ELEMENT) continue;
            struct element e = element_at(i.start, i.end);
            for (u64 k = 0; ours(e.type) && k < e.count; k++) {
                u64 w = e.nodes[k] / W;
                if (w == window && !flags[e.nodes[k] % W]) return 1;
                if (w > window && w < above) above = w;
            }
        }
    }
    return 0;
}

// ---- places of nodes
struct hints {
    u32 number[H];
    u64 place[H];
};

static u64 slot(const struct hints *h, u64 n) {
    u64 s = n * 2654435761 % none / 65536 % H;
    for (int k = 0; k < STEPS; k++, s = (s + 1) % H)
        if (h->number[s] == n || !h->number[s]) return s;
    return H;
}

static void fill(struct hints *h) {
    memset(h, 0, sizeof *h);
    int seen = 0;
    for (struct item i = next_item(start); i.kind != DONE && seen <= RECORDS; i = next_item(i.next)) {
        if (i.kind != ELEMENT) continue;
        struct element e = element_at(i.start, i.end);
        if (!ours(e.type)) continue;
        seen++;
        for (u64 k = 0; k < e.count; k++) {
            u64 s = slot(h, e.nodes[k]);
            if (s < H) h->number[s] = e.nodes[k];
        }
    }
    for (struct item i = next_item(start); i.kind != DONE; i = next_item(i.next)) {
        if (i.kind != NODE) continue;
        u64 n = whole_number(i.start, word_end(i.end, i.start)), s = slot(h, n);
        if (s < H && h->number[s] == n) h->place[s] = i.start;
    }
}

static u64 find(const struct hints *h, u64 n) {
    u64 s = slot(h, n);
    if (s < H && h->number[s] == n && h->place[s]) return h->place[s];
    for (struct item i = next_item(start); i.kind != DONE; i = next_item(i.next))
        if (i.kind == NODE && whole_number(i.start, word_end(i.end, i.start)) == n) return i.start;
    return 0;
}

// ---- the block
static u8 block[9 + 80 * RECORDS] = "CEL\1";

static void put(u8 *b, u32 v) {
    for (int k = 0; k < 4; k++) b[k] = v >> 8 * k;
}

// whether n numbers lie within most, as they stand or, of i32, from the first node
static int ranged(const i64 *coords, int n, i64 most) {
    int stand = 1, near = 1;
    for (int m = 0; m < n; m++) {
        i64 x = coords[m], d = x - coords[m % 2];
        stand &= -most <= x && x <= most;
        near &= -most <= d && d <= most && -2147483648ll <= x && x <= 2147483647ll;
    }
    return stand | near;
}

// whether two corners stand at one place
static int collapsed(const i64 *coords, int kind) {
    static const u8 corners[3][4] = {{0, 1, 2}, {0, 2, 5, 7}, {0, 2, 6, 8}};
    const u8 *at = corners[kind == 6 ? 0 : kind - 7];
    for (int a = 0, n = kind == 6 ? 3 : 4; a < n; a++)
        for (int b = a + 1; b < n; b++)
            if (coords[2 * at[a]] == coords[2 * at[b]] && coords[2 * at[a] + 1] == coords[2 * at[b] + 1]) return 1;
    return 0;
}

// the element as record k of the block; its code
static int append(const struct hints *h, struct element e, u64 limit, i64 last, u64 k) {
    static const u8 orders[3][9] = {{0, 1, 2, 3, 4, 5}, {0, 4, 1, 7, 5, 3, 6, 2}, {0, 4, 1, 7, 8, 5, 3, 6, 2}};
    int kind = e.type == 9 ? 6 : e.type == 10 ? 9 : 8, most = kind == 6 ? 65536 : 2048;
    const u8 *order = orders[kind == 6 ? 0 : kind - 7];
    i64 coords[18] = {0};
    for (u64 m = 0; m < e.count; m++) {
        u64 place = find(h, e.nodes[order[m]]);
        struct node n = node_at(place, row_from(place).end);
        coords[2 * m] = n.x, coords[2 * m + 1] = n.y;
    }
    if (limit > (kind == 6 ? 10 : 4)) return 2;
    if (!ranged(coords, 2 * kind, most)) return 4;
    if (collapsed(coords, kind)) return 21;
    if ((i64)e.number <= last) return 10;
    if (k == RECORDS) return 11;
    u8 *r = block + 9 + 80 * k;
    put(r, e.number), r[4] = kind, r[5] = limit;
    for (int m = 0; m < 18; m++) put(r + 8 + 4 * m, coords[m]);
    return 0;
}

// the code; on success with the number of elements taken
static int append_mesh(u64 limit, struct form *f) {
    *f = form();
    if (!f->ok || twice()) return 13;
    if (!f->whole) return 14;
    if (unlisted()) return 15;
    struct hints h;
    fill(&h);
    u64 count = 0;
    i64 last = -1;
    for (struct item i = next_item(start); i.kind != DONE; i = next_item(i.next)) {
        if (i.kind != ELEMENT) continue;
        struct element e = element_at(i.start, i.end);
        if (!ours(e.type)) continue;
        int code = append(&h, e, limit, last, count);
        if (code) return code;
        last = e.number, count++;
    }
    put(block + 5, count);
    return 0;
}

// ---- the line
static char line[128];
static u64 at;

static void number(u64 n, char behind) {
    char d[20];
    int k = 0;
    do d[k++] = '0' + n % 10, n /= 10;
    while (n);
    while (k) line[at++] = d[--k];
    line[at++] = behind;
}

int main(int argc, char **argv) {
    long got;
    u64 limit = 0;
    struct form f;
    for (char *c = argc > 1 ? argv[1] : "4"; *c; c++) limit = 10 * limit + (*c - '0');
    while (size < sizeof text && (got = read(0, text + size, sizeof text - size)) > 0) size += got;
    if (size > ROOM) return 1;
    int code = append_mesh(limit, &f);
    u64 used = 9 + 80 * f.ours;
    number(code, ' '), number(0, ' ');
    number(code ? 0 : used, ' '), number(code ? 0 : f.ours, ' '), number(code ? 0 : f.passed, '\n');
    write(1, line, at);
    if (!code) write(1, block, used);
    return 0;
}
