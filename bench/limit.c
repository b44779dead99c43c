/* How fast one core can turn MRT records into lines of `-m`: the yardstick of the bench.
 *
 *   cc -O2 -o limit limit.c
 *   ./limit FILE [change] > lines
 *
 * A decoder without allocation, with a window of the input, a buffer of the output and tables of
 * numbers. It reads TABLE_DUMP, PEER_INDEX_TABLE, RIB_IPV4_UNICAST, RIB_IPV6_UNICAST, and the
 * messages and state changes of BGP4MP and BGP4MP_ET.
 *
 * It measures time, and is no reference for behaviour: it counts and skips records that don't fit,
 * but of an attribute that repeats it takes the last, doesn't join AS4_PATH, and checks the lengths
 * of attributes only where it reads them. Its lines are right for well-formed records without
 * AS4_PATH.
 */
#include <fcntl.h>
#include <stdint.h>
#include <stdio.h>
#include <string.h>
#include <unistd.h>

typedef uint8_t u8;
typedef uint16_t u16;
typedef uint32_t u32;

#define WINDOW (16u * 1024 * 1024 + 12)
#define CHUNK (512u * 1024)
#define OUT_KEEP (128u * 1024)
#define OUT_ROOM (2u * 1024 * 1024)

static u8 in[WINDOW + CHUNK];
static char out[OUT_KEEP + OUT_ROOM];
static char *o = out;
static unsigned long bad, unsupported;

static u32 g16(const u8 *p) { return (u32)p[0] << 8 | p[1]; }
static u32 g32(const u8 *p) {
    u32 x;
    memcpy(&x, p, 4);
    return __builtin_bswap32(x);
}

/* ---------------------------------------------------------------- text */
static char dec4[10000][4];  /* "0000".."9999" */
static char var4[10000][4];  /* left-aligned */
static u8 var4n[10000];
static char oct[256][4];     /* "0.", "255." */
static u8 octn[256];

static void tables(void) {
    for (int i = 0; i < 10000; i++) {
        char *t = dec4[i];
        t[0] = (char)('0' + i / 1000), t[1] = (char)('0' + i / 100 % 10);
        t[2] = (char)('0' + i / 10 % 10), t[3] = (char)('0' + i % 10);
        var4n[i] = (u8)(i < 10 ? 1 : i < 100 ? 2 : i < 1000 ? 3 : 4);
        memcpy(var4[i], t + 4 - var4n[i], var4n[i]);
    }
    for (int i = 0; i < 256; i++) {
        octn[i] = (u8)(var4n[i] + 1);
        memcpy(oct[i], var4[i], var4n[i]);
        oct[i][var4n[i]] = '.';
    }
}

static inline char *dec(char *p, u32 x) {
    if (x < 10000) {
        memcpy(p, var4[x], 4);
        return p + var4n[x];
    }
    u32 h = x / 10000, l = x - h * 10000;
    if (h < 10000) {
        memcpy(p, var4[h], 4);
        p += var4n[h];
    } else {
        u32 hh = h / 10000, hl = h - hh * 10000;
        memcpy(p, var4[hh], 4);
        p += var4n[hh];
        memcpy(p, dec4[hl], 4);
        p += 4;
    }
    memcpy(p, dec4[l], 4);
    return p + 4;
}

static inline char *ip4(char *p, const u8 *a) {
    for (int i = 0; i < 4; i++) {
        memcpy(p, oct[a[i]], 4);
        p += octn[a[i]];
    }
    return p - 1;
}

static char *ip6(char *p, const u8 *a) {
    static const char hex[] = "0123456789abcdef";
    int best = -1, bn = 1, run = 0;
    for (int i = 0; i < 8; i++) {
        if (a[2 * i] | a[2 * i + 1]) run = 0;
        else if (++run > bn) bn = run, best = i - run + 1;
    }
    for (int i = 0; i < 8; i++) {
        if (i == best) {
            *p++ = ':';
            if (!i) *p++ = ':';
            i += bn - 1;
            continue;
        }
        u32 g = g16(a + 2 * i);
        if (g >= 0x1000) *p++ = hex[g >> 12];
        if (g >= 0x100) *p++ = hex[g >> 8 & 15];
        if (g >= 0x10) *p++ = hex[g >> 4 & 15];
        *p++ = hex[g & 15];
        if (i < 7) *p++ = ':';
    }
    return p;
}

static inline char *lit(char *p, const char *s, size_t n) {
    memcpy(p, s, n);
    return p + n;
}
#define LIT(p, s) lit(p, s, sizeof s - 1)

static int flush(void) {
    for (char *p = out; p < o;) {
        ssize_t k = write(1, p, (size_t)(o - p));
        if (k <= 0) return 0;
        p += k;
    }
    o = out;
    return 1;
}

/* ---------------------------------------------------------- attributes */
typedef struct {
    const u8 *path, *path_end, *nh4, *nh, *agg, *com;
    u32 com_n, med, pref, agg_n;
    int nh_n, origin, atomic;
    const u8 *mpr, *mpr_end, *mpu, *mpu_end; /* prefixes of MP attributes */
    int mpr_v6, mpu_v6;
} Attrs;

static int attrs(const u8 *p, const u8 *e, Attrs *a, int rib) {
    memset(a, 0, sizeof *a);
    a->origin = -1;
    while (p < e) {
        if (e - p < 3) return 0;
        u32 f = p[0], t = p[1], n = p[2];
        p += 3;
        if (f & 0x10) {
            if (p == e) return 0;
            n = n << 8 | *p++;
        }
        if ((u32)(e - p) < n) return 0;
        switch (t) {
        case 1: if (n != 1 || *p > 2) return 0; a->origin = *p; break;
        case 2: a->path = p, a->path_end = p + n; break;
        case 3: if (n != 4) return 0; a->nh4 = p; break;
        case 4: if (n != 4) return 0; a->med = g32(p); break;
        case 5: if (n != 4) return 0; a->pref = g32(p); break;
        case 6: if (n) return 0; a->atomic = 1; break;
        case 7: if (n != 6 && n != 8) return 0; a->agg = p, a->agg_n = n; break;
        case 8: if (n & 3) return 0; a->com = p, a->com_n = n; break;
        case 14: {
            const u8 *q = p, *z = p + n;
            if (!n) return 0;
            if (!rib || *q == 0) {
                if (n < 3) return 0;
                if (!rib && (g16(q) - 1 > 1 || q[2] != 1)) break;
                a->mpr_v6 = q[1] == 2;
                q += 3;
            }
            if (q == z) return 0;
            u32 k = *q++;
            if ((k != 4 && k != 16 && k != 32) || (u32)(z - q) < k) return 0;
            a->nh = q, a->nh_n = (int)k, q += k;
            if (!rib) {
                if (q == z) return 0;
                a->mpr = q + 1, a->mpr_end = z;
            }
            break;
        }
        case 15:
            if (rib) break;
            if (n < 3) return 0;
            if (g16(p) - 1 > 1 || p[2] != 1) break;
            a->mpu_v6 = p[1] == 2, a->mpu = p + 3, a->mpu_end = p + n;
            break;
        }
        p += n;
    }
    return 1;
}

/* path|origin| */
static char *path_text(char *p, const Attrs *a, int w) {
    const u8 *s = a->path, *e = a->path_end;
    static const char open[5] = " { ([", close[5] = " } )]";
    char *start = p;
    while (s < e) {
        if (e - s < 2) return 0;
        u32 t = s[0], n = s[1];
        s += 2;
        if (t - 1 > 3 || !n || (u32)(e - s) < n * (u32)w) return 0;
        if (t == 2) {
            for (; n; n--, s += w) p = dec(p, w == 4 ? g32(s) : g16(s)), *p++ = ' ';
        } else {
            char sep = t == 3 ? ' ' : ',';
            *p++ = open[t];
            for (; n; n--, s += w) p = dec(p, w == 4 ? g32(s) : g16(s)), *p++ = sep;
            p[-1] = close[t];
            *p++ = ' ';
        }
    }
    if (p > start) p--;
    *p++ = '|';
    if (a->origin == 0) p = LIT(p, "IGP|");
    else if (a->origin == 1) p = LIT(p, "EGP|");
    else if (a->origin == 2) p = LIT(p, "INCOMPLETE|");
    else *p++ = '|';
    return p;
}

/* |localpref|med|communities|AG|aggregator|\n */
static char *tail_text(char *p, const Attrs *a) {
    *p++ = '|';
    p = dec(p, a->pref);
    *p++ = '|';
    p = dec(p, a->med);
    *p++ = '|';
    if (a->com_n) {
        const u8 *c = a->com, *e = c + a->com_n;
        for (; c < e; c += 4) {
            u32 x = g32(c);
            if (__builtin_expect(x - 0xFFFFFF01u < 3, 0)) {
                if (x == 0xFFFFFF01u) p = LIT(p, "no-export ");
                else if (x == 0xFFFFFF02u) p = LIT(p, "no-advertise ");
                else p = LIT(p, "local-AS ");
            } else {
                p = dec(p, x >> 16);
                *p++ = ':';
                p = dec(p, x & 0xFFFF);
                *p++ = ' ';
            }
        }
        p--;
    }
    *p++ = '|';
    p = a->atomic ? LIT(p, "AG|") : LIT(p, "NAG|");
    if (a->agg) {
        p = dec(p, a->agg_n == 8 ? g32(a->agg) : g16(a->agg));
        *p++ = ' ';
        p = ip4(p, a->agg + a->agg_n - 4);
    }
    *p++ = '|';
    *p++ = '\n';
    return p;
}

static inline char *nh_text(char *p, const u8 *nh, int n) {
    return !n ? p : n == 4 ? ip4(p, nh) : ip6(p, nh);
}

/* ------------------------------------------------------------- records */
typedef struct { u8 n; char text[62]; } PeerText;
static PeerText peer[65536];
static u32 peer_count;

static int index_table(const u8 *p, const u8 *e) {
    if (e - p < 6) return 0;
    u32 v = g16(p + 4);
    p += 6;
    if ((u32)(e - p) < v + 2) return 0;
    p += v;
    u32 n = g16(p);
    p += 2;
    for (u32 i = 0; i < n; i++) {
        if (e - p < 5) return 0;
        u32 t = *p, al = t & 1 ? 16 : 4, sl = t & 2 ? 4 : 2;
        p += 5;
        if ((u32)(e - p) < al + sl) return 0;
        char *q = peer[i].text;
        q = al == 4 ? ip4(q, p) : ip6(q, p);
        p += al;
        *q++ = '|';
        q = dec(q, sl == 4 ? g32(p) : g16(p));
        p += sl;
        *q++ = '|';
        peer[i].n = (u8)(q - peer[i].text);
    }
    peer_count = n;
    return 1;
}

static const u8 *prefix_text(char **q, const u8 *p, const u8 *e, int v6) {
    u8 a[16] = {0};
    if (p == e) return 0;
    u32 l = *p++, n = (l + 7) / 8;
    if (l > (v6 ? 128u : 32u) || (u32)(e - p) < n) return 0;
    for (u32 i = 0; i < n; i++) a[i] = p[i];
    if (l & 7) a[n - 1] &= (u8)(0xFF00 >> (l & 7));
    *q = v6 ? ip6(*q, a) : ip4(*q, a);
    *(*q)++ = '/';
    *q = dec(*q, l);
    return p + n;
}

static int change;

static int rib(u32 time, const u8 *p, const u8 *e, int v6) {
    char head[64], pre[80], *h = head, *q = pre;
    if (e - p < 4) return 0;
    p = prefix_text(&q, p + 4, e, v6);
    if (!p || e - p < 2) return 0;
    *q++ = '|';
    size_t pn = (size_t)(q - pre);
    u32 n = g16(p);
    p += 2;
    h = LIT(h, "TABLE_DUMP2|");
    h = dec(h, time);
    h = LIT(h, "|B|");
    size_t hn = (size_t)(h - head);
    char *begin = o; /* the lines of a bad record are taken back */
    for (; n; n--) {
        if (e - p < 8) goto no;
        u32 i = g16(p), t = g32(p + 2), al = g16(p + 6);
        p += 8;
        if ((u32)(e - p) < al || i >= peer_count) goto no;
        Attrs a;
        if (!attrs(p, p + al, &a, 1)) goto no;
        p += al;
        char *w = o;
        if (__builtin_expect(change, 0)) {
            w = LIT(w, "TABLE_DUMP2|");
            w = dec(w, t);
            w = LIT(w, "|B|");
        } else {
            memcpy(w, head, 32); /* hn is at most 25 */
            w += hn;
        }
        memcpy(w, peer[i].text, 62);
        w += peer[i].n;
        memcpy(w, pre, pn);
        w += pn;
        if (!(w = path_text(w, &a, 4))) goto no;
        if (v6) w = a.nh ? nh_text(w, a.nh, a.nh_n) : nh_text(w, a.nh4, a.nh4 ? 4 : 0);
        else w = a.nh4 ? ip4(w, a.nh4) : nh_text(w, a.nh, a.nh_n);
        o = tail_text(w, &a);
        if (o > out + OUT_KEEP) {
            if (!flush()) return 0;
            begin = o;
        }
    }
    return 1;
no:
    o = begin;
    return 0;
}

static int entry(u32 time, const u8 *p, const u8 *e, int v6) {
    u32 al = v6 ? 16 : 4;
    if ((u32)(e - p) < 14 + 2 * al) return 0;
    u8 a[16];
    u32 l = p[4 + al];
    if (l > 8 * al) return 0;
    for (u32 i = 0; i < al; i++) a[i] = 8 * i < l ? p[4 + i] : 0;
    if (l & 7) a[l / 8] &= (u8)(0xFF00 >> (l & 7));
    p += 6 + al;
    u32 t = g32(p);
    const u8 *from = p + 4;
    p += 4 + al;
    u32 as = g16(p), n = g16(p + 2);
    p += 4;
    if ((u32)(e - p) < n) return 0;
    Attrs found;
    if (!attrs(p, p + n, &found, 1)) return 0;
    char *w = LIT(o, "TABLE_DUMP|");
    w = dec(w, change ? t : time);
    w = LIT(w, "|B|");
    w = v6 ? ip6(w, from) : ip4(w, from);
    *w++ = '|';
    w = dec(w, as);
    *w++ = '|';
    w = v6 ? ip6(w, a) : ip4(w, a);
    *w++ = '/';
    w = dec(w, l);
    *w++ = '|';
    if (!(w = path_text(w, &found, 2))) return 0;
    if (v6) w = found.nh ? nh_text(w, found.nh, found.nh_n) : nh_text(w, found.nh4, found.nh4 ? 4 : 0);
    else w = found.nh4 ? ip4(w, found.nh4) : nh_text(w, found.nh, found.nh_n);
    o = tail_text(w, &found);
    return 1;
}

static int bgp4mp(u32 time, u32 usec, int et, u32 sub, const u8 *p, const u8 *e) {
    char head[128], *h = head, *kind, *after;
    u32 w = sub >= 4 ? 4 : 2;
    if ((u32)(e - p) < 2 * w + 4) return 0;
    u32 as = w == 4 ? g32(p) : g16(p), afi;
    p += 2 * w + 2;
    afi = g16(p);
    p += 2;
    if (afi - 1 > 1) return 0;
    u32 al = afi == 1 ? 4 : 16;
    if ((u32)(e - p) < 2 * al) return 0;
    h = LIT(h, "BGP4MP");
    if (et) h = LIT(h, "_ET");
    *h++ = '|';
    h = dec(h, time);
    if (et) {
        *h++ = '.';
        memcpy(h, dec4[usec / 100], 4);
        h[4] = (char)('0' + usec / 10 % 10), h[5] = (char)('0' + usec % 10);
        h += 6;
    }
    *h++ = '|';
    kind = h;
    h = LIT(h, "A|");
    after = h;
    h = al == 4 ? ip4(h, p) : ip6(h, p);
    *h++ = '|';
    h = dec(h, as);
    *h++ = '|';
    p += 2 * al;
    size_t hn = (size_t)(h - head);
    if (sub == 0 || sub == 5) {
        if (e - p < 4) return 0;
        char *q = lit(o, head, (size_t)(kind - head));
        q = LIT(q, "STATE|");
        q = lit(q, after, (size_t)(h - after));
        q = dec(q, g16(p));
        *q++ = '|';
        q = dec(q, g16(p + 2));
        *q++ = '\n';
        o = q;
        return 1;
    }
    if (e - p < 19 || g16(p + 16) != (u32)(e - p)) return 0;
    if (p[18] != 2) return 1;
    p += 19;
    if (e - p < 4) return 0;
    u32 wl = g16(p);
    const u8 *wd = p + 2;
    if ((u32)(e - wd) < wl + 2) return 0;
    p = wd + wl;
    u32 n = g16(p);
    p += 2;
    if ((u32)(e - p) < n) return 0;
    Attrs a;
    if (!attrs(p, p + n, &a, 0)) return 0;
    p += n;
    char *begin = o, *q = o;
    *kind = 'W';
    for (const u8 *x = wd, *z = wd + wl; x < z;) {
        memcpy(q, head, hn), q += hn;
        if (!(x = prefix_text(&q, x, z, 0))) goto no;
        *q++ = '\n';
    }
    for (const u8 *x = a.mpu, *z = a.mpu_end; x < z;) {
        memcpy(q, head, hn), q += hn;
        if (!(x = prefix_text(&q, x, z, a.mpu_v6))) goto no;
        *q++ = '\n';
    }
    if (p < e || a.mpr < a.mpr_end) {
        static char t1[256 * 1024], t2[256 * 1024];
        *kind = 'A';
        char *s1 = t1, *s2;
        *s1++ = '|';
        if (!(s1 = path_text(s1, &a, (int)w))) goto no;
        s2 = tail_text(t2, &a);
        size_t n1 = (size_t)(s1 - t1), n2 = (size_t)(s2 - t2);
        for (int pass = 0; pass < 2; pass++) {
            const u8 *x = pass ? a.mpr : p, *z = pass ? a.mpr_end : e;
            char nh[48], *y = pass ? nh_text(nh, a.nh, a.nh_n) : nh_text(nh, a.nh4, a.nh4 ? 4 : 0);
            size_t nn = (size_t)(y - nh);
            while (x < z) {
                memcpy(q, head, hn), q += hn;
                if (!(x = prefix_text(&q, x, z, pass && a.mpr_v6))) goto no;
                memcpy(q, t1, n1), q += n1;
                memcpy(q, nh, nn), q += nn;
                memcpy(q, t2, n2), q += n2;
                if (q > out + OUT_KEEP) {
                    o = q;
                    if (!flush()) return 0;
                    q = begin = o;
                }
            }
        }
    }
    o = q;
    return 1;
no:
    o = begin;
    return 0;
}

int main(int c, char **v) {
    int fd = c > 1 && strcmp(v[1], "-") ? open(v[1], O_RDONLY) : 0;
    if (fd < 0) return perror("limit"), 3;
    change = c > 2 && !strcmp(v[2], "change");
    tables();
    u32 at = 0, end = 0;
    for (;;) {
        if (end - at >= 12) {
            const u8 *r = in + at;
            u32 n = g32(r + 8);
            if (n > 16777216) { fprintf(stderr, "limit: too long\n"); break; }
            if (end - at - 12 >= n) {
                u32 time = g32(r), type = g16(r + 4), sub = g16(r + 6);
                const u8 *b = r + 12, *e = b + n;
                int ok = 1;
                if (type == 12 && sub - 1 < 2) ok = entry(time, b, e, sub == 2);
                else if (type == 13 && sub == 1) ok = index_table(b, e);
                else if (type == 13 && (sub == 2 || sub == 4)) ok = rib(time, b, e, sub == 4);
                else if (type == 16 && (sub < 2 || sub == 4 || sub == 5)) ok = bgp4mp(time, 0, 0, sub, b, e);
                else if (type == 17 && (sub < 2 || sub == 4 || sub == 5)) {
                    if (n < 4 || g32(b) > 999999) ok = 0;
                    else ok = bgp4mp(time, g32(b), 1, sub, b + 4, e);
                } else unsupported++;
                bad += !ok;
                at += 12 + n;
                if (o > out + OUT_KEEP && !flush()) return 3;
                continue;
            }
        }
        memmove(in, in + at, end - at);
        end -= at, at = 0;
        ssize_t k = read(fd, in + end, CHUNK < sizeof in - end ? CHUNK : sizeof in - end);
        if (k < 0) return 3;
        if (!k) {
            if (end) fprintf(stderr, "limit: cut record\n");
            break;
        }
        end += (u32)k;
    }
    if (!flush()) return 3;
    if (bad | unsupported) fprintf(stderr, "limit: %lu malformed, %lu unsupported\n", bad, unsupported);
    return 0;
}
