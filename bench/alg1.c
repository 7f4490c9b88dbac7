/* Algorithms 1 and 2 of document 004.
 *
 * Compiled as it is: `alg1`, the algorithms as they stand, each loop and test in its printed place.
 * Compiled with -DPLAIN: `plain`, the same loops with what any programmer would do at first sight: each test stands in
 * the outermost loop that knows its variables, the cheap tests come before `reachable`, and which jobs conflict is
 * worked out once for a sheet.
 *
 * The walk is not in document 004. It asks the same tests for one danger at a time.
 */
#include <stdbool.h>
#include <string.h>
#include "records.h"

#ifdef PLAIN
#define SIDE plain
#define NAME "plain"
#else
#define SIDE alg1
#define NAME "alg1"
#endif

struct op { uint8_t kind; uint16_t object; };
struct job { uint8_t count; struct op op[OPS]; };
struct sheet {
    unsigned jobs, objects;
    struct job job[JOBS];
#ifdef PLAIN
    bool clash[JOBS][JOBS];
#endif
};

/* Reading. */

static uint32_t read_job(const uint8_t *b, size_t n, size_t at, unsigned objects, struct job *j)
{
    uint32_t fault = check_job(b, n, at);
    if (fault) return fault;
    j->count = b[at + 4];
    for (unsigned i = 0; i < j->count; i++) {
        size_t p = at + 5 + 3 * i;
        struct op o = { b[p], (uint16_t)two(b + p + 1) };
        if (o.kind != 1 && o.kind != 2) return refusal(PLANNER_REASON_KIND, p);
        if (o.object >= objects) return refusal(PLANNER_REASON_OBJECT, p + 1);
        for (unsigned k = 0; k < i; k++)
            if (j->op[k].kind == o.kind && j->op[k].object == o.object) return refusal(PLANNER_REASON_TWICE, p);
        j->op[i] = o;
    }
    return 0;
}

static bool conflicts(struct op a, struct op b) { return a.object == b.object && (a.kind == 2 || b.kind == 2); }
static bool ww(struct op a, struct op b) { return a.object == b.object && a.kind == 2 && b.kind == 2; }
static bool wr(struct op a, struct op b) { return a.object == b.object && a.kind == 2 && b.kind == 1; }
static bool rw(struct op a, struct op b) { return a.object == b.object && a.kind == 1 && b.kind == 2; }

#define EACH(i, job) for (unsigned i = 0; i < (job)->count; i++)

static bool jobs_clash(const struct job *a, const struct job *b)
{
    EACH(x, a) EACH(y, b) if (conflicts(a->op[x], b->op[y])) return true;
    return false;
}

static uint32_t read_sheet(const uint8_t *b, size_t n, struct sheet *s)
{
    uint32_t fault = check_head(b, n);
    if (fault) return fault;
    s->jobs = b[4];
    s->objects = two(b + 5);
    size_t at = 7;
    for (unsigned j = 0; j < s->jobs; j++) {
        fault = read_job(b, n, at, s->objects, &s->job[j]);
        if (fault) return fault;
        at += 5 + 3 * (size_t)s->job[j].count;
    }
    return check_end(b, n, at);
}

/* Reads a sheet that is asked about, and works out what is worked out once. */
static uint32_t open_sheet(const uint8_t *b, size_t n, struct sheet *s)
{
    uint32_t fault = read_sheet(b, n, s);
#ifdef PLAIN
    for (unsigned i = 0; !fault && i < s->jobs; i++)
        for (unsigned j = 0; j < s->jobs; j++) s->clash[i][j] = jobs_clash(&s->job[i], &s->job[j]);
#endif
    return fault;
}

/* Algorithm 1. */

static bool clash(const struct sheet *s, unsigned i, unsigned j)
{
#ifdef PLAIN
    return s->clash[i][j];
#else
    return jobs_clash(&s->job[i], &s->job[j]);
#endif
}

static void closure(const struct sheet *s, unsigned t1, unsigned t2, unsigned tm, bool tc[JOBS][JOBS])
{
    bool node[JOBS];
    unsigned n = s->jobs;
    for (unsigned i = 0; i < n; i++) node[i] = i != t1 && i != t2 && i != tm && !clash(s, t1, i);
    for (unsigned i = 0; i < n; i++)
        for (unsigned j = 0; j < n; j++) tc[i][j] = node[i] && node[j] && (i == j || clash(s, i, j));
    for (unsigned k = 0; k < n; k++)
        for (unsigned i = 0; i < n; i++)
            for (unsigned j = 0; j < n; j++)
                if (tc[i][k] && tc[k][j]) tc[i][j] = true;
}

static bool reachable(const struct sheet *s, unsigned t2, unsigned tm, unsigned t1)
{
    bool tc[JOBS][JOBS];
    if (t2 == tm) return true;
    if (clash(s, t2, tm)) return true;
    closure(s, t1, t2, tm, tc);
    for (unsigned t3 = 0; t3 < s->jobs; t3++)
        for (unsigned tl = 0; tl < s->jobs; tl++) {
            if (!tc[t3][tl]) continue;
#ifdef PLAIN
            if (s->clash[t2][t3] && s->clash[tl][tm]) return true;
#else
            const struct job *j2 = &s->job[t2], *j3 = &s->job[t3], *jl = &s->job[tl], *jm = &s->job[tm];
            EACH(b2, j2) EACH(a3, j3) EACH(bl, jl) EACH(am, jm)
                if (conflicts(j2->op[b2], j3->op[a3]) && conflicts(jl->op[bl], jm->op[am])) return true;
#endif
        }
    return false;
}

static bool ww_conflict_free(unsigned b1, unsigned level1, const struct job *j1, const struct job *j2,
                             const struct job *jm)
{
    EACH(c1, j1)
        if (c1 <= b1 || level1 != RC) {
            EACH(c2, j2) if (ww(j1->op[c1], j2->op[c2])) return false;
            EACH(cm, jm) if (ww(j1->op[c1], jm->op[cm])) return false;
        }
    return true;
}

static bool wr_conflict_free(const struct job *i, const struct job *j)
{
    EACH(b, i) EACH(a, j) if (wr(i->op[b], j->op[a])) return false;
    return true;
}

static bool ssi_allows(const struct sheet *s, const uint8_t *level, unsigned t1, unsigned t2, unsigned tm)
{
    return (level[t1] != SSI || level[t2] != SSI || level[tm] != SSI)
        && (level[t1] != SSI || level[t2] != SSI || wr_conflict_free(&s->job[t1], &s->job[t2]))
        && (level[t1] != SSI || level[tm] != SSI || wr_conflict_free(&s->job[tm], &s->job[t1]));
}

static bool splits_at(const struct sheet *s, const uint8_t *level, unsigned t1, unsigned b1, unsigned t2, unsigned tm)
{
    const struct job *j1 = &s->job[t1], *j2 = &s->job[t2], *jm = &s->job[tm];
#ifdef PLAIN
    bool first = false;
    if (j1->op[b1].kind != 1) return false;
    EACH(a2, j2) first = first || rw(j1->op[b1], j2->op[a2]);
    if (!first || !ww_conflict_free(b1, level[t1], j1, j2, jm)) return false;
    EACH(a1, j1) EACH(bm, jm)
        if (conflicts(jm->op[bm], j1->op[a1]) && (rw(jm->op[bm], j1->op[a1]) || (level[t1] == RC && b1 < a1)))
            return true;
#else
    EACH(a1, j1) EACH(a2, j2) EACH(bm, jm)
        if (ww_conflict_free(b1, level[t1], j1, j2, jm) && conflicts(jm->op[bm], j1->op[a1])
            && rw(j1->op[b1], j2->op[a2])
            && (rw(jm->op[bm], j1->op[a1]) || (level[t1] == RC && b1 < a1)))
            return true;
#endif
    return false;
}

static bool robust(const struct sheet *s, const uint8_t *level)
{
    for (unsigned t1 = 0; t1 < s->jobs; t1++)
        for (unsigned t2 = 0; t2 < s->jobs; t2++)
            for (unsigned tm = 0; tm < s->jobs; tm++) {
                if (t2 == t1 || tm == t1) continue;
#ifdef PLAIN
                if (!s->clash[t1][t2] || !s->clash[t1][tm] || !ssi_allows(s, level, t1, t2, tm)) continue;
                EACH(b1, &s->job[t1])
                    if (splits_at(s, level, t1, b1, t2, tm)) {
                        if (reachable(s, t2, tm, t1)) return false;
                        break;
                    }
#else
                if (reachable(s, t2, tm, t1) && ssi_allows(s, level, t1, t2, tm))
                    EACH(b1, &s->job[t1]) if (splits_at(s, level, t1, b1, t2, tm)) return false;
#endif
            }
    return true;
}

/* Algorithm 2. */

static unsigned lowest(const struct sheet *s, uint8_t level[JOBS])
{
    unsigned asked = 0;
    memset(level, SSI, JOBS);
    for (unsigned j = 0; j < s->jobs; j++)
        for (level[j] = RC; level[j] < SSI; level[j]++) {
            asked++;
            if (robust(s, level)) break;
        }
    return asked;
}

/* The walk. */

static bool is_danger(const struct sheet *s, const uint8_t *level, const unsigned q[4])
{
    return q[2] != q[0] && q[3] != q[0] && ssi_allows(s, level, q[0], q[2], q[3])
        && splits_at(s, level, q[0], q[1], q[2], q[3]) && reachable(s, q[2], q[3], q[0]);
}

/* Links to Tm through jobs that do not conflict with T1, then the lowest job one link nearer each time. */
static unsigned chain(const struct sheet *s, unsigned t1, unsigned t2, unsigned tm, uint8_t c[JOBS])
{
    unsigned far[JOBS], n = s->jobs, length = 0;
    for (unsigned i = 0; i < n; i++) far[i] = i == tm ? 0 : n;
    for (unsigned d = 0; d < n; d++)
        for (unsigned i = 0; i < n; i++)
            for (unsigned j = 0; far[i] == d && j < n; j++)
                if (far[j] == n && j != t1 && (j == t2 || !clash(s, t1, j)) && clash(s, i, j)) far[j] = d + 1;
    for (unsigned at = t2, next = 0;; at = next) {
        c[length++] = (uint8_t)(at + 1);
        if (at == tm) return length;
        for (next = 0; next == at || far[next] + 1 != far[at] || !clash(s, at, next); next++) { }
    }
}

static void put_pair(uint8_t pair[2], unsigned earlier, unsigned later)
{
    pair[0] = (uint8_t)(earlier + 1);
    pair[1] = (uint8_t)(later + 1);
}

/* The lowest pair in conflict. */
static void link_pair(const struct job *x, const struct job *y, uint8_t pair[2])
{
    EACH(b, x) EACH(a, y)
        if (conflicts(x->op[b], y->op[a])) {
            put_pair(pair, b, a);
            return;
        }
}

/* The lowest pair that meets condition 5. */
static void last_pair(const struct job *jm, const struct job *j1, bool rc, unsigned b1, uint8_t pair[2])
{
    EACH(bm, jm) EACH(a1, j1)
        if (rw(jm->op[bm], j1->op[a1]) || (rc && b1 < a1 && conflicts(jm->op[bm], j1->op[a1]))) {
            put_pair(pair, bm, a1);
            return;
        }
}

static unsigned tell(const struct sheet *s, const uint8_t *level, const unsigned q[4], struct danger *d)
{
    const struct job *j1 = &s->job[q[0]], *j2 = &s->job[q[2]], *jm = &s->job[q[3]];
    memset(d, 0, sizeof *d);
    for (unsigned i = 0; i < 4; i++) d->four[i] = (uint8_t)(q[i] + 1);
    unsigned length = chain(s, q[0], q[2], q[3], d->chain);
    EACH(a2, j2) if (rw(j1->op[q[1]], j2->op[a2])) put_pair(d->pair[0], q[1], a2);
    for (unsigned i = 1; i < length; i++)
        link_pair(&s->job[d->chain[i - 1] - 1], &s->job[d->chain[i] - 1], d->pair[i]);
    last_pair(jm, j1, level[q[0]] == RC, q[1], d->pair[length]);
    return length;
}

static bool is_above(const unsigned q[4], const unsigned a[4])
{
    for (unsigned i = 0; i < 4; i++)
        if (q[i] + 1 != a[i]) return q[i] + 1 > a[i];
    return false;
}

static bool next_danger(const struct sheet *s, const uint8_t *level, const unsigned above[4], unsigned q[4])
{
    for (q[0] = above[0] ? above[0] - 1 : 0; q[0] < s->jobs; q[0]++)
        for (q[1] = 0; q[1] < s->job[q[0]].count; q[1]++)
            for (q[2] = 0; q[2] < s->jobs; q[2]++)
                for (q[3] = 0; q[3] < s->jobs; q[3]++)
                    if (is_above(q, above) && is_danger(s, level, q)) return true;
    return false;
}

/* The questions. */

static uint32_t ask_read(const uint8_t *b, size_t n)
{
    struct sheet s;
    return read_sheet(b, n, &s);
}

static uint32_t ask_levels(const uint8_t *b, size_t n, uint8_t *answer, size_t room)
{
    return copy_levels(ask_read(b, n), b, answer, room);
}

static uint32_t open_both(const uint8_t *b, size_t n, const uint8_t *levels, size_t m, struct sheet *s)
{
    uint32_t fault = open_sheet(b, n, s);
    return fault ? fault : check_levels(s->jobs, levels, m);
}

static uint32_t ask_judge(const uint8_t *b, size_t n, const uint8_t *levels, size_t m)
{
    struct sheet s;
    uint32_t fault = open_both(b, n, levels, m, &s);
    return fault ? fault : robust(&s, levels);
}

static uint32_t ask_next(const uint8_t *b, size_t n, const uint8_t *levels, size_t m,
                         uint8_t t1, uint8_t b1, uint8_t t2, uint8_t tm, uint8_t *found)
{
    struct sheet s;
    unsigned above[4] = { t1, b1, t2, tm }, q[4];
    uint32_t fault = open_both(b, n, levels, m, &s);
    if (fault) return fault;
    return next_danger(&s, levels, above, q) ? tell(&s, levels, q, (struct danger *)found) : 0;
}

static uint32_t ask_lowest(const uint8_t *b, size_t n, uint8_t *answer, size_t room)
{
    struct sheet s;
    uint8_t level[JOBS];
    uint32_t fault = open_sheet(b, n, &s);
    if (fault) return fault;
    if (room < s.jobs) return refusal(PLANNER_REASON_ROOM, 0);
    unsigned asked = lowest(&s, level);
    memcpy(answer, level, s.jobs);
    return asked;
}

const struct side SIDE = { NAME, ask_read, ask_levels, ask_judge, ask_next, ask_lowest };
