/* The questions by sets of jobs (a u32 each), made for speed.
 *
 * What it rests on:
 *  a. For an object, the set of jobs that read it and the set that write it. All else is made of these.
 *  b. T2 and Tm conflict with T1, so they are never among the middle jobs, which are free of T1. Whether a chain
 *     leads from T2 to Tm is symmetric, and one spread from the set of all last jobs finds every first job.
 *  c. Above RC, neither the first nor the last jobs depend on b1 but for "writes b1's object": a verdict needs no
 *     operation of T1. At RC, as b1 moves on, fewer jobs may be first or last; a T2 that is no danger at the
 *     first read that it overwrites is none at a later one.
 *  d. A list of levels is robust exactly if no job is below its lowest level. So a job's lowest level is found with
 *     all others at SSI: two spreads for each split job settle who needs SSI, one test at RC settles the rest.
 *     The number asked is jobs plus jobs above RC.
 *  e. One breadth first search from T2, taking jobs first in first out and neighbours in rising order, gives the
 *     lowest shortest chain to every Tm.
 */
#include <stdbool.h>
#include <string.h>
#include "records.h"

/* Kept apart so that its frame is gone when the search begins, or comes when reading is done. */
#define APART __attribute__((noinline))

enum { NARROW = 512, WRITE = 0x8000, ID = 0x7FFF };

/* Objects have dense numbers: their own if at most 512 are declared, else their rank among those named. */
struct table {
    uint32_t reads[NARROW], writes[NARROW];     /* by object: the jobs */
    uint16_t op[JOBS][OPS];                     /* object, and WRITE for a write */
    uint8_t count[JOBS];
    unsigned jobs, objects;
};

/* By job, itself left out: the jobs that it is ww, rw, wr, anything with. */
struct sets { uint32_t ww[JOBS], rw[JOBS], wr[JOBS], clash[JOBS]; };

static uint32_t bit(unsigned job) { return (uint32_t)1 << job; }
static unsigned lowest_of(uint32_t set) { return (unsigned)__builtin_ctz(set); }
#define EACH(job, set) for (uint32_t left_ = (set), job; left_ && (job = lowest_of(left_), 1); left_ &= left_ - 1)

/* Reading. */

static unsigned ones(uint32_t x)
{
    x -= x >> 1 & 0x55555555;
    x = (x & 0x33333333) + (x >> 2 & 0x33333333);
    return ((x + (x >> 4)) & 0x0F0F0F0F) * 0x01010101u >> 24;
}

/* The operations of one job, at most 512 objects declared: an object's sets show a second read or write. */
static uint32_t take_near(const uint8_t *b, size_t p, unsigned j, unsigned k, struct table *t)
{
    uint32_t me = bit(j), *sets[2] = { t->reads, t->writes };
    unsigned objects = t->objects;
    uint16_t *op = t->op[j];
    for (unsigned i = 0; i < k; i++, p += 3) {
        unsigned kind = b[p], o = two(b + p + 1);
        if (kind - 1 > 1) return refusal(PLANNER_REASON_KIND, p);
        if (o >= objects) return refusal(PLANNER_REASON_OBJECT, p + 1);
        uint32_t *set = sets[kind - 1] + o, was = *set;
        if (was & me) return refusal(PLANNER_REASON_TWICE, p);
        *set = was | me;
        op[i] = (uint16_t)(o | (kind - 1) << 15);
    }
    t->count[j] = (uint8_t)k;
    return 0;
}

/* More are declared: only the objects named are marked here. */
static uint32_t take_far(const uint8_t *b, size_t p, unsigned j, unsigned k, struct table *t, uint32_t *named)
{
    unsigned objects = t->objects;
    uint16_t *op = t->op[j];
    for (unsigned i = 0; i < k; i++, p += 3) {
        unsigned kind = b[p], o = two(b + p + 1);
        t->count[j] = (uint8_t)i;
        if (kind - 1 > 1) return refusal(PLANNER_REASON_KIND, p);
        if (o >= objects) return refusal(PLANNER_REASON_OBJECT, p + 1);
        named[o >> 5] |= bit(o & 31);
        op[i] = (uint16_t)(o | (kind - 1) << 15);
    }
    t->count[j] = (uint8_t)k;
    return 0;
}

/* All after the head. `begun`: the job records with operations taken, a broken one's too. */
static uint32_t take_jobs(const uint8_t *b, size_t n, struct table *t, uint32_t *named, unsigned *begun)
{
    size_t at = 7;
    for (unsigned j = 0; j < t->jobs; j++) {
        *begun = j;
        uint32_t fault = check_job(b, n, at);
        if (fault) return fault;
        unsigned k = b[at + 4];
        *begun = j + 1;
        fault = named ? take_far(b, at + 5, j, k, t, named) : take_near(b, at + 5, j, k, t);
        if (fault) return fault;
        at += 5 + 3 * k;
    }
    *begun = t->jobs;
    return check_end(b, n, at);
}

/* More than 512 objects: all but reason 11 is found first, then the objects get their ranks and sets. A second read
 * or write seen then lies before any other fault, so it decides. */
static APART uint32_t take_ranked(const uint8_t *b, size_t n, struct table *t)
{
    uint32_t named[OBJECTS / 32] = { 0 };
    uint16_t base[OBJECTS / 32];
    unsigned begun, count = 0;
    uint32_t fault = take_jobs(b, n, t, named, &begun);
    for (unsigned w = 0; w < OBJECTS / 32; w++) {
        base[w] = (uint16_t)count;
        if (named[w]) count += ones(named[w]);
    }
    memset(t->reads, 0, count * sizeof *t->reads);
    memset(t->writes, 0, count * sizeof *t->writes);
    size_t p = 7;
    for (unsigned j = 0; j < begun; j++) {
        p += 5;
        for (unsigned i = 0; i < t->count[j]; i++, p += 3) {
            unsigned o = t->op[j][i], w = (o & ID) >> 5, id = base[w] + ones(named[w] & (bit(o & 31) - 1));
            uint32_t *set = (o & WRITE ? t->writes : t->reads) + id;
            if (*set & bit(j)) return refusal(PLANNER_REASON_TWICE, p);
            *set |= bit(j);
            t->op[j][i] = (uint16_t)((o & WRITE) | id);
        }
    }
    return fault;
}

static uint32_t take(const uint8_t *b, size_t n, struct table *t)
{
    unsigned begun;
    uint32_t fault = check_head(b, n);
    if (fault) return fault;
    t->jobs = b[4];
    t->objects = two(b + 5);
    if (t->objects > NARROW) return take_ranked(b, n, t);
    memset(t->reads, 0, t->objects * sizeof *t->reads);
    memset(t->writes, 0, t->objects * sizeof *t->writes);
    return take_jobs(b, n, t, 0, &begun);
}

/* Sets. */

static void make_sets(const struct table *t, struct sets *s)
{
    for (unsigned j = 0; j < t->jobs; j++) {
        uint32_t ww = 0, rw = 0, wr = 0, others = ~bit(j);
        const uint16_t *op = t->op[j], *end = op + t->count[j];
        for (; op < end; op++) {
            unsigned o = *op & ID;
            if (*op & WRITE) ww |= t->writes[o], wr |= t->reads[o];
            else rw |= t->writes[o];
        }
        s->ww[j] = ww & others;
        s->rw[j] = rw & others;
        s->wr[j] = wr & others;
        s->clash[j] = (ww | rw | wr) & others;
    }
}

/* The jobs in `from`, in conflict with one of them, or joined to one by jobs of `open`. */
static uint32_t spread(const uint32_t *clash, uint32_t from, uint32_t open)
{
    uint32_t seen = from, todo = from;
    while (todo) {
        uint32_t near = clash[lowest_of(todo)];
        todo &= todo - 1;
        todo |= near & ~seen & open;
        seen |= near;
    }
    return seen;
}

/* The jobs free of T1: those that may stand in the middle. */
static uint32_t free_of(const struct sets *s, unsigned t1) { return ~(s->clash[t1] | bit(t1)); }

/* Conflicts with operation o, whatever its job. */
static uint32_t touched(const struct table *t, unsigned o)
{
    return o & WRITE ? t->writes[o & ID] | t->reads[o & ID] : t->writes[o & ID];
}

/* after[i]: the jobs in conflict with an operation of job j after its operation i. */
static void make_after(const struct table *t, unsigned j, uint32_t after[OPS])
{
    uint32_t set = 0;
    for (unsigned i = t->count[j]; i-- > 0;) {
        after[i] = set;
        set |= touched(t, t->op[j][i]);
    }
}

/* Is there a danger whose split job is t1, at RC? */
static bool splits_at_rc(const struct table *t, const struct sets *s, unsigned t1)
{
    uint32_t tried = bit(t1), ww = 0, hopeful = ~(uint32_t)0, open = free_of(s, t1);
    uint32_t after[OPS];
    if (!s->rw[t1]) return false;
    make_after(t, t1, after);
    for (unsigned i = 0; i < t->count[t1]; i++) {
        unsigned o = t->op[t1][i];
        uint32_t set = t->writes[o & ID];
        if (o & WRITE) { ww |= set; continue; }
        uint32_t first = set & ~(tried | ww) & hopeful;
        tried |= set;
        if (!first) continue;
        uint32_t last = (s->wr[t1] | after[i]) & ~(ww | bit(t1));
        if (first & last) return true;
        if (!last) return false;
        hopeful = spread(s->clash, last, open);
        if (first & hopeful) return true;
    }
    return false;
}

/* And above RC? `ssi` is empty if t1 is at SI. */
static bool splits_above_rc(const struct sets *s, unsigned t1, uint32_t ssi)
{
    uint32_t first = s->rw[t1] & ~s->ww[t1], last = s->wr[t1] & ~s->ww[t1], open = free_of(s, t1);
    uint32_t low_first = first & ~ssi, high_first = first & ssi & ~s->wr[t1];
    uint32_t low_last = last & ~ssi, any_last = last & ~(ssi & s->rw[t1]);
    if (low_first & any_last) return true;
    if (low_first && any_last && spread(s->clash, any_last, open) & low_first) return true;
    return high_first && low_last && spread(s->clash, low_last, open) & high_first;
}

static uint32_t at_ssi(const struct table *t, const uint8_t *level)
{
    uint32_t set = 0;
    for (unsigned j = 0; j < t->jobs; j++) set |= (uint32_t)(level[j] >> 1) << j;
    return set;
}

static bool robust(const struct table *t, const struct sets *s, const uint8_t *level)
{
    uint32_t ssi = at_ssi(t, level);
    for (unsigned j = 0; j < t->jobs; j++)
        if (level[j] == RC ? splits_at_rc(t, s, j) : splits_above_rc(s, j, level[j] == SSI ? ssi : 0)) return false;
    return true;
}

/* Lowest levels, and the number asked. With all others at SSI, a job needs SSI if at SI it is split, or if below SSI
 * it is the first or the last job for a split job at SSI: then the other of the two, if it is another, is at SSI
 * too, and conditions 7 and 8 keep it out of the jobs that may be both. */
static unsigned lowest(const struct table *t, const struct sets *s, uint8_t *level)
{
    uint32_t ssi = 0;
    unsigned asked = t->jobs;
    for (unsigned j = 0; j < t->jobs; j++) {
        uint32_t first = s->rw[j] & ~s->ww[j], last = s->wr[j] & ~s->ww[j], both = first & last;
        if (!first || !last) continue;
        if (both) ssi |= both | bit(j);
        uint32_t only_first = first & ~last, only_last = last & ~first, open = free_of(s, j);
        if (only_first && (last | bit(j)) & ~ssi) {
            uint32_t hit = spread(s->clash, only_first, open) & last;
            if (hit) ssi |= hit | bit(j);
        }
        if (only_last && first & ~ssi) ssi |= spread(s->clash, only_last, open) & first;
    }
    for (unsigned j = 0; j < t->jobs; j++) {
        level[j] = ssi & bit(j) ? SSI : splits_at_rc(t, s, j) ? SI : RC;
        asked += level[j] != RC;
    }
    return asked;
}

/* The walk. */

/* The sets for one split operation, conditions 2 to 5, 7 and 8 done. */
struct split { uint32_t first, last; };

static struct split split_at(const struct table *t, const struct sets *s, const uint8_t *level, uint32_t ssi,
                             unsigned t1, unsigned b1, uint32_t ww, uint32_t after)
{
    struct split p;
    uint32_t shut = bit(t1) | (level[t1] == RC ? ww : s->ww[t1]);
    p.first = t->writes[t->op[t1][b1]] & ~shut;
    p.last = (level[t1] == RC ? s->wr[t1] | after : s->wr[t1]) & ~shut;
    if (level[t1] == SSI) {
        p.first &= ~(ssi & s->wr[t1]);
        p.last &= ~(ssi & s->rw[t1]);
    }
    return p;
}

/* The last jobs that t2 leaves: condition 6. */
static uint32_t last_for(struct split p, const uint8_t *level, uint32_t ssi, unsigned t1, unsigned t2)
{
    return level[t1] == SSI && level[t2] == SSI ? p.last & ~ssi : p.last;
}

/* No danger at t1, as sets of whole jobs show. */
static bool none_at(const struct sets *s, const uint8_t *level, uint32_t ssi, unsigned t1)
{
    return level[t1] == RC ? !s->rw[t1] : !splits_above_rc(s, t1, level[t1] == SSI ? ssi : 0);
}

/* The jobs of the set from that number on, numbers from 1. */
static uint32_t from_on(uint32_t set, unsigned number)
{
    return number > JOBS ? 0 : number ? set & ~(uint32_t)0 << (number - 1) : set;
}

/* The first danger for t1 and b1 in q, with a first job in `first` and, if `above` is given, above its t2 and tm. */
static bool pick(const struct sets *s, const uint8_t *level, uint32_t ssi, struct split p, uint32_t first,
                 const uint8_t *above, unsigned q[4])
{
    uint32_t open = free_of(s, q[0]);
    EACH(t2, first) {
        uint32_t last = last_for(p, level, ssi, q[0], t2);
        if (above && t2 + 1 == above[2]) last = from_on(last, above[3] + 1u);
        if (last & ~(bit(t2) | s->clash[t2])) last &= spread(s->clash, bit(t2), open);
        if (!last) continue;
        q[2] = t2, q[3] = lowest_of(last);
        return true;
    }
    return false;
}

/* The first danger above the four numbers given, all from 0 in q. */
static bool next_danger(const struct table *t, const struct sets *s, const uint8_t *level, const uint8_t above[4],
                        unsigned q[4])
{
    uint32_t ssi = at_ssi(t, level), after[OPS];
    bool tight = above[0] != 0;
    for (unsigned t1 = tight ? above[0] - 1u : 0; t1 < t->jobs; t1++, tight = false) {
        uint32_t ww = 0, open = free_of(s, t1);
        /* First jobs with a last one at an earlier read; only fewer follow. */
        uint32_t hopeful = ~(uint32_t)0, made_of = 0;
        unsigned from = tight && above[1] ? above[1] - 1u : 0;
        if (none_at(s, level, ssi, t1)) continue;
        make_after(t, t1, after);
        for (unsigned b1 = 0; b1 < t->count[t1]; b1++) {
            unsigned o = t->op[t1][b1];
            if (o & WRITE) { ww |= t->writes[o & ID]; continue; }
            if (b1 < from) continue;
            struct split p = split_at(t, s, level, ssi, t1, b1, ww, after[b1]);
            uint32_t first = p.first & hopeful;
            bool here = tight && b1 + 1 == above[1];
            if (here) first = from_on(first, above[2]);
            if (!first) continue;
            if (!p.last) break;
            if (p.last != made_of) hopeful = spread(s->clash, p.last, open), made_of = p.last;
            q[0] = t1, q[1] = b1;
            if (pick(s, level, ssi, p, first & hopeful, here ? above : 0, q)) return true;
        }
    }
    return false;
}

/* For each job reached from t2, until one of `stop` is, the job before it on its lowest shortest chain. */
static void grow(const uint32_t *clash, unsigned t2, uint32_t open, uint32_t stop, uint8_t before[JOBS])
{
    uint8_t queue[JOBS];
    unsigned head = 0, tail = 1;
    uint32_t seen = bit(t2);
    queue[0] = (uint8_t)t2;
    while (head < tail && !(seen & stop)) {
        unsigned at = queue[head++];
        uint32_t fresh = clash[at] & ~seen;
        seen |= fresh;
        EACH(j, fresh) {
            before[j] = (uint8_t)at;
            if (open & bit(j)) queue[tail++] = (uint8_t)j;
        }
    }
}

/* The chain from t2 to tm, backwards, from 0. */
static unsigned trace(const uint8_t before[JOBS], unsigned t2, unsigned tm, uint8_t back[JOBS])
{
    unsigned n = 0;
    for (; tm != t2; tm = before[tm]) back[n++] = (uint8_t)tm;
    back[n++] = (uint8_t)t2;
    return n;
}

static unsigned place_of(const struct table *t, unsigned job, unsigned op)
{
    unsigned i = 0;
    while (t->op[job][i] != op) i++;
    return i;
}

/* The first operation of job j from `from` on that is on o's object and in conflict with o; count if none. */
static unsigned partner(const struct table *t, unsigned o, unsigned j, unsigned from)
{
    unsigned i = from;
    while (i < t->count[j] && ((t->op[j][i] ^ o) & ID || !((t->op[j][i] | o) & WRITE))) i++;
    return i;
}

static void pair_of(const struct table *t, unsigned x, unsigned y, uint8_t pair[2])
{
    unsigned b = 0;
    while (!(touched(t, t->op[x][b]) & bit(y))) b++;
    pair[0] = (uint8_t)(b + 1);
    pair[1] = (uint8_t)(partner(t, t->op[x][b], y, 0) + 1);
}

static void last_pair(const struct table *t, const uint8_t *level, const unsigned q[4], uint8_t pair[2])
{
    for (unsigned b = 0;; b++) {
        unsigned o = t->op[q[3]][b], a = OPS;
        if (!(touched(t, o) & bit(q[0]))) continue;
        if (!(o & WRITE)) a = place_of(t, q[0], o | WRITE);
        else if (level[q[0]] == RC) a = partner(t, o, q[0], q[1] + 1);
        if (a >= t->count[q[0]]) continue;
        pair[0] = (uint8_t)(b + 1);
        pair[1] = (uint8_t)(a + 1);
        return;
    }
}

static unsigned tell(const struct table *t, const struct sets *s, const uint8_t *level, const unsigned q[4],
                     struct danger *d)
{
    uint8_t before[JOBS], back[JOBS];
    grow(s->clash, q[2], free_of(s, q[0]), bit(q[3]), before);
    unsigned n = trace(before, q[2], q[3], back);
    memset(d, 0, sizeof *d);
    for (unsigned i = 0; i < 4; i++) d->four[i] = (uint8_t)(q[i] + 1);
    d->pair[0][0] = d->four[1];
    d->pair[0][1] = (uint8_t)(place_of(t, q[2], t->op[q[0]][q[1]] | WRITE) + 1);
    for (unsigned i = 0; i < n; i++) {
        d->chain[i] = (uint8_t)(back[n - 1 - i] + 1);
        if (i > 0) pair_of(t, back[n - i], back[n - 1 - i], d->pair[i]);
    }
    last_pair(t, level, q, d->pair[n]);
    return n;
}

/* The questions. */

static APART bool judge(const struct table *t, const uint8_t *levels)
{
    struct sets s;
    make_sets(t, &s);
    return robust(t, &s, levels);
}

static APART unsigned find_next(const struct table *t, const uint8_t *levels, const uint8_t above[4], struct danger *d)
{
    struct sets s;
    unsigned q[4];
    make_sets(t, &s);
    return next_danger(t, &s, levels, above, q) ? tell(t, &s, levels, q, d) : 0;
}

static APART unsigned find_lowest(const struct table *t, uint8_t *answer)
{
    struct sets s;
    make_sets(t, &s);
    return lowest(t, &s, answer);
}

static uint32_t ask_read(const uint8_t *b, size_t n)
{
    struct table t;
    return take(b, n, &t);
}

static uint32_t ask_levels(const uint8_t *b, size_t n, uint8_t *answer, size_t room)
{
    return copy_levels(ask_read(b, n), b, answer, room);
}

static uint32_t ask_judge(const uint8_t *b, size_t n, const uint8_t *levels, size_t m)
{
    struct table t;
    uint32_t fault = take(b, n, &t);
    if (!fault) fault = check_levels(t.jobs, levels, m);
    return fault ? fault : judge(&t, levels);
}

static uint32_t ask_next(const uint8_t *b, size_t n, const uint8_t *levels, size_t m,
                         uint8_t t1, uint8_t b1, uint8_t t2, uint8_t tm, uint8_t *found)
{
    struct table t;
    uint32_t fault = take(b, n, &t);
    if (!fault) fault = check_levels(t.jobs, levels, m);
    return fault ? fault : find_next(&t, levels, (uint8_t[4]){ t1, b1, t2, tm }, (struct danger *)found);
}

static uint32_t ask_lowest(const uint8_t *b, size_t n, uint8_t *answer, size_t room)
{
    struct table t;
    uint32_t fault = take(b, n, &t);
    if (fault) return fault;
    return room < t.jobs ? refusal(PLANNER_REASON_ROOM, 0) : find_lowest(&t, answer);
}

const struct side fast = { "fast", ask_read, ask_levels, ask_judge, ask_next, ask_lowest };
