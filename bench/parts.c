/* What bench/parts.py compares the parts of a store with: a hash map and arrays, without transactions.
 *
 * A vertex has an array of its edges under one label, each with its destination, a payload of 8 bytes on the heap, and two
 * stamps. A hash map by vertex and destination tells the place of an edge in its array, and one by vertex the array.
 *
 * The words are those of crates/part_trial: `load` or `read`, the vertices, the edges on each, the changes of a
 * transaction, how often. `load` notes each change, and stamps the edges of a transaction when it ends. `copy` reads as
 * `read` does, and hands out a copy of the payload where `read` looks at it in its place. */
#include <stdint.h>
#include <stdio.h>
#include <stdlib.h>
#include <string.h>

struct edge { uint64_t to; uint8_t *payload; uint64_t created, ended; };
struct vertex { struct edge *edges; uint32_t len, room; };
struct slot { uint64_t from, to; uint32_t value; uint32_t used; };
struct map { struct slot *slots; uint64_t mask, len; };
struct change { uint64_t from, to; uint16_t label; uint8_t *payload; };

static uint64_t mixed(uint64_t a, uint64_t b) {
    uint64_t x = (a * 0x9E3779B97F4A7C15u) ^ (b * 0xC2B2AE3D27D4EB4Fu);
    x ^= x >> 29;
    x *= 0xBF58476D1CE4E5B9u;
    return x ^ (x >> 32);
}

static struct slot *find(struct map *m, uint64_t from, uint64_t to) {
    uint64_t i = mixed(from, to) & m->mask;
    while (m->slots[i].used && (m->slots[i].from != from || m->slots[i].to != to)) i = (i + 1) & m->mask;
    return &m->slots[i];
}

static struct slot *insert(struct map *m, uint64_t from, uint64_t to, uint32_t value) {
    if (2 * (m->len + 1) > m->mask) {
        struct map more = { calloc(2 * (m->mask + 1), sizeof *m->slots), 2 * m->mask + 1, m->len };
        for (uint64_t i = 0; i <= m->mask; i++)
            if (m->slots[i].used) *find(&more, m->slots[i].from, m->slots[i].to) = m->slots[i];
        free(m->slots);
        *m = more;
    }
    struct slot *s = find(m, from, to);
    if (!s->used) m->len++;
    *s = (struct slot){ from, to, value, 1 };
    return s;
}

static struct map places, arrays;
static struct vertex *vertices;
static uint32_t made;
static struct change *changes;
static uint32_t changed, changes_room;
static uint64_t epoch;

static uint8_t *payload(void) {
    uint8_t *p = malloc(8);
    memcpy(p, "\1\2\3\4\5\6\7\10", 8);
    return p;
}

static void note(uint64_t from, uint64_t to, uint8_t *p) {
    if (changed == changes_room) {
        changes_room = changes_room ? 2 * changes_room : 16;
        changes = realloc(changes, changes_room * sizeof *changes);
    }
    changes[changed++] = (struct change){ from, to, 1, p };
}

static void make_vertex(uint64_t v) {
    vertices[made] = (struct vertex){ 0 };
    insert(&arrays, v, 0, made++);
}

static void put(uint64_t from, uint64_t to) {
    struct vertex *v = &vertices[find(&arrays, from, 0)->value];
    struct slot *old = find(&places, from, to);
    uint8_t *p = payload();
    if (old->used) v->edges[old->value].ended = UINT64_MAX;
    if (v->len == v->room) {
        v->room = v->room ? 2 * v->room : 2;
        v->edges = realloc(v->edges, v->room * sizeof *v->edges);
    }
    v->edges[v->len] = (struct edge){ to, p, UINT64_MAX, 0 };
    insert(&places, from, to, v->len++);
    note(from, to, p);
}

static void commit(void) {
    epoch++;
    for (uint32_t i = 0; i < changed; i++) {
        struct vertex *v = &vertices[find(&arrays, changes[i].from, 0)->value];
        for (uint32_t k = v->len; k > 0 && v->edges[k - 1].created == UINT64_MAX; k--) v->edges[k - 1].created = epoch;
    }
    changed = 0;
}

/* What was handed out last, which the compiler may not leave out. */
static uint8_t *volatile answer;

static int has_payload(const struct edge *e, int copies) {
    if (!copies) return e->payload[0] == 1;
    answer = malloc(8);
    memcpy(answer, e->payload, 8);
    int has = answer[0] == 1;
    free(answer);
    return has;
}

/* Whether the newest edge to the destination counts, by a walk over the array. */
static int has_edge(uint64_t from, uint64_t to, int copies) {
    struct slot *s = find(&arrays, from, 0);
    if (!s->used) return 0;
    struct vertex *v = &vertices[s->value];
    for (uint32_t k = v->len; k > 0; k--) {
        struct edge *e = &v->edges[k - 1];
        if (e->to == to && e->created <= epoch && (e->ended == 0 || e->ended > epoch)) return has_payload(e, copies);
    }
    return 0;
}

static uint64_t from_at(uint64_t place, uint64_t count) {
    return 1 + ((place * 0x9E3779B97F4A7C15u) >> 33) % count;
}

int main(int argc, char **argv) {
    if (argc < 6) return 2;
    uint64_t count = strtoull(argv[2], 0, 10), each = strtoull(argv[3], 0, 10), most = strtoull(argv[4], 0, 10), rounds = strtoull(argv[5], 0, 10);
    places = (struct map){ calloc(16, sizeof(struct slot)), 15, 0 };
    arrays = (struct map){ calloc(16, sizeof(struct slot)), 15, 0 };
    vertices = calloc(count + 1, sizeof *vertices);
    uint64_t sum = 0;
    for (uint64_t v = 1; v <= count; v++) make_vertex(v);
    for (uint64_t place = 0; place < count * each; place++) {
        put(from_at(place, count), place);
        if (most && changed == most) commit();
    }
    commit();
    sum = epoch;
    int copies = !strcmp(argv[1], "copy");
    if (copies || !strcmp(argv[1], "read")) {
        sum = 0;
        uint64_t all = count * each ? count * each : 1;
        for (uint64_t r = 0; r < rounds; r++) {
            uint64_t place = (r * 0xD1B54A32D192ED03u) % all;
            sum += has_edge(from_at(place, count), place, copies);
        }
    }
    printf("sum %llu\n", (unsigned long long)sum);
    return 0;
}
