/* Makes one call on the two files of a folder, by the proved library or in plain C: the match table, or the place around each of some
 * centres; and by the library alone the ball, the radius or the match table one way. bench/run counts the instructions inside the calls. With
 * `compare` both are called, and must reply and leave the same. */
#include "folder.h"
#include "native.h"

/* What a call replies with, and what is lent to it. */
struct result {
    native_counts counts;
    uint32_t table[NATIVE_NODES];
    uint16_t distances[NATIVE_NODES];
    uint8_t nodes[NATIVE_NODES], links[NATIVE_LINKS];
};

static native_counts counts_of(heronditch_counts c)
{
    return (native_counts){c.number, c.file, c.started, c.kept, c.struck, c.rounds};
}

#define TABLE r->table, NATIVE_NODES
#define TABLES r->nodes, NATIVE_NODES, r->links, NATIVE_LINKS, TABLE, r->distances, NATIVE_NODES

static void proved_match(size_t centre, struct result *r)
{
    (void)centre;
    r->counts = counts_of(heronditch_match(FILES, TABLE));
}

/* One way. There is no plain C of it. */
static void proved_one_way(size_t centre, struct result *r)
{
    (void)centre;
    r->counts = counts_of(heronditch_match_one_way(FILES, TABLE));
}

static void plain_match(size_t centre, struct result *r)
{
    (void)centre;
    r->counts = native_match(PLAIN_FILES, TABLE);
}

static void proved_place(size_t centre, struct result *r)
{
    r->counts = counts_of(heronditch_place(PLAIN_FILES, centre, TABLES));
}

static void plain_place(size_t centre, struct result *r)
{
    r->counts = native_place(PLAIN_FILES, centre, TABLES);
}

/* The ball as wide as can be, and the radius. There is no plain C of these two. */
static void proved_ball(size_t centre, struct result *r)
{
    r->counts.number = heronditch_ball(FILE_OF(board), centre, 65535, r->distances, NATIVE_NODES).number;
}

static void proved_radius(size_t centre, struct result *r)
{
    (void)centre;
    r->counts.number = heronditch_radius(FILE_OF(pattern)).number;
}

/* The result of a call that is lent tables full of ones. */
static void make(void (*call)(size_t, struct result *), size_t centre, struct result *r)
{
    memset(r, 0xff, sizeof *r);
    call(centre, r);
}

static struct {
    const char *name;
    void (*proved)(size_t, struct result *), (*plain)(size_t, struct result *);
} jobs[] = {{"match", proved_match, plain_match}, {"place", proved_place, plain_place}, {"ball", proved_ball, proved_ball}, {"radius", proved_radius, proved_radius}, {"one-way", proved_one_way, proved_one_way}};

/* Makes the calls for some centres, and prints how many were accepted, and the counts of the last. */
static int run(unsigned job, const char *how, size_t first, size_t last)
{
    static struct result one, two;
    bool both = !strcmp(how, "compare"), proved = !strcmp(how, "proved");
    unsigned accepted = 0;
    for (size_t centre = first; centre <= last; centre++) {
        make(both || proved ? jobs[job].proved : jobs[job].plain, centre, &one);
        if (both) {
            make(jobs[job].plain, centre, &two);
            if (memcmp(&one, &two, sizeof one)) {
                printf("centre %zu: not the same\n", centre);
                return 1;
            }
        }
        accepted += one.counts.number == 0;
    }
    printf("%u %u %u %u %u\n", accepted, one.counts.number, one.counts.started, one.counts.kept, one.counts.rounds);
    return 0;
}

int main(int argc, char **argv)
{
    if (argc == 6) {
        load_folder(argv[3]);
        for (unsigned job = 0; job < sizeof jobs / sizeof *jobs; job++)
            if (!strcmp(argv[1], jobs[job].name))
                return run(job, argv[2], strtoul(argv[4], NULL, 10), strtoul(argv[5], NULL, 10));
    }
    fprintf(stderr, "usage: %s match|place|ball|radius|one-way proved|plain|compare FOLDER FIRST-CENTRE LAST-CENTRE\n", argv[0]);
    return 2;
}
