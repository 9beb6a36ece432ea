/* speed.c: the tables of docs/PERFORMANCE.md, the library beside the machine by hand.
 *
 *     speed [quick] [tsv] [runs N] */
#include "measure.h"
#include "stack.h"
#include "table.h"
#include "texts.h"
#include "work.h"

enum { LEFT, RIGHT, MOST = 64 };

static contest contests[MOST];
static work *works[MOST];
static int contest_count, work_count;

static work *named(const char *name) { return works[work_count++] = new_work(name); }

static contest *add(work *w, void (*call)(void *, long)) {
    contest *q = &contests[contest_count++];
    *q = (contest){.sides = 2, .call = {call, call}, .on = {&w->side[LEFT], &w->side[RIGHT]}};
    return q;
}

/* ---- a turn, by part: differences of a check alone, a turn that 10 refuses and a whole turn ---- */

static void make_nest_60(program *o) { make_nest(o, 60); }
static void make_cells(program *o) { make_maxima(o, 31, 31); }
static void make_big_image(program *o) { make_tree(o, 9, 5); }
static void make_long(program *o) { make_wide(o, 64, 100); }

static const struct {
    const char *name;
    void (*make)(program *);
    size_t n; /* 0: as many words as are used */
} workload[] = {
    {"clock", make_clock, 0},
    {"average", make_average, 0},
    {"running maximum", make_maximum, 0},
    {"toggle", make_toggle, 0},
    {"health", make_health, 0},
    {"nest to 60", make_nest_60, 4096},
    {"31 deployments with 31 cells each", make_cells, 0},
    {"big image", make_big_image, REMUS_MAX_WORDS},
    {"64 reactors in 52 KB", make_long, REMUS_MAX_WORDS},
};
enum { WORKLOADS = sizeof workload / sizeof *workload };

static struct {
    work *work;
    contest *turn, *refused, *check;
} of_workload[WORKLOADS];

static void add_workloads(void) {
    for (int k = 0; k < WORKLOADS; k++) {
        work *w = named(workload[k].name);
        workload[k].make(&w->program);
        set_up(w, &by_hand, &on_words, workload[k].n);
        of_workload[k].work = w;
        of_workload[k].turn = add(w, turns);
        of_workload[k].refused = add(w, refused_turns);
        of_workload[k].check = add(w, checks);
    }
}

static double ratio(const contest *q) {
    double v[MOST_RUNS];
    for (int r = 0; r < runs(); r++) v[r] = q->ns[RIGHT][r] / q->ns[LEFT][r];
    return median(v);
}

/* What q takes over `less`, and how many times that of the machine by hand. */
static void part(const contest *q, const contest *less) {
    double ns[MOST_RUNS], times[MOST_RUNS];
    for (int r = 0; r < runs(); r++) {
        ns[r] = q->ns[RIGHT][r] - (less ? less->ns[RIGHT][r] : 0);
        times[r] = ns[r] / (q->ns[LEFT][r] - (less ? less->ns[LEFT][r] : 0));
    }
    cell_part(median(ns), median(times));
}

static void part_table(void) {
    table("A turn, by part", "workload | bytes | used words | turn | C | ratio | check | soundness | run and end");
    for (int k = 0; k < WORKLOADS; k++) {
        const work *w = of_workload[k].work;
        const contest *turn = of_workload[k].turn, *refused = of_workload[k].refused, *check = of_workload[k].check;
        row(w->name);
        cell_count(w->program.n);
        cell_count(used_words(w));
        cell_ns(typical(turn, RIGHT));
        cell_ns(typical(turn, LEFT));
        cell_ratio(ratio(turn));
        part(check, 0);
        part(refused, check);
        part(turn, refused);
        end_row();
    }
}

/* ---- growth: a small and a large size of each ---- */

static const struct {
    const char *name, *unit;
} growth[] = {
    {"check, by program bytes", "byte"},
    {"turn, by used words of a tree of small deployments", "word"},
    {"turn, by unused words of memory, which have to be zero", "word"},
};
enum { GROWTHS = sizeof growth / sizeof *growth };

static struct {
    size_t x[2];
    contest *q[2];
} of_growth[GROWTHS];

static void add_growth(void) {
    for (int to = 0; to < 2; to++) {
        work *w[GROWTHS];
        for (int k = 0; k < GROWTHS; k++) w[k] = named(growth[k].name);
        make_wide(&w[0]->program, to ? 64 : 3, to ? 110 : 20);
        make_tree(&w[1]->program, to ? 9 : 1, 0);
        make_clock(&w[2]->program);
        set_up(w[0], &by_hand, &on_words, 0);
        set_up(w[1], &by_hand, &on_words, 0);
        set_up(w[2], &by_hand, &on_words, to ? REMUS_MAX_WORDS : 16);
        for (int k = 0; k < GROWTHS; k++) {
            of_growth[k].x[to] = k == 0 ? w[k]->program.n : w[k]->n;
            of_growth[k].q[to] = add(w[k], k == 0 ? checks : turns);
        }
    }
}

static void growth_table(void) {
    table("Growth", "| from | to | a unit");
    for (int k = 0; k < GROWTHS; k++) {
        const size_t *x = of_growth[k].x;
        double from = typical(of_growth[k].q[0], RIGHT), to = typical(of_growth[k].q[1], RIGHT);
        row(growth[k].name);
        cell_at(x[0], from);
        cell_at(x[1], to);
        cell_rate((to - from) / (double)(x[1] - x[0]), growth[k].unit);
        end_row();
    }
}

/* ---- the face on bytes beside that on words ---- */

static const size_t face_n[] = {11, 55, 1024, 4096, 8192, 16384};
enum { FACES = sizeof face_n / sizeof *face_n };
static struct {
    contest *turn, *preview;
} of_face[FACES];

static void add_faces(void) {
    for (int k = 0; k < FACES; k++) {
        work *w = named(k == 0 ? "clock" : "toggle");
        (k == 0 ? make_clock : make_toggle)(&w->program);
        set_up(w, &on_words, &on_bytes, face_n[k]);
        of_face[k].turn = add(w, turns);
        of_face[k].preview = add(w, previews);
    }
}

static void both_sides(const contest *q) {
    cell_ns(typical(q, LEFT));
    cell_ns(typical(q, RIGHT));
    cell_ratio(ratio(q));
}

static void face_table(void) {
    table("On bytes, and previews",
          "rule | n | turn on words | on bytes | ratio | preview on words | on bytes | ratio");
    for (int k = 0; k < FACES; k++) {
        row(k == 0 ? "clock" : "toggle");
        cell_count(face_n[k]);
        both_sides(of_face[k].turn);
        both_sides(of_face[k].preview);
        end_row();
    }
}

/* ---- the figure beside the check that it begins with ---- */

static contest *of_figure[WORKLOADS]; /* null where there is no figure */

static void add_figures(void) {
    for (int k = 0; k < WORKLOADS; k++) {
        work *w = of_workload[k].work;
        if (remus_number(remus_figure(w->program.b, w->program.n)) != REMUS_OK) continue;
        of_figure[k] = add(w, figures);
        of_figure[k]->call[LEFT] = checks;
        of_figure[k]->on[LEFT] = &w->side[RIGHT];
    }
}

static void figure_table(void) {
    table("Figure", "program | bytes | reactors | check | figure | ratio");
    for (int k = 0; k < WORKLOADS; k++) {
        const program *p = &of_workload[k].work->program;
        if (!of_figure[k]) continue;
        row(workload[k].name);
        cell_count(p->n);
        cell_count(p->b[2]);
        both_sides(of_figure[k]);
        end_row();
    }
}

/* ---- texts: rules, the largest program, and texts that are refused, each kind in two lengths ---- */

static text texts[16];
static contest *of_text[16];
static int text_count;

static text *new_text(const char *name) {
    text *o = &texts[text_count];
    contest *q = of_text[text_count++] = &contests[contest_count++];
    o->name = name;
    *q = (contest){.sides = 1, .call = {compiles}, .on = {o}};
    return o;
}

static void add_texts(void) {
    static const struct {
        const char *name;
        void (*write)(text *, size_t);
    } kinds[] = {
        {"spaces", write_spaces},
        {"bytes by chance", write_chance},
        {"a sum of numbers", write_numbers},
        {"a sum of unknown names", write_names},
    };
    write_average(new_text("average"));
    write_health(new_text("health"));
    write_largest(new_text("a large program"));
    for (size_t k = 0; k < sizeof kinds / sizeof *kinds; k++) {
        kinds[k].write(new_text(kinds[k].name), MOST_TEXT / 2);
        kinds[k].write(new_text(kinds[k].name), MOST_TEXT);
    }
}

static void text_table(void) {
    table("Texts", "text | bytes | answer | place | ns | a unit");
    for (int k = 0; k < text_count; k++) {
        const text *o = &texts[k];
        double ns = typical(of_text[k], LEFT);
        uint64_t answer = remus_compile(o->b, o->n, texts[k].output, sizeof o->output);
        row(o->name);
        cell_count(o->n);
        cell_count(remus_number(answer));
        cell_count(remus_place(answer));
        cell_ns(ns);
        cell_rate(ns / (double)o->n, "byte");
        end_row();
    }
}

static void compare_all(void) {
    for (int k = 0; k < work_count; k++) compare(works[k]);
}

int main(int argc, char **argv) {
    take_arguments(argc, argv);
    add_workloads();
    add_growth();
    add_faces();
    add_figures();
    add_texts();
    measure(contests, contest_count, compare_all);
    say_how();
    part_table();
    growth_table();
    face_table();
    figure_table();
    text_table();
    stack_tables();
    return 0;
}
