/* The look-ups that scripts/time_layout_table times, and the making of their table, in C by the same algorithm. Its
   words and what it prints are those of the program beside it. Nothing is tested here, memory included. */
#include <stdbool.h>
#include <stdint.h>
#include <stdio.h>
#include <stdlib.h>
#include <time.h>

typedef enum { VOID_TYPE, NUMBER, POINTER, ARRAY, STRUCT } form;

/* of: the type of the elements, the type that is pointed to, the bytes of a number or the first member; count: how many
   elements or members there are. */
typedef struct { form form; uint32_t of, count; } kind;
typedef struct { uint32_t kind, offset; } member;
typedef struct { uint32_t key, reach, kind, lo, count, size; size_t levels; } row;
typedef struct { uint32_t stride, count; size_t inside; } level;
typedef struct { uint32_t size, tail, tail_at; size_t start, end; } entry;
typedef struct { uint32_t kind; uint64_t base, count; } part;
typedef struct { bool some; uint32_t tier; uint64_t lo, hi, step; } match;
typedef struct { bool some; uint64_t at; } place;

enum { MOST_TYPES = 64, CHAR = 2, SHORT = 4, INT = 6, LONG = 8, POINTER_KEY = 9, MOST_ROWS = 1000000 };

static kind kinds[MOST_TYPES];
static entry entries[MOST_TYPES];
static uint32_t alignments[MOST_TYPES], sizes[MOST_TYPES];
static uint32_t types;
static member *members;
static size_t member_count;
static row *rows;
static level *levels;
static size_t row_count, row_room, level_count, level_room;

/* Types. */

static uint32_t add(form form, uint32_t of, uint32_t count, uint32_t size, uint32_t alignment)
{
    kinds[types] = (kind){form, of, count};
    sizes[types] = size;
    alignments[types] = alignment;
    return ++types;
}

static uint32_t pointer(uint32_t to) { return add(POINTER, to, 0, 8, 8); }

static uint32_t array(uint32_t of, uint32_t count)
{
    return add(ARRAY, of, count, count * sizes[of - 1], alignments[of - 1]);
}

static uint32_t structure(const uint32_t *of, uint32_t count)
{
    uint32_t end = 0, alignment = 1, first = member_count;
    members = realloc(members, (member_count + count) * sizeof *members);
    for (uint32_t i = 0; i < count; i++) {
        uint32_t own = alignments[of[i] - 1], offset = (end + own - 1) / own * own;
        members[member_count++] = (member){of[i], offset};
        end = offset + sizes[of[i] - 1];
        alignment = own > alignment ? own : alignment;
    }
    return add(STRUCT, first, count, (end + alignment - 1) / alignment * alignment, alignment);
}

static uint32_t structure_of(uint32_t of, uint32_t count)
{
    uint32_t *all = malloc(count * sizeof *all);
    for (uint32_t i = 0; i < count; i++)
        all[i] = of;
    return structure(all, count);
}

static void add_numbers(void)
{
    add(VOID_TYPE, 0, 0, 0, 1);
    for (uint32_t width = 1; width <= 8; width *= 2) {
        add(NUMBER, width, 0, width, width);
        add(NUMBER, width, 1, width, width);
    }
}

/* To make the table. */

static uint32_t key_of(uint32_t t)
{
    kind it = kinds[t - 1];
    return it.form == NUMBER ? it.of : it.form == POINTER ? POINTER_KEY : t;
}

static void push_row(row **to, size_t *count, size_t *room, row it)
{
    if (*count == *room) {
        *room = *room ? 2 * *room : 4;
        *to = realloc(*to, *room * sizeof it);
    }
    (*to)[(*count)++] = it;
}

static row row_for(uint32_t of, uint32_t count)
{
    return (row){key_of(of), count * sizes[of - 1], of, 0, count, sizes[of - 1], 0};
}

static row moved(row it, uint32_t by)
{
    it.lo += by;
    it.reach += by;
    return it;
}

static row within(row it, uint32_t stride, uint32_t count)
{
    if (level_count == level_room) {
        level_room = level_room ? 2 * level_room : 4;
        levels = realloc(levels, level_room * sizeof *levels);
    }
    levels[level_count++] = (level){stride, count, it.levels};
    it.reach += (count - 1) * stride;
    it.levels = level_count;
    return it;
}

static uint64_t keyed(uint32_t key, uint32_t place) { return ((uint64_t)key << 32) + place; }

static int by_place(const void *one, const void *other)
{
    const row *a = one, *b = other;
    uint64_t x = keyed(a->key, a->lo), y = keyed(b->key, b->lo);
    return (x > y) - (x < y);
}

static void add_type(uint32_t t)
{
    row *own = NULL;
    size_t count = 0, room = 0;
    kind it = kinds[t - 1];
    if (it.form == ARRAY) {
        entry of = entries[it.of - 1];
        push_row(&own, &count, &room, row_for(it.of, it.count));
        for (size_t i = of.start; i < of.end; i++)
            push_row(&own, &count, &room, within(rows[i], of.size, it.count));
    }
    for (uint32_t i = 0; it.form == STRUCT && i < it.count; i++) {
        member one = members[it.of + i];
        entry of = entries[one.kind - 1];
        push_row(&own, &count, &room, moved(row_for(one.kind, 1), one.offset));
        for (size_t j = of.start; j < of.end; j++)
            push_row(&own, &count, &room, moved(rows[j], one.offset));
    }
    qsort(own, count, sizeof *own, by_place);
    for (size_t i = 1; i < count; i++)
        if (own[i - 1].key == own[i].key && own[i].reach < own[i - 1].reach)
            own[i].reach = own[i - 1].reach;
    entries[t - 1] = (entry){sizes[t - 1], 0, 0, row_count, row_count + count};
    for (size_t i = 0; i < count; i++)
        push_row(&rows, &row_count, &row_room, own[i]);
    free(own);
}

static void build(void)
{
    uint32_t inner[MOST_TYPES], all = 0;
    for (uint32_t t = 1; t <= types; t++) {
        kind it = kinds[t - 1];
        inner[t - 1] = it.form == ARRAY ? 1 + inner[it.of - 1] : 0;
        for (uint32_t i = 0; it.form == STRUCT && i < it.count; i++)
            inner[t - 1] += 1 + inner[members[it.of + i].kind - 1];
        all += 1 + inner[t - 1];
    }
    if (all > MOST_ROWS)
        exit(1);
    for (uint32_t t = 1; t <= types; t++)
        add_type(t);
}

/* To look up. */

static match matched(uint32_t of, uint64_t lo, uint64_t count, uint64_t step, uint32_t want)
{
    kind a = kinds[of - 1], b = kinds[want - 1];
    uint32_t tier = of == want || (a.form == NUMBER && b.form == NUMBER && a.of == b.of) ? 1
        : a.form == POINTER && b.form == POINTER && (a.of == 1 || b.of == 1) ? 2 : 0;
    return (match){tier != 0, tier, lo, lo + count * step, step};
}

static bool precedes(match a, match b, uint64_t k)
{
    if ((a.hi == k) != (b.hi == k))
        return b.hi == k;
    if (a.tier != b.tier)
        return a.tier < b.tier;
    if (a.hi - a.lo != b.hi - b.lo)
        return a.hi - a.lo > b.hi - b.lo;
    return a.lo < b.lo;
}

static match consider(uint64_t k, match best, match next)
{
    if (!next.some || k < next.lo || k > next.hi || (k - next.lo) % next.step != 0)
        return best;
    return best.some && !precedes(next, best, k) ? best : next;
}

static place descend(size_t head, uint64_t at)
{
    while (head != 0) {
        level it = levels[head - 1];
        if (at / it.stride >= it.count)
            return (place){false, 0};
        at %= it.stride;
        head = it.inside;
    }
    return (place){true, at};
}

static place start_in(const row *it, uint64_t at, uint64_t in_it)
{
    if (it->lo > in_it)
        return (place){false, 0};
    place past = descend(it->levels, in_it - it->lo);
    past.at = at + (in_it - past.at);
    return past;
}

static place start_to(const row *it, uint64_t at, uint64_t k)
{
    uint64_t width = (uint64_t)it->count * it->size;
    if (width > k - at)
        return (place){false, 0};
    return start_in(it, at, k - at - width);
}

static match match_at(const row *it, place start, uint32_t want)
{
    return start.some ? matched(it->kind, start.at, it->count, it->size, want) : (match){false, 0, 0, 0, 0};
}

static place value_at(uint64_t bytes, part it, uint64_t k)
{
    uint64_t i = k < it.base ? it.count : (k - it.base) / bytes;
    return (place){i < it.count, it.base + i * bytes};
}

/* How many rows begin, or reach, at a place or before it. */
static size_t from_up_to(const row *own, size_t count, uint64_t place)
{
    size_t low = 0;
    while (low < count) {
        size_t middle = low + (count - low) / 2;
        if (keyed(own[middle].key, own[middle].lo) <= place)
            low = middle + 1;
        else
            count = middle;
    }
    return low;
}

static size_t reach_up_to(const row *own, size_t count, uint64_t place)
{
    size_t low = 0;
    while (low < count) {
        size_t middle = low + (count - low) / 2;
        if (keyed(own[middle].key, own[middle].reach) <= place)
            low = middle + 1;
        else
            count = middle;
    }
    return low;
}

static match part_inside(part it, uint32_t key, uint64_t k, uint32_t want, match best)
{
    entry of = entries[it.kind - 1];
    best = consider(k, best, matched(it.kind, it.base, it.count, of.size, want));
    place at = value_at(of.size, it, k);
    if (!at.some)
        return best;
    const row *own = rows + of.start;
    uint64_t wanted = keyed(key, k - at.at);
    size_t count = of.end - of.start;
    size_t start = reach_up_to(own, count, wanted), end = from_up_to(own, count, wanted);
    for (size_t i = start; i < end; i++)
        best = consider(k, best, match_at(own + i, start_in(own + i, at.at, k - at.at), want));
    return best;
}

static match part_ends(part it, uint32_t key, uint64_t k, uint32_t want, match best)
{
    entry of = entries[it.kind - 1];
    if (it.base >= k)
        return best;
    place at = value_at(of.size, it, k - 1);
    if (!at.some)
        return best;
    const row *own = rows + of.start;
    uint64_t wanted = keyed(key, k - at.at);
    size_t count = of.end - of.start;
    size_t start = reach_up_to(own, count, wanted - 1), end = from_up_to(own, count, wanted - 1);
    for (size_t i = start; i < end; i++)
        best = consider(k, best, match_at(own + i, start_to(own + i, at.at, k), want));
    return best;
}

static bool is_character(uint32_t t) { return kinds[t - 1].form == NUMBER && kinds[t - 1].of == 1; }

static match object_match(uint32_t elem, uint64_t size, uint32_t want)
{
    uint32_t tier = is_character(want) ? 2 : is_character(elem) ? 3 : 0;
    return (match){tier != 0, tier, 0, size, 1};
}

static match lookup(uint32_t elem, uint64_t size, uint64_t k, uint32_t want)
{
    match best = {false, 0, 0, 0, 0};
    if (k > size)
        return best;
    uint32_t key = key_of(want);
    entry of = entries[elem - 1];
    part own = {elem, 0, of.tail == 0 ? size / of.size : of.size <= size}, tail = {of.tail, of.tail_at, 0};
    bool has_tail = of.tail != 0 && of.tail_at <= size;
    if (has_tail)
        tail.count = (size - of.tail_at) / entries[of.tail - 1].size;
    best = part_inside(own, key, k, want, best);
    if (has_tail)
        best = part_inside(tail, key, k, want, best);
    best = consider(k, best, object_match(elem, size, want));
    if (best.some && best.hi != k)
        return best;
    best = part_ends(own, key, k, want, best);
    return has_tail ? part_ends(tail, key, k, want, best) : best;
}

static uint64_t used(void)
{
    struct timespec now;
    clock_gettime(CLOCK_THREAD_CPUTIME_ID, &now);
    return (uint64_t)now.tv_sec * 1000000000 + now.tv_nsec;
}

int main(int count, char **words)
{
    uint32_t number = atoi(words[1]), elem = INT, want = INT;
    uint64_t size = 4000, first = 0, step = 4, sum = 0, turns = strtoull(words[2], NULL, 10);
    add_numbers();
    if (number >= 1 && number <= 4) {
        uint32_t text = pointer(CHAR);
        elem = structure((uint32_t[]){text, INT, LONG}, 3);
        want = number == 1 ? INT : number == 2 ? text : number == 3 ? LONG : SHORT;
        size = 24000, first = number == 1 ? 8 : number == 3 ? 24000 : 0, step = number == 3 ? 0 : 24;
    } else if (number == 5) {
        elem = structure_of(INT, 1000);
    } else if (number == 6) {
        elem = array(CHAR, 1048559), want = CHAR, size = 1048559, step = 1000;
    } else if (number == 7) {
        elem = structure((uint32_t[]){LONG, array(array(array(INT, 10), 10), 10)}, 2);
        size = 4008, first = 8;
    } else if (number == 8) {
        elem = structure_of(structure_of(CHAR, 999), 998);
        want = CHAR, size = 997002, step = 997;
    }
    uint64_t begun = used();
    build();
    uint64_t built = used();
    for (uint64_t i = 0; i < turns; i++) {
        match found = lookup(elem, size, first + step * (i % 1000), want);
        if (found.some)
            sum += found.lo + found.hi;
    }
    printf("%lu %lu %lu\n", (unsigned long)(built - begun), (unsigned long)(used() - built), (unsigned long)sum);
    return count != 3;
}
