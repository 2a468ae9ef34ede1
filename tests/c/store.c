/* Calls the proved store from C, as include/verdict_store.h tells. Prints what it saw. */

#include "verdict_store.h"

#include <stdio.h>
#include <string.h>

#define CAPACITY 8
#define ROWS 4

/* Archetype 0 without columns, 1 with type 1 (4 bytes), 2 with types 1 and 5 (4 bytes, 1 byte). */
static const uint32_t rows[] = {ROWS, ROWS, ROWS};
static const uint32_t widths[] = {0, 1, 2};
static const uint32_t types[] = {1, 1, 5};
static const uint32_t sizes[] = {4, 4, 1};

static uint32_t generations[CAPACITY], archetypes[CAPACITY], indices[CAPACITY], pending[CAPACITY];
static uint32_t numbers[3 * ROWS], counts[3];
static uint8_t bytes[ROWS * 4 + ROWS * 5];
static uint64_t words[3];

static verdict_tables store = {
    {0, 0, 0, 0}, rows, widths, types, sizes, 3, 3,
    generations, archetypes, indices, pending, CAPACITY,
    numbers, counts, 3 * ROWS, bytes, sizeof bytes, words,
};

static int failures;

static void expect(const char *what, uint64_t said, uint64_t wanted) {
    if (said != wanted) {
        printf("%s: %llu, not %llu\n", what, (unsigned long long)said, (unsigned long long)wanted);
        failures++;
    }
}

static void show(uint64_t handle) {
    uint64_t out[4];
    expect("from bits", verdict_handle_from_bits(handle, out), VERDICT_GRANTED);
    printf("%uv%u\n", (unsigned)out[0], (unsigned)out[1]);
}

/* Spawns, reads, writes and despawns; the last row moves into the one that is left. */
static void entities(void) {
    uint64_t out[4], first, second;
    const uint8_t row[] = {1, 2, 3, 4, 9}, other[] = {5, 6, 7, 8, 10};

    expect("spawn", verdict_store_spawn(VERDICT_STORE(&store), 2, row, 5, out), 0);
    first = out[0];
    expect("spawn", verdict_store_spawn(VERDICT_STORE(&store), 2, other, 5, out), 0);
    second = out[0];
    show(first);
    show(second);
    expect("spawn of a short row", verdict_store_spawn(VERDICT_STORE(&store), 2, row, 4, out), 13);
    expect("zeros on a refusal", out[0] | out[1] | out[2] | out[3], 0);
    expect("spawn nowhere", verdict_store_spawn(VERDICT_STORE(&store), 3, row, 5, out), 6);

    expect("write", verdict_store_write(VERDICT_STORE(&store), first, 5, row, 1), 0);
    expect("read", verdict_store_read(VERDICT_STORE(&store), first, 5, out), 0);
    expect("length", out[1], 1);
    expect("byte", bytes[out[0]], 1);
    expect("read of another type", verdict_store_read(VERDICT_STORE(&store), first, 7, out), 15);

    expect("despawn", verdict_store_despawn(VERDICT_STORE(&store), first), 0);
    expect("despawn again", verdict_store_despawn(VERDICT_STORE(&store), first), 2);
    expect("get", verdict_store_get(VERDICT_STORE(&store), second, out), 0);
    expect("archetype", out[0], 2);
    expect("row", out[1], 0);
    expect("read", verdict_store_read(VERDICT_STORE(&store), second, 1, out), 0);
    expect("bytes", memcmp(bytes + out[0], other, 4), 0);
    expect("len", verdict_store_len(VERDICT_STORE(&store), out), 0);
    expect("live", out[0], 1);
    expect("resolve", verdict_store_resolve_unknown_gen(VERDICT_STORE(&store), 0, out), 0);
    show(out[0]);
    expect("contains", verdict_store_contains(VERDICT_STORE(&store), out[0], out), 0);
    expect("a free number", out[0], 0);
}

/* A reserved entity has no component yet; what is said depends on its number. */
static void reserved(void) {
    uint64_t out[4], used, fresh;
    const uint8_t value[] = {1};

    expect("reserve", verdict_store_reserve_entity(VERDICT_STORE(&store), out), 0);
    used = out[0];
    expect("reserve", verdict_store_reserve_entity(VERDICT_STORE(&store), out), 0);
    fresh = out[0];
    show(used);
    show(fresh);
    expect("read, used before", verdict_store_read(VERDICT_STORE(&store), used, 5, out), 2);
    expect("read, new", verdict_store_read(VERDICT_STORE(&store), fresh, 5, out), 15);
    expect("write, used before",
           verdict_store_write(VERDICT_STORE(&store), used, 5, value, 1), 2);
    expect("write, new", verdict_store_write(VERDICT_STORE(&store), fresh, 5, value, 1), 15);
    expect("flush", verdict_store_flush(VERDICT_STORE(&store)), 0);
    expect("read, live", verdict_store_read(VERDICT_STORE(&store), used, 5, out), 15);
    expect("despawn", verdict_store_despawn(VERDICT_STORE(&store), fresh), 0);
    expect("despawn", verdict_store_despawn(VERDICT_STORE(&store), used), 0);
}

/* A borrowed column keeps rows where they are. */
static void borrows(void) {
    uint64_t out[4];
    expect("borrow", verdict_store_borrow(VERDICT_STORE(&store), 2, 1), 0);
    expect("borrow uniquely", verdict_store_borrow_mut(VERDICT_STORE(&store), 2, 1), 8);
    expect("spawn while borrowed", verdict_store_spawn(VERDICT_STORE(&store), 0, NULL, 0, out), 8);
    expect("wrong release", verdict_store_release_mut(VERDICT_STORE(&store), 2, 1), 11);
    expect("release", verdict_store_release(VERDICT_STORE(&store), 2, 1), 0);
    expect("release again", verdict_store_release(VERDICT_STORE(&store), 2, 1), 10);
    expect("no such column", verdict_store_borrow(VERDICT_STORE(&store), 1, 5), 15);
}

/* Two free numbers and a new one are reserved, and their handles walked one by one. */
static void reservation(verdict_tables *own) {
    uint64_t out[4];
    size_t position = 0, again = 0, length;
    uint32_t number, end;
    const uint32_t *part;

    expect("free 0v2", verdict_ids_free(VERDICT_IDS(own), 0x200000000, out), 0);
    expect("free 1v1", verdict_ids_free(VERDICT_IDS(own), 0x100000001, out), 0);
    expect("reserve", verdict_ids_reserve_span(VERDICT_IDS(own), 3, out), 0);
    part = own->pending + out[0];
    length = out[1] - out[0];
    number = (uint32_t)out[2];
    end = (uint32_t)out[3];
    expect("how many", verdict_ids_reserve_len(part, length, position, number, end, out), 0);
    expect("left", out[0], 3);
    expect("no generation",
           verdict_ids_reserve_next(part, length, &again, &number, end, NULL, 0, out), 13);
    while (verdict_ids_reserve_next(part, length, &position, &number, end, generations, CAPACITY,
                                    out) == 0 && out[0] == 1)
        show(out[1]);
    expect("at the end", position, 2);
}

/* The layers below, on tables of their own. */
static void layers(void) {
    static verdict_tables own;
    uint64_t out[4], word = 0x7fffffffffffffff;
    uint32_t state[4];
    const uint8_t value[] = {1, 1, 1, 1};
    own = store;
    memset(own.head, 0, sizeof own.head);
    memset(counts, 0, sizeof counts);
    memset(bytes, 0, sizeof bytes);

    expect("a full count", verdict_word_shared(&word), 9);
    word = 0x8000000000000002;
    expect("unique release", verdict_word_unique_release(&word), 0);
    expect("the count stays", word, 2);

    expect("alloc", verdict_ids_alloc(VERDICT_IDS(&own), 1, 0, out), 0);
    show(out[0]);
    expect("free", verdict_ids_free(VERDICT_IDS(&own), out[0], out), 0);
    expect("alloc many", verdict_ids_alloc_many(VERDICT_IDS(&own), 3, 1, 0, state), 0);
    expect("how many", verdict_ids_alloc_many_len(state, out), 0);
    expect("left", out[0], 3);
    while (verdict_ids_alloc_many_next(state, pending, CAPACITY, out) == 0 && out[0] == 1)
        printf("number %u\n", (unsigned)out[1]);
    reservation(&own);
    expect("a handle of generation 0", verdict_ids_get(VERDICT_IDS(&own), 7, out), 5);

    expect("allocate", verdict_columns_allocate(VERDICT_COLUMNS(&own), 1, 6, out), 0);
    expect("row", out[0], 0);
    expect("put", verdict_columns_put(VERDICT_COLUMNS(&own), 1, 0, 1, value, 4), 0);
    expect("get", verdict_columns_get(VERDICT_COLUMNS(&own), 1, 0, 1, out), 0);
    expect("component", bytes[out[0]], 1);
    expect("remove", verdict_columns_remove(VERDICT_COLUMNS(&own), 1, 0, out), 0);
    expect("nothing moved", out[0], 0);
    expect("lookup", verdict_columns_lookup(VERDICT_DECLARATION(&own), 2, 5, out), 0);
    expect("column", out[0], 1);
}

/* A store of capacity 0 without a row: every table that has no entry is a null pointer. */
static void nothing(void) {
    static const uint32_t no_rows[] = {0}, no_columns[] = {0};
    static uint32_t no_count[1];
    static verdict_tables none;
    uint64_t out[4], handle = 0x100000000;
    none.rows = no_rows;
    none.widths = no_columns;
    none.counts = no_count;
    none.archetype_count = 1;

    expect("len of nothing", verdict_store_len(VERDICT_STORE(&none), out), 0);
    expect("live", out[0], 0);
    expect("spawn", verdict_store_spawn(VERDICT_STORE(&none), 0, NULL, 0, out), 4);
    expect("spawn at", verdict_store_spawn_at(VERDICT_STORE(&none), handle, 0, NULL, 0), 4);
    expect("despawn", verdict_store_despawn(VERDICT_STORE(&none), handle), 2);
    expect("insert", verdict_store_insert(VERDICT_STORE(&none), handle, 1, NULL, 0), 2);
    expect("remove", verdict_store_remove(VERDICT_STORE(&none), handle, 1), 2);
    expect("read", verdict_store_read(VERDICT_STORE(&none), handle, 1, out), 2);
    expect("write", verdict_store_write(VERDICT_STORE(&none), handle, 1, NULL, 0), 2);
    expect("get", verdict_store_get(VERDICT_STORE(&none), handle, out), 2);
    expect("resolve", verdict_store_resolve_unknown_gen(VERDICT_STORE(&none), 0, out), 2);
    expect("contains", verdict_store_contains(VERDICT_STORE(&none), handle, out), 0);
    expect("not contained", out[0], 0);
    expect("borrow", verdict_store_borrow(VERDICT_STORE(&none), 0, 1), 15);
    expect("release", verdict_store_release_mut(VERDICT_STORE(&none), 0, 1), 15);
    expect("reserve", verdict_store_reserve_entity(VERDICT_STORE(&none), out), 4);
    expect("reserve 0", verdict_store_reserve_entities(VERDICT_STORE(&none), 0, NULL, 0), 0);
    expect("reserve 1", verdict_store_reserve_entities(VERDICT_STORE(&none), 1, out, 4), 4);
    expect("no room to answer",
           verdict_store_reserve_entities(VERDICT_STORE(&none), 1, NULL, 0), 13);
    expect("free list", verdict_store_freelist(VERDICT_STORE(&none), NULL, 0, out), 0);
    expect("none free", out[0], 0);
    expect("flush", verdict_store_flush(VERDICT_STORE(&none)), 0);
    expect("clear", verdict_store_clear(VERDICT_STORE(&none)), 0);
}

/* The lengths that the header reckons are those that the calls ask for, and no others. */
static void lengths(void) {
    static uint32_t more_numbers[3 * ROWS + 1];
    static uint8_t more_bytes[ROWS * 9 + 1];
    verdict_lengths needed = verdict_lengths_of(rows, widths, 3, sizes, 3, CAPACITY);
    verdict_tables other = store;
    uint64_t out[4];
    expect("ids", needed.ids, CAPACITY);
    expect("numbers", needed.numbers, 3 * ROWS);
    expect("counts", needed.counts, 3);
    expect("bytes", needed.bytes, ROWS * 4 + ROWS * 5);
    expect("words", needed.words, 3);
    other.numbers = more_numbers;
    other.bytes = more_bytes;
    other.row_count = needed.numbers;
    other.byte_count = needed.bytes;
    expect("as long", verdict_store_len(VERDICT_STORE(&other), out), 0);
    other.row_count = needed.numbers + 1;
    expect("a number more", verdict_store_len(VERDICT_STORE(&other), out), 13);
    other.row_count = needed.numbers - 1;
    expect("a number less", verdict_store_len(VERDICT_STORE(&other), out), 13);
    other.row_count = needed.numbers;
    other.byte_count = needed.bytes + 1;
    expect("a byte more", verdict_store_len(VERDICT_STORE(&other), out), 13);
    other.byte_count = needed.bytes - 1;
    expect("a byte less", verdict_store_len(VERDICT_STORE(&other), out), 13);
    /* Widths that name more columns than there are: nothing past them is read. */
    needed = verdict_lengths_of(rows, widths, 3, sizes, 1, CAPACITY);
    expect("one column", needed.bytes, ROWS * 4);
}

int main(void) {
    lengths();
    entities();
    reserved();
    borrows();
    layers();
    nothing();
    printf("%d failures\n", failures);
    return failures != 0;
}
