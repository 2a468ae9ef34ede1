/* verdict_store.h: the proved entity store, for C and C++.

   Link the archives libexports_*.a, which `./project archives` writes to target/staticlib, x86-64 Linux.
   They need nothing but the C library, keep no state, allocate nothing, and use no lock: all
   tables are the caller's, and are lent for one call.

   What a call answers. Every function returns the number of the refusal, 0 where the call is
   granted; VERDICT_* below names them. A refused call has changed nothing that it was lent, but
   for `out`, which it fills with zeros. A granted call fills `out` with up to four numbers, as
   told beside it; the rest of them are 0.

   What may be lent. Any tables, handles and buffers: the calls test what they are given, in the
   order told beside each function, and the first test that fails gives the number. Four duties
   are left to the caller, which no call can test: a pointer with its count is an array of that
   many elements (it may be null where the count is 0); a pointer without one is valid and not
   null (head, out and state with four elements; word, position and number with one); every
   pointer that is not null is aligned for its type; and what a call writes to overlaps
   nothing else that is lent to it.

   Handles. A handle is 64 bits, the generation in the high half, the number in the low half.
   Its generation is not 0. 7v2 below is number 7 at generation 2.

   The head. Four numbers beside the id tables: used, pending, cursor (signed, in two's
   complement) and live. All 0 for an empty store.

   The tables.
     rows         rows of each archetype, at most 4096; archetype 0 is the one without columns
     widths       columns of each archetype, at most 16; 0 for archetype 0
     types        type number of each column, ascending within an archetype
     sizes        bytes of a component of each column, at most 64; one size a type
     generations  of each number; its count, at most 4096, is the capacity
     archetypes   of each number: where it is; as long as generations
     indices      of each number: its row there, UINT32_MAX for none; as long as generations
     pending      numbers that are free or reserved; as long as generations
     numbers      for each archetype in turn, the numbers in its rows; as long as all rows
     counts       rows in use, one an archetype
     bytes        for each archetype in turn, for each of its columns, the components row by row
     words        borrow words, one a column
   A fresh store has the declaration (rows, widths, types, sizes) as wanted, and zeros elsewhere.
   The first of the declaration is of archetype 0, and there are at most 16 archetypes. A table
   of another length is refused with 13; `verdict_lengths_of` below reckons the lengths.

   "12, 13, 1" below stands for the first tests of a layer: the sizes and the declaration (12),
   the lengths of all that is lent (13), the head and the row counts (1). The length of
   component bytes (`value`, `run`, `taken`) is tested only where the type and the archetype,
   as far as the call names them, are declared. */

#ifndef VERDICT_STORE_H
#define VERDICT_STORE_H

#include <stddef.h>
#include <stdint.h>

#ifdef __cplusplus
extern "C" {
#endif

enum {
    VERDICT_GRANTED = 0,
    VERDICT_DAMAGED = 1,          /* the tables contradict each other */
    VERDICT_NO_SUCH_ENTITY = 2,   /* it was despawned, or never there */
    VERDICT_NOT_FLUSHED = 3,      /* reserved entities wait for a flush */
    VERDICT_NO_ROOM = 4,          /* no number or no row is left */
    VERDICT_ZERO_GENERATION = 5,  /* a handle with generation 0 */
    VERDICT_BAD_PLACE = 6,        /* no such archetype or row */
    VERDICT_UNIQUE_HELD = 7,      /* the column is borrowed uniquely */
    VERDICT_WORD_HELD = 8,        /* a column is borrowed */
    VERDICT_COUNT_FULL = 9,       /* borrowed as often as can be counted */
    VERDICT_NOT_HELD = 10,        /* released, but not borrowed */
    VERDICT_WRONG_RELEASE = 11,   /* released in the other way than borrowed */
    VERDICT_BAD_DECLARATION = 12, /* the sizes or the rules of columns are broken */
    VERDICT_BAD_LENGTH = 13,      /* a table, value or output of wrong length */
    VERDICT_NO_TARGET = 14,       /* no archetype has these components */
    VERDICT_NO_COMPONENT = 15     /* the entity or archetype has no such component */
};

/* All that a store call is lent, for callers that want it in one place. The macros below spell
   it out as the first parameters of the calls of each layer. */
typedef struct verdict_tables {
    uint64_t head[4];
    const uint32_t *rows, *widths, *types, *sizes;
    size_t archetype_count, column_count;
    uint32_t *generations, *archetypes, *indices, *pending;
    size_t capacity;
    uint32_t *numbers, *counts;
    size_t row_count;
    uint8_t *bytes;
    size_t byte_count;
    uint64_t *words;
} verdict_tables;

/* How long the tables of a store are: as many entries, or bytes. */
typedef struct verdict_lengths {
    size_t ids;     /* generations, archetypes, indices and pending, each */
    size_t numbers; /* one a row of all archetypes */
    size_t counts;  /* one an archetype */
    size_t bytes;   /* of each archetype, its rows times the sizes of its columns */
    size_t words;   /* one a column */
} verdict_lengths;

/* The lengths that a declaration and a capacity ask for. It is plain C and no part of what is
   proved; the calls test the lengths that they are given. A declaration that the calls refuse has
   no lengths: what is said of one means nothing, and no entry past its counts is looked at. */
static inline verdict_lengths verdict_lengths_of(
    const uint32_t *rows, const uint32_t *widths, size_t archetype_count,
    const uint32_t *sizes, size_t column_count, size_t capacity) {
    verdict_lengths found = {0, 0, 0, 0, 0};
    size_t archetype, column = 0;
    uint32_t left;
    found.ids = capacity;
    found.counts = archetype_count;
    found.words = column_count;
    for (archetype = 0; archetype < archetype_count; archetype++) {
        found.numbers += rows[archetype];
        for (left = widths[archetype]; left > 0 && column < column_count; left--)
            found.bytes += (size_t)rows[archetype] * sizes[column++];
    }
    return found;
}

#define VERDICT_IDS(t)                                                                     \
    (t)->head, (t)->generations, (t)->capacity, (t)->archetypes, (t)->capacity,            \
        (t)->indices, (t)->capacity, (t)->pending, (t)->capacity

#define VERDICT_DECLARATION(t)                                                             \
    (t)->rows, (t)->archetype_count, (t)->widths, (t)->archetype_count, (t)->types,        \
        (t)->column_count, (t)->sizes, (t)->column_count

#define VERDICT_COLUMNS(t)                                                                 \
    VERDICT_DECLARATION(t), (t)->numbers, (t)->row_count, (t)->counts,                     \
        (t)->archetype_count, (t)->bytes, (t)->byte_count

#define VERDICT_STORE(t)                                                                   \
    (t)->head, VERDICT_DECLARATION(t), (t)->generations, (t)->capacity, (t)->archetypes,   \
        (t)->capacity, (t)->indices, (t)->capacity, (t)->pending, (t)->capacity,           \
        (t)->numbers, (t)->row_count, (t)->counts, (t)->archetype_count, (t)->bytes,       \
        (t)->byte_count, (t)->words, (t)->column_count

/* ---- handles and borrow words ---- */

/* A handle's bits taken apart. Out: the number and the generation. Refusals: 5. */
uint32_t verdict_handle_from_bits(
    uint64_t raw, uint64_t out[4]);

/* The handle of a number and a generation. Out: its bits. Refusals: 5. */
uint32_t verdict_handle_new(
    uint32_t number, uint32_t generation, uint64_t out[4]);

/* Shared borrow: adds one to the word. The top bit of a word says that it is borrowed
   uniquely, the other 63 count. Refusals: 9 where the count is full, 7 where the top bit
   is set. */
uint32_t verdict_word_shared(
    uint64_t *word);

/* The same on the word at a position. Out: the word that is left. Refusals: 13 where there
   is no such position, then 9, 7. */
uint32_t verdict_word_shared_at(
    uint64_t *words, size_t words_count, size_t at, uint64_t out[4]);

/* Unique borrow: sets the top bit of a word that is 0. Refusals: 8 where it is not 0. */
uint32_t verdict_word_unique(
    uint64_t *word);

/* The same on the word at a position. Out: the word that is left. Refusals: 13, 8. */
uint32_t verdict_word_unique_at(
    uint64_t *words, size_t words_count, size_t at, uint64_t out[4]);

/* Shared release: takes one from the word. Refusals: 10 where it is 0, 11 where the top
   bit is set. */
uint32_t verdict_word_release(
    uint64_t *word);

/* The same on the word at a position. Out: the word that is left. Refusals: 13, 10, 11. */
uint32_t verdict_word_release_at(
    uint64_t *words, size_t words_count, size_t at, uint64_t out[4]);

/* Unique release: clears the top bit and leaves the count. Refusals: 11 where the top bit
   is not set. */
uint32_t verdict_word_unique_release(
    uint64_t *word);

/* The same on the word at a position. Out: the word that is left. Refusals: 13, 11. */
uint32_t verdict_word_unique_release_at(
    uint64_t *words, size_t words_count, size_t at, uint64_t out[4]);

/* ---- ids: numbers, generations and places ---- */

/* Hands out a handle whose number becomes live at the next flush: the last free number, or
   a new one at generation 1. Out: the handle. Refusals: 12, 13, 1, 4 without a number to
   give, 1 for a damaged free number. */
uint32_t verdict_ids_reserve_entity(
    uint64_t head[4], const uint32_t *generations, size_t generations_count,
    const uint32_t *archetypes, size_t archetypes_count,
    const uint32_t *indices, size_t indices_count, const uint32_t *pending, size_t pending_count,
    uint64_t out[4]);

/* Hands out n handles at once, to the front of `handles`: free numbers in the order of the
   pending list, then new ones. Refusals: 12, 13 (also where `handles` has fewer than n
   places), 1, 4, 1. */
uint32_t verdict_ids_reserve_entities(
    uint64_t head[4], const uint32_t *generations, size_t generations_count,
    const uint32_t *archetypes, size_t archetypes_count,
    const uint32_t *indices, size_t indices_count, const uint32_t *pending, size_t pending_count,
    size_t n, uint64_t *handles, size_t handles_count);

/* The same reservation without an output, for a caller that walks its handles one by one. Out:
   from and to, positions of the pending list, and from and to, new numbers; none are taken
   where two are equal. The walk is lent the part of the pending list from the one position
   to the other, and begins at position 0 of it and the first new number; a step gives what
   the part holds when it is asked. Refusals: 12, 13, 1, 4, 1. */
uint32_t verdict_ids_reserve_span(
    uint64_t head[4], const uint32_t *generations, size_t generations_count,
    const uint32_t *archetypes, size_t archetypes_count,
    const uint32_t *indices, size_t indices_count, const uint32_t *pending, size_t pending_count,
    size_t n, uint64_t out[4]);

/* A step of that walk: the number at the position with its stored generation, then the new
   numbers up to `end` with generation 1. Out: 1 and the handle, with the position or the
   number one further, or 0 after the last, where both stay. Refusals, for a number of the
   part: 13 where the generations have no entry for it, 1 for a stored generation 0. */
uint32_t verdict_ids_reserve_next(
    const uint32_t *recycled, size_t recycled_count, size_t *position, uint32_t *number,
    uint32_t end, const uint32_t *generations, size_t generations_count, uint64_t out[4]);

/* Out: how many handles that walk has left. It is always granted. */
uint32_t verdict_ids_reserve_len(
    const uint32_t *recycled, size_t recycled_count, size_t position, uint32_t number,
    uint32_t end, uint64_t out[4]);

/* Makes a number live at the given place: the last free one, or a new one at generation 1.
   Out: the handle. Refusals: 12, 13, 1, 3 while numbers are reserved, 6 for the index
   UINT32_MAX, 4, 1. */
uint32_t verdict_ids_alloc(
    uint64_t head[4], uint32_t *generations, size_t generations_count,
    uint32_t *archetypes, size_t archetypes_count, uint32_t *indices, size_t indices_count,
    const uint32_t *pending, size_t pending_count, uint32_t archetype, uint32_t index,
    uint64_t out[4]);

/* Makes the handle's number live at that generation and the given place, whether it was
   new, free or live. New numbers below it become free. Out: 0, or 1 and the place that a
   live number had. Refusals: 12, 13, 1, 5, 3, 6, 4 for a number not below the capacity, 1
   for a number that is neither live nor free, or a damaged one. */
uint32_t verdict_ids_alloc_at(
    uint64_t head[4], uint32_t *generations, size_t generations_count,
    uint32_t *archetypes, size_t archetypes_count, uint32_t *indices, size_t indices_count,
    uint32_t *pending, size_t pending_count, uint64_t bits, uint32_t archetype, uint32_t index,
    uint64_t out[4]);

/* Makes n numbers live in successive rows of an archetype from `first` on: the last free
   numbers in the order of the pending list, then new ones. Out: the state from which
   `verdict_ids_alloc_many_next` walks them. Refusals: 12, 13, 1, 3, 6, 4, 1. */
uint32_t verdict_ids_alloc_many(
    uint64_t head[4], uint32_t *generations, size_t generations_count,
    uint32_t *archetypes, size_t archetypes_count, uint32_t *indices, size_t indices_count,
    const uint32_t *pending, size_t pending_count, size_t n, uint32_t archetype, uint32_t first,
    uint32_t out[4]);

/* A step of that walk. Out: 1 and the number, or 0 after the last, where the state stays.
   It answers what the pending table holds when it is asked. Refusals: 13 where the table
   has no such position. */
uint32_t verdict_ids_alloc_many_next(
    uint32_t state[4], const uint32_t *pending, size_t pending_count, uint64_t out[4]);

/* Out: how many numbers that walk has left. It is always granted. */
uint32_t verdict_ids_alloc_many_len(
    const uint32_t state[4], uint64_t out[4]);

/* Makes all reserved numbers live, in successive rows of an archetype from `first` on: the
   new ones ascending, then those of the pending list. Refusals: 12, 13, 1, 6, 1. */
uint32_t verdict_ids_flush(
    uint64_t head[4], uint32_t *generations, size_t generations_count,
    uint32_t *archetypes, size_t archetypes_count, uint32_t *indices, size_t indices_count,
    const uint32_t *pending, size_t pending_count, uint32_t archetype, uint32_t first);

/* Frees a live number: its generation rises by one (UINT32_MAX becomes 1), its place is
   empty. Out: the place that it had. Refusals: 12, 13, 1, 5, 3, 2, 1 for a live count of
   0. */
uint32_t verdict_ids_free(
    uint64_t head[4], uint32_t *generations, size_t generations_count,
    uint32_t *archetypes, size_t archetypes_count, uint32_t *indices, size_t indices_count,
    uint32_t *pending, size_t pending_count, uint64_t bits, uint64_t out[4]);

/* Whether a handle is live or reserved. Out: 1 or 0. Refusals: 12, 13, 1, 5. */
uint32_t verdict_ids_contains(
    const uint64_t head[4], const uint32_t *generations, size_t generations_count,
    const uint32_t *archetypes, size_t archetypes_count,
    const uint32_t *indices, size_t indices_count, const uint32_t *pending, size_t pending_count,
    uint64_t bits, uint64_t out[4]);

/* The place of a handle. A reserved new number is at (0, UINT32_MAX); a reserved number
   that was used before gives 2, as hecs has it. Out: archetype and index. Refusals: 12,
   13, 1, 5, 2. */
uint32_t verdict_ids_get(
    const uint64_t head[4], const uint32_t *generations, size_t generations_count,
    const uint32_t *archetypes, size_t archetypes_count,
    const uint32_t *indices, size_t indices_count, const uint32_t *pending, size_t pending_count,
    uint64_t bits, uint64_t out[4]);

/* Sets the place of a live number. Refusals: 12, 13, 1, 5, 6, 2. */
uint32_t verdict_ids_set_place(
    const uint64_t head[4], const uint32_t *generations, size_t generations_count,
    uint32_t *archetypes, size_t archetypes_count, uint32_t *indices, size_t indices_count,
    const uint32_t *pending, size_t pending_count, uint64_t bits, uint32_t archetype,
    uint32_t index);

/* The handle of a number at the generation it has, free numbers too. Out: the handle.
   Refusals: 12, 13, 1, 2, 1 for a stored generation 0. */
uint32_t verdict_ids_resolve_unknown_gen(
    const uint64_t head[4], const uint32_t *generations, size_t generations_count,
    const uint32_t *archetypes, size_t archetypes_count,
    const uint32_t *indices, size_t indices_count, const uint32_t *pending, size_t pending_count,
    uint32_t number, uint64_t out[4]);

/* Out: how many numbers are live. Refusals: 12, 13, 1. */
uint32_t verdict_ids_len(
    const uint64_t head[4], const uint32_t *generations, size_t generations_count,
    const uint32_t *archetypes, size_t archetypes_count,
    const uint32_t *indices, size_t indices_count, const uint32_t *pending, size_t pending_count,
    uint64_t out[4]);

/* The handles that the free numbers will have next, to the front of `handles`. Out: how
   many. Refusals: 12, 13 (also where `handles` is too short), 1, 1. */
uint32_t verdict_ids_freelist(
    const uint64_t head[4], const uint32_t *generations, size_t generations_count,
    const uint32_t *archetypes, size_t archetypes_count,
    const uint32_t *indices, size_t indices_count, const uint32_t *pending, size_t pending_count,
    uint64_t *handles, size_t handles_count, uint64_t out[4]);

/* The head becomes 0; the tables stay as they are. Handles are then given out from 0v1 on
   again: one from before may name a new entity. Refusals: 12, 13, 1. */
uint32_t verdict_ids_clear(
    uint64_t head[4], const uint32_t *generations, size_t generations_count,
    const uint32_t *archetypes, size_t archetypes_count,
    const uint32_t *indices, size_t indices_count, const uint32_t *pending, size_t pending_count);

/* ---- columns: rows of archetypes, and bytes ---- */

/* Puts a number into the first unused row of an archetype. The row's bytes stay. Out: the
   row. Refusals: 12, 13, 1, 6, 4 without a row. */
uint32_t verdict_columns_allocate(
    const uint32_t *rows, size_t rows_count, const uint32_t *widths, size_t widths_count,
    const uint32_t *types, size_t types_count, const uint32_t *sizes, size_t sizes_count,
    uint32_t *numbers, size_t numbers_count, uint32_t *counts, size_t counts_count,
    const uint8_t *bytes, size_t bytes_count, uint32_t archetype, uint32_t number,
    uint64_t out[4]);

/* Removes a row: the last row's number and components take its place. Out: 0 where it was
   the last, or 1 and the number that moved. Refusals: 12, 13, 1, 6. */
uint32_t verdict_columns_remove(
    const uint32_t *rows, size_t rows_count, const uint32_t *widths, size_t widths_count,
    const uint32_t *types, size_t types_count, const uint32_t *sizes, size_t sizes_count,
    uint32_t *numbers, size_t numbers_count, uint32_t *counts, size_t counts_count,
    uint8_t *bytes, size_t bytes_count, uint32_t archetype, uint32_t row, uint64_t out[4]);

/* Hands the row's components over to `taken`, in column order, and removes it. Out: as for
   remove. Refusals: 12, 13 (also where `taken` is not as long as the row), 1, 6. */
uint32_t verdict_columns_move_out(
    const uint32_t *rows, size_t rows_count, const uint32_t *widths, size_t widths_count,
    const uint32_t *types, size_t types_count, const uint32_t *sizes, size_t sizes_count,
    uint32_t *numbers, size_t numbers_count, uint32_t *counts, size_t counts_count,
    uint8_t *bytes, size_t bytes_count, uint8_t *taken, size_t taken_count, uint32_t archetype,
    uint32_t row, uint64_t out[4]);

/* Stores a component in a row. Refusals: 12, 13 (also where `value` is not as long as the
   type; not tested where type or archetype is undeclared), 1, 6, 15. */
uint32_t verdict_columns_put(
    const uint32_t *rows, size_t rows_count, const uint32_t *widths, size_t widths_count,
    const uint32_t *types, size_t types_count, const uint32_t *sizes, size_t sizes_count,
    const uint32_t *numbers, size_t numbers_count, const uint32_t *counts, size_t counts_count,
    uint8_t *bytes, size_t bytes_count, uint32_t archetype, uint32_t row, uint32_t kind,
    const uint8_t *value, size_t value_count);

/* Out: where the component starts in `bytes`, and its length. Refusals: 12, 13, 1, 6, 15. */
uint32_t verdict_columns_get(
    const uint32_t *rows, size_t rows_count, const uint32_t *widths, size_t widths_count,
    const uint32_t *types, size_t types_count, const uint32_t *sizes, size_t sizes_count,
    const uint32_t *numbers, size_t numbers_count, const uint32_t *counts, size_t counts_count,
    const uint8_t *bytes, size_t bytes_count, uint32_t archetype, uint32_t row, uint32_t kind,
    uint64_t out[4]);

/* Out: where the archetype's numbers start in `numbers`, and how many they are. Refusals:
   12, 13, 1, 6. */
uint32_t verdict_columns_ids(
    const uint32_t *rows, size_t rows_count, const uint32_t *widths, size_t widths_count,
    const uint32_t *types, size_t types_count, const uint32_t *sizes, size_t sizes_count,
    const uint32_t *numbers, size_t numbers_count, const uint32_t *counts, size_t counts_count,
    const uint8_t *bytes, size_t bytes_count, uint32_t archetype, uint64_t out[4]);

/* Out: the column of a type within an archetype. Refusals: 12, 6, 15. */
uint32_t verdict_columns_lookup(
    const uint32_t *rows, size_t rows_count, const uint32_t *widths, size_t widths_count,
    const uint32_t *types, size_t types_count, const uint32_t *sizes, size_t sizes_count,
    uint32_t archetype, uint32_t kind, uint64_t out[4]);

/* ---- the store ---- */

/* Makes an entity in an archetype; `run` is its components in column order. Out: the
   handle. Refusals: 12, 13 (also where `run` is not as long as the row), 1, 3, 6, 8 where
   any column is borrowed, 4, 1 for a damaged free number. */
uint32_t verdict_store_spawn(
    uint64_t head[4], const uint32_t *rows, size_t rows_count,
    const uint32_t *widths, size_t widths_count, const uint32_t *types, size_t types_count,
    const uint32_t *sizes, size_t sizes_count, uint32_t *generations, size_t generations_count,
    uint32_t *archetypes, size_t archetypes_count, uint32_t *indices, size_t indices_count,
    const uint32_t *pending, size_t pending_count, uint32_t *numbers, size_t numbers_count,
    uint32_t *counts, size_t counts_count, uint8_t *bytes, size_t bytes_count,
    const uint64_t *words, size_t words_count, uint32_t archetype,
    const uint8_t *run, size_t run_count, uint64_t out[4]);

/* Makes an entity at a chosen handle; `run` is its components in column order. A live
   entity that has the number leaves first, whatever its generation. Refusals: 12, 13 (also
   where `run` is not as long as the row), 1, 5, 3, 6, 1 where a live number's place is not
   its own, 8, 4, 1. */
uint32_t verdict_store_spawn_at(
    uint64_t head[4], const uint32_t *rows, size_t rows_count,
    const uint32_t *widths, size_t widths_count, const uint32_t *types, size_t types_count,
    const uint32_t *sizes, size_t sizes_count, uint32_t *generations, size_t generations_count,
    uint32_t *archetypes, size_t archetypes_count, uint32_t *indices, size_t indices_count,
    uint32_t *pending, size_t pending_count, uint32_t *numbers, size_t numbers_count,
    uint32_t *counts, size_t counts_count, uint8_t *bytes, size_t bytes_count,
    const uint64_t *words, size_t words_count, uint64_t bits, uint32_t archetype,
    const uint8_t *run, size_t run_count);

/* Ends an entity: its row is removed, the number that moved into it learns its place, its
   own number is freed. Refusals: 12, 13, 1, 5, 3, 2, 1 where its place is not its own, 8,
   1. */
uint32_t verdict_store_despawn(
    uint64_t head[4], const uint32_t *rows, size_t rows_count,
    const uint32_t *widths, size_t widths_count, const uint32_t *types, size_t types_count,
    const uint32_t *sizes, size_t sizes_count, uint32_t *generations, size_t generations_count,
    uint32_t *archetypes, size_t archetypes_count, uint32_t *indices, size_t indices_count,
    uint32_t *pending, size_t pending_count, uint32_t *numbers, size_t numbers_count,
    uint32_t *counts, size_t counts_count, uint8_t *bytes, size_t bytes_count,
    const uint64_t *words, size_t words_count, uint64_t bits);

/* Gives an entity a component: it moves to the archetype with that type added, the
   components that it has keep their bytes. One that it has already is overwritten in
   place. Refusals: 12, 13 (also for `value`), 1, 5, 3, 2, 1, 14 where no archetype has
   these types, 8, 4, 1. */
uint32_t verdict_store_insert(
    const uint64_t head[4], const uint32_t *rows, size_t rows_count,
    const uint32_t *widths, size_t widths_count, const uint32_t *types, size_t types_count,
    const uint32_t *sizes, size_t sizes_count,
    const uint32_t *generations, size_t generations_count,
    uint32_t *archetypes, size_t archetypes_count, uint32_t *indices, size_t indices_count,
    const uint32_t *pending, size_t pending_count, uint32_t *numbers, size_t numbers_count,
    uint32_t *counts, size_t counts_count, uint8_t *bytes, size_t bytes_count,
    const uint64_t *words, size_t words_count, uint64_t bits, uint32_t kind,
    const uint8_t *value, size_t value_count);

/* Takes a component from an entity, which moves to the archetype without that type.
   Refusals: 12, 13, 1, 5, 3, 2, 1, 15 where it has no such component or else 14 where no
   archetype has the rest, 8, 4, 1. */
uint32_t verdict_store_remove(
    const uint64_t head[4], const uint32_t *rows, size_t rows_count,
    const uint32_t *widths, size_t widths_count, const uint32_t *types, size_t types_count,
    const uint32_t *sizes, size_t sizes_count,
    const uint32_t *generations, size_t generations_count,
    uint32_t *archetypes, size_t archetypes_count, uint32_t *indices, size_t indices_count,
    const uint32_t *pending, size_t pending_count, uint32_t *numbers, size_t numbers_count,
    uint32_t *counts, size_t counts_count, uint8_t *bytes, size_t bytes_count,
    const uint64_t *words, size_t words_count, uint64_t bits, uint32_t kind);

/* Where a component of an entity is. Out: where it starts in `bytes`, and its length. A
   reserved handle has none yet: 15 where its number is new, 2 where it was used before, as
   for get. Refusals: 12, 13, 1, 5, 2, 1, 15, 7 where its column is borrowed uniquely. */
uint32_t verdict_store_read(
    const uint64_t head[4], const uint32_t *rows, size_t rows_count,
    const uint32_t *widths, size_t widths_count, const uint32_t *types, size_t types_count,
    const uint32_t *sizes, size_t sizes_count,
    const uint32_t *generations, size_t generations_count,
    const uint32_t *archetypes, size_t archetypes_count,
    const uint32_t *indices, size_t indices_count, const uint32_t *pending, size_t pending_count,
    const uint32_t *numbers, size_t numbers_count, const uint32_t *counts, size_t counts_count,
    const uint8_t *bytes, size_t bytes_count, const uint64_t *words, size_t words_count,
    uint64_t bits, uint32_t kind, uint64_t out[4]);

/* Overwrites a component of an entity. A reserved handle has none yet: 15 where its number
   is new, 2 where it was used before. Refusals: 12, 13 (also for `value`), 1, 5, 2, 1, 15,
   8 where its column is borrowed. */
uint32_t verdict_store_write(
    const uint64_t head[4], const uint32_t *rows, size_t rows_count,
    const uint32_t *widths, size_t widths_count, const uint32_t *types, size_t types_count,
    const uint32_t *sizes, size_t sizes_count,
    const uint32_t *generations, size_t generations_count,
    const uint32_t *archetypes, size_t archetypes_count,
    const uint32_t *indices, size_t indices_count, const uint32_t *pending, size_t pending_count,
    const uint32_t *numbers, size_t numbers_count, const uint32_t *counts, size_t counts_count,
    uint8_t *bytes, size_t bytes_count, const uint64_t *words, size_t words_count, uint64_t bits,
    uint32_t kind, const uint8_t *value, size_t value_count);

/* Shared borrow of a column. While a column is borrowed no store call moves a row.
   Refusals: 12, 13, 1, 6, 15, 9, 7. */
uint32_t verdict_store_borrow(
    const uint64_t head[4], const uint32_t *rows, size_t rows_count,
    const uint32_t *widths, size_t widths_count, const uint32_t *types, size_t types_count,
    const uint32_t *sizes, size_t sizes_count,
    const uint32_t *generations, size_t generations_count,
    const uint32_t *archetypes, size_t archetypes_count,
    const uint32_t *indices, size_t indices_count, const uint32_t *pending, size_t pending_count,
    const uint32_t *numbers, size_t numbers_count, const uint32_t *counts, size_t counts_count,
    const uint8_t *bytes, size_t bytes_count, uint64_t *words, size_t words_count,
    uint32_t archetype, uint32_t kind);

/* Unique borrow of a column. Refusals: 12, 13, 1, 6, 15, 8. */
uint32_t verdict_store_borrow_mut(
    const uint64_t head[4], const uint32_t *rows, size_t rows_count,
    const uint32_t *widths, size_t widths_count, const uint32_t *types, size_t types_count,
    const uint32_t *sizes, size_t sizes_count,
    const uint32_t *generations, size_t generations_count,
    const uint32_t *archetypes, size_t archetypes_count,
    const uint32_t *indices, size_t indices_count, const uint32_t *pending, size_t pending_count,
    const uint32_t *numbers, size_t numbers_count, const uint32_t *counts, size_t counts_count,
    const uint8_t *bytes, size_t bytes_count, uint64_t *words, size_t words_count,
    uint32_t archetype, uint32_t kind);

/* Shared release of a column. Refusals: 12, 13, 1, 6, 15, 10, 11. */
uint32_t verdict_store_release(
    const uint64_t head[4], const uint32_t *rows, size_t rows_count,
    const uint32_t *widths, size_t widths_count, const uint32_t *types, size_t types_count,
    const uint32_t *sizes, size_t sizes_count,
    const uint32_t *generations, size_t generations_count,
    const uint32_t *archetypes, size_t archetypes_count,
    const uint32_t *indices, size_t indices_count, const uint32_t *pending, size_t pending_count,
    const uint32_t *numbers, size_t numbers_count, const uint32_t *counts, size_t counts_count,
    const uint8_t *bytes, size_t bytes_count, uint64_t *words, size_t words_count,
    uint32_t archetype, uint32_t kind);

/* Unique release of a column. Refusals: 12, 13, 1, 6, 15, 11. */
uint32_t verdict_store_release_mut(
    const uint64_t head[4], const uint32_t *rows, size_t rows_count,
    const uint32_t *widths, size_t widths_count, const uint32_t *types, size_t types_count,
    const uint32_t *sizes, size_t sizes_count,
    const uint32_t *generations, size_t generations_count,
    const uint32_t *archetypes, size_t archetypes_count,
    const uint32_t *indices, size_t indices_count, const uint32_t *pending, size_t pending_count,
    const uint32_t *numbers, size_t numbers_count, const uint32_t *counts, size_t counts_count,
    const uint8_t *bytes, size_t bytes_count, uint64_t *words, size_t words_count,
    uint32_t archetype, uint32_t kind);

/* The place of an entity, as for ids. Out: archetype and row. Refusals: 12, 13, 1, 5, 2, 1
   where a live entity's place is not its own. */
uint32_t verdict_store_get(
    const uint64_t head[4], const uint32_t *rows, size_t rows_count,
    const uint32_t *widths, size_t widths_count, const uint32_t *types, size_t types_count,
    const uint32_t *sizes, size_t sizes_count,
    const uint32_t *generations, size_t generations_count,
    const uint32_t *archetypes, size_t archetypes_count,
    const uint32_t *indices, size_t indices_count, const uint32_t *pending, size_t pending_count,
    const uint32_t *numbers, size_t numbers_count, const uint32_t *counts, size_t counts_count,
    const uint8_t *bytes, size_t bytes_count, const uint64_t *words, size_t words_count,
    uint64_t bits, uint64_t out[4]);

/* Whether a handle is live or reserved. Out: 1 or 0. Refusals: 12, 13, 1, 5. */
uint32_t verdict_store_contains(
    const uint64_t head[4], const uint32_t *rows, size_t rows_count,
    const uint32_t *widths, size_t widths_count, const uint32_t *types, size_t types_count,
    const uint32_t *sizes, size_t sizes_count,
    const uint32_t *generations, size_t generations_count,
    const uint32_t *archetypes, size_t archetypes_count,
    const uint32_t *indices, size_t indices_count, const uint32_t *pending, size_t pending_count,
    const uint32_t *numbers, size_t numbers_count, const uint32_t *counts, size_t counts_count,
    const uint8_t *bytes, size_t bytes_count, const uint64_t *words, size_t words_count,
    uint64_t bits, uint64_t out[4]);

/* The handle of a number. Out: the handle. Refusals: 12, 13, 1, 2, 1. */
uint32_t verdict_store_resolve_unknown_gen(
    const uint64_t head[4], const uint32_t *rows, size_t rows_count,
    const uint32_t *widths, size_t widths_count, const uint32_t *types, size_t types_count,
    const uint32_t *sizes, size_t sizes_count,
    const uint32_t *generations, size_t generations_count,
    const uint32_t *archetypes, size_t archetypes_count,
    const uint32_t *indices, size_t indices_count, const uint32_t *pending, size_t pending_count,
    const uint32_t *numbers, size_t numbers_count, const uint32_t *counts, size_t counts_count,
    const uint8_t *bytes, size_t bytes_count, const uint64_t *words, size_t words_count,
    uint32_t number, uint64_t out[4]);

/* Out: how many entities are live. Refusals: 12, 13, 1. */
uint32_t verdict_store_len(
    const uint64_t head[4], const uint32_t *rows, size_t rows_count,
    const uint32_t *widths, size_t widths_count, const uint32_t *types, size_t types_count,
    const uint32_t *sizes, size_t sizes_count,
    const uint32_t *generations, size_t generations_count,
    const uint32_t *archetypes, size_t archetypes_count,
    const uint32_t *indices, size_t indices_count, const uint32_t *pending, size_t pending_count,
    const uint32_t *numbers, size_t numbers_count, const uint32_t *counts, size_t counts_count,
    const uint8_t *bytes, size_t bytes_count, const uint64_t *words, size_t words_count,
    uint64_t out[4]);

/* Hands out a handle whose entity becomes live at the next flush. Out: the handle.
   Refusals: 12, 13, 1, 4, 1. */
uint32_t verdict_store_reserve_entity(
    uint64_t head[4], const uint32_t *rows, size_t rows_count,
    const uint32_t *widths, size_t widths_count, const uint32_t *types, size_t types_count,
    const uint32_t *sizes, size_t sizes_count,
    const uint32_t *generations, size_t generations_count,
    const uint32_t *archetypes, size_t archetypes_count,
    const uint32_t *indices, size_t indices_count, const uint32_t *pending, size_t pending_count,
    const uint32_t *numbers, size_t numbers_count, const uint32_t *counts, size_t counts_count,
    const uint8_t *bytes, size_t bytes_count, const uint64_t *words, size_t words_count,
    uint64_t out[4]);

/* Hands out n handles at once, to the front of `handles`. Refusals: 12, 13 (also where
   `handles` has fewer than n places), 1, 4, 1. */
uint32_t verdict_store_reserve_entities(
    uint64_t head[4], const uint32_t *rows, size_t rows_count,
    const uint32_t *widths, size_t widths_count, const uint32_t *types, size_t types_count,
    const uint32_t *sizes, size_t sizes_count,
    const uint32_t *generations, size_t generations_count,
    const uint32_t *archetypes, size_t archetypes_count,
    const uint32_t *indices, size_t indices_count, const uint32_t *pending, size_t pending_count,
    const uint32_t *numbers, size_t numbers_count, const uint32_t *counts, size_t counts_count,
    const uint8_t *bytes, size_t bytes_count, const uint64_t *words, size_t words_count,
    size_t n, uint64_t *handles, size_t handles_count);

/* The handles that the free numbers will have next, to the front of `handles`. Out: how
   many. Refusals: 12, 13 (also where `handles` is too short), 1, 1. */
uint32_t verdict_store_freelist(
    const uint64_t head[4], const uint32_t *rows, size_t rows_count,
    const uint32_t *widths, size_t widths_count, const uint32_t *types, size_t types_count,
    const uint32_t *sizes, size_t sizes_count,
    const uint32_t *generations, size_t generations_count,
    const uint32_t *archetypes, size_t archetypes_count,
    const uint32_t *indices, size_t indices_count, const uint32_t *pending, size_t pending_count,
    const uint32_t *numbers, size_t numbers_count, const uint32_t *counts, size_t counts_count,
    const uint8_t *bytes, size_t bytes_count, const uint64_t *words, size_t words_count,
    uint64_t *handles, size_t handles_count, uint64_t out[4]);

/* Makes all reserved entities live, in archetype 0 after its last row. Refusals: 12, 13,
   1, 8, 4 without as many rows, 1. */
uint32_t verdict_store_flush(
    uint64_t head[4], const uint32_t *rows, size_t rows_count,
    const uint32_t *widths, size_t widths_count, const uint32_t *types, size_t types_count,
    const uint32_t *sizes, size_t sizes_count, uint32_t *generations, size_t generations_count,
    uint32_t *archetypes, size_t archetypes_count, uint32_t *indices, size_t indices_count,
    const uint32_t *pending, size_t pending_count, uint32_t *numbers, size_t numbers_count,
    uint32_t *counts, size_t counts_count, const uint8_t *bytes, size_t bytes_count,
    const uint64_t *words, size_t words_count);

/* The head and all row counts become 0: no entity is left. Nothing else changes. Handles
   are then given out from 0v1 on again: one from before may name a new entity. Refusals:
   12, 13, 1, 8. */
uint32_t verdict_store_clear(
    uint64_t head[4], const uint32_t *rows, size_t rows_count,
    const uint32_t *widths, size_t widths_count, const uint32_t *types, size_t types_count,
    const uint32_t *sizes, size_t sizes_count,
    const uint32_t *generations, size_t generations_count,
    const uint32_t *archetypes, size_t archetypes_count,
    const uint32_t *indices, size_t indices_count, const uint32_t *pending, size_t pending_count,
    const uint32_t *numbers, size_t numbers_count, uint32_t *counts, size_t counts_count,
    const uint8_t *bytes, size_t bytes_count, const uint64_t *words, size_t words_count);

#ifdef __cplusplus
}
#endif

#endif
