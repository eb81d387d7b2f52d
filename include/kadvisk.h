/* Kadvisk: all maximal k-plexes of a graph of up to 64 vertices.
 *
 * A graph is n rows of 64 bits, n from 1 to 64: bit b of rows[a], of value 2^b, is set where a and b are adjacent. No vertex is adjacent to itself,
 * and adjacency is mutual. A set of vertices is one 64-bit number in the same way, its mask. In a k-plex each member is adjacent to at least
 * |S| - k members, so a member counts itself among the k that it may miss; the empty set is one. A maximal k-plex is one that no other k-plex of
 * the graph contains. The slack k is 1 to 5, and the floor q is 2k - 1 to 64.
 *
 * Some vertices may be silent; their set is a mask as well, and 0 where there is none. They hold a k-plex together like any other, but do not help it over
 * the floor: listed is a maximal k-plex of which at least q members are not silent. Whether a set is a k-plex, and a maximal one, concerns all vertices.
 *
 * Every call answers every input: what it cannot answer it refuses, with a number and a value. The first cause in the order that the call gives is told.
 *
 *    number  cause                                                      value
 *         1  n is not 1 to 64                                           0
 *         2  the slack is not 1 to 5                                    0
 *         3  the floor is below 2k - 1 or above 64                      0
 *         4  a row has its own bit, or a bit of n or above              the lowest such row
 *         5  a row a has b, but row b lacks a                           the lowest such a
 *         6  fewer slots than m                                         m
 *         7  a set, the silent one too, or a vertex, reaches n or above 0
 *         8  the text is not a sheet                                    the first line that is wrong, from 1
 *         9  the buffer for rows or text is too short                   the length needed
 *        10  s and v are no k-plex, v is not in c, or s and c overlap   0
 *        11  the forced set is no k-plex                                0
 *        12  a and b are the same vertex                                0
 *        13  the edge is already so                                     0
 *        14  of a sheet: a row is 0, so its vertex has no neighbour     the lowest such row
 *        15  of a DIMACS text: a line is wrong, or there is no p line   that line, from 1, or the one after the last
 *        16  of a DIMACS text: the e lines are not m in number          0
 *
 * A refusal leaves every buffer as it was, but for 6 of the list, which makes all slots 0; 6 of a change leaves the rows and the slots. Nothing is
 * allocated or kept between calls, and calls may run at the same time on other buffers. The caller sees to it that a pointer is not null, is aligned, and
 * has as many elements behind it as the length after it says (which may be 0); and that a buffer that is written overlaps no other. A call takes some 26 KB
 * of stack, and a change 58 KB.
 *
 * Link with libkadvisk.a (x86-64 Linux). All calls are proved: for every input what they answer, what the buffers then hold, and that they end.
 */
#ifndef KADVISK_H
#define KADVISK_H

#include <stdbool.h>
#include <stddef.h>
#include <stdint.h>

#ifdef __cplusplus
extern "C" {
#endif

/* The outcome of a call. */
typedef struct {
    size_t number;  /* 0 for a success, and else the number of the refusal */
    size_t value;   /* of a refusal as above; of a success 0 where the call names none */
    uint64_t found; /* what a question found; 0 with a refusal, and where the call names nothing found */
} kadvisk_outcome;

/* The outcome of a question for the core. The last two are 0 with a refusal. */
typedef struct {
    size_t number;
    size_t value;  /* of a refusal as above; of a success 0 */
    uint64_t core; /* its mask */
    size_t passes; /* how many passes it took, the last of which took none */
} kadvisk_core_outcome;

/* The outcome of reading a sheet. The last four are 0 with a refusal. */
typedef struct {
    size_t number;
    size_t value;
    size_t vertices; /* n */
    size_t slack;    /* k */
    size_t floor;    /* q */
    uint64_t silent; /* the mask of the silent vertices */
} kadvisk_read_outcome;

/* How loose is the set s? Found: the least k for which it is a k-plex, also one above the limit of slack: the most members that a member misses, itself
 * counted, and 0 for the empty set. So s is a k-plex where found is at most k. Refusals, in this order: 1, 4, 5, 7. */
kadvisk_outcome kadvisk_looseness(const uint64_t *rows, size_t n, uint64_t s);

/* Is the set s a maximal k-plex? Found: 1 for yes, 0 for no. Refusals, in this order: 1, 2, 4, 5, 7. */
kadvisk_outcome kadvisk_is_maximal(const uint64_t *rows, size_t n, size_t slack, uint64_t s);

/* The core: the largest set in which every member is adjacent to at least q - k members. It may be empty, and holds every k-plex of q or more members.
 * Passes: a pass goes through the vertices left by rising number and takes out each that is adjacent to fewer than q - k of those still left, before it
 * looks at the next. The first that takes none is the last, and counts: 1 where nothing is taken out, and at most one more than the vertices that are.
 * Refusals, in this order: 1, 2, 3, 4, 5. */
kadvisk_core_outcome kadvisk_core(const uint64_t *rows, size_t n, size_t slack, size_t floor);

/* The two-hop reach of the vertex v: all vertices at most two edges away, itself included. Found: its mask. Refusals, in this order: 1, 4, 5, 7. */
kadvisk_outcome kadvisk_reach(const uint64_t *rows, size_t n, size_t v);

/* Two bounds on the size of every k-plex that holds the set s and the vertex v and has no vertex outside s and c. The second is never above the first.
 * Found: the bound. Refusals, in this order: 1, 2, 4, 5, 7, 10. */
kadvisk_outcome kadvisk_first_bound(const uint64_t *rows, size_t n, size_t slack, uint64_t s, uint64_t c, size_t v);
kadvisk_outcome kadvisk_second_bound(const uint64_t *rows, size_t n, size_t slack, uint64_t s, uint64_t c, size_t v);

/* The list: every maximal k-plex of which q or more members are not silent, each once, as masks in rising order. Value: m, their number. The first m slots
 * hold them, and the later ones keep what they held. Refusals, in this order: 1, 2, 3, 7 where `silent` reaches n, 4, 5, which leave the slots, and 6 with
 * the exact m where there are fewer slots, which makes all slots 0. So a call with room 0 counts: m = 0 is a success, and any other m comes with refusal 6. */
kadvisk_outcome kadvisk_list(const uint64_t *rows, size_t n, size_t slack, size_t floor, uint64_t silent, uint64_t *slots, size_t room);

/* The cuts of the search, for kadvisk_list_with. */
enum {
    KADVISK_CORE = 1,       /* start from the core instead of all vertices */
    KADVISK_REACH = 2,      /* beside a vertex that is taken keep only its two-hop reach */
    KADVISK_PAIRS = 4,      /* beside a vertex that is taken keep only those with enough common neighbours */
    KADVISK_SECOND = 8,     /* skip a vertex whose second bound is below the floor */
    KADVISK_PARTED = 16,    /* leave a branch whose partition bound is below the floor */
    KADVISK_EXTENSION = 32, /* leave a branch to all of whose k-plexes one vertex can be added */
    KADVISK_PIVOT = 64      /* at slack 1 take only the vertices that a pivot is not adjacent to (of the others only the core then counts) */
};

/* The same list, by a search with just these cuts switched on. It is there to measure the cuts: the answer is the same for every word of flags, and only
 * the time differs. kadvisk_list has all of them on but KADVISK_SECOND. Other bits are not looked at. */
kadvisk_outcome kadvisk_list_with(const uint64_t *rows, size_t n, size_t slack, size_t floor, uint64_t silent, uint64_t flags, uint64_t *slots, size_t room);

/* A change of a book. A book is a graph, a slack, a floor, silent vertices and their list, in the caller's rows and slots; kadvisk_list opens it. The change
 * makes a and b adjacent, or not adjacent, as `adjacent` says. Value: m, the number of masks in the new list. Row a then has b, and row b has a, or
 * neither has, and the other rows are as before. The first m slots hold the list of the changed graph, made afresh, whatever they held, and the later
 * ones keep what they held. Refusals, in this order: 1, 2, 3, 7 where `silent` reaches n, 4, 5, of the book as it lies there; 7 where a or b is n or
 * above; 12; 13 where they are adjacent, or not, already; and 6 with the exact new m where there are fewer slots. Each leaves the rows and the slots as
 * they were, 6 too. */
kadvisk_outcome kadvisk_change(uint64_t *rows, size_t n, size_t slack, size_t floor, uint64_t silent, size_t a, size_t b, bool adjacent, uint64_t *slots,
                               size_t room);

/* The largest k-plex that holds all vertices of the set `forced`, which may be empty; there is no floor. Value: its size. Found: of the k-plexes of that
 * size that hold them all the lowest mask; it is a maximal k-plex. Refusals, in this order: 1, 2, 4, 5, 7, 11. */
kadvisk_outcome kadvisk_largest(const uint64_t *rows, size_t n, size_t slack, uint64_t forced);

/* Reads a sheet: line 1 has n, k and q in two hexadecimal digits each, capitals for A to F, line 2 has the mask of the silent vertices in 16, then each row
 * has a line of 16, and every line ends in byte 10. So row a is line a + 3, and text after the end is line n + 3. The first n of the rows become the graph,
 * and the later ones keep what they held. Refusals, in this order: 8 at line 1, 1, 2, 3, 8 at another line, 7 where the mask reaches n, 4, 5, 14 where a
 * row is 0, 9. A sheet of the time before line 2 is 8 at line n + 2, which it lacks. A row that is 0 stands for a vertex that nobody linked, an entry that
 * is not finished: so a sheet of one vertex is always refused. The calls above take such rows. */
kadvisk_read_outcome kadvisk_read_sheet(const uint8_t *text, size_t length, uint64_t *rows, size_t room);

/* Writes the sheet of a graph and a request. Value: its length, 24 + 17n; the bytes beyond keep what they held. Refusals, in this order: 1, 2, 3, 7 where
 * `silent` reaches n, 4, 5, 14 where a row is 0, 9. What is written is read as it was, and what is read is written as it was, byte by byte. */
kadvisk_outcome kadvisk_write_sheet(const uint64_t *rows, size_t n, size_t slack, size_t floor, uint64_t silent, uint8_t *text, size_t room);

/* Reads a graph in the DIMACS form, as the files of the clique challenge have it: a line that starts with `c` is a comment, whatever follows, and may stand
 * anywhere; one line `p edge n m`; and after it m lines `e u v` with vertices from 1, so that vertex v of the text is vertex v - 1 of the rows. Fields are
 * parted by one blank, figures are decimal, without leading zeros and of any length, m is at most 4,294,967,295, and every line ends in byte 10. An edge that
 * is repeated, either way round, counts as often and is set once; a vertex may have no edge. Value: n. The first n of the rows become the graph, and the later
 * ones keep what they held.
 *
 * Refusals, as they are met from line 1 on: 15 with the line where it has another shape or lacks its byte 10 (an empty line, a second blank, a blank at the
 * end and byte 13 are other shapes), where a vertex is not 1 to n, where u is v, at an e line before the p line and at a second p line; 1 at the p line, once
 * that whole line has passed 15. At the end: 15 with the line after the last where there is no p line (1 for an empty text), 16, and then 9. Each leaves every
 * row as it was. */
kadvisk_outcome kadvisk_read_dimacs(const uint8_t *text, size_t length, uint64_t *rows, size_t room);

#ifdef __cplusplus
}
#endif

#endif
