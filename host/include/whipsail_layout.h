/* Where each field of whipsail.h lies, asserted when a host is compiled: a
 * compiler that lays a struct out in another way is refused. And which layout this
 * is: an archive of another one does not link.
 *
 * The numbers are checked, not copied: host/compare/tests/layout.rs holds them to
 * the structs of the crates (names, order and widths of all fields) and to the
 * compiled module (the places that its functions write and the sizes that they
 * take and hand back). */
#ifndef WHIPSAIL_LAYOUT_H
#define WHIPSAIL_LAYOUT_H

/* The layout's number. It moves whenever a struct of these headers, what a function
 * takes or hands back, or the meaning of a number that is given today changes; more
 * kinds, codes and letters alone do not move it. With it move the function's name in
 * crates/whipsail_layout, the link name in host/rust/src/raw.rs, and the list in
 * host/compare/layouts (host/README.md). WHIPSAIL_FORMAT is the number of what is
 * kept; it has its own places. */
#define WHIPSAIL_LAYOUT_NUMBER 3

/* SIZE(struct, bytes), then AT(struct, field, offset) for each field. */
#define WHIPSAIL_LAYOUT(SIZE, AT)                                                                                      \
    SIZE(event, 24)                                                                                                    \
    AT(event, kind, 0) AT(event, call, 1) AT(event, leg, 2) AT(event, message, 3)                                      \
    AT(event, reason, 4) AT(event, option, 5) AT(event, counter, 6) AT(event, flag, 7)                                 \
    AT(event, identifier, 8) AT(event, first, 10) AT(event, second, 12) AT(event, third, 14)                           \
    AT(event, time, 16)                                                                                                \
    SIZE(dli1, 4)                                                                                                      \
    AT(dli1, reason, 0) AT(dli1, option, 1) AT(dli1, number, 2)                                                        \
    SIZE(history, 6)                                                                                                   \
    AT(history, seen, 0) AT(history, strictest, 1) AT(history, forbidden, 2) AT(history, shown, 3)                     \
    AT(history, nominated, 4)                                                                                          \
    SIZE(waits, 62)                                                                                                    \
    AT(waits, first, 0) AT(waits, count, 4) AT(waits, later, 6)                                                        \
    SIZE(call, 96)                                                                                                     \
    AT(call, direction, 0) AT(call, basic, 1) AT(call, cdo, 2) AT(call, cdr, 3)                                        \
    AT(call, cds, 4) AT(call, cdf, 5) AT(call, granted, 6) AT(call, counter, 7)                                        \
    AT(call, start, 8) AT(call, party, 16) AT(call, history, 18) AT(call, own, 24)                                     \
    AT(call, diverting, 26) AT(call, original, 28) AT(call, identifier, 30) AT(call, reason, 32)                       \
    AT(call, waiting, 34)                                                                                              \
    SIZE(pending, 16)                                                                                                  \
    AT(pending, start, 0) AT(pending, identifier, 8) AT(pending, wait, 10)                                             \
    SIZE(pendings, 64)                                                                                                 \
    AT(pendings, activation, 0) AT(pendings, deactivation, 16) AT(pendings, interrogation, 32)                         \
    AT(pendings, check, 48)                                                                                            \
    SIZE(kept, 6)                                                                                                      \
    AT(kept, cfu, 0) AT(kept, cfb, 2) AT(kept, cfnr, 4)                                                                \
    SIZE(remote, 72)                                                                                                   \
    AT(remote, pending, 0) AT(remote, kept, 64) AT(remote, enabled, 70) AT(remote, allowed, 71)                        \
    SIZE(station, 88)                                                                                                  \
    AT(station, last, 0) AT(station, next, 8) AT(station, limit, 10) AT(station, remote, 16)                           \
    SIZE(message, 16)                                                                                                  \
    AT(message, letter, 0) AT(message, leg, 1) AT(message, reason, 2) AT(message, option, 3)                           \
    AT(message, counter, 4) AT(message, flag, 5) AT(message, identifier, 6) AT(message, destination, 8)                \
    AT(message, diverting, 10) AT(message, original, 12) AT(message, number, 14)                                       \
    SIZE(answer, 64)                                                                                                   \
    AT(answer, code, 0) AT(answer, call, 1) AT(answer, sent, 2) AT(answer, notice, 50)                                 \
    AT(answer, number, 52) AT(answer, identifier, 56) AT(answer, counter, 60)                                          \
    SIZE(input, 112)                                                                                                   \
    AT(input, station, 0) AT(input, event, 88)                                                                         \
    SIZE(told, 152)                                                                                                    \
    AT(told, answer, 0) AT(told, station, 64)                                                                          \
    SIZE(made, 96)                                                                                                     \
    AT(made, code, 0) AT(made, station, 8)                                                                             \
    SIZE(rehearsed, 6)                                                                                                 \
    AT(rehearsed, code, 0) AT(rehearsed, ending, 1) AT(rehearsed, last, 2) AT(rehearsed, counter, 4)                   \
    SIZE(read, 32)                                                                                                     \
    AT(read, whole, 0) AT(read, event, 8)                                                                              \
    SIZE(board, 6240)                                                                                                  \
    AT(board, station, 0) AT(board, len, 88) AT(board, calls, 96)                                                      \
    SIZE(ran, 6264)                                                                                                    \
    AT(ran, done, 0) AT(ran, refused, 8) AT(ran, cut, 16) AT(ran, board, 24)

#if defined(__cplusplus) && __cplusplus >= 201103L
#define WHIPSAIL_HOLDS(fact, name) static_assert(fact, name);
#elif defined(__STDC_VERSION__) && __STDC_VERSION__ >= 201112L
#define WHIPSAIL_HOLDS(fact, name) _Static_assert(fact, name);
#else
#error "whipsail.h needs C11 or C++11: the layout of its structs is asserted"
#endif

#define WHIPSAIL_SIZE(type, bytes) WHIPSAIL_HOLDS(sizeof(whipsail_##type) == bytes, "size of " #type)
#define WHIPSAIL_AT(type, field, at) WHIPSAIL_HOLDS(offsetof(whipsail_##type, field) == at, #type "." #field)
WHIPSAIL_LAYOUT(WHIPSAIL_SIZE, WHIPSAIL_AT)
WHIPSAIL_HOLDS(sizeof(size_t) == 8, "a machine of 64 bits")
#undef WHIPSAIL_SIZE
#undef WHIPSAIL_AT
#undef WHIPSAIL_HOLDS

/* The archive exports a function with the layout's number in its name, and each
 * file that includes this header refers to it by this header's number. Neither the
 * compiler drops that reference nor, where `retain` is known (gcc 11, clang 13), a
 * linker that drops unused sections. (A shared object may be linked all the same:
 * then it does not load.) It takes 8 bytes. */
#define WHIPSAIL_JOINED(name, number) name##number
#define WHIPSAIL_NUMBERED(name, number) WHIPSAIL_JOINED(name, number)
#define WHIPSAIL_LINKED WHIPSAIL_NUMBERED(whipsail_layout_, WHIPSAIL_LAYOUT_NUMBER)
#if defined(__has_attribute)
#if __has_attribute(retain)
#define WHIPSAIL_STAYS __attribute__((used, retain))
#endif
#endif
#ifndef WHIPSAIL_STAYS
#define WHIPSAIL_STAYS __attribute__((used))
#endif

#ifdef __cplusplus
extern "C" {
#endif

/* Hands back the archive's format number, WHIPSAIL_FORMAT. */
uint32_t WHIPSAIL_LINKED(void);
WHIPSAIL_STAYS static uint32_t (*const whipsail_layout_linked)(void) = WHIPSAIL_LINKED;

#ifdef __cplusplus
}
#endif
#undef WHIPSAIL_LINKED
#undef WHIPSAIL_STAYS

#endif
