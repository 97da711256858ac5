/* The commands of `desk` as functions of bytes, for C and for whatever calls C. docs/FORMATS.md says what they read and
 * print.
 *
 * Each function takes the bytes of its inputs, room for the answer, and where the status goes. It puts what the command of
 * its name prints of these bytes at the start of the room, the command's exit status into *status, and returns how many
 * bytes the answer has. desk_tell gives in the same way what the program tells a person beside that answer.
 *
 * Room. Where the count is more than the room has, the room is as it was, and so many bytes suffice: ask with no room
 * first, then with what the count says. (Where memory runs out in one of the two calls, their counts may differ.) What the
 * room has past the answer is as it was, too. No byte 0 ends an answer.
 *
 * Memory. The functions take memory by malloc and realloc, and free all of it before they return. Where it runs out, the
 * status is DESK_OUT_OF_MEMORY, and the answer is what the command prints then; or the count is 0, where there was no
 * memory for that either. The count 0 with another status is an empty answer, as desk_settings gives of no tasks.
 *
 * Who owns what. All that is passed stays the caller's, and no pointer is kept after the return. Inputs are only read, and
 * may overlap each other. Neither the room nor *status may overlap anything else that is passed, and each pointer has as
 * many bytes as the length behind it says. NULL is taken with the length 0: an empty input, or no room. status may not be
 * NULL.
 *
 * Threads. The functions share nothing but malloc, keep nothing between calls, start no thread and wait for none. Several
 * threads may call them at once, also on the same inputs, each with its own room and status. They may not be called from a
 * signal handler, nor after a fork in a process that has threads. A stack of 256 KiB has sufficed for all that was tried.
 */
#ifndef DESK_H
#define DESK_H

#include <stddef.h>
#include <stdint.h>

#ifdef __cplusplus
extern "C" {
#endif

/* The exit statuses. That of files, 7, does not come here. */
enum {
    DESK_DONE = 0,
    DESK_BAD_ARGUMENTS = 2,   /* desk_tell alone: no command has the number */
    DESK_INFEASIBLE = 3,      /* no order passes, or the one that was given does not; a chain is late, a promise broken */
    DESK_BAD_INPUT = 4,       /* an input was refused */
    DESK_BAD_CERTIFICATE = 5, /* a certificate was refused */
    DESK_OUT_OF_MEMORY = 6,
};

/* The best order of a task set, or the tasks of its greatest obstruction. */
size_t desk_admit(const uint8_t *set, size_t set_length, uint8_t *room, size_t room_length, uint8_t *status);

/* The certificate of that verdict, with the chains of a best order. */
size_t desk_certify(const uint8_t *set, size_t set_length, uint8_t *room, size_t room_length, uint8_t *status);

/* What a certificate shows of a task set and its chains. */
size_t desk_check(const uint8_t *set, size_t set_length, const uint8_t *certificate, size_t certificate_length,
                  uint8_t *room, size_t room_length, uint8_t *status);

/* How far each number may go, and all execution together. */
size_t desk_limits(const uint8_t *set, size_t set_length, uint8_t *room, size_t room_length, uint8_t *status);

/* The level of each thread and the ceiling of each mutex. */
size_t desk_settings(const uint8_t *set, size_t set_length, uint8_t *room, size_t room_length, uint8_t *status);

/* Of what each response is made, or why each task of a conflict cannot stand lowest, of however many (as with --all). */
size_t desk_explain(const uint8_t *set, size_t set_length, uint8_t *room, size_t room_length, uint8_t *status);

/* Which tasks miss their deadlines at the levels and ceilings that settings give. */
size_t desk_judge(const uint8_t *set, size_t set_length, const uint8_t *settings, size_t settings_length, uint8_t *room,
                  size_t room_length, uint8_t *status);

/* What a change of a task set does to each task. */
size_t desk_diff(const uint8_t *set, size_t set_length, const uint8_t *changed, size_t changed_length, uint8_t *room,
                 size_t room_length, uint8_t *status);

/* The densest release list that a task set allows up to a time in microseconds. */
size_t desk_releases(const uint8_t *set, size_t set_length, uint64_t until, uint8_t *room, size_t room_length,
                     uint8_t *status);

/* The release list of the worst case of the task whose name this is. With NULL and 0 that of the task of
 * least slack in the best order, or of a refused set of the highest task that does not meet its deadline in an order that
 * decides. */
size_t desk_worst(const uint8_t *set, size_t set_length, const uint8_t *task, size_t task_length, uint8_t *room,
                  size_t room_length, uint8_t *status);

/* The release list of the run that the bound of the chain whose name this is describes. With NULL and 0 as desk_worst. */
size_t desk_worst_chain(const uint8_t *set, size_t set_length, const uint8_t *chain, size_t chain_length, uint8_t *room,
                        size_t room_length, uint8_t *status);

/* What a simulated kernel does with a release list, at the levels of the best order or of that which the list gives. */
size_t desk_simulate(const uint8_t *set, size_t set_length, const uint8_t *releases, size_t releases_length,
                     uint8_t *room, size_t room_length, uint8_t *status);

/* The same as a picture, an SVG document. */
size_t desk_draw(const uint8_t *set, size_t set_length, const uint8_t *releases, size_t releases_length, uint8_t *room,
                 size_t room_length, uint8_t *status);

/* The same of two sets on one list, one before a change and one after it. The second text is the release list, a byte 0, and
 * the new set. Where the list itself has a byte 0, put another there that is as wrong in its line, as 1. */
size_t desk_draw_beside(const uint8_t *set, size_t set_length, const uint8_t *both, size_t both_length, uint8_t *room,
                        size_t room_length, uint8_t *status);

/* The same as desk_draw, and in the picture the way of a datum along a chain. The second text is the release list, a byte
 * 0, and the chain's name; without a name as desk_draw. Where the list itself has a byte 0, as above. */
size_t desk_draw_chain(const uint8_t *set, size_t set_length, const uint8_t *both, size_t both_length, uint8_t *room,
                       size_t room_length, uint8_t *status);

/* What a trace of a node shows of each task, and which promises it breaks, at the levels of the best order or of that which
 * the trace gives; no time may be past what is promised, and each task is to have a job. */
size_t desk_observe(const uint8_t *set, size_t set_length, const uint8_t *trace, size_t trace_length, uint8_t *room,
                    size_t room_length, uint8_t *status);

/* The replies to a script of drafts, findings and commits, and the book after them. */
size_t desk_play(const uint8_t *script, size_t script_length, uint8_t *room, size_t room_length, uint8_t *status);

/* The commands by number, for desk_tell: each is the function of its name. */
enum {
    DESK_ADMIT = 1,
    DESK_CERTIFY = 2,
    DESK_CHECK = 3,
    DESK_LIMITS = 4,
    DESK_SETTINGS = 5,
    DESK_EXPLAIN = 6,
    DESK_JUDGE = 7,
    DESK_DIFF = 8,
    DESK_RELEASES = 9,
    DESK_SIMULATE = 10,
    DESK_DRAW = 11,
    DESK_PLAY = 12,
    DESK_OBSERVE = 13,
    DESK_WORST = 14,
    DESK_DRAW_BESIDE = 15,
    DESK_WORST_CHAIN = 16,
    DESK_DRAW_CHAIN = 17,
};

/* What the program writes on standard error beside that answer: the sentence for a refusal, or the notes on a set, each a
 * line. It is called with what the command was given, NULL, 0 and 0 for what the command does not take, and asks the same
 * once more. The status is the command's; the count is 0 where there is nothing to tell. A sentence begins with what the
 * refused input is called above: `set: task 1 (a): the period ..`. It is for people, and may be worded otherwise in a later
 * version; where memory runs out a line is left out. */
size_t desk_tell(uint8_t command, const uint8_t *first, size_t first_length, const uint8_t *second, size_t second_length,
                 uint64_t until, uint8_t *room, size_t room_length, uint8_t *status);

#ifdef __cplusplus
}
#endif

#endif
