/*
   twistdory.h: Twistdory, a switch-level simulator for MOS networks

   Twistdory simulates a network of nodes and transistors in which a node is 0,
   1 or X (unknown) and a transistor is a switch. It has no volts and no
   nanoseconds. What it answers does not depend on the order in which the
   transistors are listed, and a node is 0 or 1 only where every way of opening
   or closing the transistors that nobody can know gives it that state.

   The caller lends tables and reads four numbers. The tables of a network are
   filled by the caller, or by a call that reads the .sim text of an extractor.
   There is nothing to initialise, to allocate or to free. No table and no text,
   however malformed, makes a call trap or run on: each call checks what it is
   lent and refuses what it cannot take, with a number that says why and, where
   an entry of a table or a line of a text is at fault, a place that says which.
   A run that does not settle is told as such, with a node that is still moving.

   This file is the manual. It has, in this order:

       1  an example                     7  hunting a loop
       2  the tables                     8  reading an extractor's text
       3  how a transistor stands        9  buffers, NULL, threads
       4  one step                      10  the eight calls
       5  runs                          11  costs
       6  the answers


   1  AN EXAMPLE

   A whole program: an inverter between its rails. Compile it with this header
   and the library, as `cc inverter.c libtwistdory.a`. It prints
   "DONE after 1 step: in 1, out 0".

---- examples/inverter.c ----
#include <stdio.h>

#include "twistdory.h"

int main(void)
{
    // Four nodes: 0 is ground, 1 power, 2 the inverter's input, 3 its output.
    const uint8_t kinds[4] = {TWISTDORY_GROUND, TWISTDORY_POWER, TWISTDORY_INPUT,
                              TWISTDORY_NORMAL};

    // Two transistors with node 2 at their gates: the n transistor's channel
    // links ground and the output, the p transistor's power and the output.
    const uint8_t types[2] = {TWISTDORY_N, TWISTDORY_P};
    const uint16_t gates[2] = {2, 2};
    const uint16_t sources[2] = {0, 1};
    const uint16_t drains[2] = {3, 3};

    uint8_t states[4];
    uint16_t work[TWISTDORY_WORK_CELLS(4, 2)];
    uint32_t answer[4];

    // The rails come up live: ground at 0, power at 1. All else is X.
    twistdory_reset(kinds, 4, states, 4, answer);

    // The input takes 1; steps follow until nothing moves.
    const uint16_t change_nodes[1] = {2};
    const uint8_t change_states[1] = {TWISTDORY_1};
    twistdory_unit_run(kinds, 4, states, 4, types, 2, gates, 2, sources, 2, drains, 2,
                       change_nodes, 1, change_states, 1, 0,
                       work, TWISTDORY_WORK_CELLS(4, 2), answer);

    if (answer[TWISTDORY_ANSWER] != TWISTDORY_DONE) {
        printf("answer %u, place %u\n", (unsigned)answer[TWISTDORY_ANSWER],
               (unsigned)answer[TWISTDORY_PLACE]);
        return 1;
    }
    printf("DONE after %u step: in %c, out %c\n", (unsigned)answer[TWISTDORY_FIRST_COUNT],
           "01X"[states[2]], "01X"[states[3]]);
    return 0;
}
---- end of the example ----
*/

#ifndef TWISTDORY_H
#define TWISTDORY_H

#include <stddef.h>
#include <stdint.h>

#ifdef __cplusplus
extern "C" {
#endif

/*
   2  THE TABLES

   Nodes and transistors are numbered from 0 by their place in the tables.

   kinds          one byte for each node: what kind of node it is. The length
                  of this table is the number of nodes.
   states         one byte for each node: 0, 1 or X. Same length as kinds.
   types, gates, sources, drains
                  four tables of equal length, one entry for each transistor:
                  its type, and the numbers of the nodes at its gate, its
                  source and its drain. Source and drain are the two ends of
                  its channel; swapping them alters nothing. Both may be the
                  same node, or both inputs (the transistor then has no
                  effect), and the gate may be one of the ends. A D
                  transistor's gate is not looked at, but has to be a node.
   change_nodes, change_states
                  two tables of equal length, one entry for each change: the
                  number of an input, and its new state. No node may be named
                  twice.
   work           room for the call's own use, in 16-bit cells.
   text           bytes: a network as an extractor writes it (chapter 8).
   starts, sizes  one entry for each node: where in the text its name begins,
                  in bytes from 0, and how many bytes it has.
*/

/* Kinds of nodes. The last three are inputs, and "input" means all of them
   throughout this manual: they drive alike, and a change may name any of them.
   What sets the rails, GROUND and POWER, apart is that reset brings them up
   live; a state that is lent, or a change, may give a rail any state. */
enum {
    TWISTDORY_NORMAL = 0, /* keeps its state as charge when nothing drives it */
    TWISTDORY_PULLUP = 1, /* drawn to 1 unless an input drives it */
    TWISTDORY_INPUT = 2,  /* clocks, data: altered by changes alone; X by reset */
    TWISTDORY_GROUND = 3, /* the same, but 0 by reset */
    TWISTDORY_POWER = 4   /* the same, but 1 by reset */
};

/* States of nodes. */
enum {
    TWISTDORY_0 = 0, /* low */
    TWISTDORY_1 = 1, /* high */
    TWISTDORY_X = 2  /* unknown */
};

/* Types of transistors. A depletion load, which an input can pull down, is no D
   transistor: make the node that it loads a PULLUP. A D transistor from POWER
   drives as hard as any input does. */
enum {
    TWISTDORY_N = 0, /* closed when its gate is 1 */
    TWISTDORY_P = 1, /* closed when its gate is 0 */
    TWISTDORY_D = 2  /* always closed, whatever its gate */
};

/* Bounds. A length outside them is refused by TWISTDORY_SIZE. */
enum {
    TWISTDORY_MIN_NODES = 1,
    TWISTDORY_MAX_NODES = 4096,
    TWISTDORY_MAX_TRANSISTORS = 8192, /* none is accepted too */
    TWISTDORY_MAX_CHANGES = 4096,     /* none is accepted too */
    TWISTDORY_MAX_TEXT = 65535        /* bytes; an empty text is accepted too */
};

/* The most bytes of a node's name in a text. A longer one is refused by
   TWISTDORY_TEXT. */
enum { TWISTDORY_MAX_NAME = 63 };

/* The step limit of a unit run. A limit passed as 0 stands for the default,
   which is enough for a change that runs through a thousand stages, a step
   each; one above the greatest is refused by TWISTDORY_LIMIT. To have a loop's
   states after exactly so many steps, 100 say, pass that number. */
enum {
    TWISTDORY_DEFAULT_LIMIT = 1000,
    TWISTDORY_MAX_LIMIT = 10000
};

/* The least number of cells of a work area. A larger area is accepted, and
   the cells beyond this number are neither read nor written. */
#define TWISTDORY_WORK_CELLS(nodes, transistors) \
    ((size_t)4 * (size_t)(nodes) + (size_t)2 * (size_t)(transistors))

/*
   3  HOW A TRANSISTOR STANDS

                    gate 0     gate 1     gate X
       N            open       closed     unknown
       P            closed     open       unknown
       D            closed     closed     closed


   4  ONE STEP

   All transistors are read from the states before the step and stand still
   during it; all new states are worked out from those same old states.

   Suppose first that every unknown transistor has been chosen to be open or
   closed. Closed transistors then join nodes that are not inputs into sets.
   An input is never part of a set and never joins two sets; it touches every
   set to which a closed transistor links it. A set takes its state from its
   strongest sources alone:

       inputs that touch it, each with its own state;    if there are none,
       the pullup nodes in it, each with state 1;        if there are none,
       the normal nodes in it, each with its stored state.

   If these all agree on 0 or on 1, that is the state of every node in the
   set; otherwise it is X.

   The new state of a node that is not an input is 0 if every choice gives it
   0, 1 if every choice gives it 1, and X otherwise. Inputs keep their state.

   A network is settled when a step would alter nothing.


   5  RUNS

   A unit run enters the changes and then takes steps until the network is
   settled or the step limit is reached. It shows what happens if every
   transistor takes exactly one unit of time.

   A ternary run asks what can be relied on whatever the delays are. It starts
   from a settled network. First half: each changed input (one whose new state
   differs from its present one) goes to X, and steps follow until settled.
   Second half: the changed inputs take their new states, and steps go on from
   there until settled. Each half takes at most as many steps as there are
   nodes that are not inputs, so there is no limit to give. Where the result
   is 0 or 1, no order in which the inputs arrive and the nodes follow can end
   in another settled state; where it is X, there may be a race.


   6  THE ANSWERS

   Every call writes four numbers: the answer, a place, and two counts. Only
   twistdory_node_name does not: it hands back a part of a text.
*/

/* Where the four numbers stand. */
enum {
    TWISTDORY_ANSWER = 0,
    TWISTDORY_PLACE = 1,
    TWISTDORY_FIRST_COUNT = 2,
    TWISTDORY_SECOND_COUNT = 3
};

/*
   The answers. If several apply the lowest number is given, and the place is
   always the first one. A call tests only what it is lent.

   After answers 1 to 7 and 9 both counts are 0, and all tables but the work
   area are as they came. The place is 0 unless the list or the call says
   otherwise.

   Work area (step and both runs): after answers 0, 7 and 8 the first
   TWISTDORY_WORK_CELLS(nodes, transistors) cells are 0 and the rest is as it
   came; after answers 1 to 6 the whole area is as it came. What it holds
   before a call does not matter.
*/
enum twistdory_answer {
    /* the call did what it says; place, after a step: the lowest node that it
       changed, or the number of nodes if it changed none */
    TWISTDORY_DONE = 0,
    /* a length is out of bounds, lengths that should be equal are not, or the
       work area, or a table for names, is too small */
    TWISTDORY_SIZE = 1,
    /* unit run: the limit is above TWISTDORY_MAX_LIMIT */
    TWISTDORY_LIMIT = 2,
    /* a kind above 4; place: the node */
    TWISTDORY_KIND = 3,
    /* a type above 2, or a gate, source or drain that is no node; place: the
       transistor */
    TWISTDORY_WIRE = 4,
    /* a state above 2; place: the node */
    TWISTDORY_STATE = 5,
    /* a change that names no node, a node that is no input, a state above 2,
       or a node named earlier in the list; place: the change */
    TWISTDORY_CHANGE = 6,
    /* ternary run: the states as lent, before any change, are not settled */
    TWISTDORY_START = 7,
    /* unit run: not settled after the limit's steps; the first count is the
       limit in force, and the states are those after exactly that many steps,
       inputs with their new states; place: the lowest node that the next step,
       which is not taken, would change */
    TWISTDORY_OSCILLATES = 8,
    /* reading a text: a line that is neither a device nor to be skipped, a
       device with less than three names or with a name of more than
       TWISTDORY_MAX_NAME bytes, or a node or a transistor for which the lent
       tables have no room; place: the first such line, from 0, skipped lines
       counted */
    TWISTDORY_TEXT = 9
};

/*
   7  HUNTING A LOOP

   OSCILLATES says that the network was still moving at the limit, and its
   place is a node that moves. First see whether it only needs more steps: a
   further unit run, without changes, goes on from where the first one stopped.
   If it never settles there is a loop, and single steps show it:

   -  The first step's place is the node that the run named. Each further
      step's place is the lowest node that it changed, and its first count says
      how many it changed.
   -  Keep a copy of the states and step on until they come back: the loop has
      then come round, and every node that changed on the way is in a loop or
      moves with one. (If they are long in coming back, the network may have
      been on its way into the loop, and a later copy serves; or several loops
      run at once.)
   -  Where each step changes one node alone, the places, one after the other,
      name the nodes of the loop in the order in which the change passes them.
   -  A place equal to the number of nodes says that nothing moved: the network
      is settled after all.

   The node that OSCILLATES names is never an input. What drives it comes
   through the transistors that have it as source or drain. What
   examples/loop.c prints of a NAND gate and two inverters in a ring:

       not settled after 1000 steps; the next moves second
       second to 0, and 1 more with it
       third to 1
       nand to 0
       ...


   8  READING AN EXTRACTOR'S TEXT

   twistdory_read_sim fills the network's tables from Berkeley .sim text: the
   devices that an extractor found in a layout, a line each. A NAND gate:

       | units: 250 tech: nmos      skipped: a comment
       e a Gnd mid 2 4 10 8         N transistor: gate a, source Gnd, drain mid
       e b mid out 2 4 10 16        N transistor: gate b, source mid, drain out
       d out out Vdd 8 2 10 24      depletion load: makes out a PULLUP
       C out Gnd 15.2               skipped: a capacitance

   Lines       A line ends in a line feed (byte 10) or at the end of the text.
               After a line feed at the very end there is no further line.
   Fields      In a line, fields are parted by spaces and tabs (bytes 32 and
               9), one or more; a line may begin and end with some. All other
               bytes are part of a field.
   Devices     A line whose first field is e or n is an N transistor, p a P
               transistor, d a D transistor or a depletion load. The next three
               fields are the names at its gate, its source and its drain, each
               of at most TWISTDORY_MAX_NAME bytes. Fields after these, such as
               sizes and positions, are not read. (Any field may be a name: if
               one of the three is left out, a size may be taken for it.)
   Skipped     A line that has no field, and one whose first field begins with
               | or is N, C, R or A.
   Refused     Every other line, by TEXT, since it might say something of the
               network (= joins two names). Letters are whole fields, and are
               taken as they are written: E and n1 are no devices.
   Nodes       A name in a device line is a node, and the same bytes are the
               same node; nothing else makes one. Nodes are numbered as they
               first appear, gate before source before drain: here a is 0, Gnd
               1, mid 2, b 3, out 4, Vdd 5. Transistors are numbered by their
               lines: here there are two.
   Rails       The node Vdd is a POWER and Gnd a GROUND, if so spelt: VDD is a
               node like any other. All others are NORMAL, unless pulled up.
   Pullups     A d device with one end at Vdd and its gate at its other end is
               a depletion load, if that end is no rail: it makes that end a
               PULLUP and is no transistor. Its ends stand in either order:

                                                Vdd
                                                 |
                       d out out Vdd      +----|[
                       d out Vdd out      |      |
                                          +------+---- out

               Any other d device is a D transistor, always closed: one with
               its gate elsewhere (d in out Vdd, d Vdd out Vdd), away from Vdd
               (d out out mid) or between the rails (d Gnd Gnd Vdd).
   Inputs      The text does not tell them: besides the rails there are none.
               Make a node an input by writing TWISTDORY_INPUT into its entry
               of kinds, before reset.
   Room        The lengths of the lent tables are room: within the bounds, and
               equal for the four tables of transistors. TWISTDORY_MAX_NODES
               and TWISTDORY_MAX_TRANSISTORS are enough for every text that can
               be taken at all. To lend less, call twistdory_node_names first,
               with two tables of TWISTDORY_MAX_NODES: it tells both counts.
               Later calls are passed the counts, not the room.
   None        A text without devices is DONE, with both counts 0. Other calls
               refuse a network of no nodes by SIZE, and so does this one if it
               is lent no room for a node.
   Names       A name is handed back as a part of the caller's text: where it
               begins and how long it is, without a 0 byte at its end. Keep the
               text for as long as names are wanted. twistdory_node_name reads
               the text anew each time that it is called; for more than a few
               names call twistdory_node_names, once.
   CR LF       A carriage return (byte 13) is part of a field like any byte. In
               a text with Windows line ends each line's last field has one.
               Where that is the drain, it is the last byte of the name: out is
               then two nodes, Vdd no rail. A line of a carriage return alone
               is refused. Take them out first.
   Faults      SIZE comes before TEXT, and after both all tables are as they
               came. The place of TEXT is the first line at fault in any way,
               from 0, where editors count from 1; a node or a transistor too
               many is the fault of the line that has it. examples/readsim.c
               shows such a line and says in words what is wrong with it.

   A whole program: the NAND gate from its text, with both of its inputs at 1.
   It prints "a 1", "Gnd 0", "mid 0", "b 1", "out 0", "Vdd 1", a line each.

---- examples/text.c ----
#include <stdio.h>
#include <string.h>

#include "twistdory.h"

// A NAND gate with a depletion load, as an extractor writes it.
static const uint8_t text[] = "| units: 250 tech: nmos\n"
                              "e a Gnd mid 2 4 10 8\n"
                              "e b mid out 2 4 10 16\n"
                              "d out out Vdd 8 2 10 24\n"
                              "C out Gnd 15.2\n";

// Room for every text that can be taken.
enum { LENGTH = sizeof text - 1, N = TWISTDORY_MAX_NODES, T = TWISTDORY_MAX_TRANSISTORS };
static uint8_t kinds[N], states[N], sizes[N], types[T];
static uint16_t starts[N], gates[T], sources[T], drains[T], work[TWISTDORY_WORK_CELLS(N, T)];
static size_t nodes, transistors;

// Makes the node of this name an input, and returns its number.
static uint16_t input(const char *name)
{
    for (size_t v = 0; v < nodes; v++)
        if (strlen(name) == sizes[v] && memcmp(name, text + starts[v], sizes[v]) == 0) {
            kinds[v] = TWISTDORY_INPUT;
            return (uint16_t)v;
        }
    return UINT16_MAX; // no node: the run refuses a change of it
}

int main(void)
{
    uint32_t answer[4];
    twistdory_read_sim(text, LENGTH, kinds, N, types, T, gates, T, sources, T, drains, T, answer);
    if (answer[TWISTDORY_ANSWER] != TWISTDORY_DONE) {
        printf("answer %u, line %u\n", (unsigned)answer[TWISTDORY_ANSWER],
               (unsigned)answer[TWISTDORY_PLACE] + 1);
        return 1;
    }
    nodes = answer[TWISTDORY_FIRST_COUNT];
    transistors = answer[TWISTDORY_SECOND_COUNT];
    twistdory_node_names(text, LENGTH, starts, N, sizes, N, answer);

    // The rails are inputs by their names. Which other nodes are, the caller says.
    const uint16_t change_nodes[2] = {input("a"), input("b")};
    const uint8_t change_states[2] = {TWISTDORY_1, TWISTDORY_1};

    // From here on the lengths are the two counts, not the room.
    twistdory_reset(kinds, nodes, states, nodes, answer);
    twistdory_unit_run(kinds, nodes, states, nodes, types, transistors, gates, transistors,
                       sources, transistors, drains, transistors,
                       change_nodes, 2, change_states, 2, 0,
                       work, TWISTDORY_WORK_CELLS(nodes, transistors), answer);
    if (answer[TWISTDORY_ANSWER] != TWISTDORY_DONE)
        return 1;
    for (size_t v = 0; v < nodes; v++)
        printf("%.*s %c\n", (int)sizes[v], (const char *)text + starts[v], "01X"[states[v]]);
    return 0;
}
---- end of the example ----


   9  BUFFERS, NULL, THREADS

   Lengths     A table passes as a pointer and then its length in elements,
               not in bytes. Any length may be passed: a wrong one is refused,
               provided that the memory is there.
   Ownership   The caller owns every table, before and after. A call keeps no
               pointer to it. Tables passed as pointers to const are never
               written. `answer` must point to four numbers and is always
               written, `part` to two likewise.
   NULL        A table of length 0 may be NULL; this is safe for every table.
               A NULL with another length, and a NULL answer or part, are not
               allowed.
   Alignment   As C asks: 2 bytes for the 16-bit tables, 4 for `answer` and
               `part`.
   Overlap     A table that is written (states, work, answer, starts, sizes,
               part; by twistdory_read_sim kinds, types, gates, sources and
               drains too) must not overlap another table of the same call.
               Tables passed as pointers to const may share memory with each
               other. A text is a table here.
   Threads     There is no shared state, no allocation, no file and no lock:
               calls on different tables may run at the same time.


   10  THE EIGHT CALLS
*/

/*
   Check: tests the kinds and the transistor tables and does nothing else.
   Answers: DONE, SIZE, KIND, WIRE. Place after DONE, and counts: 0.
*/
void twistdory_check(const uint8_t *kinds, size_t kinds_length,
                     const uint8_t *types, size_t types_length,
                     const uint16_t *gates, size_t gates_length,
                     const uint16_t *sources, size_t sources_length,
                     const uint16_t *drains, size_t drains_length,
                     uint32_t answer[4]);

/*
   Reset: the rails come up live, each GROUND at 0 and each POWER at 1, and all
   other nodes at X, an INPUT too: a first run needs changes for its data and
   clocks alone. The old states are not tested: any bytes are overwritten.
   Answers: DONE, SIZE, KIND. Place after DONE, and counts: 0.
*/
void twistdory_reset(const uint8_t *kinds, size_t kinds_length,
                     uint8_t *states, size_t states_length,
                     uint32_t answer[4]);

/*
   Step: takes one step.
   Answers: DONE, SIZE, KIND, WIRE, STATE.
   Place after DONE: the lowest node whose state differs after the step; the
   number of nodes if none does, which tells that the network was settled.
   First count: how many nodes differ. Second count: 0.
   States after DONE: those after the step.
*/
void twistdory_step(const uint8_t *kinds, size_t kinds_length,
                    uint8_t *states, size_t states_length,
                    const uint8_t *types, size_t types_length,
                    const uint16_t *gates, size_t gates_length,
                    const uint16_t *sources, size_t sources_length,
                    const uint16_t *drains, size_t drains_length,
                    uint16_t *work, size_t work_length,
                    uint32_t answer[4]);

/*
   Unit run: enters the changes, then takes steps until settled, at most
   `limit` of them (0 stands for TWISTDORY_DEFAULT_LIMIT).
   Answers: DONE, SIZE, LIMIT, KIND, WIRE, STATE, CHANGE, OSCILLATES.
   First count: the least number of steps after which the network is settled;
   after OSCILLATES the limit in force, which is the default if 0 was passed.
   A network that settles in exactly the limit's steps is DONE. Second count: 0.
   Place after DONE: 0. After OSCILLATES: the lowest node that the next step
   would change; twistdory_step from there gives the same place.
   States after DONE: settled. After OSCILLATES: after exactly the limit's
   steps; a further call goes on from there.
*/
void twistdory_unit_run(const uint8_t *kinds, size_t kinds_length,
                        uint8_t *states, size_t states_length,
                        const uint8_t *types, size_t types_length,
                        const uint16_t *gates, size_t gates_length,
                        const uint16_t *sources, size_t sources_length,
                        const uint16_t *drains, size_t drains_length,
                        const uint16_t *change_nodes, size_t change_nodes_length,
                        const uint8_t *change_states, size_t change_states_length,
                        uint32_t limit,
                        uint16_t *work, size_t work_length,
                        uint32_t answer[4]);

/*
   Ternary run: from a settled network, changed inputs first at X, then at
   their new states, each time until settled.
   Answers: DONE, SIZE, KIND, WIRE, STATE, CHANGE, START.
   Place after DONE: 0. First and second count: the least number of steps that
   settles the first and the second half.
   States after DONE: settled, with the inputs at their new states.
   An input may be changed to the state that it has: it is then not put at X.
*/
void twistdory_ternary_run(const uint8_t *kinds, size_t kinds_length,
                           uint8_t *states, size_t states_length,
                           const uint8_t *types, size_t types_length,
                           const uint16_t *gates, size_t gates_length,
                           const uint16_t *sources, size_t sources_length,
                           const uint16_t *drains, size_t drains_length,
                           const uint16_t *change_nodes, size_t change_nodes_length,
                           const uint8_t *change_states, size_t change_states_length,
                           uint16_t *work, size_t work_length,
                           uint32_t answer[4]);

/*
   Read a text: its nodes and transistors go into the lent tables, whose
   lengths are the room for them.
   Answers: DONE, SIZE, TEXT. Place after DONE: 0.
   First count: how many nodes the text has. Second count: how many transistors.
   Entries past these numbers, and after SIZE and TEXT all entries, are as they
   came.
*/
void twistdory_read_sim(const uint8_t *text, size_t text_length,
                        uint8_t *kinds, size_t kinds_length,
                        uint8_t *types, size_t types_length,
                        uint16_t *gates, size_t gates_length,
                        uint16_t *sources, size_t sources_length,
                        uint16_t *drains, size_t drains_length,
                        uint32_t answer[4]);

/*
   Name of a node: where in the text its name first appears in a device line.
   part[0] is the offset of the name's first byte, part[1] its length in bytes.
   Both are 0 for a number that the text does not use, for a text that is too
   long, and for one that no tables could take: twistdory_read_sim would answer
   TEXT whatever room it is lent.
*/
void twistdory_node_name(const uint8_t *text, size_t text_length,
                         uint32_t number,
                         uint32_t part[2]);

/*
   Names of all nodes: the same for every node at once, by number. The two
   tables may have any length, and need not have the same.
   Answers: DONE, SIZE (the text is too long, or has more nodes than one of the
   two tables has entries), TEXT (no tables could take it). Place after DONE: 0.
   Counts: as after reading the text. Entries past the number of nodes, and
   after SIZE and TEXT all entries, are as they came.
*/
void twistdory_node_names(const uint8_t *text, size_t text_length,
                          uint16_t *starts, size_t starts_length,
                          uint8_t *sizes, size_t sizes_length,
                          uint32_t answer[4]);

/*
   11  COSTS

   Every call ends, whatever it is lent. A step takes time in proportion to
   nodes and transistors, in whatever order these are listed: it looks at each
   transistor once, and then at most three times at each of its two ends; each
   node's cells are looked at a fixed number of times. A step in which no gate
   is at X takes least. A unit run evaluates at most one step more than its
   limit, a ternary run at most two more than twice the number of nodes that
   are not inputs, and one for its start.

   A text is read in one pass. Names are found by a hash table, so that each is
   compared with few others. At worst, where names were chosen to collide, a
   name is compared with every node so far: in all at most the number of names
   in device lines times the number of nodes. A call that reads a text uses
   about 90 KB of stack; everything else is lent.

   With the library's sources come the exact bound on a step (docs/PROMISES.md)
   and measured times (docs/PERFORMANCE.md).
*/

#ifdef __cplusplus
}
#endif

#endif
