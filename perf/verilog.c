/*
   Writes a shape of the benchmark as switch-level Verilog for Icarus Verilog.

       verilog SHAPE CHANGES > FILE

   The module changes the shape's input CHANGES times, each time until nothing
   moves, and then prints all states in node order. The first line of the file is
   a comment with the states that the plain C simulator gives.

   What differs in meaning:
   - Icarus has no trireg nets, so nothing keeps charge: a node that nothing
     drives is z there, and keeps its state here. Transistors whose gate is z are
     unknown there.
   - There are no steps: a change runs through in no time, and a race is decided
     by the order of events, which is the order of the text.
   - A bidirectional switch (tranif) with an unknown gate gives X by strengths of
     its own and not by trying every choice.
   - An input or a rail is a strong driver and a pullup a pull driver, as in the rule
     here.
*/
#include <stdio.h>
#include <stdlib.h>
#include <string.h>

#include "plain.h"
#include "shapes.h"

enum { NORMAL, PULLUP, INPUT };
enum { N_TYPE, P_TYPE, D_TYPE };

static struct shape shape;

static bool is_input(size_t node)
{
    return shape.kinds[node] >= INPUT; /* rails too */
}

static bool make_shape(const char *name)
{
    if (strcmp(name, "inverters") == 0)
        shape_inverter_chain(&shape, 300);
    else if (strcmp(name, "nor-decoder") == 0)
        shape_nor_decoder(&shape, 8);
    else if (strcmp(name, "pass-tree") == 0)
        shape_pass_tree(&shape, 10);
    else if (strcmp(name, "row-decoder") == 0)
        shape_row_decoder(&shape, 920, 518);
    else if (strcmp(name, "adder") == 0)
        shape_adder(&shape, 128);
    else
        return false;
    return true;
}

/* The states after the changes, by the plain C simulator. */
static void print_expected(unsigned changes)
{
    struct plain_network network = {shape.nodes, shape.transistors, shape.kinds, shape.types,
                                    shape.gates, shape.sources, shape.drains};
    struct plain_changes nothing = {0, NULL, NULL};
    struct plain *plain = plain_open(&network);
    static uint8_t states[SHAPE_NODES];
    uint32_t count;
    memcpy(states, shape.states, shape.nodes);
    plain_unit_run(plain, states, &nothing, 10000, &count);
    for (unsigned k = 0; k < changes; k++) {
        uint8_t next = !states[shape.changed];
        struct plain_changes change = {1, &shape.changed, &next};
        plain_unit_run(plain, states, &change, 10000, &count);
    }
    printf("// ");
    for (size_t v = 0; v < shape.nodes; v++)
        putchar("01x"[states[v]]);
    putchar('\n');
    plain_close(plain);
}

static void print_nodes(void)
{
    for (size_t v = 0; v < shape.nodes; v++) {
        printf("  wire n%zu;\n", v);
        if (shape.kinds[v] == PULLUP)
            printf("  pullup (n%zu);\n", v);
        if (is_input(v))
            printf("  reg r%zu = %u; assign n%zu = r%zu;\n", v, shape.states[v], v, v);
    }
}

/* A channel between two nodes that are no inputs leads both ways. One that ends at
   an input leads away from it; said so, it keeps the rails from tying all
   channels together, which Icarus does not survive (gates are then read late). */
static void print_transistors(void)
{
    static const char *const both_ways[] = {"tranif1", "tranif0", "tranif1"};
    static const char *const one_way[] = {"nmos", "pmos", "nmos"};
    for (size_t i = 0; i < shape.transistors; i++) {
        unsigned source = shape.sources[i], drain = shape.drains[i];
        bool from_source = is_input(source), from_drain = is_input(drain);
        char gate[16] = "1'b1"; /* of a d transistor */
        if (shape.types[i] != D_TYPE)
            snprintf(gate, sizeof gate, "n%u", shape.gates[i]);
        if (!from_source && !from_drain)
            printf("  %s (n%u, n%u, %s);\n", both_ways[shape.types[i]], source, drain, gate);
        else if (!from_drain)
            printf("  %s (n%u, n%u, %s);\n", one_way[shape.types[i]], drain, source, gate);
        else if (!from_source)
            printf("  %s (n%u, n%u, %s);\n", one_way[shape.types[i]], source, drain, gate);
    }
}

static void print_changes(unsigned changes)
{
    printf("  integer k;\n  initial begin\n    #1;\n");
    printf("    for (k = 0; k < %u; k = k + 1) begin r%u = !r%u; #1; end\n", changes,
           shape.changed, shape.changed);
    for (size_t v = 0; v < shape.nodes; v++)
        printf("    $write(\"%%b\", n%zu);\n", v);
    printf("    $write(\"\\n\");\n  end\n");
}

int main(int count, char **words)
{
    if (count != 3 || !make_shape(words[1])) {
        fprintf(stderr, "verilog: inverters, nor-decoder, pass-tree, row-decoder or adder, "
                        "and a number of changes\n");
        return 2;
    }
    unsigned changes = (unsigned)strtoul(words[2], NULL, 10);
    print_expected(changes);
    printf("module shape;\n");
    print_nodes();
    print_transistors();
    print_changes(changes);
    printf("endmodule\n");
    return 0;
}
