/*
   A shim between the host and the library for the calls about a text: see shim.c.
*/
#include <string.h>

#include "twistdory.h"

#define READ_PARAMETERS                                                                         \
    const uint8_t *text, size_t text_length, uint8_t *kinds, size_t kinds_length,               \
        uint8_t *types, size_t types_length, uint16_t *gates, size_t gates_length,              \
        uint16_t *sources, size_t sources_length, uint16_t *drains, size_t drains_length,       \
        uint32_t answer[4]
#define NAME_PARAMETERS \
    const uint8_t *text, size_t text_length, uint32_t number, uint32_t part[2]
#define NAMES_PARAMETERS                                                                        \
    const uint8_t *text, size_t text_length, uint16_t *starts, size_t starts_length,            \
        uint8_t *sizes, size_t sizes_length, uint32_t answer[4]

void __real_twistdory_read_sim(READ_PARAMETERS);
void __wrap_twistdory_read_sim(READ_PARAMETERS);
void __real_twistdory_node_name(NAME_PARAMETERS);
void __wrap_twistdory_node_name(NAME_PARAMETERS);
void __real_twistdory_node_names(NAMES_PARAMETERS);
void __wrap_twistdory_node_names(NAMES_PARAMETERS);

void __wrap_twistdory_read_sim(READ_PARAMETERS)
{
    /* before reading */
    __real_twistdory_read_sim(text, text_length, kinds, kinds_length, types, types_length, gates,
                              gates_length, sources, sources_length, drains, drains_length,
                              answer);
    /* after reading */
}

void __wrap_twistdory_node_name(NAME_PARAMETERS)
{
    /* before name */
    __real_twistdory_node_name(text, text_length, number, part);
    /* after name */
}

void __wrap_twistdory_node_names(NAMES_PARAMETERS)
{
    /* before names */
    __real_twistdory_node_names(text, text_length, starts, starts_length, sizes, sizes_length,
                                answer);
    /* after names */
}
