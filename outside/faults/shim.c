/*
   A shim between the host and the library: passes every step and run through,
   untouched. faults/list.txt plants faults in copies of it, at the marked lines.
   The linker puts it in between (--wrap), so it works with any build of the library.
*/
#include <string.h>

#include "twistdory.h"

#define NETWORK_PARAMETERS                                                                      \
    const uint8_t *kinds, size_t kinds_length, uint8_t *states, size_t states_length,           \
        const uint8_t *types, size_t types_length, const uint16_t *gates, size_t gates_length,  \
        const uint16_t *sources, size_t sources_length, const uint16_t *drains,                 \
        size_t drains_length
#define NETWORK_ARGUMENTS                                                                       \
    kinds, kinds_length, states, states_length, types, types_length, gates, gates_length,       \
        sources, sources_length, drains, drains_length
#define CHANGE_PARAMETERS                                                                       \
    const uint16_t *change_nodes, size_t change_nodes_length, const uint8_t *change_states,     \
        size_t change_states_length
#define CHANGE_ARGUMENTS change_nodes, change_nodes_length, change_states, change_states_length

void __real_twistdory_step(NETWORK_PARAMETERS, uint16_t *work, size_t work_length,
                           uint32_t answer[4]);
void __wrap_twistdory_step(NETWORK_PARAMETERS, uint16_t *work, size_t work_length,
                           uint32_t answer[4]);
void __real_twistdory_unit_run(NETWORK_PARAMETERS, CHANGE_PARAMETERS, uint32_t limit,
                               uint16_t *work, size_t work_length, uint32_t answer[4]);
void __wrap_twistdory_unit_run(NETWORK_PARAMETERS, CHANGE_PARAMETERS, uint32_t limit,
                               uint16_t *work, size_t work_length, uint32_t answer[4]);
void __real_twistdory_ternary_run(NETWORK_PARAMETERS, CHANGE_PARAMETERS, uint16_t *work,
                                  size_t work_length, uint32_t answer[4]);
void __wrap_twistdory_ternary_run(NETWORK_PARAMETERS, CHANGE_PARAMETERS, uint16_t *work,
                                  size_t work_length, uint32_t answer[4]);

void __wrap_twistdory_step(NETWORK_PARAMETERS, uint16_t *work, size_t work_length,
                           uint32_t answer[4])
{
    /* before step */
    __real_twistdory_step(NETWORK_ARGUMENTS, work, work_length, answer);
    /* after step */
}

void __wrap_twistdory_unit_run(NETWORK_PARAMETERS, CHANGE_PARAMETERS, uint32_t limit,
                               uint16_t *work, size_t work_length, uint32_t answer[4])
{
    /* before unit run */
    __real_twistdory_unit_run(NETWORK_ARGUMENTS, CHANGE_ARGUMENTS, limit, work, work_length,
                              answer);
    /* after unit run */
}

void __wrap_twistdory_ternary_run(NETWORK_PARAMETERS, CHANGE_PARAMETERS, uint16_t *work,
                                  size_t work_length, uint32_t answer[4])
{
    /* before ternary run */
    __real_twistdory_ternary_run(NETWORK_ARGUMENTS, CHANGE_ARGUMENTS, work, work_length, answer);
    /* after ternary run */
}
