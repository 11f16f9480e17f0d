/* A session that has ended, since it was out of memory, is read as any other. Calls that take no memory return its state, and their status is HP_OK here. */
#ifndef HUCKLEPORT_ENDED_H
#define HUCKLEPORT_ENDED_H

#include "huckleport.h"

static inline uint8_t status_read(uint8_t status)
{
    return __builtin_expect(status == HP_ENDED, 0) ? HP_OK : status;
}

#undef hp_attribute_at
#undef hp_children_into
#undef hp_data_of
#undef hp_has_attribute
#undef hp_name_of

#define hp_attribute_at(...) status_read(hp_attribute_at_mended(__VA_ARGS__))
#define hp_children_into(...) status_read(hp_children_into_mended(__VA_ARGS__))
#define hp_data_of(...) status_read(hp_data_of_mended(__VA_ARGS__))
#define hp_name_of(...) status_read(hp_name_of_mended(__VA_ARGS__))
#define hp_child_at(...) status_read(hp_child_at(__VA_ARGS__))
#define hp_first_child(...) status_read(hp_first_child(__VA_ARGS__))
#define hp_has_attribute(...) status_read(hp_has_attribute_mended(__VA_ARGS__))
#define hp_in_use(...) status_read(hp_in_use(__VA_ARGS__))
#define hp_index(...) status_read(hp_index(__VA_ARGS__))
#define hp_iterator(...) status_read(hp_iterator(__VA_ARGS__))
#define hp_last_child(...) status_read(hp_last_child(__VA_ARGS__))
#define hp_length(...) status_read(hp_length(__VA_ARGS__))
#define hp_links(...) status_read(hp_links(__VA_ARGS__))
#define hp_nodes_made(...) status_read(hp_nodes_made(__VA_ARGS__))
#define hp_range(...) status_read(hp_range(__VA_ARGS__))
#define hp_root(...) status_read(hp_root(__VA_ARGS__))
#define hp_static_range(...) status_read(hp_static_range(__VA_ARGS__))
#define hp_walker(...) status_read(hp_walker(__VA_ARGS__))

#endif
