/* One of each kind that can be released, over a node of the session; and a tree. */
#ifndef KINDS_H
#define KINDS_H

#include "wanting.h"

static uint32_t iterator_over(uint32_t node)
{
    uint32_t made = HP_NONE;
    WANT(hp_create_iterator(&session, node, HP_NONE, NULL, 0, NULL, 0, NULL, 0, &made) == HP_OK);
    return made;
}

static uint32_t walker_over(uint32_t node)
{
    uint32_t made = HP_NONE;
    WANT(hp_create_walker(&session, node, HP_NONE, NULL, 0, NULL, 0, NULL, 0, &made) == HP_OK);
    return made;
}

static uint32_t static_range_over(uint32_t node)
{
    uint32_t made = HP_NONE;
    WANT(hp_create_static_range(&session, node, 0, node, 0, &made) == HP_OK);
    return made;
}

static uint32_t observer_over(uint32_t node)
{
    hp_options options = HP_OPTIONS_INIT;
    uint32_t made = HP_NONE;
    options.child_list = 1;
    options.subtree = 1;
    WANT(hp_create_observer(&session, &made) == HP_OK);
    WANT(hp_observe(&session, made, node, &options, NULL, 0, NULL, 0) == HP_OK);
    return made;
}

static uint32_t range_over(uint32_t node)
{
    uint32_t made = HP_NONE;
    WANT(hp_create_range(&session, 0, &made) == HP_OK);
    WANT(hp_select_node_contents(&session, made, node) == HP_OK);
    return made;
}

static uint32_t tree(void)
{
    uint32_t top = HP_NONE, child = HP_NONE;
    WANT(hp_create_element(&session, 0, hp_name("top"), &top) == HP_OK);
    WANT(hp_create_element(&session, 0, hp_name("child"), &child) == HP_OK);
    WANT(hp_append_child(&session, top, child) == HP_OK);
    return top;
}

#endif
