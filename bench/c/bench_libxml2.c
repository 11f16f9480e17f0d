/* The scenes of building, moving and walking by libxml2's calls, which check nothing. */
#define _POSIX_C_SOURCE 200809L
#include "bench.h"
#include <libxml/tree.h>

static xmlDocPtr document;

static xmlNodePtr placed(xmlNodePtr parent, xmlNodePtr made)
{
    if (!made || !(parent ? xmlAddChild(parent, made) : (xmlDocSetRootElement(document, made), made)))
        exit(1);
    return made;
}

static xmlNodePtr element(xmlNodePtr parent)
{
    return placed(parent, xmlNewDocNode(document, NULL, BAD_CAST "item", NULL));
}

static xmlNodePtr text(xmlNodePtr parent)
{
    return placed(parent, xmlNewDocText(document, BAD_CAST "some text"));
}

static uint64_t front_to_back(uint32_t count)
{
    begin();
    xmlNodePtr root = element(NULL);
    for (uint32_t i = 1; i < count; i++)
        i % 2 ? element(root) : text(root);
    end();
    return 2ull * count;
}

static uint64_t chain(uint32_t count)
{
    xmlNodePtr at = NULL;
    begin();
    for (uint32_t i = 0; i < count; i++)
        at = element(at);
    end();
    return 2ull * count;
}

static xmlNodePtr *groups, *stays, *leaves;
static uint32_t group_count, leaf_count;

static void tree(uint32_t count)
{
    groups = calloc(count + 1, sizeof *groups);
    stays = calloc(count + 1, sizeof *stays);
    leaves = calloc(count + 1, sizeof *leaves);
    if (!groups || !stays || !leaves)
        exit(1);
    for (uint32_t i = 0; i < count; i++) {
        if (i % LEAVES == 0) {
            groups[group_count] = element(group_count ? groups[chance(group_count)] : NULL);
            stays[group_count] = element(groups[group_count]);
            group_count++;
        } else {
            leaves[leaf_count++] = element(groups[chance(group_count)]);
        }
    }
}

static uint64_t moving(uint32_t count)
{
    tree(count);
    begin();
    for (uint32_t i = 0; i < count; i++) {
        uint32_t group = chance(group_count);
        xmlNodePtr leaf = leaves[chance(leaf_count)];
        uint32_t is_last = chance(2);
        xmlUnlinkNode(leaf);
        if (!(is_last ? xmlAddChild(groups[group], leaf) : xmlAddPrevSibling(stays[group], leaf)))
            exit(1);
    }
    end();
    return count;
}

static xmlNodePtr next(xmlNodePtr node)
{
    if (node->children)
        return node->children;
    while (node && !node->next)
        node = node->parent;
    return node ? node->next : NULL;
}

static uint64_t walk(uint32_t count)
{
    uint32_t seen = 0;
    tree(count);
    begin();
    for (xmlNodePtr node = xmlDocGetRootElement(document); node; node = next(node))
        seen++;
    end();
    return seen;
}

static const struct scene scenes[] = {
    { "front-to-back", front_to_back },
    { "chain", chain },
    { "moving", moving },
    { "iterator", walk },
    { "walker", walk },
    { "subtree", walk },
};

int main(int count, char **words)
{
    document = xmlNewDoc(BAD_CAST "1.0");
    if (!document)
        return 1;
    int status = run_scenes(count, words, scenes, sizeof scenes / sizeof *scenes);
    free(groups);
    free(stays);
    free(leaves);
    /* (a chain of 100,000 is deeper than what libxml2 frees) */
    return status;
}
