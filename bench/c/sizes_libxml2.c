/* Bytes that one more of a kind takes in a tree of libxml2's, by what malloc has in use before and after many are made. */
#include <libxml/tree.h>
#include <malloc.h>
#include <stdbool.h>
#include <stdio.h>
#include <stdlib.h>

enum { COUNT = 100000 };

static xmlDocPtr document;

static xmlNodePtr element(xmlNodePtr parent)
{
    return xmlAddChild(parent, xmlNewDocNode(document, NULL, BAD_CAST "item", NULL));
}

static void make_element(xmlNodePtr node)
{
    if (!element(node))
        exit(1);
}

/* (each in an element of its own: libxml2 joins a Text with the one ahead of it) */
static void make_text(xmlNodePtr node)
{
    if (!xmlAddChild(node, xmlNewDocText(document, BAD_CAST "some text")))
        exit(1);
}

static void make_attribute(xmlNodePtr node)
{
    if (!xmlNewProp(node, BAD_CAST "name", BAD_CAST "a value"))
        exit(1);
}

static void make_attributes(xmlNodePtr node)
{
    static const char *const names[] = { "name", "nam1", "nam2", "nam3", "nam4", "nam5" };
    for (size_t i = 0; i < sizeof names / sizeof *names; i++)
        if (!xmlNewProp(node, BAD_CAST names[i], BAD_CAST "a value"))
            exit(1);
}

static const struct kind {
    const char *name;
    void (*make)(xmlNodePtr node);
    bool below;
} kinds[] = {
    { "an element `item`, in a tree", make_element, true },
    { "a Text of nine units, in a tree", make_text, false },
    { "an element's first attribute, `name` with seven units", make_attribute, false },
    { "an element's first six attributes, like it", make_attributes, false },
};

static double each_takes(const struct kind *kind)
{
    static xmlNodePtr nodes[COUNT];
    document = xmlNewDoc(BAD_CAST "1.0");
    xmlNodePtr root = document ? xmlNewDocNode(document, NULL, BAD_CAST "item", NULL) : NULL;
    if (!root)
        exit(1);
    xmlDocSetRootElement(document, root);
    for (int i = 0; i < COUNT; i++)
        nodes[i] = kind->below ? root : element(root);
    size_t before = mallinfo2().uordblks;
    for (int i = 0; i < COUNT; i++)
        kind->make(nodes[i]);
    double found = (double)(mallinfo2().uordblks - before) / COUNT;
    xmlFreeDoc(document);
    return found;
}

int main(void)
{
    for (size_t i = 0; i < sizeof kinds / sizeof *kinds; i++)
        printf("| %s | %.0f |\n", kinds[i].name, each_takes(&kinds[i]));
    return 0;
}
