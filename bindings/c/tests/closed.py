#!/usr/bin/env python3
"""Writes a C program that makes each call of a huckleport.h with a closed session, before it was open and after.

Each has to return HP_CLOSED, and to leave every byte that its out pointers point at. usage: closed.py HEADER > closed.c
"""
import argparse
import os
import sys

sys.path.insert(0, os.path.dirname(os.path.dirname(os.path.abspath(__file__))))
from declared import header

HEAD = """\
/* Made by closed.py. */
#include "huckleport.h"
#include <stdio.h>
#include <string.h>

static const uint16_t units[1] = { 'a' };
static const uint8_t bytes[1] = { 'a' };
static const uint32_t lengths[1] = { 1 };
static int faults;

static void look(const char *name, uint8_t status, int is_same)
{
    if (status == HP_CLOSED && is_same)
        return;
    printf("%s of a closed session: status %d%s\\n", name, status, is_same ? "" : ", and it wrote");
    faults++;
}

"""

GIVEN = {"uint8_t": "bytes", "uint16_t": "units", "uint32_t": "lengths"}


def arguments(call, found):
    """Returns the statements before a call, its arguments, and the conditions that its out values are unchanged."""
    lines, given, same = [], [], []
    for at, it in enumerate(call.parameters):
        if it.type == "hp_session":
            given.append("session")
        elif it.is_pointer and it.is_const and it.type in GIVEN:
            given.append(GIVEN[it.type])
        elif it.is_pointer:
            own = f"it{at}"
            lines += [f"{it.type} {own}, {own}_before;", f"memset(&{own}, 0x5a, sizeof {own});"]
            lines += ready(it, own, found)
            lines += [f"memcpy(&{own}_before, &{own}, sizeof {own});"]
            given.append(f"&{own}")
            same.append(f"memcmp(&{own}_before, &{own}, sizeof {own}) == 0")
        else:
            given.append("1")
    return lines, given, same


def ready(it, own, found):
    """Pointers of structs are to be real ones before a call."""
    parts = found.structs.get(it.type, [])
    lines = [f"{own}.{part.name} = {GIVEN[part.type]};" for part in parts if part.is_pointer and part.type in GIVEN]
    return lines + [line for part in parts if part.type in found.structs for line in ready(part, f"{own}.{part.name}", found)]


def function(call, found):
    lines, given, same = arguments(call, found)
    body = "".join(f"    {it}\n" for it in lines)
    body += f"    uint8_t status = ({call.name})({', '.join(given)});\n"
    body += f'    look("{call.name}", status, {" && ".join(same) or "1"});\n'
    return f"static void close_{call.name}(hp_session *session)\n{{\n{body}}}\n\n"


def main():
    parser = argparse.ArgumentParser(description=__doc__, formatter_class=argparse.RawDescriptionHelpFormatter)
    parser.add_argument("header", help="the huckleport.h that is read")
    found = header(parser.parse_args().header)
    calls = [it for it in found.calls if it.name != "hp_open" and any(its.type == "hp_session" for its in it.parameters)]
    text = HEAD + "".join(function(it, found) for it in calls)
    text += "static void each(hp_session *session)\n{\n" + "".join(f"    close_{it.name}(session);\n" for it in calls) + "}\n\n"
    text += "int main(void)\n{\n    hp_session session = HP_SESSION_INIT;\n    each(&session);\n"
    text += "    for (int i = 0; i < 2; i++) {\n        if (hp_open(&session, 10, 100) != HP_OK || hp_open(&session, 10, 100) != HP_ALREADY_OPEN)\n"
    text += "            return 2;\n        if (hp_close(&session) != HP_OK)\n            return 3;\n        each(&session);\n    }\n"
    text += f'    printf("{len(calls)} calls of a closed session, %d faults\\n", faults);\n    return faults != 0;\n}}\n'
    sys.stdout.write(text)


if __name__ == "__main__":
    main()
