"""Writes calls that were made as a program in C, which makes them again and wants the same statuses; it runs without Python, under valgrind."""
import ctypes

HEAD = """\
/* Made by said.py: the dialogues by the calls of the header. */
#include "huckleport.h"
#include <stdio.h>

static hp_session session = HP_SESSION_INIT;
static unsigned long calls, faults, sum;

static void look(const char *dialogue, const char *call, uint8_t wanted, uint8_t status)
{
    calls++;
    if (status == wanted)
        return;
    faults++;
    printf("%s: %s answers %s, and not %s\\n", dialogue, call, hp_status_word(status), hp_status_word(wanted));
}

static void touch(const void *bytes, size_t length)
{
    for (size_t i = 0; i < length; i++)
        sum += ((const unsigned char *)bytes)[i];
}

"""


class Program:
    def __init__(self, header):
        self.structs, self.calls = header.structs, {it.name: it for it in header.calls}
        self.functions, self.lines, self.name = [], [], ""

    def dialogue(self, name):
        self.name = name
        self.lines = []
        self.functions.append(self.lines)

    def value(self, it, word, at, front):
        """A word as an argument in C; what has to stand in front of the call goes into `front`."""
        word = getattr(word, "_obj", word)
        if it.is_pointer and it.is_const and isinstance(word, ctypes.Array):
            front.append(f"static const {it.type} a{at}[] = {{ {', '.join(map(str, word))} }};")
            return f"a{at}"
        if it.is_pointer and it.is_const:
            front.append(f"const {it.type} a{at} = {{ {', '.join(str(getattr(word, part.name)) for part in self.structs[it.type])} }};")
            return f"&a{at}"
        if it.is_pointer:
            front.append(f"{it.type} out{at};")
            return f"&out{at}"
        number = int(getattr(word, "value", word))
        return f"{number}u" if number > 2147483647 else str(number)

    def lent(self, it, path):
        """Reads all that a struct lends."""
        parts = self.structs.get(it.type, [])
        for part, behind in zip(parts, parts[1:]):
            if part.is_pointer:
                yield f"touch({path}.{part.name}, {path}.{behind.name} * sizeof *{path}.{part.name});"
        for part in parts:
            yield from self.lent(part, f"{path}.{part.name}")

    def say(self, name, words, status):
        front, given, behind = [], ["&session"], []
        parameters = [it for it in self.calls[name].parameters if it.type != "hp_session"]
        for at, (it, word) in enumerate(zip(parameters, words)):
            given.append(self.value(it, word, at, front))
            if it.is_pointer and not it.is_const and not status:
                behind += self.lent(it, f"out{at}")
        call = f'look("{self.name}", "{name}", {status}, {name}({", ".join(given)}));'
        self.lines.append("    { " + " ".join([*front, call, *behind]) + " }\n")

    def text(self):
        """The whole program."""
        text = HEAD
        for at, lines in enumerate(self.functions):
            text += f"static void dialogue_{at}(void)\n{{\n{''.join(lines)}}}\n\n"
        calls = "".join(f"    dialogue_{at}();\n" for at in range(len(self.functions)))
        last = '    printf("%lu calls, %lu faults%s\\n", calls, faults, sum ? "" : ", and nothing was lent");\n'
        return f"{text}int main(void)\n{{\n{calls}{last}    return faults != 0;\n}}\n"
