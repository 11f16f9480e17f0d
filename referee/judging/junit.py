"""A run as JUnit XML: a test for each kind of difference, and one for the run."""
import xml.etree.ElementTree as xml

from judging.report import counted, line, title


def junit_of(cases, told):
    new = [it for it in cases if it.known is None]
    counts = {"tests": str(len(cases) + 1), "failures": str(len(new)), "errors": "0", "skipped": str(len(cases) - len(new))}
    suite = xml.Element("testsuite", name=f"referee.{told['player']}", time=str(told["seconds"]), **counts)
    run = xml.SubElement(suite, "testcase", classname=f"referee.{told['player']}", name="run", time=str(told["seconds"]))
    xml.SubElement(run, "system-out").text = f"{counted(told['streams'], 'stream')}, {counted(told['lines'], 'line')}: {told['ended']}"
    for case in cases:
        test = xml.SubElement(suite, "testcase", classname=f"referee.{told['player']}", name=title(case))
        shown = "\n".join(map(line, case.commands)) + f"\ncore   {line(case.replies[-1])}\nplayer {line(case.told)}"
        if case.known:
            xml.SubElement(test, "skipped", message=f"known: {case.known}")
        else:
            xml.SubElement(test, "failure", message="a new difference" + ("" if case.again else ", which did not come again")).text = shown
    whole = xml.Element("testsuites")
    whole.append(suite)
    return xml.tostring(whole, encoding="unicode", xml_declaration=True) + "\n"
