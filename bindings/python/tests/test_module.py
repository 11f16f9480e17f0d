"""The extension module: what it takes of Python is all in the stable ABI of 3.8, and it shows one name."""
import os
import shutil
import subprocess
import sys
import unittest

import huckleport as h
from huckleport._calls import core

# What the headers of 3.8 declare where Py_LIMITED_API is 0x03080000, and its library has: of it all that the module takes.
STABLE = set(
    """
    PyArg_ParseTuple PyBool_FromLong PyBytes_AsStringAndSize PyBytes_FromStringAndSize PyCapsule_GetPointer PyCapsule_Import PyCapsule_IsValid PyCapsule_New PyDescr_NewGetSet
    PyDescr_NewMethod PyDict_DelItem PyDict_GetItem PyDict_GetItemString PyDict_New PyDict_Next PyDict_SetItem PyDict_Size PyErr_Clear
    PyErr_ExceptionMatches PyErr_Fetch PyErr_Format PyErr_NoMemory PyErr_NormalizeException PyErr_Occurred PyErr_SetObject PyErr_SetString
    PyExc_AttributeError PyExc_Exception PyExc_ImportError PyExc_KeyError PyExc_OverflowError PyExc_RuntimeError PyExc_TypeError PyExc_ValueError
    PyEval_RestoreThread PyEval_SaveThread PyExc_MemoryError PyUnicode_CompareWithASCIIString PyUnicode_FromFormat
    PyException_SetTraceback PyImport_ImportModule PyIter_Next PyList_Append PyList_GetItem PyList_New PyList_SetItem PyList_SetSlice
    PyList_Size PyLong_AsUnsignedLong PyLong_AsUnsignedLongLong PyLong_FromLong PyLong_FromSize_t PyLong_FromUnsignedLong PyLong_FromUnsignedLongLong PyMem_Free
    PyMem_Malloc PyMem_Realloc PyModuleDef_Init PyModule_AddObject PyModule_GetState PyNumber_Index PyObject_CallFunction
    PyObject_CallFunctionObjArgs PyObject_CallMethodObjArgs PyObject_Free PyObject_GC_Del PyObject_GC_UnTrack PyObject_GetAttr
    PyObject_GetAttrString PyObject_GetIter PyObject_IsSubclass PyObject_IsTrue PyObject_SelfIter PyObject_SetAttrString PyObject_Size PySequence_GetItem
    PySequence_List PySequence_Size PySet_Add PySet_New PyStructSequence_New PyStructSequence_NewType PyStructSequence_SetItem
    PyTuple_GetItem PyTuple_GetSlice PyTuple_New PyTuple_Pack PyTuple_SetItem PyTuple_Size PyTuple_Type PyType_FromSpec PyType_GenericAlloc
    PyType_GetFlags PyType_GetSlot PyType_IsSubtype PyType_Type PyUnicode_AsUCS4 PyUnicode_AsUTF8String PyUnicode_DecodeLatin1 PyUnicode_DecodeUTF16
    PyUnicode_DecodeUTF8 PyUnicode_FromString PyUnicode_FromWideChar PyUnicode_GetLength PyUnicode_ReadChar PyUnicode_Substring
    Py_BuildValue Py_GetVersion _PyArg_ParseTuple_SizeT _PyObject_CallFunction_SizeT _PyObject_CallMethod_SizeT _Py_BuildValue_SizeT
    _Py_Dealloc _Py_FalseStruct _Py_NoneStruct _Py_TrueStruct
""".split()
)


def names(path, *how):
    """The names of a module that nm tells."""
    ran = subprocess.run(["nm", "-D", *how, path], stdout=subprocess.PIPE, universal_newlines=True, check=True)
    return {line.split()[-1].partition("@")[0] for line in ran.stdout.splitlines()}


@unittest.skipUnless(shutil.which("nm"), "there is no nm")
class Module(unittest.TestCase):
    def test_what_it_takes_of_python(self):
        taken = {it for it in names(core.__file__, "--undefined-only") if it.lstrip("_").startswith("Py")}
        self.assertIn("PyType_FromSpec", taken)
        self.assertEqual(taken - STABLE, set())

    def test_what_it_shows(self):
        self.assertEqual(names(core.__file__, "--defined-only"), {"PyInit__core"})

    def test_classes_of_answers_have_docstrings(self):
        # (3.8 ends with a crash where one without is made)
        with h.Session() as session:
            self.assertIn("node document", type(session._calls.node(0)).__doc__)


@unittest.skipUnless(shutil.which("valgrind"), "there is no valgrind")
@unittest.skipIf(float(os.environ.get("HUCKLEPORT_SECONDS", "6")) < 3, "valgrind takes long")
class Memory(unittest.TestCase):
    def test_blocks_that_grow(self):
        """The module reads and writes no byte of others (what valgrind says of Python itself is left out)."""
        words = "import huckleport as h; h.xml.parse('<a>' + '<b/>' * 300 + '</a>').document_element.clone_node(True)"
        variables = {"PYTHONMALLOC": "malloc", "PYTHONPATH": os.path.dirname(os.path.dirname(os.path.abspath(h.__file__)))}
        ran = subprocess.run(["valgrind", "-q", sys.executable, "-S", "-c", words], env={**os.environ, **variables}, stderr=subprocess.PIPE)
        self.assertEqual(ran.returncode, 0)
        self.assertNotIn(b"_core.abi3", ran.stderr)


if __name__ == "__main__":
    unittest.main()
