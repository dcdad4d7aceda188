"""Compares the package's declarations with include/fullercoral.h."""

from __future__ import annotations

import ctypes
import re
import shutil
import subprocess
import tempfile
import unittest
from pathlib import Path

from fullercoral import _header, errors

HEADER = Path(__file__).resolve().parents[3] / "include" / "fullercoral.h"
STRUCTS = {
    "fc_table": _header.TableHandle,
    "fc_bytes": _header.Bytes,
    "fc_cell": _header.Cell,
    "fc_limits": _header.LimitsStruct,
    "fc_test": _header.TestStruct,
    "fc_spec": _header.SpecStruct,
    "fc_aggregate": _header.AggregateStruct,
    "fc_column": _header.ColumnStruct,
    "fc_line": _header.LineStruct,
    "fc_sum": _header.SumStruct,
    "fc_details": _header.Details,
    "fc_job": _header.JobStruct,
    "fc_object": _header.ObjectStruct,
    "fc_space": _header.SpaceStruct,
}
# Fields of an fc_bytes inside another structure, which Python has instead of it.
_PARTS = {"text_at": "text.at", "text_len": "text.len", "key_at": "key_text.at"}
_PARTS["key_len"] = "key_text.len"


@unittest.skipUnless(HEADER.is_file(), f"{HEADER} is not there")
class Header(unittest.TestCase):
    def setUp(self) -> None:
        text = HEADER.read_text()
        self.text = re.sub(r"/\*.*?\*/", "", text, flags=re.S)

    def test_every_call_is_known_with_as_many_parameters(self) -> None:
        calls = re.findall(r"uint32_t (fc_\w+)\(([^;]*)\);", self.text)
        self.assertEqual({name for name, _ in calls}, set(_header.CALLS))
        for name, parameters in calls:
            self.assertEqual(parameters.count(",") + 1, len(_header.CALLS[name]), name)

    def test_every_parameter_has_its_width(self) -> None:
        widths = {
            "uint32_t": ctypes.c_uint32,
            "uint64_t": ctypes.c_uint64,
            "size_t": ctypes.c_size_t,
        }
        for name, parameters in re.findall(r"uint32_t (fc_\w+)\(([^;]*)\);", self.text):
            for parameter, known in zip(parameters.split(","), _header.CALLS[name]):
                due = ctypes.c_void_p if "*" in parameter else widths[parameter.split()[0]]
                self.assertIs(known, due, f"{name}: {parameter.strip()}")

    def test_every_code_has_an_exception_of_its_name(self) -> None:
        codes = re.findall(r"FC_(\w+) = (\d+)", self.text.split("enum fc_code")[1].split("}")[0])
        self.assertEqual({int(code) for _, code in codes} - {0}, set(errors.BY_NUMBER))
        for name, code in codes:
            if int(code):
                named = errors.BY_NUMBER[int(code)].__name__
                self.assertEqual(named.lower(), name.replace("_", "").lower())

    @unittest.skipUnless(shutil.which("cc"), "skipped: there is no C compiler, cc")
    def test_every_structure_has_its_layout(self) -> None:
        lines, due = [], []
        there = re.findall(r"\} (fc_\w+);", self.text)
        self.assertLessEqual(set(there), set(STRUCTS))
        for name, kind in ((name, STRUCTS[name]) for name in there):
            lines.append(f'printf("%zu\\n", sizeof({name}));')
            due.append(ctypes.sizeof(kind))
            for field, *_ in kind._fields_:
                lines.append(f'printf("%zu\\n", offsetof({name}, {_PARTS.get(field, field)}));')
                due.append(getattr(kind, field).offset)
        program = "#include <stdio.h>\n#include <stddef.h>\n#include <fullercoral.h>\n"
        program += "int main(void) {" + "\n".join(lines) + "return 0; }"
        with tempfile.TemporaryDirectory() as folder:
            source, binary = Path(folder, "layout.c"), Path(folder, "layout")
            source.write_text(program)
            include = f"-I{HEADER.parent}"
            subprocess.run(["cc", "-std=c11", include, str(source), "-o", str(binary)], check=True)
            said = subprocess.run([str(binary)], check=True, capture_output=True, text=True)
        self.assertEqual([int(word) for word in said.stdout.split()], due)


if __name__ == "__main__":
    unittest.main()
