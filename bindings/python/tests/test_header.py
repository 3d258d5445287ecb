"""The module's structs, constants, ranges and version are those of include/pie.h and pie_arrays.h."""
import ctypes
import re

import numpy as np
import pytest
from shared import ROOT

import juniperbowls as jb
from juniperbowls import _library

HEADER = (ROOT / "include/pie.h").read_text()
ARRAYS = (ROOT / "bindings/python/native/pie_arrays.h").read_text()
BARE = re.sub(r"/\*.*?\*/", "", HEADER + ARRAYS, flags=re.S)
STRUCTS = {name: re.findall(r"(?:struct )?(\w+) (\*?\w+);", body) for name, body in re.findall(r"struct (\w+) \{(.*?)\n\};", BARE, re.S)}
CONSTANTS = {name: int(value) for name, value in re.findall(r"(PIE_\w+) = (\d+)", BARE)}
TYPES = {"uint64_t": ctypes.c_uint64, "uint32_t": ctypes.c_uint32, "uint16_t": ctypes.c_uint16, "uint8_t": ctypes.c_uint8,
         "pie_params": _library.RawParams}


@pytest.mark.parametrize("name, raw", [("pie_params", "RawParams"), ("pie_opening", "RawOpening"), ("pie_state", "RawState"),
                                       ("pie_updated", "RawUpdated"), ("pie_event", "RawEvent"), ("pie_array_queue", "RawQueue")])
def test_a_struct(name, raw):
    wanted = [(field.lstrip("*"), ctypes.c_void_p if field[0] == "*" else TYPES[kind]) for kind, field in STRUCTS[name]]
    assert list(getattr(_library, raw)._fields_) == wanted


@pytest.mark.parametrize("name, dtype", [("pie_event", jb.EVENT), ("pie_array_packet", jb.queue.PACKET)])
def test_a_type_of_numpy(name, dtype):
    raw = type("Raw", (ctypes.Structure,), {"_fields_": [(field, TYPES[kind]) for kind, field in STRUCTS[name]]})
    assert np.dtype(raw).fields == dtype.fields and ctypes.sizeof(raw) == dtype.itemsize


@pytest.mark.parametrize("prefix, members", [
    ("PIE_", jb.Verdict), ("PIE_", jb.Refusal), ("PIE_", jb.Choices), ("PIE_", jb.Mode), ("PIE_", jb.Profile), ("PIE_EVENT_", jb.Kind)])
def test_constants(prefix, members):
    assert {f"{prefix}{it.name}": it.value for it in members}.items() <= CONSTANTS.items()


def test_all_constants():
    named = {f"PIE_{it.name}" for members in (jb.Verdict, jb.Refusal, jb.Choices, jb.Mode, jb.Profile) for it in members}
    named |= {f"PIE_EVENT_{it.name}" for it in jb.Kind} | {"PIE_DONE", "PIE_NONE", "PIE_USUAL"}
    ecn = {"PIE_NOT_ECT": jb.Ecn.NOT, "PIE_ECT1": jb.Ecn.ECT1, "PIE_ECT0": jb.Ecn.ECT0, "PIE_CE": jb.Ecn.CE}
    loops = {f"PIE_ARRAY_{name}": getattr(_library, name) for name in ("ALL", "REFUSED", "GROW", "EVENTS", "KIND", "OUT")}
    assert {**ecn, **loops}.items() <= CONSTANTS.items()
    assert named | set(ecn) | set(loops) == set(CONSTANTS)


def test_calls():
    declared = dict(re.findall(r"^(?:const )?(?:void|char|size_t|uint\d+_t|struct \w+) \*?(pie_\w+)\(([^;{]*)\);", BARE, re.M | re.S))
    for name, (_, takes) in _library.CALLS.items():
        parameters = [it for it in declared[name].split(",") if it.strip() != "void"]
        assert len(parameters) == len(takes), name
        for text, kind in zip(parameters, takes):
            is_pointer = "*" in text
            assert is_pointer == (kind in (ctypes.c_void_p, ctypes.c_char_p) or issubclass(kind, ctypes._Pointer)), (name, text)
            if not is_pointer:
                assert kind is {**TYPES, "size_t": ctypes.c_size_t}[text.split()[0]], (name, text)


def test_texts():
    texts = dict(re.findall(r"case (PIE_\w+):\s*return \"([^\"]*)\";", HEADER))
    assert {CONSTANTS[name]: text for name, text in texts.items()} == {CONSTANTS[name]: jb.refusal.text_of(CONSTANTS[name]) for name in texts}
    assert {int(it) for it in jb.Refusal} == {CONSTANTS[name] for name in texts if CONSTANTS[name] > 100}
    for it in jb.Refusal:
        assert str(jb.Refused(it)) == jb.refusal.text_of(it) and "refused: " in jb.refusal.text_of(it)


def test_the_version():
    told = re.search(r'PIE_VERSION "(.*)"', HEADER)[1]
    project = (ROOT / "bindings/python/pyproject.toml").read_text()
    assert jb.VERSION == jb.__version__ == told == re.search(r'^version = "(.*)"', project, re.M)[1]
    assert _library.RECORD_ROOM == int(re.search(r"#define PIE_RECORD_ROOM (\d+)", HEADER)[1])
