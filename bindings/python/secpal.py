"""The engine for Python, by ctypes: a function for each call of host/secpal.h, which says what they do and what they cost.

The shared library is the one that SECPAL_LIBRARY names, else build/libsecpal.so of the repository (scripts/shared build/libsecpal.so), else an
installed libsecpal.so.
"""

import ctypes
import os
from collections import namedtuple
from pathlib import Path

CONSTANTS = 255
VERBS = 64
RECORD = 16
RECORDS = 65535
ANSWER = 8
UNBOUND = 255
ALLOW, DENY = 1, 2
PRINCIPAL, THING, DAY, QUANTITY = 1, 2, 3, 4
NOT_FOUND = 0xFFFFFFFF
# a slice without entries
NONE = bytes([1, 0, 0, 0, 2, 0, 0])


class _Report(ctypes.Structure):
    _fields_ = [
        ("decision", ctypes.c_uint32),
        ("refusal", ctypes.c_uint32),
        ("side", ctypes.c_uint32),
        ("facts", ctypes.c_uint32),
        ("rounds", ctypes.c_uint32),
        ("place", ctypes.c_uint64),
        ("answers", ctypes.c_uint64),
    ]


class _Slice(ctypes.Structure):
    _fields_ = [("data", ctypes.c_void_p), ("len", ctypes.c_size_t)]


_BYTES = [ctypes.c_char_p, ctypes.c_size_t]
_BUFFER = [ctypes.c_void_p, ctypes.c_size_t]

# What each function takes and returns; bindings/python/test_secpal.py compares it with the header.
SIGNATURES = {
    "secpal_decide": (_BYTES * 4 + _BUFFER + _BUFFER, _Report),
    "secpal_reach": (_BYTES * 4 + _BUFFER, _Report),
    "secpal_label": (_BYTES + [ctypes.c_uint32, ctypes.POINTER(_Slice)], None),
    "secpal_constants": (_BYTES + _BUFFER, ctypes.c_uint32),
    "secpal_verbs": (_BYTES + _BUFFER, ctypes.c_uint32),
    "secpal_find": (_BYTES + [ctypes.c_uint32] + _BYTES, ctypes.c_uint32),
    "secpal_version": ([], ctypes.c_uint32),
}


def _load():
    built = Path(__file__).resolve().parents[2] / "build" / "libsecpal.so"
    named = os.environ.get("SECPAL_LIBRARY")
    library = ctypes.CDLL(named or (str(built) if built.exists() else "libsecpal.so.0"))
    for name, (parameters, result) in SIGNATURES.items():
        function = getattr(library, name)
        function.argtypes, function.restype = parameters, result
    return library


_library = _load()

Fact = namedtuple("Fact", "round issuer unlimited speakers subject verb parameters")
Decision = namedtuple("Decision", "allowed facts rounds answers")


class Refused(Exception):
    """A refusal: its number, the side (0 none, 1 policy, 2 request, 3 withdrawals, 4 hierarchy) and the place, an offset."""

    def __init__(self, number, side, place):
        super().__init__(f"refused {number}, side {side}, place {place}")
        self.number, self.side, self.place = number, side, place


def _refuse(report):
    if report.refusal:
        raise Refused(report.refusal, report.side, report.place)


def _lent(*slices):
    """Each slice as its bytes and its length."""
    return [part for slice in slices for part in (slice, len(slice))]


def decide(policy, request, withdrawals=NONE, hierarchy=NONE, room_for_facts=RECORDS, room_for_answers=65536):
    """Decides; raises Refused. Facts are records of 16 bytes, answers are {variable: constant}."""
    facts = ctypes.create_string_buffer(max(RECORD * room_for_facts, 1))
    answers = ctypes.create_string_buffer(max(ANSWER * room_for_answers, 1))
    report = _library.secpal_decide(
        *_lent(policy, request, withdrawals, hierarchy), facts, RECORD * room_for_facts, answers, ANSWER * room_for_answers
    )
    _refuse(report)
    records = [facts.raw[RECORD * i : RECORD * (i + 1)] for i in range(report.facts)]
    rows = [answers.raw[ANSWER * i : ANSWER * (i + 1)] for i in range(report.answers)]
    bound = [{v: c for v, c in enumerate(row) if c != UNBOUND} for row in rows]
    return Decision(report.decision == ALLOW, records, report.rounds, bound)


def fact(record):
    """The fields of a record; unused parameters are 0, and the verb's arity says how many count."""
    nest = record[4]
    speakers = [(record[5 + 2 * i], record[6 + 2 * i] == 1) for i in range(nest)]
    return Fact(256 * record[0] + record[1], record[2], record[3] == 1, speakers, record[11], record[12], list(record[13:16]))


def reach(policy, request, withdrawals=NONE, hierarchy=NONE):
    """The numbers of the principals whose words count for the request; raises Refused."""
    marks = ctypes.create_string_buffer(CONSTANTS)
    _refuse(_library.secpal_reach(*_lent(policy, request, withdrawals, hierarchy), marks, CONSTANTS))
    return [number for number, mark in enumerate(marks.raw) if mark]


def label(policy, constant):
    """The label of a principal or thing; empty for all else."""
    out = _Slice()
    _library.secpal_label(policy, len(policy), constant, ctypes.byref(out))
    return ctypes.string_at(out.data, out.len) if out.len else b""


def _offsets(function, policy, most):
    offsets = (ctypes.c_uint32 * most)()
    return list(offsets[: function(policy, len(policy), offsets, most)])


def constants(policy):
    """Where each constant's item stands; empty for a policy that is not accepted."""
    return _offsets(_library.secpal_constants, policy, CONSTANTS)


def verbs(policy):
    """Where each verb's item stands, from verb 1 on."""
    return _offsets(_library.secpal_verbs, policy, VERBS)


def find(policy, kind, name):
    """The number of the principal or thing with this label, whatever its capitals, or None."""
    number = _library.secpal_find(policy, len(policy), kind, name, len(name))
    return None if number == NOT_FOUND else number


def version():
    """(major, minor, patch)"""
    number = _library.secpal_version()
    return number >> 16, number >> 8 & 255, number & 255
