"""The wrapper for Python on the belt policy, and its declarations beside the header. python3 -m unittest, in this folder."""

import re
import unittest
from pathlib import Path

import secpal

ROOT = Path(__file__).resolve().parents[2]
HEADER = re.sub(r"/\*.*?\*/", "", (ROOT / "host" / "secpal.h").read_text(), flags=re.S)


def example(name, folder="belt"):
    return (ROOT / "examples" / folder / f"{name}.bin").read_bytes()


class Belt(unittest.TestCase):
    policy = example("policy")

    def test_allow(self):
        decision = secpal.decide(self.policy, example("who"))
        self.assertTrue(decision.allowed)
        self.assertEqual((len(decision.facts), decision.rounds, decision.answers), (10, 3, [{0: 2}]))
        self.assertEqual(secpal.fact(decision.facts[0]), secpal.Fact(1, 0, False, [(1, False)], 0, 1, [0, 0, 0]))

    def test_deny(self):
        decision = secpal.decide(self.policy, example("north"))
        self.assertEqual((decision.allowed, decision.answers), (False, []))

    def test_refused(self):
        with self.assertRaises(secpal.Refused) as caught:
            secpal.decide(self.policy, example("otto"), room_for_facts=9)
        self.assertEqual((caught.exception.number, caught.exception.side, caught.exception.place), (8, 0, 0))
        with self.assertRaises(secpal.Refused):
            secpal.decide(b"", b"", room_for_facts=0, room_for_answers=0)
        with self.assertRaises(secpal.Refused):
            secpal.reach(self.policy, self.policy)

    def test_withdrawals(self):
        withdrawals = example("withdrawals")
        decision = secpal.decide(self.policy, example("otto"), withdrawals)
        self.assertEqual((decision.allowed, len(decision.facts), decision.rounds), (False, 6, 1))
        self.assertEqual(secpal.reach(self.policy, example("otto"), withdrawals), [0, 1])
        with self.assertRaises(secpal.Refused) as caught:
            secpal.decide(self.policy, example("otto"), b"")
        self.assertEqual((caught.exception.number, caught.exception.side, caught.exception.place), (1, 3, 0))

    def test_hierarchy(self):
        policy, request, hierarchy = (example(name, "parts") for name in ("policy", "request", "hierarchy"))
        self.assertFalse(secpal.decide(policy, request).allowed)
        self.assertTrue(secpal.decide(policy, request, hierarchy=hierarchy).allowed)
        with self.assertRaises(secpal.Refused) as caught:
            secpal.decide(policy, request, hierarchy=b"")
        self.assertEqual((caught.exception.number, caught.exception.side, caught.exception.place), (1, 4, 0))

    def test_names(self):
        self.assertEqual(secpal.constants(self.policy), [7, 14, 21, 27])
        self.assertEqual(secpal.verbs(self.policy), [38, 49])
        self.assertEqual((secpal.label(self.policy, 2), secpal.label(self.policy, 9)), (b"Otto", b""))
        self.assertEqual(secpal.find(self.policy, secpal.PRINCIPAL, b"Otto"), 2)
        self.assertEqual(secpal.find(self.policy, secpal.PRINCIPAL, b"oTTO"), 2)
        self.assertIsNone(secpal.find(self.policy, secpal.THING, b"Otto"))
        self.assertEqual(secpal.reach(self.policy, example("otto")), [0, 1])

    def test_version(self):
        self.assertEqual(".".join(map(str, secpal.version())), (ROOT / "VERSION").read_text().strip())


class Declarations(unittest.TestCase):
    def test_functions(self):
        found = dict(re.findall(r"\b(secpal_\w+)\(([^)]*)\);", HEADER))
        counts = {name: 0 if given == "void" else given.count(",") + 1 for name, given in found.items()}
        self.assertEqual(counts, {name: len(given) for name, (given, _) in secpal.SIGNATURES.items()})

    def test_numbers(self):
        for name, value in re.findall(r"SECPAL_(\w+) = (\d+)", HEADER):
            if hasattr(secpal, name):
                self.assertEqual(getattr(secpal, name), int(value), name)

    def test_report(self):
        body = re.search(r"typedef struct \{([^}]*)\} secpal_report", HEADER).group(1)
        self.assertEqual(re.findall(r"uint\d+_t (\w+);", body), [name for name, _ in secpal._Report._fields_])


if __name__ == "__main__":
    unittest.main()
