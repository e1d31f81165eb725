"""Random runs against the second readings, and replays of their logs."""
import unittest

from cases.calls import Case
from paradyn import commands, points
from .checks import check_session
from .second_session import Refused, SecondSession, cause_text
from .side_by_side import Watch

COUNT = 50


def executed(command, seed, close):
    """A random case's words and result, with the plain machine beside it."""
    case = Case(command, seed)
    words = [str(w) for w in case.calls[-1]]
    return case, words, commands.execute(words, case.files.get, lambda session: Watch(session, close))


class Sessions(unittest.TestCase):
    def checked(self, command, close):
        whole = 0
        for seed in range(COUNT):
            case, words, result = executed(command, seed, close)
            with self.subTest(command=command, seed=seed):
                if result.status == 0:
                    whole += 1
                    check_session(result.session, result.inputs)
                    self.replayed(case, words, result)
                    self.taken_again(result)
                elif result.status == 6:
                    self.refused_again(result)
        self.assertGreater(whole, COUNT // 2)

    def replayed(self, case, words, result):
        files = dict(case.files, l=result.log)
        names = [w for w in words if w in case.files]
        again = commands.execute(["replay", *names, "l"], files.get)
        self.assertEqual((again.status, again.out), (0, result.out))

    def taken_again(self, result):
        """The second reading takes the same quanta."""
        session, second = result.session, SecondSession(result.inputs)
        for _, hart, turns, owns in session.log:
            self.assertEqual(second.quantum(hart, turns), owns)
        second.close()
        self.assertEqual(second.report(points.procedures(session.image)[1]), result.out)
        one, other = session.machine, second.machine
        self.assertEqual((one.text, one.tool, one.bank, one.pc), (other.text, other.tool, other.bank, other.pc))

    def refused_again(self, result):
        with self.assertRaises(Refused) as raised:
            SecondSession(result.inputs)
        self.assertTrue(result.out.endswith(b": " + cause_text(raised.exception.cause) + b"\n"))

    def test_runs(self):
        self.checked("run", True)

    def test_runs_by_workers(self):
        self.checked("live", False)


if __name__ == "__main__":
    unittest.main()
