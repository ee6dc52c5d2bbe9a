"""What each class answers: calls.py PACKAGE. The last line is `N passed, M failed`."""
import copy
import gc
import hashlib
import pickle
import random
import re
import sys
import threading
import traceback
from collections import Counter
from pathlib import Path

import recorder
from fazgrond import (
    WINDOW_REACH, Answer, Call, Closed, Epoch, Giver, Habits, Handle, Happened, Kind, Line, LineSettings, Mark, Match, Peer,
    Piece, Refused, RemoteWord, Row, Session, Settings, StateName, Taker, Viewer, Window, state_ask, state_sender, state_told, sync_test,
    text, ticket, version,
)
from fazgrond._raw import ffi, lib
from fazgrond.numbers import VERSION

ROOT = Path(__file__).resolve().parent.parent.parent.parent
NUMBER = 0x1122334455667788
TESTS = []


def test(function):
    TESTS.append(function)
    return function


def refused(answer, call, *words):
    """Has to be refused with an answer."""
    try:
        call(*words)
    except Refused as why:
        assert why.answer == answer, why.answer
        assert str(why) == text(answer)
        return
    raise AssertionError(f"{answer.name} was expected")


def raises(kind, call, *words):
    try:
        call(*words)
    except kind:
        return
    raise AssertionError(f"{kind.__name__} was expected")


class Sum:
    """31 times the number and the words, or 5 for a player who has left. It counts its steps."""

    def __init__(self):
        self.state = self.steps = 0

    def save(self):
        return self.state

    def load(self, state):
        self.state = state

    def advance(self, row):
        self.state = (31 * self.state + sum(5 if word is None else at * word for at, word in enumerate(row.cells(), 1))) % 1000003
        self.steps += 1


def session_of(local=1, players=2, **more):
    return Session(Settings(players, [local], **more), Sum())


def give(session, player, word):
    """A local word, and the next frame; how many frames were run."""
    session.add_local_input(player, word)
    return session.advance_frame().rerun


# ---- texts and refusals

@test
def texts_are_those_of_the_table():
    number = int(re.search(r"^#define FAZGROND_VERSION (\w+)", (ROOT / "include/fazgrond.h").read_text(), re.M)[1], 0)
    assert VERSION == number and version() == (number >> 16, number >> 8 & 255, number & 255)
    rows = re.findall(r"^(-?\d+) (\w+): (.+)", (ROOT / "bindings/numbers.txt").read_text(), re.M)
    assert len(rows) > 60
    for told, name, sentence in rows:
        assert text(int(told)) == sentence
        assert int(told) == (Happened if int(told) > 1000 else Answer)[name]
    assert text(9999) == ""


@test
def settings_that_are_refused():
    refused(Answer.PLAYER_OUT_OF_RANGE, Session, Settings(0, []), Sum())
    refused(Answer.INVALID_REQUEST, Session, Settings(2, []), Sum())
    refused(Answer.INVALID_REQUEST, Session, Settings(2, [1], threshold=9), Sum())
    refused(Answer.INVALID_REQUEST, Session, Settings(2, [1], limit=1048577), Sum())
    raises(ValueError, Session, Settings(2, [9]), Sum())
    raises(ValueError, Session, Settings(2, [1], delays={0: 1}), Sum())
    raises(OverflowError, Session, Settings(2, [1], limit=-1), Sum())
    with session_of(players=8) as wide:
        for word in range(15):
            give(wide, 1, word)
        refused(Answer.PREDICTION_THRESHOLD, wide.add_local_input, 1, 0)


@test
def words_that_are_refused():
    with session_of() as session:
        session.add_local_input(1, 7)
        refused(Answer.INPUT_TWICE, session.add_local_input, 1, 8)
        refused(Answer.INVALID_PLAYER, session.add_local_input, 2, 7)
        refused(Answer.INVALID_PLAYER, session.remote_input, 1, 0, 7)
        refused(Answer.GAP, session.remote_input, 2, 1, 7)
        assert session.remote_input(2, 0, 7) and not session.remote_input(2, 0, 7)
        refused(Answer.CONFLICT, session.remote_input, 2, 0, 8)
        for player, word in [(-1, 0), (256, 0), (1, -1), (1, 1 << 32)]:
            raises(OverflowError, session.add_local_input, player, word)
        raises(TypeError, session.add_local_input, 1, "7")
        raises(TypeError, session.add_local_input, 1, 1.5)


def said_by(call):
    """What a call says that is given what can't be taken."""
    try:
        return f"{call()} came back"
    except (TypeError, ValueError, OverflowError) as why:
        return str(why)


def settings_by_name(session):
    """Settings that can't be taken, and how the sentence begins that says so."""
    match, line = {"me": 0, "machines": 2, "owners": [0, 1], "number": 7}, {"number": 8, "host": 0, "machines": 2, "owners": [0, 1]}
    return [
        ("`players` is 1.5", lambda: session_of(players=1.5)),
        ("`local` is 1.5", lambda: session_of(1.5)),
        ("`local` has 9", lambda: session_of(9)),
        ("`threshold` is -1", lambda: session_of(threshold=-1)),
        ("`limit` is 4294967296", lambda: session_of(limit=1 << 32)),
        ("`delays[1]` is 0.5", lambda: session_of(delays={1: 0.5})),
        ("`masks` has 0", lambda: session_of(masks={0: 1})),
        ("`number` is 1.5", lambda: Peer(session, Match(**{**match, "number": 1.5}))),
        ("`number[1]` is -7", lambda: Peer(session, Match(**{**match, "number": [0, -7]}))),
        ("`owners[1]` is 'one'", lambda: Peer(session, Match(**{**match, "owners": [0, "one"]}))),
        ("`words` is 1.5", lambda: Peer(session, Match(**match, words=1.5))),
        ("`silent_after` is 4294967296", lambda: Peer(session, Match(**match, silent_after=1 << 32))),
        ("`draw` is -1", lambda: Peer(session, Match(**match, draw=-1))),
        ("`comers` is -1", lambda: Peer(session, Match(**match, comers=-1))),
        ("`name` is 4294967296", lambda: ticket(5, 1 << 32)),
        ("`base` is -1", lambda: Peer(session, Match(**match), Epoch([0, 1], [0, 0], 8, base=-1))),
        ("`delays[2]` is 0.5", lambda: Peer(session, Match(**match), Epoch([0, 1], [0, 0.5], 8))),
        ("`host` is 0.5", lambda: Viewer(LineSettings(**{**line, "host": 0.5}))),
        ("`digest` has 5 bytes", lambda: Taker(StateName(1, 0, 5, b"short"), 9)),
        ("`parts[0]` is -1", lambda: Habits([-1])),
    ]


def arguments_by_name(session, peer):
    """And arguments of calls."""
    return [
        ("`player` is 257", lambda: session.add_local_input(257, 0)),
        ("`word` is -1", lambda: session.add_local_input(1, -1)),
        ("`word` is 4294967296", lambda: session.remote_input(2, 0, 1 << 32)),
        ("`frame` is None", lambda: session.settled_row(None)),
        ("`words[1]` is 0.5", lambda: session.guess(2, [1, 0.5], 1)),
        ("`until` is -1", lambda: session.guess(2, [1], -1)),
        ("`local` is 2147483648", lambda: session.note_advantages(1 << 31, 0)),
        ("`now` is 1.5", lambda: peer.turn(1.5)),
        ("`now` is None", lambda: peer.send(1, None)),
        ("`datagram` is of str", lambda: peer.hear("text", 0)),
        ("`machine` is 256", lambda: peer.send(256, 0)),
        ("`count` is -1", lambda: peer.hand_over(-1)),
        ("`digest` is -1", lambda: peer.note_settled(-1)),
        ("`comes` has 9", lambda: peer.mark(1, Mark(comes=[9]))),
        ("`number` is 18446744073709551616", lambda: Window().note(1 << 64)),
    ]


@test
def what_can_not_be_taken_is_said_by_its_name():
    with session_of() as session, Peer(session, Match(0, 2, [0, 1], 7)) as peer:
        for due, call in [*settings_by_name(session), *arguments_by_name(session, peer)]:
            assert said_by(call).startswith(due), (due, said_by(call))
        assert session.log_length() == 0
    assert "'silentafter'" in said_by(lambda: Match(0, 2, [0, 1], 7, silentafter=500))
    assert "'number'" in said_by(lambda: Match(0, 2, [0, 1]))


def members(kind, raw):
    """A struct of C as tests/c/makers.c prints it."""
    lists = [(name, getattr(raw, name)) for name, _ in ffi.typeof(raw).item.fields]
    return " ".join([kind, *[f"{name} {it}" if isinstance(it, int) else f"{name} {' '.join(map(str, it))}" for name, it in lists]])


@test
def what_is_not_said_is_as_in_c():
    two, five, of = Settings(2, [2]), Settings(5, [2, 5]), Match(1, 2, [0, 1], 7, draw=5)
    made = [("settings", two), ("settings", five), ("match", of), ("epoch", Epoch.first(of, two)), ("mark", Mark())]
    due = (ROOT / "tests/c/makers.stdout").read_text()
    assert [members(kind, it._raw()) for kind, it in made] == due.splitlines()
    assert LineSettings(8, 0, 2, [0, 1]).silent_after == of.silent_after


@test
def bytes_of_each_kind_are_taken():
    """As what a socket receives into a buffer, and a part of that."""
    for kind in [bytes, bytearray, lambda it: memoryview(b"---" + it)[3:], lambda it: memoryview(bytearray(it))]:
        machines = machine(0), machine(1)
        for turn in range(8):
            for me, (_, peer) in enumerate(machines):
                machines[1 - me][1].hear(kind(peer.send(1 - me, 16 * turn)), 16 * turn)
                peer.poll(16 * turn)
        assert all(peer.is_running for _, peer in machines)
        assert Giver(1, 0, kind(b"state")).state() == b"state"
        close(*machines)


@test
def a_row_without_who_has_left():
    with session_of() as session:
        assert give(session, 1, 3) == 1
        session.disconnect_player(2)
        refused(Answer.PLAYER_DISCONNECTED, session.remote_input, 2, 0, 1)
        assert session.has_news and session.synchronize_input() == Row((3, 0), 2)  # 3 is held on, as predicted
        assert not session.has_news
        row = session.settled_row(0)
        assert row == Row((3, 0), 2) and row.word(1) == 3 and row.word(2) is None and row.word(3) is None and row.word(0) is None
        assert session.settled_row(1) is None and session.game.state == 3 + 5
        refused(Answer.PLAYER_DISCONNECTED, session.disconnect_player, 2)


@test
def what_a_session_is_asked():
    with session_of(delays={1: 2}) as session:
        assert (session.frame, session.settled, session.input_frame(1), session.confirmed(2)) == (0, 0, 2, 0)
        assert session.confirmed_word(2, 0) is None and session.settled_slot() == (0, 0)
        session.remote_input(2, 0, 9)
        assert session.confirmed(2) == 1 and session.confirmed_word(2, 0) == 9
        refused(Answer.NO_PLAN, session.claim)
        session.reserve_log(10)
        refused(Answer.NOTHING, session.confirmed, 3)
        refused(Answer.NOTHING, session.input_frame, 2)
        assert session.log_entry(session.log_length()) is None
        assert session.frames_ahead == 0
        for _ in range(40):
            session.note_advantages(-8, 8)  # GGPO's advice: half the difference, if that is at least 3
        assert session.frames_ahead == 8


@test
def a_log_is_a_replay():
    one, two = session_of(), session_of()
    with one, two:
        for frame in range(12):
            give(one, 1, frame)
            if frame >= 3:
                one.remote_input(2, frame - 3, frame % 5)
        one.synchronize_input()
        one.disconnect_player(2)
        one.synchronize_input()
        for place in range(one.log_length()):
            entry = one.log_entry(place)
            if entry.kind == Call.LOCAL:
                two.add_local_input(entry.player, entry.word)
            elif entry.kind == Call.REMOTE:
                two.remote_input(entry.player, entry.frame, entry.word)
            elif entry.kind == Call.DISCONNECT:
                two.disconnect_player(entry.player)
            else:
                (two.synchronize_input if entry.kind == Call.SYNC else two.advance_frame)()
        assert two.log_length() == one.log_length() and (two.frame, two.game.state) == (one.frame, one.game.state)


@test
def a_claim_is_a_certificate():
    with session_of() as session:
        give(session, 1, 1)
        give(session, 1, 2)
        session.remote_input(2, 0, 7)
        session.synchronize_input()
        assert session.claim().startswith("rollcert 1\nplayers 2\nbase 0\n")
        sys.stderr.write(session.claim())  # for rollduel, which the caller has


@test
def slots_have_a_limit():
    with session_of() as session:
        session.limit_slots(3)
        assert give(session, 1, 1) == give(session, 1, 1) == 1
        session.add_local_input(1, 1)
        refused(Answer.NO_MEMORY, session.advance_frame)
        session.remote_input(2, 0, 1)
        session.limit_slots(10)
        assert session.advance_frame().frame == 3


# ---- handles that are closed, and games that raise

def all_kinds():
    """A handle of each kind, and calls of it that have to be open."""
    session = session_of()
    handle = Handle(Settings(2, [1]))
    peer = Peer(session, Match(0, 2, [0, 1], 7))
    settings = LineSettings(9, 0, 2, [0, 1])
    line, viewer, habits, giver = Line(session, settings), Viewer(settings), Habits(), Giver(1, 0, b"bytes")
    taker = Taker(giver.name, 9)
    return {
        peer: [lambda: peer.receive(b"", 0), lambda: peer.hear(b"", 0), lambda: peer.poll(0), lambda: peer.turn(0),
               lambda: peer.is_running, lambda: peer.send(1, 0), lambda: peer.bye(1), lambda: peer.disconnect(1), peer.event,
               lambda: peer.note_settled(0), lambda: peer.stats(1), peer.waiting, peer.rerun, peer.hand_over, peer.hand_over_due,
               lambda: peer.is_pressed, lambda: session.guess_waiting(peer, 1), peer.epoch, lambda: peer.has_stayed(1),
               lambda: peer.send_before(1, 0), lambda: line.send_before(peer, 0)],
        line: [lambda: line.receive(b"", 0), lambda: line.send(0), line.bye, lambda: line.look(0),
               lambda: line.send_before(peer, 0)],
        viewer: [lambda: viewer.receive(b"", 0), lambda: viewer.send(0), viewer.bye, viewer.row, lambda: viewer.look(0)],
        habits: [lambda: habits.note(1), lambda: habits.guesses(1)],
        taker: [lambda: taker.name, taker.look, lambda: taker.send(1, 1), lambda: taker.receive(1, b""), taker.state,
                lambda: taker.takes_of(0), lambda: taker.take_of(0)],
        giver: [lambda: giver.name, giver.state, lambda: giver.reply(1, 0, b"", 0)],
        handle: [lambda: handle.add_local_input(1, 0), handle.synchronize_input, handle.advance_frame, handle.requests,
                 lambda: handle.guess(2, [1], 1), lambda: handle.graft(0), lambda: handle.forget(0)],
        session: [lambda: session.add_local_input(1, 0), lambda: session.remote_input(2, 0, 0),
                  lambda: session.disconnect_player(2), session.synchronize_input, session.advance_frame,
                  lambda: session.guess(2, [1], 1), lambda: session.limit_slots(9), lambda: session.reserve_log(9),
                  lambda: session.frame, lambda: session.settled, lambda: session.has_news,
                  lambda: session.settled_row(0), session.settled_slot, session.settled_state, lambda: session.confirmed(1),
                  lambda: session.confirmed_word(1, 0), lambda: session.input_frame(1), session.log_length,
                  lambda: session.log_entry(0), lambda: session.note_advantages(0, 0), lambda: session.frames_ahead,
                  session.claim],
    }


@test
def what_is_closed_takes_no_calls():
    for it, calls in all_kinds().items():
        assert not it.is_closed
        for copies in [copy.copy, copy.deepcopy, pickle.dumps]:
            raises(TypeError, copies, it)
        before = recorder.closed.total()
        it.close()
        it.close()
        assert it.is_closed and recorder.closed.total() == before + 1
        for call in calls:
            raises(Closed, call)
        raises(Closed, it.__class__._at, it)


@test
def a_peer_of_a_closed_session_takes_no_calls():
    session = session_of()
    with Peer(session, Match(0, 2, [0, 1], 7)) as peer, Line(session, LineSettings(9, 0, 2, [0, 1])) as line:
        session.close()
        raises(Closed, peer.poll, 0)
        raises(Closed, peer.receive, b"", 0)
        raises(Closed, peer.send, 1, 0)
        raises(Closed, line.send, 0)


@test
def what_nobody_has_any_more_is_closed():
    gc.collect()
    before = recorder.opened - recorder.closed
    kinds = all_kinds()
    assert (recorder.opened - recorder.closed).total() == before.total() + 8
    del kinds
    gc.collect()
    assert recorder.opened - recorder.closed == before
    with session_of() as session:
        refused(Answer.INVALID_REQUEST, Peer, session, Match(0, 2, [0, 1], 7, draw=0))
        refused(Answer.INVALID_MACHINE, Peer, session, Match(2, 2, [0, 1], 7))
        refused(Answer.NO_NUMBER, Peer, session, Match(0, 2, [0, 1], 0))
        refused(Answer.TWO_OWNERS, Peer, session, Match(0, 2, [0, 1], 7, words=2))
        raises(ValueError, Peer, session, Match(0, 2, [0] * 9, 7))
        raises(ValueError, Peer, session, Match(0, 2, [0, 1], [7] * 9))
    gc.collect()
    assert recorder.opened - recorder.closed == before


class Fault(Exception):
    pass


class Raises:
    """Two sums in a list. In some calls of one of its methods it raises in the midst of it, so that the list is half another one."""

    def __init__(self):
        self.state, self.calls, self.method, self.faults = [0, 0], Counter(), None, []

    def called(self, method):
        self.calls[method] += 1
        if method == self.method and self.calls[method] in self.faults:
            raise Fault

    def save(self):
        self.called("save")
        return list(self.state)

    def load(self, state):
        self.state[0] = state[0]
        self.called("load")
        self.state[1] = state[1]

    def advance(self, row):
        self.state[0] = (31 * self.state[0] + row.words[0] + 7 * row.words[1]) % 1000003
        self.called("advance")
        self.state[1] = (self.state[1] + self.state[0]) % 1009


def raising(method, faults):
    """Frames of a session, whose caller goes on wherever the game raises: how often it did, and what is there in the end."""
    with Session(Settings(2, [1]), Raises()) as session:
        game, raised = session.game, 0
        game.method, game.faults, game.calls = method, faults, Counter()
        for frame in range(16):
            session.add_local_input(1, frame % 3)
            if frame >= 3:
                session.remote_input(2, frame - 3, frame * 7 % 5)
            for call in [session.advance_frame, session.settled_state, session.synchronize_input]:
                try:
                    call()
                except Fault:
                    raised += 1
        return raised, (session.frame, game.state, session.settled_state())


@test
def a_game_that_raised_goes_on():
    """As if it hadn't: whichever call of which method raised, and if it did so once more when that was carried out again."""
    due = raising(None, [])
    assert due[0] == 0 and due[1][0] == 16
    for method in ["save", "load", "advance"]:
        for faults in ([1], [1, 2]):
            while (found := raising(method, faults))[0] > 0:
                assert found == (len(faults), due[1]), (method, faults, found)
                faults = [at + 1 for at in faults]
            assert found == due and faults[0] > 10


class Lends(Raises):
    """It hands its own list out, which goes on to change."""

    def save(self):
        return self.state


class Borrows(Raises):
    """It goes on in the list that it was given."""

    def load(self, state):
        self.state = state


class Hides(Raises):
    """It has a counter beside its state, by which each hundredth step is another one."""

    def advance(self, row):
        super().advance(row)
        self.state[0] += self.calls["advance"] % 100 == 0


@test
def a_game_that_does_not_come_out_the_same():
    """The hundredth step is that of frame 51, for which frames are run twice, eight by eight."""
    rows = [Row((frame * 7 % 5, frame * 3 % 4)) for frame in range(80)]
    found = [sync_test(kind(), rows, tuple) for kind in [Raises, Lends, Borrows, Hides]]
    assert found == [None, 0, 0, 51]
    assert sync_test(Hides(), rows, tuple, 80) == 19 and sync_test(Hides(), rows[:20], tuple) is None
    assert said_by(lambda: sync_test(Raises(), rows, tuple, 0)).startswith("`depth` is 0")


@test
def a_game_can_not_roll_itself():
    class Calls(Sum):
        def advance(self, row):
            refused(Answer.PENDING, session.advance_frame)
            refused(Answer.PENDING, session.synchronize_input)
            super().advance(row)

    with Session(Settings(2, [1]), Calls()) as session:
        assert give(session, 1, 4) == 1 and session.game.state == 4


@test
def a_call_waits_for_another_thread():
    class Waits(Sum):
        def advance(self, row):
            super().advance(row)
            thread.start()
            thread.join(0.1)
            assert thread.is_alive() and seen == []

    seen = []
    with Session(Settings(2, [1]), Waits()) as session:
        thread = threading.Thread(target=lambda: seen.append(session.frame))
        give(session, 1, 4)
        thread.join(10)
        assert seen == [1]


@test
def two_threads_ask_while_one_plays():
    with session_of() as session:
        seen = []

        def ask():
            while not seen or seen[-1] < 500:
                seen.append(session.settled)

        threads = [threading.Thread(target=ask) for _ in range(2)]
        for thread in threads:
            thread.start()
        for frame in range(500):
            give(session, 1, frame)
            session.remote_input(2, frame, 1)
        session.synchronize_input()
        for thread in threads:
            thread.join(10)
        assert session.settled == 500 and sorted(set(seen))[-1] == 500


# ---- guesses

@test
def a_guess_that_comes_true():
    with session_of() as session:
        give(session, 1, 1)
        give(session, 1, 1)
        job = session.guess(2, [7], 2)
        assert (job.start, len(job.rows), job.rows[0]) == (0, 2, Row((1, 7)))
        refused(Answer.PENDING, session.graft, job)
        assert session.graft(job.run(Sum())) == 2 and job.states == [15, 31 * 15 + 15]
        refused(Answer.NO_JOB, session.graft, job)
        assert session.guess(2, [7], 2) is None
        session.remote_input(2, 0, 7)
        session.remote_input(2, 1, 7)
        session.add_local_input(1, 1)
        reached = session.advance_frame()
        assert (reached.start, reached.rerun) == (2, 1)


@test
def a_job_that_nobody_has_is_given_up():
    with session_of() as session, session_of() as other:
        give(session, 1, 1)
        give(other, 1, 1)
        foreign = other.guess(2, [7], 1)
        refused(Answer.NO_JOB, session.graft, foreign.run(Sum()))
        own = session.guess(2, [7], 1)
        assert own.number == foreign.number
        refused(Answer.NO_JOB, session.graft, foreign)
        refused(Answer.NO_JOB, session.forget, foreign)
        session.forget(own)
        other.forget(foreign)
        refused(Answer.NO_JOB, other.forget, foreign)
        before = recorder.called["fazgrond_forget"]
        numbers = set()
        for _ in range(200):  # 64 jobs may be out
            numbers.add(session.guess(2, [7], 1).number)
        session.synchronize_input()
        assert recorder.called["fazgrond_forget"] == before + 200 and len(numbers) == 1
        jobs = [session.guess(2, [word], 1) for word in range(1, 65)]
        refused(Answer.FULL, session.guess, 2, [99], 1)
        assert len({job.number for job in jobs}) == 64
        session.forget(jobs[0])
        refused(Answer.INVALID_REQUEST, session.guess, 2, [], 1)
        refused(Answer.INVALID_REQUEST, session.guess, 2, [1] * 25, 1)


@test
def a_handle_leaves_its_jobs_to_its_caller():
    with Handle(Settings(2, [1])) as handle:
        handle.add_local_input(1, 1)
        handle.advance_frame()
        assert [(it.kind, it.slot) for it in handle.requests()] == [(Kind.STEP, 0), (Kind.SAVE, 1)]
        job = handle.guess(2, [3], 1)
        refused(Answer.PENDING, handle.advance_frame)
        asked = handle.requests()
        assert [it.kind for it in asked] == [Kind.JOB_LOAD, Kind.JOB_STEP, Kind.JOB_SAVE] and asked[1].row == Row((1, 3))
        assert handle.graft(job) == 1 and handle.guess(2, [3], 1) is None
        job = handle.guess(2, [4], 1)
        handle.requests()
        handle.forget(job)
        refused(Answer.NO_JOB, handle.forget, job)


@test
def words_are_foreseen_by_their_parts():
    """The guesses were worked out by bench/choices.py: bindings/rust/fazgrond/tests/habits.rs has them too."""
    for parts in [[240, 256, 16], [240, 0], [1] * 33]:
        refused(Answer.INVALID_REQUEST, Habits, parts)
    with Habits([1, 2, 4, 8, 16]) as habits, Habits(likely=[3]) as whole:
        for frame in range(120):
            word = sum((frame // held % 2) << at for at, held in enumerate([6, 10, 14, 9, 22]))
            habits.note(word)
            whole.note(word)
        best = habits.guesses(4)
        assert len(best) == 32 and best[0] == ((26,), 12680) and best[1] == ((27, 26), 4311) and best[4] == ((27, 19), 1728)
        assert habits.guesses(4, 2) == best[:2] and habits.guesses(0) == [] == habits.guesses(4, 0)
        assert whole.guesses(4)[0] != best[0]


# ---- peers

def machine(me, held_turns=0, **more):
    session = session_of(me + 1)
    return session, Peer(session, Match(me, 2, [0, 1], 7, draw=70 + me, held_turns=held_turns, **more))


def meet(one, two, turns=8):
    """What one sends, the other hears; it may be sealed with what the other doesn't know yet."""
    for turn in range(turns):
        two[1].hear(one[1].send(1, 16 * turn), 16 * turn)
        one[1].hear(two[1].send(0, 16 * turn), 16 * turn)
        one[1].poll(16 * turn)
        two[1].poll(16 * turn)


def close(*machines):
    for session, peer in machines:
        peer.close()
        session.close()


@test
def words_are_held_back():
    """As tests/c/held.cpp has it."""
    one, two = machine(0), machine(1, held_turns=2)
    with session_of() as session:
        refused(Answer.INVALID_REQUEST, Peer, session, Match(0, 2, [0, 1], 7, held_turns=9))
    meet(one, two)
    session, peer = two
    assert give(one[0], 1, 7) == give(session, 2, 5) == give(session, 2, 5) == 1
    peer.receive(one[1].send(1, 200), 200)
    assert peer.waiting() == [RemoteWord(1, 0, 7)] and session.confirmed(1) == 0
    assert peer.rerun(1) == 2 and not peer.is_pressed
    refused(Answer.INVALID_REQUEST, peer.rerun, 0)
    refused(Answer.OTHER_SESSION, one[0].guess_waiting, peer, 1)
    job = session.guess_waiting(peer, 2)
    helper = Sum()
    assert session.graft(job.run(helper)) == 2 and helper.steps == 2
    assert peer.rerun(1) == 0 and session.guess_waiting(peer, 2) is None
    assert peer.hand_over_due() == 0
    peer.hand_over()
    assert peer.waiting() == [] and session.confirmed(1) == 1 and give(session, 2, 5) == 1 and session.game.steps == 3
    assert peer.hand_over_due() == 0
    close(one, two)


@test
def a_handle_guesses_with_words_that_wait():
    handle = Handle(Settings(2, [2]))
    peer, one = Peer(handle, Match(1, 2, [0, 1], 7, held_turns=2)), machine(0)
    meet(one, (handle, peer))
    handle.add_local_input(2, 5)
    handle.advance_frame()
    handle.requests()
    give(one[0], 1, 7)
    peer.receive(one[1].send(1, 200), 200)
    assert handle.guess_waiting(peer, 1) is not None and handle.requests()[1].row == Row((7, 5))
    raises(TypeError, peer.turn, 216)
    close(one, (handle, peer))


@test
def events_of_a_match():
    one, two = machine(0), machine(1)
    assert not one[1].is_running and one[1].stats(1).sent == 0 and one[1].stats(2) is None
    meet(one, two)
    told = [event.code for event in one[1].events()]
    assert told == [Happened.SYNCHRONIZED, Happened.RUNNING] and one[1].is_running
    give(one[0], 1, 3)
    two[1].receive(one[1].send(1, 200), 200)
    assert two[0].confirmed_word(1, 0) == 3
    assert one[1].send(0, 200) is None and one[1].send(5, 200) is None and one[1].bye(0) is None
    refused(Answer.NOT_SEALED, two[1].receive, b"junk", 200)
    assert not two[1].hear(b"junk", 200)
    raises(TypeError, two[1].receive, "junk", 200)
    raises(TypeError, two[1].receive, None, 200)
    assert one[1].stats(1).sent == 9 and one[1].stats(1).refused == 0
    two[1].hear(one[1].bye(1), 216)
    for turn in range(20):
        two[1].turn(216 + 16 * turn)
    told = [(event.code, event.machine or event.player) for event in two[1].events()]
    assert (Happened.LEFT, 0) in told and (Happened.DISCONNECTED, 1) in told
    refused(Answer.OWN_MACHINE, one[1].disconnect, 0)
    one[1].disconnect(1)
    one[1].poll(600)
    assert Happened.LEFT in [event.code for event in one[1].events()]
    close(one, two)


@test
def two_machines_share_a_number():
    for theirs, is_running in [(7, True), (8, False)]:
        sessions = session_of(1), session_of(2)
        both = [(session, Peer(session, Match(me, 2, [0, 1], numbers)))
                for me, (session, numbers) in enumerate(zip(sessions, [[0, 7], [theirs, 0]]))]
        meet(*both)
        assert both[0][1].is_running == both[1][1].is_running == is_running
        close(*both)


@test
def machines_that_do_not_fit():
    one, two = machine(0, digest=1), machine(1, digest=2)
    meet(one, two)
    told = [(event.code, event.machine, event.field) for event in one[1].events()]
    assert (Happened.MISMATCH, 1, 3) in told and not one[1].is_running
    close(one, two)
    one, two = machine(0, opening=1), machine(1, opening=2)
    meet(one, two)
    told = [(event.code, event.machine, event.field) for event in one[1].events()]
    assert (Happened.MISMATCH, 1, 6) in told and not one[1].is_running
    close(one, two)
    one, two = machine(0), machine(1)
    meet(one, two)
    one[0].remote_input(2, 0, 5)  # past the peer
    refused(Answer.OTHER_SESSION, one[1].poll, 500)
    close(one, two)


@test
def another_state_is_told():
    one, two = machine(0), machine(1)
    meet(one, two)
    for frame in range(80):
        for me, (session, peer) in enumerate([one, two]):
            try:
                session.add_local_input(me + 1, frame)
            except Refused:
                pass
            peer.turn(200 + 16 * frame)
            peer.note_settled(session.settled_state()[1] + (me if frame > 40 else 0))
        two[1].hear(one[1].send(1, 200 + 16 * frame), 200 + 16 * frame)
        one[1].hear(two[1].send(0, 200 + 16 * frame), 200 + 16 * frame)
    told = {event.code: event for event in one[1].events()}
    assert told[Happened.DESYNC].machine == 1 and told[Happened.DESYNC].frame > 30
    close(one, two)


def pressed(machine, frame):
    return frame * (machine + 3) // 7 % 4


@test
def inputs_of_two_words_and_a_viewer():
    """Two machines, whose inputs are two words, and a viewer, come to what the game comes to without a network: as
    tests/bindings/csharp/peers.cs."""
    owners, both = [0, 0, 1, 1], []
    for me in range(2):
        session = Session(Settings(4, [2 * me + 1, 2 * me + 2]), Sum())
        numbers = [0] * 8
        numbers[1 - me] = NUMBER
        both.append((session, Peer(session, Match(me, 2, owners, numbers, digest=5, words=2))))
    settings = LineSettings(0x8877665544332211, 0, 2, owners, digest=5)
    line, viewer, seen = Line(both[0][0], settings), Viewer(settings), Sum()
    assert viewer.bye() is None and viewer.look(0).has_ended
    viewer.close()
    viewer = Viewer(settings)
    for turn in range(200):
        now = 16 * turn
        for me, (session, peer) in enumerate(both):
            if peer.is_running and session.frame < 100:
                for word in range(2):
                    session.add_local_input(2 * me + 1 + word, pressed(me, session.frame) + word)
            peer.turn(now)
            peer.note_settled(session.settled_state()[1])
        both[1][1].hear(both[0][1].send(1, now), now)
        both[0][1].hear(both[1][1].send(0, now), now)
        for end, bytes_ in [(viewer, line.send(now)), (line, viewer.send(now))]:
            try:
                end.receive(bytes_, now)
            except Refused as why:
                assert why.answer == Answer.NOT_SEALED
        for row in viewer.rows():
            seen.advance(row)
    due = Sum()
    for frame in range(100):
        due.advance(Row(tuple(pressed(at // 2, frame) + at % 2 for at in range(4))))
    assert both[0][0].game.state == both[1][0].game.state == seen.state == due.state
    stats = both[0][1].stats(1)
    assert (stats.sent, stats.refused) == (200, 0) and viewer.look(3200).rows == 100 and line.look(3200).is_playing
    viewer.receive(line.bye(), 3200)
    assert viewer.look(3200).has_ended and viewer.send(3216) is None
    line.close()
    viewer.close()
    close(*both)


# ---- lines that break

def carrier(me, carries=True, machines=3):
    session = session_of(me + 1, machines)
    of = Match(me, machines, list(range(machines)), 7, draw=70 + me, silent_after=500, carries=carries)
    return session, Peer(session, of)


def told_and_sent(session, peer, me, now, frames):
    """A turn of a machine: what it was told, and what it sends to whom."""
    if peer.is_running and session.frame < frames:
        try:
            session.add_local_input(me + 1, pressed(me, session.frame))
        except Refused as why:
            assert why.answer == Answer.PREDICTION_THRESHOLD
    peer.turn(now)
    sent = [(to, datagram) for to in range(3) if (datagram := peer.send(to, now)) is not None]
    while (more := peer.send_more()) is not None:
        sent.append(more)
    return [event.code for event in peer.events()], sent


@test
def nobody_is_gone_whose_line_breaks():
    """As bindings/rust/fazgrond/tests/lines.rs has it."""
    frames, machines, ways = 200, [carrier(me) for me in range(3)], [[], [], []]
    for turn in range(600):
        came, ways = ways, [[], [], []]
        for me, (session, peer) in enumerate(machines):
            for datagram in came[me]:
                peer.hear(datagram, 16 * turn)
            told, sent = told_and_sent(session, peer, me, 16 * turn, frames)
            assert not {Happened.LEFT, Happened.DROPPED, Happened.CUT_OFF} & set(told)
            for to, datagram in sent:
                if turn < 40 or me + to != 1:
                    ways[to].append(datagram)
    due = Sum()
    for frame in range(frames):
        due.advance(Row(tuple(pressed(me, frame) for me in range(3))))
    assert [(it.frame, it.settled, it.game.state) for it, _ in machines] == 3 * [(frames, frames, due.state)]
    close(*machines)


@test
def who_does_not_carry_has_nothing_more_to_send():
    for carries, machines in [(False, 3), (True, 2)]:
        session, peer = carrier(0, carries, machines)
        for turn in range(40):
            peer.poll(16 * turn)
            assert peer.send_more() is None
        close((session, peer))


# ---- epochs

COMERS = 0xFEDCBA9876543210


def ticket_of(name):
    """A ticket, by the rule that the pages state."""
    tag = hashlib.sha256(COMERS.to_bytes(8, "big") + name.to_bytes(8, "big")).digest()[:4]
    return int.from_bytes(tag + name.to_bytes(4, "big"), "big")


def lasting(me, game=Sum, comers=COMERS):
    settings, of = Settings(2, [me + 1]), Match(me, 2, [0, 1], 7, comers=comers, draw=70 + me, silent_after=0)
    epoch, session = Epoch.first(of, settings), Session(settings, game())
    assert epoch == Epoch([0, 1], [0, 0], 8, 1, 0, 0, 2)
    peer = Peer(session, of, epoch)
    assert peer.epoch() == epoch and stayed(peer) == []
    assert [machine for machine in range(256) if epoch.has(machine)] == [0, 1]
    return session, peer, [epoch]


def stayed(peer):
    """Which machines were in the epoch before, and are in this one."""
    return [machine for machine in range(256) if peer.has_stayed(machine)]


# The second one isn't put, since its tag isn't that of its name. Nobody gets a player by the third one, for none is free.
MARKS = {40: (0, None), 80: (1, Mark(threshold=7, comes=[1], ticket=ticket_of(3) ^ 1)),
         120: (0, Mark(threshold=6, delays={1: 0}, comes=[2], ticket=ticket_of(3)))}


def marks(peer, me, mark):
    if me == 1:
        refused(Answer.WRONG_TICKET, peer.mark, me + 1, mark)
    else:
        peer.mark(me + 1, mark)
        refused(Answer.MARKED, peer.mark, me + 1)
    refused(Answer.INVALID_PLAYER, peer.mark, 2 - me)


def goes_on(session, peer, epochs, is_watched):
    """Goes on if an epoch is over, and says the frame of the whole match. If somebody watches, what has come is played first, so that all
    rows are told of the epoch that may be over."""
    before = peer.epoch().base + session.frame
    if is_watched and session.has_news:
        session.synchronize_input()
    if (frames := peer.go_on()) is not None:
        epochs.append(peer.epoch())
        assert session.frame == frames and stayed(peer) == [0, 1]
    assert epochs[-1].base + session.frame == before
    return before


def plays(session, peer, epochs, me, turn, frames, is_watched):
    """A turn of a machine: what it sends to the other one."""
    now = 16 * turn
    peer.poll(now)
    frame = goes_on(session, peer, epochs, is_watched)
    if peer.is_running and frame < frames:
        if turn in MARKS and MARKS[turn][0] == me:
            marks(peer, me, MARKS[turn][1])
        try:
            session.add_local_input(me + 1, pressed(me, frame))
        except Refused as why:
            assert why.answer == Answer.PREDICTION_THRESHOLD
    peer.turn(now)
    assert not {Happened.LEFT, Happened.DROPPED, Happened.DESYNC} & {event.code for event in peer.events()}
    return [it for it in [peer.send(1 - me, now), peer.send_before(1 - me, now)] if it is not None]


def both_play(machines, came, turn, frames, is_watched=True, plays=plays):
    """A turn of both machines: what they send each other."""
    ways = [[], []]
    for me, (session, peer, epochs) in enumerate(machines):
        for datagram in came[me]:
            peer.hear(datagram, 16 * turn)
        ways[1 - me] += plays(session, peer, epochs, me, turn, frames, is_watched)
    return ways


def late(machines, lag, turns, frames, plays=plays):
    """They hear each other so many turns late, and make no call of the session between the poll and the seam."""
    ways = [[[], []] for _ in range(lag)]
    for turn in range(turns):
        ways.append(both_play(machines, ways.pop(0), turn, frames, False, plays))


@test
def who_may_come():
    """Tickets are as the pages have them. Matches of other comers are others, and so is one that doesn't go on."""
    for name in [0, 3, 0xFFFFFFFF]:
        assert ticket(COMERS, name) == ticket_of(name)
    for field, other in [(3, lasting(1, comers=COMERS + 1)[:2]), (5, machine(1))]:
        one = lasting(0)[:2]
        meet(one, other)
        for me, (_, peer) in enumerate([one, other]):
            assert (Happened.MISMATCH, 1 - me, field) in [(it.code, it.machine, it.field) for it in peer.events()]
        close(one, other)


@test
def a_match_goes_on_in_epochs():
    """As bindings/rust/fazgrond/tests/epochs.rs has it."""
    frames, machines, ways, job = 200, [lasting(0), lasting(1)], [[], []], None
    for turn in range(600):
        ways = both_play(machines, ways, turn, frames)
        if turn == 110:
            job = machines[0][0].guess(2, [77], machines[0][0].frame + 2)
    due = Sum()
    for frame in range(frames):
        due.advance(Row(tuple(pressed(me, frame) for me in range(2))))
    assert machines[0][2] == machines[1][2] and [it.threshold for it in machines[0][2]] == [8, 8, 6]
    for session, _, epochs in machines:
        assert (epochs[-1].base + session.settled, session.game.state) == (frames, due.state)
    assert machines[0][0]._jobs == {}  # whose slots have other states now
    refused(Answer.NO_JOB, machines[0][0].graft, job.run(Sum()))
    close(*[it[:2] for it in machines])


@test
def a_seam_needs_no_call_before():
    """The requests of a seam come in two parts, of which none is left to the next call."""
    due = Sum()
    for frame in range(200):
        due.advance(Row(tuple(pressed(me, frame) for me in range(2))))
    for lag in [1, 3, 5]:
        machines = [lasting(0), lasting(1)]
        late(machines, lag, 400, 200)
        assert machines[0][2] == machines[1][2] and len(machines[0][2]) == 3
        for session, _, epochs in machines:
            assert (epochs[-1].base + session.settled, session.game.state) == (200, due.state)
        close(*[it[:2] for it in machines])


def raising_at_a_seam(method=None, faults=()):
    """Two machines over a seam, of which the first one's game raises: how often it did, what is there in the end, and which calls of the
    game were made in the turn of the seam."""
    machines, raised, within = [lasting(0, Raises), lasting(1, Raises)], [], {}
    game = machines[0][0].game
    game.method, game.faults, game.calls = method, faults, Counter()

    def may_raise(session, peer, epochs, *of):
        before, count = Counter(game.calls), len(epochs)
        try:
            return plays(session, peer, epochs, *of)
        except Fault:
            raised.append(session)
            return []
        finally:
            if session.game is game and len(epochs) > count:
                within.update({it: range(before[it] + 1, game.calls[it] + 1) for it in game.calls})

    late(machines, 3, 76, 60, may_raise)
    found = [(it.settled_state(), it.game.state, [epoch.base for epoch in epochs]) for it, _, epochs in machines]
    assert machines[0][2] == machines[1][2] and len(machines[0][2]) == 2
    close(*[it[:2] for it in machines])
    return len(raised), found, within


@test
def a_game_that_raised_at_a_seam_goes_on():
    """It is told of the new epoch once it has carried out what was left, and comes to the same."""
    none, due, within = raising_at_a_seam()
    assert none == 0 and due[0] == due[1] and all(len(within[it]) > 0 for it in ["save", "load", "advance"])
    for method, calls in within.items():
        for call in calls:
            count, found, _ = raising_at_a_seam(method, [call])
            assert count == 1 and found[0][1:] == due[0][1:] == found[1][1:], (method, call, found)


def told_past(line, viewer, peer):
    """The rows of the epoch before, of which somebody is told who begins to watch now."""
    rows = []
    for now in range(0, 320, 16):
        hears(viewer, line.send_before(peer, now), now)
        rows += viewer.rows()
        hears(line, viewer.send(now), now)
    return rows


def hears(end, datagram, now):
    try:
        end.receive(datagram, now)
    except Refused as why:
        assert why.answer == Answer.NOT_SEALED  # it hasn't heard the other end yet


@test
def who_watches_is_told_of_the_epoch_before():
    """As long as no word of the other machine in this one has come."""
    machines, ways, turn = [lasting(0), lasting(1)], [[], []], 0
    (session, peer, epochs), other, settings = *machines, LineSettings(8, 0, 2, [0, 1])
    with Line(session, settings) as line, Viewer(settings) as viewer:
        while len(epochs) == 1:
            assert line.send_before(peer, 0) is None and turn < 100
            ways, turn = both_play(machines, ways, turn, 200), turn + 1
        due = [Row(tuple(pressed(me, frame) for me in range(2))) for frame in range(epochs[1].base)]
        refused(Answer.OTHER_SESSION, line.send_before, other[1], 0)
        assert told_past(line, viewer, peer) == due
        for more in range(20):
            ways = both_play(machines, ways, turn + more, 200)
        assert line.send_before(peer, 0) is None and line.look(0)[3:5] == (True, False)
    close(*[it[:2] for it in machines])


@test
def a_match_that_does_not_go_on_in_epochs():
    settings, of = Settings(2, [1]), Match(0, 2, [0, 1], 7, draw=70)
    for kind in [Handle(settings), Session(settings, Sum())]:
        peer = Peer(kind, of)
        refused(Answer.NO_MARKS, peer.mark, 1)
        assert (peer.epoch(), peer.go_on(), peer.send_before(1, 0)) == (None, None, None)
        with Line(kind, LineSettings(8, 0, 2, [0, 1])) as line:
            assert line.send_before(peer, 0) is None and stayed(peer) == []
        close((kind, peer))
    session, other = Session(settings, Sum()), Epoch.first(of, Settings(2, [1], threshold=7))
    refused(Answer.INVALID_REQUEST, Peer, session, of, other)
    session.close()


# ---- states in pieces

@test
def a_state_goes_over():
    """As bindings/rust/fazgrond/tests/states.rs has it: a line that loses, doubles and turns round."""
    state = bytes((place * place >> 7) & 255 for place in range(100_000))
    came, sent = [], 0
    with Giver(1, 7, state) as giver, Taker(giver.name, 100_000) as taker:
        assert taker.look() == (98, 98) and taker.takes_of(0) and taker.state() is None and giver.name.length == 100_000
        while (ask := taker.send(NUMBER, 1, 5)) is not None:
            assert state_sender(ask) == 1
            pieces = []
            while (piece := giver.reply(NUMBER, 0, ask, len(pieces))) is not None:
                pieces.append(piece)
            kept = [piece for at, piece in enumerate(pieces) if (sent + at) % 3 != 2]
            sent += len(pieces)
            for piece in [*reversed(kept), *kept[-1:]]:
                came.append(taker.receive(NUMBER, piece))
        assert set(came) == {(what, None) for what in [Piece.PIECE_AGAIN, Piece.PIECE_TAKEN, Piece.STATE_WHOLE]}
        assert taker.state() == state == giver.state() and taker.name == giver.name and taker.look().left == 0


@test
def who_gives_a_wrong_state_is_named():
    refused(Answer.INVALID_REQUEST, Giver, 1, 0, b"")
    with Giver(1, 0, b"right") as giver, Giver(1, 0, b"wrong") as liar:
        refused(Answer.TOO_LONG, Taker, giver.name, 4)
        name = giver.name
        first = state_ask(NUMBER, 1, 1, 0)
        piece = giver.reply(NUMBER, 0, first, 0)
        assert state_told(NUMBER, piece) == name and state_sender(b"peer") is None
        refused(Answer.NOT_SEALED, state_told, NUMBER + 1, piece)
        with Taker(StateName(1, 0, 5, bytes([7] * 32)), 5) as taker:
            refused(Answer.OTHER_STATE, taker.receive, NUMBER, piece)
            refused(Answer.INVALID_MACHINE, taker.takes_of, 8)
            taker.take_of(1)
            assert not taker.takes_of(0)
            taker.take_of(None)
            assert taker.takes_of(0) and taker.takes_of(1)
        assert StateName(1, 0, 5, bytes([7] * 32)).digest_with(1) != name.digest_with(1)
        assert liar.name.digest != name.digest


# ---- windows

@test
def a_window_answers_as_a_set_of_all_that_was_taken():
    draw = random.Random(1)
    window, taken = Window(), set()
    for _ in range(20000):  # mostly near the highest, at times at the edge of reach or far ahead
        highest = max(taken, default=0)
        near, edge, far = highest + draw.randint(-200, 3), highest - WINDOW_REACH + draw.randint(-2, 2), highest + draw.randint(1, 3000)
        number = max(0, draw.choice([near] * 6 + [edge, far]))
        wanted = number not in taken and highest <= number + WINDOW_REACH
        assert (window.is_new(number), window.note(number)) == (wanted, wanted)
        if wanted:
            taken.add(number)
            taken = {it for it in taken if it + 2 * WINDOW_REACH >= number}
    raises(OverflowError, window.note, 1 << 64)
    raises(OverflowError, window.is_new, -1)


# ---- a match that a session plays, by the calls of C, over which there is no class yet

class Playing:
    """A machine of a match of two in epochs, whose inputs have 6 bytes. Its game sums all bytes."""

    def __init__(self, me):
        self.me, self.state, self.aside, self.slots, self.inbox, self.told, self.digests = me, 1, 1, {0: 1}, [], {}, {}
        self.session, self.turn, self.number = (ffi.new(f"{it} *") for it in ["fazgrond_session", "fazgrond_turn", "uint32_t"])
        its = self.settings = ffi.new("fazgrond_match_settings *")
        its.size, its.me, its.machines, its.input_size, its.draw = ffi.sizeof("fazgrond_match_settings"), me, 2, 6, 70 + me
        its.numbers, its.owners, its.masks = [7] * 8, [0, 1] + [255] * 6, [0xffffffff] * 8
        its.threshold, its.limit, its.log, its.lasts, its.held_turns, its.frame_time = 8, 100000, 100000, 1, 2 * me, 16667

    def opened(self):
        unfit = ffi.new("fazgrond_unfit *")
        return lib.fazgrond_match_open(self.session, self.settings, unfit), unfit.setting, unfit.value

    def ask(self, call, *words):
        assert getattr(lib, f"fazgrond_{call}")(self.session, *words) == Answer.OK, call
        return self.number[0]

    def carry_out(self):
        requests = ffi.new("fazgrond_request[16]")
        while count := lib.fazgrond_take_requests(self.session, requests, 16):
            for it in requests[0:count]:
                if it.kind in (1, 5):
                    state = self.slots[it.slot]
                elif it.kind in (3, 7):
                    state = self.state if it.kind == 3 else self.aside
                    for at in range(12):
                        state = (state * 31 + (it.row.words[at // 6 * 2 + at % 6 // 4] >> at % 6 % 4 * 8 & 255)) % 1000003
                elif it.kind in (2, 6):
                    self.slots[it.slot] = self.state if it.kind == 2 else self.aside
                if it.kind in (1, 3):
                    self.state = state
                elif it.kind in (5, 7):
                    self.aside = state

    def hand_over(self):
        entries, job = ffi.new("fazgrond_entry[64]"), ffi.new("uint32_t *")
        count = lib.fazgrond_match_waiting(self.session, entries, 64)
        if not count:
            return
        if lib.fazgrond_match_guess(self.session, self.ask("frame", self.number), job) == Answer.OK:
            self.carry_out()
            self.ask("graft", job[0], self.number)
        assert self.ask("match_rerun", count, self.number) == 0
        self.ask("match_is_pressed", self.number)
        self.ask("match_hand_over", count)

    def play(self, other, at):
        for datagram in self.inbox:
            lib.fazgrond_match_receive(self.session, datagram, len(datagram), at * 16)
        self.inbox.clear()
        self.hand_over()
        inputs = bytes([at % 7, at % 5, self.me, 0, at % 3, 9])
        while True:
            self.ask("match_turn", inputs, 6, at * 16, self.turn)
            self.carry_out()
            if not self.turn.has_gone_on:
                break
            self.digests.clear()
        slot = ffi.new("uint32_t *")
        self.ask("settled_slot", self.number, slot)
        self.digests[self.number[0]] = self.slots[slot[0]]
        self.ask("match_note", self.slots[slot[0]])
        self.send(other)

    def send(self, other):
        to, out, size, event = (ffi.new(it) for it in ["uint8_t *", "uint8_t[1200]", "size_t *", "fazgrond_event *"])
        while lib.fazgrond_match_next(self.session, to, out, 1200, size) == Answer.OK:
            assert to[0] == other.me
            other.inbox.append(bytes(out[0:size[0]]))
        while lib.fazgrond_match_event(self.session, event) == Answer.OK:
            self.told[event.code] = event.bye


@test
def a_match_is_played_by_its_session():
    one, two = both = Playing(0), Playing(1)
    one.settings.held_turns = 9
    assert one.opened() == (Answer.OUT_OF_RANGE, 8, 9)
    one.settings.held_turns = 0
    assert one.opened() == two.opened() == (Answer.OK, 0, 0)
    for at in range(1, 241):
        if at == 100:
            mark = ffi.new("fazgrond_mark *")
            mark.size, mark.delays = ffi.sizeof("fazgrond_mark"), [2] + [0xffffffff] * 7
            one.ask("match_mark", 1, mark)
        one.play(two, at)
        two.play(one, at)
    for it in both:
        epoch, stats = ffi.new("fazgrond_epoch_now *"), ffi.new("fazgrond_stats *")
        it.ask("match_epoch", epoch)
        it.ask("match_stats", 1 - it.me, stats)
        assert list(epoch.delays)[:2] == [2, 0] and list(epoch.stayed)[:3] == [1, 1, 0] and stats.received > 0
        assert not {1101, 1102} & set(it.told)
    common = set(one.digests) & set(two.digests)
    assert len(common) > 80 and all(one.digests[it] == two.digests[it] for it in common)
    one.ask("match_leave", 20)
    assert lib.fazgrond_match_disconnect(two.session, 5) == Answer.INVALID_MACHINE
    one.play(two, 241)
    two.play(one, 241)
    assert two.told[1101] == 20
    for it in both:
        lib.fazgrond_close(it.session)
        assert lib.fazgrond_match_leave(it.session, 20) == Answer.IS_CLOSED


# ---- all of the header

@test
def no_call_of_the_header_is_left_out():
    sys.dont_write_bytecode = True
    sys.path.insert(0, str(ROOT / "bindings"))
    import interface

    of = interface.read()
    due = {f"fazgrond_{it.name}" for it in of.calls()}
    assert len(due) > 70 and due <= set(recorder.called), due - set(recorder.called)
    gc.collect()
    assert {it.name for it in of.handles()} == set(recorder.opened)
    assert recorder.opened == recorder.closed, (recorder.opened, recorder.closed)


def main():
    failed = 0
    for it in TESTS:
        try:
            it()
        except Exception:
            failed += 1
            print(f"failed: {it.__name__}\n{traceback.format_exc()}", end="")
    print(f"{len(TESTS) - failed} passed, {failed} failed")
    sys.exit(failed > 0)


main()
