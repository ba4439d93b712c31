#!/usr/bin/env python3
"""Puts wrong code into the channel, one change at a time, and checks that the test that is named with it catches each.

It works in copies of the crate. A test catches a change if it fails, or does not end in time. Each test has to pass without a change,
too. The last line is `N passed, N failed`.
"""
import concurrent.futures
import os
import queue
import shutil
import signal
import subprocess
import sys
import tempfile

CRATE = os.path.dirname(os.path.dirname(os.path.abspath(__file__)))
SEARCH = "test -q --test wait_orders"
TEST = "test -q --test channel "
JOBS = "test -q --test channel_jobs "
FAULTS = "test -q --test channel_faults "
CALLS = "test -q --test channel_calls "
MEETING = "test -q --test channel_meeting "
ROW = "test -q --test channel_row "
LATCH = "test -q --lib latch"
AT_A_TIME = 4
# Between two parts of a text.
CUT = "\n .. \n"
# It widens the gap in which a wrong order shows.
MOMENT = "        std::thread::sleep(std::time::Duration::from_millis(1));\n"
# What is wrong, the file in `src`, the right text, the wrong one, and the test that catches it.
BODIES = [
    ("a token is not passed on", "channel/wait", "            self.wake_one();\n        }\n    }\n\n    /// Looks until", "        }\n    }\n\n    /// Looks until", SEARCH),
    ("a thread does not look after it entered the list", "channel/wait", "            if let Some(found) = look() {\n                self.leave(number);\n                return Some(found);\n            }\n", "", SEARCH),
    ("a task does not look after it entered the list", "channel/wait", "            is_in = true;\n", "            return Poll::Pending;\n", SEARCH),
    ("a thread gives up with a token", "channel/wait", "                    break; // (it was woken, so it looks once more)", "                    return None;", SEARCH),
    ("a waker that panics takes the wake-up along", "channel/wait", "            if sleeper.wake() {\n                break;\n            }", "            sleeper.wake();\n            break;", SEARCH),
    ("a task that was woken takes itself for a sleeper", "channel/wait", "            found.map(|it| mem::swap(it, &mut waker)).is_some()", "            found.map_or((), |it| mem::swap(it, &mut waker));\n            true", SEARCH),
    ("who enters the list does not say so", "channel/wait", "            list.sleepers.insert(number, sleeper);\n            self.asleep.store(list.sleepers.len());\n", "            list.sleepers.insert(number, sleeper);\n", SEARCH),
    ("the count is stored after the lock", "channel/wait", "        self.list.hold(|list| {\n            let result = work(&mut list.sleepers);\n            self.asleep.store(list.sleepers.len());\n            result\n        })", "        let (result, count) = self.list.hold(|list| (work(&mut list.sleepers), list.sleepers.len()));\n        self.asleep.store(count);\n        result", SEARCH),
    ("the end wakes one sleeper", "channel/wait", "in self.change(mem::take).into_values() {", "in self.change(mem::take).into_values().take(1) {", SEARCH),
    ("a waker is dropped under the lock", "channel/wait", "            let found = list.sleepers.get_mut(&number);\n", "            let mut waker = waker;\n            let found = list.sleepers.get_mut(&number);\n", FAULTS + "a_waker_may"),
    ("what the panic of a waker says is dropped", "channel/wait", "woken.map_err(drop_said).is_ok()", "woken.is_ok()", FAULTS + "what_the_panic"),
    ("the list is searched", "channel/wait", "self.change(|sleepers| sleepers.remove(&number));", "self.change(|sleepers| {\n            let found = sleepers.keys().copied().find(|it| *it == number);\n            found.and_then(|it| sleepers.remove(&it))\n        });", FAULTS + "many_may"),
    ("a future that is dropped stays in the list", "channel/future", "            shared.empty.leave(place);", "            let _ = place;", TEST + "a_future_that_is_dropped"),
    ("a future takes a further value", "channel/future", "        self.stage = Stage::Ready;\n        Poll", "        self.stage = Stage::New;\n        Poll", FAULTS + "a_receive_that"),
    ("a send wakes nobody", "channel/sender", "        self.shared.empty.wake_one();\n", "", TEST + "no_round_sleeps_for_ever"),
    ("a send without a desk wakes nobody", "channel/shared", "            return Err(why);\n        }\n        self.empty.wake_one();\n", "            return Err(why);\n        }\n", TEST + "no_round_sleeps_for_ever"),
    ("what is left stays", "channel/shared", "            self.store.end();\n", "", TEST + "what_is_left"),
    ("a job that is open is no reason to wait", "channel/shared", "self.may_come() || jobs % BEGUN != 0 {", "self.may_come() {", JOBS + "receivers_wait"),
    ("the end of the last job wakes nobody", "channel/shared", "        if jobs % BEGUN == 1 && !self.has_senders() {", "        if jobs % BEGUN == 7 {", JOBS + "the_last_job"),
    ("a job that comes back stays out", "channel/job", "self.shared.put(None, value, GIVEN_BACK).err()", "Some(value)", JOBS + "a_job_comes_back"),
    ("a job ends after its value was dropped", "channel/job", "        self.shared.end_job();\n        drop(refused);", "        drop(refused);\n        self.shared.end_job();", FAULTS + "a_job_without"),
    ("who waits for room is not woken", "channel/store/row", "            full.wake_one();\n", "", TEST + "no_sender_that_waits"),
    ("the last sender wakes nobody", "channel/shared", "        if self.senders.remove() {\n            self.wake_receivers();", "        if self.senders.remove() {", TEST + "the_end_wakes"),
    ("a close wakes no receiver", "channel/shared", "        self.wake_receivers();\n        was_open", "        was_open", CALLS + "a_close_wakes"),
    ("a close wakes no sender", "channel/shared", "        self.full.wake_all();\n        self.wake_receivers();\n        was_open", "        self.wake_receivers();\n        was_open", CALLS + "a_close_wakes"),
    ("a sender that is woken by a close looks for room alone", "channel/parcel", "if shared.store.seems_full() && !shared.is_closed() => {", "if shared.store.seems_full() => {", CALLS + "a_close_wakes"),
    ("a job does not come back after a close", "channel/store/mod", "            State::Closed => who == GIVEN_BACK,", "            State::Closed => who == GIVEN_BACK - 1,", CALLS + "a_job_comes"),
    ("a weak end makes an end of nothing", "channel/shared", "(there > 0)", "(there < 9)", CALLS + "a_weak_end"),
    ("a drain goes on", "channel/receiver", "            left: self.len(),", "            left: usize::MAX,", CALLS + "a_drain"),
    ("accounts are dropped at once", "channel/audit", "    panics.drop_each(accounts.into_iter().flat_map(|it| it.left));", "    panics.contain(|| accounts.into_iter().for_each(drop));", FAULTS + "all_that_is_left"),
    ("a value is kept though nobody waits", "channel/store/meeting", "        let bell = if who == GIVEN_BACK {", "        let bell = if who < GIVEN_BACK {", MEETING + "nothing_is_sent"),
    ("who gave up counts as waiting", "channel/store/meeting", "        table.waiting.remove(&ticket.number);\n        !table", "        !table", MEETING + "nothing_is_sent"),
    ("a sender is not told that its value was taken", "channel/store/meeting", "        ring(bell);\n        self.count", "        self.count", MEETING + "tasks_meet"),
    ("a future that is dropped leaves its offer", "channel/future", "            drop(parcel.take_back(shared));", "            drop(parcel);", MEETING + "tasks_meet"),
    ("a future that is dropped counts as waiting", "channel/store/meeting", "        table.waiting.remove(&ticket.number);\n        let left", "        let left", MEETING + "what_was_left"),
    ("a receiver takes what is left for another", "channel/store/meeting", "let left = ticket.and_then(|it| table.take_left(it));", "let left = table.left.pop_first().map(|it| it.1);", MEETING + "what_is_left"),
    ("it is the end though something is left for another", "channel/shared", " || !self.store.meeting().is_none_or(Meeting::is_settled)", "", MEETING + "what_is_left"),
    ("the last value wakes nobody", "channel/shared", "            self.wake_receivers(); // (perhaps nothing is left now)\n", "", MEETING + "what_is_left"),
    ("a closed meeting goes on", "channel/store/meeting", "table.take_free(self.is_open())", "table.take_free(true)", MEETING + "an_end_gives"),
    ("a sender has its own room", "channel/store/row", "self.plan.bound.is_none() && self.plan.audit.is_none();", "self.plan.audit.is_none();", ROW + "a_full_channel"),
    ("a full channel takes one more", "channel/store/row", "sent - taken >= bound as u64", "sent - taken > bound as u64", TEST + "a_bound_holds"),
    ("a sender does not look for room again", "channel/store/row", "is_full(taken.load(Relaxed)) && look() && {\n            let standing = lock(&self.standing);\n            standing.seats.iter().for_each(|it| drop(it.hold()));\n            drop(standing);\n            look()\n        }", "is_full(taken.load(Relaxed))", ROW + "there_is_room"),
    ("a sender does not wait for takes", "channel/store/row", "            standing.seats.iter().for_each(|it| drop(it.hold()));\n .. \n            self.taken.0.fetch_add(1, SeqCst);\n", "\n .. \n" + MOMENT + "            self.taken.0.fetch_add(1, SeqCst);\n", ROW + "there_is_room"),
    ("a take counts after its latch is left", "channel/store/row", "            self.taken.0.fetch_add(1, SeqCst);\n", "            drop(at);\n" + MOMENT + "            self.taken.0.fetch_add(1, SeqCst);\n            full.wake_one();\n            return;\n", ROW + "there_is_room"),
    ("room is not given back", "channel/store/row", "            self.taken.0.fetch_add(1, SeqCst);\n", "", ROW + "there_is_room"),
    ("room is given back at each look", "channel/store/row", "        let Taking { mut at, mut looked } = taking;\n", "        let Taking { mut at, mut looked } = taking;\n        self.taken.0.fetch_add(1, SeqCst);\n", TEST + "a_bound_holds"),
    ("a job that comes back needs room", "channel/store/row", ".filter(|_| who != GIVEN_BACK) {", "{", ROW + "what_a_job"),
    ("a closed channel is full", "channel/store/row", "            if !self.status.admits(who) {\n                return Err(Refused::Closed(value));\n            }\n            if self.is_full", "            if self.is_full", CALLS + "a_close_wakes"),
    ("a value of the lane is not counted", "channel/store/row", "        at.pass();\n        if self.plan.bound.is_some() {\n            self.sent", "        if self.plan.bound.is_some() {\n            self.sent", TEST + "a_bound_holds"),
    ("a value of a desk is not counted", "channel/store/place", "                at.pass();\n                Ok(())\n", "                Ok(())\n", TEST + "values_of_a_sender"),
    ("a value counts that is not sent", "channel/store/place", "            Err(_) => at.misses += 1,\n", "            Err(_) => drop(at.pass()),\n", ROW + "what_gone"),
    ("a take is not counted", "channel/store/place", "Ok((value, at.pass().then_some(at)))", "Ok((value, None))", ROW + "what_gone"),
    ("a first take is not counted", "channel/store/row", "        if at.pass() {\n            self.go_on(at, who, full);\n        }\n", "        let _ = (&mut at, who, full);\n", ROW + "what_gone"),
    ("ends that are gone do not count", "channel/store/place", "self.gone += place.hold().count();", "drop(place.hold());", ROW + "what_gone"),
    ("what waits is counted at two moments", "channel/store/row", "        let (senders, receivers) = (desks.hold(), seats.hold());\n        let sent = desks.count(&senders)\n .. \n        let waiting = sent.saturating_sub(seats.count(&receivers));\n", "        let sent = desks.count(&desks.hold())\n .. \n        std::thread::yield_now();\n        let waiting = sent.saturating_sub(seats.count(&seats.hold()));\n", FAULTS + "one_or_two"),
    ("a count and a sender wait for each other", "channel/store/row", "            let standing = lock(&self.standing);\n            standing.seats\n .. \n        let lane = self.lane.hold(); // (before the lock, as a sender that finds no room)\n        let Standing { desks, seats, .. } = &*lock(&self.standing);\n", "            std::thread::yield_now();\n            let standing = lock(&self.standing);\n            standing.seats\n .. \n        let Standing { desks, seats, .. } = &*lock(&self.standing);\n        std::thread::yield_now();\n        let lane = self.lane.hold();\n", ROW + "a_full_channel"),
    ("a desk stays after its sender", "channel/store/row", "        lock(&self.standing).desks.remove(desk);\n", "        let _ = desk;\n", ROW + "what_is_gone"),
    ("a seat stays after its receiver", "channel/store/row", "if lock(&self.standing).seats.remove(seat) {", "if Arc::strong_count(seat) == 0 {", ROW + "what_is_gone"),
    ("idle desks are not replaced", "channel/store/row", "        desks.for_each(|it| drop(it.tidy(|| inlet.another())));\n", "        drop((desks, inlet));\n", JOBS + "an_idle_end"),
    ("idle seats are not replaced", "channel/store/row", "        seats.for_each(|it| drop(it.tidy(|| outlet.another())));\n", "        drop((seats, outlet));\n", JOBS + "an_idle_end"),
    ("nobody looks which ends are idle", "channel/store/row", "        if until_tidy(count, who) == TIDY {", "        if until_tidy(count, who) > TIDY {", JOBS + "an_idle_end"),
    ("a receiver looks once which ends are idle", "channel/store/row", "        at.go_on(self.plain_takes(count, who));\n", "        at.go_on(u64::MAX - count);\n", JOBS + "an_idle_end"),
    ("an end counts as used for ever", "channel/store/place", "mem::replace(&mut kept.seen, calls)", "mem::replace(&mut kept.seen, 0)", JOBS + "an_idle_end"),
    ("an end that only looked stays", "channel/store/row", "                    at.misses += 1;\n                    return Look::Nothing", "                    return Look::Nothing", JOBS + "an_idle_end"),
    ("an end that is replaced is not freed", "ffi/ends", "        if self.full {\n            self.finish", "        if !self.full {\n            self.finish", JOBS + "an_idle_end"),
    ("a close is said before it is done", "channel/store/row", "        home.inlet.close();\n        self.status.advance(to)", "        let was_open = self.status.advance(to);\n" + MOMENT + "        home.inlet.close();\n        was_open", ROW + "who_is_told"),
    ("who is refused runs ahead of the close", "channel/store/row", "                drop(lock(&self.home));\n .. \n        self.status.advance(to)\n", "\n .. \n" + MOMENT + "        self.status.advance(to)\n", ROW + "who_is_told"),
    ("a close does not close the row", "channel/store/row", "        home.inlet.close();\n", "        let _ = &mut home;\n", CALLS + "after_a_close"),
    ("each close is the first", "channel/store/mod", "self.0.fetch_max(to as u8, SeqCst) == State::Open as u8", "self.0.fetch_max(to as u8, SeqCst) <= to as u8", CALLS + "after_a_close"),
    ("a close lets jobs in again", "channel/store/mod", "self.0.fetch_max(to as u8, SeqCst)", "self.0.swap(to as u8, SeqCst)", ROW + "a_job_without"),
    ("what comes back after a close is lost", "channel/store/row", "        back.push_back(value);\n", "        drop(value);\n", CALLS + "a_job_comes"),
    ("what comes back after a close does not count", "channel/store/row", "        back.push_back(value);\n        self.count(&mut at);\n", "        back.push_back(value);\n        let _ = &mut at;\n", ROW + "what_a_job"),
    ("what comes back after a close is the first", "channel/store/row", "            let taken = match &self.plan.audit {\n", "            if let Some(value) = lock(&self.back).pop_front() {\n                return self.took(at, value, who, full);\n            }\n            let taken = match &self.plan.audit {\n", ROW + "what_a_job"),
    ("a job comes back to no receiver", "channel/store/row", "        let mut back = lock(&self.back);\n        if !self.status.admits(who) {\n            return Err(Refused::Closed(value));\n        }\n", "        let mut back = lock(&self.back);\n", ROW + "a_job_without"),
    ("nobody takes what comes back after a close", "channel/store/row", "                Err(Untaken::Closed) => return self.take_back(at, who, full),", "                Err(Untaken::Closed) => return Look::Nothing,", ROW + "what_a_job"),
    ("with an audit nobody takes it either", "channel/store/row", "                let back = lock(&self.back).pop_front();\n", "                let back = None;\n", ROW + "accounts_have"),
    ("what came back is not left", "channel/store/row", "            in_row.or_else(|| back.next().map(|it| (it, GIVEN_BACK)))", "            let _ = &mut back;\n            in_row", ROW + "accounts_have"),
    ("what is left is dropped at once", "channel/store/row", "            panics.drop_each(iter::from_fn(next).map(|it| it.0));\n", "            panics.contain(|| iter::from_fn(next).for_each(drop));\n", FAULTS + "all_that_is_left"),
    ("what is left stays in the row", "channel/store/row", "            let in_row = lock(&self.home).outlet.take_left();\n", "            let in_row = None;\n", TEST + "what_is_left"),
    ("the last receiver does not close", "channel/shared", "            self.store.close(State::Left);\n", "", TEST + "an_end_ends"),
    ("a send that has to go on counts as done", "ffi/ends", "                calls::AGAIN => pause(turn),\n                calls::DONE => break,", "                calls::AGAIN | calls::DONE => break,", TEST + "ends_that"),
    ("a send to a closed channel counts as done", "ffi/ends", "                calls::DONE => break,\n", "                calls::DONE | calls::CLOSED => break,\n", CALLS + "after_a_close"),
    ("a take that has to go on finds nothing", "ffi/ends", "            calls::NOTHING => return Err(Untaken::Nothing),", "            calls::NOTHING | calls::AGAIN => return Err(Untaken::Nothing),", TEST + "ends_that"),
    ("the end of the row is not told", "ffi/ends", "            calls::CLOSED => return Err(Untaken::Closed),", "            calls::CLOSED => return Err(Untaken::Nothing),", ROW + "what_a_job"),
    ("a latch that is held is held again", "ffi/latch", "        (!was_taken).then(|| Held(self))", "        let _ = was_taken;\n        Some(Held(self))", LATCH),
    ("a try leaves the latch of another", "ffi/latch", "        (!was_taken).then(|| Held(self))", "        (!was_taken).then_some(Held(self))", LATCH),
    ("a tray is freed a slot early", "ffi/tray", "        if left.fetch_sub(slots, Release) == slots {", "        if left.fetch_sub(slots, Release) == slots + 1 {", ROW + "larger_values_come"),
    ("a tray is never freed", "ffi/tray", "        if left.fetch_sub(slots, Release) == slots {", "        if left.fetch_sub(slots, Release) == 0 {", ROW + "what_is_gone"),
    ("a tray has its sender's life", "ffi/tray", "Self::leave(self.head, Self::SLOTS - self.filled)", "Self::leave(self.head, Self::SLOTS)", ROW + "larger_values_outlive"),
    ("the rest of a tray is not given up", "ffi/tray", "        if !self.is_full() {\n            // SAFETY: nobody fills", "        if self.filled > Self::SLOTS {\n            // SAFETY: nobody fills", ROW + "what_is_gone"),
    ("two values have one slot", "ffi/tray", ".cast::<Slot<T>>().add(self.filled)", ".cast::<Slot<T>>().add(self.filled / 2)", ROW + "larger_values_come"),
    ("a slot is emptied for two", "ffi/tray", "            Self::leave(head, 1);\n", "            Self::leave(head, 2);\n", ROW + "larger_values_come"),
    ("a sender is not written down", "channel/store/row", "at.end.send_signed(value, who)", "at.end.send_signed(value, GIVEN_BACK)", JOBS + "accounts_while"),
    ("a sender has the number of another", "ffi/ends", "Word::try_pack((value, who))", "Word::try_pack((value, who & !1))", ROW + "accounts_have"),
    ("a taker is not written down", "channel/store/row", "        book.write(sender, who);\n", "        book.write(sender, 0);\n", JOBS + "accounts_while"),
    ("the book is opened after the take", "channel/store/row", "        let book = ledger.open();\n .. \n        book.write(sender, who);\n", "\n .. \n        std::thread::sleep(std::time::Duration::from_millis(who % 2));\n        ledger.open().write(sender, who);\n", ROW + "an_account_has"),
    ("an account is one too large", "channel/audit", "self.0.fates.len() >= self.0.each", "self.0.fates.len() > self.0.each", JOBS + "accounts_while"),
    ("one account too few is kept", "channel/audit", "self.accounts.len() > self.kept", "self.accounts.len() >= self.kept", JOBS + "the_audit_agrees"),
    ("the last account needs values that are left", "channel/audit", "        let old = book.make_account(left);\n", "        let old = (!left.is_empty()).then(|| book.make_account(left)).flatten();\n", ROW + "the_last_account"),
    ("what is left has no fate", "channel/audit", "            book.add(Fate::new(sender, None));\n", "            let _ = Fate::new(sender, None);\n", JOBS + "accounts_while"),
    ("what came back has a sender", "channel/audit", "(sender != GIVEN_BACK).then_some(sender)", "Some(sender)", ROW + "accounts_have"),
]


def caught(words, room, left):
    """Whether cargo fails, or does not end in `left` seconds."""
    command = ["cargo", *words.split()]
    with subprocess.Popen(command, cwd=room, stdout=subprocess.DEVNULL, stderr=subprocess.DEVNULL, start_new_session=True) as ran:
        try:
            return ran.wait(left) != 0
        except subprocess.TimeoutExpired:
            os.killpg(ran.pid, signal.SIGKILL)
            return True


def tried(body, rooms):
    """Makes one change in a copy of the crate, and runs the test for it. Returns None if that test fails, else what is wrong.

    The change puts the text `wrong` in place of `right` into a file, part by part. If `what` is empty, nothing is changed, and the test has
    to pass.
    """
    what, file, right, wrong, test = body
    room = rooms.get()
    path = f"{room}/src/{file}.rs"
    try:
        if what:
            text = now = read(path)
            for old, new in zip(right.split(CUT), wrong.split(CUT), strict=True):
                if now.count(old) != 1:
                    return "BAD EDIT"
                now = now.replace(old, new)
            write(path, now)
        built = test.replace("test -q", "test -q --no-run", 1)
        if caught(" ".join(built.split()[:5]), room, 300):
            return "BAD EDIT"
        # (the search takes long, but always ends, and so does each test if nothing is wrong)
        left = 20 if what and test != SEARCH else 300
        # (some faults show in some orders of the threads alone)
        found = any(caught(test, room, left) for _ in range(12 if what else 1))
        return None if found == bool(what) else "NOT CAUGHT" if what else "FAILED"
    finally:
        if what:
            write(path, text)
        rooms.put(room)


def read(path):
    with open(path, encoding="utf-8") as opened:
        return opened.read()


def write(path, text):
    with open(path, "w", encoding="utf-8") as opened:
        opened.write(text)


def main():
    os.environ["CARGO_NET_OFFLINE"] = "true"
    # (so builds take less time: each but a room's first has only a few lines that are new)
    os.environ["CARGO_PROFILE_DEV_DEBUG"], os.environ["CARGO_INCREMENTAL"] = "0", "1"
    for it in "CARGO_TARGET_DIR", "CARGO_PROFILE_DEV_CODEGEN_UNITS":
        os.environ.pop(it, None)
    wanted = [it for it in BODIES if not sys.argv[1:] or any(word in it[0] for word in sys.argv[1:])]
    # (first each test without a change, when it has to pass)
    wanted = [("", "", "", "", words) for words in sorted({it[4] for it in wanted})] + wanted
    with tempfile.TemporaryDirectory() as folder, concurrent.futures.ThreadPoolExecutor(AT_A_TIME) as pool:
        rooms = queue.Queue()
        for room in range(AT_A_TIME):
            for it in "Cargo.toml Cargo.lock README.md build.rs src tests examples prebuilt".split():
                whole, copy = f"{CRATE}/{it}", f"{folder}/{room}/{it}"
                os.makedirs(f"{folder}/{room}", exist_ok=True)
                (shutil.copytree if os.path.isdir(whole) else shutil.copy)(whole, copy)
            rooms.put(f"{folder}/{room}")
        failed = 0
        for body, bad in zip(wanted, pool.map(lambda it: tried(it, rooms), wanted)):
            print(f"{body[0] or 'no wrong body'}: {bad or 'as it has to be'} by {body[4].split()[-1]}", flush=True)
            failed += bad is not None
    print(f"{len(wanted) - failed} passed, {failed} failed")
    return failed > 0


if __name__ == "__main__":
    sys.exit(main())
