"""What the definitions say of texts, run by `.ci/antt.py`, for the scripts beside this file: which fault a text has, and what a script may
print: of one thread by `Meaning.antt`, of several by `Together.antt`, `OneRow.antt` and `.ci/schedules.py`, and by `Apart.antt`."""

from functools import cached_property

from antt import Definitions
from schedules import DOING, TEXT, TOGETHER, TURNS, Schedules, in_turns, rows_of

WORLD, SWEEPS, MEANING, ONE_ROW = "jr_world.specs.World", "jr_scripts.specs.Sweeps", "jr_scripts.specs.Meaning", "jr_scripts.specs.OneRow"
APART = "jr_scripts.specs.Apart"
# The files of what scripts mean, of which each equation is to be come to.
READ = (WORLD, DOING, SWEEPS, TOGETHER, MEANING, ONE_ROW, APART)
CALLS = "jr_model.specs.CallPrograms"
# What no script comes to: a frame always stands, and so do a thread's role, its part, a reference that was just made, and each object that
# a reference, an element or a level names; a `drop` of any kind takes the steps of a local one; here no call is made so often that it is E20; and
# that a thread finds the gate closed is a race.
UNUSED = {
    "newest_frame []", "all_but_last []", "put_last [] n", "contents_in None", "elements_of None", "owner_if t None", "of_others f t []",
    "ending_steps ( deletes k p ) known o", "tried_in_steps zero call", "thread_of line [] t", "inside work ( Err e )",
}  # fmt: skip
# Definitions whose list is asked for its elements alone, and those that each line asks again of all lines before it.
AS_SETS, KEPT = ("reached_by",), ("verb_of", "is_thread_line", "second_word", "posted_by")
# Kept scripts of several threads whose commands stand in no row: two threads take steps beside each other, or a collection comes beside a
# thread's end.
IN_NO_ROW = {
    "examples/threads", "scripts/references/what_another_thread_names_in_each_command", "scripts/regions/sixty_three_regions_stand",
    "scripts/rows/a_collection_is_refused_beside_an_end", "scripts/rows/what_a_third_thread_does_not_hear", "scripts/threads/a_shared_reference",
    "scripts/threads/regions_at_once", "scripts/threads/sixty_four_threads_in_a_circle", "scripts/threads/two_regions_at_one_array",
    "scripts/threads/words_beside",
}  # fmt: skip
# Those whose threads share nothing.
SHARE_NOTHING = {"examples/threads", "scripts/threads/a_thread_without_commands"}
# What tells in a text that no memory was found for a copy, or that a wait was in vain.
DISTURBED = (("Memory",), ("Turns",))
# Scripts of so many threads run by all schedules, where these come to no more states.
MOST_THREADS, MOST_STATES = 3, 2_000


class Meant:
    """What the definitions say of texts."""

    def __init__(self, texts=None):
        """Takes texts in the place of files of definitions, by their modules."""
        self.definitions, self.noting = Definitions(texts, AS_SETS, KEPT), Definitions(texts, AS_SETS, KEPT)
        self.by_all, self.ordered, self.apart = [], [], []

    @cached_property
    def schedules(self):
        """Returns the schedules of scripts of several threads."""
        return Schedules(self.noting)

    def run(self, file, name, *arguments):
        """Returns what a definition of jr_syntax is of these arguments."""
        return self.definitions.run(f"jr_syntax.specs.{file}", name, *arguments)

    def fault(self, text):
        """Returns what is told of the first fault of a text: nothing for a script."""
        found = self.run("Faults", "first_fault", tuple(text))
        return b"script fault at line %d: %s\n" % (found[1][0], bytes(self.run("Faults", "reason_text", found[1][1]))) if found[0] == "Some" else b""

    def script(self, text):
        """Returns the script that a text is."""
        sizes, *lines = [self.run("Line", "words_of", tuple(it)) for it in text.split(b"\n")[:-1]]
        parts = []
        for words in lines:
            if bytes(words[0]) == b"thread":
                parts.append({"name": words[1], "commands": ()})
            else:
                parts[-1]["commands"] += (self.run("Command", "line_command", words)[1],)
        return {"config": self.run("Script", "config_at", sizes), "threads": tuple(parts)}

    def is_spelled(self, text):
        """Returns whether a text is the one of the script that it is, whose parts are as they must be."""
        script = self.script(text)
        return bytes(self.run("Script", "text_of", script)) == text and all(self.run("Script", "is_part", it) for it in script["threads"])

    def printed(self, text, memory=()):
        """Returns what a script prints: of one thread where its copies find memory so, and always once that list is at its end; of several in one order."""
        script = self.script(text)
        if len(script["threads"]) > 1:
            return self.schedules.text_in_order(script)
        return bytes(self.definitions.run(MEANING, "text_of_part", memory, TURNS, script["config"], script["threads"][0]))

    def texts(self, text, is_hasty=True):
        """Returns what a script of several threads may print: by all schedules where these are few, and else in one order."""
        script = self.script(text)
        found = self.schedules.texts(script, MOST_STATES, is_hasty) if len(script["threads"]) <= MOST_THREADS else None
        self.by_all.append(len(found or ()))
        return found or {self.schedules.text_in_order(script)}

    def is_disturbed(self, printed):
        """Returns whether a text says that a copy found no memory, or that a wait was in vain."""
        return any(bytes(self.definitions.run(TEXT, "refused", 0, it)[1:]) in printed for it in DISTURBED)

    def is_ordered(self, script, row):
        """Returns whether a row of the commands of a script is ordered."""
        return self.definitions.run(ONE_ROW, "is_ordered", len(script["threads"]), self.definitions.run(ONE_ROW, "no_news"), row)

    def in_rows(self, text):
        """Returns what a script of several threads prints by ordered rows of its commands: nothing where none that is tried is ordered."""
        script = self.script(text)
        rows = [it for it in rows_of(script) if self.is_ordered(script, it)]
        self.ordered.append(bool(rows))
        return {bytes(self.definitions.run(ONE_ROW, "text_of_row", TURNS, script, it)) for it in rows}

    def alone(self, text):
        """Returns what the threads of a script of several print each alone, as a set: nothing where they share something."""
        script = self.script(text)
        self.apart.append(self.definitions.run(APART, "SharesNothing", script))
        return {bytes(self.definitions.run(APART, "text_alone", TURNS, script))} if self.apart[-1] else set()

    def in_turns(self, text, draw):
        """Returns the text of a script whose commands stand in one row: those of this one, with posts and waits between."""
        return bytes(self.run("Script", "text_of", in_turns(self.script(text), draw)))

    def printed_without(self, text):
        """Returns what a script of one thread may print where one of its copies finds no memory."""
        copies = text.count(b"\nelems ") + text.count(b"\nchars ")
        return {self.printed(text, (True,) * it + (False,)) for it in range(copies)}

    def answers(self, text, is_by_all, is_hasty=True):
        """Returns the fault of a text, or else what it may print, by all schedules or in one order, or that it is not spelled so."""
        fault = self.fault(text)
        if fault or not self.is_spelled(text):
            return {fault or b"spelled otherwise"}
        return self.texts(text, is_hasty) if is_by_all and text.count(b"\nthread ") > 1 else {self.printed(text)}

    def unused(self):
        """Returns the equations of what scripts mean that no text has come to, and that some text can come to."""
        both = (self.definitions, self.noting)
        return [f"{file}: {it}" for file in READ for it in dict.fromkeys(sum((of.unused(file) for of in both), [])) if it not in UNUSED and not any(it in of.come_to(file) for of in both)]
