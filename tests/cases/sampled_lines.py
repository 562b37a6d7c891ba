"""Lines of JSON that `tests/reference/` answers, on some of the inputs of json_lines.py and of scripts in tests/faults/."""

import json
import random

import boots
import damaged
import events
import growing
import json_lines
import known
import reference
from line_kinds import lines_in

LISTED_ENTRIES = 100
RANDOM_LOGS, EVENTS_OF_A_LOG, RANDOM_BOOTS, DAMAGES_OF_A_KIND, TRIALS_OF_A_KIND, RANDOM_LISTS = 4, 40, 30, 6, 4, 40


class Answers(growing.Room):
    """A folder with files, in which the reference answers. What it answers as JSON is kept, each with the arguments."""

    def __init__(self, folder):
        super().__init__(None, folder)
        self.told, self.unanswered = [], []

    def ask(self, *words):
        """Keeps an answer."""
        words = [words[0], "--json", *(word for word in words[1:] if word != "--json")]
        title = " ".join(words)
        try:
            lines = lines_in(reference.answer(words, self.folder)[1])
        except reference.LacksCryptography:
            self.unanswered.append(title)
        else:
            self.told.append((title, words, [json.loads(line) for line in lines]))

    def answer(self, *words, command=("verify",)):
        """Keeps an answer, and gives that without `--json` where it is not asked for."""
        before = self.saved()
        self.ask(*command, *words)
        self.restore(before)
        return reference.answer([*command, *words], self.folder)


def ask_of_json_lines(room):
    """The commands of json_lines.py, with a shorter list."""
    json_lines.ENTRIES = LISTED_ENTRIES
    for words in json_lines.commands(room.folder):
        room.ask(*words)


def ask_of_events(room):
    """Events and boots that are made at random, by expected PCRs or a quote."""
    for seed in range(RANDOM_LOGS):
        chance = random.Random(seed)
        log = events.random_log(chance, EVENTS_OF_A_LOG)
        for words in events.events_by(events.put(room.folder, chance, log, log)):
            if "--json" in words:
                room.ask(*words)
    for seed in range(RANDOM_BOOTS):
        chance = random.Random(seed)
        log, earlier = events.random_boots(chance, events.EVENTS_OF_A_BOOT)
        for words in events.boots_by(events.put(room.folder, chance, log, earlier, 0.9)):
            if "--json" in words:
                room.ask(*words)


def ask_of_damaged(room):
    """Damaged logs, lists, messages of quotes and keys, and boots that are changed at random."""
    sample = ["attest", "--nonce", damaged.NONCE.hex(), "--require", "sha256:0-10"]
    commands = {
        "registers after the log": [["registers", "input"], ["events", "input"]],
        "verdict on the log and the first entry": [["verify", "input", "first", "tenth"]],
        "entries of the list": [["show", "input"], ["replay", "input"]],
        "verdict on the log and the list": [["verify", "log", "input", "tenth"], ["locate", "log", "input", "tenth"]],
        "verdict by a quote": [[*sample, "log", "list", "input"]],
        "key of RSA": [["key", "input"]],
        "key of a curve": [["key", "input"]],
        "endorsement key": [["key", "--endorsement", "input"]],
    }
    chance = random.Random(1)
    room.put(log=damaged.LOG, list=damaged.LIST, first=damaged.FIRST_ENTRY, tenth=damaged.TENTH)
    for kind, (data, _, inputs_with, _) in damaged.KINDS.items():
        for places_in, changed in damaged.DAMAGES.values():
            for place in chance.sample(places_in(data), DAMAGES_OF_A_KIND):
                if damaged.is_signed(kind):
                    ask_by_key(room, *inputs_with(changed(data, place)))
                    continue
                room.put(input=changed(data, place))
                for words in commands[kind]:
                    room.ask(*words)
    for _ in range(RANDOM_BOOTS):
        log, listed, message = boots.random_boot(chance)
        room.put(log=log, list=listed, quote=message)
        room.ask("attest", *growing.QUOTED, *chance.choice(([], ["--prefix"])), "log", "list", "quote")


def ask_by_key(room, log, listed, message, key, signature, nonce, require):
    """A log and a list, judged by a message with a key and a signature."""
    room.put(log=log, list=listed, quote=message, key=key, signature=signature)
    room.ask("attest", "--key", "key", "--signature", "signature", "--nonce", nonce.hex(), "--require", require.decode(), "log", "list", "quote")


def ask_of_growing(room):
    """Lists in parts, damaged checkpoints, and boots with expected PCRs by a quote."""
    chance = random.Random(1)
    for _, trials in growing.trials():
        for trial, *given in chance.sample(trials, min(TRIALS_OF_A_KIND, len(trials))):
            trial(room, *given)


def ask_of_known(room):
    """Lists with known files."""
    for seed in range(RANDOM_LISTS):
        for _ in known.judged(room, seed):
            pass


SOURCES = {"json_lines.py": ask_of_json_lines, "events.py": ask_of_events, "damaged.py": ask_of_damaged, "growing.py": ask_of_growing,
           "known.py": ask_of_known}
