"""A client of polycalc over a pipe, to be copied into a program; docs/PIPE.md has the protocol.

    calculator = Calculator("polycalc")
    print(calculator.ask("cons a closed 2 : A >= 0, B >= 0, A + B <= 4"), calculator.ask("max a : A + 2*B"))
"""
import re
from subprocess import PIPE, Popen

RUN_BYTES = 1 << 25  # a run takes 2^26 bytes of input: after half of them a new one begins
WINDOW_BYTES = 1 << 14  # a pipe holds so many, so that sending them never waits for the calculator
OPENS_FILE = re.compile(r"[ \t]*read[ \t]+[a-z][a-z0-9_]{0,31}[ \t]+(ine|ext)[ \t]*(#.*)?(\n|$)")
REFUSALS = ("fault ", "overflow ")


class Refused(Exception):
    """The reply to a command is a fault or an overflow, and nothing was changed."""


class Calculator:
    def __init__(self, program="polycalc"):
        self.program, self.process = program, None
        self.start([])

    def ask(self, command):
        """The reply to one command: a line, the file of a `write`, or nothing to a comment."""
        reply, = self.ask_all([command])
        if reply.startswith(REFUSALS):
            raise Refused(f"{reply}: {command}")
        return reply

    def read_file(self, name, form, text):
        """Makes the polyhedron of a file, which ends at its first line with `end` alone."""
        end = re.search(r"^[ \t\r]*end[ \t\r]*$", text, re.MULTILINE)
        if not end:
            raise ValueError("no line ends the file: the calculator would wait for more")
        self.ask(f"read {name} {form}\n{text[:end.start()]}end")

    def ask_all(self, commands):
        """The replies to many commands, which are sent in windows; those to refused ones are among them."""
        if any(bool(OPENS_FILE.match(command)) != ("\n" in command) for command in commands):
            raise ValueError("a command is one line, or a file of read_file")
        count = max(1, WINDOW_BYTES // (max(map(len, commands), default=0) + 1))
        return [reply for at in range(0, len(commands), count) for reply in self.replies(commands[at:at + count])]

    def replies(self, window, again=True):
        """The replies to commands that are sent at once; if the run ends, a new one answers the rest."""
        replies = []
        try:
            if self.room < 0:
                self.room = RUN_BYTES
                self.start(self.saved())
            self.send(window)
            for command in window:
                replies.append(self.reply(command))
                self.accepted += [command] if replies[-1] == "ok" else []
        except (EOFError, BrokenPipeError):
            if not again:
                raise
            self.start(self.accepted)
            replies += self.replies(window[len(replies):], again=False)
        return replies

    def send(self, commands):
        self.room -= self.process.stdin.write("".join(command + "\n" for command in commands).encode())
        self.process.stdin.flush()

    def reply(self, command):
        lines, is_silent, is_file = [], re.fullmatch(r"[ \t\r]*(#.*)?", command), command.lstrip().startswith("write")
        while not is_silent and (not lines or is_file and lines[-1] != "end" and not lines[0].startswith(REFUSALS)):
            line = self.process.stdout.readline().decode()
            if not line.endswith("\n"):
                raise EOFError(f"the run ended with exit code {self.process.wait()} at: {command}")
            lines.append(line[:-1])
        return "\n".join(lines)

    def start(self, accepted):
        """Begins a run with the commands that were accepted in the one before."""
        self.close()
        self.process, self.room, self.accepted = Popen([self.program, "run"], stdin=PIPE, stdout=PIPE), 0, accepted
        for command in accepted:
            self.send([command])
            self.reply(command)
        self.room = RUN_BYTES

    def close(self):
        if self.process:
            self.process.kill()
            self.process.communicate()

    def saved(self):
        """Commands that make the polyhedra anew; if there are names of other kinds, all that were accepted."""
        commands = []
        for name in self.ask("names").split()[2:]:
            size, file, constraints = self.replies([f"size {name}", f"write {name} ine", f"print cons {name}"])
            if size.startswith(REFUSALS):
                return self.accepted
            opened = f"cons {name} nnc {size.split()[1]} : {constraints}"
            commands.append(opened if file.startswith(REFUSALS) else f"read {name} ine\n{file}")
        return commands
