"""A server that keeps a project in memory and says what is wrong with it, as a language server does, over mjrg.py beside it. At the top
of the repository:

    cc -shared -o libmjrg.so -Wl,--whole-archive dist/libmjrg.a -Wl,--no-whole-archive
    python3 examples/embed/server.py

Each request is a line on standard input:

    set NAME LENGTH    the file NAME has the LENGTH bytes that follow this line; a new file comes behind the others (LENGTH has at
                       most eight digits)
    remove NAME        there is no file NAME any more
    check              asks for a line on each diagnostic, with its sentence and its source line, and one on the session
    audit              asks whether the chain of the sessions is accepted and the last one is of these files, and for its answer
    quit               ends the server, as the end of the input does

Each is answered on standard output, by a line `STATUS LENGTH` and LENGTH bytes. The status is that of `mjrg`. It is 2 if the request
isn't one of these or can't be met, and then the bytes say why.
"""
import sys

import mjrg

# All sessions of a chain are kept for `audit`. Behind so many a new chain begins.
MOST_SESSIONS = 100


class Server:
    def __init__(self):
        self.library, self.sources, self.chain = mjrg.Library(), {}, []

    def answer(self, line, requests):
        """The status and the bytes that answer this line, of whose bytes the rest stands in the requests."""
        verb, _, rest = line.rstrip(b"\n").partition(b" ")
        name, _, length = rest.rpartition(b" ")
        if verb == b"set" and length.isdigit() and len(length) <= 8:
            self.sources[name] = requests.read(int(length))
        elif verb == b"remove" and rest in self.sources:
            del self.sources[rest]
        elif verb == b"remove":
            return mjrg.REFUSED, b"refused: no such file\n"
        elif line == b"check\n":
            return self.check()
        elif line == b"audit\n":
            audit = self.library.audit(self.chain, self.sources)
            return audit.status, audit.err + audit.out
        else:
            return mjrg.REFUSED, b"refused: no such request\n"
        return mjrg.CLEAN, b""

    def check(self):
        """Checks the sources over the last session, and keeps the next one."""
        if len(self.chain) == MOST_SESSIONS:
            self.chain.clear()
        check = self.library.check(self.sources, self.chain[-1:])
        if check.status <= mjrg.DIAGNOSTICS:
            self.chain.append(check.session)
        return check.status, check.err


def main():
    server, requests, answers = Server(), sys.stdin.buffer, sys.stdout.buffer
    for line in requests:
        if line == b"quit\n":
            break
        status, text = server.answer(line, requests)
        answers.write(b"%d %d\n%s" % (status, len(text), text))
        answers.flush()


if __name__ == "__main__":
    main()
