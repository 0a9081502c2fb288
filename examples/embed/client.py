"""Does what client.c does, in Python: checks two sources, edits one and checks again over the first session, and audits both sessions.
At the top of the repository:

    cc -shared -o libmjrg.so -Wl,--whole-archive dist/libmjrg.a -Wl,--no-whole-archive
    python3 examples/embed/client.py
"""
import sys

import mjrg

SOURCES = {
    b"Main.java": b"""class Main {
    public static void main(String[] a) {
        System.out.println(new Counter().next(true));
    }
}
""",
    b"Counter.java": b"""class Counter {
    public int next(int last) { return last + 1; }
}
""",
}
EDITED = b"""class Counter {
    public int next(boolean again) { return 1; }
}
"""


def main():
    library, chain, sources = mjrg.Library(), [], dict(SOURCES)
    for edit in ({}, {b"Counter.java": EDITED}):
        sources |= edit
        check = library.check(sources, chain[-1:])
        print(check.err.decode(), end="")
        if check.status > mjrg.DIAGNOSTICS:
            return check.status
        chain.append(check.session)
    audit = library.audit(chain, sources)
    print(audit.err.decode() + audit.out.decode(), end="")
    return check.status if audit.status == mjrg.CLEAN else audit.status


if __name__ == "__main__":
    sys.exit(main())
