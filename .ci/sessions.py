#!/usr/bin/env python3
"""Runs the program on sessions whose replies are worked out by hand, and compares what it writes and its
status. The program is the file that the one word names, or else the one that the script `cccgd` runs."""
import os
import resource
import select
import subprocess
import sys
import tempfile
import time

TOP = os.path.dirname(os.path.dirname(os.path.abspath(__file__)))
SCRIPT = os.path.join(TOP, "cccgd")
PROGRAM = os.path.abspath(sys.argv[1]) if len(sys.argv) > 1 else SCRIPT
ASK = os.path.join(TOP, "examples", "ask")
TRACE = os.path.join(TOP, "examples", "first.trace")
USAGE = b"usage: cccgd batch, cccgd serve <addr> <workers> <each>, cccgd gen <seed> <size>\n"
NO_TEXT = b"\xff"
NONE_LEFT = b"LEFT 0 0\n"
# How long a reply may take that nothing else is waited for, in seconds.
LIMIT = 20

with open(os.path.join(TOP, "examples", "first.session"), "rb") as example:
    FIRST = example.read()
FIRST_TEXT = FIRST[len(b"PUT 697\n"):][:697]
# The definitions of six events, and with them a type of containers and one of states: 33 and 35 lines.
DEFINITIONS = FIRST_TEXT[:567]
HEAD = FIRST_TEXT[:593]
RANK = '2 0 p0 P 0 "rank 0"\n'
CALL = RANK + "4 0 S p0 main\n5 0.5 S p0\n3 0.5 P p0\n"
# What the first text has behind its head: main runs for half a second, and calls f twice.
FIRST_CALLS = FIRST_TEXT[593:].decode()
# The same one second later, and with the second call of f 16 nanoseconds later still.
LATER_CALLS = '''\
2 1 p0 P 0 "rank 0"
4 1 S p0 main
4 1.1 S p0 f
5 1.2 S p0
4 1.3 S p0 f
5 1.4 S p0
5 1.5 S p0
3 1.5 P p0
'''
SHIFTED_CALLS = LATER_CALLS.replace("1.3 S", "1.300000016 S").replace("1.4 S", "1.400000016 S")
FIRST_REPLIES = (b"OK PUT 1 1 2 0 @3\nOK FLAT 2 1 0 @4\n1 1 500000000 300000000 main\n"
                 b"2 2 200000000 200000000 f\nOK QUIT\nLEFT 1 3\n")


def put_text(text):
    """A PUT of this text."""
    return b"PUT %d\n" % len(text) + text


def put(lines):
    """A PUT of a text with these lines behind its head."""
    return put_text(HEAD + lines.encode())


def calls(count):
    """The lines of a container in which so many calls are open at once."""
    inside = "4 0 S p0 f\n" * count + "5 1 S p0\n" * count
    return '2 0 p0 P 0 "n"\n' + inside + "3 1 P p0\n"


def calls_of_f(begins, ends):
    """The lines of a call of main from 0 to 1 in which f is called from each of these times to each."""
    inside = "".join("4 0.%s S p0 f\n5 0.%s S p0\n" % pair for pair in zip(begins, ends))
    return RANK + "4 0 S p0 main\n" + inside + "5 1 S p0\n3 1 P p0\n"


# p0: main from 0 to 4. p1: main from 1 to 5, in it work from 2 to 3. p2: work from 1 to 2 and from 6 to 8.
THREE_TRACKS = '''\
2 0 p0 P 0 "rank 0"
2 0 p1 P 0 "rank 1"
2 0 p2 P 0 "rank 2"
4 0 S p0 main
4 1 S p1 main
4 1 S p2 work
4 2 S p1 work
5 2 S p2
5 3 S p1
5 4 S p0
5 5 S p1
4 6 S p2 work
5 8 S p2
3 8 P p0
3 8 P p1
3 8 P p2
'''

# main is open to 0.4 in p0 and to 0.5 in p1 and p2; f from 0.1 to 0.3 in p1, and from 0.2 to 0.3 in p2.
THREE_EQUAL_TRACKS = '''\
2 0 p0 P 0 "rank 0"
2 0 p1 P 0 "rank 1"
2 0 p2 P 0 "rank 2"
4 0 S p0 main
4 0 S p1 main
4 0 S p2 main
4 0.1 S p1 f
4 0.2 S p2 f
5 0.3 S p1
5 0.3 S p2
5 0.4 S p0
5 0.5 S p1
5 0.5 S p2
3 0.5 P p0
3 0.5 P p1
3 0.5 P p2
'''

# main runs for half a second, and makes 431 calls of no time. A call has 149 bytes, and the other lines with
# the head have 781.
ALIAS = "p0123456789012345678901234567890"
FUNCTION = "solve012345678901234567890123456"
MANY_CALLS = ('2 0 %s P 0 "rank 0 of the text"\n4 0 S %s main\n' % (ALIAS, ALIAS)
              + "4 {0} S {1} {2}\n5 {0} S {1}\n".format("0000000000.100000000", ALIAS, FUNCTION) * 431
              + "5 0.5 S %s\n3 0.5 P %s\n" % (ALIAS, ALIAS))

# Three messages begin and two end, of the keys k1 and k2.
MESSAGES = '''\
%EventDef PajeDefineLinkType 6
% Alias string
% Type string
% SourceContainerType string
% DestContainerType string
% Name string
%EndEventDef
%EventDef PajeStartLink 7
% Time date
% Type string
% Container string
% Value string
% SourceContainer string
% Key string
% Size int
%EndEventDef
%EventDef PajeEndLink 8
% Time date
% Type string
% Container string
% Value string
% DestContainer string
% Key string
%EndEventDef
0 P 0 Process
6 K P P P Msg
2 0 p0 P 0 a
2 0 p1 P 0 b
7 1 K 0 x p0 k1 100
7 2 K 0 x p0 k1 50
8 1.5 K 0 x p1 k1
7 3 K 0 x p1 k2 7
8 2.5 K 0 x p0 k2
'''

# SetState, ResetState, a second PushState with a field more, and a destruction by the field Container; tabs,
# lines that are skipped, and a carriage return at each line's end. main runs from 0 to 0.2, f to 0.5.
OTHER_FORMS = '''\
# more definitions
%EventDef PajeSetState 8
% Time date
% Type string
% Container string
% Value string
%EndEventDef
\t
%EventDef\tPajeResetState 9
% Time date
% Type string
% Container string
%EndEventDef
%EventDef PajeDestroyContainer 10
% Time date
% Type string
% Container string
%EndEventDef
%EventDef PajePushState 11
% Time date
% Type string
% Container string
% Value string
% Line int
%EndEventDef
2 0 p0 P 0 "rank 0"
8 0\tS\tp0 main
\t# one line more
 8 0.2 S "p0" f  more
11 0.5 S p0 g 12
5 0.5 S p0
9 0.5 S p0
10 1 P p0
'''.replace("\n", "\r\n")

# Lines behind the head of a text, with the first that is refused, and the word of its reason.
REFUSED_LINES = {
    "a leave with no call in the first line": (RANK + "5 0 S p0\n", "37 EmptyPop"),
    "a leave with no call": (CALL.replace("3 0.5", "5 0.5 S p0\n3 0.5"), "39 EmptyPop"),
    "a second container of one alias": (RANK + '4 0 S p0 "my func"\n2 0 p0 P 0 x\n', "38 DoubleAlias"),
    "a 257th open call": (calls(257), "293 Deep"),
    "an open quote": ('2 0 p0 P 0 "a\n', "36 OpenQuote"),
    "no date": (CALL.replace("4 0 S", "4 x S"), "37 DateShape"),
    "a time below 0": (CALL.replace("4 0 S", "4 -1 S"), "37 DateNegative"),
    "a time above 2^62": (CALL.replace("0.5", "4611686018.427387905"), "38 DateBig"),
    "a time that falls": (CALL.replace("3 0.5", "3 0.4"), "39 TimeBack"),
    "destroyed twice": (CALL + "3 0.5 P p0\n", "40 AfterDestroy"),
    "a container that isn't there": (CALL.replace("S p0 main", "S p1 main"), "37 UnknownEntity"),
    "a call of a type of containers": (CALL.replace("S p0 main", "P p0 main"), "37 WrongKind"),
    "an event that isn't defined": (CALL.replace("4 0 S", "9 0 S"), "37 UnknownNumber"),
    "no number of an event": (CALL.replace("4 0 S", "x 0 S"), "37 NoNumber"),
    "a field too few": (CALL.replace("4 0 S p0 main", "4 0 S p0"), "37 TooFew"),
    "no date in a line with a field too few": (CALL.replace("4 0 S p0 main", "4 x S p0"), "37 TooFew"),
    "a refused line behind another": (CALL.replace("4 0", "9 0").replace("5 0.5", "x 0.5"),
                                      "37 UnknownNumber"),
    "a refused last line without its newline": (CALL + "9 1", "40 UnknownNumber"),
    "a number that is defined": ("%EventDef PajePopState 5\n", "36 DoubleNumber"),
    "two lines without dates behind a comment": ("#\n2 x p0 P 0 a\n2 y p1 P 0 b\n", "37 DateShape"),
    "a definition that is left open": ("%EventDef PajeNewEvent 6\n% Time date\n", "38 Unended"),
}

# Whole texts, likewise.
REFUSED_TEXTS = {
    "a line of 65,537 bytes": (b"#" * 65537 + b"\n", b"1 LongLine"),
    "a line of 65,537 bytes with its carriage return": (b"#" * 65536 + b"\r\n", b"1 LongLine"),
    "the byte 255": (b"\xff\n", b"1 NotText"),
    "a definition that isn't ended": (b"%EventDef PajePopState 5\n", b"2 Unended"),
    "an event in a definition": (b"%EventDef PajePopState 5\n5 1 S p0\n", b"2 Unended"),
    "a definition inside another": (b"%EventDef PajePopState 5\n%EventDef PajePopState 6\n", b"2 Nested"),
    "a definition without a number": (b"\n%EventDef PajePopState\n", b"2 Shape"),
    "an event of no known name": (b"#\n \n%EventDef PajePop 5\n", b"3 UnknownName"),
    "a field of no known type": (b"%EventDef PajePopState 5\n% Time hour\n", b"2 UnknownType"),
    "a field that is missing": (b"%EventDef PajePopState 5\n% Time date\n%EndEventDef\n", b"3 MissingField"),
    "two letters": (b"ab", b"1 NoNumber"),
}

# Lines behind the head of a text, of which none is refused, with the numbers of tracks and functions, and of the
# different subtrees that are left.
TAKEN_LINES = {
    "a second space": (CALL.replace("4 0 S", "4  0 S"), b"1 1", 2),
    "a time of 11 digits": (CALL.replace("4 0 S", "4 00000000000 S"), b"1 1", 2),
    "the greatest time": (CALL.replace("0.5", "4611686018.427387904"), b"1 1", 2),
    "a container never destroyed": (CALL.replace("3 0.5 P p0\n", ""), b"1 1", 2),
    "destroyed with an open call": (CALL.replace("5 0.5 S p0\n", ""), b"1 1", 2),
    "a name of 33 letters": (CALL.replace("main", "m" * 33), b"1 1", 2),
    "a name of two words": (CALL.replace("main", '"my func"'), b"1 1", 2),
    "a last line without its newline": (CALL[:-1], b"1 1", 2),
    "256 open calls": (calls(256), b"1 1", 257),
}

# Sessions, each with its replies, and the numbers of traces and of different subtrees that are left. QUIT and its
# reply are added.
SESSIONS = {
    "a line that is no request": (b"LIST\n", b"NO 10\n", b"0 0"),
    "a trace that isn't open": (b"FLAT 7 * 0 1\n", b"NO 30 7 @1\n", b"0 0"),
    "a leading zero, a space too many, an empty line": (b"FLAT 01 * 0 5\nLIST \n\n", b"NO 10\n" * 3, b"0 0"),
    "a line of 4,096 bytes": (b"x" * 4096 + b"\nFLAT 7 * 0 1\n", b"NO 10\nNO 30 7 @1\n", b"0 0"),
    "a line of 4,097 bytes": (b"x" * 4097 + b"\nFLAT 7 * 0 1\n", b"NO 10\nNO 30 7 @1\n", b"0 0"),
    "a line of 1,000,000 bytes": (b"x" * 1000000 + b"\nFLAT 7 * 0 1\n", b"NO 10\nNO 30 7 @1\n", b"0 0"),
    "no text": (b"PUT 0\n", b"OK PUT 1 0 0 0 @2\n", b"1 0"),
    "a length of 2^64": (b"PUT 18446744073709551616\nFLAT 7 * 0 1\n", b"NO 10\nNO 30 7 @1\n", b"0 0"),
    "a text that is too large, of newlines": (b"PUT 67108865\n" + b"\n" * 67108865 + b"FLAT 7 * 0 1\n",
                                              b"NO 21\nNO 30 7 @1\n", b"0 0"),
    "a text at the greatest length": (put_text((b"#" * 65535 + b"\n") * 1024), b"OK PUT 1 0 0 0 @2\n", b"1 0"),
    "a line of 65,536 bytes": (put_text(b"#" * 65536 + b"\n"), b"OK PUT 1 0 0 0 @2\n", b"1 0"),
    "256 calls that stay open": (put(RANK + "4 0 S p0 f\n" * 256) + b"FLAT 1 * 0 1\n",
                                 b"OK PUT 1 1 1 0 @3\nOK FLAT 1 1 0 @4\n1 256 0 0 f\n", b"1 257"),
    "nine calls": (put(calls_of_f(["%d0" % i for i in range(1, 10)], ["%d5" % i for i in range(1, 10)]))
                   + b"FLAT 1 * 0 1000000000\n",
                   b"OK PUT 1 1 2 0 @3\nOK FLAT 2 1 0 @4\n1 1 1000000000 550000000 main\n"
                   b"2 9 450000000 450000000 f\n", b"1 4"),
    "65 calls": (put(calls_of_f(range(10, 75), ["%d5" % i for i in range(10, 75)]))
                 + b"FLAT 1 * 0 1000000000\n",
                 b"OK PUT 1 1 2 0 @3\nOK FLAT 2 1 0 @4\n1 1 1000000000 675000000 main\n"
                 b"2 65 325000000 325000000 f\n", b"1 5"),
    "f in f, with exponents": (put(RANK + "4 0 S p0 f\n4 2e-9 S p0 f\n5 4e-9 S p0\n5 1e-8 S p0\n"
                                   "3 1e-8 P p0\n")
                               + b"FLAT 1 * 0 10\n",
                               b"OK PUT 1 1 1 0 @3\nOK FLAT 1 1 0 @4\n1 2 10 10 f\n", b"1 3"),
    "calls of no time": (put(RANK + "4 1e-8 S p0 g\n5 1e-8 S p0\n4 2e-8 S p0 g\n5 2e-8 S p0\n3 1e-7 P p0\n")
                         + b"FLAT 1 * 10 20\n",
                         b"OK PUT 1 1 1 0 @3\nOK FLAT 1 1 10 @4\n1 1 0 0 g\n", b"1 2"),
    # main is open up to the greatest time, at which p2 is created.
    "containers that aren't destroyed": (put("2 0 p0 P 0 a\n2 0 p1 P 0 b\n4 0 S p0 main\n2 2 p2 P 0 c\n")
                                         + b"FLAT 1 * 0 3000000000\n",
                                         b"OK PUT 1 1 1 0 @3\nOK FLAT 1 1 0 @4\n"
                                         b"1 1 2000000000 2000000000 main\n", b"1 2"),
    "messages": (put_text(DEFINITIONS + MESSAGES.encode()) + b"FLAT 1 * 0 1\n",
                 b"OK PUT 1 0 0 2 @2\nOK FLAT 0 0 0 @3\n", b"1 0"),
    "other forms of lines": (put(OTHER_FORMS) + b"FLAT 1 * 0 1000000000\n",
                             b"OK PUT 1 1 3 0 @3\nOK FLAT 3 1 500000000 @4\n1 1 200000000 200000000 main\n"
                             b"2 1 300000000 300000000 f\n3 1 0 0 g\n", b"1 4"),
    "a PUT behind a refused one": (b"PUT 2\nab" + put(CALL) + put(CALL),
                                   b"NO 20 1 NoNumber\nOK PUT 1 1 1 0 @3\nOK PUT 2 1 1 0 @6\n", b"2 2"),
    "the most traces": (b"PUT 0\n" * 1025 + b"PUT 2\nabFLAT 2 * 0 1\n",
                        b"".join(b"OK PUT %d 0 0 0 @%d\n" % (i, 2 * i) for i in range(1, 1025))
                        + b"NO 36 1024 @2049\nNO 20 1 NoNumber\nOK FLAT 0 0 0 @2050\n", b"1024 0"),
    "the most traces, of texts with definitions": (
        b"PUT 1\nx" + put("") * 1025 + b"FLAT 2 * 0 1\n",
        b"NO 20 1 NoNumber\n" + b"".join(b"OK PUT %d 0 0 0 @%d\n" % (i, 2 * i) for i in range(1, 1025))
        + b"NO 36 1024 @2049\nOK FLAT 0 0 0 @2050\n", b"1024 0"),
    # Equal trees are stored once, whenever their tracks start. Where a gap differs, only f is shared.
    "a trace twice": (put(FIRST_CALLS) * 2, b"OK PUT 1 1 2 0 @3\nOK PUT 2 1 2 0 @6\n", b"2 3"),
    "a trace, and the same one second later": (put(FIRST_CALLS) + put(LATER_CALLS),
                                               b"OK PUT 1 1 2 0 @3\nOK PUT 2 1 2 0 @6\n", b"2 3"),
    "two traces that share f": (put(FIRST_CALLS) + put(SHIFTED_CALLS),
                                b"OK PUT 1 1 2 0 @3\nOK PUT 2 1 2 0 @6\n", b"2 5"),
    # Each has a tree of its own, of the root and main, and in p1 and p2 a call of f.
    "two FLATs over three equal tracks": (put(THREE_EQUAL_TRACKS)
                                          + b"FLAT 1 * 0 500000000\nFLAT 1 * 100000000 200000000\n",
                                          b"OK PUT 1 3 2 0 @5\nOK FLAT 2 3 100000000 @6\n"
                                          b"1 3 1400000000 1100000000 main\n2 2 300000000 300000000 f\n"
                                          b"OK FLAT 2 3 0 @7\n1 0 300000000 200000000 main\n"
                                          b"2 1 100000000 100000000 f\n", b"1 8"),
    # 431 calls are 53 groups of 8 and one of 7. These are 6 groups of 8 groups, and one of 5 and that of 7.
    # So there are the call, four different groups, main, and the root.
    "a text of 65,000 bytes": (b"PUT 65000\n" + HEAD + MANY_CALLS.encode() + b"FLAT 1 * 0 500000000\n",
                               b"OK PUT 1 1 2 0 @3\nOK FLAT 2 1 0 @4\n1 1 500000000 500000000 main\n"
                               b"2 431 0 0 solve012345678901234567890123456\n", b"1 7"),
    # From 1.5 to 7 main is open for 2.5 and 3.5, of which 1 is work's; work for 1, and for 0.5 and 1 in p2.
    "two FLATs over three tracks": (put(THREE_TRACKS)
                                    + b"FLAT 1 * 1500000000 7000000000\nFLAT 1 * 0 1000000000\n",
                                    b"OK PUT 1 3 2 0 @5\nOK FLAT 2 3 9000000000 @6\n"
                                    b"1 0 6000000000 5000000000 main\n2 2 2500000000 2500000000 work\n"
                                    b"OK FLAT 1 3 2000000000 @7\n1 1 1000000000 1000000000 main\n", b"1 7"),
}


# Requests, each with the reply that must come before the next is sent.
EXCHANGES = [
    (b"PUT 2\nab", b"NO 20 1 NoNumber\n"),
    (b"LIST\n", b"NO 10\n"),
    (put(CALL), b"OK PUT 1 1 1 0 @3\n"),
    (b"FLAT 1 * 0 500000000\n", b"OK FLAT 1 1 0 @4\n1 1 500000000 500000000 main\n"),
    (b"FLAT 7 * 0 1\n", b"NO 30 7 @5\n"),
    (b"QUIT\n", b"OK QUIT\nLEFT 1 2\n"),
]


def run(words, text, stdout=subprocess.PIPE, program=PROGRAM, **how):
    """What the program writes for these words and this input, and its status."""
    done = subprocess.run([program] + words, input=text, stdout=stdout, check=False, **how)
    return done.stdout, done.returncode


def sessions():
    """The name of each session, its words, its input, what is written, and the status."""
    yield "the first session", ["batch"], FIRST, FIRST_REPLIES, 0
    for name, (lines, told) in REFUSED_LINES.items():
        told = b"NO 20 %s\nNO 30 1 @1\nOK QUIT\n" % told.encode()
        yield name, ["batch"], put(lines) + b"FLAT 1 * 0 1\nQUIT\n", told + NONE_LEFT, 0
    for name, (text, told) in REFUSED_TEXTS.items():
        yield name, ["batch"], put_text(text) + b"QUIT\n", b"NO 20 %s\nOK QUIT\n" % told + NONE_LEFT, 0
    for name, (lines, counts, nodes) in TAKEN_LINES.items():
        told = b"OK PUT 1 %s 0 @3\nOK QUIT\nLEFT 1 %d\n" % (counts, nodes)
        yield name, ["batch"], put(lines) + b"QUIT\n", told, 0
    for name, (text, replies, left) in SESSIONS.items():
        yield name, ["batch"], text + b"QUIT\n", replies + b"OK QUIT\nLEFT %s\n" % left, 0
        yield name + ", and the end", ["batch"], text, replies + b"LEFT %s\n" % left, 0
    yield "no input", ["batch"], b"", NONE_LEFT, 0
    yield "a line that is cut", ["batch"], b"LIST\nLIS", b"NO 10\n" + NONE_LEFT, 6
    yield "a text that is cut", ["batch"], b"PUT 9\nshort", NONE_LEFT, 6
    yield "a text that is cut behind a whole one", ["batch"], put(CALL) + put(CALL)[:-1], \
        b"OK PUT 1 1 1 0 @3\nLEFT 1 2\n", 6
    for cut in 706, 720, 1400, 1409:
        yield "a second text cut at %d" % cut, ["batch"], (put(FIRST_CALLS) + put(LATER_CALLS))[:cut], \
            b"OK PUT 1 1 2 0 @3\nLEFT 1 3\n", 6
    for end in range(497, 697):
        yield "the first text cut at %d" % end, ["batch"], b"PUT 697\n" + FIRST_TEXT[:end], NONE_LEFT, 6
    for length in b"67108865", b"18446744073709551615":
        yield "a large text that is cut", ["batch"], b"PUT " + length + b"\nQUIT\n", NONE_LEFT, 6
    for words in [], ["batch", "x"], ["serve"], ["Batch"], [NO_TEXT], ["batch", NO_TEXT]:
        yield "the words " + repr(words), words, b"", USAGE, 2


def failing_outputs():
    """A full device, and a pipe that no one reads."""
    yield "a full device", os.open("/dev/full", os.O_WRONLY)
    reader, writer = os.pipe()
    os.close(reader)
    yield "a closed pipe", writer


def failing_inputs():
    """A folder, and a device that is only written to: neither can be read."""
    yield "a folder", os.open(TOP, os.O_RDONLY)
    yield "an input that is only written to", os.open(os.devnull, os.O_WRONLY)


def read_within(pipe, count, limit):
    """The next bytes of the pipe, fewer than that many where it ends or the time is over."""
    got, end = b"", time.monotonic() + limit
    while len(got) < count:
        if not select.select([pipe], [], [], max(0, end - time.monotonic()))[0]:
            break
        more = os.read(pipe.fileno(), count - len(got))
        if not more:
            break
        got += more
    return got


def waits_too_long():
    """Whether a reply doesn't come while the request behind it isn't sent yet, or is another one."""
    pipes = {"stdin": subprocess.PIPE, "stdout": subprocess.PIPE, "bufsize": 0}
    with subprocess.Popen([PROGRAM, "batch"], **pipes) as program:
        try:
            for request, reply in EXCHANGES:
                program.stdin.write(request)
                if read_within(program.stdout, len(reply), LIMIT) != reply:
                    return True
            return read_within(program.stdout, 1, LIMIT) != b"" or program.wait(LIMIT) != 0
        except (OSError, subprocess.TimeoutExpired):
            return True
        finally:
            program.kill()


def starved(limit):
    """What the program writes of the first session with so much memory, its status, and how much it read."""
    with tempfile.TemporaryFile() as given:
        given.write(FIRST)
        given.seek(0)
        done = subprocess.run([PROGRAM, "batch"], stdin=given, capture_output=True, check=False,
                              preexec_fn=lambda: resource.setrlimit(resource.RLIMIT_DATA, (limit, limit)))
        return done.stdout, done.returncode, os.lseek(given.fileno(), 0, os.SEEK_CUR)


def begins_without_memory():
    """Whether want of memory to begin isn't answered by 5 alone, with nothing read or written."""
    ends = [starved(limit) for limit in range(64 << 10, 512 << 10, 8 << 10)]
    # With the least memory the system doesn't start the program, and with the most it ends well.
    ends = [ended for ended in ends if ended[1] not in (0, 127, -11)]
    return not ends or any(ended != (b"", 5, 0) for ended in ends)


def scripts():
    """The scripts and their words, run through links too and in another folder, with whether all is well."""
    quiet = {"stderr": subprocess.STDOUT} if PROGRAM != SCRIPT else {}
    with tempfile.TemporaryDirectory() as folder:
        for script in SCRIPT, ASK:
            os.symlink(script, os.path.join(folder, os.path.basename(script)))
        linked = [os.path.join(folder, name) for name in ("cccgd", "ask")]
        for script in SCRIPT, linked[0]:
            ran = run(["batch"], FIRST, program=script, cwd=folder, **quiet)
            yield script, ran == (FIRST_REPLIES, 0)
        for script in ASK, linked[1]:
            ran = run([TRACE, "FLAT 1 * 0 500000000"], b"", program=script, cwd=folder, **quiet)
            yield script, ran == (FIRST_REPLIES, 0)
            for words in [], [TRACE], ["no-such-file", "QUIT"]:
                done = subprocess.run([script, *words], cwd=folder, capture_output=True, check=False)
                told = (done.stdout, done.stderr[:17], done.stderr.count(b"\n"), done.returncode)
                yield script + repr(words), told == (b"", b"usage: ask FILE R", 1, 2)


def results():
    """The names of the sessions, with whether each failed."""
    for name, words, text, replies, status in sessions():
        yield name, run(words, text) != (replies, status)
    for name, output in failing_outputs():
        for words in ["batch"], [], ["batch", "x"], ["serve"], ["Batch"]:
            yield name + " for the words " + repr(words), run(words, b"QUIT\n", output)[1] != 3
        os.close(output)
    for name, descriptor in failing_inputs():
        done = subprocess.run([PROGRAM, "batch"], stdin=descriptor, stdout=subprocess.PIPE, check=False)
        yield name, (done.stdout, done.returncode) != (NONE_LEFT, 3)
        os.close(descriptor)
    yield "a reply is written before more is read", waits_too_long()
    if PROGRAM != SCRIPT:
        yield "no memory to begin", begins_without_memory()
    for name, is_well in scripts():
        yield name, not is_well


def main():
    ended = list(results())
    failed = [name for name, has_failed in ended if has_failed]
    for name in failed:
        print("session failed:", name)
    print("%d passed, %d failed" % (len(ended) - len(failed), len(failed)))
    return 1 if failed else 0


sys.exit(main())
