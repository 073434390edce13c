"""Readings that differ in every kind of field, and files that are no readings."""

from pathlib import Path

from common import Ran, edited, full_text
from workbench import comparing, reading
from workbench.trouble import Trouble

# Edits of the full reading, what is said of it, and the request that shows it.
DIFFERENCES = [
    ([("QM,117,65,400,118", "QM,117,65,500,118")], "cell 117: 65 time delay of 400 ms, then 118, against 500 ms", "QM,117"),
    ([("QM,117,65,400,118", "QM,117,65,400,000")], "cell 117: 65 time delay of 400 ms, then 118, against then the end", "QM,117"),
    ([("QM,100,61,7,117", "QM,100,69")], "cell 100: 61 opening loop of 7, then 117, against 69 interrupted program recovery", "QM,100"),
    ([("QM,105,00,000", "QM,105,60,000")], "cell 105: 00 null, then the end, against 60 absolute position counter reset, then the end", "QM,105"),
    ([("105,00,000", "105,05,10,20,-,33,x4,000")], "05 delayed stop at 10000 Hz, ramp 20, direction -, 33 steps after its stop, x4", "QM,105"),
    ([("01,10,20,+300,x1", "01,10,21,+300,x4")], "01 indexed run with ramp at 10000 Hz, ramp 20, +300 steps, x1, then the end, "
        "against ramp 21, x4", "QM,120"),
    ([("105,00,000", "105,22,4571,+,x1,000")], "against 22 high resolution free run without ramp at 4571 Hz, direction +, x1, then the end", "QM,105"),
    ([("105,00,000", "105,03,10,20,+,05,100")], "03 zero search procedure at 10000 Hz, ramp 20, direction +, back at 500 Hz, then 100", "QM,105"),
    ([("QM,105,00,000", "QM,105,63,F2,1,120,000")], "against 63 conditional jump to 120, if F2 is 1, then the end", "QM,105"),
    ([("QM,105,00,000", "QM,105,57,1,-5,000")], "against 57 electronic cam setting of the cam at -5, then the end", "QM,105"),
    ([("QM,105,00,000", "QM,105,58,FC,1,000")], "against 58 hardware output setting FC, to 1, then the end", "QM,105"),
    ([("QS,IN,2", "QS,IN,0")], "preset IN, drive current: 2 against 0", "QS,IN"),
    ([("QS,RS,B3", "QS,RS,D0")], "preset RS, operation mode: B3 against D0", "QS,RS"),
    ([("QS,ES,1", "QS,ES,0")], "preset ES, ES priority: 1 against 0", "QS,ES"),
    ([("QS,CM,0", "QS,CM,1")], "preset CM, coordinates operation mode: 0 (relative) against 1 (absolute)", "QS,CM"),
    ([("QA,-77", "QA,+2147483647")], "position: -77 against +2147483647", "QA"),
    ([("QO,O0,0", "QO,O0,1")], "output O0: off against on", "QO,O0"),
    ([("QO,CU,1", "QO,CU,0")], "output CU: on against off", "QO,CU"),
    ([("QI,ST,0", "QI,ST,1")], "input ST: off against on", "QI,ST"),
    ([("QI,PX,1", "QI,PX,0"), ("QI,EE,0", "QI,EE,1")], "input PX: on against off\n  input EE: off against on", "QI,PX"),
    ([("QC,1,+1234567", "QC,0")], "cam: set at +1234567 against not set", "QC"),
    ([("QE,52,103", "QE,00,000")], "error: 52 at cell 103 (the loop is not open) against none", "QE"),
    ([("QE,52,103", "QE,50,117"), ("QR,117,+350,7", "QR,000")], "against 50 at cell 117 (too far away)\n"
        "  interrupted program: cell 117, rest +350 ms, loop count 7 against none", "QE"),
    ([("+350,7", "+400,65535")], "interrupted program: cell 117, rest +350 ms, loop count 7 against cell 117, rest +400 ms, loop count 65535", "QR"),
    ([("QR,117,+350,7", "QR,120,-8388607,0")], "against cell 120, rest -8388607 steps, loop count 0", "QR"),
]  # fmt: skip


def compared(a, b):
    """Status and text of a comparison, made within this process."""
    status, lines = comparing.compared(reading.kept(a), reading.kept(b))
    return status, "".join(f"{line}\n" for line in lines)


def different(case, folder):
    edits, expected, request = case
    a, b = folder.file("a", full_text()), folder.file("b", edited(full_text(), *edits))
    status, text = compared(a, b)
    answers = [next(line for line in Path(path).read_text().splitlines() if line.startswith(f"07{request},")) for path in (a, b)]
    shown = f"shown by one call, the string 07{request}, run on both:\n  {a}: {answers[0]}\n  {b}: {answers[1]}\n"
    if status != 1 or expected not in text or not text.endswith(shown):
        yield f"status {status}, {text!r} for {expected!r} and {shown!r}"


def alike(folder):
    """Equal readings, whatever comments stand around them; and drives of different addresses, of which one is silent."""
    a = folder.file("a", full_text())
    b = folder.file("b", "# another note\r\n\r\n" + full_text().replace("\n", "\r\n") + "# the end\r\n")
    yield from Ran("compare", a, b).faults(0, "alike: no list of calls tells them apart\n")
    c = folder.file("c", edited(full_text(), ("\n07", "\n08"), ("QS,AD,7", "QS,AD,8")))
    shown = f"shown by one call, the string 07QA, run on both:\n  {a}: 07QA,-77\n  {c}: no answer\n"
    yield from Ran("compare", a, c).faults(1, f"different: {a} against {c}\n  address: 07 against 08\n{shown}")


# Damaged files: edits, and what is said of the first wrong line. The first line is a comment, so the answer to request n is line n + 1.
DAMAGED = [
    ([("07QM,101,70,1,000\n", "")], ":3: '07QM,102,00,000' is no answer to 07QM,101"),
    ([("07QR,117,+350,7\n", "")], ": ends after 164 of 165 answers, and that to 07QR is missing"),
    ([("07QR,117,+350,7\n", "07QR,117,+350,7\n07QR,117,+350,7\n")], ":167: more than the 165 answers"),
    ([("07QM,117", "08QM,117")], ":19: '08QM,117,65,400,118' is no answer to 07QM,117"),
    ([("QM,117,65,400,118", "QM,117,65,400 118")], ":19: "),
    ([("QM,117,65,400,118", "QM,117,65,\x07")], ":19: '07QM,117,65,\\x07' is no answer"),
    ([("QM,117,65,400,118", "QM,117,65," + "4" * 70)], ":19: "),
    ([("QM,117,65,400,118", "QM,117,65,8388608,118")], ":19: no drive gives 07QM,117,65,8388608,118 beside the other answers"),
    ([("QM,117,65,400,118", "QM,117,65,0400,118")], ":19: no drive"),
    ([("QM,130,00,000", "QM,130,21,2200,+7,x1,000")], ":32: no drive gives 07QM,130,21,2200,+7,x1,000 beside the other answers: "
        "one that was given the calls for it answers 07QM,130,21,2181,+7,x1,000"),
    ([("QM,130,00,000", "QM,130,57,0,+7,000")], ":32: no drive"),
    ([("QS,AD,7", "QS,AD,8")], ":133: no drive"),
    ([("QS,IN,2", "QS,IN,4")], ":134: no drive"),
    ([("QS,RS,B3", "QS,RS,C3")], ":135: '07QS,RS,C3' is no answer"),
    ([("QA,-77", "QA,77")], ":138: '07QA,77' is no answer"),
    ([("QA,-77", "QA,+2147483648")], ":138: no drive"),
    ([("QA,-77", "QA,-077")], ":138: no drive"),
    ([("QO,CU,1", "QO,CU,2")], ":152: "),
    ([("QC,1,+1234567", "QC,1,+2147483648")], ":164: no drive"),
    ([("QC,1,+1234567", "QC,0,+0")], ":164: '07QC,0,+0' is no answer"),
    ([("QE,52,103", "QE,49,103")], ":165: no drive"),
    ([("QE,52,103", "QE,52,000")], ":165: no drive"),
    ([("QE,52,103", "QE,00,103")], ":165: no drive"),
    ([("QE,52,103", "QE,52,117")], ":165: no drive"),
    ([("QR,117,+350,7", "QR,117,+401,7")], ":166: no drive"),
    ([("QR,117,+350,7", "QR,117,-1,7")], ":166: no drive"),
    ([("QR,117,+350,7", "QR,117,+350,65536")], ":166: no drive"),
    ([("QR,117,+350,7", "QR,118,+350,7")], ":166: no drive"),
    ([("QR,117,+350,7", "QR,231,+0,7")], ":166: no drive"),
    ([("QR,117,+350,7", "QR,120,+8388608,7")], ":166: no drive"),
    ([("QM,117,65,400,118", "QM,117,69"), ("QR,117,+350,7", "QR,117,+0,7")], ":166: no drive"),
    ([("+300,x1,000", "+9999999999,x4,000"), ("QR,117,+350,7", "QR,120,+33000000,7")], ":22: no drive"),
]  # fmt: skip


def damaged(case, folder):
    edits, expected = case
    path = folder.file("damaged", edited(full_text(), *edits))
    try:
        compared(path, path)
        yield f"{edits} was taken"
    except Trouble as trouble:
        if not str(trouble).startswith(f"{path}{expected}"):
            yield f"{edits}: {trouble}"


# Other files, by a name for each.
NO_READINGS = [
    ("empty", ""), ("comments", "# one\n# two\n"), ("text", "hello\n"), ("zeros", "\0" * 100), ("huge", "07QM,100,00,000\n" * 9000),
    ("address 99", full_text().replace("\n07", "\n99")), ("half", full_text()[:2000]),
]  # fmt: skip


def no_reading(case, folder):
    """It is refused; by compare with 2, as diff(1) does."""
    name, text = case
    path = folder.file(name, text)
    yield from Ran("compare", folder.file("good", full_text()), path).faults(2, "", f"{path}:")
    yield from Ran("calls", path).faults(1, "", f"{path}:")


def half_refused(folder):
    """By every word that reads one."""
    good, half = folder.file("good", full_text()), folder.file("half", full_text()[:2000])
    yield from Ran("compare", half, good).faults(2, "", f"{half}:")
    yield from Ran("program", half).faults(1, "", f"{half}:")


def missing(folder):
    path, good = folder.file("none"), folder.file("good", full_text())
    yield from Ran("compare", good, path).faults(2, "", "No such file or directory; name a full reading that can be read")
    yield from Ran("compare", good, folder.path).faults(2, "", "Is a directory")
    yield from Ran("calls", path).faults(1, "", "No such file or directory")


CASES = [alike, half_refused, missing]
