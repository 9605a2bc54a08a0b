"""What `explain` says of an input."""
from .rows import readable
from .rules import Rule


def refusal_text(broken):
    """Why an input is refused, and what stands there."""
    lines = ["bad,%d,%d: %s" % (*broken.answer, _what(broken.answer))]
    lines.append("%s%s." % (_where(broken), broken.why))
    if broken.row:
        lines += _shown(broken.row)
    return "".join(line + "\n" for line in lines)


def accepted_text(doubts):
    """That an input is accepted, and what is hardly meant in it."""
    lines = ["accepted"]
    lines += ["warning: %s%s" % ("line %d: " % doubt.line if doubt.line else "", doubt.why) for doubt in doubts]
    return "".join(line + "\n" for line in lines)


def contradiction_text(answer, broken):
    """That the program and this tool don't agree."""
    program = "bad,%d,%d: %s" % (*answer, _what(answer)) if answer else "accepted"
    tool = "%s%s, rule %d (%s)" % (_where(broken), broken.why, broken.rule, broken.rule.name) if broken else "no rule broken"
    return "%s\nThis tool can't explain that: it finds %s. The program's answer counts; one of the two has an error.\n" % (program, tool)


def _what(answer):
    row, rule = answer
    name = Rule(rule).name if rule in list(Rule) else "which is none"
    return "%s by rule %d, %s" % ("the settings are refused" if row == 0 else "row %d is refused" % row, rule, name)


def _where(broken):
    if broken.row is None:
        return ""
    row = broken.row
    lines = "line %d" % row.line if row.line == row.last_line else "lines %d to %d" % (row.line, row.last_line)
    return "%s, row %d%s: " % (lines, row.number, ", field %d" % broken.field if broken.field else "")


def _shown(row):
    """The row as it stands, cut where it is long."""
    text = readable(",".join(row.fields))
    return ["    " + (text if len(text) <= 120 else text[:120] + " ..")]
