"""Faulty inputs, each with the line that the program writes for it and a phrase of the reason that must be told.

`python3 tools/tests/faults.py FOLDER` writes them as files with the program's words and answers, so that the program
can be tried on each.
"""

import pathlib
import sys
from dataclasses import dataclass


@dataclass(frozen=True)
class Fault:
    """A faulty input: the program's words, the text, the line that it writes, and what the reason must say."""

    name: str
    words: str
    text: str
    line: str
    hint: str


FIRST = "beam script 1\nmodule m.1\nexport main/0\nadd 1 2 $0\nprint $0\nend\nloader\nload m.1\nspawn m:main()\ngo\n"
HEAD = "beam report 1\ngenerations 1\n"
ENTRIES = "entry L0 load m.1 = ok @1\nentry L0 spawn m:main() = ok -\n"
PROCESS = "process 0 m:main()\nspan 1 1\nprint 3\nend normal\n"
LIST_63 = "[1" + ",1" * 63 + "]"
SEVENTEEN = "".join(f"local f/{arity}\n" for arity in range(16)) + "local g/0\n"
MANY_CALLS = "".join(
    f"module m{number}.1\nlocal f/0\n" + "".join(f"call_ext n:f{number}/{arity} $0\n" for arity in range(16)) + "end\n"
    for number in range(64)
)
MANY_NAMES = "".join(f"module n{number}.1\nend\n" for number in range(4093))


def script(name: str, lines: str, line: str, hint: str) -> Fault:
    """A script with these lines behind its head, and `go`."""
    return Fault(name, "run", f"beam script 1\n{lines}\ngo\n", line, hint)


def code(name: str, text: str, hint: str, line: str = "refused 4 syntax") -> Fault:
    """A script whose fourth line stands in a function."""
    return script(name, f"module m.1\nexport main/0\n{text}\nend", line, hint)


def command(name: str, text: str, hint: str, line: str = "refused 3 syntax") -> Fault:
    """A script whose third line is a command."""
    return script(name, f"loader\n{text}", line, hint)


def whole(name: str, text: str, line: str, hint: str) -> Fault:
    """A script's whole text."""
    return Fault(name, "run", text, line, hint)


def report(name: str, text: str, number: int, hint: str) -> Fault:
    """A report behind the first script."""
    return Fault(name, "check", FIRST + text, f"refused report {number} syntax", hint)


def entry(name: str, text: str, hint: str) -> Fault:
    """A report with this first entry."""
    return report(name, f"{HEAD}entry {text}\nend report\n", 3, hint)


def process(name: str, lines: str, number: int, hint: str) -> Fault:
    """A report with these lines in its process; the first of them is line 6."""
    return report(name, f"{HEAD}{ENTRIES}process 0 m:main()\n{lines}\nend report\n", number, hint)


def events(name: str, text: str, line: str, hint: str, head: str = "members 2\nwatchers 1\n") -> Fault:
    """An event list with these lines behind its first three, the first of them line 4."""
    return Fault(name, "progress", f"beam progress 1\n{head}{text}", line, hint)


BYTES = [
    whole("crlf_everywhere", FIRST.replace("\n", "\r\n"), "refused 1 syntax", "carriage return"),
    code("crlf_one_line", "print 1\r", "carriage return"),
    code("tab_indent", "\tprint 1", "a tab"),
    code("tab_at_end", "print 1\t", "a tab stands at an end"),
    code("tab_between", "move 1\t$0", "a tab"),
    whole("byte_order_mark", "\xef\xbb\xbf" + FIRST, "refused 1 syntax", "byte order mark"),
    whole("utf_16", "\xff\xfeb\0e\0a\0m\0", "refused 1 syntax", "UTF-16"),
    code("no_break_space", "print\xc2\xa01", "no-break space"),
    code("accented_atom", "print caf\xc3\xa9", "no plain ASCII: <C3><A9>"),
    code("trailing_space", "print 1 ", "trailing space"),
    code("leading_space", "  print 1", "leading space"),
    code("double_space", "move 1  $0", "double space"),
    code("blank_line", "", "blank"),
    code("line_of_spaces", "   ", "the line is blank"),
    code("comment_percent", "% adds", "no comments"),
    code("comment_hash", "# adds", "no comments"),
    code("comment_behind", "print 1 % the one", "comment stands behind the line"),
    code("comment_slashes", "// adds", "no comments"),
    code("full_stop", "print 1.", "stands at the end"),
    command("comma_at_end", "load m.1,", "stands at the end"),
]
TERMS = [
    command("quoted_atom", "put k 'a b'", "is quoted"),
    command("quoted_short", "put k 'Foo'", "is quoted"),
    command("capital_atom", "put k Foo", "capital letter"),
    command("capital_key", "put K 1", "capital letter"),
    command("string", 'put k "abc"', "is a string"),
    command("space_in_term", "put k {1, 2}", "a space stands inside"),
    command("space_in_call", "spawn m:main(1, 2)", "a space stands inside"),
    command("register_in_tuple", "put k {1,$0}", "holds no registers"),
    code("register_in_list", "move [$1] $0", "holds no registers"),
    command("register_as_term", "put k $0", "registers stand only in instructions"),
    command("open_bracket", "put k {1", "is not closed"),
    command("wrong_bracket", "put k {1]", "closes none that is open"),
    command("comma_before_bracket", "put k {1,}", "a comma stands before `}`"),
    command("two_commas", "put k {1,,2}", "a comma stands where a term must"),
    command("behind_term", "put k {1},2", "behind the term stands"),
    command("comma_missing", "put k {1{2}}", "a comma is missing"),
    command("leading_zero", "put k 01", "leading zero"),
    command("minus_zero", "put k -0", "is written `0`"),
    command("plus_sign", "put k +1", "plus sign"),
    command("float", "put k 1.5", "floats"),
    command("binary", "put k <<1>>", "binaries"),
    command("map", "put k #{a=>1}", "is a map"),
    command("improper_list", "put k [1|2]", "`|`"),
    command("underscore_atom", "put k _a", "begins with `_`"),
    command("dashed_atom", "put k a-b", "no atom has"),
    command("long_atom", "put k " + "a" * 33, "has 33 bytes"),
    command("integer_key", "put 1 k", "is a number, and an atom must stand here"),
    command("tuple_key", "erase {k}", "is a tuple, and an atom must stand here"),
]
CODE = [
    code("high_register", "move 1 $16", "is out of range: a register's number is 0 to 15"),
    code("register_leading_zero", "move 1 $01", "leading zero"),
    code("no_register", "move 1 2", "is no register"),
    code("call_past_registers", "call f/3 $14", "$14 to $16, past register $15"),
    code("word_missing", "add 1 2", "must stand 3 words, and 2 stand there"),
    code("word_too_many", "print 1 2", "must stand one word, and 2 stand there"),
    code("yield_with_word", "yield 1", "must be exactly `yield`"),
    code("unknown_instruction", "mov 1 $0", "near it is `move`"),
    code("capital_instruction", "Print 1", "near it is `print`"),
    code("call_with_module", "call m:f/1 $0", "which no atom has"),
    code("call_ext_alone", "call_ext f/1 $0", "has no `:`"),
    code("arity_missing", "call f $0", "has no arity"),
    code("arity_too_great", "call f/16 $0", "an arity is 0 to 15"),
    code("label_is_number", "label 1", "is a number, and an atom must stand here"),
    code("label_with_colon", "again:", "`again:` is the first word of no instruction"),
    script("header_without_arity", "module m.1\nexport main\nend", "refused 3 syntax", "has no arity"),
    script("header_with_call", "module m.1\nexport main()\nend", "refused 3 syntax", "which no atom has"),
    script("version_missing", "module m\nend", "refused 2 syntax", "has no version"),
    script("version_zero", "module m.0\nend", "refused 2 syntax", "a version is 1 to 999999"),
    script("version_too_great", "module m.1000000\nend", "refused 2 syntax", "a version is 1 to 999999"),
    script("version_leading_zero", "module m.01\nend", "refused 2 syntax", "leading zero"),
    script("erlang_module", "-module(m).", "refused 2 syntax", "near it is `module`"),
    script("no_header", "module m.1\nprint 1\nend", "refused 3 syntax", "a function's header"),
]
COMMANDS = [
    command("unknown_command", "reload m", "is the first word of no command"),
    command("mistyped_command", "spwan m:main()", "near it is `spawn`"),
    command("load_nothing", "load", "must stand one or more words"),
    command("load_without_version", "load m", "has no version"),
    command("delete_two", "delete m n", "must stand one word, and 2 stand there"),
    command("spawn_arity", "spawn m:main/0", "no arguments in round brackets"),
    command("spawn_without_module", "spawn main()", "has no `:`"),
    command("spawn_open", "spawn m:main(1", "has no `)`"),
    command("spawn_sixteen", "spawn m:f(1,2,3,4,5,6,7,8,9,10,11,12,13,14,15,16)", "has 16 arguments"),
    command("trace_switch", "trace m:f/1 ON", "`on` or `off`"),
    command("trace_without_switch", "trace m:f/1", "must stand 2 words"),
    command("put_without_term", "put k", "must stand 2 words, and 1 stands there"),
    command("doom_in_script", "doom m", "is the first word of no command"),
]
PARTS = [
    whole("no_bytes", "", "refused 1 syntax", "no bytes"),
    whole("no_head", FIRST[14:], "refused 1 syntax", "exactly `beam script 1`"),
    whole("other_head", "beam script 2\ngo\n", "refused 1 syntax", "exactly `beam script 1`"),
    whole("report_to_run", "beam report 1\ngenerations 0\nend report\n", "refused 1 syntax", "this is a report"),
    whole("events_to_run", "beam progress 1\nmembers 1\nwatchers 0\ngo\n", "refused 1 syntax", "this is an event list"),
    whole("go_missing", FIRST[:-3], "refused 9 syntax", "missing is the last line `go`"),
    whole("end_missing_at_last", "beam script 1\nmodule m.1\nexport f/0\n", "refused 3 syntax", "line `end` of the module"),
    whole("last_line_feed", FIRST[:-1], "refused 10 syntax", "line feed at the end of the last line is missing"),
    script("end_missing_before_loader", "module m.1\nexport f/0\nloader", "refused 4 syntax", "lacks its line `end`"),
    script("end_missing_before_module", "module m.1\nmodule m.2\nend", "refused 3 syntax", "lacks its line `end`"),
    script("loader_missing", "module m.1\nend\nload m.1", "refused 4 syntax", "the line `loader` is missing"),
    script("module_behind_loader", "loader\nmodule m.1\nend", "refused 3 syntax", "wrong order"),
    script("observer_behind_loader", "loader\nobserver 1", "refused 3 syntax", "wrong order"),
    script("module_behind_observer", "observer 1\nmodule m.1\nend", "refused 3 syntax", "wrong order"),
    script("end_of_loader", "loader\nerase k\nend", "refused 4 syntax", "a loader block has no `end`"),
    script("observer_zero", "observer 0", "refused 2 syntax", "a number of snapshots is 1 to 16"),
    whole("behind_go", FIRST + "\n", "refused 11 syntax", "nothing may"),
    Fault("report_without_go", "check", FIRST[:-3] + HEAD, "refused 10 syntax", "lacks its last line `go`"),
]
LIMITS = [
    command("wide_integer", "put k {1,576460752303423488}", "out of range is 576460752303423488:",
            "refused 3 limit integer"),
    command("low_integer", "put k -576460752303423489", "out of range", "refused 3 limit integer"),
    command("long_term", f"put k {LIST_63}", "has 65 words", "refused 3 limit term"),
    script("functions", f"module m.1\n{SEVENTEEN}end", "refused 19 limit functions", "seventeenth function"),
    script("module_words", "module m.1\nexport f/0\n" + "ret 1\n" * 507 + "yield\nend", "refused 512 limit module",
           "has 1025 words"),
    script("exports", f"{MANY_CALLS}loader\nspawn n:f()", "refused 1219 limit exports", "over 1,024"),
    script("names", f"{MANY_NAMES}loader\nput z 1", "refused 8189 limit names", "over 4,096"),
    script("processes", "loader\n" + "spawn m:f()\n" * 64 + "spawn m:f()", "refused 67 limit processes", "at most 64"),
    script("loaders", "loader\n" * 8 + "loader", "refused 10 limit loaders", "at most 8"),
    script("observers", "observer 1\n" * 4 + "observer 1", "refused 6 limit observers", "at most 4"),
    command("line_too_long", "load" + " m.1" * 1023 + "1", "has 4097 bytes", "refused 3 line_too_long"),
    whole("file_too_long", "0123456789abcde\n" * 65537, "refused 0 file_too_long", "at most 1048576 bytes"),
    command("text_not_given", "load m.9", "no module text has the name `m.9`; there are: none", "refused 3 unknown_name"),
    code("label_lacking", "label a\njump b", "no label of this function has the name `b`; there are: a",
         "refused 5 unknown_name"),
    code("function_lacking", "call g/0 $0", "no function of this module has the name `g/0`; there are: main/0",
         "refused 4 unknown_name"),
    script("module_again", "module m.1\nend\nmodule m.1\nend", "refused 4 duplicate", "first on line 2"),
    code("function_again", "local main/0", "first on line 3", "refused 4 duplicate"),
    code("label_again", "label a\nlabel a", "first on line 4", "refused 5 duplicate"),
]
REPORTS = [
    report("report_empty", "", 1, "no bytes"),
    report("report_head", "beam report 2\n", 1, "exactly `beam report 1`"),
    report("report_blank", "\nbeam report 1\n", 1, "blank"),
    report("report_carriage_return", "beam report 1\r\ngenerations 0\r\nend report\r\n", 1, "carriage return"),
    report("report_without_count", f"beam report 1\n{ENTRIES}end report\n", 2, "must be `generations N`"),
    report("report_count_zero", "beam report 1\ngenerations 01\nend report\n", 2, "leading zero"),
    report("report_stops", HEAD + ENTRIES, 4, "missing is the last line `end report`"),
    report("report_stops_in_process", HEAD + ENTRIES + "process 0 m:main()\nspan 1 1\n", 6,
           "line `end END` of the process"),
    report("report_last_line_feed", HEAD + ENTRIES + "end report", 5, "line feed at the end"),
    report("report_goes_on", HEAD + ENTRIES + PROCESS + "end report\n\n", 10, "nothing may"),
    report("report_too_few", HEAD + "end report\n", 3, "and only 0 stand above"),
    report("report_too_many", f"{HEAD}{ENTRIES}entry L0 load m.1 = ok @2\n", 5, "one more"),
    entry("entry_nobody", "l0 load m.1 = ok @1", "is nobody"),
    entry("entry_loader_zero", "L00 load m.1 = ok @1", "leading zero"),
    entry("entry_command", "L0 reload m = ok @1", "is no command: the commands of entries are"),
    entry("entry_without_equals", "L0 load m.1 ok @1", "must stand ` = `"),
    entry("entry_reply", "L0 load m.1 = yes @1", "is no reply"),
    entry("entry_limit", "L0 load m.1 = system_limit atoms -", "is no reply"),
    entry("entry_linger", "L0 soft_purge m = false 4294967296 0 -", "4294967295"),
    entry("entry_published", "L0 load m.1 = ok", "behind the reply is missing what was published"),
    entry("entry_published_word", "L0 load m.1 = ok 1", "does not tell what was published"),
    entry("entry_strange_atom", "L0 delete o = true -", "the script does not have"),
    entry("entry_double_space", "L0 load m.1 =  ok @1", "double space"),
    process("print_without_span", "print 3", 6, "the line `span G T` is missing"),
    process("span_without_turns", "span 1 0", 6, "at least one turn"),
    process("spans_alike", "span 1 1\nspan 1 2", 7, "neighbouring spans differ"),
    process("span_words", "span 1", 6, "must stand 2 words"),
    process("print_strange_atom", "span 1 1\nprint {o}", 7, "the script does not have"),
    process("print_wide", "span 1 1\nprint 576460752303423488", 7, "out of range"),
    process("end_unknown", "span 1 1\nend crashed", 7, "is no end of a process"),
    process("end_killed_alone", "span 1 1\nend killed", 7, "end killed SERIAL"),
    process("end_behind_end", "span 1 1\nend normal\nend reports", 8, "no process is open here"),
    process("end_missing", "span 1 1", 7, "lacks its line `end END`"),
    process("process_number", "end normal\nprocess 2 m:main()", 7, "has the number 1"),
    process("entry_behind", "end normal\nentry L0 load m.1 = ok -", 7, "wrong order"),
    process("observer_number", "end normal\nobserver 1", 7, "has the number 0"),
    process("export_without_snapshot", "end normal\nobserver 0\nexport m:main/0 1", 8, "the line `snapshot G` is missing"),
    process("export_words", "end normal\nobserver 0\nsnapshot 1\nexport m:main/0", 9, "must stand 2 words"),
]
EVENTS = [
    Fault("list_head", "progress", "beam progres 1\nmembers 1\nwatchers 0\ngo\n", "refused 1 syntax",
          "exactly `beam progress 1`"),
    Fault("script_to_progress", "progress", FIRST, "refused 1 syntax", "this is a script"),
    events("members_many", "go\n", "refused 2 syntax", "a number of members is 1 to 16", "members 17\nwatchers 0\n"),
    events("watchers_first", "go\n", "refused 2 syntax", "must be `members M`", "watchers 0\nmembers 1\n"),
    events("watchers_many", "go\n", "refused 3 syntax", "a number of watchers is 0 to 4", "members 1\nwatchers 5\n"),
    events("member_range", "lead 2\ngo\n", "refused 4 syntax", "a member's number is 0 to 1"),
    events("watcher_range", "watch_load 1\ngo\n", "refused 4 syntax", "a watcher's number is 0 to 0"),
    events("watcher_none", "watch_load 0\ngo\n", "refused 4 syntax", "`watchers 0`", "members 1\nwatchers 0\n"),
    events("delay_range", "watch_add 0 2\ngo\n", "refused 4 syntax", "a delay count is 0 to 1"),
    events("release_range", "release 18446744073709551616\ngo\n", "refused 4 syntax", "out of range"),
    events("event_unknown", "publsh\ngo\n", "refused 4 syntax", "near it is `publish`"),
    events("event_words", "scan 0\ngo\n", "refused 4 syntax", "must stand 2 words"),
    events("event_space", "publish \ngo\n", "refused 4 syntax", "trailing space"),
    events("list_go_missing", "publish\n", "refused 4 syntax", "missing is the last line `go`"),
    events("list_line_feed", "publish\ngo", "refused 5 syntax", "line feed at the end"),
    events("list_behind_go", "go\npublish\n", "refused 5 syntax", "nothing may"),
    events("lead_twice", "lead 0\npublish\nlead 1\ngo\n", "not enabled 3", "event 3 stands on line 6"),
    events("release_early", "publish\nretire\nrelease 1\ngo\n", "not enabled 3", "`release g` is, where generation g was"),
]
FAULTS = BYTES + TERMS + CODE + COMMANDS + PARTS + LIMITS + REPORTS + EVENTS


def write_cases(folder: pathlib.Path) -> None:
    """Writes each input with the words and the answer of the program beside it."""
    folder.mkdir(parents=True, exist_ok=True)
    for fault in FAULTS:
        (folder / fault.name).write_bytes(fault.text.encode("latin-1"))
        (folder / f"{fault.name}.args").write_text(fault.words + "\n", encoding="ascii")
        (folder / f"{fault.name}.stdout").write_text(fault.line + "\n", encoding="ascii")


if __name__ == "__main__":
    write_cases(pathlib.Path(sys.argv[1]))
