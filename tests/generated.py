"""Cases whose texts are long, or differ in one line: each is worked out from a rule, and none from what the program wrote."""

from made import made

RUN = ["run", "--schedulers", "1"]
LINES_OF_16_BYTES = "0123456789abcde\n" * 65_536
EMPTY = "beam report 1\ngenerations 0\nend report\n"


def script(lines):
    return f"beam script 1\n{lines}go\n"


def report(generations, lines):
    return f"beam report 1\ngenerations {generations}\n{lines}end report\n"


def joined(pattern, numbers):
    """The pattern once a number, which stands for `#`, and its successor for `%`."""
    return "".join(pattern.replace("#", str(n)).replace("%", str(n + 1)) for n in numbers)


def runs(name, lines, generations, told):
    return name, RUN, script(lines), report(generations, told), 0


def is_refused(name, text, fault):
    return name, RUN, text, f"refused {fault}\n", 3


def is_judged(name, text, log, yes):
    return name, ["check"], text + log, "lawful\n" if yes else "not lawful\n", 0 if yes else 1


def changed(text, old, new):
    assert text.count(old) == 1, old
    return text.replace(old, new)


def texts_over_the_limit():
    """A text has at most 1,048,576 bytes."""
    long = "a" * 1025 * 1024
    for words in (RUN, ["check"], ["progress"]):
        yield f"{words[0]}_of_a_text_over_the_limit", words, long, "refused 0 file_too_long\n", 3
    yield is_refused("text_at_the_limit", LINES_OF_16_BYTES, "1 syntax")
    yield is_refused("byte_past_the_limit", LINES_OF_16_BYTES + "\n", "0 file_too_long")


def lines_at_the_limit():
    """A line has at most 4,096 bytes, as this load of 1,023 modules."""
    load = "load" + " m.1" * 1023
    front = "module m.1\nend\nloader\n"
    yield runs("line_of_4096_bytes", f"{front}{load}\n", 0, f"entry L0 {load} = duplicated m -\n")
    for name, digit in (("line_of_4097_bytes", "0"), ("line_of_4097_bytes_with_a_given_digit", "1")):
        yield is_refused(name, script(f"{front}{load}{digit}\n"), "5 line_too_long")


def turns():
    """A turn has at most 200 instructions, and the return is one of them."""
    for prints, count in ((199, 1), (200, 2), (250, 2)):
        lines = "print 1\n" * prints
        yield runs(
            f"{prints}_lines_in_{count}_turns",
            f"module m.1\nexport main/0\n{lines}end\nloader\nload m.1\nspawn m:main()\n",
            1,
            "entry L0 load m.1 = ok @1\nentry L0 spawn m:main() = ok -\nprocess 0 m:main()\n"
            f"span 1 {count}\n{lines}end normal\n",
        )


def frames():
    """The frame past the last one is refused before its call is told: 64 frames, 64 lines."""
    yield runs(
        "refused_frame_has_no_line",
        "module m.1\nexport f/1\ncall f/1 $0\nend\nloader\nload m.1\ntrace m:f/1 on\nspawn m:f(7)\n",
        2,
        "entry L0 load m.1 = ok @1\nentry L0 trace m:f/1 on = true @2\nentry L0 spawn m:f(7) = ok -\n"
        "process 0 m:f(7)\nspan 2 1\n" + "trace m:f(7)\n" * 64 + "end system_limit\n",
    )


def chains():
    """Each module calls the next one: a frame in each holds an area, and 16 are held."""
    for last, end in ((15, "normal"), (16, "system_limit")):
        refs = joined(" c#.1", range(last + 1))
        yield runs(
            f"chain_of_{last + 1}_modules",
            joined("module c#.1\nexport f/0\ncall_ext c%:f/0 $0\nend\n", range(last))
            + f"module c{last}.1\nexport f/0\nend\nloader\nload{refs}\nspawn c0:f()\n",
            1,
            f"entry L0 load{refs} = ok @1\nentry L0 spawn c0:f() = ok -\n"
            f"process 0 c0:f()\nspan 1 1\nend {end}\n",
        )


def instances():
    """55 instances are live at most; one that is deleted still is, and one that is purged is not."""
    lines = joined("module i#.1\nend\n", range(56)) + "loader\n" + joined("load i#.1\n", range(55)) + "load i55.1\n"
    told = joined("entry L0 load i#.1 = ok @%\n", range(55)) + "entry L0 load i55.1 = system_limit instances -\n"
    yield runs("fifty_six_instances", lines, 55, told)
    yield runs(
        "purged_instance_makes_room",
        lines + "delete i0\nsoft_purge i0\nload i55.1\n",
        58,
        told + "entry L0 delete i0 = true @56\nentry L0 soft_purge i0 = true @57\n"
        "entry rt release 1 = ok -\nentry L0 load i55.1 = ok @58\n",
    )
    yield runs(
        "instance_behind_a_purged_one_has_the_next_serial",
        lines + "delete i0\nsoft_purge i0\nload i55.1\ndelete i55\nsoft_purge i55\n",
        60,
        told + "entry L0 delete i0 = true @56\nentry L0 soft_purge i0 = true @57\n"
        "entry rt release 1 = ok -\nentry L0 load i55.1 = ok @58\n"
        "entry L0 delete i55 = true @59\nentry L0 soft_purge i55 = true @60\nentry rt release 56 = ok -\n",
    )


def areas_of_a_process():
    """The frame's instance and 15 terms are 16 areas; a constant of the frame's instance is none more."""
    ways = (
        ("by_pget", "pget k15 $15", "end system_limit\n"),
        ("by_pget_or", "pget_or k15 0 $15", "end system_limit\n"),
        ("by_call_ext", "call_ext n:f/0 $15", "end system_limit\n"),
        ("fits", "move {m} $15\nprint $15", "print {m}\nend normal\n"),
    )
    lines, told, processes = "module m.1\n", joined("entry L0 put k# {#} = ok @%\n", range(16)), ""
    for number, (way, last, body) in enumerate(ways):
        lines += f"export {way}/0\n" + joined("pget k# $#\n", range(15)) + f"{last}\n"
        processes += f"process {number} m:{way}()\nspan 17 1\n{body}"
    lines += "end\nmodule n.1\nexport f/0\nend\nloader\n" + joined("put k# {#}\n", range(16)) + "load m.1 n.1\n"
    told += "entry L0 load m.1 n.1 = ok @17\n"
    for way, _, _ in ways:
        lines += f"spawn m:{way}()\n"
        told += f"entry L0 spawn m:{way}() = ok -\n"
    yield runs("seventeenth_area_by_each_way", lines, 17, told + processes)


def keys_and_areas():
    """384 keys at most hold terms, and 256 areas at most hold those that are tuples and lists."""
    yield runs(
        "keys_at_their_limit",
        "loader\n" + joined("put k# 1\n", range(384)) + "put z 1\nput k7 2\nerase k0\nput z 1\n",
        387,
        joined("entry L0 put k# 1 = ok @%\n", range(384)) + "entry L0 put z 1 = system_limit keys -\n"
        "entry L0 put k7 2 = ok @385\nentry L0 erase k0 = true @386\nentry L0 put z 1 = ok @387\n",
    )
    yield runs(
        "areas_at_their_limit",
        "loader\n" + joined("put k# {0}\n", range(256))
        + "put z {0}\nput z 1\nput k0 {0}\nput k0 {1}\nput k0 1\nput z {0}\n",
        259,
        joined("entry L0 put k# {0} = ok @%\n", range(256)) + "entry L0 put z {0} = system_limit areas -\n"
        "entry L0 put z 1 = ok @257\nentry L0 put k0 {0} = ok -\nentry L0 put k0 {1} = system_limit areas -\n"
        "entry L0 put k0 1 = ok @258\nentry rt release 1 = ok -\nentry L0 put z {0} = ok @259\n",
    )
    yield runs(
        "areas_and_then_keys_at_their_limit",
        "loader\n" + joined("put k# {}\n", range(256)) + "put k0 []\nput k256 {}\nput k0 {}\n"
        + joined("put k# 7\n", range(256, 384)) + "put k384 7\nput k384 {}\nerase k0\nput k384 []\n",
        386,
        joined("entry L0 put k# {} = ok @%\n", range(256)) + "entry L0 put k0 [] = system_limit areas -\n"
        "entry L0 put k256 {} = system_limit areas -\nentry L0 put k0 {} = ok -\n"
        + joined("entry L0 put k# 7 = ok @%\n", range(256, 384)) + "entry L0 put k384 7 = system_limit keys -\n"
        "entry L0 put k384 {} = system_limit keys -\nentry L0 erase k0 = true @385\n"
        "entry rt release 1 = ok -\nentry L0 put k384 [] = ok @386\n",
    )


def values_of_keys():
    """Each of 384 keys holds its own value, and another one none."""
    body = "pget k0 $0\nprint $0\npget k5 $0\nprint $0\npget k383 $0\nprint $0\npget_or z none $0\nprint $0\npget z $0\n"
    yield runs(
        "of_as_many_keys_as_the_limit",
        f"module m.1\nexport main/0\n{body}end\nloader\n" + joined("put k# #\n", range(384)) + "load m.1\nspawn m:main()\n",
        385,
        joined("entry L0 put k# # = ok @%\n", range(384)) + "entry L0 load m.1 = ok @385\nentry L0 spawn m:main() = ok -\n"
        "process 0 m:main()\nspan 385 1\nprint 0\nprint 5\nprint 383\nprint none\nend badarg\n",
    )


def loaders_and_processes():
    """A script has at most 8 loaders and 64 processes."""
    yield runs("eight_loaders", "loader\n" * 8, 0, "")
    yield is_refused("nine_loaders", script("loader\n" * 9), "10 limit loaders")
    spawns = "loader\n" + "spawn m:f()\n" * 64
    ended = joined("process # m:f()\nspan 0 1\nend undef m:f/0\n", range(64))
    yield runs("sixty_four_processes", spawns, 0, "entry L0 spawn m:f() = ok -\n" * 64 + ended)
    yield is_refused("sixty_five_processes", script(f"{spawns}spawn m:f()\n"), "67 limit processes")


def names():
    """A table has at most 4,096 atoms; a wide integer is told before a long term, and that before a name too many."""
    front = joined("module n#.1\nend\n", range(3, 4095)) + "loader\n"
    yield runs("atom_4096", f"{front}put n3 {{a,[n4,a]}}\n", 1, "entry L0 put n3 {a,[n4,a]} = ok @1\n")
    long = "[b" + ",1" * 64 + "]"
    for name, lines, fault in (
        ("atom_4097_in_a_term", "put n3 {a,[n4,b]}", "8187 limit names"),
        ("atom_4097_in_a_long_term", f"put n3 {long}", "8187 limit term"),
        ("atom_4097_beside_a_wide_integer", f"spawn a:b({long},-576460752303423489)", "8187 limit integer"),
        ("atom_4097_in_a_later_line", "erase a\nerase b", "8188 limit names"),
    ):
        yield is_refused(name, script(f"{front}{lines}\n"), fault)
    modules = joined("module n#.1\nend\n", range(3, 4094))
    text = script(f"{modules}module m.1\nexport f/0\nret {{f,[x]}}\nend\n")
    yield is_refused("atom_4097_in_a_module", text, "8186 limit names")


def functions():
    """At most 1,024 functions are named, and a module has at most 16."""
    calls = ""
    for number in range(64):
        calls += f"module m{number}.1\nlocal f/0\n" + joined(f"call_ext n:f{number}/# $0\n", range(16)) + "end\n"
    headers = "module m.1\n" + joined("local f/#\n", range(16))
    yield runs(
        "spawn_of_a_named_function",
        f"{calls}loader\nspawn n:f0()\ntrace n:g/1 on\n",
        0,
        "entry L0 spawn n:f0() = ok -\nentry L0 trace n:g/1 on = false -\n"
        "process 0 n:f0()\nspan 0 1\nend undef n:f0/0\n",
    )
    yield is_refused("function_1025", script(f"{calls}loader\nspawn n:f()\n"), "1219 limit exports")
    yield runs("sixteen_functions_behind_all_names", f"{calls}{headers}end\n", 0, "")
    more = f"{headers}local g/0\nend\n"
    yield is_refused("seventeen_functions_behind_all_names", script(calls + more), "1235 limit functions")
    yield is_refused("seventeen_functions", script(f"{headers}local f/0\nend\n"), "19 limit functions")


def images():
    """An image has at most 1,024 words: 10 of head and function, 2 a return, and 2 more where it gives a tuple of one."""
    front = "module m.1\nexport f/0\n"
    for name, lines, line in (("returns", "ret 1\n" * 507, 512), ("tuples", "ret {1}\n" * 253 + "ret 1\n", 259)):
        yield runs(f"image_of_{name}", f"{front}{lines}end\n", 0, "")
        text = script(f"{front}{lines}yield\nend\n")
        yield is_refused(f"image_of_{name}_and_a_yield", text, f"{line} limit module")


def changes_of_a_lawful_report():
    """Two loaders, each of which spawns a process, and an observer. The key's area has serial 1, the module 2."""
    text = script(
        "module m.1\nexport main/1\nend\nmodule m.2\nend\nobserver 2\n"
        "loader\nput k {1}\nspawn m:main(1)\nloader\nload m.1\npurge m\nspawn m:main([1])\n"
    )
    first, second = "process 0 m:main(1)\nspan 2 1\n", "process 1 m:main([1])\nspan 2 1\nend normal\n"
    shot = "snapshot 2\nexport m:main/1 2\n"
    own_purge, own_spawn = "entry L1 purge m = false -\n", "entry L0 spawn m:main(1) = ok -\n"
    told = report(
        2,
        "entry L0 put k {1} = ok @1\nentry L1 load m.1 = ok @2\n"
        + own_spawn + own_purge + "entry L1 spawn m:main([1]) = ok -\n"
        + f"{first}end normal\n{second}observer 0\nsnapshot 0\n{shot}",
    )
    yield is_judged("none", text, told, True)
    yield is_judged("generation_seen_twice", text, changed(told, "snapshot 0\n", shot), True)
    for name, old, new in (
        ("spawn_with_another_argument", own_spawn, "entry L0 spawn m:main(2) = ok -\n"),
        ("argument_of_the_other_spawn", own_spawn, "entry L0 spawn m:main([1]) = ok -\n"),
        ("another_command", own_spawn, "entry L0 check_old m = false -\n"),
        ("another_version", "load m.1", "load m.2"),
        ("another_loader", "entry L1 load", "entry L0 load"),
        ("no_such_loader", "entry L1 load", "entry L7 load"),
        ("doom_in_place_of_a_load", "load m.1 = ok", "doom m = ok"),
        ("command_twice", own_purge, own_purge + own_purge),
        ("command_is_missing", "entry L1 spawn m:main([1]) = ok -\n", ""),
        ("release_of_what_is_held", own_purge, own_purge + "entry rt release 1 = ok -\n"),
        ("process_without_a_turn", first, "process 0 m:main(1)\n"),
        ("process_too_many", second, second + "process 2 m:main(1)\nspan 2 1\nend normal\n"),
        ("process_with_another_argument", "process 1 m:main([1])", "process 1 m:main([2])"),
        ("turns_of_falling_generations", first, first + "span 1 1\n"),
        ("first_turn_before_its_spawn", first, "process 0 m:main(1)\nspan 1 1\n"),
        ("first_turn_before_all_entries", first, "process 0 m:main(1)\nspan 0 1\n"),
        ("first_turn_of_the_other_before_its_spawn", "process 1 m:main([1])\nspan 2 1", "process 1 m:main([1])\nspan 1 1"),
        ("third_snapshot_of_two", shot, shot + shot),
    ):
        yield is_judged(name, text, changed(told, old, new), False)
    yield is_judged("no_command_was_made", text, EMPTY, False)


def every_reply_with_every_command():
    """Each reply may stand in form with each command; of a code server without code and keys one of them is lawful, published or not."""
    text = "module m.1\nexport main/0\nend\nloader\n#\n"
    lawful = {
        "load m.1": "ok @1", "delete m": "false -", "soft_purge m": "true -", "purge m": "false -", "check_old m": "false -", "put k 1": "ok @1",
        "erase k": "false -", "trace m:main/0 on": "false -", "trace m:main/0 off": "false -", "spawn m:main()": "ok -",
    }
    replies = (
        "ok", "true", "false", "false 0 1", "not_purged [m]", "duplicated m", "system_limit instances", "system_limit keys", "system_limit areas",
    )
    for command, right in lawful.items():
        process = "process 0 m:main()\nspan 0 1\nend undef m:main/0\n" if command.startswith("spawn") else ""
        for reply in replies:
            for published, generations in (("-", 0), ("@1", 1)):
                told = f"{reply} {published}"
                log = report(generations, f"entry L0 {command} = {told}\n{process}")
                name = f"{command} = {told}".translate(str.maketrans(" :/.=@-[]()", "_" * 11))
                yield is_judged(name, script(text.replace("#", command)), log, told == right)


def between_the_halves_of_a_purge():
    """A command of another loader: few may stand there. The purge publishes the next generation."""
    for name, command, reply, published, yes in (
        ("check_old", "check_old m", "true -", 3, True),
        ("put", "put k 7", "ok @4", 4, False),
        ("erase", "erase k", "false -", 3, False),
        ("trace", "trace m:main/0 on", "false -", 3, False),
    ):
        text = script(
            "module m.1\nexport main/0\nend\nmodule m.2\nend\n"
            f"loader\nload m.1\nload m.2\npurge m\nloader\n{command}\n"
        )
        told = report(
            published + 1,
            "entry L0 load m.1 = ok @1\nentry L0 load m.2 = ok @2\nentry L0 doom m = ok @3\n"
            f"entry L1 {command} = {reply}\nentry L0 purge m = false @{published + 1}\nentry rt release 1 = ok -\n",
        )
        yield is_judged(name, text, told, yes)
        release = "entry rt release 1 = ok -\n"
        if yes:
            yield is_judged("release_twice", text, changed(told, release, release + release), False)


def kills_of_two_purges():
    """The first purge kills two processes, the second one another: each tells the instance in whose code it stood."""
    endless = "export main/0\nlabel a\nyield\njump a\nend\n"
    text = script(
        f"module m.1\n{endless}module m.2\nend\nmodule n.1\n{endless}module n.2\nend\nloader\nload m.1 n.1\n"
        "spawn m:main()\nspawn n:main()\nspawn m:main()\nload m.2 n.2\npurge m\npurge n\n"
    )
    told = report(
        6,
        "entry L0 load m.1 n.1 = ok @1\nentry L0 spawn m:main() = ok -\nentry L0 spawn n:main() = ok -\n"
        "entry L0 spawn m:main() = ok -\nentry L0 load m.2 n.2 = ok @2\nentry L0 doom m = ok @3\n"
        "entry L0 purge m = true @4\nentry rt release 1 = ok -\nentry L0 doom n = ok @5\nentry L0 purge n = true @6\n"
        "entry rt release 2 = ok -\n"
        "process 0 m:main()\nspan 1 1\nspan 3 1\nend killed 1\n"
        "process 1 n:main()\nspan 1 1\nspan 5 1\nend killed 2\n"
        "process 2 m:main()\nspan 1 2\nspan 3 1\nend killed 1\n",
    )
    yield is_judged("each_by_its_own", text, told, True)
    for name, old, new in (
        ("second_by_the_first", "end killed 2", "end killed 1"),
        ("second_by_none", "end killed 2", "end killed 3"),
        ("first_tells_of_none", "purge m = true", "purge m = false"),
        ("second_tells_of_none", "purge n = true", "purge n = false"),
    ):
        yield is_judged(name, text, changed(told, old, new), False)


def counted_turns():
    """A process has at most 4,294,967,295 turns; one more ends it."""
    text = script("module n.1\nexport main/0\nlabel a\nyield\njump a\nend\nloader\nload n.1\nspawn n:main()\n")
    for turns, yes in ((4_294_967_295, False), (4_294_967_296, True), (4_294_967_297, False), (2**64 - 1, False)):
        told = report(
            1,
            "entry L0 load n.1 = ok @1\nentry L0 spawn n:main() = ok -\n"
            f"process 0 n:main()\nspan 1 {turns}\nend system_limit\n",
        )
        yield is_judged(f"{turns}_turns", text, told, yes)


def loads_beside_observers():
    """The text of a script whose one loader publishes about 160 generations, and of four observers with 16 snapshots each."""
    versions = "module m.1\nexport main/0\nret 1\nend\nmodule m.2\nexport main/0\nexport more/1\nend\n"
    observers = "observer 16\n" * 4
    puts = joined("put k #\n", range(80))
    loads = "load m.1\nsoft_purge m\nload m.2\nsoft_purge m\n" * 20
    return script(f"{versions}{observers}loader\n{puts}{loads}")


def made_beside_observers():
    """The text of the made script of seed 1 and size 2,000, with four observers of two snapshots each."""
    return made(1, 2_000).replace("loader\n", "observer 2\n" * 4 + "loader\n", 1)


def made_scripts():
    """A seed and a size make a script, whatever the input is."""
    for seed, size in ((1, 1), (1, 2), (1, 6), (0, 16), (7, 515), (4_294_967_295, 4_000)):
        yield f"seed_{seed}_size_{size}", ["make", "--seed", str(seed), "--size", str(size)], "", made(seed, size), 0


def trials():
    """Each process of a made script prints eight lines and ends as normal. Loader J spawns one at every eighth place below 256."""
    for seed, size, schedulers in ((1, 6, 2), (1, 16, 1), (1, 16, 2), (1, 16, 16), (9, 500, 4), (1, 2_000, 16), (3, 4_000, 1)):
        loaders = ((size + 1) // 2, size // 2)
        processes = sum(min(count, 256) // 8 for count in loaders)
        words = ["trial", "--seed", str(seed), "--size", str(size), "--schedulers", str(schedulers)]
        told = f"commands {size} processes {processes} prints {8 * processes} normal {processes}\n"
        yield f"seed_{seed}_size_{size}_schedulers_{schedulers}", words, "", told, 0


GROUPS = (
    texts_over_the_limit,
    lines_at_the_limit,
    turns,
    frames,
    chains,
    instances,
    areas_of_a_process,
    keys_and_areas,
    values_of_keys,
    loaders_and_processes,
    names,
    functions,
    images,
    changes_of_a_lawful_report,
    every_reply_with_every_command,
    between_the_halves_of_a_purge,
    kills_of_two_purges,
    counted_turns,
    made_scripts,
    trials,
)


def cases():
    """The name, words, input, output and status of each case."""
    for group in GROUPS:
        for name, words, text, output, status in group():
            yield f"{group.__name__}/{name}", words, text.encode(), output.encode(), status
