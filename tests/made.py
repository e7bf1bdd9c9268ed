"""The canonical text of a made script, worked out from the rule of docs/FORMATS.md and not from the program."""

MODULUS = 2**31
MAIN = """export main/0
label l0
call_ext m{j}:ver/0 $1
print $1
pget_or k{j} 0 $2
yield
add $0 1 $0
less $0 8 l0
export ver/0
ret {v}
end
"""


def module(j, v):
    return f"module m{j}.{v}\n" + MAIN.format(j=j, v=v)


def command(j, i, number):
    """The command at place I of loader J, where the generator has this number: the first case that holds."""
    version = 1 + i % 8
    if i == 0:
        return f"load m{j}.1"
    if i < 256 and i % 8 == 7:
        return f"spawn m{j}:main()"
    return (
        f"load m{j}.{version}",
        f"soft_purge m{j}",
        f"check_old m{j}",
        f"put k{j} {{{i},{version}}}",
        f"erase k{j}",
        f"trace m{j}:ver/0 on",
        f"trace m{j}:ver/0 off",
    )[number // 65_536 % 7]


def loader(seed, j, count):
    number = (seed + j) % MODULUS
    lines = ["loader"]
    for i in range(count):
        number = (number * 1_103_515_245 + 12_345) % MODULUS
        lines.append(command(j, i, number))
    return "".join(f"{line}\n" for line in lines)


def made(seed, size):
    modules = "".join(module(j, v) for j in (0, 1) for v in range(1, 9))
    return f"beam script 1\n{modules}{loader(seed, 0, (size + 1) // 2)}{loader(seed, 1, size // 2)}go\n"
